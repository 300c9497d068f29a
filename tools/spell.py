#!/usr/bin/env python3
"""Respells the repository's own antt names, after the kit's port.py: definitions, constructors and lemmas in snake case.

usage: python3 tools/spell.py             crates/**/*.antt, *.rt and must-fail/*.edit
       python3 tools/spell.py --docs      docs/*.md and README.md: names in code spans, by what crates/ declares now
       python3 tools/spell.py --check     writes nothing; lists what would change

Run it at the top of the repository. A second run changes nothing. It goes by whole words: by the tables below, and by the names with
a dash that specs/ and proofs/ declare. It stops where a 'use' line of another library imports such a name, and where two names
that one file declares or imports would fall together. Text in quotes is left. No fact is among the definitions: none in lower
camel case has a result in Type 0.
"""

import glob
import os
import re
import sys

# Old and new spelling of what specs/ and proofs/ declare, by the crate of the declaration. Where a Rust function has the new
# spelling (cell_check, is_leaf, run_check, ..: some fifty), both stand: the check reads a word of a clause as the 'ghost use' item,
# and a call in code as the function, in the function's own file and where 'use' imports it.
TABLE = """
    # words
    leAt:le_at leAt-join:le_at-join leAt-past:le_at-past leAt-putLe:le_at-put_le length-putLe:length-put_le
    putLe:put_le putLe-halves:put_le-halves putLe-join:put_le-join putLe-leAt:put_le-le_at putLe-mod:put_le-mod
    putLe-past:put_le-past
    # packing
    bytes-leAt:bytes-le_at leAt-bytes:le_at-bytes length-leBytes:length-le_bytes packedInto:packed_into
    putLe-behind:put_le-behind putLe-bytes:put_le-bytes unpackedInto:unpacked_into
    # key
    heightOf:height_of ruleOf:rule_of
    # meaning
    afterAll:after_all askOf:ask_of byEdge:by_edge byLabel:by_label byPair:by_pair byRule:by_rule cellCount:cell_count
    heightAt:height_at heldSum:held_sum isEdge:is_edge isLeaf:is_leaf leafWord:leaf_word lowestEdge:lowest_edge
    netOf:net_of pathOf:path_of rightCell:right_cell rightSides:right_sides ruleSteps:rule_steps
    startTable:start_table startWord:start_word tooHigh:too_high
    # meaning,deck
    edgesOf:edges_of rightWord:right_word
    # meaning,step
    isPair:is_pair
    # meaning,witness
    rightOf:right_of
    # numbers
    inLimits:in_limits largeCheck:large_check limitsCheck:limits_check
    # lists
    edgeCheck:edge_check listsCheck:lists_check rightEdge:right_edge rightRule:right_rule ruleCheck:rule_check
    wholeCheck:whole_check
    # deck
    deckCheck:deck_check edgeRecordCheck:edge_record_check edgeWord:edge_word entryCheck:entry_check
    fillCheck:fill_check filledCheck:filled_check foundOf:found_of frameCheck:frame_check headerCheck:header_check
    headerOf:header_of lastOfType:last_of_type limitCheck:limit_check listsRoom:lists_room numbersIn:numbers_in
    readCheck:read_check recordAt:record_at recordsCheck:records_check recordsIn:records_in rightEntry:right_entry
    rightFill:right_fill rightHeader:right_header rightKind:right_kind rightNodes:right_nodes rightOrder:right_order
    rightRecord:right_record rightRecords:right_records rightSize:right_size rightSum:right_sum
    rightTotals:right_totals rightType:right_type ruleRecordCheck:rule_record_check rulesOf:rules_of
    sectionsOf:sections_of sizeCheck:size_check totalsCheck:totals_check upToEdges:up_to_edges upperOf:upper_of
    usedOf:used_of zerosFrom:zeros_from
    # deck,nevelknop
    numbersOf:numbers_of
    # examples
    allEmpty:all_empty byFirstTree:by_first_tree byPassNumber:by_pass_number byStoring:by_storing cellIs:cell_is
    deckEdges:deck_edges depthIs:depth_is eachCell:each_cell firstTree:first_tree heightIs:height_is
    middleIs:middle_is passNumber:pass_number pathIs:path_is ruleIs:rule_is saneEdge:sane_edge saneRule:sane_rule
    # start
    edgesIn:edges_in leafIn:leaf_in ruleIn:rule_in rulesIn:rules_in startCheck:start_check
    # step
    argumentCheck:argument_check cellsCheck:cells_check cellsStep:cells_step heightCheck:height_check
    stepCheck:step_check usableCheck:usable_check
    # step,nevelknop
    callCheck:call_check
    # closure
    leftSide:left_side nodeSteps:node_steps pairSteps:pair_steps rightSide:right_side rowSteps:row_steps
    runCheck:run_check sweepOf:sweep_of
    # rows
    rowsCheck:rows_check
    # witness
    argumentsCheck:arguments_check cellCheck:cell_check checkAnswer:check_answer foundEdge:found_edge
    leafRight:leaf_right netAt:net_at pairRight:pair_right pathCheck:path_check sidesRight:sides_right
    tableCheck:table_check windowCheck:window_check witnessCheck:witness_check
    # text
    closingLine:closing_line decimalIn:decimal_in largeDeck:large_deck netIn:net_in openingLine:opening_line
    pairHead:pair_head pairLine:pair_line refusedLine:refused_line reportCheck:report_check
    # nevelknop
    bytesCheck:bytes_check cellWords:cell_words refusalNumber:refusal_number runNumber:run_number
"""

# Names that a .rt file gives a definition by 'as', since it is called like a function or a parameter there.
ALIASES = """
    betweenOf:between_of labelledText:labelled_text mustOf:must_of risingOf:rising_of usableOf:usable_of
"""

# What port.py left apart.
#   and_then: it turned the uses in all crates but words into and_then, and left the declaration ◌andThen◌ in words/specs/Refusals,
#     its 'infixr' line, every import of it and every 'unfolding' line. The operator ◌and_then◌ checks beside the function and_then, in clauses too,
#     and has the function's name as the style asks.
#   get_or: the library's getD is get_or now, also in the library's lemma names; the five lemmas of this repository about it had
#     been left, or turned to get_d (words/proofs/Tab, words/proofs/Bytes).
#   is_leaf: it took the label of a call of witness::is_leaf for a name of a library, and wrote is_IsLeaf.
MENDED = """
    andThen:and_then
    get_d_over:get_or-over getD-over:get_or-over getD-over-past:get_or-over-past getD-fill:get_or-fill getD-tab:get_or-tab
    getD-putLe-before:get_or-put_le-before
    is_IsLeaf:is_leaf
"""

# What port.py itself respelled in .antt and .rt, but not in must-fail/*.edit and docs/.
PORTED = """
    all-append:all_append all-known:all_known all-under:all_under and-assoc:and_assoc and-first:and_first
    and-second:and_second at-most:at_most at-one:at_one atSpot:at_spot bits-below:bits_below by-height:by_height
    cell-in:cell_in cell-parts:cell_parts cell-same:cell_same cells-in:cells_in cellsOf:cells_of
    closed-same:closed_same depth-small:depth_small each-member:each_member edge-in:edge_in edge-more:edge_more
    edge-test:edge_test edges-are:edges_are edges-few:edges_few edges-fit:edges_fit edges-more:edges_more
    entered-here:entered_here enteredIn:entered_in entryOf:entry_of every-true:every_true fill-is:fill_is
    filled-more:filled_more filled-next:filled_next filled-none:filled_none first-small:first_small firstOf:first_of
    found-at:found_at found-inside:found_inside found-none:found_none found-nothing:found_nothing
    found-some:found_some from-first:from_first high-le:high_le inRange:in_range keyOf:key_of leBytes:le_bytes
    left-in:left_in left-is:left_is leftOf:left_of length-over:length_over length-part:length_part
    lines-more:lines_more lines-none:lines_none low-run:low_run merge-none:merge_none middleOf:middle_of no-key:no_key
    numberOf:number_of one-label:one_label or-above:or_above or-left:or_left or-right:or_right over-none:over_none
    part-count:part_count partly-more:partly_more partly-none:partly_none partsOf:parts_of pass-of:pass_of
    passes-stay:passes_stay path-room:path_room pathText:path_text put-both:put_both put-rest:put_rest read-is:read_is
    read-next:read_next ready-at:ready_at rest-of:rest_of right-is:right_is room-next:room_next roomCheck:room_check
    row-back:row_back row-more:row_more row-one:row_one row-same:row_same row-small:row_small rowAt:row_at
    rows-behind:rows_behind rows-few:rows_few rows-made:rows_made rows-settled:rows_settled run-settled:run_settled
    same-answer:same_answer same-bit:same_bit same-first:same_first same-if:same_if same-place:same_place
    scan-good:scan_good set-more:set_more some-more:some_more spotOf:spot_of start-cell:start_cell
    step-falls:step_falls step-in:step_in step-keeps:step_keeps step-other:step_other stepOf:step_of stepsOf:steps_of
    sum-less:sum_less sum-more:sum_more sumAt:sum_at swept-none:swept_none taken-in:taken_in taken-step:taken_step
    taken-yes:taken_yes targetOf:target_of two-good:two_good typeOf:type_of upTo:up_to walk-before:walk_before
    walk-pair:walk_pair went-then:went_then whole-each:whole_each within-all:within_all within-low:within_low
    wordAt:word_at wordsOf:words_of work-none:work_none writing-more:writing_more written-both:written_both
    written-low:written_low written-none:written_none
"""
# A library's names that edits of specs/ cite.
LIBRARY = "getD:get_or"

# Names with a dash. The kit's style: a dash joins two names, as in length-drop; a plain word is added with _, as in add_comm. So of
# the names that specs/ and proofs/ declare, each dash becomes _ but between two of these, which name functions of lists and words.
FUNCTIONS = "after append bytes drop fill get_or le_at le_bytes length over packed put_le set sets spell sub suc tab take unpacked"
# A lemma that would get the name of a definition, here or in another crate, gets _lem, as the kit's style asks.
LEMMAS = """
    after-all all-empty bit-and bit-or edge-word edges-in height-at held-sum leaf-in right-cell right-edge right-records right-rule rule-in
    rules-in up-to zeros-from
"""
# Parameters of lemmas, and helpers in the proofs of functions.
HELPERS = "at-number in-rules is-from is-to is-ready is-started is-wanted length-in pair-cell pair-rule right-filled table-in"
# What the check itself makes stays: after a dot these are a call's and a changed variable's facts.
MADE = ["candidate-key", "found-is"]
# Pages that tell old names beside new ones.
PAGES = ["docs/PORT.md"]


def table(*texts):
    new = {}
    for t in texts:
        for line in t.split("\n"):
            for it in line.split("#")[0].split():
                a, b = it.split(":")
                assert new.setdefault(a, b) == b, a
    return new


OWN = table(TABLE, ALIASES, MENDED)
OLD = table(TABLE, ALIASES, MENDED, PORTED)
EDITS = table(TABLE, ALIASES, MENDED, PORTED, LIBRARY)

WORD = re.compile(r'"(?:[^"\\\n]|\\.)*"|[^\s(){}\[\];,.@"|«»:`]+')
DECLARED = re.compile(r"(?m)^ *(?:(?:abbrev|unfoldable|pub|data|record) )*([^\s(){}:]+)(?: \{.*\})? :(?=\s)")
USED = re.compile(r"\buse ([^\s{}]+)\.\{([^}]*)\}")


def dashed(name):
    """A name with a dash in its new spelling."""
    if name in LEMMAS.split():
        return name.replace("-", "_") + "_lem"
    functions = FUNCTIONS.split()
    new, *parts = name.split("-")
    last = new
    for part in parts:
        joins = last in functions and any(part == f or part.startswith(f + "_") for f in functions)
        new, last = new + ("-" if joins else "_") + part, part
    return new


def dashes(files):
    """The names with a dash that the files of specs/ and lemmas declare, each with its new spelling."""
    names = set(HELPERS.split())
    for path, text in files.items():
        if re.search(r"/(?:specs|proofs)/", path) and not re.search(r"/(?:Answers|Invariants|Proof)\.antt$", path):
            names.update(n for n in DECLARED.findall(text) if "-" in n)
    return {n: dashed(n) for n in names}


def words(text, names):
    """Each whole word of text in its new spelling; '◌x◌' and '_x_' are the operator x. Quoted text stays."""

    def one(m):
        w = m[0]
        if w[0] == '"' or w in MADE and text[m.start() - 1 : m.start()] == ".":
            return w
        if w[0] == w[-1] and w[0] in "◌_" and w[1:-1] in names:
            return "◌" + names[w[1:-1]] + "◌"
        end = w.rstrip("?!'’")
        return names.get(w) or (names[end] + w[len(end) :] if end in names and w[len(end) :] not in ("'", "''") else w)

    return WORD.sub(one, text)


def tight(text):
    """What port.py does to projections, primes and paths, for an edit's lines of antt."""
    text = text.replace("′", "'")
    text = re.sub(r"Rattle·(\w+)(?:·specs)?\.(?:specs\.)?specs\.", r"Rattle.\1.specs.", text)
    text = re.sub(r"(?<=[\w')]) \.(?=[a-z])", ".", text)
    return re.sub(r"\(([\w']+(?:\.[\w']+)+)\)", r"\1", text)


def edit(path, text):
    """An edit: names; and in specs/ and proofs/ the forms that port.py wrote in the files. Its old lines must stand once."""
    named = "\n".join(turn_line(l, EDITS) for l in text.split("\n"))
    formed = "\n".join(turn_line(tight(l) if l[:5] in ("old: ", "new: ") else l, EDITS) for l in text.split("\n"))
    for it in [formed, named] if re.search(r"(?m)^file: (specs|proofs)/", text) else [named]:
        if stands(path, it):
            return it
    print(f"left: {path}: its old text does not stand once in its file")
    return named


def turn_line(line, names):
    return line[:5] + words(line[5:], names) if line[:5] in ("old: ", "new: ") else line


FILES = {}


def now(path):
    return FILES[path] if path in FILES else read(path)


def stands(path, text):
    crate = os.path.dirname(os.path.dirname(path))
    files, name, old = {}, None, None
    for line in text.split("\n"):
        if line.startswith("file: "):
            name = os.path.join(crate, line[6:].strip())
            files.setdefault(name, now(name) if os.path.exists(name) else "")
        elif line.startswith("old: "):
            old = line[5:]
        elif line.startswith("new: "):
            if files[name].count(old) != 1:
                return False
            files[name] = files[name].replace(old, line[5:])
    return True


def proof_name(path, text):
    """The name by which the check finds a proof by hand is f_spec; port.py turned 22 of 209, and left f-spec in the others."""
    m = re.match(r"crates/\w+/proofs/(?:\w+/)*(\w+)/Proof\.antt$", path)
    return words(text, {m[1].replace("_", "-") + "-spec": m[1] + "_spec"}) if m else text


def page(text, there):
    """A page: code spans alone, and of the names with a dash those whose new spelling is declared and whose old one is not."""
    text = re.sub(r"`[^`\n]+`", lambda m: words(m[0], OLD), text)
    renamed = {w: dashed(w) for w in WORD.findall(text) if "-" in w and w not in there and dashed(w) in there}
    return re.sub(r"`[^`\n]+`", lambda m: words(m[0], renamed), text)


def read(path):
    with open(path, encoding="utf-8") as f:
        return f.read()


def stop(path, why):
    print(f"stop: {path}: {why}")
    raise SystemExit(2)


def known_names(path, text, names):
    """Stops where another library has one of the names, or where two that the file declares or imports fall together."""
    there = set(DECLARED.findall(text))
    for m in USED.finditer(text):
        imported = [w.strip("◌") for w in re.split(r"[\s,]+", m[2].split(" as ")[0]) if w]
        there.update(imported)
        if not re.match(r"Rattle\.(%s)\." % "|".join(CRATES), m[1]):
            for w in imported:
                if w in names:
                    stop(path, f"{m[1]} has a name {w} of its own")
    new = {}
    for n in sorted(there):
        other = new.setdefault(names.get(n, n), n)
        if other != n:
            stop(path, f"{other} and {n} would both be {names.get(n, n)}")


def main(argv):
    global CRATES
    if not os.path.isdir("crates") or set(argv) - {"--docs", "--check"}:
        print(__doc__)
        return 2
    CRATES = sorted(os.listdir("crates"))
    code = [p for e in ("antt", "rt") for p in sorted(glob.glob("crates/**/*." + e, recursive=True))]
    code = {p: read(p) for p in code if not re.match(r"crates/\w+/out/", p)}
    new = {}
    if "--docs" in argv:
        there = {n for text in code.values() for n in DECLARED.findall(text)}
        for p in [p for p in sorted(glob.glob("docs/*.md")) + ["README.md"] if p not in PAGES]:
            new[p] = page(read(p), there)
    else:
        plain = {p: proof_name(p, words(text, OWN)) for p, text in code.items()}
        renamed = dashes(plain)
        for p, text in code.items():
            known_names(p, text, OWN)
            known_names(p, plain[p], renamed)
            new[p] = FILES[p] = words(plain[p], renamed)
        for p in sorted(glob.glob("crates/*/must-fail/*.edit")):
            new[p] = edit(p, read(p))
    changed = [p for p in new if new[p] != read(p)]
    for p in changed:
        if "--check" in argv:
            print(p)
        else:
            with open(p, "w", encoding="utf-8") as f:
                f.write(new[p])
    print(f"spell: {len(changed)} files changed")
    return 0


if __name__ == "__main__":
    raise SystemExit(main(sys.argv[1:]))
