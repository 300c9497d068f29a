"""The independent reference: what every Nevelknop program and C call must answer.

Written from the rules (docs/RULES.md), and sharing nothing with the crates, so that a difference between
the two says that one of them reads the rules wrongly.
The run is not worked in place: least heights are found level by level on rows of bits, and each cell's
middle and rule are then selected as rules 4.5 and 4.6 say. `tests/test_closure.py` tests this file.
"""
import struct
from collections import namedtuple

EMPTY = 2**64 - 1  # an empty cell
HELD = 2**32 - 1  # a length is held here when it is this or more
LABEL = 65535  # the third word of a label rule
HIGHEST = 131072  # a usable key's greatest height
LIMITS = ((1, 64), (1, 32), (1, 255), (0, 256), (0, 256), (0, 4096))  # header words 0 to 5
ROOM = 1024  # the report's path room


class Refused(Exception):
    """A refusal: a number and a place."""

    def __init__(self, number, place):
        super().__init__(f'refused {number} at {place}')
        self.number, self.place = number, place


def must(right, number, place):
    if not right:
        raise Refused(number, place)


# A grammar and a graph: rules are (A, B, C) or (A, x, LABEL), edges are (from, label, to).
Net = namedtuple('Net', 'nodes nonterminals labels rules edges')
Header = namedtuple('Header', 'nodes nonterminals labels entries rules edges query')


# The deck

def read(deck):
    """The deck's header and its net, or a refusal 1 to 9 in the order of rule 3.5."""
    must(0 < len(deck) <= 29696 and len(deck) % 512 == 0, 1, 0)
    blocks = [deck[at:at + 512] for at in range(0, len(deck), 512)]
    types = [block[0] for block in blocks]
    for b, block in enumerate(blocks):
        must(sum(block[:508]) == int.from_bytes(block[508:], 'little'), 2, b)
        must(int.from_bytes(block[2:4], 'little') == b, 3, b)
        must(types[b] == 1 if b == 0 else types[b] in (2, 3, 4) and types[b - 1] <= types[b], 3, b)
    words = [struct.unpack('<252H', block[4:508]) for block in blocks]
    header = Header(*words[0][:7])
    for w, (least, most) in enumerate(LIMITS):
        must(least <= header[w] <= most, 4, w)
    must(header.query < header.nonterminals, 4, 6)

    records = {2: [], 3: [], 4: []}
    for b, block in enumerate(blocks):
        used = block[1]
        if b == 0:
            must(used == 3 and not any(words[0][7:]), 5, 0)
            continue
        last = b + 1 == len(blocks) or types[b + 1] != types[b]
        must(1 <= used <= 84 and (used == 84 or last) and not any(words[b][3 * used:]), 5, b)
        records[types[b]] += zip(*[iter(words[b][:3 * used])] * 3)
    must([len(records[t]) for t in (2, 3, 4)] == [header.entries, header.rules, header.edges], 5, 0)

    labels = {}
    before = -1
    for m, (kind, label, zero) in enumerate(records[2]):
        must(kind > before and 1 <= label <= header.labels and zero == 0, 6, m)
        labels[kind] = label
        before = kind
    rules_fit(header, records[3])
    edges = []
    for e, (i, kind, j) in enumerate(records[4]):
        must(i < header.nodes and j < header.nodes, 8, e)
        must(kind in labels, 9, e)
        edges.append((i, labels[kind], j))
    return header, Net(header.nodes, header.nonterminals, header.labels, records[3], edges)


def rules_fit(numbers, rules):
    for r, (a, b, c) in enumerate(rules):
        if c == LABEL:
            fits = 1 <= b <= numbers.labels
        else:
            fits = b < numbers.nonterminals and c < numbers.nonterminals
        must(a < numbers.nonterminals and fits, 7, r)


# The lists an engine call takes

def net_of(nodes, nonterminals, labels, rules, edges):
    """The net that two lists of 16-bit words hold, or a refusal 5, 4, 7 or 8."""
    must(len(rules) % 3 == 0, 5, 0)
    must(len(edges) % 3 == 0, 5, 1)
    rules, edges = (list(zip(*[iter(words)] * 3)) for words in (rules, edges))
    for w, number in ((0, nodes), (1, nonterminals), (2, labels), (4, len(rules)), (5, len(edges))):
        must(LIMITS[w][0] <= number <= LIMITS[w][1], 4, w)
    net = Net(nodes, nonterminals, labels, rules, edges)
    rules_fit(net, rules)
    for e, (i, x, j) in enumerate(edges):
        must(i < nodes and 1 <= x <= labels and j < nodes, 8, e)
    return net


def small_enough(net):
    """Refusal 13, of the report program and of the C calls."""
    must(net.nodes <= 16, 13, 0)
    must(net.nonterminals <= 8, 13, 1)
    must(len(net.edges) <= 1024, 13, 5)


# Cells and keys

def cells(net):
    return net.nonterminals * net.nodes * net.nodes


def cell(net, a, i, j):
    return (a * net.nodes + i) * net.nodes + j


def spot_of(net, c):
    """The (A, i, j) of a cell number."""
    return c // net.nodes // net.nodes, c // net.nodes % net.nodes, c % net.nodes


def make(height, middle, rule):
    return height * 2**32 + middle * 65536 + rule


def split(key):
    return key // 2**32, key // 65536 % 65536, key % 65536


def sides(net, c, key):
    """The left and right cell numbers of a cell whose key has a pair rule."""
    _, i, j = spot_of(net, c)
    _, middle, rule = split(key)
    _, b, right = net.rules[rule]
    return cell(net, b, i, middle), cell(net, right, middle, j)


def bits(row):
    """The numbers of the set bits, from the lowest."""
    while row:
        low = row & -row
        yield low.bit_length() - 1
        row ^= low


# The run

def start(net):
    """The table with its height 1 cells filled: for each the lowest rule that fits."""
    ends = {}
    for i, x, j in net.edges:
        ends.setdefault(x, set()).add((i, j))
    table = [EMPTY] * cells(net)
    for r, (a, x, third) in enumerate(net.rules):
        if third == LABEL:
            for i, j in ends.get(x, ()):
                c = cell(net, a, i, j)
                table[c] = min(table[c], make(1, i, r))
    return table


def close(net):
    """The run's table: the least height of every cell, then its least middle, then its lowest rule.

    Level by level: `rows` and `columns` hold the cells of least height below the level, `fresh` those of
    them that the level before added. A cell new at this level has a side in `fresh`, and every pair of sides
    that it has in `rows` gives it this height, so the lowest middle and rule among those are the selected ones.
    """
    nodes, each = range(net.nodes), range(net.nonterminals)
    pairs = [(r, a, b, c) for r, (a, b, c) in enumerate(net.rules) if c != LABEL]
    rules_for = [[(r, b, c) for r, head, b, c in pairs if head == a] for a in each]
    shapes = sorted({shape[1:] for shape in pairs})
    rows, columns = ([[0] * net.nodes for _ in each] for _ in range(2))
    table = start(net)
    added = [spot_of(net, c) for c, key in enumerate(table) if key != EMPTY]
    height = 1
    while added:
        fresh = [[0] * net.nodes for _ in each]
        for a, i, j in added:
            rows[a][i] |= 1 << j
            columns[a][j] |= 1 << i
            fresh[a][i] |= 1 << j
        fresh_rows = [[(i, row) for i, row in enumerate(fresh[a]) if row] for a in each]
        found = [[0] * net.nodes for _ in each]
        for a, b, c in shapes:
            for i, row in fresh_rows[b]:
                for k in bits(row):
                    found[a][i] |= rows[c][k]
            for k, row in fresh_rows[c]:
                for i in bits(columns[b][k]):
                    found[a][i] |= row
        height += 1
        added = [(a, i, j) for a in each for i in nodes for j in bits(found[a][i] & ~rows[a][i])]
        for a, i, j in added:
            middles = [(rows[b][i] & columns[c][j], r) for r, b, c in rules_for[a]]
            lowest = min(row & -row for row, _ in middles if row)
            rule = next(r for row, r in middles if row & lowest)
            table[cell(net, a, i, j)] = make(height, lowest.bit_length() - 1, rule)
    return table


def filled(table):
    """The filled cells, lower heights first."""
    return sorted((c for c, key in enumerate(table) if key != EMPTY), key=table.__getitem__)


def added_length(left, right):
    return min(left + right, HELD)


def measure(net, table):
    """The lengths that belong to a table whose keys are right."""
    lengths = [0] * cells(net)
    for c in filled(table):
        if split(table[c])[0] == 1:
            lengths[c] = 1
        else:
            left, right = sides(net, c, table[c])
            lengths[c] = added_length(lengths[left], lengths[right])
    return lengths


def depth(table):
    return max((split(key)[0] for key in table if key != EMPTY), default=0)


def boolean_rows(net):
    """The second engine's answer, by rounds of the Boolean closure: it reads no table."""
    rows = [0] * (net.nonterminals * net.nodes)
    for a, x, third in net.rules:
        for i, label, j in net.edges if third == LABEL else ():
            rows[a * net.nodes + i] |= (label == x) << j
    before = None
    while before != rows:
        before = list(rows)
        for a, b, c in net.rules:
            for i in range(net.nodes) if c != LABEL else ():
                for k in bits(rows[b * net.nodes + i]):
                    rows[a * net.nodes + i] |= rows[c * net.nodes + k]
    return rows


# The single step

def step(net, table, rule, i, k, j):
    """One step on a table of any words: True where it changed, or a refusal 15, 10, 11 or 12."""
    must(rule < len(net.rules) and net.rules[rule][2] != LABEL, 15, 0)
    for place, node in ((1, i), (2, k), (3, j)):
        must(node < net.nodes, 15, place)
    must(len(table) >= cells(net), 10, 0)
    a, b, c = net.rules[rule]
    target, left, right = cell(net, a, i, j), cell(net, b, i, k), cell(net, c, k, j)
    for place in (target, left, right):
        height, middle, number = split(table[place])
        usable = 1 <= height <= HIGHEST and middle < net.nodes and number < len(net.rules)
        must(table[place] == EMPTY or usable, 11, place)
    if EMPTY in (table[left], table[right]):
        return False
    height = 1 + max(split(table[left])[0], split(table[right])[0])
    key = make(height, k, rule)
    if key >= table[target]:
        return False
    must(height <= HIGHEST, 12, target)
    table[target] = key
    return True


# Witnesses and the table check

def lowest_edges(net):
    """The lowest edge for each (from, label, to)."""
    lowest = {}
    for e, edge in enumerate(net.edges):
        lowest.setdefault(edge, e)
    return lowest


def check(net, table, lengths):
    """The table check: refusal 11 at the lowest cell whose words are wrong as they stand."""
    lowest = lowest_edges(net)
    for c in range(cells(net)):
        must(right_cell(net, lowest, table, lengths, c), 11, c)


def right_cell(net, lowest, table, lengths, c):
    key, length = table[c], lengths[c]
    if key == EMPTY:
        return length == 0
    a, i, j = spot_of(net, c)
    height, middle, number = split(key)
    if height == 0 or number >= len(net.rules) or net.rules[number][0] != a or middle >= net.nodes:
        return False
    _, x, third = net.rules[number]
    if height == 1:
        return third == LABEL and middle == i and (i, x, j) in lowest and length == 1
    if third == LABEL:
        return False
    left, right = sides(net, c, key)
    if EMPTY in (table[left], table[right]):
        return False
    higher = max(split(table[left])[0], split(table[right])[0])
    return height == 1 + higher and length == added_length(lengths[left], lengths[right])


def path(net, table, c):
    """The edge numbers of a cell's witness, in a table that the check accepts: left side, then right."""
    wanted, todo = {c}, [c]
    while todo:
        at = todo.pop()
        if split(table[at])[0] > 1:
            below = set(sides(net, at, table[at])) - wanted
            wanted |= below
            todo += below
    lowest, parts = lowest_edges(net), {}
    for at in sorted(wanted, key=table.__getitem__):  # sides are lower, so they come first
        if split(table[at])[0] == 1:
            _, i, j = spot_of(net, at)
            parts[at] = [lowest[i, net.rules[split(table[at])[2]][1], j]]
        else:
            left, right = sides(net, at, table[at])
            parts[at] = parts[left] + parts[right]
    return parts[c]


# The programs: what they write for a deck

def report(deck):
    """The report program's whole output."""
    try:
        header, net = read(deck)
        small_enough(net)
    except Refused as refusal:
        return f'{refusal}\n'
    table = close(net)
    lengths = measure(net, table)
    lines = [f'graph {net.nodes} nodes {len(net.edges)} edges {net.nonterminals} nonterminals {len(net.rules)} rules']
    first = cell(net, header.query, 0, 0)
    for c in range(first, first + net.nodes * net.nodes):
        if table[c] != EMPTY:
            _, i, j = spot_of(net, c)
            height, middle, _ = split(table[c])
            shown = 'long' if lengths[c] > ROOM else ' '.join(map(str, path(net, table, c)))
            lines.append(f'{i} {j} h {height} m {middle} l {lengths[c]} : {shown}')
    lines.append(f'pairs {len(lines) - 1} depth {depth(table)}')
    return '\n'.join(lines) + '\n'


def table_lines(deck):
    """The table program's whole output."""
    try:
        _, net = read(deck)
    except Refused as refusal:
        return f'{refusal}\n'
    table = close(net)
    lengths = measure(net, table)
    lines = []
    for c, key in enumerate(table):
        if key != EMPTY:
            lines.append(' '.join(map(str, (*spot_of(net, c), *split(key), lengths[c]))))
    lines.append(f'cells {len(lines)} depth {depth(table)}')
    return '\n'.join(lines) + '\n'


# The C calls, on bytes. A bytearray is lent: it holds afterwards what the call leaves in it.

# One C call: `ask` is None for a run, or a witness's (a, i, j); the path is the witness's alone.
Call = namedtuple('Call', 'nodes nonterminals labels rules edges ask table lengths path')

WORDS = {2: 'H', 4: 'I', 8: 'Q'}  # struct's letter for a word of so many bytes


def words_in(size, data):
    """The whole little-endian words in the data; odd bytes at the end are not read."""
    return list(struct.unpack_from(f'<{len(data) // size}{WORDS[size]}', data))


def put_words(size, data, words):
    struct.pack_into(f'<{len(words)}{WORDS[size]}', data, 0, *words)


def answer(call):
    """The 64-bit number a C call answers; its table, lengths and path are changed as the call leaves them."""
    try:
        must(len(call.rules) % 6 == 0, 5, 0)
        must(len(call.edges) % 6 == 0, 5, 1)
        net = net_of(call.nodes, call.nonterminals, call.labels, words_in(2, call.rules), words_in(2, call.edges))
        small_enough(net)
        return run_call(net, call) if call.ask is None else witness_call(net, call)
    except Refused as refusal:
        return refusal.number * 2**32 + refusal.place


def room(net, call):
    must(len(call.table) // 8 >= cells(net), 10, 0)
    must(len(call.lengths) // 4 >= cells(net), 10, 1)


def run_call(net, call):
    room(net, call)
    table = close(net)
    put_words(8, call.table, table)
    put_words(4, call.lengths, measure(net, table))
    return depth(table)


def witness_call(net, call):
    for place, (argument, limit) in enumerate(zip(call.ask, (net.nonterminals, net.nodes, net.nodes))):
        must(argument < limit, 15, place)
    room(net, call)
    table, lengths = words_in(8, call.table), words_in(4, call.lengths)
    check(net, table, lengths)
    c = cell(net, *call.ask)
    must(table[c] != EMPTY, 14, c)
    must(lengths[c] <= len(call.path) // 2 and lengths[c] != HELD, 10, 2)
    put_words(2, call.path, path(net, table, c))
    return lengths[c]
