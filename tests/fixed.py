"""Fixed inputs for the comparison: every limit, every field where the answer may change, and every order of two faults."""
import itertools
import random
import struct

import closure
import make
from closure import Call, EMPTY, LABEL
from make import flat, mended, pack, put, words

FAR = range(2**33)  # a path buffer that is nothing but addresses: room for any length, and never to be touched


# Decks

def limit_decks():
    """Decks at each limit and one past it, by name."""
    base = dict(nodes=2, nonterminals=2, labels=2, entries=2, rules=2, edges=2)
    cases = [base, dict(nodes=64, nonterminals=32, labels=255, entries=256, rules=256, edges=4096),
             dict(nodes=64, nonterminals=32, labels=5, entries=256, rules=256, edges=1400)]
    for word, least, most, report in (('nodes', 1, 64, 16), ('nonterminals', 1, 32, 8), ('labels', 1, 255, 0),
                                      ('entries', 0, 256, 0), ('rules', 0, 256, 0), ('edges', 0, 4096, 1024)):
        for value in sorted({least - 1, least, report, report + 1, most, most + 1} - {-1}):
            cases.append({**base, word: value})
    for case in cases:
        for more in (-1, 0):
            query = max(1, case['nonterminals']) + more
            yield f'{case} query {query}', counted_deck(query=query, **case)


def counted_deck(nodes, nonterminals, labels, entries, rules, edges, query):
    """A deck with these header numbers, right but for a number over its limit."""
    rng = random.Random(f'{nodes} {nonterminals} {labels} {entries} {rules} {edges}')
    n, a, x, m = (max(1, number) for number in (nodes, nonterminals, labels, entries))
    rule = lambda r: (rng.randrange(a), rng.randint(1, x), LABEL) if r % 4 == 0 else tuple(rng.choices(range(a), k=3))
    return pack((nodes, nonterminals, labels, entries, rules, edges, query),
                [(kind, rng.randint(1, x), 0) for kind in range(entries)], [rule(r) for r in range(rules)],
                [(rng.randrange(n), rng.randrange(m), rng.randrange(n)) for _ in range(edges)])


def other_decks():
    """Decks by size, the kinds 0 and 65535, lengths at which answers change, and the worst case."""
    header = pack((1, 1, 1, 0, 0, 0, 0), [], [], [])
    for size in (0, 1, 511, 512, 513, 1024, 29696, 29697, 30208, 100000):
        yield f'{size} bytes', (header * 200)[:size]
    for kind, mapped in ((0, 0), (0, 7), (65535, 65535), (65535, 7)):
        yield f'kind {kind}, map {mapped}', pack((1, 1, 1, 1, 1, 1, 0), [(mapped, 1, 0)], [(0, 1, LABEL)], [(0, kind, 0)])
    nets = {f'length {target}': make.of_length(target)[0] for target in (1023, 1024, 1025, 2**32 - 2, 2**32 - 1)}
    for u, v in ((9, 8), (33, 32)):
        nets[f'double cycle of {u} and {v}'] = make.double_cycle(u, v)
        nets[f'uneven cycle of {u} and {v}'] = make.uneven_cycle(u, v, 5)
    for name, net in nets.items():
        yield name, make.deck_of(random.Random(name), net, 0)


ENTRIES = [(2 * m, 1 + m % 3, 0) for m in range(85)]
RULES = [(r % 5, 1 + r % 3, LABEL) if r < 9 else (r % 5, r // 2 % 5, r // 3 % 5) for r in range(85)]
EDGES = [(e % 7, 2 * (e % 85), e // 3 % 7) for e in range(170)]
RIGHT = pack((7, 5, 3, 85, 85, 170, 1), ENTRIES, RULES, EDGES)  # blocks: header, 2 map, 2 rules, 3 edges


def byte_of_word(b, record, word):
    return b * 512 + 4 + 6 * record + 2 * word


def field_decks():
    """A deck of full and part-full blocks with each field at every value where the answer may change."""
    yield 'right', RIGHT
    for name, at, value, size in block_fields() + header_fields() + record_fields():
        deck = put(RIGHT, at, value, size)
        if deck != RIGHT:
            yield f'{name} is {value}', deck
    for at in range(0, len(RIGHT), 512):
        for byte in range(508, 512):
            yield f'block {at // 512} byte {byte} is 1 more', put(RIGHT, at + byte, RIGHT[at + byte] + 1, mend=False)


def block_fields():
    """Type, count, number and last padding byte of each block."""
    fields = {0: (0, 1, 2, 3, 4, 5, 255), 1: (0, 1, 2, 3, 4, 83, 84, 85, 255), 2: (0, 1, 9), 3: (1,), 507: (1,)}
    return [(f'block {b} byte {field}', b * 512 + field, value, 1)
            for b in range(len(RIGHT) // 512) for field, values in fields.items() for value in values]


def header_fields():
    return [(f'header word {word}', 4 + 2 * word, value, 2) for word, limit in enumerate((64, 32, 255, 256, 256, 4096, 5, 0, 0))
            for value in (0, 1, 2, limit, limit + 1, 65535)]


def record_fields():
    """The words of the first and last record of each type, and of the last one in a full block."""
    records = {'first entry': (1, 0), 'entry 83': (1, 83), 'last entry': (2, 0), 'label rule': (3, 0), 'rule 83': (3, 83),
               'last rule': (4, 0), 'first edge': (5, 0), 'last edge': (7, 1)}
    fields = []
    for name, (b, record) in records.items():
        for word in range(3):
            at = byte_of_word(b, record, word)
            now = struct.unpack_from('<H', RIGHT, at)[0]
            values = sorted({0, 1, 3, 4, 5, 6, 7, 65534, 65535, now - 1, now + 1, now + 2} - {-1})
            fields += [(f'{name} word {word}', at, value, 2) for value in values]
    return fields


def empty_blocks():
    """A block of no records too many, of each type."""
    for counts in ((0, 0, 0), (84, 0, 0), (0, 84, 0), (84, 84, 84)):
        parts = [records[:count] for records, count in zip((ENTRIES, RULES, EDGES), counts)]
        deck = pack((7, 5, 3, *counts, 1), *parts)
        for kind in (2, 3, 4):
            before = 1 + sum(count > 0 for count in counts[:kind - 1])
            blocks = [deck[at:at + 512] for at in range(0, len(deck), 512)]
            blocks.insert(before, make.block(kind, (), 0, 0))
            yield f'{counts} records and an empty block {before}', b''.join(
                mended(part[:2] + number.to_bytes(2, 'little') + part[4:]) for number, part in enumerate(blocks))


FAULTS = [  # name, place, value, size: one or two for each refusal, in the reader's order
    ('check of block 5', 5 * 512 + 508, 1, 1), ('number of block 4', 4 * 512 + 2, 9, 1), ('type of block 6', 6 * 512, 2, 1),
    ('65 nodes', byte_of_word(0, 0, 0), 65, 2), ('no such query', byte_of_word(0, 2, 0), 5, 2), ('header word 7', byte_of_word(0, 2, 1), 1, 2),
    ('padding of block 2', 2 * 512 + 507, 1, 1), ('count of block 5', 5 * 512 + 1, 83, 1), ('171 edges stated', byte_of_word(0, 1, 2), 171, 2),
    ('label 0 in entry 1', byte_of_word(1, 1, 1), 0, 2), ('kind of entry 84', byte_of_word(2, 0, 0), 0, 2),
    ('rule 2', byte_of_word(3, 2, 0), 5, 2), ('rule 84', byte_of_word(4, 0, 2), 5, 2),
    ('kind of edge 2', byte_of_word(5, 2, 1), 1, 2), ('node of edge 3', byte_of_word(5, 3, 0), 7, 2),
    ('kind of edge 169', byte_of_word(7, 1, 1), 1, 2), ('node of edge 169', byte_of_word(7, 1, 2), 7, 2),
    ('17 nodes', byte_of_word(0, 0, 0), 17, 2), ('9 nonterminals', byte_of_word(0, 0, 1), 9, 2),
]


def two_faults():
    """Every two faults at once, which shows the order of the refusals."""
    for one, other in itertools.combinations(FAULTS, 2):
        deck = RIGHT
        for name, at, value, size in (other, one):  # the wrong check comes last, so that it stays wrong
            deck = put(deck, at, value, size, mend=at % 512 < 508)
        yield f'{one[0]}, {other[0]}', deck


# C calls

def closed_call(net, ask):
    """A witness's call on the net's final table, with no room for the path."""
    table = closure.close(net)
    buffers = words(8, table), words(4, closure.measure(net, table)), b''
    return Call(*net[:3], flat(net.rules), flat(net.edges), ask, *map(bytearray, buffers))


def long_calls():
    """Witnesses whose length is a limit's, or longer than any array of the library: with room, and one short."""
    for target in (1024, 1025, 65534, 65535, 65536, 65537, 98302, 4**10 - 1, 2**32 - 2):
        net, node = make.of_length(target)
        call = closed_call(net, (0, node, node))
        for room in (target, target + 3, target - 1) if target < 2**21 else (5000,):
            yield call._replace(path=bytearray(2 * room))
    net, node = make.of_length(2**32 - 1)
    yield closed_call(net, (0, node, node))._replace(path=FAR)


NET = make.double_cycle(3, 2)
CALL = closed_call(NET, (0, 1, 0))._replace(path=bytearray(8))
TABLE, LENGTHS = closure.words_in(8, CALL.table), closure.words_in(4, CALL.lengths)


def at_word(values, at, value):
    return values[:at] + [value] + values[at + 1:]


def asked(at, value):
    return {'ask': CALL.ask[:at] + (value,) + CALL.ask[at + 1:]}


def number_changes():
    """Numbers and arguments at their limits, and where 16 bits would cut them."""
    for field, now in zip(Call._fields, CALL[:3]):
        for value in (*make.EDGE_VALUES, 3, 5, 8, 9, 32, 33, 65536 + now, 2**32 - 1):
            yield {field: value}
    for at, now in enumerate(CALL.ask):
        for value in (0, 3, 4, 65535, 65536 + now, 2**32 - 1):
            yield asked(at, value)


def list_changes():
    """Lists of each limit's length, lists cut off, and each word of them at the values where the answer may change."""
    for count in (0, 1, 255, 256, 257, 10000):
        yield {'rules': CALL.rules[:6] * count}
    for count in (0, 1, 1023, 1024, 1025, 4095, 4096, 4097, 5000, 65536):
        yield {'edges': CALL.edges[:6] * count}
    for field, values in (('rules', (0, 3, 4, 65534, 65535)), ('edges', (0, 2, 3, 4, 255, 256, 65535))):
        data = getattr(CALL, field)
        for cut in range(1, 7):
            yield {field: data[:-cut]}
        for at, value in itertools.product(range(len(data) // 2), values):
            yield {field: words(2, at_word(closure.words_in(2, data), at, value))}


def size_changes():
    """Lent buffers a few bytes short or long."""
    for field, size in (('table', 8), ('lengths', 4), ('path', 2)):
        data = getattr(CALL, field)
        for cut in (*range(1, size + 1), len(data)):
            yield {field: data[:-cut]}
        for more in range(1, size + 2):
            yield {field: data + bytes(more)}


def cell_changes():
    """Each word of table and lengths at values near to right and far from it."""
    for c, key in enumerate(TABLE):
        height, middle, rule = closure.split(key)
        keys = [closure.make(max(0, height + more) % 2**32, middle, rule) for more in (-1, 1)]
        keys += [closure.make(height, value, rule) for value in (0, 1, 2, 3, 4, 65535)]
        keys += [closure.make(height, middle, value) for value in (0, 1, 2, 3, 4, 5, 65535)]
        keys += [0, 1, 2**32, 2**33, EMPTY - 1, EMPTY, 131072 * 2**32]
        for value in keys:
            yield {'table': words(8, at_word(TABLE, c, value))}
        for value in (0, 1, LENGTHS[c] - 1, LENGTHS[c] + 1, 2**32 - 1):
            yield {'lengths': words(4, at_word(LENGTHS, c, value % 2**32))}


def fault_changes():
    """Every two faults at once, one or two for each refusal, which shows their order."""
    faults = [
        {'rules': CALL.rules[:-1]}, {'edges': CALL.edges[:-1]}, {'nodes': 65}, {'nonterminals': 33}, {'labels': 256},
        {'rules': CALL.rules[:6] * 257}, {'edges': CALL.edges[:6] * 4097}, {'rules': CALL.rules + words(2, [9, 0, 0])},
        {'edges': CALL.edges + words(2, [0, 3, 0])}, {'nodes': 17}, {'nonterminals': 9}, {'edges': CALL.edges * 205},
        asked(0, 4), asked(1, 4), asked(2, 4), {'table': CALL.table[:-1]}, {'lengths': CALL.lengths[:-1]},
        {'table': words(8, at_word(TABLE, 5, 0))}, {'lengths': words(4, at_word(LENGTHS, 3, 7))}, asked(2, 1), {'path': b''},
    ]
    for one, other in itertools.combinations(faults, 2):
        yield {**one, **other}


def limit_calls():
    """The changes above, to a run and to a witness of one net."""
    both = [{}, *number_changes(), *list_changes(), *size_changes(), *fault_changes()]
    for change in [{**change, 'ask': None} for change in both] + both + list(cell_changes()):
        call = CALL._replace(**change)
        yield call._replace(table=bytearray(call.table), lengths=bytearray(call.lengths), path=bytearray(call.path))
