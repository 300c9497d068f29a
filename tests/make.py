"""Random inputs for the comparison: nets, decks (right and damaged) and C calls, each from a random.Random.

The same seed gives the same inputs. Decks are packed here block by block and not by tools/deck, because
damage needs every byte to be free.
"""
import math
import random
import struct

import closure
from closure import Call, EMPTY, LABEL, Net

SMALL = (16, 8, 1024)  # most nodes, nonterminals and edges of the report and the C calls
LARGE = (64, 32, 4096)  # most that a deck may have
EDGE_VALUES = (0, 1, 2, 15, 16, 17, 63, 64, 65, 255, 256, 257, 4096, 4097, 65534, 65535)


# Nets

def random_rules(rng, nonterminals, labels):
    """Label rules for most labels, then pair rules, shuffled, some of them twice."""
    any_of = lambda: rng.randrange(nonterminals)
    rules = [(any_of(), x, LABEL) for x in range(1, labels + 1) if rng.random() < 0.9]
    rules += [(any_of(), rng.randint(1, labels), LABEL) for _ in range(rng.randrange(3))]
    rules += [(any_of(), any_of(), any_of()) for _ in range(rng.randrange(3 * nonterminals + 1))]
    rules += rng.choices(rules, k=rng.randrange(4)) if rules else []
    rng.shuffle(rules)
    return rules[:256]


def random_edges(rng, nodes, labels, most):
    """Sparse or dense edges, a cycle or a chain with chords, self loops, doubled edges."""
    any_edge = lambda: (rng.randrange(nodes), rng.randint(1, labels), rng.randrange(nodes))
    shape = rng.choice(('none', 'sparse', 'sparse', 'dense', 'cycle', 'cycle', 'chain', 'loops'))
    edges = []
    if shape == 'sparse':
        edges = [any_edge() for _ in range(rng.randrange(2 * nodes + 1))]
    if shape == 'dense':
        edges = [any_edge() for _ in range(rng.randrange(1, 1 + min(most, 12 * nodes)))]
    if shape in ('cycle', 'chain'):
        stop = nodes if shape == 'cycle' else nodes - 1
        edges = [(i, rng.randint(1, labels), (i + 1) % nodes) for i in range(stop)]
        edges += [any_edge() for _ in range(rng.randrange(3))]
    if shape == 'loops':
        edges = [(i, x, i) for i, x, _ in (any_edge() for _ in range(nodes))] + [any_edge() for _ in range(nodes // 2)]
    edges += rng.choices(edges, k=rng.randrange(4)) if edges else []
    rng.shuffle(edges)
    return edges[:most]


def plain_net(rng, most):
    few = rng.random() < 0.5
    nodes = rng.randint(1, 5 if few else most[0])
    nonterminals = rng.randint(1, 4 if few else most[1])
    labels = rng.choice((1, 2, 3, 5, 255 if rng.random() < 0.2 else 8))
    return Net(nodes, nonterminals, labels, random_rules(rng, nonterminals, labels),
               random_edges(rng, nodes, labels, most[2]))


def double_cycle(u, v):
    """The worst case: a cycle of u edges a and one of v edges b, that share node 0; words a^n b^n."""
    ring = lambda first, size: [0] + list(range(first, first + size - 1)) + [0]
    edges = [(i, x, j) for x, way in ((1, ring(1, u)), (2, ring(u, v))) for i, j in zip(way, way[1:])]
    rules = [(0, 2, 3), (0, 2, 1), (1, 0, 3), (2, 1, LABEL), (3, 2, LABEL)]
    return Net(u + v - 1, 4, 2, rules, edges)


def uneven_cycle(u, v, m):
    """The double cycle with words a^mn b^n, S0 -> a S1, .., Sm -> S0 b | b: m + 1 heights for each of its u v rounds."""
    left, right = m + 1, m + 2
    rules = [(s, left, s + 1) for s in range(m)] + [(m, 0, right), (m, 2, LABEL), (left, 1, LABEL), (right, 2, LABEL)]
    return double_cycle(u, v)._replace(nonterminals=m + 3, rules=rules)


def random_double_cycle(rng, most):
    while True:
        u, v = rng.randint(1, most[0] // 2 + 1), rng.randint(1, most[0] // 2)
        if math.gcd(u, v) == 1:
            return renumbered(rng, rng.choice((double_cycle(u, v), uneven_cycle(u, v, rng.randint(1, 5)))))


def renumbered(rng, net):
    """The same graph with its nodes renumbered and its edges and rules in another order."""
    new = rng.sample(range(net.nodes), net.nodes)
    edges = [(new[i], x, new[j]) for i, x, j in net.edges]
    rules = list(net.rules)
    rng.shuffle(edges)
    rng.shuffle(rules)
    return net._replace(rules=rules, edges=edges)


def call_return(rng, most):
    """Calls matched with their returns: M -> step | M M | call_s M return_s, for a few sites s."""
    sites = rng.randint(1, min(5, (most[1] - 1) // 3))
    nodes = rng.randint(2, most[0])
    rules, edges = [(0, 1, LABEL), (0, 0, 0)], []
    for s in range(sites):
        call, back, rest, x = 1 + 3 * s, 2 + 3 * s, 3 + 3 * s, 2 + 2 * s
        rules += [(call, x, LABEL), (back, x + 1, LABEL), (0, call, rest), (rest, 0, back)]
        if rng.random() < 0.5:
            rules.append((0, call, back))
        for _ in range(rng.randint(1, 4)):
            edges.append((rng.randrange(nodes), x, rng.randrange(nodes)))
            edges.append((rng.randrange(nodes), x + 1, rng.randrange(nodes)))
    edges += [(rng.randrange(nodes), 1, rng.randrange(nodes)) for _ in range(rng.randint(1, nodes))]
    return renumbered(rng, Net(nodes, 1 + 3 * sites, 1 + 2 * sites, rules, edges))


def levels(target, fold):
    """How `doubling` reaches a length: its base and the edges that each level adds, or None."""
    if target == 1:
        return 'x', []
    for c in (2, 3, 4) if fold == 2 else (2, 3):
        if target == 1 + c:
            return 'p', [c]
        if target > c and (target - c) % fold == 0:
            below = levels((target - c) // fold, fold)
            if below:
                return below[0], below[1] + [c]
    return None


def doubling(target, fold, most=16):
    """A net and a node i whose cell (0, i, i) has a witness of exactly `target` edges, or None.

    Level i goes down from node i to i - 1, there `fold` times through the level below, and up again:
    X -> D T, T -> P U, and P -> X X, or P -> Q Q with Q -> X X. U is one edge or two (Y V), and so is
    D (Y W) where there is a nonterminal left for it. One level more than there are nodes ends at node 0.
    """
    plan = levels(target, fold)
    if plan is None or len(plan[1]) + 1 > most + (plan[0] == 'p'):
        return None
    base, adds = plan
    nodes = min(len(adds) + 1, most)
    edges = [(0, 1 if base == 'x' else 2, 0)]
    for level, add in enumerate(adds, 1):
        top, low = level % nodes, level - 1
        edges += [(top, 5, top), (top, 7, low)] if add == 4 else [(top, 4, low)]
        edges += [(low, 5, low), (low, 6, top)] if add >= 3 else [(low, 3, top)]
    x, t, p, u, d, y, v, w = range(8)
    rules = [(x, 1, LABEL), (p, 2, LABEL), (u, 3, LABEL), (d, 4, LABEL), (y, 5, LABEL), (v, 6, LABEL)]
    rules += [(x, d, t), (t, p, u), (u, y, v)]
    rules += [(w, 7, LABEL), (d, y, w), (p, x, x)] if fold == 2 else [(w, x, x), (p, w, w)]
    return Net(nodes, 8, 7, rules, edges), len(adds) % nodes


def of_length(target):
    """The net and node that `doubling` has for a length that it can reach."""
    return doubling(target, 4) or doubling(target, 2)


def long_net(rng, most):
    """Lengths round the report's 1,024, well over it, and round the held 4,294,967,295."""
    while True:
        target = rng.choice((rng.randint(1020, 1030), rng.randint(6, 5000), rng.randint(2**31, 2**33),
                             rng.randint(2**32 - 4, 2**32 + 2), 2**32 - 1))
        made = doubling(target, rng.choice((2, 4)), most[0])
        if made:
            return made[0]


def padded(rng, net, most):
    """The net with one edge many times in front, so that the others' numbers need more than a byte."""
    room = most[2] - len(net.edges)
    if not net.edges or room < 1:
        return net
    return net._replace(edges=[rng.choice(net.edges)] * rng.randint(1, room) + net.edges)


def random_net(rng, most=SMALL):
    if rng.random() < 0.68:
        net = plain_net(rng, most)
    else:
        net = rng.choice((random_double_cycle, call_return, long_net))(rng, most)
    return padded(rng, net, most) if rng.random() < 0.12 else net


# Decks

def block(kind, words, number, used):
    body = struct.pack('<BBH', kind, used % 256, number) + struct.pack(f'<{len(words)}H', *words)
    return mended(body.ljust(512, b'\0'))


def mended(data):
    """A block with its check made right."""
    return data[:508] + struct.pack('<I', sum(data[:508]))


def pack(header, entries, rules, edges):
    """A deck with this header (seven words), whatever it says, and these records."""
    blocks = [block(1, header, 0, 3)]
    for kind, records in ((2, entries), (3, rules), (4, edges)):
        for first in range(0, len(records), 84):
            part = records[first:first + 84]
            blocks.append(block(kind, [word for record in part for word in record], len(blocks), len(part)))
    return b''.join(blocks)


def deck_of(rng, net, query=None):
    """A deck of a net: each label gets one kind or a few, some of them used by no edge."""
    kinds = rng.sample((0, 1, 65535, *rng.sample(range(2, 65535), 253)), 256)
    entries, kinds_of = [], {}
    for x in rng.sample(range(1, net.labels + 1), net.labels):
        share = min(len(kinds), rng.randint(1, 3 if net.labels < 80 else 1))
        kinds_of[x] = [kinds.pop() for _ in range(share)]
        entries += [(kind, x, 0) for kind in kinds_of[x]]
    edges = [(i, rng.choice(kinds_of[x]), j) for i, x, j in net.edges]
    query = rng.randrange(net.nonterminals) if query is None else query
    header = (net.nodes, net.nonterminals, net.labels, len(entries), len(net.rules), len(edges), query)
    return pack(header, sorted(entries), net.rules, edges)


def put(deck, at, value, size=1, mend=True):
    """The deck with other bytes at a place, its block's check mended or not."""
    deck = deck[:at] + (value % 256**size).to_bytes(size, 'little') + deck[at + size:]
    first = at // 512 * 512
    return deck[:first] + mended(deck[first:first + 512]) + deck[first + 512:] if mend else deck


def damaged(rng, deck):
    """The deck with one fault, or none by chance."""
    blocks = len(deck) // 512
    if not blocks:
        return deck
    b = rng.randrange(blocks)
    at = b * 512
    used = max(1, min(deck[at + 1], 84))
    small = rng.choice(EDGE_VALUES)
    match rng.randrange(12):
        case 0:  # a byte anywhere, the check as it was
            return put(deck, rng.randrange(len(deck)), rng.randrange(256), mend=False)
        case 1:  # a byte anywhere, the check mended
            return put(deck, at + rng.randrange(508), rng.randrange(256))
        case 2:  # type, count or block number
            return put(deck, at + rng.randrange(4), rng.choice((0, 1, 2, 3, 4, 5, 83, 84, 85, 255)))
        case 3:  # one record more or less than stated
            return put(deck, at + 1, deck[at + 1] + rng.choice((-1, 1)))
        case 4 | 5:  # a header word
            word = rng.randrange(9)
            now = struct.unpack_from('<H', deck, 4 + 2 * word)[0]
            return put(deck, 4 + 2 * word, rng.choice((small, now + 1, now - 1)), 2)
        case 6 | 7 | 8:  # a word of a used record
            word = at + 4 + 2 * rng.randrange(3 * used)
            now = struct.unpack_from('<H', deck, word)[0]
            return put(deck, word, rng.choice((small, now + 1, now - 1)), 2)
        case 9:  # cut off or drawn out
            return rng.choice((deck[:rng.randrange(len(deck))], deck[:at], deck + deck[at:at + 512],
                               deck + rng.randbytes(rng.randrange(1, 600))))
        case 10:  # a block left out, renumbered or not
            rest = deck[:at] + deck[at + 512:]
            for later in range(b, blocks - 1) if rng.random() < 0.7 else ():
                rest = put(rest, later * 512 + 2, later, 2)
            return rest
        case 11:  # two blocks swapped, renumbered or not
            c = rng.randrange(blocks) * 512
            parts = bytearray(deck)
            parts[at:at + 512], parts[c:c + 512] = deck[c:c + 512], deck[at:at + 512]
            parts = bytes(parts)
            return put(put(parts, at + 2, b, 2), c + 2, c // 512, 2) if rng.random() < 0.7 else parts


def random_deck(rng):
    """One deck: mostly within the report's limits, sometimes large, a third of them damaged."""
    most = LARGE if rng.random() < 0.12 else SMALL
    deck = deck_of(rng, random_net(rng, most))
    if rng.random() < 0.35:
        for _ in range(rng.choice((1, 1, 1, 2, 3))):
            deck = damaged(rng, deck)
    return deck


# C calls

def words(size, values):
    return struct.pack(f'<{len(values)}{closure.WORDS[size]}', *values)


def flat(records):
    return words(2, [word for record in records for word in record])


def odd(rng, size):
    """Odd bytes at a buffer's end, too few for a word."""
    return rng.randbytes(rng.choice((0, 0, rng.randrange(size))))


def lent(rng, size, needed):
    """A buffer of random bytes with room for the needed words, or one short of it."""
    count = max(0, needed + rng.choice((0, 0, 0, 1, 3, 7, -1 if rng.random() < 0.3 else 0)))
    return bytearray(rng.randbytes(count * size) + odd(rng, size))


def damaged_lists(rng, net):
    """The numbers and lists of a call, with a fault or two, or none by chance."""
    numbers, rules, edges = list(net[:3]), bytearray(flat(net.rules)), bytearray(flat(net.edges))
    for _ in range(rng.choice((1, 1, 2))):
        at = rng.randrange(3)
        data = rng.choice((rules, edges))
        match rng.randrange(6):
            case 0:
                numbers[at] = rng.choice((*EDGE_VALUES, 65536 + numbers[at], 2**31, 2**32 - 1))
            case 1:
                numbers[at] += rng.choice((-1, 1))
            case 2:
                data += rng.randbytes(rng.randrange(1, 7))
            case 3:
                data += bytes(data[:6]) * rng.choice((1, 257, 1025, 4097))
            case _ if len(data) > 1:
                word = rng.randrange(len(data) // 2) * 2
                data[word:word + 2] = words(2, [rng.choice((*EDGE_VALUES, *(n % 65536 for n in numbers)))])
    return [number % 2**32 for number in numbers], bytes(rules), bytes(edges)


def grown(rng, net):
    """A table that the check accepts, though its cells are not the least: filled once, in any order."""
    table = [EMPTY] * closure.cells(net)
    leaves = [(r, a, x) for r, (a, x, third) in enumerate(net.rules) if third == LABEL]
    pairs = [r for r, rule in enumerate(net.rules) if rule[2] != LABEL]
    rng.shuffle(leaves)
    for r, a, x in leaves:
        for i, label, j in net.edges:
            if label == x and rng.random() < 0.9:
                table[closure.cell(net, a, i, j)] = closure.make(1, i, r)
    for _ in range(rng.choice((0, 100, 2000)) if pairs else 0):
        r, i, k, j = rng.choice(pairs), *rng.choices(range(net.nodes), k=3)
        if table[closure.cell(net, net.rules[r][0], i, j)] == EMPTY:
            closure.step(net, table, r, i, k, j)
    return table


def bent(rng, net, table, lengths):
    """A table and lengths with one or two words changed, near to right."""
    full = closure.filled(table)
    for _ in range(rng.choice((1, 1, 2))):
        c = rng.choice(full) if full and rng.random() < 0.8 else rng.randrange(len(table))
        height, middle, rule = closure.split(table[c])
        match rng.randrange(9):
            case 0:
                lengths[c] = rng.choice((0, 1, 2, 2**32 - 1, (lengths[c] + 1) % 2**32, rng.randrange(2**32)))
            case 1:
                table[c] = EMPTY
            case 2:
                table[c], lengths[c] = EMPTY, 0
            case 3:
                table[c] = closure.make((height + rng.choice((-1, 1))) % 2**32, middle, rule)
            case 4:
                table[c] = closure.make(height, rng.choice((rng.randrange(net.nodes), net.nodes, 65535)), rule)
            case 5:
                table[c] = closure.make(height, middle, rng.choice((rng.randrange(len(net.rules) + 1), 65535)))
            case 6:
                table[c] = rng.choice((0, 1, 2**32, 2**64 - 2, 2**64 - 2**32, rng.randrange(2**64)))
            case 7:
                table[c] = table[rng.choice(full)] if full else table[c]
            case 8:
                lengths[c] = lengths[rng.choice(full)] if full else lengths[c]


def witness_call(rng, net, lists):
    """A witness's call on the final table, on another right one, or on a bent one."""
    table = grown(rng, net) if rng.random() < 0.3 else closure.close(net)
    lengths = closure.measure(net, table)
    if rng.random() < 0.3:
        bent(rng, net, table, lengths)
    full = closure.filled(table)
    c = rng.choice(full) if full and rng.random() < 0.85 else rng.randrange(len(table))
    ask = list(closure.spot_of(net, c))
    if rng.random() < 0.1:
        at = rng.randrange(3)
        ask[at] = rng.choice((net.nodes, net.nonterminals, 65536 + ask[at], 2**32 - 1))
    length = lengths[c] if lengths[c] < 100000 or lengths[c] < 1000000 and rng.random() < 0.05 else 100
    room = max(0, rng.choice((length, length, length, length + 1, length + 9, length - 1, 0)))
    more = lambda: rng.randrange(2**32)
    table += [more() for _ in range(rng.choice((0, 0, 1, 3)))]
    lengths += [more() for _ in range(rng.choice((0, 0, 1, 3)))]
    if rng.random() < 0.08:
        rng.choice((table, lengths)).pop()
    return Call(*lists, tuple(ask), bytearray(words(8, table) + odd(rng, 8)),
                bytearray(words(4, lengths) + odd(rng, 4)), bytearray(rng.randbytes(2 * room) + odd(rng, 2)))


def random_call(rng):
    """One C call: mostly within its limits and right, a fifth with damaged lists or numbers."""
    large = rng.random() < 0.05
    net = random_net(rng, (20, 10, 1100) if large else SMALL)
    lists = (*net[:3], flat(net.rules), flat(net.edges))
    if rng.random() < (0.5 if large else 0.2):
        numbers, rules, edges = damaged_lists(rng, net)
        lists = (*numbers, rules, edges)
    if rng.random() < 0.4:
        needed = closure.cells(net)
        return Call(*lists, None, lent(rng, 8, needed), lent(rng, 4, needed), bytearray())
    return witness_call(rng, net, lists)
