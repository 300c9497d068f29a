"""The reference's own test: the checked examples of rule 13.1, a double cycle known from print, and brute force.

The brute force shares no idea with the closure: it lists every path of a tiny graph up to a length, parses each
path's labels by itself, and takes the least key over all of them. A tree of height h has at most 2^(h-1) edges,
so up to that height the two must agree on every cell.
"""
import itertools
import random

import closure
import examples
import make
from closure import EMPTY, LABEL, Net, Refused, cell, close, depth, measure, path, split

S = [(0, 1, LABEL), (1, 2, LABEL), (2, 3, LABEL), (0, 1, 2), (0, 1, 3), (3, 0, 2), (0, 0, 0)]
SAMPLE = Net(5, 4, 3, S, [(0, 2, 1), (1, 1, 2), (2, 3, 3), (3, 1, 4), (4, 1, 4)])


def steps(*arrows):
    """The rules S over edges of label 1."""
    return Net(1 + max(map(max, arrows)), 4, 3, S, [(i, 1, j) for i, j in arrows])


def refusal(action, *arguments):
    """The (number, place) of the refusal that the action gives, or None."""
    try:
        action(*arguments)
    except Refused as refused:
        return refused.number, refused.place
    return None


def checked_examples():
    """The checked examples a to i."""
    at = lambda net, a, i, j: close(net)[cell(net, a, i, j)]
    height_and_middle = lambda *where: split(at(*where))[:2]
    assert at(SAMPLE, 0, 0, 4) == 17180065798  # a
    assert split(at(SAMPLE, 3, 1, 3)) == (2, 2, 5)  # b
    assert at(SAMPLE, 0, 2, 3) == EMPTY  # c
    assert height_and_middle(steps((0, 1), (1, 2), (2, 3)), 0, 0, 3) == (3, 1)  # d
    assert height_and_middle(steps((0, 1), (1, 2), (2, 3), (3, 4)), 0, 0, 4) == (3, 2)  # e
    net = steps((0, 1), (0, 2), (1, 3), (2, 3))  # f
    assert height_and_middle(net, 0, 0, 3)[1] == 1
    assert path(net, close(net), cell(net, 0, 0, 3)) == [0, 2]
    net = Net(5, 4, 3, S, [])  # g
    assert set(close(net)) == {EMPTY} and depth(close(net)) == 0
    assert closure.added_length(4294967294, 1) == 4294967295  # h
    assert closure.added_length(4294967295, 1) == 4294967295
    deck = (examples.EXAMPLES / 'sample.deck').read_bytes()
    assert closure.read(deck)[1] == SAMPLE and closure.report(deck) == examples.SAMPLE
    assert refusal(closure.read, (examples.EXAMPLES / 'sample-kind12.deck').read_bytes()) == (9, 4)  # i
    return 9


def known_cycle():
    """The double cycle of 3 and 2, known from print: S as (i, j): (middle, height, length)."""
    figure = {(0, 0): (1, 12, 12), (0, 3): (1, 6, 6), (1, 0): (2, 4, 4),
              (1, 3): (2, 10, 10), (2, 0): (0, 8, 8), (2, 3): (0, 2, 2)}
    net = make.double_cycle(3, 2)
    table = close(net)
    lengths = measure(net, table)
    assert depth(table) == 13
    for i, j in itertools.product(range(4), repeat=2):
        c = cell(net, 0, i, j)
        height, middle, _ = split(table[c])
        assert figure.get((i, j)) == (None if table[c] == EMPTY else (middle, height, lengths[c]))
    return 16


def parse(net, stops, labels):
    """The least root key of each nonterminal over one path, given its nodes and labels."""
    best = {}
    for size in range(1, len(labels) + 1):
        for first in range(len(labels) - size + 1):
            last = first + size
            for r, (a, b, c) in enumerate(net.rules):
                keys = []
                if c == LABEL:
                    keys = [(1, stops[first], r)] if size == 1 and labels[first] == b else []
                else:
                    for cut in range(first + 1, last):
                        left, right = best.get((b, first, cut)), best.get((c, cut, last))
                        if left and right:
                            keys.append((1 + max(left[0], right[0]), stops[cut], r))
                for key in keys:
                    best[a, first, last] = min(key, best.get((a, first, last), key))
    return {a: key for (a, first, last), key in best.items() if (first, last) == (0, len(labels))}


def least_by_paths(net, most):
    """The least root key of each cell over all paths of at most so many edges."""
    least = {}
    ways = [((i,), ()) for i in range(net.nodes)]
    for _ in range(most):
        ways = [(stops + (j,), labels + (x,)) for stops, labels in ways for i, x, j in set(net.edges) if i == stops[-1]]
        for stops, labels in ways:
            for a, key in parse(net, stops, labels).items():
                c = cell(net, a, stops[0], stops[-1])
                least[c] = min(key, least.get(c, key))
    return least


def brute_force(cases):
    """Tiny random nets: every cell up to height 3 (4 where edges are few) by both methods, and every witness."""
    compared = 0
    for case in range(cases):
        rng = random.Random(f'brute force {case}')
        nodes, nonterminals, labels = rng.randint(1, 4), rng.randint(1, 3), rng.randint(1, 2)
        edges = [(rng.randrange(nodes), rng.randint(1, labels), rng.randrange(nodes)) for _ in range(rng.randint(1, 6))]
        rules = make.random_rules(rng, nonterminals, labels)
        net = Net(nodes, nonterminals, labels, rules, edges)
        height = 4 if len(edges) <= nodes + 1 else 3
        table = close(net)
        lengths = measure(net, table)
        closure.check(net, table, lengths)
        least = least_by_paths(net, 2**(height - 1))
        for c, key in enumerate(table):
            mine = split(key) if key != EMPTY and split(key)[0] <= height else None
            other = least.get(c)
            assert mine == (other if other and other[0] <= height else None), (net, c)
            compared += 1
        for c in closure.filled(table):
            if lengths[c] <= 40:
                witness(net, table, lengths, c)
    return compared


def witness(net, table, lengths, c):
    """A witness is a real path of the recorded length, and parses to the recorded height."""
    a, i, j = closure.spot_of(net, c)
    edges = path(net, table, c)
    stops = [i] + [net.edges[e][2] for e in edges]
    assert len(edges) == lengths[c] and stops[-1] == j
    assert all(net.edges[e][0] == stop for e, stop in zip(edges, stops))
    assert all(net.edges.index(net.edges[e]) == e for e in edges)
    key = parse(net, stops, [net.edges[e][1] for e in edges])[a]
    assert key[0] == split(table[c])[0]


def any_order(cases):
    """Single steps in any order, until none changes the table, end in the run's table."""
    for case in range(cases):
        rng = random.Random(f'any order {case}')
        net = make.plain_net(rng, (4, 4, 20))
        table = closure.start(net)
        pairs = [r for r, rule in enumerate(net.rules) if rule[2] != LABEL]
        every = list(itertools.product(pairs, *[range(net.nodes)] * 3))
        still = False
        while not still:
            rng.shuffle(every)
            still = not any([closure.step(net, table, *one) for one in every])
        assert table == close(net), net
        rows = closure.boolean_rows(net)
        assert all((rows[c // net.nodes] >> c % net.nodes) % 2 == (key != EMPTY) for c, key in enumerate(table))
    return cases


def refusals():
    """Refusals that no program here can show: the step's."""
    table = close(SAMPLE)
    step = lambda words, *arguments: refusal(closure.step, SAMPLE, list(words), *arguments)
    assert step(table, 0, 0, 0, 0) == (15, 0) and step(table, 7, 9, 9, 9) == (15, 0)
    assert step(table, 3, 5, 9, 9) == (15, 1) and step(table, 3, 0, 5, 9) == (15, 2) and step(table, 3, 0, 0, 5) == (15, 3)
    assert step(table[:-1], 3, 0, 0, 0) == (10, 0)
    target, left, right = cell(SAMPLE, 0, 0, 2), cell(SAMPLE, 1, 0, 1), cell(SAMPLE, 2, 1, 2)
    for wrong in (0, closure.make(131073, 0, 0), closure.make(1, 5, 0), closure.make(1, 0, 7), EMPTY - 1):
        for place in (target, left, right):
            words = list(table)
            words[place] = wrong
            assert step(words, 3, 0, 1, 2) == (11, place)
    words = list(table)
    words[left] = words[right] = closure.make(131072, 0, 0)
    assert step(words, 3, 0, 1, 2) == (12, target)
    words[target] = closure.make(131072, 4, 6)
    assert step(words, 3, 0, 1, 2) is None  # the candidate does not win, so it is not too high
    return 6 + 15 + 1


def lengths_reached():
    """Nets made for one length have it: round 1,024, over 65,535, and the held length with the one before it."""
    count = 0
    for target in (*range(1000, 1050), 70000, 98302, 2**32 - 2, 2**32 - 1):
        for made in filter(None, (make.doubling(target, fold) for fold in (2, 4))):
            net, node = made
            assert measure(net, close(net))[cell(net, 0, node, node)] == target
            count += 1
    assert count > 50
    return count


def main():
    print(f'reference: {checked_examples()} checked examples, {known_cycle()} cells of a known table, {refusals()} refusals')
    print(f'reference: {lengths_reached()} lengths reached, {any_order(60)} tables closed by steps in any order')
    print(f'reference: {brute_force(500)} cells compared with brute force')


if __name__ == '__main__':
    main()
