"""The stored examples: each deck is what its text or its fault says, and its expected output is the reference's.

    python3 tests/examples.py           compare every stored file with what it must be
    python3 tests/examples.py --write   write them all again

examples/NAME.txt is written to NAME.deck by tools/deck. The refused decks are the sample deck with one fault each,
or a deck just over a limit. NAME.expected is what the report program prints for NAME.deck.
"""
import pathlib
import subprocess
import sys

import closure
import make

ROOT = pathlib.Path(__file__).resolve().parent.parent
EXAMPLES = ROOT / 'examples'
TOOL = [sys.executable, str(ROOT / 'tools' / 'deck')]

SAMPLE = '''\
graph 5 nodes 5 edges 4 nonterminals 7 rules
0 3 h 3 m 1 l 3 : 0 1 2
0 4 h 4 m 3 l 4 : 0 1 2 3
1 2 h 1 m 1 l 1 : 1
3 4 h 1 m 3 l 1 : 3
4 4 h 1 m 4 l 1 : 4
pairs 5 depth 4
'''


def tool(*arguments):
    return subprocess.run(TOOL + list(map(str, arguments)), check=True, capture_output=True).stdout


def over_report(nodes, nonterminals, edges):
    """A right deck that is too large for the report."""
    records = [(e % nodes, 1, (e + 1) % nodes) for e in range(edges)]
    return make.pack((nodes, nonterminals, 1, 1, 1, edges, 0), [(1, 1, 0)], [(0, 1, closure.LABEL)], records)


def refused(sample):
    """A deck for each way to be refused, with its refusal. The sample's blocks: header, map, rules, edges."""
    put, header, entries, rules, edges = make.put, 4, 512 + 4, 1024 + 4, 1536 + 4
    return {
        '1-empty': (b'', '1 at 0'),
        '1-part-of-a-block': (sample[:511], '1 at 0'),
        '2-wrong-check': (put(sample, rules, 1, mend=False), '2 at 2'),
        '3-wrong-block-number': (put(sample, 512 + 2, 2), '3 at 1'),
        '3-types-fall': (put(sample, 512, 4), '3 at 2'),
        '4-65-nodes': (put(sample, header, 65), '4 at 0'),
        '4-no-such-query': (put(sample, header + 12, 4), '4 at 6'),
        '5-no-records': (put(sample, 1536 + 1, 0), '5 at 3'),
        '5-padding': (put(sample, 1536 + 507, 1), '5 at 3'),
        '5-totals': (put(sample, header + 10, 6), '5 at 0'),
        '6-kinds-not-rising': (put(sample, entries + 6, 10), '6 at 1'),
        '6-label-0': (put(sample, entries + 2, 0), '6 at 0'),
        '7-no-such-nonterminal': (put(sample, rules + 6 * 3 + 4, 4), '7 at 3'),
        '8-no-such-node': (put(sample, edges + 6 * 2, 5), '8 at 2'),
        '9-kind-0-unmapped': (put(sample, edges + 6 + 2, 0), '9 at 1'),
        '13-17-nodes': (over_report(17, 8, 1024), '13 at 0'),
        '13-9-nonterminals': (over_report(16, 9, 1024), '13 at 1'),
        '13-1025-edges': (over_report(16, 8, 1025), '13 at 5'),
    }


def stored():
    """Every stored file and the bytes it must have."""
    files = {}
    for text in sorted(EXAMPLES.glob('*.txt')):
        deck = tool('write', text)
        files[text.with_suffix('.deck')] = deck
        files[text.with_suffix('.expected')] = closure.report(deck).encode()
    for name, (deck, refusal) in refused(files[EXAMPLES / 'sample.deck']).items():
        files[EXAMPLES / 'refused' / f'{name}.deck'] = deck
        files[EXAMPLES / 'refused' / f'{name}.expected'] = f'refused {refusal}\n'.encode()
    return files


def decks():
    """The stored decks and the output expected for each."""
    for path in sorted(EXAMPLES.rglob('*.deck')):
        yield str(path.relative_to(ROOT)), path.read_bytes(), path.with_suffix('.expected').read_text()


def check():
    """The number of stored decks; an AssertionError names the first file that is not what it must be."""
    files = stored()
    kept = {*EXAMPLES.rglob('*.deck'), *EXAMPLES.rglob('*.expected')}
    assert kept == set(files), f'too many or too few: {sorted(map(str, kept ^ set(files)))}'
    for path, data in files.items():
        assert path.read_bytes() == data, f'{path} is not what tests/examples.py --write makes'
    assert files[EXAMPLES / 'sample.expected'].decode() == SAMPLE, 'not the report of the sample deck'
    assert files[EXAMPLES / 'sample-kind12.expected'] == b'refused 9 at 4\n'
    count = 0
    for name, deck, expected in decks():
        assert closure.report(deck) == expected, name
        count += 1
    return count


if __name__ == '__main__':
    if sys.argv[1:] == ['--write']:
        for path, data in stored().items():
            path.parent.mkdir(exist_ok=True)
            path.write_bytes(data)
    print(f'examples: {check()} stored decks are what they must be')
