#!/usr/bin/env python3
"""Times the run, the rows, the reader and the report here, the first two against the same loops in C: docs/SPEED.md is made of it.

    python3 tests/speed.py [SEED]        after `rt ci`; needs gcc and an x86-64 machine with nothing else running

The measured crate is made in a copy of the repository, so that nothing unproved stands in ours. Not part of the gate:
a time is no promise.
"""
import pathlib
import random
import resource
import shutil
import struct
import subprocess
import sys
import tempfile

sys.dont_write_bytecode = True
import fixed
import machine
import make
from closure import LABEL, Net

NODES, NONTERMINALS, LABELS, RULES = 64, 32, 255, 256
SHAPES = [(label_rules, edges) for label_rules in (2, 16, 64, 128, 250, 256) for edges in (100, 1400, 4096)]
EACH = 3  # nets of each shape

DEPENDS = 'speed staticlib: words numbers deck closure rows\n'
CRATE = '''#![tactic(auto)]

use closure::run;
use deck::read;
use numbers::Numbers;
use rows::rows;

fn numbers_of(nodes: u32, nonterminals: u32, labels: u32) -> Numbers {
    Numbers { nodes: nodes as usize, nonterminals: nonterminals as usize, labels: labels as usize }
}

#[unsafe(no_mangle)]
pub extern "C" fn speed_run(nodes: u32, nonterminals: u32, labels: u32, rules: &[u16], edges: &[u16], table: &mut [u64], lengths: &mut [u32]) -> u64 {
    match run(numbers_of(nodes, nonterminals, labels), rules, edges, table, lengths) {
        Ok(depth) => u64::from(depth),
        Err(_) => 4294967296,
    }
}

#[unsafe(no_mangle)]
pub extern "C" fn speed_rows(nodes: u32, nonterminals: u32, labels: u32, rules: &[u16], edges: &[u16], bits: &mut [u64]) -> u64 {
    match rows(numbers_of(nodes, nonterminals, labels), rules, edges, bits) {
        Ok(()) => 0,
        Err(_) => 1,
    }
}

#[unsafe(no_mangle)]
pub extern "C" fn speed_read(deck: &[u8], rules: &mut [u16], edges: &mut [u16]) -> u64 {
    match read(deck, rules, edges) {
        Ok(_) => 1,
        Err(_) => 0,
    }
}
'''


def library(folder):
    """The measured crate, proved and built in a copy of the repository."""
    crates = machine.ROOT / 'crates'
    made = lambda base, names: {'out'} if pathlib.Path(base).parent == crates else ()
    shutil.copytree(crates, folder / 'crates', ignore=made)
    source = folder / 'crates' / 'speed' / 'src'
    source.mkdir(parents=True)
    (source / 'lib.rt').write_text(CRATE)
    (folder / 'crates.txt').write_text((machine.ROOT / 'crates.txt').read_text() + DEPENDS)
    done = subprocess.run(['rt', 'lib'], cwd=folder / 'crates' / 'speed', capture_output=True, text=True)
    if done.returncode:
        sys.exit(f'tests/speed.py: the measured crate was not built:\n{done.stdout[-2000:]}{done.stderr[-2000:]}')
    return folder / 'crates' / 'speed' / 'out' / 'libspeed.a'


def net(rng, label_rules, edges):
    """A random net as a case of speed.c."""
    rules = [(rng.randrange(NONTERMINALS), rng.randint(1, LABELS), LABEL) for _ in range(label_rules)]
    rules += [tuple(rng.choices(range(NONTERMINALS), k=3)) for _ in range(RULES - label_rules)]
    rng.shuffle(rules)
    steps = [(rng.randrange(NODES), rng.randint(1, LABELS), rng.randrange(NODES)) for _ in range(edges)]
    words = [word for record in rules + steps for word in record]
    return struct.pack('<6I', 1, NODES, NONTERMINALS, LABELS, len(rules), edges) + struct.pack(f'<{len(words)}H', *words)


def span(values, digits=2):
    """A range of numbers, from the least to the greatest."""
    texts = list(dict.fromkeys(f'{value:.{digits}f}' for value in (min(values), max(values))))
    return ' to '.join(texts)


def row(label_rules, edges, lines):
    """A table's row: cells filled, and times and ratios over the nets of one shape."""
    filled, c, ours, c_rows, our_rows = zip(*([int(word) for word in line.split()] for line in lines))
    ratio = lambda ours, theirs: span([a / b for a, b in zip(ours, theirs)])
    ms = lambda times: span([time / 1e6 for time in times])
    return (f'| {label_rules} | {edges} | {span(filled, 0)} | {ms(c)} | {ms(ours)} | {ratio(ours, c)} '
            f'| {ms(our_rows)} | {ratio(our_rows, c_rows)} |')


def slow_report():
    """A deck that is slow to report: every cell at height 1, its edge among the last 256 of 1,024."""
    pairs = [(i, 1, j) for i in range(16) for j in range(16)]
    net = Net(16, 8, 2, [(a, 1, LABEL) for a in range(8)] * 32, [(0, 2, 0)] * 768 + pairs)
    return make.deck_of(random.Random('report'), net, 0)


def report_ms(deck):
    """Processor time of the whole report program, best of five."""
    times = []
    for _ in range(5):
        before = resource.getrusage(resource.RUSAGE_CHILDREN).ru_utime
        machine.run(machine.program('report'), deck)
        times.append(resource.getrusage(resource.RUSAGE_CHILDREN).ru_utime - before)
    return 1000 * min(times)


def main():
    rng = random.Random(sys.argv[1] if len(sys.argv) > 1 else 'speed')
    full = fixed.counted_deck(NODES, NONTERMINALS, LABELS, 256, RULES, 4096, 0)
    data = b''.join(net(rng, *shape) for shape in SHAPES for _ in range(EACH))
    data += struct.pack('<2I', 2, len(full)) + full
    with tempfile.TemporaryDirectory() as name:
        folder = pathlib.Path(name)
        program = folder / 'speed'
        machine.tool(['gcc', '-O2', '-o', program, machine.ROOT / 'tests' / 'speed.c', library(folder)])
        done = subprocess.run([program], input=data, capture_output=True, check=True)
    lines = done.stdout.decode().splitlines()
    print('| Label rules | Edges | Cells filled | Run in C, ms | Run, ms | Ratio | Rows, ms | Ratio to C |\n|---|---|---|---|---|---|---|---|')
    for n, shape in enumerate(SHAPES):
        print(row(*shape, lines[EACH * n:EACH * n + EACH]))
    print(f'\nThe reader on a full deck of 58 blocks: {int(lines[-1]) / 1e6:.2f} ms')
    print(f'The report on 256 pairs, every cell at height 1, the edges that fit last: {report_ms(slow_report()):.0f} ms')


if __name__ == '__main__':
    main()
