"""Compare the built programs and the C library with the reference, on fixed and on random inputs.

    python3 tests/compare.py [--seed WORD] [--decks N] [--calls N] [--seconds N] [--all] [--bin FOLDER] [--library FILE]

Runs report and table (crates/NAME/out/NAME, or FOLDER/NAME) on decks, and nevelknop_run and nevelknop_witness
(target/staticlib/libnevelknop.a, a copy of what rt lib makes in crates/nevelknop_c) on C calls, and stops with status 1 at
the first difference; the deck or call is saved in target/differs/. A deck or a call is made from the seed and its own
number alone. What is not built is skipped with a line, or with --all is an error.
--seconds goes on with new inputs for so long, and then N need not be given.
"""
import argparse
import itertools
import pathlib
import random
import struct
import sys
import time

import closure
import examples
import fixed
import machine
import make

ROOT = machine.ROOT
DECKS, CALLS = 400, 10000  # how many the gate compares
BATCH = 250  # calls that one process serves
PROGRAMS = {'report': closure.report, 'table': closure.table_lines}


class Difference(Exception):
    """The first difference, in words."""


def options(words):
    parser = argparse.ArgumentParser(description=__doc__, formatter_class=argparse.RawDescriptionHelpFormatter)
    parser.add_argument('--seed', default='1')
    parser.add_argument('--decks', type=int)
    parser.add_argument('--calls', type=int)
    parser.add_argument('--seconds', type=float)
    parser.add_argument('--all', action='store_true')
    parser.add_argument('--bin', type=pathlib.Path)
    parser.add_argument('--library', type=pathlib.Path, default=machine.LIBRARY)
    chosen = parser.parse_args(words)
    endless = chosen.seconds is not None
    chosen.decks = chosen.decks if chosen.decks is not None else 10**9 if endless else DECKS
    chosen.calls = chosen.calls if chosen.calls is not None else 10**9 if endless else CALLS
    chosen.until = time.monotonic() + chosen.seconds if endless else float('inf')
    return chosen


def built(path, chosen):
    """Whether a file was built; where not, a line says so, or an error with --all."""
    if path.exists():
        return True
    if chosen.all:
        raise Difference(f'{path} is not built')
    print(f'compare: {path.name} is not built, so it is not compared')
    return False


def save(name, data):
    path = ROOT / 'target' / 'differs' / name
    path.parent.mkdir(parents=True, exist_ok=True)
    path.write_bytes(data)
    return path


def first_line_off(wanted, got):
    """The first line that differs, in words."""
    pairs = itertools.zip_longest(wanted.splitlines(), got.splitlines())
    for number, (want, have) in enumerate(pairs, 1):
        if want != have:
            return f'line {number}: expected {want!r}, got {have!r}'
    return f'the ends differ: expected {wanted[-20:]!r}, got {got[-20:]!r}'


# Decks

def compare_deck(programs, name, deck, expected=None):
    """Run every program on one deck. `expected` is a stored report, where there is one."""
    for program, path in programs.items():
        wanted = expected if expected and program == 'report' else PROGRAMS[program](deck)
        try:
            got = machine.run(path, deck)
        except (RuntimeError, machine.Hangs) as fault:
            raise Difference(f'{program} on {name}: {fault}; saved as {save(program + ".deck", deck)}') from None
        if got != wanted.encode():
            said = first_line_off(wanted, got.decode(errors='replace'))
            raise Difference(f'{program} on {name}: {said}; saved as {save(program + ".deck", deck)}')


def fixed_decks(programs):
    """The stored decks and the limits on every program; the reader's fields, which both share, on one."""
    for name, deck, expected in examples.decks():
        compare_deck(programs, name, deck, expected)
        yield
    for name, deck in itertools.chain(fixed.limit_decks(), fixed.other_decks()):
        compare_deck(programs, name, deck)
        yield
    one = dict(itertools.islice(programs.items(), 1))
    for name, deck in itertools.chain(fixed.field_decks(), fixed.empty_blocks(), fixed.two_faults()):
        compare_deck(one, name, deck)
        yield


def random_decks(programs, chosen):
    """Compare random decks, and stop after each."""
    for number in range(chosen.decks):
        rng = random.Random(f'{chosen.seed} deck {number}')
        compare_deck(programs, f'seed {chosen.seed} deck {number}', make.random_deck(rng))
        yield


# C calls

def case(call, rng):
    """A call as tests/calls.c reads it, each buffer at an odd address."""
    buffers = call.rules, call.edges, call.table, call.lengths, call.path
    sizes = [min(len(buffer), 2**32 - 1) for buffer in buffers]
    head = call.ask is not None, *call[:3], *(call.ask or (0, 0, 0)), *sizes, *(rng.randrange(8) for _ in buffers)
    return struct.pack('<17I', *head) + b''.join(buffer for buffer in buffers if buffer is not fixed.FAR)


def replies(calls, data):
    """The server's replies to some calls: answer, harm, and the three lent buffers."""
    at = 0
    for call in calls:
        reply = list(struct.unpack_from('<QI', data, at))
        at += 12
        for buffer in (call.table, call.lengths, call.path):
            size = 0 if buffer is fixed.FAR else len(buffer)
            reply.append(data[at:at + size])
            at += size
        yield reply
    if at != len(data):
        raise RuntimeError(f'the server wrote {len(data) - at} bytes too many')


def shown(answer):
    return f'refusal {answer >> 32} at {answer % 2**32}' if answer >> 32 else f'{answer}'


def compare_call(name, call, reply):
    """Compare one reply with the reference, which changes the call's own buffers."""
    wanted = closure.answer(call)
    if reply[0] != wanted:
        raise Difference(f'{name}: expected {shown(wanted)}, got {shown(reply[0])}')
    if reply[1]:
        raise Difference(f'{name}: memory that is not lent was written, buffers {reply[1]:05b} (rules first from the right)')
    for buffer, want, have in zip(('table', 'lengths', 'path'), (call.table, call.lengths, call.path), reply[2:]):
        if want is not fixed.FAR and want != have:
            at = next(b for b in range(len(want)) if want[b] != have[b])
            raise Difference(f'{name}: byte {at} of {len(want)} of the {buffer}: expected {want[at]}, got {have[at]}')


def compare_calls(server, named):
    """Let one process serve these calls, and compare each. A process that dies serves them one by one."""
    rng = random.Random('addresses')
    cases = [case(call, rng) for _, call in named]
    try:
        data = machine.run(server, b''.join(cases))
    except (RuntimeError, machine.Hangs) as fault:
        if len(named) == 1:
            raise Difference(f'{named[0][0]}: {fault}; saved as {save("call.case", cases[0])}') from None
        for one in named:
            compare_calls(server, [one])
        raise Difference(f'calls {named[0][0]} to {named[-1][0]} die together, but not one by one: {fault}') from None
    for (name, call), one, reply in zip(named, cases, replies([call for _, call in named], data)):
        try:
            compare_call(name, call, reply)
        except Difference as difference:
            path = save('call.case', one)
            raise Difference(f'{difference}; saved as {path}: {describe(call)}; target/tests/calls < {path} repeats it') from None


def describe(call):
    kind = 'run' if call.ask is None else f'witness {call.ask}'
    sizes = ' '.join(f'{name} {len(getattr(call, name))}' for name in ('rules', 'edges', 'table', 'lengths', 'path'))
    return f'{kind} nodes {call.nodes} nonterminals {call.nonterminals} labels {call.labels}, bytes: {sizes}'


def fixed_calls(server):
    calls = itertools.chain(fixed.long_calls(), fixed.limit_calls())
    named = [(f'fixed call {number}', call) for number, call in enumerate(calls)]
    for first in range(0, len(named), BATCH):
        compare_calls(server, named[first:first + BATCH])
    return len(named)


def random_calls(server, chosen):
    """Compare random calls, and stop after each batch."""
    for first in range(0, chosen.calls, BATCH):
        numbers = range(first, min(first + BATCH, chosen.calls))
        compare_calls(server, [(f'seed {chosen.seed} call {n}', make.random_call(random.Random(f'{chosen.seed} call {n}')))
                               for n in numbers])
        yield len(numbers)


# Both, in turn, until the counts or the time is reached

def compare(chosen):
    programs = {name: chosen.bin / name if chosen.bin else machine.program(name) for name in PROGRAMS}
    programs = {name: path for name, path in programs.items() if built(path, chosen)}
    server = machine.build('calls', chosen.library) if built(chosen.library, chosen) else None
    first_decks = sum(1 for _ in fixed_decks(programs)) if programs else 0
    first_calls = fixed_calls(server) if server else 0
    decks = random_decks(programs, chosen) if programs else iter(())
    calls = random_calls(server, chosen) if server else iter(())
    seen = served = 0
    more = True
    while more and time.monotonic() < chosen.until:
        some = sum(1 for _ in itertools.islice(decks, 25))
        batch = next(calls, 0)
        seen, served, more = seen + some, served + batch, some or batch
    if programs:
        print(f'compare: {" and ".join(programs)}: no difference on {first_decks} fixed and {seen} random decks, seed {chosen.seed}')
    if server:
        print(f'compare: C library: no difference on {first_calls} fixed and {served} random calls, seed {chosen.seed}')


if __name__ == '__main__':
    try:
        compare(options(sys.argv[1:]))
    except Difference as difference:
        sys.exit(f'compare: DIFFERENCE: {difference}')
