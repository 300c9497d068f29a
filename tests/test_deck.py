"""The deck tool's test: what it prints it writes back to the same bytes, and what it refuses it refuses at the line."""
import importlib.machinery
import importlib.util
import random

import closure
import examples
import make

loader = importlib.machinery.SourceFileLoader('deck', str(examples.ROOT / 'tools' / 'deck'))
deck = importlib.util.module_from_spec(importlib.util.spec_from_loader('deck', loader))
loader.exec_module(deck)

SMALL = ['nodes a b', 'kind k 1 = x', 'rule A -> x', 'query A', 'edge a k b']
REFUSED = [  # a line to add to the small text, and what it is refused for
    ('nodes a', 'a is in nodes since line 1'),
    ('nodes ' + ' '.join(f'n{i}' for i in range(63)), 'more than 64 nodes'),
    ('nonterminals x', 'x is in labels since line 2'),
    ('labels A', 'A is in nonterminals since line 3'),
    ('kind k 2 = x', 'kind k'),
    ('kind l 1 = x', 'its number 1'),
    ('kind l 65536 = x', 'no number from 0 to 65535'),
    ('kind 7 7 = x', 'a name that is no number'),
    ('rule A -> A', 'A is in nonterminals'),
    ('rule A -> x A', 'x is in labels'),
    ('rule A ->', 'no statement'),
    ('rule A -> A A A', 'no statement'),
    ('query A', 'a second query'),
    ('edge a k c', 'no node c'),
    ('edge a l b', 'no kind l'),
    ('edge a 70000 b', 'no number from 0 to 65535'),
    ('edges a k b', 'no statement'),
]
MISSING = [([], 'no nodes'), (SMALL[:1], 'no nonterminals'), (['nodes a', 'query A'], 'no labels'), (SMALL[:3], 'no query')]


def wrong(action, *arguments):
    """The message of what the tool refuses."""
    try:
        action(*arguments)
    except deck.Wrong as message:
        return str(message)
    return 'nothing'


def again(data):
    """A deck printed and written back."""
    return deck.encode(deck.parse(deck.show(data).splitlines()))


def main():
    for line, why in REFUSED:
        message = wrong(deck.parse, SMALL + ['', line + ' # here'])
        assert message.startswith('line 7: ') and why in message, (line, message)
    for lines, why in MISSING:
        message = wrong(deck.parse, lines)
        assert message.startswith(f'line {len(lines)}: ') and why in message, message
    printed = 0
    for number in range(300):
        data = make.random_deck(random.Random(f'deck tool {number}'))
        try:
            closure.read(data)
            has_text = True
        except closure.Refused as refusal:
            has_text = refusal.number == 9  # an edge may name a kind by its number
        told = wrong(again, data)
        assert (told == 'nothing') == has_text, told
        if has_text:
            assert again(data) == data
        printed += has_text
    print(f'deck tool: {len(REFUSED) + len(MISSING)} texts refused at their lines, {printed} decks of 300 printed and '
          'written back, the others refused')


if __name__ == '__main__':
    main()
