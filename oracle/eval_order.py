#!/usr/bin/env python3
"""Holds the definition's order on two job sheets to its second reading: the checker computes it for every pair.

    gen --threes PROFILE SEED COUNT | eval_order.py ORDER [--most BYTES]

ORDER is the program `order` built here, which says of each pair of sheets what has to be written. The checker computes
`ordered_text` of crates/definition (JobOrder) on the same bytes, in a temporary copy of it, and both outputs are compared byte for byte.
Pairs with a sheet of more than BYTES bytes (2,000 if not said) are left out. Exit status 0 if all agree.
"""
import argparse
import os
import subprocess
import sys
from collections import Counter

import eval as sheets

sys.path.insert(0, os.path.join(sheets.HERE, 'eval'))
from frames import frame, frames

HEAD = """-- Pairs of sheets, and what is written of each. Assumes nothing.
use mathlib.Core.Path.{◌≡◌, refl}
use Prim.Native.Nat.{ℕ}
use Prim.Native.String.{String}
use mathlib.Core.List.{List, [], ◌∷◌, ◌++◌, map}
use Rattle.definition.specs.Text.{bytes, decimal}
use Rattle.definition.specs.JobOrder.{ordered_text}

text : List String → List ℕ
text [] = []
text (l ∷ ls) = bytes l ++ text ls

abbrev Case : Type 0
Case = List String × List String × List String

got : Case → List ℕ
unfolding ordered_text decimal text
got c = ordered_text (text c.0) (text c.1)

want : Case → List ℕ
unfolding text
want c = text c.2
"""


class Case:
    def __init__(self, number, first, second, expected):
        self.path = f'pair {number}'
        self.first, self.second, self.expected = first, second, expected

    def size(self):
        return len(self.first) + len(self.second)

    def term(self):
        texts = (' ∷ '.join([sheets.literal(l) for l in sheets.lines(t)] + ['[]'])
                 for t in (self.first, self.second, self.expected))
        return '({}, {}, {})'.format(*texts)

    def outcome(self):
        return self.expected.decode().strip().replace('\t', ' ')


class Checker(sheets.Checker):
    head = HEAD


def said_of(program, data, most):
    """A case for each pair of sheets that are short enough."""
    given = [sheet for _, sheet in frames(data, 'sheet')]
    pairs = [pair for pair in zip(given[::2], given[1::2]) if max(map(len, pair)) <= most]
    made = b''.join(frame('-', sheet) for pair in pairs for sheet in pair)
    told = subprocess.run([program, '--stream'], input=made, check=True, capture_output=True).stdout
    answers = [text for _, text in frames(told, 'answer')]
    assert len(answers) == len(pairs), 'an answer is missing'
    return [Case(i, *pair, text) for i, (pair, text) in enumerate(zip(pairs, answers))]


def main():
    args = argparse.ArgumentParser(description='Holds the definition\'s order to its second reading.')
    args.add_argument('order')
    args.add_argument('--most', type=int, default=2000)
    args = args.parse_args()
    cases = said_of(args.order, sys.stdin.buffer.read(), args.most)
    for outcome, count in sorted(Counter(c.outcome() for c in cases).items()):
        print(f'{outcome}: {count}')
    print(f'{len(cases)} pairs', flush=True)
    sys.exit(0 if sheets.hold_all(Checker(os.path.dirname(sheets.HERE)), cases, 100000, 5000) else 1)


if __name__ == '__main__':
    main()
