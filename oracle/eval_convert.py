#!/usr/bin/env python3
"""Holds the definition's two conversions to their second reading: the checker computes them for every sheet.

    gen PROFILE SEED COUNT | eval_convert.py CONVERT [--most BYTES]

CONVERT is the program `convert`, which says of each sheet what `to_form2` and what `to_form1` have to write. The checker
computes `to_form2` and `to_form1` of crates/definition (Conversion) on the same bytes, in a temporary copy of it, and both
outputs are compared byte for byte. Sheets of more than BYTES bytes (3,000 if not said) are left out. Exit status 0 if all
agree.
"""
import argparse
import os
import subprocess
import sys
from collections import Counter

import eval as sheets

sys.path.insert(0, os.path.join(sheets.HERE, 'eval'))
from frames import frame, frames

HEAD = """-- Sheets, and what the two conversions write. Assumes nothing.
use mathlib.Core.Path.{◌≡◌, refl}
use Prim.Native.Nat.{ℕ}
use Prim.Native.String.{String}
use mathlib.Core.List.{List, [], ◌∷◌, ◌++◌, map}
use Rattle.definition.specs.Text.{bytes}
use Rattle.definition.specs.Conversion.{to_form2, to_form1}

text : List String → List ℕ
text [] = []
text (l ∷ ls) = bytes l ++ text ls

-- which program
data Ask : Type 0 where
  to_second to_first : Ask

told : Ask → List ℕ → List ℕ
unfolding to_form2 to_form1
told to_second bs = to_form2 bs
told to_first bs = to_form1 bs

abbrev Case : Type 0
Case = List String × Ask × List String

got : Case → List ℕ
unfolding told text
got c = told c.1 (text c.0)

want : Case → List ℕ
unfolding text
want c = text c.2
"""
ASKS = {'to_form2': 'to_second', 'to_form1': 'to_first'}


class Case:
    def __init__(self, number, sheet, program, expected):
        self.path, self.program = f'sheet {number}, {program}', program
        self.sheet, self.expected = sheet, expected

    def size(self):
        return len(self.sheet) + len(self.expected)

    def term(self):
        sheet, expected = (' ∷ '.join([sheets.literal(l) for l in sheets.lines(t)] + ['[]'])
                           for t in (self.sheet, self.expected))
        return f'({sheet}, {ASKS[self.program]}, {expected})'

    def outcome(self):
        refused = self.expected.startswith(b'refused')
        return self.program + ': ' + (self.expected.decode().strip().replace('\t', ' ') if refused else 'converted')


class Checker(sheets.Checker):
    head = HEAD


def said_of(program, data, most):
    """Two cases for each sheet that is short enough."""
    kept = [sheet for _, sheet in frames(data, 'sheet') if len(sheet) <= most]
    made = b''.join(frame('-', sheet) for sheet in kept)
    told = subprocess.run([program, '--stream'], input=made, check=True, capture_output=True).stdout
    answers = list(frames(told, 'answer'))
    assert len(answers) == 2 * len(kept), 'an answer is missing'
    return [Case(i // 2, kept[i // 2], name, text) for i, ((name,), text) in enumerate(answers)]


def main():
    args = argparse.ArgumentParser(description='Holds the definition\'s conversions to their second reading.')
    args.add_argument('convert')
    args.add_argument('--most', type=int, default=3000)
    args = args.parse_args()
    cases = said_of(args.convert, sys.stdin.buffer.read(), args.most)
    for outcome, count in sorted(Counter(c.outcome() for c in cases).items()):
        print(f'{outcome}: {count}')
    print(f'{len(cases) // 2} sheets, {len(cases)} outputs', flush=True)
    sys.exit(0 if sheets.hold_all(Checker(os.path.dirname(sheets.HERE)), cases, 100000, 5000) else 1)


if __name__ == '__main__':
    main()
