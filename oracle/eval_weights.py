#!/usr/bin/env python3
"""Holds the words of crates/build_answer to exact numbers: the checker computes them for every register of each sheet.

    gen PROFILE SEED COUNT | eval_weights.py EXACT [--most BYTES]

EXACT is the program `exact`. It says of each register that the theorem speaks of: its number, n, whether the conditions
hold, whether the bound does, and the exact sum. The checker computes the same from the sheet, by the definition's
answer to it and by `nonzeros`, `fine_segs`, `fine_quotient`, `distance` and `exact_sum`, in a temporary copy of the crates.
Sheets of more than BYTES bytes (6,000 if not said) are left out. Exit status 0 if all agree.
"""
import argparse
import os
import shutil
import subprocess
import sys
import tempfile

import eval as sheets

sys.path.insert(0, os.path.join(sheets.HERE, 'eval'))
from frames import frame, frames

HEAD = """-- Sheets, and what is said of their registers. Assumes nothing.
use mathlib.Core.Path.{◌≡◌, refl}
use Prim.Native.Nat.{ℕ, suc, ◌+◌, ◌*◌, ◌^◌}
use Prim.Native.String.{String}
use mathlib.Core.Bool.{Bool, true, false, cond, not, ◌&&◌}
use mathlib.Core.Option.{Option, none, some}
use mathlib.Core.List.{List, [], ◌∷◌, ◌++◌, map}
use lib.Dec.{leb}
use Rattle.std.specs.Prelude.{Float}
use Rattle.std.specs.Float.{nan, inf, fin}
use Rattle.std.specs.Float.Ieee.Positive.{num, den}
use Rattle.definition.specs.Types.{Job, Out, Register, done, refused}
use Rattle.definition.specs.Limits.{vregs_room}
use Rattle.definition.specs.RegInfo.{zero_f}
use Rattle.definition.specs.LiveRange.{live_insts}
use Rattle.definition.specs.Weights.{sum_segs}
use Rattle.definition.specs.Place.{is_none, segs_of}
use Rattle.definition.specs.Build.{Result}
use Rattle.definition.specs.Entry.{answer}
use Rattle.definition.specs.Text.{bytes}
use Rattle.definition.specs.JobSheet.{job_of_sheet}
use Rattle.build_answer.specs.Truth.{distance, exact_sum, fine_quotient, fine_segs, nonzeros}

text : List String → List ℕ
text [] = []
text (l ∷ ls) = bytes l ++ text ls

is_inf : Float → Bool
is_inf nan = false
is_inf (inf s) = true
is_inf (fin s m e) = false

bit : Bool → ℕ
bit b = cond b 1 0

-- register i: n, whether the conditions hold, whether the bound does, the exact sum
row : Job → ℕ → Register → List ℕ
unfolding bit nonzeros fine_segs fine_quotient sum_segs live_insts exact_sum
row job i r =
    let ss = segs_of r.pieces in
    let w = r.weight in
    let n = nonzeros job ss in
    let s = exact_sum job ss in
    let d = live_insts ss + job.options.adjust in
    let near = leb (distance (num w * (2 ^ 447 * d)) (s * den w) * 2 ^ 23) ((n + 3) * (s * den w)) in
    i ∷ n ∷ bit (fine_segs job zero_f ss && fine_quotient (sum_segs job zero_f ss) d) ∷ bit near ∷ s ∷ []

rows : Job → ℕ → List Register → List (List ℕ)
unfolding row is_inf
rows job i [] = []
rows job i (r ∷ rs) =
    let q = rows job (suc i) rs in
    cond (is_none r.group && not (is_inf r.weight)) (row job i r ∷ q) q

answered : Job → Out Result → List (List ℕ)
unfolding rows
answered job (refused f) = []
answered job (done res) = rows job 0 res.registers

asked : Option Job → List (List ℕ)
unfolding answered answer
asked none = []
asked (some job) = answered job (answer job vregs_room)

abbrev Case : Type 0
Case = List String × List (List ℕ)

got : Case → List (List ℕ)
unfolding asked job_of_sheet text
got c = asked (job_of_sheet (text c.0))

want : Case → List (List ℕ)
want c = c.1
"""


class Case:
    def __init__(self, path, sheet, said):
        self.path, self.sheet = path, sheet
        self.rows = [line.split('\t') for line in said.decode().splitlines()]

    def size(self):
        return len(self.sheet) + sum(len(field) for row in self.rows for field in row)

    def term(self):
        sheet = ' ∷ '.join([sheets.literal(line) for line in sheets.lines(self.sheet)] + ['[]'])
        numbers = [row[:-1] + [str(int(row[-1], 16))] for row in self.rows]
        rows = ' ∷ '.join(['(' + ' ∷ '.join(row + ['[]']) + ')' for row in numbers] + ['[]'])
        return f'({sheet}, {rows})'


def listed(root):
    """The crates that each crate of crates.txt names."""
    with open(os.path.join(root, 'crates.txt')) as lines:
        rows = [line.split(':') for line in lines if line.strip() and not line.startswith('#')]
    return {name.split()[0]: named.split() for name, named in rows}


def below(named, crate):
    """A crate with all that it stands on in the repository."""
    found = [crate]
    for name in found:
        found += [it for it in named[name] if it in named and it not in found]
    return found


class Checker(sheets.Checker):
    """As that of the sheets, in a crate of its own beside build_answer and all that this stands on."""

    crate, head = 'exact_weights', HEAD

    def __init__(self, root):
        self.folder = tempfile.mkdtemp(prefix='eval-')
        self.seconds = 0.0
        named = listed(root)
        with open(os.path.join(self.folder, 'crates.txt'), 'w') as to:
            for name in below(named, 'build_answer'):
                shutil.copytree(os.path.join(root, 'crates', name), os.path.join(self.folder, 'crates', name),
                                ignore=shutil.ignore_patterns('out'))
                to.write(f"{name}: {' '.join(named[name])}\n")
            to.write(f'{self.crate}: definition build_answer\n')
        for part in ('src', 'proofs'):
            os.makedirs(os.path.join(self.folder, 'crates', self.crate, part))
        with open(os.path.join(self.folder, 'crates', self.crate, 'src', 'lib.rt'), 'w') as to:
            to.write('// The weights of sheets in exact numbers.\n#![tactic(auto)]\n')
        self.proofs = os.path.join(self.folder, 'crates', self.crate, 'proofs')


def said_of(program, data, most):
    """A case for each sheet that is short enough."""
    kept = [(room, sheet) for (room,), sheet in frames(data, 'sheet') if len(sheet) <= most]
    made = b''.join(frame(*s) for s in kept)
    told = subprocess.run([program, '--words'], input=made, check=True, capture_output=True).stdout
    answers = [said for _, said in frames(told, 'answer')]
    assert len(answers) == len(kept), 'an answer is missing'
    return [Case(f'sheet {i}', sheet, said) for i, ((_, sheet), said) in enumerate(zip(kept, answers))]


def main():
    args = argparse.ArgumentParser(description='Holds the words of build_answer to exact numbers.')
    args.add_argument('exact')
    args.add_argument('--most', type=int, default=6000)
    args = args.parse_args()
    cases = said_of(args.exact, sys.stdin.buffer.read(), args.most)
    rows = [row for case in cases for row in case.rows]
    print('{} sheets, {} registers, {} within the conditions; the bound holds of {}'.format(
        len(cases), len(rows), sum(row[2] == '1' for row in rows), sum(row[3] == '1' for row in rows)), flush=True)
    sys.exit(0 if sheets.hold_all(Checker(os.path.dirname(sheets.HERE)), cases, 100000, 5000) else 1)


if __name__ == '__main__':
    main()
