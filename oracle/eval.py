#!/usr/bin/env python3
"""Holds the definition to expected answers: the checker computes the register sheet of each job sheet.

    eval.py MANIFEST [--bytes N] [--lemma N]

A line of MANIFEST has four fields, parted by tabs:
- the job sheet's path;
- the path of the expected output (a register sheet, or a refusal's line), or `sheet` or `no-sheet` where only number 1 is compared;
- the room as registers,segments,uses,groups, or - for that of `vregs`;
- the stop's name (no-start, turned-def, values-differ, mapped-twice, overlap, none-admitted), or - where it is not compared.

A temporary copy of crates/definition, without its proofs but for those of its functions, gets a module of tables: sheets and expected outputs
as texts, and an equation by computation for each lemma. A module holds about --bytes bytes of sheets, a lemma
about --lemma. Where an equation is refused, or the checker gives no verdict on it, its sheets are tried one by one.
Prints the counts, and the paths of the sheets that differ or got no verdict. Exit status 0 if all agree.
"""
import argparse
import glob
import os
import re
import shutil
import subprocess
import sys
import tempfile
import time

HERE = os.path.dirname(os.path.abspath(__file__))

HEAD = """-- Sheets and their expected answers. Assumes nothing.
use mathlib.Core.Path.{◌≡◌, refl}
use Prim.Native.Nat.{ℕ}
use Prim.Native.String.{String}
use mathlib.Core.Option.{Option, none, some}
use mathlib.Core.List.{List, [], ◌∷◌, ◌++◌, map}
use Rattle.definition.specs.Types.{Room, Stop, NoStart, TurnedDef, ValuesDiffer, MappedTwice, Overlap, NoneAdmitted, Refusal, NotARecord, OverALimit, BadBook, BadFunction, BadHint, BadSegment, BadUse, Stopped, Full}
use Rattle.definition.specs.Limits.{vregs_room}
use Rattle.definition.specs.Build.{Result}
use Rattle.definition.specs.Text.{bytes}
use Rattle.definition.specs.JobSheet.{Record}
use Rattle.definition.specs.declared.SheetRefusal.TheVariants.{By, WrittenDiffers}
use Rattle.definition.specs.SheetForms.{SheetOut, given', refused', records_in, answer_to_sheet, answer_text}

text : List String → List ℕ
text [] = []
text (l ∷ ls) = bytes l ++ text ls

room : ℕ → ℕ → ℕ → ℕ → Room
room r s u g = record { registers = r; segments = s; uses = u; groups = g }

stop_name : Stop → String
stop_name NoStart = "no-start"
stop_name TurnedDef = "turned-def"
stop_name ValuesDiffer = "values-differ"
stop_name MappedTwice = "mapped-twice"
stop_name Overlap = "overlap"
stop_name NoneAdmitted = "none-admitted"

stop_of : Refusal → String
unfolding stop_name
stop_of NotARecord = "-"
stop_of OverALimit = "-"
stop_of BadBook = "-"
stop_of BadFunction = "-"
stop_of BadHint = "-"
stop_of BadSegment = "-"
stop_of BadUse = "-"
stop_of (Stopped s) = stop_name s
stop_of Full = "-"

stop_text : SheetOut Result → List ℕ
unfolding stop_of
stop_text (given' r) = bytes "-"
stop_text (refused' (By r)) = bytes (stop_of r)
stop_text (refused' WrittenDiffers) = bytes "-"

abbrev is_sheet : Option (List Record) → String
is_sheet none = "no-sheet"
is_sheet (some rs) = "sheet"

-- what is compared: whether it is a sheet; the register sheet; the stop's name behind it
data Ask : Type 0 where
  whether answered stopped : Ask

told : Ask → List ℕ → Room → List ℕ
unfolding stop_text answer_text answer_to_sheet records_in
told whether bs r = bytes (is_sheet (records_in bs))
told answered bs r = answer_text (answer_to_sheet bs r)
told stopped bs r = let a = answer_to_sheet bs r in answer_text a ++ stop_text a

abbrev Case : Type 0
Case = List String × Room × Ask × List String

got : Case → List ℕ
unfolding told text
got c = told c.2 (text c.0) c.1

want : Case → List ℕ
unfolding text
want c = text c.3
"""

ESCAPES = {9: '\\t', 10: '\\n', 13: '\\r', 34: '\\"', 92: '\\\\'}


def literal(data):
    return '"' + ''.join(ESCAPES.get(b) or (chr(b) if 32 <= b < 127 else '\\u{%x}' % b) for b in data) + '"'


def lines(data):
    """With their line feeds. A text for each: opening a text copies the rest of it."""
    out, at = [], 0
    while at < len(data):
        end = data.find(b'\n', at)
        end = len(data) if end < 0 else end + 1
        out.append(data[at:end])
        at = end
    return out


class Case:
    def __init__(self, row):
        self.path, self.room = row[0], row[2]
        with open(row[0], 'rb') as f:
            self.sheet = f.read()
        self.ask = 'answered'
        if row[1] in ('sheet', 'no-sheet'):
            self.ask, self.expected = 'whether', row[1].encode()
            return
        with open(row[1], 'rb') as f:
            self.expected = f.read()
        if row[3] != '-':
            self.ask, self.expected = 'stopped', self.expected + row[3].encode()

    def size(self):
        return len(self.sheet) + len(self.expected)

    def term(self):
        room = 'vregs_room' if self.room == '-' else 'room ' + self.room.replace(',', ' ')
        sheet, expected = (' ∷ '.join([literal(l) for l in lines(t)] + ['[]']) for t in (self.sheet, self.expected))
        return f'({sheet}, {room}, {self.ask}, {expected})'


def lemma(name, cases):
    table = '\n    ∷ '.join([c.term() for c in cases] + ['[]'])
    rooms = 'unfolding room\n' if any(getattr(c, 'room', '-') != '-' for c in cases) else ''
    return (f'\n{name} : List Case\n{rooms}{name} =\n    {table}\n'
            f'\n{name}-holds : map got {name} ≡ map want {name}\nunfolding got want {name}\n{name}-holds = refl\n')


def grouped(cases, size):
    """Neighbours, each group of about `size` bytes."""
    group, held = [], 0
    for c in cases:
        if group and held + c.size() > size:
            yield group
            group, held = [], 0
        group.append(c)
        held += c.size()
    if group:
        yield group


class Checker:
    crate, head = 'definition', HEAD

    def __init__(self, root):
        self.folder = tempfile.mkdtemp(prefix='eval-')
        crate = os.path.join(self.folder, 'crates', 'definition')
        for part in ('src', 'specs'):
            shutil.copytree(os.path.join(root, 'crates', 'definition', part), os.path.join(crate, part))
        self.proofs = os.path.join(crate, 'proofs')
        os.mkdir(self.proofs)
        kept = os.path.join(root, 'crates', 'definition', 'proofs')
        for answers in glob.glob('**/Answers.antt', root_dir=kept, recursive=True):
            os.makedirs(os.path.join(self.proofs, os.path.dirname(answers)), exist_ok=True)
            shutil.copy(os.path.join(kept, answers), os.path.join(self.proofs, answers))
        with open(os.path.join(self.folder, 'crates.txt'), 'w') as f:
            f.write('definition:\n')
        self.seconds = 0.0

    def refused(self, groups):
        """For each group that is not proved its number, and whether it stopped at a limit; None where the check itself failed."""
        with open(os.path.join(self.proofs, 'Lib.antt'), 'w') as f:
            f.write('mod Eval\n')
        module = self.head + ''.join(lemma(f'c{i}', g) for i, g in enumerate(groups))
        with open(os.path.join(self.proofs, 'Eval.antt'), 'w') as f:
            f.write(module)
        start = time.time()
        run = subprocess.run(['rt', 'check'], cwd=os.path.join(self.folder, 'crates', self.crate), capture_output=True,
                             text=True)
        self.seconds += time.time() - start
        self.log = run.stdout + run.stderr
        if run.returncode == 0 and 'logic=proved' in self.log:
            return {}
        errors = re.findall(r'error: `c(\d+)-holds`(.*)', self.log)
        return {int(n): 'step limit' in text for n, text in errors} or None

    def close(self):
        shutil.rmtree(self.folder, ignore_errors=True)


def hold(checker, groups, found):
    """Sorts the cases of the groups into found; a refused group is tried case by case."""
    bad = checker.refused(groups)
    if bad is None:
        print(checker.log[-2000:], file=sys.stderr)
        found['no verdict'] += [c for g in groups for c in g]
        return
    alone = []
    for i, group in enumerate(groups):
        if i not in bad:
            found['agrees'] += group
        elif len(group) == 1:
            found['no verdict' if bad[i] else 'differs'] += group
        else:
            alone += [[c] for c in group]
    if alone:
        hold(checker, alone, found)


def hold_all(checker, cases, in_module, in_lemma):
    """Whether all agree; prints the counts, and the paths of those that don't."""
    found = {'agrees': [], 'differs': [], 'no verdict': []}
    try:
        for chunk in grouped(cases, in_module):
            hold(checker, list(grouped(chunk, in_lemma)), found)
            counts = [len(found[word]) for word in ('agrees', 'differs', 'no verdict')]
            print('{} agreed, {} differed, {} without a verdict ({:.0f} s)'.format(*counts, checker.seconds), flush=True)
    finally:
        checker.close()
    for word in ('differs', 'no verdict'):
        for c in found[word]:
            print(word, c.path, sep='\t')
    return len(found['agrees']) == len(cases)


def main():
    args = argparse.ArgumentParser(description='Holds the definition to expected answers.')
    args.add_argument('manifest')
    args.add_argument('--bytes', type=int, default=100000, help='of sheets and expected outputs in a module')
    args.add_argument('--lemma', type=int, default=5000, help='of sheets and expected outputs under a lemma')
    args = args.parse_args()
    with open(args.manifest) as f:
        cases = [Case(l.rstrip('\n').split('\t')) for l in f if l.strip()]
    sys.exit(0 if hold_all(Checker(os.path.dirname(HERE)), cases, args.bytes, args.lemma) else 1)


if __name__ == '__main__':
    main()
