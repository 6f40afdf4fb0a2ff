#!/usr/bin/env python3
"""A second reading of number 1: which bytes are a job sheet, by regular expressions.

    second.py SHEET...                  `sheet` or `no-sheet` and the path, for each
    second.py --make SEED COUNT FOLDER  sheets, most of them damaged, with a manifest for eval.py on standard output
"""
import os
import random
import re
import sys


def up_to(n):
    """A regular expression for the decimal numbers up to n, without leading zeros."""
    s = str(n)
    ways = ['0'] + [f'[1-9][0-9]{{{k}}}' for k in range(len(s) - 1)]
    for i, d in enumerate(s):
        low = 1 if i == 0 else 0
        if int(d) > low:
            ways.append(f'{s[:i]}[{low}-{int(d) - 1}][0-9]{{{len(s) - i - 1}}}')
    return '(?:' + '|'.join(ways + [s]) + ')'


N, X = up_to(2**32 - 1), '[0-9a-f]{8}'
BIT, FOUR, SIXTEEN = '[01]', '[0-3]', '(?:[0-9]|1[0-5])'
USES = {0: 1, 1: 1, 2: 4, 3: 0, 4: 2, 5: 2, 6: 3, 7: 3, 8: 1, 9: 0}

# a letter for each record, and its line
LINES = {
    'o': ['opt', N, X, X, X],
    'b': ['bank', N],
    'c': ['class', X, X, N, BIT],
    'r': ['reg', BIT],
    'k': ['block', N, X],
    'v': ['value', N, N, FOUR],
    'p': ['operand', N, N, N, N],
    'h': ['hint', N, N, BIT],
    's': ['seg', N, N, N, SIXTEEN],
    'e': ['end'],
}
PATTERNS = [(k, '\t'.join(fields)) for k, fields in LINES.items()]
PATTERNS.append(('g', f'vgroup(?:\t{N})*'))
PATTERNS += [('u', '\t'.join(['use', str(kind)] + [N] * (1 + count))) for kind, count in USES.items()]
PATTERNS = [(k, re.compile(p.encode())) for k, p in PATTERNS]
ORDER = re.compile('ob+c+r*k+v*g*p*h*(?:su*)*e')


def is_sheet(data):
    if not data.endswith(b'\n'):
        return False
    letters = ''
    for line in data[:-1].split(b'\n'):
        found = [k for k, p in PATTERNS if p.fullmatch(line)]
        if len(found) != 1:
            return False
        letters += found[0]
    return ORDER.fullmatch(letters) is not None


# ---- sheets to read

NUMBERS = [0, 1, 2, 3, 9, 10, 15, 16, 255, 4095, 65535, 65536, 4294967294, 4294967295]
WORDS = [b'opt', b'bank', b'class', b'reg', b'block', b'value', b'vgroup', b'operand', b'hint', b'seg', b'use', b'end']
ODD = [b'', b'00', b'01', b'-', b'-1', b'+1', b'1 ', b' 1', b'1.0', b'1e1', b'0x1', b'1_0', b'A', b'a', b'4294967296',
       b'4294967300', b'9999999999', b'42949672950', b'04294967295', b'18446744073709551616', b'16', b'10', b'4', b'2',
       b'3F800000', b'3f80000', b'03f800000', b'3f80000g', b'0x3f8000', b'\xd9\xa1', b'\0', b'1\0', b'\x001', b'1\r', b'\xff']


def one_of(rng, form):
    if form == X:
        return rng.choice([b'00000000', b'3f800000', b'7fc00000', b'ffffffff', b'0000000a', b'deadbeef', b'%08x' % rng.getrandbits(32)])
    if form == N:
        return b'%d' % rng.choice(NUMBERS if rng.random() < 0.3 else [rng.randrange(12)])
    return b'%d' % rng.randrange({BIT: 2, FOUR: 4, SIXTEEN: 16}[form])


def a_line(rng, kind):
    if kind == 'g':
        fields = [b'vgroup'] + [one_of(rng, N) for _ in range(rng.choice([0, 1, 2, 2, 3, 8, 9, 12]))]
    elif kind == 'u':
        use = rng.randrange(10)
        fields = [b'use', b'%d' % use] + [one_of(rng, N) for _ in range(1 + USES[use])]
    else:
        fields = [LINES[kind][0].encode()] + [one_of(rng, f) for f in LINES[kind][1:]]
    return b'\t'.join(fields)


def a_sheet(rng):
    some = lambda k, low: k * rng.choice([low, low, low + 1, low + 2])
    letters = 'o' + some('b', 1) + some('c', 1) + some('r', 0) + some('k', 1) + some('v', 0) + some('g', 0)
    letters += some('p', 0) + some('h', 0)
    for _ in range(rng.randrange(3)):
        letters += 's' + 'u' * rng.randrange(3)
    return [a_line(rng, k) for k in letters + 'e']


def damage_lines(rng, lines):
    i, j = rng.randrange(len(lines)), rng.randrange(len(lines))
    way = rng.randrange(9)
    if way == 0:
        del lines[i]
    elif way == 1:
        lines.insert(j, lines[i])
    elif way == 2:
        lines[i], lines[j] = lines[j], lines[i]
    elif way == 3:
        lines.insert(i, a_line(rng, rng.choice('obcrkvgphsue')))
    elif way == 4:
        lines[i] = a_line(rng, rng.choice('obcrkvgphsue'))
    elif way == 5:
        lines.insert(rng.randrange(len(lines) + 1), b'')
    elif way == 6:
        lines[i] += rng.choice([b'\r', b'\t', b' ', b'\0', b'\t0', b'\t00000000', b'#'])
    elif way == 7:
        lines[i] = rng.choice([b' ', b'\t', b'\0', b'\xef\xbb\xbf', b'+']) + lines[i]
    else:
        fields = lines[i].split(b'\t')
        fields[0] = rng.choice(WORDS + [fields[0].upper(), fields[0][:-1], fields[0] + b's', b'\0' + fields[0]])
        lines[i] = b'\t'.join(fields)


def damage_fields(rng, lines):
    i = rng.randrange(len(lines))
    fields = lines[i].split(b'\t')
    k = rng.randrange(len(fields))
    way = rng.randrange(5)
    if way == 0 and len(fields) > 1:
        del fields[max(k, 1)]
    elif way == 1:
        fields.insert(k + 1, rng.choice([b'0', b'', b'00000000', b'7']))
    elif way == 2 and k:
        fields[k] = rng.choice(ODD)
    elif way == 3 and k:
        fields[k] = b'%d' % rng.choice(NUMBERS)
    elif k:
        fields[k] = rng.choice([b'0' + fields[k], fields[k] + b'0', fields[k].upper(), fields[k][1:]])
    lines[i] = b'\t'.join(fields)


def damage_bytes(rng, data):
    i = rng.randrange(len(data) + 1)
    b = bytes([rng.choice([0, 9, 9, 10, 10, 13, 32, 45, 48, 49, 57, 58, 47, 96, 97, 102, 103, 65, 70, 127, 255, rng.randrange(256)])])
    way = rng.randrange(6)
    if way == 0:
        return data[:i] + b + data[i:]
    if way == 1:
        return data[:i] + data[i + 1:]
    if way == 2:
        return data[:i] + b + data[i + 1:]
    if way == 3:
        return data[:i] if rng.random() < 0.3 else data[:-1]
    if way == 4:
        tabs = [k for k, c in enumerate(data) if c == 9]
        k = rng.choice(tabs) if tabs else 0
        return data[:k] + rng.choice([b' ', b'\t\t', b'', b'\n', b',']) + data[k + 1:]
    return data[:i] + data[i + 1:i + 2] + data[i:i + 1] + data[i + 2:]


def make(rng):
    lines = a_sheet(rng)
    for _ in range(rng.choice([0, 1, 1, 2])):
        rng.choice([damage_lines, damage_fields, damage_fields])(rng, lines)
        if not lines:
            break
    data = b''.join(l + b'\n' for l in lines)
    for _ in range(rng.choice([0, 0, 0, 1, 1, 2])):
        data = damage_bytes(rng, data)
    return data


def main():
    if sys.argv[1:2] == ['--make']:
        seed, count, folder = int(sys.argv[2]), int(sys.argv[3]), sys.argv[4]
        os.makedirs(folder, exist_ok=True)
        for i in range(seed, seed + count):
            data = make(random.Random(i))
            path = os.path.join(folder, str(i))
            with open(path, 'wb') as f:
                f.write(data)
            print(path, 'sheet' if is_sheet(data) else 'no-sheet', '-', '-', sep='\t')
        return
    for path in sys.argv[1:]:
        with open(path, 'rb') as f:
            print('sheet' if is_sheet(f.read()) else 'no-sheet', path, sep='\t')


if __name__ == '__main__':
    main()
