#!/usr/bin/env python3
"""Frames of sheets in, the same with a few numbers or lines changed out: sheets near the edges of the entry rules.

    gen PROFILE SEED COUNT | edits.py SEED
"""
import random
import sys

from frames import frame, frames

HEX = {'opt': (2, 3, 4), 'class': (1, 2), 'block': (2,)}
BITS = ['00000000', '80000000', '00000001', '3f800000', '49800000', '49800001', '7f7fffff', '7f800000', '7fc00000', 'bf800000']
EDGES = [0, 1, 2, 3, 7, 8, 9, 31, 32, 255, 256, 4095, 4096, 65535, 65536, 4294967295]


def other(rng, fields, k):
    if k in HEX.get(fields[0], ()):
        return rng.choice(BITS + ['%08x' % (1 << rng.randrange(32)), '%08x' % (int(fields[k], 16) ^ 1 << rng.randrange(8))])
    n = int(fields[k])
    if rng.random() < 0.75:
        return str(max(0, n + rng.choice([-4, -3, -2, -1, -1, 1, 1, 2, 3, 4])))
    return str(rng.choice(EDGES))


def edit(rng, lines):
    i = rng.randrange(len(lines))
    fields = lines[i].split('\t')
    way = rng.random()
    if way < 0.75 and len(fields) > 1:
        k = rng.randrange(1, len(fields))
        fields[k] = other(rng, fields, k)
        lines[i] = '\t'.join(fields)
    elif way < 0.85:
        same = [j for j, l in enumerate(lines) if l.split('\t')[0] == fields[0]]
        j = rng.choice(same)
        lines[i], lines[j] = lines[j], lines[i]
    elif way < 0.92 and fields[0] not in ('opt', 'end'):
        lines.insert(i, lines[i])
    elif fields[0] not in ('opt', 'end'):
        del lines[i]


def main():
    rng = random.Random(int(sys.argv[1]))
    for (room,), data in frames(sys.stdin.buffer.read(), 'sheet'):
        lines = data.decode().split('\n')[:-1]
        for _ in range(rng.choice([1, 1, 1, 2, 3])):
            edit(rng, lines)
        sys.stdout.buffer.write(frame(room, ''.join(l + '\n' for l in lines).encode()))


if __name__ == '__main__':
    main()
