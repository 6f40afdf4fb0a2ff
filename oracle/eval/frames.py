#!/usr/bin/env python3
"""Sheets with the oracle's answers, as files and a manifest for eval.py.

    gen PROFILE SEED COUNT | frames.py ORACLE FOLDER NAME [MOST] > MANIFEST

ORACLE is the program, the sheets come as frames, and are put into FOLDER under NAME and a number.
Sheets of more than MOST bytes are left out.
"""
import os
import subprocess
import sys


def frames(data, word):
    """The fields behind the word and the length in each frame's head, and the bytes."""
    at = 0
    while at < len(data):
        end = data.index(b'\n', at)
        head = data[at:end].decode().split('\t')
        assert head[0] == word, head
        size = int(head[1])
        yield head[2:], data[end + 1:end + 1 + size]
        at = end + 1 + size


def frame(room, data):
    return b'sheet\t%d\t%s\n' % (len(data), room.encode()) + data


def main():
    oracle, folder, name = sys.argv[1:4]
    most = int(sys.argv[4]) if len(sys.argv) > 4 else 1 << 40
    os.makedirs(folder, exist_ok=True)
    sheets = [(room, data) for (room,), data in frames(sys.stdin.buffer.read(), 'sheet') if len(data) <= most]
    made = b''.join(frame(*s) for s in sheets)
    told = subprocess.run([oracle, '--stream'], input=made, check=True, capture_output=True).stdout
    for i, ((room, data), ((stop,), answer)) in enumerate(zip(sheets, frames(told, 'answer'))):
        path = os.path.join(folder, f'{name}-{i}')
        for file, content in ((path, data), (path + '.out', answer)):
            with open(file, 'wb') as f:
                f.write(content)
        print(path, path + '.out', room, stop, sep='\t')


if __name__ == '__main__':
    main()
