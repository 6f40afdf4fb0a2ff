#!/usr/bin/env python3
"""The stored sheets that crates/shelf sorts: every third of those of crates/home/stdin, without their answers.

    shelf.py < ../crates/home/stdin > ../crates/shelf/stdin

Sheets of more than 8,192 bytes are left out. Every sheet of the first form stands a multiple of three before itself in
the second form, so both are taken or neither is.
"""
import sys

STEP = 3
MOST = 8192


def sheets(data):
    """The sheets in the frames: a line of two lengths of eight digits, the sheet, its answer."""
    at = 0
    while at < len(data):
        sheet, answer = int(data[at:at + 8]), int(data[at + 9:at + 17])
        yield data[at + 18:at + 18 + sheet]
        at += 18 + sheet + answer


def main():
    for number, sheet in enumerate(sheets(sys.stdin.buffer.read())):
        if number % STEP == 0 and len(sheet) <= MOST:
            sys.stdout.buffer.write(b'%08d\t%08d\n' % (len(sheet), 0) + sheet)


if __name__ == '__main__':
    main()
