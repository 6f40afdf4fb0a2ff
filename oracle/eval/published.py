#!/usr/bin/env python3
"""How the answers of two oracles to the same sheets differ.

    published.py ALTERED PUBLISHED

Both files hold the answer frames of `oracle --stream`, to the same sheets in the same order.
"""
import sys
from collections import Counter

from frames import frames


def outcome(answer):
    """The answer's number, or accepted."""
    return answer.decode().split()[1] if answer.startswith(b'refused') else 'accepted'


def kind(altered, published):
    ours, theirs = outcome(altered), outcome(published)
    if ours != theirs:
        return f'{theirs} for {ours}'
    return 'other registers' if altered != published else 'same'


def main():
    altered, published = ([answer for _, answer in frames(open(name, 'rb').read(), 'answer')] for name in sys.argv[1:3])
    assert len(altered) == len(published), (len(altered), len(published))
    kinds = Counter(map(kind, altered, published))
    differ = {name: count for name, count in sorted(kinds.items()) if name != 'same'}
    told = ', '.join(f'{name}: {count}' for name, count in differ.items())
    print(f'{len(altered)} sheets, {sum(differ.values())} differ' + (f' ({told})' if told else ''))


if __name__ == '__main__':
    main()
