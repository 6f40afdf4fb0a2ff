#!/usr/bin/env python3
"""The crates of this house: their sizes, how long a check of each takes, and the picture of a job's way through them.

    tools/house.py sizes            a line for each crate of crates.txt: functions, lines of src, specs and proofs, edits
    tools/house.py times NAME..     proves each crate named from nothing, one after the other (`rt verdict`): seconds by the
                                    clock and of processor time. What it stands on is proved before, and not counted
    tools/house.py picture          docs/pictures/way.txt as an SVG, on standard output; a crate that is named there and
                                    stands in no line of crates.txt is refused
    tools/house.py unnamed          crates that docs/DESIGN.md does not name

In way.txt a line `= WORDS` says what passes from one box to the next, `> TITLE | CRATES | WORDS` is a box, and
`< TITLE | WORDS` a way back from the box before it up to the box of that title. Other lines are none.
"""
import os
import re
import resource
import subprocess
import sys
import time
from html import escape

TOP = os.path.dirname(os.path.dirname(os.path.abspath(__file__)))


def crates():
    """The names of crates.txt, in its order."""
    with open(f"{TOP}/crates.txt", encoding="utf-8") as lines:
        rows = [line for line in lines if line.strip() and not line.startswith("#")]
    return [row.split(":")[0].split()[0] for row in rows]


def files(crate, folder, ending):
    """The files of a crate's folder, made ones left out."""
    for at, _, names in os.walk(f"{TOP}/crates/{crate}/{folder}"):
        yield from (f"{at}/{name}" for name in sorted(names) if name.endswith(ending))


def text(path):
    with open(path, encoding="utf-8") as file:
        return file.read()


def sizes():
    head = ("crate", "functions", "src", "specs", "proofs", "edits")
    rows = []
    for crate in crates():
        src = [text(path) for path in files(crate, "src", ".rt")]
        functions = sum(len(re.findall(r"^\s*(?:pub )?(?:extern \"C\" )?fn \w", it, re.M)) for it in src)
        lines = [sum(it.count("\n") for it in src)]
        for folder in ("specs", "proofs"):
            lines.append(sum(text(path).count("\n") for path in files(crate, folder, ".antt")))
        edits = sum(1 for _ in files(crate, "must-fail", ".edit"))
        rows.append((crate, functions, *lines, edits))
    total = ("all", *(sum(row[i] for row in rows) for i in range(1, 6)))
    for row in (head, *rows, total):
        print(f"{row[0]:20}" + "".join(f"{it:>10}" for it in row[1:]))


def times(names):
    status = 0
    for name in names:
        folder = f"{TOP}/crates/{name}"
        subprocess.run(["rt", "check"], cwd=folder, stdout=subprocess.DEVNULL, stderr=subprocess.DEVNULL, check=False)
        before, start = resource.getrusage(resource.RUSAGE_CHILDREN), time.monotonic()
        ran = subprocess.run(["rt", "verdict"], cwd=folder, stdout=subprocess.DEVNULL, stderr=subprocess.DEVNULL, check=False)
        after, end = resource.getrusage(resource.RUSAGE_CHILDREN), time.monotonic()
        used = after.ru_utime + after.ru_stime - before.ru_utime - before.ru_stime
        said = "" if ran.returncode == 0 else "  not proved"
        print(f"{name:20}{end - start:8.1f}{used:8.1f}{said}", flush=True)
        status |= ran.returncode != 0
    return int(status)


def wrapped(words, width):
    lines = [""]
    for word in words.split():
        if lines[-1] and len(lines[-1]) + 1 + len(word) > width:
            lines.append("")
        lines[-1] = f"{lines[-1]} {word}".strip()
    return lines


def picture():
    known, boxes, arrows, backs = set(crates()), [], [], []
    for line in text(f"{TOP}/docs/pictures/way.txt").splitlines():
        parts = [part.strip() for part in line[1:].split("|")]
        if line.startswith("="):
            arrows.append((len(boxes), parts[0]))
        elif line.startswith(">"):
            title, names, words = parts
            strange = [name for name in names.split() if name not in known]
            if strange:
                sys.exit(f"house.py: no crate of crates.txt: {' '.join(strange)}")
            boxes.append((title, names, words))
        elif line.startswith("<"):
            backs.append((len(boxes) - 1, parts[0], parts[1]))
    print(svg(boxes, dict(arrows), backs))


WIDE, LEFT, LINE, GAP = 640, 20, 17, 34


def svg(boxes, arrows, backs):
    out, places, y = [], {}, 10
    if 0 in arrows:
        out.append(f'<text x="{LEFT + WIDE / 2}" y="{y + 12}" class="m">{escape(arrows[0])}</text>')
        y += GAP
    for k, (title, names, words) in enumerate(boxes):
        lines = wrapped(words, 88)
        high = 2 * LINE + LINE * len(lines) + 10
        if k or 0 in arrows:
            out.append(f'<path d="M{LEFT + WIDE / 2} {y - 16}V{y - 2}" class="a" marker-end="url(#e)"/>')
        out.append(f'<rect x="{LEFT}" y="{y}" width="{WIDE}" height="{high}" rx="5"/>')
        out.append(f'<text x="{LEFT + 12}" y="{y + LINE}" class="t">{escape(title)}</text>')
        out.append(f'<text x="{LEFT + 12}" y="{y + 2 * LINE}" class="c">{escape(names)}</text>')
        for n, it in enumerate(lines):
            out.append(f'<text x="{LEFT + 12}" y="{y + (3 + n) * LINE}">{escape(it)}</text>')
        places[title] = (k, y + high / 2)
        y += high
        if k + 1 in arrows:
            out.append(f'<text x="{LEFT + WIDE / 2}" y="{y + 16}" class="m">{escape(arrows[k + 1])}</text>')
            y += GAP
        else:
            y += 20
    for n, (k, title, words) in enumerate(backs):
        at = next(h for j, h in places.values() if j == k)
        to, x = places[title][1], LEFT + WIDE + 16 + 26 * n
        out.append(f'<path d="M{LEFT + WIDE} {at}H{x}V{to}H{LEFT + WIDE + 3}" class="a" marker-end="url(#e)"/>')
        mid = (at + to) / 2
        out.append(f'<text x="{x + 12}" y="{mid}" class="m" transform="rotate(90 {x + 12} {mid})">{escape(words)}</text>')
    style = (
        "text{font:13px sans-serif;fill:#222}.t{font-weight:bold}.c{font-family:monospace;font-size:12px;fill:#245}"
        ".m{text-anchor:middle;fill:#555;font-style:italic}rect{fill:#f6f7f9;stroke:#889}.a{fill:none;stroke:#667}"
    )
    wide = LEFT + WIDE + 60 + 26 * len(backs)
    return "\n".join(
        [
            f'<svg xmlns="http://www.w3.org/2000/svg" viewBox="0 0 {wide} {y}" width="{wide}" height="{y}">',
            f"<title>The way of a job through the crates</title><style>{style}</style>",
            '<marker id="e" viewBox="0 0 8 8" refX="7" refY="4" markerWidth="7" markerHeight="7" orient="auto">'
            '<path d="M0 0L8 4L0 8z" fill="#667"/></marker>',
            f'<rect width="{wide}" height="{y}" style="fill:#fff;stroke:none"/>',
            *out,
            "</svg>",
        ]
    )


def unnamed():
    design = text(f"{TOP}/docs/DESIGN.md")
    for crate in crates():
        if not re.search(rf"(?<![\w/]){crate}(?!\w)", design):
            print(crate)


def main():
    word, *names = sys.argv[1:] or [""]
    if word == "sizes" and not names:
        sizes()
    elif word == "times" and names:
        return times(names)
    elif word == "picture" and not names:
        picture()
    elif word == "unnamed" and not names:
        unnamed()
    else:
        print(__doc__.split("\n\n")[1], file=sys.stderr)
        return 2
    return 0


sys.exit(main())
