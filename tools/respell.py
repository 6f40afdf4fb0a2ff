#!/usr/bin/env python3
"""Brings the repository's own definitions and lemmas to one spelling: words in snake case, types and modules in camel case.

usage: tools/respell.py            at the top of the repository, once, after the kit's port.py
       tools/respell.py --list     prints the new names beside the old ones, and writes nothing

It reads and writes the .antt files, the clauses and `ghost use` lines of the .rt files, the must-fail edits, and what
stands in back quotes in comments and in the .md files. Names of functions of src/, exported names and strings stay.
  - a name in mixed case becomes snake case: wordCount is word_count;
  - a dash in a name that a file of specs/ or proofs/ (not of one function's proof) declares becomes _: word-number is
    word_number; a name that begins with a type keeps its dash (Kept-filled);
  - where a lemma falls together with a definition in one file, the lemma ends in _lem;
  - the proof that a function's file exports is called after its folder: put-3-spec in proofs/put_3 is put_3_spec.
"""
import collections
import os
import re
import sys

TOKEN = re.compile(r"[^\s(){}\[\];,.\":`]+")
SIG = re.compile(r"^\s*(?:(?:abbrev|unfoldable|pub|ruleset) )*([^\s(){}:;,.\[\]]+) : ")
HEAD = re.compile(r"^\s*(?:pub )?(?:record|data) ([^\s(){}:]+)")
USE = re.compile(r"\s*(?:pub |unfoldable |ghost )*use (\S+?)\.\{(.*)\}")
CAMEL = re.compile(r"^[a-z][a-z0-9_'₀-₉-]*[A-Z]")
# said by hand: names with a case or a word that was renamed in them
NAMED = {
    "E-order": "e_order",
    "E-turned": "e_turned",
    "A-printed": "a_printed",
    "case-F-early": "case_f_early",
    "case-F-late": "case_f_late",
    "case-G-early": "case_g_early",
    "case-H": "case_h",
    "pad-getD": "pad_get_or",
    "getD-behind": "get_or_behind",
    "getD-memb": "get_or_memb",
    "getD-padded": "get_or_padded",
    "getD-rows-at": "get_or_rows_at",
    "getD-splice-before": "get_or_splice_before",
    "getD-splice-in": "get_or_splice_in",
    "getD-tab": "get_or_tab",
}
# names that were in snake case before and are lemmas beside a definition of that name
LEMMAS = """by_first bytes_left end_line has_at last_to left_row move_row moves_read one_more operands_of piece_of
 segs_end uses_end room_of whole_part word_number pieces_more rows_behind rows_left same_place same_set fields_in
 ends_by from_row row_words first_field""".split()


def snake(n):
    s = re.sub(r"([a-z0-9₀-₉'])([A-Z])", lambda m: m[1] + "_" + m[2].lower(), n)
    return re.sub(r"([_-])([A-Z])", lambda m: m[1] + m[2].lower(), s)


def files(ending, top="crates"):
    for d, dirs, fs in os.walk(top):
        dirs[:] = sorted(x for x in dirs if x not in ("out", ".git", "target"))
        for f in sorted(fs):
            if f.endswith(ending):
                yield os.path.join(d, f)


def read(p):
    with open(p, encoding="utf-8", newline="") as f:
        return f.read()


def bare(text):
    """A text without its strings and comments."""
    text = re.sub(r'"(?:\\.|[^"\\])*"', '""', text)
    return re.sub(r"--.*", "", text)


def of_function(p):
    """Whether it is a file of one function's proof."""
    rel = p.split("/proofs/")
    return len(rel) == 2 and "/" in rel[1]


def paths(text):
    """The text without the paths of its `use` lines, where crates and functions are named."""
    return re.sub(r"(?m)^(\s*(?:pub |unfoldable |ghost )*use )\S+?(\.\{|\.?$| as )", r"\1\2", text)


def names():
    antt = list(files(".antt"))
    text = {p: read(p) for p in antt}
    own, outside = set(), set()
    for p, t in text.items():
        for l in t.split("\n"):
            m = SIG.match(l) or HEAD.match(l)
            if m and not of_function(p):
                own.add(m[1])
            u = USE.match(l)
            if u and (not u[1].startswith("Rattle.") or u[1].startswith("Rattle.std.")):
                outside |= {x.strip().split(" as ")[0] for x in u[2].split(",")}
    tokens = {p: set(TOKEN.findall(bare(paths(t)))) for p, t in text.items()}
    new = {}
    for n in own | {t for ts in tokens.values() for t in ts if CAMEL.match(t)}:
        if n in NAMED:
            new[n] = NAMED[n]
        elif n in outside or not re.match("[a-z]", n):
            continue
        elif CAMEL.match(n) or "-" in n and n in own:
            new[n] = snake(n).replace("-", "_")
    # lemmas beside a definition of the same new name, in some file
    lemmas = {n for n in own if "-" in n}
    for p, ts in tokens.items():
        at = collections.defaultdict(set)
        for t in ts:
            at[new.get(t, t)].add(t)
        for k, group in at.items():
            if len(group) > 1:
                for n in group & lemmas:
                    if n in new:
                        new[n] = snake(n).replace("-", "_") + "_lem"
                if not group & lemmas and not of_function(p):
                    for n in group:
                        if n in LEMMAS:
                            new[n] = n + "_lem"
    return new, tokens


def by_tokens(s, new, only=None):
    return TOKEN.sub(lambda m: new[m[0]] if m[0] in new and (only is None or only(m[0])) else m[0], s)


def quoted(s, new):
    """A comment or a page: what stands in back quotes, and names in mixed case anywhere."""
    s = re.sub(r"`[^`\n]*`", lambda m: by_tokens(m[0], new), s)
    return by_tokens(s, new, lambda t: bool(CAMEL.match(t)))


def line_of(l, new, mark):
    """A line of code: strings stay, and a comment is a comment."""
    out, i = "", 0
    for m in re.finditer(r'"(?:\\.|[^"\\])*"|' + re.escape(mark) + ".*", l):
        out += by_tokens(l[i : m.start()], new)
        out += quoted(m[0], new) if m[0].startswith(mark) else m[0]
        i = m.end()
    return out + by_tokens(l[i:], new)


def antt_line(l, new, lems):
    m = re.match(r"(\s*(?:pub |unfoldable |ghost )*use )(\S+?)(\.\{.*\}.*|$|\s.*)", l)
    if m:
        return m[1] + m[2] + by_tokens(m[3], new)
    return line_of(l, new, "--")


def main(argv):
    new, tokens = names()
    lems = {n: v for n, v in new.items() if n in LEMMAS}
    plain = {n: v for n, v in new.items() if n not in LEMMAS}
    if "--list" in argv:
        for n in sorted(new):
            print(n, new[n])
        return 0
    for p in list(files(".antt")):
        t = read(p)
        # a lemma in snake case is renamed where the file declares or imports it, not as a step or a path
        use = plain
        if lems:
            words = tokens[p] & set(lems)
            declared = {m[1] for m in map(SIG.match, t.split("\n")) if m}
            taken = {x.strip().split(" as ")[0] for l in t.split("\n") for u in [USE.match(l)] if u for x in u[2].split(",")}
            use = dict(plain)
            for n in words & (declared | taken):
                use[n] = lems[n]
        out = "\n".join(antt_line(l, use, lems) for l in t.split("\n"))
        if of_function(p) and p.endswith("/Proof.antt"):
            f = os.path.basename(os.path.dirname(p)).lstrip("+")
            for dashed in {f.replace("_", "-") + "-spec", f + "-spec", f.replace("_", "-") + "_spec"}:
                out = re.sub(r"(?<![\w'.-])" + re.escape(dashed) + r"(?![\w'-])", f + "_spec", out)
        if out != t:
            with open(p, "w", encoding="utf-8", newline="") as f:
                f.write(out)
    for p in list(files(".rt")):
        t = read(p)
        out = "\n".join(line_of(l, {k: v for k, v in plain.items() if CAMEL.match(k)}, "//") for l in t.split("\n"))
        if out != t:
            with open(p, "w", encoding="utf-8", newline="") as f:
                f.write(out)
    for p in list(files(".edit")):
        t = read(p)
        out = "\n".join(line_of(l, plain, "--") if l.startswith(("old:", "new:")) else l for l in t.split("\n"))
        if out != t:
            with open(p, "w", encoding="utf-8", newline="") as f:
                f.write(out)
    for p in list(files(".md", "docs")) + ["README.md"]:
        t = read(p)
        out = re.sub(r"`[^`\n]*`", lambda m: by_tokens(m[0], plain), t)
        if out != t:
            with open(p, "w", encoding="utf-8", newline="") as f:
                f.write(out)
    return 0


if __name__ == "__main__":
    raise SystemExit(main(sys.argv[1:]))
