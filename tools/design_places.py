#!/usr/bin/env python3
"""Lists the places that docs/DESIGN-PASS.md counts: design_places.py [COMMIT] [POINT].

Without COMMIT it reads the files as they stand. A place is a line `POINT crate::name what`."""
import collections
import re
import subprocess
import sys

args = sys.argv[1:]
point = args.pop() if args and re.fullmatch(r"\d", args[-1]) else None
commit = args[0] if args else None


def git(*words):
    return subprocess.run(["git", *words], check=True, capture_output=True, text=True).stdout


def sources(suffix, folder):
    names = git("ls-tree", "-r", "--name-only", commit, "crates") if commit else git("ls-files", "crates")
    for name in sorted(names.split("\n")):
        if name.endswith(suffix) and f"/{folder}/" in name:
            try:
                yield name.split("/")[1], git("show", f"{commit}:{name}") if commit else open(name).read()
            except FileNotFoundError:
                pass


def functions(text):
    for found in re.finditer(r"^( *)(?:pub )?(?:const )?fn (\w+)(.*?)\{\n(.*?)\n\1\}", text, re.S | re.M):
        yield found.group(2), found.group(3), found.group(4)


places = []


def place(number, crate, name, what):
    places.append((str(number), f"{crate}::{name}", what))


shapes = collections.defaultdict(list)
facts = collections.defaultdict(list)
together = collections.defaultdict(list)
FLAGS = "ok|has|found|grouped|whole|failed|ended|again|go|has_param|unread|unwritten"
KEYWORDS = {"let", "mut", "if", "else", "return", "while", "for", "in", "match", "true", "false", "as", "usize", "u32"}
for crate, text in sources(".rt", "src"):
    code = re.sub(r"//.*", "", text)
    # 1: own enums of two variants of which one holds a value; flags beside values; numbers of refusals, of kinds
    for name, body in re.findall(r"enum (\w+) \{\n(.*?)\n\}", code, re.S):
        variants = re.findall(r"^    (\w+)(.?)", body, re.M)
        if len(variants) == 2 and sorted(v[1] for v in variants) == ["(", ","]:
            place(1, crate, name, "an enum of the shape of Option")
        if name in ("Answer", "Ended"):
            place(1, crate, name, "an enum of the shape of Result")
    for name, body in re.findall(r"struct (\w+) \{\n(.*?)\n\}", code, re.S):
        if "," in body.strip().rstrip(",") and re.search(rf"pub (?:{FLAGS}): bool", body):
            place(1, crate, name, "a flag beside values")
        if re.search(r"pub number: u32", body) and crate not in ("conflicts",):
            place(1, crate, name, "a refusal's number")
        if re.search(r"pub (?:key|kind): u32", body):
            place(1, crate, name, "a kind's number")
    for name, head, body in functions(code):
        result = head.split("->")[-1].split("\n")[0].strip() if "->" in head else ""
        if result in ("u32", "u8") and (
            re.fullmatch(r"tested|number_of|verdict_on|test_\w+|end_number|key_of", name) or re.search(r"^ +return [1-9]; *$", body, re.M) and re.search(r"^ +0$", body, re.M)
        ):
            place(1, crate, name, "answers a number for a refusal or a kind")
        # 2: bodies alike up to names and numbers
        tokens = re.findall(r"[A-Za-z_]\w*|\d\w*|[^\s\w]", body)
        seen = {}
        shape = " ".join(
            t if t in KEYWORDS or not re.match(r"\w", t) else "9" if t[0].isdigit() else seen.setdefault(t, f"v{len(seen)}") for t in tokens
        )
        if len(tokens) >= 14:
            shapes[shape].append((crate, name))
        # 3: loops that count an index
        for cond, inner in re.findall(r"while (.*?) \{\n(.*?)\n {4}\}", body + "\n    }", re.S):
            if any(re.search(rf"\b{re.escape(v)} [+-]= ", inner) for v in re.findall(r"[a-z_]\w*", cond)):
                place(3, crate, name, f"while {cond}")
            else:
                place(3, crate, name, f"while {cond}: counts no index")
        # 4: comparisons and conversions by hand
        if re.search(r"\.0 (?:==|!=|<=|<) [\w.]+\.0\b", body):
            place(4, crate, name, "indices compared by their numbers")
        if re.fullmatch(r"wide|least|minus|either|flag|hint_word|bit|lesser|saturating_sub", name):
            place(4, crate, name, "a conversion or a choice that the library has")
        if re.match(r"same_(sets|rows)$", name):
            place(4, crate, name, "equality by hand")
        # 5: facts and parameters that go together
        params = head.split("->")[0]
        for pair in ("job lay", "out ol", "work wl", "work starts", "work marks", "work turned", "a b"):
            if all(re.search(rf"\b{p}: ", params) for p in pair.split()):
                together[pair].append((crate, name))
        for clause in re.findall(r"requires (?:\w+ )?\{ (.*?) \}(?:\n|$)", head, re.S):
            for fact in re.split(r"\s+×\s+", clause):
                facts[re.sub(r"\s+", " ", fact.strip("() "))].append((crate, name))
        # 6: a table by the word where it begins and its number of rows; searches by hand; links by index
        if re.search(r"\bat: usize,\s*n: (?:usize|u32)", params):
            place(6, crate, name, "a table by place and number of rows")
        if re.search(r"\(high - low\) / 2", body):
            place(6, crate, name, "a sorted table searched by hand")
        if re.search(r"\blink\b|\bheads\b.*\bnexts\b", body, re.S) and "c.nexts" in body:
            place(6, crate, name, "links by index")
    for name in re.findall(r"^(?:pub )?const (\w+): \[", code, re.M):
        if name in ("LIMITS", "BASES", "WIDTHS", "STORED"):
            place(6, crate, name, "parallel arrays")
    # 7: a switch on which step to run
    for name, head, body in functions(code):
        if re.search(r"match (?:kind|front|m) \{\s+(?:MoveKind|Front)::", body):
            place(7, crate, name, "a switch on the step")
for group in shapes.values():
    if len(group) > 1:
        place(2, *group[0], "twins: " + " ".join(f"{c}::{n}" for c, n in group))
for pair, users in together.items():
    place(5, "*", pair.replace(" ", ", "), f"parameters of {len(users)} functions")
for fact, users in sorted(facts.items()):
    if len(set(users)) >= 3:
        place(5, "*", fact[:90], f"a fact of {len(set(users))} contracts")
for crate, text in sources(".antt", "proofs"):
    answers = len(re.findall(r"^pub [\w-]+ : goal\.", text, re.M))
    if answers:
        place(8, crate, "answers", str(answers))

for number, name, what in sorted(places):
    if point in (None, number):
        print(number, name, what)
if point is None:
    counts = collections.Counter()
    for number, _, what in places:
        counts[number] += int(what) if number == "8" else 1
    print("places:", " ".join(f"{k}: {v}" for k, v in sorted(counts.items())), file=sys.stderr)
