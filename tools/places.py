#!/usr/bin/env python3
"""Counts the places of docs/DESIGN-PASS.md in crates/*/src, each point by its patterns.

    tools/places.py [ROOT] [--list]

ROOT is a checkout (default: this one). With --list each place is printed. It reads text and knows no grammar: a count is where to look.
"""
import collections
import glob
import os
import re
import sys

args = [a for a in sys.argv[1:] if a != "--list"]
root = args[0] if args else os.path.join(os.path.dirname(os.path.abspath(__file__)), "..")
show = "--list" in sys.argv

files = sorted(glob.glob(os.path.join(root, "crates/*/src/**/*.rt"), recursive=True))
text = {os.path.relpath(f, root): open(f, encoding="utf-8").read() for f in files}

# A line is a place where it matches; clauses and ghost lines are left out for all points but the fifth.
LINES = {
    "1 enums without derives, numbers for kinds or refusals, a flag beside a value": [
        r"^\s*(pub(\(crate\))? )?enum (?!.*derived)",
        r"-> (Option<)?u8>?(\s|$)",
        r"\bdirection: u16",
        r"-> \((bool|Outcome), ",
    ],
    "3 an index counted by hand": [
        r"\b\w+ [+-]= 1;",
        r"while left\.len\(\) > 0",
    ],
    "4 equality, order, conversion, printing by hand": [
        r"\bfn (same\w*|alike|smaller|sooner|is_toll|copied|number|letter|at_most|improves)\b",
        r"\bfn write_(number|field|fields|way|no|ok|route|reading|answer)\b",
        r"=> Some\(",
    ],
    "6 arrays with a length beside": [
        r"\[[^\[\]]*; (\d+|[A-Z]+)\]",
        r"\blength: u16",
    ],
    "7 a switch on which step to run": [
        r"\b(End|Which)::\w+",
        r"\bManner::\w+",
        r"macro_rules!",
    ],
}


def code_lines(body):
    for n, line in enumerate(body.split("\n"), 1):
        s = line.strip()
        if s.startswith(("//", "ghost", "requires", "ensures")):
            continue
        yield n, line


def report(point, places):
    print(f"{len(places):4}  {point}")
    if show:
        for p in places:
            print("        " + p)


def by_index(body):
    """`for` over a range of which the body asks a list by the number."""
    lines = body.split("\n")
    for n, line in enumerate(lines, 1):
        m = re.search(r"\bfor ([a-z]\w*) in [^{]*\.\.", line)
        if m:
            v = m.group(1)
            inner = "\n".join(lines[n:n + 8])
            if re.search(rf"\[{v}\b|\.(at|has|lane|lane_out|lane_of_spot|refused)\((\w+, )?{v}\)|\(\w+, (floor, )?(target, )?(spot, )?{v}\b", inner):
                yield n, line


def derived(body, n):
    lines = body.split("\n")
    k = n - 2
    while k >= 0 and (lines[k].strip().startswith(("#[", "//"))):
        if "PartialEq" in lines[k] or "derive(Drop)" in lines[k]:
            return True
        k -= 1
    return False


for point, patterns in LINES.items():
    places = []
    for f, body in text.items():
        for n, line in code_lines(body):
            for p in patterns:
                if re.search(p, line):
                    if "enum" in p and derived(body, n):
                        continue
                    places.append(f"{f}:{n}: {line.strip()[:90]}")
                    break
    if point.startswith("3"):
        for f, body in text.items():
            places += [f"{f}:{n}: {line.strip()[:90]}" for n, line in by_index(body)]
    report(point, places)

# 2: functions whose bodies of five lines or more stand twice, names of types and crates apart.
bodies = collections.defaultdict(list)
for f, body in text.items():
    for m in re.finditer(r"^( *)(?:pub(?:\([a-z]+\))? )?fn (\w+)", body, re.M):
        end = re.compile(r"^" + m.group(1) + r"\}", re.M).search(body, m.end())
        if not end:
            continue
        start = body.find("\n" + m.group(1) + "{\n", m.end(), end.start())
        start = start if start >= 0 else body.find("{\n", m.end(), end.start())
        inner = [l.strip() for l in body[start:end.start()].split("\n")[1:] if l.strip() and not l.strip().startswith("//")]
        if len(inner) >= 2:
            key = "\n".join(re.sub(r"\b(Seconds|Gates)\b", "TOLL", l) for l in inner)
            bodies[key].append(f"{f}: {m.group(2)}")
twins = [" ~ ".join(v) for v in bodies.values() if len(v) > 1]
types = collections.defaultdict(list)
for f, body in text.items():
    for m in re.finditer(r"^(?:pub(?:\([a-z]+\))? )?(?:struct|enum) (\w+).*?^\}", body, re.M | re.S):
        types[m.group(0).split("{", 1)[-1]].append(f"{f}: {m.group(1)}")
twins += [" ~ ".join(v) for v in types.values() if len(v) > 1]
report("2 twins: function bodies and types that stand twice", twins)

# 5: a requires in three contracts or more; functions of seven parameters or more; the table and the floor as a pair.
req = collections.Counter()
where = collections.defaultdict(list)
for f, body in text.items():
    for m in re.finditer(r"requires (?:\w+ )?\{(.*)\}", body):
        req[m.group(1).strip()] += 1
        where[m.group(1).strip()].append(f)
places = [f"{n} times: {r}" for r, n in req.items() if n >= 3]
for f, body in text.items():
    for m in re.finditer(r"\bfn (\w+)[^(]*\(([^{}]*?)\)\s*(?:->|\{|\n)", body, re.S):
        params = [p for p in re.split(r",\s*\n|, (?=\w+: )", m.group(2)) if ":" in p or "self" in p]
        if len(params) >= 7:
            places.append(f"{f}: {m.group(1)} has {len(params)} parameters")
        if re.search(r"table: &(mut )?\[Record", m.group(2)) and re.search(r"floor: &", m.group(2)):
            places.append(f"{f}: {m.group(1)} takes a table and a floor")
report("5 facts in three contracts, parameters that travel together", places)

# 8: lines of proofs.
proofs = glob.glob(os.path.join(root, "crates/*/proofs/**/*.antt"), recursive=True)
print(f"{sum(open(f, encoding='utf-8').read().count(chr(10)) for f in proofs):4}  8 lines of proofs/ ({len(proofs)} files)")
print(f"{sum(b.count(chr(10)) for b in text.values()):4}  lines of src/")
