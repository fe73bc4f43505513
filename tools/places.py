#!/usr/bin/env python3
"""Counts the places in src/ that docs/DESIGN-PASS.md speaks of, by their shape. A place found here may well be right as it is: the page says which.

usage: tools/places.py [FOLDER] [-v]        (a checkout; -v lists each place)
"""
import collections, glob, os, re, sys

top = next((a for a in sys.argv[1:] if not a.startswith("-")), ".")
verbose = "-v" in sys.argv
found = collections.OrderedDict((k, []) for k in (
    "1a enums that are an Option or a Result of their own", "1b flags and refusal numbers beside a value",
    "1c refusals as numbers", "2 functions whose lines stand in another function too", "3 loops that count by hand",
    "4a functions that match an enum to say what it is", "4b structs rebuilt field by field", "4c values printed one by one",
    "5a facts in the requires of three functions or more", "5b windows as three parameters", "6 buffers with a count beside them",
    "7 switches on a number or a letter", "8a answers in proof files", "8b answers that repeat another's search"))
functions, facts = [], collections.defaultdict(list)
ERRORS = r"\b(Fault|Refused|Violation|Absent|Unknown|Idle|Empty|Unread)\b"

for f in sorted(glob.glob(os.path.join(top, "crates/*/src/**/*.rt"), recursive=True)):
    name = os.path.relpath(f, os.path.join(top, "crates"))
    text = open(f).read()
    code = re.sub(r"//.*", "", text)

    def place(kind, at, what):
        found[kind].append(f"{name}:{code.count(chr(10), 0, at) + 1}: {what}")

    for m in re.finditer(r"\benum (\w+)[^{]*\{(.*?)\n\}", code, re.S):
        variants = [v.strip() for v in m.group(2).split(",\n") if v.strip()]
        payload = [v for v in variants if "(" in v]
        if (len(variants) == 2 and payload) or (payload and re.search(ERRORS, m.group(2))):
            place("1a enums that are an Option or a Result of their own", m.start(), m.group(1))
    for m in re.finditer(r"^\s+(?:pub )?(on|good|messages|broken|memory|domain): bool|^\s+(?:pub )?refusal: u64|^\s+(?:pub )?letter: u8", code, re.M):
        place("1b flags and refusal numbers beside a value", m.start(), m.group(0).strip())
    for m in re.finditer(r"(?:return |=> |\(|= |^\s+)(20(?:0[1-9]|1[0-4]))\b(?!\s*\*)", code, re.M):
        place("1c refusals as numbers", m.start(), m.group(1))
    for m in re.finditer(r"^\s*while .*", code, re.M):
        body = code[m.end():m.end() + 900]
        if re.search(r"[+-]= 1;|= end;|= end \+ 1", body.split("\n}\n")[0]):
            place("3 loops that count by hand", m.start(), m.group(0).strip())
    for m in re.finditer(r"^\s*(?:pub )?(?:const )?fn (\w+)[^{;]*?(?:\n\s+(?:requires|ensures)[^\n]*)*\s*\{\n(.*?)\n\s*\}\n", code, re.S | re.M):
        body = m.group(2)
        arms = re.findall(r"=> ([^\n]*)", body)
        if re.match(r"\s*match \w+ \{", body) and len(arms) > 1 and all(re.match(r"(true|false|\d+|0x\w+),?$", a) for a in arms):
            place("4a functions that match an enum to say what it is", m.start(), m.group(1))
    for m in re.finditer(r"\b([A-Z]\w+) \{\n((?:\s+\w+: [^\n]*\n)+?)\s*\}", code):
        copies = re.findall(r"(\w+): \w+\.\1,", m.group(2))
        if len(copies) > 1:
            place("4b structs rebuilt field by field", m.start(), f"{m.group(1)}: {', '.join(copies)}")
    for m in re.finditer(r"\bvalue\(rt, ", code):
        place("4c values printed one by one", m.start(), "value(rt, ..)")
    for m in re.finditer(r"fn (\w+)[^;{]*?\n\s+requires(?: \w+)? \{ (.*) \}\n", code):
        for fact in m.group(2).split(" × "):
            facts[re.sub(r"\b(first|second|state|out|bytes|part|window)\.(old|now)\b", r"\1", fact.strip("()"))].append(f"{name}: {m.group(1)}")
    for m in re.finditer(r"starts: Starts,\s+first: &", code):
        place("5b windows as three parameters", m.start(), "starts, first, second")
    for m in re.finditer(r"count: usize", code):
        place("6 buffers with a count beside them", m.start(), "count: usize")
    for m in re.finditer(r"\b(?:kind == \d|match letter|letter: u8)", code):
        place("7 switches on a number or a letter", m.start(), m.group(0))
    for m in re.finditer(r"fn (\w+)[^{;]*?(?:\n\s+(?:requires|ensures)[^\n]*)*\s*\{\n(.*?)\n\}", code, re.S):
        functions.append((name, m.group(1), [l.strip() for l in m.group(2).split("\n") if len(l.strip()) > 3]))

runs = collections.defaultdict(set)
for i, (f, n, lines) in enumerate(functions):
    for k in range(len(lines) - 3):
        runs[tuple(lines[k:k + 4])].add(i)
for i in sorted({i for s in runs.values() if len(s) > 1 for i in s}):
    found["2 functions whose lines stand in another function too"].append(f"{functions[i][0]}: {functions[i][1]}")
for fact, where in sorted(facts.items(), key=lambda e: -len(e[1])):
    if len(where) > 2:
        found["5a facts in the requires of three functions or more"].append(f"{len(where)} times: {fact}")
for f in sorted(glob.glob(os.path.join(top, "crates/*/proofs/**/Answers.antt"), recursive=True)):
    if "/out/" in f:
        continue
    seen = set()
    for n, body in re.findall(r"^([\w-]+) c =\s*(.*(?:\n .*)*)", open(f).read(), re.M):
        found["8a answers in proof files"].append(f"{os.path.relpath(f, top)}: {n}")
        if body in seen:
            found["8b answers that repeat another's search"].append(f"{os.path.relpath(f, top)}: {n}")
        seen.add(body)
for kind, places in found.items():
    print(f"{len(places):5} {kind}")
    if verbose:
        for p in places:
            print(f"        {p}")
