#!/usr/bin/env python3
"""Respells the repository's own definitions, fields and lemmas as today's Rattle spells its own.

usage: python3 tools/respell.py [--look]   at the top of the repository, once, after port.py and before its changes are committed

A name is in snake case (`takeRefusal`: `take_refusal`). In a lemma's name a dash joins two names and `_` adds a plain word
(`load-at-part`: `load_at-part`, `short-kept`: `short_kept`). A lemma that would have the name of a definition or of a function
gets `_lem`. Types, variants, modules, functions of src/, exported names, strings, inputs and outputs keep their names.

It writes crates/, and tools/respelled.tsv: for each crate the names of the commit that the tree stands on, and today's, with what
port.py itself respelled. Where two names of a crate would fall together it says so, and writes nothing (--anyway writes). --look only prints the names.
Where tools/respelled.tsv stands it does nothing.
"""

import collections
import os
import re
import subprocess
import sys

NAME = re.compile(r"[^\s(){}.,;\"`«»|]+")
DEFINITION = re.compile(r"^( *)(?:(?:unfoldable|abbrev|pub|data|record|ruleset) +)*([^\s:(){}.,=`\"|]+) *(?::|=|\()", re.M)
CAMEL = re.compile(r"^[a-z][A-Za-z0-9']*[a-z0-9][A-Z][A-Za-z0-9']*$")
DASHED = re.compile(r"^[A-Za-z][A-Za-z0-9_']*(-[A-Za-z0-9_']+)+$")
# Kept as they are: with the unfinished crates of Req 04 in the tree both parts of each are names.
CHOSEN = {n: n for n in ("state-long", "state-short", "access-unknown", "flags-unknown", "unknown-bytes")}
# Constructors and a definition, no lemmas, with the names of functions of other crates.
CHOSEN |= {n: n.replace("-", "_") for n in ("yasmurekh-aplic-wire", "yasmurekh-aplic-write", "yasmurekh-aplic-read", "yasmurekh-aplic-forward", "yasmurekh-aplic-claim", "yasmurekh-aplic-signal", "guest-fault")}


def snake(word):
    if not word[:1].islower():
        return word
    return re.sub(r"(?<=[a-z0-9'])(?=[A-Z])", "_", word).lower()


def plain(word):
    return re.sub("[-_\u2032']", "", word).lower()


def files(kind):
    for crate in sorted(os.listdir("crates")):
        for folder in ("specs", "proofs"):
            for at, folders, names in os.walk(os.path.join("crates", crate, folder)):
                folders.sort()
                for name in sorted(names):
                    path = os.path.join(at, name)
                    inner = os.path.dirname(path) != os.path.join("crates", crate, folder)
                    if name.endswith(".antt") and inner == (kind == "inner"):
                        yield crate, path


def sources():
    for crate in sorted(os.listdir("crates")):
        for at, folders, names in os.walk(os.path.join("crates", crate, "src")):
            for name in sorted(names):
                if name.endswith(".rt"):
                    yield crate, os.path.join(at, name)


def read(path):
    with open(path, encoding="utf-8") as f:
        return f.read()


def code(text):
    """Without comments."""
    return re.sub(r"(?m)--(?= ).*$|--$", "", text)


def uses(text, own):
    """The names that a file takes from modules that are not the repository's, and from its own."""
    foreign, ours = set(), set()
    for path, names in re.findall(r"(?m)^(?:ghost )?use ([^{;]*)\{([^}]*)\}", text):
        to = ours if re.match(r"Rattle\.(%s)\." % "|".join(own), path) else foreign
        for n in names.split(","):
            n = n.strip()
            if n:
                to.add(n.split(" as ")[0].strip())
                if " as " in n:
                    ours.add(n.split(" as ")[1].strip())
    return foreign, ours


def definitions(text):
    return [m.group(2) for m in DEFINITION.finditer(code(text)) if m.group(2) not in ("use", "module", "open", "where", "let", "unfolding")]


def main():
    if set(sys.argv[1:]) - {"--look", "--anyway"}:
        sys.exit(__doc__)
    if os.path.exists("tools/respelled.tsv"):
        sys.exit("tools/respelled.tsv is there: the tree is respelled, and a second run would garble it")
    own = [c for c in sorted(os.listdir("crates")) if os.path.isdir(os.path.join("crates", c, "src"))]
    texts = {p: (c, read(p)) for c, p in files("outer")}
    inner = {p: (c, read(p)) for c, p in files("inner")}
    code_of = {p: (c, read(p)) for c, p in sources()}
    foreign = set()
    for c, t in list(texts.values()) + list(inner.values()) + list(code_of.values()):
        foreign |= uses(t, own)[0]
    functions, types = set(), set()
    for c, t in code_of.values():
        functions |= set(re.findall(r"\bfn (\w+)", t))
        types |= set(re.findall(r"\b(?:struct|enum|const) (\w+)", t))
        types |= set(re.findall(r"(?m)^    ([A-Z]\w*)[,({]", t))
        types |= set(re.findall(r"(?m)^    (?:pub )?(\w+): ", t))
    words = set()
    for t in texts.values():
        words |= set(NAME.findall(code(t[1])))
    for c, t in code_of.values():
        words |= {n for n in re.findall(r" as (\w+)", t) if CAMEL.match(n)}
    defined = set()
    for c, t in texts.values():
        defined |= set(definitions(t))
    known = functions | types | {snake(n) for n in defined if "-" not in n} | {n for n in foreign if "-" not in n}
    new = {}
    for n in sorted(words - foreign):
        if n in CHOSEN:
            new[n] = CHOSEN[n]
        elif CAMEL.match(n):
            new[n] = snake(n)
        elif DASHED.match(n):
            parts = [snake(p) for p in n.split("-")]
            units, i = [], 0
            while i < len(parts):
                for j in range(len(parts), i, -1):
                    if j == i + 1 or "_".join(parts[i:j]) in known:
                        units.append("_".join(parts[i:j]))
                        i = j
                        break
            told = units[0]
            for a, b in zip(units, units[1:]):
                told += ("-" if a in known and b in known else "_") + b
            new[n] = told + "_lem" if told in known or told in foreign else told
    new = {k: v for k, v in new.items() if k != v}
    # what falls together
    back = collections.defaultdict(set)
    for k, v in new.items():
        back[v].add(k)
    bad = 0
    for v, ks in sorted(back.items()):
        clash = set(ks)
        if v in words:
            clash.add(v)
        if len(clash) > 1:
            at = collections.defaultdict(list)
            for p, (c, t) in texts.items():
                found = set(NAME.findall(code(t))) & clash
                if len(found) > 1:
                    at[p] = sorted(found)
            for p, found in at.items():
                print(f"together: {v}: {', '.join(found)}: {p}")
                bad += 1
    if "--look" in sys.argv:
        for k, v in sorted(new.items()):
            print(k, v)
    if bad and "--anyway" not in sys.argv:
        print(f"{bad} places where names fall together: choose by hand in CHOSEN")
        return 1
    if "--look" in sys.argv:
        return 0

    def turned(text, only=None):
        def one(m):
            n = m.group(0)
            return new[n] if n in new and (only is None or n in only) else n

        return NAME.sub(one, text)

    record = []
    for p, (c, t) in texts.items():
        after = turned(t)
        was = subprocess.run(["git", "show", "HEAD:" + p], capture_output=True, text=True)
        if was.returncode == 0:
            names = definitions(after)
            now = {plain(y): y for y in names}
            for x in definitions(was.stdout):
                y = x if x in names else new[x] if new.get(x) in names else now.get(plain(x)) or now.get(plain(x) + "lem")
                if y is None:
                    print(f"look: {p}: no name stands for {x}")
                elif x != y:
                    record.append((c, os.path.basename(p)[:-5], x, y))
        with open(p, "w", encoding="utf-8") as f:
            f.write(after)
    for p, (c, t) in inner.items():
        ours = uses(t, own)[1]
        with open(p, "w", encoding="utf-8") as f:
            f.write(turned(t, ours))
    for p, (c, t) in code_of.items():
        camel = {n for n in new if CAMEL.match(n)}
        ours = uses(t, own)[1] | camel
        with open(p, "w", encoding="utf-8") as f:
            f.write(turned(t, ours))
    with open("tools/respelled.tsv", "w", encoding="utf-8") as f:
        for row in sorted(set(record)):
            f.write("\t".join(row) + "\n")
    print(f"{len(new)} names respelled")
    return 0


if __name__ == "__main__":
    raise SystemExit(main())
