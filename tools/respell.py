#!/usr/bin/env python3
"""Respells the repository's own definitions, fields, constructors and lemmas as the Rattle of docs/PORT.md spells names: words in snake case.

usage: tools/respell.py [FOLDER]   rewrites the .antt and .rt files of FOLDER/crates (default: the current folder) in place
       tools/respell.py --list [FOLDER]   prints the renamings, and names that would fall together, and writes nothing

It is run once, after the toolchain's own script. A name is respelt if an .antt file of the repository declares it and it has a dash or a capital inside;
types, modules, and names of the toolchain's libraries stay. Names of functions in src/ and names that a check makes for the steps of a proof stay too.
"""

import os
import re
import sys

NAME = r"[A-Za-z][A-Za-z0-9_'₀-₉ᴰ]*(?:-[A-Za-z0-9_'₀-₉ᴰ]+)*"
TOKEN = re.compile(r"(?<![\w'₀-₉ᴰ-])" + NAME + r"(?![\w'₀-₉ᴰ-])")
DECLARED = re.compile(r"^(\s*)((?:(?:pub|abbrev|unfoldable|private|opaque)\s+)*)(" + NAME + r")\s*:(?!=)")
LET = re.compile(r"(?<![\w'-])(?:let|and)\s+(" + NAME + r")\s*[:=]")
QUOTED = re.compile(r"`[^`]*`")
KINDS = {"pub", "abbrev", "unfoldable", "let", "in", "where", "record", "data", "module", "use", "unfolding", "postulate"}

# Two names of one module that would be spelt alike, or one that a function or a parameter in src/ has: the name that stands in place of the mechanical one.
CHOSEN = {"frame-of": "frame_of_lem", "bit-and": "bit_and_lem", "bit-or": "bit_or_lem", "set_words": "set_words_lem"}


def respelt(name):
    if name in CHOSEN:
        return CHOSEN[name]
    s = name.replace("-", "_")
    s = re.sub(r"(?<=[a-z0-9'])([A-Z])", lambda m: "_" + m.group(1).lower(), s)
    return s


def files(root, ending):
    for folder, dirs, names in os.walk(os.path.join(root, "crates")):
        dirs[:] = sorted(d for d in dirs if d not in ("out", ".git"))
        for n in sorted(names):
            if n.endswith(ending):
                yield os.path.join(folder, n)


def code_of(line):
    """A line without its comment."""
    at = line.find("--")
    while at >= 0:
        before = line[at - 1] if at else " "
        after = line[at + 2] if at + 2 < len(line) else " "
        if before in " \t" and after in " \t\n":
            return line[:at]
        at = line.find("--", at + 2)
    return line


def is_proof_of_function(path):
    parts = path.split(os.sep)
    at = parts.index("proofs") if "proofs" in parts else -1
    return at >= 0 and at + 2 < len(parts)


def wants(name):
    if not name[0].islower():
        return False
    return "-" in name or re.search(r"[a-z0-9'][A-Z]", name) is not None


def declared(text):
    found = set()
    for line in text.split("\n"):
        line = code_of(line)
        m = DECLARED.match(line)
        if m and m.group(3) not in KINDS:
            found.add(m.group(3))
        for m in LET.finditer(line):
            found.add(m.group(1))
    return found


def main():
    args = [a for a in sys.argv[1:] if a != "--list"]
    listing = "--list" in sys.argv
    root = args[0] if args else "."
    crates = sorted(os.listdir(os.path.join(root, "crates")))
    own = re.compile(r"Rattle\.(" + "|".join(map(re.escape, crates)) + r")\.")
    shared, where = set(), {}
    antt = list(files(root, ".antt"))
    rt = list(files(root, ".rt"))
    texts = {p: open(p, encoding="utf-8").read() for p in antt + rt}
    for p in antt:
        if not is_proof_of_function(p):
            for n in declared(texts[p]):
                if wants(n) or n in CHOSEN:
                    shared.add(n)
                    where.setdefault(n, set()).add(os.path.relpath(p, root))
    functions = set()
    for p in rt:
        functions |= set(re.findall(r"\bfn (\w+)", texts[p]))
    table = {n: respelt(n) for n in sorted(shared)}
    for n in sorted(table):
        # a lemma that would have its function's name
        if "-" in n and any(o != n and "-" not in o and s == table[n] for o, s in table.items()):
            table[n] += "_lem"
    back = {}
    for n, s in table.items():
        back.setdefault(s, set()).add(n)
    existing = set()
    for p in antt:
        if not is_proof_of_function(p):
            for n in declared(texts[p]):
                if not wants(n):
                    existing.add(n)
    for s, ns in sorted(back.items()):
        if len(ns) > 1 or s in existing:
            print("together:", s, sorted(ns), "and one that has it" if s in existing else "", sorted(set().union(*(where[n] for n in ns))))
        if s in functions:
            print("function:", s, sorted(ns))
    if listing:
        for n, s in table.items():
            print(n, s)
        return
    for p in antt + rt:
        text = texts[p]
        local = dict(table)
        if p.endswith(".antt") and is_proof_of_function(p):
            for n in declared(text):
                if wants(n) and not re.search(r"^\s*(?:pub )?(?:abbrev )?" + re.escape(n) + r"\s*:\s+\S+\.(?:Need|InvT|MeasureT|invariant|decreases)-", text, re.M):
                    local[n] = respelt(n)
        brought = set()
        for m in re.finditer(r"^\s*(?:ghost )?use ([^\s{;]+?)\.?\{([^}]*)\}", text, re.M):
            if not own.match(m.group(1) + "."):
                brought |= {w.strip().split(" as ")[-1].strip() for w in m.group(2).split(",")}
        for n in brought:
            local.pop(n, None)
        new = []
        for line in text.split("\n"):
            code = code_of(line) if p.endswith(".antt") else line if ghostly(line) else ""
            rest = QUOTED.sub(lambda m: TOKEN.sub(lambda n: local.get(n.group(0), n.group(0)), m.group(0)), line[len(code):])
            new.append(TOKEN.sub(lambda m: swap(m, code, local), code) + rest)
        new = "\n".join(new)
        if p.endswith(".antt"):
            bare = set(TOKEN.findall("\n".join(code_of(x) for x in text.split("\n"))))
            seen = {}
            for w in sorted(bare):
                s = local.get(w, w)
                if s in seen and not s[0].isupper():
                    print("in one file:", os.path.relpath(p, root), seen[s], w)
                seen[s] = w
        if new != text:
            with open(p, "w", encoding="utf-8") as f:
                f.write(new)


def swap(m, code, local):
    w = m.group(0)
    if code[: m.start()].endswith("tie."):
        return w
    return local.get(w, w)


def ghostly(line):
    s = line.strip()
    if s.startswith("//"):
        return False
    return s.startswith("ghost use") or "{" in s or "≡" in s or "→" in s or "≤" in s or bool(re.search(r"[a-z][A-Z]", s))


if __name__ == "__main__":
    main()
