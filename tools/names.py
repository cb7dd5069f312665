#!/usr/bin/env python3
"""Check the documents: every file, crate, function, definition, law and must-fail edit that one of them names in backquotes has to be there.

usage: tools/names.py [DOCUMENT...]

Prints FILE:LINE: NAME for each that is not there, and exits with 1 if there is any. Without arguments it reads README.md and those of bundles and rust,
and docs, but for docs/PORT.md, docs/DESIGN-PASS.md, docs/LOOK-BACK.md and the notes in docs/landings, which name what was there before and when they were written; then it also prints each crate that README.md does not
name, and each must-fail edit that docs/MUST-FAIL.md does not.

How a name is looked for depends on its form:

    tools/bundle.py, crates/CRATE/must-fail   a file or folder, from the root, beside the document or among the crates; a part in capitals is any one
    calls, after the word crate or below it   the folder of a crate
    rules/specs/Layout                        a file of definitions or laws of a crate
    typing/row_left_as_it_was                 a must-fail edit of a crate; in a table of the edits of one crate its label is enough
    subclasses::matrix::fill                  an item, a module or a crate, with as much of its path as is given
    Layout.opening                            a definition or law in a file of that name, of the crate rules or of one that is named nearby
    lookup_rivals, LookupAnswer, chart-3      a name of any kind

A word without capital, hyphen and underscore is looked for only in the documents that name little else. Of a span with blanks, and of a command in a line
by itself, the words that are paths are looked for. Nearby is the same paragraph or line of a table, or the head of the table.
"""
import os
import pathlib
import re
import sys

ROOT = pathlib.Path(__file__).resolve().parent.parent
DOCUMENTS = [ROOT / "README.md", *sorted(p for p in (ROOT / "docs").glob("*.md") if p.name not in ("PORT.md", "DESIGN-PASS.md", "LOOK-BACK.md")), ROOT / "bundles" / "README.md", ROOT / "rust" / "README.md"]
# In these a plain word in backquotes is the name of something, unless it is a word of the language.
NAMING = {"DECISIONS.md", "MUST-FAIL.md", "RULES.md"}
KEYWORDS = {"else", "match", "usize", "Option", "Some", "None", "Result", "Ok", "Err", "Iterator", "From", "Copy"}
ENDINGS = {".antt", ".bundle", ".c", ".chart", ".h", ".listing", ".md", ".py", ".rs", ".rt", ".txt"}
PATH = r"[\w.-]+(/[\w.-]+)+/?|[\w.-]+/"


# What is there


def definitions(path):
    """the names of definitions, laws, fields and constructors, but for those in a where"""
    line = r"^(?:  | +(?=(?:unfoldable |abbrev )?pub ))?(?:pub |unfoldable |abbrev )*(?:(?:data|record) |(?=\S+ :))(\S+)"
    return set(re.findall(line, path.read_text(), re.MULTILINE))


def items(path):
    """the items of a source file, each by its path from there, and the paths of what is passed on from elsewhere"""
    inside, found, passed = None, [], []
    for line in path.read_text().splitlines():
        if match := re.match(r"impl(?:<[^>]*>)? (?:[\w:<>]+ for )?(\w+)", line):
            inside = match[1]
        elif match := re.match(r'(?:pub(?:\(crate\))? )?(?:extern "C" )?(fn|struct|enum|const) (\w+)', line):
            inside = match[2] if match[1] == "enum" else None
            found.append((match[2],))
        elif inside and (match := re.match(r"    (?:pub(?:\(crate\))? )?(?:fn |const )?(\w+)", line)):
            found.append((inside, match[1]))
        elif match := re.match(r"pub use ([\w:]+);", line):
            passed.append(tuple(match[1].split("::")))
    return found, passed


def code(folder, ending):
    """the full path of every crate, module and item in the crates of a folder"""
    paths, passing = set(), []
    for source in folder.glob(f"*/src/**/*{ending}"):
        crate, _, *modules = source.relative_to(folder).with_suffix("").parts
        here = (crate,) if modules[-1] in ("lib", "main") else (crate, *modules)
        found, passed = items(source)
        paths |= {(crate,), here} | {(*here, *item) for item in found}
        passing += [(here, target) for target in passed]
    for here, target in passing:
        paths |= {(*here, *path[len(target) - 1:]) for path in list(paths) if path[:len(target)] == target}
    return paths


CRATES = {path.name for path in (ROOT / "crates").iterdir()}
DEFINED = {path.relative_to(ROOT / "crates").with_suffix("").parts: definitions(path) for path in (ROOT / "crates").glob("*/[sp]*/*.antt")}
EDITS = {(path.parts[-3], path.stem) for path in (ROOT / "crates").glob("*/must-fail/*.edit")}
CODE, RUST = code(ROOT / "crates", ".rt"), code(ROOT / "rust", ".rs")
NAMES = {name for path in CODE for name in path} | {label for _, label in EDITS} | {crate for crate, *_ in RUST}
NAMES |= {name for (_, _, file), names in DEFINED.items() for name in [file, *names]}
NAMES |= {path.stem for path in (ROOT / "bundles").glob("*.bundle")}
# The functions and numbers for C, and the variables of the script.
for text in (ROOT / "include" / "curiumtoad.h", ROOT / "rust" / "run"):
    NAMES |= set(re.findall(r"\b(?:curiumtoad|CURIUMTOAD)_\w+", text.read_text()))


# What is named


def is_path(name, document):
    """What a build makes is not looked for: what cargo makes, in target, may have any name; in a crate's out are its program and its static library."""
    parts = tuple(name.rstrip("/").split("/"))
    if "target" in parts:
        return True
    if parts[:1] == ("crates",) and parts[2:3] == ("out",):
        return parts[1] in CRATES and parts[3:] in ((), (parts[1],), (f"lib{parts[1]}.a",))
    pattern = "/".join("*" if part.isalpha() and part.isupper() else part for part in parts)
    return parts in EDITS or parts in DEFINED or any(True for base in (ROOT, document.parent, ROOT / "crates") for _ in base.glob(pattern))


def is_code(name, document):
    path = tuple(name.split("::"))
    return any(known[-len(path):] == path for known in (CODE | RUST if document.parent == ROOT / "rust" else CODE))


def is_definition(name, nearby):
    file, defined = name.split(".")
    return any(defined in DEFINED.get((crate, part, file), ()) for crate in nearby | {"rules"} for part in ("specs", "proofs"))


def is_there(span, document, nearby):
    span = span.removesuffix("()")
    if " " in span:
        return all(is_path(word, document) for word in span.split() if re.fullmatch(PATH, word))
    if re.fullmatch(PATH, span):
        return is_path(span, document)
    if re.fullmatch(r"\w+(::\w+)+", span):
        return is_code(span, document)
    if re.fullmatch(r"[A-Z][a-z]\w*\.[^\s.]+", span):
        return is_definition(span, nearby)
    if pathlib.PurePath(span).suffix in ENDINGS:
        return is_path(span, document)
    if re.fullmatch(r"\w+([-_]\w+)+|[A-Z]\w+|\w*[a-z][A-Z]\w*", span) or document.name in NAMING and re.fullmatch(r"[a-z]+", span):
        return span in NAMES | KEYWORDS
    return True


def blocks(text):
    """(head of the table, numbered lines): each paragraph, each line of a table, and each command"""
    head, block, fenced = "", [], False
    for number, line in enumerate([*text.splitlines(), ""], 1):
        if block and (not line or re.match(r"\||```|    |- |#", line)):
            yield "", block
            block = []
        if line.startswith("|") and not fenced:
            head = head or line
            yield head, [(number, line)]
            continue
        head = ""
        if line.startswith("```"):
            fenced = not fenced
        elif line.startswith("    ") and not fenced:
            yield "", [(number, f"`{line}`")]
        elif line and not fenced:
            block.append((number, line))


def spans(head, line):
    """what stands in backquotes; in a table of the edits of a crate the first is one of its labels, and what is called a crate is its folder"""
    found = re.findall(r"`([^`]+)`", line)
    if crate := re.match(r"\| Edit of `(\w+)` ", head):
        found[:1] = [f"{crate[1]}/{label}" for label in found[:1] if line != head]
    if head.startswith("| crate |"):
        found += [f"{name}/" for name in re.findall(r"`(\w+)`", line.split(" | ")[0])]
    return found + [f"{name}/" for name in re.findall(r"\bcrates? `(\w+)`", line)]


def named_in(document):
    """(line, name, crates that are named nearby)"""
    for head, lines in blocks(document.read_text()):
        found = [(number, span) for number, line in lines for span in spans(head, line)]
        nearby = {word for span in [head.strip("| "), *(span for _, span in found)] for word in re.split("[/: `]+", span)} & CRATES
        for number, span in found:
            yield number, span, nearby


def main(arguments):
    missing = []
    named = {document: list(named_in(document)) for document in [pathlib.Path(name).resolve() for name in arguments] or DOCUMENTS}
    for document, names in named.items():
        short = os.path.relpath(document)
        missing += [f"{short}:{number}: {span}" for number, span, nearby in names if not is_there(span, document, nearby)]
    if not arguments:
        for document, wanted in [("README.md", CRATES), ("docs/MUST-FAIL.md", {"/".join(edit) for edit in EDITS})]:
            missing += [f"{document}: does not name {name}" for name in sorted(wanted - {span for _, span, _ in named[ROOT / document]})]
    print(*missing, sep="\n", end="\n" if missing else "")
    return int(missing != [])


if __name__ == "__main__":
    sys.exit(main(sys.argv[1:]))
