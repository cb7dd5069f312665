#!/usr/bin/env python3
"""Make the sample bundles: the files of this folder, the table of its README.md and, for those that the worked cases use, their byte lists in
crates/rules/specs/Samples.antt. The charts are those that tools/rules.py gives.

usage: bundles/make.py          write them
       bundles/make.py --check  write nothing; say which differ, and exit with 1 if any does
"""
import pathlib
import struct
import sys

HERE = pathlib.Path(__file__).resolve().parent
ROOT = HERE.parent
sys.dont_write_bytecode = True
sys.path.insert(0, str(ROOT / "tools"))
from made import write_or_check  # noqa: E402
from rules import chart_text  # noqa: E402

LISTS = ROOT / "crates" / "rules" / "specs" / "Samples.antt"
TABLE = HERE / "README.md"
PLACES = 3
ARG, NEW, SEND, RESEND = range(4)


def padded(classes):
    return bytes(list(classes) + [0] * (PLACES - len(classes)))


def bundle(classes, arities=(), signatures=(), methods=()):
    """classes: (concrete, parents); signatures: (function, classes, result);
    methods: (function, specialisers, declared, result, instructions)"""
    class_records, parents = b"", b""
    for concrete, above in classes:
        class_records += struct.pack("<BBHH", concrete, 0, len(parents), len(above))
        parents += bytes(above)
    signature_records = b"".join(bytes([f]) + padded(args) + bytes([result]) for f, args, result in signatures)
    method_records, code = b"", b""
    for f, specialisers, declared, result, instructions in methods:
        body = bytes(part for instruction in instructions for part in instruction)
        method_records += bytes([f]) + padded(specialisers) + padded(declared) + bytes([result])
        method_records += struct.pack("<HH", len(code), len(body))
        code += body
    return joined(class_records, parents, bytes(arities), signature_records, method_records, code)


def joined(*sections):
    """the sections behind their directory"""
    directory, offset = b"", 24
    for section in sections:
        directory += struct.pack("<HH", offset, len(section))
        offset += len(section)
    return directory + b"".join(sections)


# Where records state, as their last four bytes, the place of a part in another section: the section of these records, and their width.
PARENTS, BODY = (0, 6), (4, 12)


def moved(content, stated, record, later, longer):
    """the bundle, but a class states that its parents, or a method that its body, begin so many bytes later and are so many longer"""
    section, width = stated
    at = struct.unpack_from("<H", content, 4 * section)[0] + width * record + width - 4
    offset, length = struct.unpack_from("<HH", content, at)
    return content[:at] + struct.pack("<HH", offset + later, length + longer) + content[at + 4:]


ABSTRACT, CONCRETE = 0, 1


def chain(count):
    """classes of one parent each"""
    return [(CONCRETE, [k - 1] if k else []) for k in range(count)]


def flat(count):
    """concrete classes that have class 0 as their one parent"""
    return [(CONCRETE, [0] if k else []) for k in range(count)]


def of_methods(classes, arities, signatures, methods):
    """a bundle whose methods, each a function with specialisers and declared classes, make an object of the last class"""
    return bundle(classes, arities, signatures, [(*own, 0, [(NEW, len(classes) - 1)]) for own in methods])


def applying(classes, arities, methods):
    """a bundle of these methods, each a function with specialisers"""
    return of_methods(classes, arities, [], [(f, places, places) for f, places in methods])


CHART = [(ABSTRACT, []), (CONCRETE, [0]), (CONCRETE, [1]), (CONCRETE, [0]), (CONCRETE, [3]), (ABSTRACT, [0]), (CONCRETE, [5]), (CONCRETE, [5])]
CHART_METHODS = [(0, args, args, result, [(NEW, result)]) for args, result in [([1, 4], 6), ([2, 3], 7), ([1, 3], 6), ([2, 4], 7)]]

ALONE = [(CONCRETE, [])]
CLASS = bytes([CONCRETE, 0, 0, 0, 0, 0])

# The samples that the worked cases and the test programs use.
SAMPLES = {
    "chart-3": bundle(CHART, [2], [(0, [1, 3], 5)], CHART_METHODS[:3]),
    "chart-4": bundle(CHART, [2], [(0, [1, 3], 5)], CHART_METHODS),
    "chart-5": bundle(CHART, [2], [(0, [1, 3], 5), (0, [2, 3], 7)], CHART_METHODS),
    "loop": bundle([(CONCRETE, [])], [0], [(0, [], 0)], [(0, [], [], 0, [(SEND, 0)])]),
    "one-class": bundle([(CONCRETE, [])]),
    # The signature's own class is abstract and has no method of its own; only the class under it can be an argument.
    "abstract-argument": bundle(
        [(ABSTRACT, []), (CONCRETE, [0])], [1], [(0, [0], 0)], [(0, [1], [1], 1, [(ARG, 0)])]),
    # The method found declares a class that not every argument is under: 12.
    "narrow-declared": bundle(
        [(CONCRETE, []), (CONCRETE, [0])], [1], [(0, [0], 0)], [(0, [0], [1], 0, [(ARG, 0)])]),
    # The method found results in a class that is not under the signature's: 13.
    "wide-result": bundle(
        [(CONCRETE, []), (CONCRETE, [0])], [0], [(0, [], 1)], [(0, [], [], 0, [(NEW, 0)])]),
    # The body leaves two values at its end: 14.
    "two-values": bundle([(CONCRETE, [])], [0], [(0, [], 0)], [(0, [], [], 0, [(NEW, 0), (NEW, 0)])]),
    # The body makes an object of an abstract class: 15.
    "abstract-new": bundle([(CONCRETE, []), (ABSTRACT, [0])], [0], [(0, [], 0)], [(0, [], [], 0, [(NEW, 1)])]),
    # The only signature of the sent function asks for a class that the value sent need not be under: 16.
    "no-licence": bundle(
        [(CONCRETE, []), (CONCRETE, [0])], [0, 1], [(0, [], 0), (1, [1], 0)],
        [(0, [], [], 0, [(NEW, 0), (SEND, 1)]), (1, [1], [1], 0, [(NEW, 0)])]),
    # The body's value need not be under the method's result class: 17.
    "loose-result": bundle([(CONCRETE, []), (CONCRETE, [0])], [0], [(0, [], 0)], [(0, [], [], 1, [(NEW, 0)])]),
    # One for each number of opening, and for 10.
    "23-bytes": bundle([])[:23],
    # The byte after the class belongs to no section.
    "directory-gap": struct.pack("<12H", 24, 6, *[31, 0] * 5) + CLASS + b"\0",
    "empty-sections": bundle([]),
    "own-parent": bundle(ALONE + [(CONCRETE, [1])]),
    "four-arguments": bundle(ALONE, [3, 4]),
    "absent-result": bundle(ALONE, [0], [(0, [], 1)]),
    "empty-body": bundle(ALONE, [0], [(0, [], 0)], [(0, [], [], 0, [])]),
    "twin-methods": bundle(ALONE, [1], [], [(0, [0], [0], 0, [(ARG, 0)]), (0, [0], [0], 0, [(NEW, 0)])]),
    "unknown-operation": bundle(ALONE, [0], [(0, [], 0)], [(0, [], [], 0, [(4, 0)])]),
    "no-method": bundle(ALONE, [0], [(0, [], 0)]),
    # Two signatures have no method, and the one body that there is ends with two values: the lower signature is named.
    "three-faults": bundle(ALONE, [0, 0, 0], [(0, [], 0), (1, [], 0)], [(2, [], [], 0, [(NEW, 0), (NEW, 0)])]),
    # Three broken tuples: (1, 3) by 12 is the first; (2, 1) by 10 would be if the second place turned slowest, or the numbers were tried for all tuples
    # in turn; (3, 2) by 11, between methods 1 and 0, is the last.
    "several-broken": bundle(
        [(ABSTRACT, [])] + [(CONCRETE, [0])] * 3, [2], [(0, [0, 0], 0)],
        [(0, args, declared, 0, [(NEW, 1)]) for args, declared in [
            ([3, 0], [3, 0]), ([0, 2], [0, 2]), ([1, 1], [1, 1]), ([1, 3], [1, 1]), ([2, 3], [2, 3])]]),
    # All five methods apply to class 5 and 0, 1 and 3 are rivals, so that 11 names 3 and 1: not 0 and 1, the lowest rivals; not 4 and 3, the highest
    # methods that apply; not 3 and 2, the highest rival and the method below it; not 3 and 0, the highest and the lowest rival.
    "three-rivals": bundle(
        [(ABSTRACT, []), (ABSTRACT, [0]), *[(ABSTRACT, [1])] * 3, (CONCRETE, [2, 3, 4])], [1], [(0, [0], 0)],
        [(0, [c], [c], 0, [(NEW, 5)]) for c in [2, 3, 1, 4, 0]]),
    # Under class 2 are 3 and 4, under class 1 those and 5, under class 0 those and 6.
    "upper-classes": bundle(
        [(ABSTRACT, []), (ABSTRACT, [0]), (ABSTRACT, [1]), (CONCRETE, [2]), (CONCRETE, [2]), (CONCRETE, [1]), (CONCRETE, [0]), (ABSTRACT, [0])],
        [1], [(0, [1], 1)], [(0, [c], [c], c, [(ARG, 0)]) for c in [1, 2]]),
    # Sends of function 0 find methods whose specialisers are both arguments, the first alone, the second alone, or neither; function 1 has no arguments.
    "exact-match": bundle(
        [(ABSTRACT, []), *[(CONCRETE, [k - 1]) for k in range(1, 4)]], [2, 0], [(0, [1, 1], 1), (1, [], 1)],
        [(f, places, places, 1, [(NEW, 1)]) for f, places in [(0, [1, 1]), (0, [2, 2]), (1, [])]]),
    # Method 1 overrides 0 and 2, of which 0 leads and resends in its turn; each passes the value that comes back to function 1.
    "resend": bundle(
        CHART, [2, 1], [(0, [1, 3], 5), (1, [5], 5)],
        [*((0, args, args, 5, [(RESEND, 0), (SEND, 1)]) for args in [[2, 3], [2, 4]]), CHART_METHODS[2], (1, [5], [5], 5, [(ARG, 0)])]),
    # The general method sends its function with class 1, and the special one resends to it: in a run that begins with class 0 the 32nd frame resends.
    "resend-loop": bundle(chain(2), [1], [(0, [0], 0)], [(0, [0], [0], 0, [(NEW, 1), (SEND, 0)]), (0, [1], [1], 0, [(RESEND, 0)])]),
    "resend-operand": bundle(chain(2), [1], [(0, [0], 0)], [(0, [0], [0], 0, [(ARG, 0)]), (0, [1], [1], 0, [(RESEND, 1)])]),
    # The general method resends, and only the special one has a method to resend to: 25.
    "no-overridden": bundle(chain(2), [1], [(0, [0], 0)], [(0, [c], [c], 0, [(RESEND, 0)]) for c in range(2)]),
    # The method that settles the tie of chart-3 resends to the two that tie: 26.
    "ambiguous-resend": bundle(CHART, [2], [(0, [2, 4], 5)], [*CHART_METHODS[:2], (0, [2, 4], [2, 4], 5, [(RESEND, 0)])]),
    # A send finds the general method only with an argument that its declared class holds; the special one would resend another to it: 27.
    "narrow-target": bundle(
        [(ABSTRACT, []), (CONCRETE, [0]), (CONCRETE, [0])], [1], [(0, [0], 0)], [(0, [0], [1], 0, [(ARG, 0)]), (0, [2], [2], 0, [(RESEND, 0)])]),
}


# Further ways to break a rule, the most classes that there may be, and two charts.
FURTHER = {
    "128-classes": bundle(ALONE + [(CONCRETE, [0])] * 127),
    "part-of-a-class": joined(CLASS + b"\0", b"", b"", b"", b"", b""),
    "code-without-methods": joined(CLASS, b"", b"", b"", b"", bytes([NEW, 0])),
    "129-classes": bundle(ALONE + [(CONCRETE, [0])] * 128),
    "two-roots": bundle(ALONE + [(CONCRETE, [])]),
    "leftover-parent": joined(CLASS + bytes([CONCRETE, 0, 0, 0, 1, 0]), bytes([0, 0]), b"", b"", b"", b""),
    # The list and the body that begin late are lawful in themselves, and end where they should.
    "late-list": moved(bundle(ALONE + [(CONCRETE, [0]), (CONCRETE, [0, 1])]), PARENTS, 2, 1, -1),
    "late-body": moved(bundle(ALONE, [0, 0], [], [(0, [], [], 0, [(NEW, 0)]), (1, [], [], 0, [(NEW, 0)] * 2)]), BODY, 1, 2, -2),
    "unused-place-filled": bundle(ALONE + [(CONCRETE, [0])], [1], [(0, [0, 1], 0)], [(0, [0], [0], 0, [(ARG, 0)])]),
    "absent-specialiser": bundle(ALONE, [1], [], [(0, [1], [0], 0, [(NEW, 0)])]),
    "absent-argument": bundle(ALONE, [1], [(0, [0], 0)], [(0, [0], [0], 0, [(ARG, 1)])]),
    "uncovered-class": bundle(
        [(ABSTRACT, []), (CONCRETE, [0]), (CONCRETE, [0])], [1], [(0, [0], 0)], [(0, [1], [1], 0, [(ARG, 0)])]),
    # The signature's classes have no class under them, so that one send alone is covered.
    "three-argument-tie": bundle(
        ALONE + [(CONCRETE, [0])], [3], [(0, [1, 1, 1], 0)], [(0, args, args, 0, [(ARG, 0)]) for args in [[0, 1, 1], [1, 1, 0]]]),
    # The declared class alone tells the two concrete classes apart.
    "declared-apart": bundle(
        [(ABSTRACT, []), (ABSTRACT, [0]), (CONCRETE, [1]), (CONCRETE, [0])], [1], [(0, [0], 0)], [(0, [0], [1], 0, [(NEW, 2)])]),
    # The first signature allows the result of the method, the second does not.
    "narrower-result": bundle(
        [(ABSTRACT, []), (CONCRETE, [0]), (CONCRETE, [0])], [1], [(0, [1], 0), (0, [1], 1)], [(0, [1], [1], 2, [(NEW, 2)])]),
    "missing-argument": bundle(
        ALONE, [1, 0], [(0, [0], 0), (1, [], 0)], [(0, [0], [0], 0, [(ARG, 0)]), (1, [], [], 0, [(SEND, 0)])]),
    "no-concrete-class": bundle([(ABSTRACT, [])], [2], [(0, [0, 0], 0)], [(0, [0, 0], [0, 0], 0, [(ARG, 0)])]),
    # A method for each pair of the classes 1 to 10. Class 11 is under two of them and has two methods of its own; none applies to class 12.
    "102-methods": bundle(
        [(ABSTRACT, [])] + [(CONCRETE, [0])] * 10 + [(CONCRETE, [9, 10]), (CONCRETE, [0])], [2], [],
        [(0, args, args, 0, [(ARG, 0)]) for args in [*([i, j] for i in range(1, 11) for j in range(1, 11)), [11, 9], [11, 11]]]),
}

# The samples whose charts, of function 0, are among the files.
CHARTED = ["chart-3", "chart-4", "chart-5", "resend", "no-concrete-class", "102-methods"]

# What each sample is, and the lines that the listing program has to print for it. They are written down from the rules and not worked out by any
# program.
SHOWN = {
    "chart-3": (
        "refused by 11: three methods apply to (2, 4) and none leads",
        ["classes 8 functions 1 signatures 1 methods 3", "refused 11 signature 0 send 0 2 4 methods 1 0"]),
    "chart-4": (
        "accepted: a fourth method settles that send",
        ["classes 8 functions 1 signatures 1 methods 4", "accepted"]),
    "chart-5": (
        "accepted: a second, narrower signature of the same function",
        ["classes 8 functions 1 signatures 2 methods 4", "accepted"]),
    "loop": (
        "accepted: a method that sends its own function",
        ["classes 1 functions 1 signatures 1 methods 1", "accepted"]),
    "one-class": (
        "accepted: the smallest bundle, one class and nothing else",
        ["classes 1 functions 0 signatures 0 methods 0", "accepted"]),
    "128-classes": (
        "accepted: as many classes as there may be",
        ["classes 128 functions 0 signatures 0 methods 0", "accepted"]),
    "abstract-argument": (
        "accepted: the signature's own class is abstract, so it is no argument",
        ["classes 2 functions 1 signatures 1 methods 1", "accepted"]),
    "no-concrete-class": (
        "accepted: no class is concrete, so the chart has its head alone",
        ["classes 1 functions 1 signatures 1 methods 1", "accepted"]),
    "102-methods": (
        "accepted: its chart has `*`, `-` and methods of three digits, and there is no signature to cover a send",
        ["classes 13 functions 1 signatures 0 methods 102", "accepted"]),
    "upper-classes": (
        "accepted: all concrete classes under 2 find one method, those under 1 several, one under 0 finds no method, and 7 has no concrete class under it",
        ["classes 8 functions 1 signatures 1 methods 2", "accepted"]),
    "exact-match": (
        "accepted: (1, 1) and (2, 2) find methods written for exactly these classes, (1, 2), (2, 1) and (3, 3) find them too",
        ["classes 4 functions 2 signatures 2 methods 3", "accepted"]),
    "resend": (
        "accepted: methods 0 and 1 resend, 1 to 0 and 0 to 2, and each goes on with the value that comes back",
        ["classes 8 functions 2 signatures 2 methods 4", "accepted"]),
    "resend-loop": (
        "accepted: a method that sends its own function, and one that resends to it",
        ["classes 2 functions 1 signatures 1 methods 2", "accepted"]),
    "23-bytes": (
        "refused by 1: a byte short of a directory",
        ["refused 1"]),
    "directory-gap": (
        "refused by 2: the parents begin a byte after the classes end",
        ["refused 2"]),
    "part-of-a-class": (
        "refused by 2: the classes have a byte that makes no record",
        ["refused 2"]),
    "code-without-methods": (
        "refused by 2: an instruction and no method that has it",
        ["refused 2"]),
    "empty-sections": (
        "refused by 3: six empty sections, so there is no class",
        ["refused 3"]),
    "129-classes": (
        "refused by 3: one class too many",
        ["refused 3"]),
    "own-parent": (
        "refused by 4: class 1 is its own parent",
        ["refused 4 record 1"]),
    "two-roots": (
        "refused by 4: class 1 has no parent",
        ["refused 4 record 1"]),
    "leftover-parent": (
        "refused by 4: the parents section goes on after the last class's list",
        ["refused 4 record 1"]),
    "late-list": (
        "refused by 4: the list of class 2 begins a byte after that of class 1 ends",
        ["refused 4 record 2"]),
    "four-arguments": (
        "refused by 5: function 1 has four arguments",
        ["refused 5 record 1"]),
    "absent-result": (
        "refused by 6: the signature's result class is not there",
        ["refused 6 record 0"]),
    "unused-place-filled": (
        "refused by 6: a signature of one argument names a class for the second",
        ["refused 6 record 0"]),
    "empty-body": (
        "refused by 7: the method has no instruction",
        ["refused 7 record 0"]),
    "absent-specialiser": (
        "refused by 7: the method's specialiser is not there",
        ["refused 7 record 0"]),
    "late-body": (
        "refused by 7: the body of method 1 begins an instruction after that of method 0 ends",
        ["refused 7 record 1"]),
    "twin-methods": (
        "refused by 8: two methods of one function have equal specialisers",
        ["refused 8 record 1"]),
    "unknown-operation": (
        "refused by 9: the body has operation 4",
        ["refused 9 record 0"]),
    "absent-argument": (
        "refused by 9: ARG of a second argument, where the function has one",
        ["refused 9 record 0"]),
    "resend-operand": (
        "refused by 9: RESEND with operand 1",
        ["refused 9 record 1"]),
    "no-method": (
        "refused by 10: a signature without arguments, and no method at all",
        ["classes 1 functions 1 signatures 1 methods 0", "refused 10 signature 0 send 0"]),
    "three-faults": (
        "refused by 10: the lower of two broken signatures, before a broken body",
        ["classes 1 functions 3 signatures 2 methods 1", "refused 10 signature 0 send 0"]),
    "uncovered-class": (
        "refused by 10: no method applies to one of the two concrete classes",
        ["classes 3 functions 1 signatures 1 methods 1", "refused 10 signature 0 send 0 2"]),
    "three-argument-tie": (
        "refused by 11: one method is more special at the first argument, the other at the last",
        ["classes 2 functions 1 signatures 1 methods 2", "refused 11 signature 0 send 0 1 1 1 methods 1 0"]),
    "three-rivals": (
        "refused by 11: of three rivals the two with the highest numbers, the higher first, and neither of the two beaten methods",
        ["classes 6 functions 1 signatures 1 methods 5", "refused 11 signature 0 send 0 5 methods 3 1"]),
    "narrow-declared": (
        "refused by 12: the method found declares a narrower class than it applies to",
        ["classes 2 functions 1 signatures 1 methods 1", "refused 12 signature 0 send 0 0 method 0"]),
    "declared-apart": (
        "refused by 12: of two classes that the specialiser takes, the declared class does not hold the higher",
        ["classes 4 functions 1 signatures 1 methods 1", "refused 12 signature 0 send 0 3 method 0"]),
    "several-broken": (
        "refused by 12: the first of three broken tuples, the leftmost argument turning slowest",
        ["classes 4 functions 1 signatures 1 methods 5", "refused 12 signature 0 send 0 1 3 method 3"]),
    "wide-result": (
        "refused by 13: the method's result class is not under the signature's",
        ["classes 2 functions 1 signatures 1 methods 1", "refused 13 signature 0 send 0 method 0"]),
    "narrower-result": (
        "refused by 13: the second of two signatures, with the same arguments and a narrower result",
        ["classes 3 functions 1 signatures 2 methods 1", "refused 13 signature 1 send 0 1 method 0"]),
    "two-values": (
        "refused by 14: the body ends with two values",
        ["classes 1 functions 1 signatures 1 methods 1", "refused 14 method 0 at 2"]),
    "missing-argument": (
        "refused by 14: a send takes one argument and there is none",
        ["classes 1 functions 2 signatures 2 methods 2", "refused 14 method 1 at 0"]),
    "abstract-new": (
        "refused by 15: NEW of an abstract class",
        ["classes 2 functions 1 signatures 1 methods 1", "refused 15 method 0 at 0"]),
    "no-licence": (
        "refused by 16: no signature licenses the send",
        ["classes 2 functions 2 signatures 2 methods 2", "refused 16 method 0 at 1"]),
    "loose-result": (
        "refused by 17: the body's value need not be of the result class",
        ["classes 2 functions 1 signatures 1 methods 1", "refused 17 method 0 at 1"]),
    "no-overridden": (
        "refused by 25: the method that resends is the most general one",
        ["classes 2 functions 1 signatures 1 methods 2", "refused 25 method 0 at 0"]),
    "ambiguous-resend": (
        "refused by 26: the method that resends overrides two, and neither leads",
        ["classes 8 functions 1 signatures 1 methods 3", "refused 26 method 2 at 0"]),
    "narrow-target": (
        "refused by 27: the method resent to declares a class that does not hold the argument",
        ["classes 3 functions 1 signatures 1 methods 2", "refused 27 method 1 at 0"]),
}


def lists():
    text = "-- The sample bundles that the worked cases use, byte by byte. Made by bundles/make.py, with the files of that folder.\n"
    text += "-- Assumes nothing.\nuse Rattle.std.specs.Prelude.{ℕ, List, [], ◌∷◌}\n"
    for name, content in SAMPLES.items():
        identifier = name.replace("23", "twenty_three").replace("chart-", "chart").replace("-", "_")
        text += f"\nunfoldable pub {identifier} : List ℕ\n{identifier} =\n"
        rows = [content[at:at + 16] for at in range(0, len(content), 16)]
        text += "\n".join("    " + " ∷ ".join(str(x) for x in row) + " ∷" for row in rows) + " []\n"
    return text


def listed(name):
    """what the listing program has to print for a sample"""
    return "".join(line + "\n" for line in SHOWN[name][1])


def table():
    """README.md with its table made anew: the prose before it is kept"""
    prose, head, _ = TABLE.read_text().partition("| bundle |")
    rows = [f"{head} what it is | what the listing program prints |", "|---|---|---|"]
    for name, (what, lines) in SHOWN.items():
        rows.append(f"| `{name}` | {what} | " + "<br>".join(f"`{line}`" for line in lines) + " |")
    return prose + "\n".join(rows) + "\n"


def main():
    samples = {**SAMPLES, **FURTHER}
    assert samples.keys() == SHOWN.keys(), "each sample is in the table of what is shown, and nothing else is"
    wanted = {LISTS: lists().encode(), TABLE: table().encode()}
    for name, content in samples.items():
        wanted[HERE / f"{name}.bundle"] = content
        wanted[HERE / f"{name}.listing"] = listed(name).encode()
    for name in CHARTED:
        wanted[HERE / f"{name}.chart"] = chart_text(samples[name], 0)
    found = [path for path in HERE.iterdir() if path.suffix in (".bundle", ".listing", ".chart")]
    sys.exit(write_or_check(ROOT, wanted, "--check" in sys.argv[1:], found))


if __name__ == "__main__":
    main()
