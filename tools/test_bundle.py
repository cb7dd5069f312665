#!/usr/bin/env python3
"""Tests of tools/bundle.py.

usage: python3 tools/test_bundle.py
"""
import itertools
import pathlib
import random
import re
import subprocess
import sys
import tempfile
import textwrap
import unittest
from unittest import mock

sys.dont_write_bytecode = True
import bundle  # noqa: E402
import vectors  # noqa: E402
from vectors import make  # noqa: E402

ROOT = pathlib.Path(__file__).resolve().parent.parent
SCRIPT = ROOT / "tools" / "bundle.py"
SAMPLES = {path.stem: path.read_bytes() for path in sorted((ROOT / "bundles").glob("*.bundle"))}
CHART, RESEND = ((ROOT / "bundles" / f"{name}.txt").read_text() for name in ["chart-3", "resend"])


def listing(name):
    return (ROOT / "bundles" / f"{name}.listing").read_text()


def opens(data):
    return vectors.opening(data)[0] == 0


DOCUMENTATION = (ROOT / "docs" / "BUNDLE-TEXT.md").read_text()


def chart_in_documentation():
    return re.search(r"```\n(.*?abstract class.*?)```", DOCUMENTATION, re.DOTALL)[1]


# Descriptions


def some_bundle(draw):
    """a description of any shape that opens"""
    classes = [bundle.Class(draw.random() < 0.7, [])]
    for k in range(1, draw.choice([1, 2, 5, 12, 128])):
        classes.append(bundle.Class(draw.random() < 0.7, sorted(draw.sample(range(k), draw.randint(1, min(k, 4))))))
    functions = [draw.randint(0, bundle.PLACES) for _ in range(draw.choice([0, 1, 3, 64]))]
    if not functions:
        return bundle.Bundle(classes, [], [], [])

    def some_class():
        return draw.randrange(len(classes))

    def places(function):
        return [some_class() for _ in range(functions[function])]

    def instruction(function):
        limits = {bundle.ARG: functions[function], bundle.NEW: len(classes), bundle.SEND: len(functions), bundle.RESEND: 1}
        operation = draw.choice([own for own, limit in limits.items() if limit])
        return operation, draw.randrange(limits[operation])

    signatures, methods = [], {}
    for _ in range(draw.choice([0, 1, 8, 256])):
        function = draw.randrange(len(functions))
        signatures.append(bundle.Signature(function, places(function), some_class()))
    for _ in range(draw.choice([0, 1, 8, 100])):
        function = draw.randrange(len(functions))
        specialisers = places(function)
        declared = list(specialisers) if draw.random() < 0.5 else places(function)
        body = [instruction(function) for _ in range(draw.choice([1, 2, 5, 64]))]
        # Of methods with equal specialisers one stays.
        methods[function, *specialisers] = bundle.Method(function, specialisers, declared, some_class(), body)
    return bundle.Bundle(classes, functions, signatures, list(methods.values()))


def some_names(draw, described):
    """names that look like words of the format, like made-up names, and like neither"""
    words = ["class", "abstract", "under", "function", "signature", "method", "arg", "new", "send", "resend", "class1", "fn0", "a", "b_", "_", "Ärmel", "X9"]

    def some(count):
        return draw.sample(words, min(count, len(words))) + [f"n{k}" for k in range(count - len(words))]

    return bundle.Names(some(len(described.classes)), some(len(described.functions)), [some(count) for count in described.functions])


def other_layout(draw, text):
    """the same declarations, with the kinds mixed, other spaces, and comments"""
    kinds = {}
    for paragraph in re.split(r"\n(?! )", text):
        if paragraph.strip():
            kinds.setdefault(paragraph.split()[0].replace("abstract", "class"), []).append(paragraph)
    lines = []
    while kinds:
        kind = draw.choice(list(kinds))
        lines += kinds[kind].pop(0).strip().split("\n")
        if not kinds[kind]:
            del kinds[kind]
    laid_out = ""
    for line in lines:
        words = re.findall(r"->|\w+|\S", line)
        spaced = words[0]
        for before, word in zip(words, words[1:]):
            spaced += draw.choice([" ", "  ", "\t"] if before[-1].isalnum() or before[-1] == "_" else ["", " "]) + word
        laid_out += draw.choice(["", "    ", "\t"]) + spaced
        laid_out += draw.choice(["", " ", "# send x", " # (->"]) + draw.choice(["\n", "\r\n", "\n\n", "\n#\n"])
    return laid_out


# The tests


class Format(unittest.TestCase):
    def test_chart_3_packs_to_its_sample(self):
        self.assertEqual(bundle.pack(CHART), SAMPLES["chart-3"])

    def test_resend_packs_to_its_sample(self):
        self.assertEqual(bundle.pack(RESEND), SAMPLES["resend"])
        self.assertEqual(bundle.unpack(SAMPLES["resend"], bundle.parse(RESEND)[1]), RESEND[RESEND.index("abstract"):])
        self.assertIn(re.search(r"```\n(method .*?)```", DOCUMENTATION, re.DOTALL)[1], RESEND)

    def test_chart_4_of_the_documentation_packs_to_its_sample(self):
        self.assertEqual(bundle.pack(chart_in_documentation()), SAMPLES["chart-4"])

    def test_the_example_at_the_head_of_the_script(self):
        example = re.search(r"comment:\n\n(.*?)\n\nEach", bundle.__doc__, re.DOTALL)[1]
        described, names = bundle.parse(textwrap.dedent(example))
        self.assertEqual(described, bundle.Bundle(
            [bundle.Class(False, []), bundle.Class(True, [0]), bundle.Class(True, [0])], [2], [bundle.Signature(0, [1, 2], 0)],
            [bundle.Method(0, [1, 2], [1, 0], 2, [(bundle.ARG, 0), (bundle.NEW, 2), (bundle.SEND, 0), (bundle.RESEND, 0)])]))
        self.assertEqual(names, bundle.Names(["Any", "Session", "Bench"], ["arm"], [["session", "bench"]]))

    def test_smallest(self):
        self.assertEqual(bundle.pack("class One"), SAMPLES["one-class"])
        self.assertEqual(bundle.pack("class One\nfunction f()\nsignature f() -> One\nmethod f() -> One\nsend f"), SAMPLES["loop"])

    def test_layout_and_order_of_kinds_mean_nothing(self):
        mixed = (
            "\r\n# first\r\nmethod f(B,A:B)->A#body\r\n\targ y\r\n\r\nsend\tg\r\nclass  A\r\nfunction f ( x , y )\r\n"
            "class B under A\r\nmethod g() -> B\r\nnew B\r\nfunction g()")
        plain = "class A\nclass B under A\nfunction f(x, y)\nfunction g()\nmethod f(B, A : B) -> A\n  arg y\n  send g\nmethod g() -> B\n  new B\n"
        self.assertEqual(bundle.parse(mixed), bundle.parse(plain))
        self.assertEqual(bundle.Shown(*bundle.parse(mixed)).text(), plain.replace("  ", "    ").replace("\nf", "\n\nf", 1).replace("\nm", "\n\nm"))

    def test_order_of_parents_means_nothing(self):
        classes = "class A\nclass B under A\nclass C under A\n"
        self.assertEqual(bundle.pack(classes + "class D under C, A, B"), bundle.pack(classes + "class D under A, B, C"))

    def test_words_of_the_format_are_names_too(self):
        described, names = bundle.parse(
            "class class\nclass under under class\nabstract class abstract under under, class\nfunction new(arg)\nfunction resend()\n"
            "signature new(under) -> class\nmethod new(under : class) -> abstract\nnew under\nsend new\narg arg\n"
            "method resend() -> class\nsend resend\nresend")
        self.assertEqual(names, bundle.Names(["class", "under", "abstract"], ["new", "resend"], [["arg"], []]))
        self.assertEqual(described.classes, [bundle.Class(True, []), bundle.Class(True, [0]), bundle.Class(False, [0, 1])])
        self.assertEqual(described.methods[0], bundle.Method(0, [1], [0], 2, [(bundle.NEW, 1), (bundle.SEND, 0), (bundle.ARG, 0)]))
        self.assertEqual(described.methods[1].body, [(bundle.SEND, 1), (bundle.RESEND, 0)])


HEAD = "class A\nclass B under A\nfunction f(x)\nfunction g()\n"
BODY = "method f(A) -> A\narg x\n"
REFUSALS = [
    # Words
    ("class", 1, "the name of a class is missing at the end of the line"),
    ("class 1st", 1, "the name of a class is missing before '1st'"),
    ("abstract A", 1, "'class' is missing before 'A'"),
    ("class A under", 1, "the name of a class is missing at the end of the line"),
    ("class A B", 1, "'B' is too much"),
    ("class A-B", 1, "'-' is too much"),
    ("class A\nclass B under A,", 2, "the name of a class is missing at the end of the line"),
    ("class A\nclass B under A A", 2, "'A' is too much"),
    ("\n# c\nklass A", 3, "'klass' begins no declaration and no instruction"),
    ("class A\nfunction (x)", 2, "the name of a function is missing before '('"),
    ("class A\nfunction f", 2, "'(' is missing at the end of the line"),
    ("class A\nfunction f(x", 2, "')' is missing at the end of the line"),
    ("class A\nfunction f(x y)", 2, "')' is missing before 'y'"),
    ("class A\nfunction f(,)", 2, "the name of an argument is missing before ','"),
    ("class A\nfunction f(x,)", 2, "the name of an argument is missing before ')'"),
    ("class A\nfunction f() -> A", 2, "'->' is too much"),
    (HEAD + "signature f(A)", 5, "'->' is missing at the end of the line"),
    (HEAD + "signature f(A) - > A", 5, "'->' is missing before '-'"),
    (HEAD + "signature f(A) ->", 5, "the name of a class is missing at the end of the line"),
    (HEAD + "signature f(A : B) -> A", 5, "')' is missing before ':'"),
    (HEAD + "method f(A :) -> A", 5, "the name of a class is missing before ')'"),
    (HEAD + BODY + "new", 7, "the name of a class is missing at the end of the line"),
    (HEAD + BODY + "send", 7, "the name of a function is missing at the end of the line"),
    (HEAD + BODY + "arg 0", 7, "the name of an argument is missing before '0'"),
    (HEAD + BODY + "arg x x", 7, "'x' is too much"),
    (HEAD + BODY + "resend f", 7, "'f' is too much"),
    (HEAD + BODY + "resend 0", 7, "'0' is too much"),
    # Names
    (HEAD + "class A under B", 5, "there is a class A already, in line 1"),
    (HEAD + "function f()", 5, "there is a function f already, in line 3"),
    ("class A\nfunction f(x, y, x)", 2, "two arguments have one name"),
    (HEAD + "class C under D", 5, "there is no class D"),
    (HEAD + "class C under a", 5, "there is no class a"),
    (HEAD + "signature h(A) -> A", 5, "there is no function h"),
    (HEAD + "signature f(C) -> A", 5, "there is no class C"),
    (HEAD + "signature f(A) -> C", 5, "there is no class C"),
    (HEAD + "method h(A) -> A\nnew A", 5, "there is no function h"),
    (HEAD + "method f(C) -> A\nnew A", 5, "there is no class C"),
    (HEAD + "method f(A : C) -> A\nnew A", 5, "there is no class C"),
    (HEAD + "method f(A) -> C\nnew A", 5, "there is no class C"),
    (HEAD + BODY + "new C", 7, "there is no class C"),
    (HEAD + BODY + "send h", 7, "there is no function h"),
    (HEAD + BODY + "arg y", 7, "the method's function has no argument y"),
    # What no bundle that opens can hold
    ("", 1, "there is no class in the text"),
    ("# nothing\n\nfunction f()\n", 4, "there is no class in the text"),
    ("class A\n\nclass B", 3, "class B has no parent, which only the first class may lack"),
    ("class A under A", 1, "class A does not stand after its parent A"),
    ("class A\nclass B under A, C\nclass C under A", 2, "class B does not stand after its parent C"),
    (HEAD + "class C under A, B, A", 5, "two parents are one class"),
    ("class A\nfunction f(x, y, z, u)", 2, "a function has at most 3 arguments"),
    (HEAD + "signature f() -> A", 5, "the function has 1 argument, and here are 0"),
    (HEAD + "signature g(A, B) -> A", 5, "the function has 0 arguments, and here are 2"),
    (HEAD + "method f(A, B) -> A\nnew A", 5, "the function has 1 argument, and here are 2"),
    (HEAD + "method f(A) -> A\n" + BODY, 5, "the method has no instruction"),
    (HEAD + "method f(A) -> A", 5, "the method has no instruction"),
    (HEAD + "new A", 5, "the instruction is in no method"),
    (HEAD + "resend", 5, "the instruction is in no method"),
    (HEAD + BODY + "class C under A\narg x", 8, "the instruction is in no method"),
    (HEAD + BODY + "method f(A : B) -> B\nnew B", 7, "the method of line 5 has the same specialisers"),
    (HEAD + "method g() -> A\nnew A\nmethod g() -> B\nnew B", 7, "the method of line 5 has the same specialisers"),
    # Limits
    ("class A\n" + "".join(f"class A{k} under A\n" for k in range(128)), 129, "a bundle has at most 128 classes"),
    ("class A\n" + "".join(f"function f{k}()\n" for k in range(65)), 66, "a bundle has at most 64 functions"),
    (HEAD + "signature g() -> A\n" * 257, 4 + 257, "a bundle has at most 256 signatures"),
    (HEAD + BODY * 513, 4 + 2 * 512 + 1, "a bundle has at most 512 methods"),
    (HEAD + BODY + "arg x\n" * 64, 6 + 64, "a body has at most 64 instructions"),
]


class Refusals(unittest.TestCase):
    TOO_LONG = "with the body of this method the bundle is longer than 65535 bytes"

    def assert_refused(self, line, reason, call, *arguments):
        with self.assertRaises(bundle.Refused) as caught:
            call(*arguments)
        self.assertEqual((caught.exception.line, caught.exception.reason), (line, reason))

    def test_texts(self):
        for text, line, reason in REFUSALS:
            with self.subTest(text=text[:200]):
                self.assert_refused(line, reason, bundle.pack, text)

    def test_bytes_that_are_no_text(self):
        self.assert_refused(2, "this is no UTF-8 text", bundle.decoded, b"class A\nclass \xff under A")

    def test_one_byte_too_long(self):
        long, too_long = vectors.longest()
        self.assertEqual((len(long), len(too_long)), (65535, 65536))
        text, last_class = bundle.unpack(long), "class class127 under class1,"
        self.assertIn(last_class, text)
        longer = text.replace(last_class, "class class127 under class0, class1,")
        # Every body has two bytes or more, so it is the last one that passes the limit.
        last_method = max(number for number, line in enumerate(longer.split("\n"), 1) if line.startswith("method "))
        self.assert_refused(last_method, self.TOO_LONG, bundle.pack, longer)

    def test_far_too_long(self):
        text = "class C0\n" + "".join(f"class C{k} under C0\n" for k in range(1, 8)) + "function f(x, y, z)\n"
        for places in itertools.product(range(8), repeat=3):
            text += f"method f({', '.join(f'C{k}' for k in places)}) -> C0\n" + "arg x\n" * 64
        # Without bodies there are 24 + 8 * 6 + 7 + 1 + 512 * 12 = 6224 bytes; 463 bodies of 128 bytes make 65488, and one more is too much.
        self.assert_refused(9 + 463 * 65 + 1, self.TOO_LONG, bundle.pack, text)

    def test_what_was_written_is_read_back(self):
        reason = "the bundle that was written does not read back as the text describes it"
        for wrong in ["chart-4", "twin-methods"]:
            with mock.patch.object(bundle, "write", lambda _, wrong=wrong: SAMPLES[wrong]):
                self.assert_refused(None, reason, bundle.pack, CHART)
        with mock.patch.object(bundle, "pack", lambda _: SAMPLES["chart-4"]):
            self.assert_refused(None, "the text that was made does not pack to the same bytes", bundle.unpack, SAMPLES["chart-3"])


class Opening(unittest.TestCase):
    def answer(self, data):
        try:
            bundle.read(data)
        except bundle.Unopened as unopened:
            return unopened.number, [] if unopened.record is None else [unopened.record]
        return 0, None

    def assert_answer(self, data):
        number, values = vectors.opening(data)
        self.assertEqual(self.answer(data), (number, values if number else None), data.hex()[:400])

    def test_samples_that_do_not_open_have_the_number_of_their_listing(self):
        unopened = [name for name, data in SAMPLES.items() if not opens(data)]
        self.assertGreater(len(unopened), 9)
        for name in unopened:
            number, values = self.answer(SAMPLES[name])
            self.assertEqual(" ".join(map(str, ["refused", number, *(word for k in values for word in ["record", k])])) + "\n", listing(name))

    def test_bundles_of_the_rules_and_at_the_limits(self):
        for data, _, _ in vectors.of_the_rules():
            self.assert_answer(data)

    def test_samples_with_one_byte_changed(self):
        """against the second reading of the rules; what still opens makes the round trip"""
        opened = 0
        for name, data in SAMPLES.items():
            if len(data) > 200:
                continue
            for at in range(len(data)):
                for change in [1, 2, 6, 128, 255]:
                    changed = data[:at] + bytes([(data[at] + change) % 256]) + data[at + 1:]
                    self.assert_answer(changed)
                    if opens(changed):
                        opened += 1
                        self.assertEqual(bundle.pack(bundle.unpack(changed)), changed)
            for shorter in range(len(data)):
                self.assert_answer(data[:shorter])
            self.assert_answer(data + b"\0")
        self.assertGreater(opened, 300)


class RoundTrips(unittest.TestCase):
    def assert_round_trip(self, data):
        self.assertEqual(bundle.pack(bundle.unpack(data)), data)
        self.assertEqual(bundle.write(bundle.read(data)), data)

    def test_samples(self):
        for name, data in SAMPLES.items():
            with self.subTest(name):
                if opens(data):
                    self.assert_round_trip(data)
                else:
                    self.assertRaises(bundle.Unopened, bundle.unpack, data)

    def test_limits(self):
        long, too_long = vectors.longest()
        self.assertEqual(len(long), 65535)
        self.assertEqual(bundle.read(long).methods[0].body, bundle.parse(bundle.unpack(long))[0].methods[0].body)
        self.assertEqual(len(bundle.read(long).methods[0].body), 64)
        self.assertEqual([len(part) for part in bundle.read(long)], [128, 64, 256, 512])
        every = make.bundle(*vectors.at_limits(vectors.chain(128)))
        for data in [long, every, make.bundle(vectors.chain(128)), make.bundle(vectors.chain(1))]:
            self.assert_round_trip(data)
        with self.assertRaises(bundle.Unopened) as caught:
            bundle.unpack(too_long)
        self.assertEqual((caught.exception.number, caught.exception.record), (1, None))

    def test_random_descriptions(self):
        draw = random.Random(1)
        for _ in range(150):
            described = some_bundle(draw)
            names = some_names(draw, described)
            text = bundle.Shown(described, names).text()
            self.assertEqual(bundle.parse(text), (described, names))
            self.assertEqual(bundle.parse(other_layout(draw, text)), (described, names))
            data = bundle.pack(text)
            self.assertTrue(opens(data))
            self.assertEqual(bundle.read(data), described)
            self.assertEqual(bundle.parse(bundle.unpack(data))[0], described)
            self.assertEqual(bundle.unpack(data, names), text)
            # The other writer of bundles gives the same bytes.
            self.assertEqual(make.bundle(described.classes, described.functions, described.signatures, described.methods), data)

    def test_names_of_another_text(self):
        _, names = bundle.parse(CHART)
        self.assertEqual(bundle.parse(bundle.unpack(SAMPLES["chart-5"], names))[1], names)
        # Fewer names than records, and made-up ones that are taken.
        known = bundle.Names(["class2", "class1"], ["fn1"], [["b"]])
        described, names = bundle.parse(bundle.unpack(bundle.pack(
            "class A\nclass B under A\nclass C under A\nclass D under A\nfunction f(x, y)\nfunction g(x)\nfunction h()"), known))
        self.assertEqual(names, bundle.Names(["class2", "class1", "class2_", "class3"], ["fn1", "fn1_", "fn2"], [["b", "b_"], ["a"], []]))
        # More names than records.
        self.assertEqual(bundle.unpack(SAMPLES["one-class"], known), "class class2\n")


SPOKEN = """
class Any
class Session under Any
abstract class Ghost under Session
function arm(x, y)
function tick()
signature arm(Session, Any) -> Session
signature tick() -> Any
method tick() -> Any
    new Ghost
    send arm
method arm(Session, Any : Session) -> Any
    arg x
method arm(Any, Session) -> Session
    arg y
"""
SIGNATURE = "for signature 0 arm(Session, Any) -> Session"
LINES = [
    ("classes 3 functions 2 signatures 2 methods 3", "3 classes, 2 functions, 2 signatures, 3 methods"),
    ("accepted", "accepted"),
    ("refused 1", "refused: fewer than 24 or more than 65535 bytes"),
    ("refused 2", "refused: the directory is wrong, or a section holds no whole records, or there is code without methods"),
    ("refused 3", "refused: there is no class, or more classes, functions, signatures or methods than the limits"),
    ("refused 4 record 2", "refused: class 2 Ghost: the class record breaks its rule"),
    ("refused 5 record 1", "refused: function 1 tick: the function has more than 3 arguments"),
    ("refused 6 record 1", "refused: signature 1 tick() -> Any: the signature record breaks its rule"),
    ("refused 7 record 0", "refused: method 0 tick(): the method record breaks its rule"),
    ("refused 8 record 1", "refused: method 1 arm(Session, Any : Session): an earlier method of the function has the same specialisers"),
    ("refused 9 record 0", "refused: method 0 tick(): an instruction has an unknown operation or a wrong operand"),
    ("refused 10 signature 0 send 0 1 0", f"refused: arm(Session, Any) finds no method, {SIGNATURE}"),
    ("refused 10 signature 1 send 1", "refused: tick() finds no method, for signature 1 tick() -> Any"),
    (
        "refused 11 signature 0 send 0 1 1 methods 2 1",
        f"refused: arm(Session, Session) is ambiguous between method 2 arm(Any, Session) and method 1 arm(Session, Any : Session), {SIGNATURE}"),
    (
        "refused 12 signature 0 send 0 1 0 method 1",
        f"refused: arm(Session, Any) finds method 1 arm(Session, Any : Session), whose declared classes do not hold the arguments, {SIGNATURE}"),
    (
        "refused 13 signature 0 send 0 1 1 method 1",
        "refused: arm(Session, Session) finds method 1 arm(Session, Any : Session), whose result class Any is not under the signature's, "
        f"{SIGNATURE}"),
    ("refused 14 method 0 at 1", "refused: method 0 tick(), instruction 1, send arm: there are fewer values than it has arguments"),
    ("refused 14 method 0 at 2", "refused: method 0 tick(), at its end: not exactly one value is left"),
    ("refused 15 method 0 at 0", "refused: method 0 tick(), instruction 0, new Ghost: the class is abstract"),
    ("refused 16 method 0 at 1", "refused: method 0 tick(), instruction 1, send arm: no signature licenses it"),
    (
        "refused 17 method 1 at 1",
        "refused: method 1 arm(Session, Any : Session), at its end: the value need not be under the result class Any"),
]
NO_LINE = "this is no line of a listing"
OTHER_FUNCTION = "signature 0 of the text is of another function, or of other arguments, than the send"
UNEXPLAINED = [
    ("classes 4 functions 2 signatures 2 methods 3", "the text has other counts, so the listing is of another bundle"),
    ("classes 3 functions 2 signatures 2", NO_LINE),
    ("", NO_LINE),
    ("Accepted", NO_LINE),
    ("accepted ", NO_LINE),
    ("refused", NO_LINE),
    ("refused 0", NO_LINE),
    ("refused 4", NO_LINE),
    ("refused 1 record 0", NO_LINE),
    ("refused 4 record 123456", NO_LINE),
    ("refused 10 signature 0 send 0 1 0 method 1", NO_LINE),
    ("refused 11 signature 0 send 0 1 0 methods 1", NO_LINE),
    ("refused 12 signature 0 send 0 1 0 methods 0 1", NO_LINE),
    ("refused 14 method 0", NO_LINE),
    ("refused 18", NO_LINE),
    ("refused 4 record 3", "the text has no class 3"),
    ("refused 5 record 2", "the text has no function 2"),
    ("refused 6 record 2", "the text has no signature 2"),
    ("refused 7 record 3", "the text has no method 3"),
    ("refused 10 signature 2 send 0 1 0", "the text has no signature 2"),
    ("refused 10 signature 0 send 0 1 3", "the text has no class 3"),
    ("refused 10 signature 0 send 1", OTHER_FUNCTION),
    ("refused 10 signature 0 send 0 1", OTHER_FUNCTION),
    ("refused 12 signature 0 send 0 1 0 method 3", "the text has no method 3"),
    ("refused 11 signature 0 send 0 1 1 methods 1 0", "method 0 of the text is of another function than the send"),
    ("refused 13 signature 0 send 0 1 1 method 0", "method 0 of the text is of another function than the send"),
    ("refused 14 method 0 at 0", "14 is no refusal of what the text has at 0 in method 0 tick()"),
    ("refused 15 method 0 at 2", "15 is no refusal of what the text has at 2 in method 0 tick()"),
    ("refused 16 method 0 at 0", "16 is no refusal of what the text has at 0 in method 0 tick()"),
    ("refused 17 method 0 at 1", "17 is no refusal of what the text has at 1 in method 0 tick()"),
    ("refused 14 method 0 at 3", "14 is no refusal of what the text has at 3 in method 0 tick()"),
    ("refused 25 method 0 at 1", "25 is no refusal of what the text has at 1 in method 0 tick()"),
    ("refused 24 method 0 at 1", NO_LINE),
    ("refused 28 method 0 at 1", NO_LINE),
    ("refused 27 record 0", NO_LINE),
]

# Method 1 is the most general one. Above method 2 is method 1 alone; above 4 are 1 to 3, of which 2 and 3 tie; above 5 are 1 and 2, of which 2 leads.
RESENT = """
class Any
class Session under Any
class Lapsed under Session
function arm(x, y)
function tick()
method tick() -> Any
    new Any
    resend
method arm(Any, Any) -> Any
    resend
method arm(Session, Any : Session) -> Any
    arg x
    resend
method arm(Any, Session) -> Any
    arg y
method arm(Session, Session) -> Any
    resend
method arm(Lapsed, Any) -> Any
    resend
"""
METHOD_2, METHOD_4, METHOD_5 = "method 2 arm(Session, Any : Session)", "method 4 arm(Session, Session)", "method 5 arm(Lapsed, Any)"
RESENT_LINES = [
    ("refused 9 record 5", f"refused: {METHOD_5}: an instruction has an unknown operation or a wrong operand"),
    ("refused 25 method 0 at 1", "refused: method 0 tick(), instruction 1, resend: the method overrides no other"),
    ("refused 25 method 1 at 0", "refused: method 1 arm(Any, Any), instruction 0, resend: the method overrides no other"),
    (
        "refused 26 method 4 at 0",
        f"refused: {METHOD_4}, instruction 0, resend: it is ambiguous between method 3 arm(Any, Session) and {METHOD_2}, both of which the method overrides"),
    (
        "refused 27 method 5 at 0",
        f"refused: {METHOD_5}, instruction 0, resend: argument y need not be under the declared class Session of {METHOD_2}, to which it goes"),
]
RESENT_UNEXPLAINED = [
    ("refused 25 method 0 at 0", "25 is no refusal of what the text has at 0 in method 0 tick()"),
    ("refused 25 method 0 at 2", "25 is no refusal of what the text has at 2 in method 0 tick()"),
    ("refused 26 method 0 at 1", "26 is no refusal of what the text has at 1 in method 0 tick()"),
    ("refused 14 method 0 at 1", "14 is no refusal of what the text has at 1 in method 0 tick()"),
    *((f"refused {number} method 2 at 1", f"{number} is no refusal of what the text has at 1 in {METHOD_2}") for number in [16, 25, 26, 27]),
    ("refused 27 method 4 at 0", f"27 is no refusal of what the text has at 0 in {METHOD_4}"),
    ("refused 25 method 5 at 0", f"25 is no refusal of what the text has at 0 in {METHOD_5}"),
    ("refused 27 method 6 at 0", "the text has no method 6"),
]


class Explain(unittest.TestCase):
    def explained(self, text, listing):
        return bundle.Explained(*bundle.parse(text)).text(listing)

    def test_each_kind_of_line(self):
        for text, lines in [(SPOKEN, LINES), (RESENT, RESENT_LINES)]:
            for line, words in lines:
                with self.subTest(line):
                    self.assertEqual(self.explained(text, line + "\n"), words + "\n")

    def test_lines_that_are_refused(self):
        for text, lines in [(SPOKEN, UNEXPLAINED), (RESENT, RESENT_UNEXPLAINED)]:
            for line, reason in lines:
                with self.subTest(line), self.assertRaises(bundle.Refused) as caught:
                    self.explained(text, f"accepted\n{line}\n")
                self.assertEqual((caught.exception.line, caught.exception.reason), (2, reason))

    def test_no_line(self):
        with self.assertRaises(bundle.Refused) as caught:
            self.explained(SPOKEN, "")
        self.assertEqual((caught.exception.line, caught.exception.reason), (None, "the listing has no line"))

    def test_chart_3(self):
        explained = self.explained(CHART, listing("chart-3"))
        self.assertIn(f"```\n{explained}```", DOCUMENTATION)
        self.assertEqual(explained, (
            "8 classes, 1 function, 1 signature, 3 methods\n"
            "refused: arm(Lapsed, SharedBench) is ambiguous between method 1 arm(Lapsed, Bench) and method 0 arm(Session, SharedBench), "
            "for signature 0 arm(Session, Bench) -> Outcome\n"))

    def test_ambiguous_resend(self):
        text = bundle.unpack(SAMPLES["ambiguous-resend"], bundle.parse(CHART)[1])
        explained = self.explained(text, listing("ambiguous-resend"))
        self.assertIn(f"```\n{explained}```", DOCUMENTATION)
        self.assertIn("between method 1 arm(Lapsed, Bench) and method 0 arm(Session, SharedBench), both of which the method overrides", explained)

    def test_samples_have_listings_that_fit_them(self):
        for name, data in SAMPLES.items():
            if opens(data):
                with self.subTest(name):
                    words = self.explained(bundle.unpack(data), listing(name))
                    self.assertEqual(len(words.splitlines()), 2)


CHART_3 = """\
        1    2    3    4    6    7
   1    -    -    2    0    -    -
   2    -    -    1    *    -    -
   3    -    -    -    -    -    -
   4    -    -    -    -    -    -
   6    -    -    -    -    -    -
   7    -    -    -    -    -    -
"""


class Chart(unittest.TestCase):
    def test_the_charts_with_numbers(self):
        settled = CHART_3.replace("*", "3")
        for name, text in [("chart-3", CHART_3), ("chart-4", settled), ("chart-5", settled), ("no-concrete-class", "    \n")]:
            with self.subTest(name):
                self.assertEqual(bundle.chart(SAMPLES[name], "0"), text)

    def test_samples_that_have_a_chart_beside_them(self):
        charts = {path.stem: path.read_text() for path in (ROOT / "bundles").glob("*.chart")}
        self.assertGreater(len(charts), 3)
        for name, text in charts.items():
            with self.subTest(name):
                self.assertEqual(bundle.chart(SAMPLES[name], "0"), text)

    def test_methods_of_three_digits(self):
        self.assertEqual(
            bundle.chart(SAMPLES["102-methods"], "0").splitlines()[11], "  11    *    *    *    *    *    *    *    *  100    *  101    -")

    def test_chart_3_with_names(self):
        text = bundle.chart(CHART.encode(), "arm")
        self.assertIn(f"```\n{text}```", DOCUMENTATION)
        self.assertEqual(text.splitlines()[:3], [
            "             Session  Lapsed                Bench                SharedBench  Armed  Denied",
            "    Session        -       -  arm(Session, Bench)  arm(Session, SharedBench)      -       -",
            "     Lapsed        -       -   arm(Lapsed, Bench)                          *      -       -",
        ])
        self.assertEqual(bundle.chart(CHART.encode(), "0"), text)

    def test_no_concrete_class_with_names(self):
        self.assertEqual(bundle.chart(b"abstract class A\nfunction f(x, y)", "f"), "\n")

    def test_names_stand_where_the_numbers_do(self):
        for name in ["chart-4", "102-methods", "several-broken"]:
            text = bundle.unpack(SAMPLES[name])
            described, names = bundle.parse(text)
            shown = bundle.Shown(described, names)
            columns, *rows = (line.split() for line in bundle.chart(SAMPLES[name], "0").splitlines())
            expected = [[names.classes[int(own)] for own in columns]]
            expected += [[names.classes[int(own)], *(c if c in "-*" else shown.method(int(c)) for c in found)] for own, *found in rows]
            lines = bundle.chart(text.encode(), "fn0").splitlines()
            self.assertEqual(len({len(line) for line in lines}), 1)
            self.assertEqual([re.split(" {2,}", line.strip()) for line in lines], expected)

    def test_without_a_chart(self):
        for name, function, line in [
            ("loop", "0", "refused 21"), ("abstract-argument", "0", "refused 21"), ("three-argument-tie", "0", "refused 21"),
            ("chart-3", "1", "refused 18"), ("one-class", "0", "refused 18"), ("chart-3", "18446744073709551615", "refused 18"),
            ("23-bytes", "0", "refused 1"), ("own-parent", "9", "refused 4 record 1"),
        ]:
            with self.subTest(name):
                self.assertEqual(bundle.chart(SAMPLES[name], function), line + "\n")
        self.assertEqual(bundle.chart(b"class A\nfunction f(x)", "f"), "refused 21\n")
        self.assertEqual(bundle.chart(CHART.encode(), "1"), "refused 18\n")

    def test_names_that_are_not_there(self):
        for data, word in [(CHART.encode(), "Arm"), (CHART.encode(), "-1"), (SAMPLES["chart-3"], "arm"), (SAMPLES["chart-3"], "")]:
            with self.assertRaises(bundle.Refused) as caught:
                bundle.chart(data, word)
            self.assertEqual((caught.exception.line, caught.exception.reason), (None, f"there is no function {word}"))


class Commands(unittest.TestCase):
    def setUp(self):
        folder = tempfile.TemporaryDirectory()
        self.addCleanup(folder.cleanup)
        self.folder = pathlib.Path(folder.name)

    def run_script(self, *arguments, given=b""):
        done = subprocess.run([sys.executable, str(SCRIPT), *map(str, arguments)], input=given, capture_output=True, cwd=self.folder, check=False)
        return done.returncode, done.stdout, done.stderr.decode()

    def kept(self, name, content):
        (self.folder / name).write_bytes(content)
        return name

    def test_pack(self):
        self.assertEqual(self.run_script("pack", ROOT / "bundles" / "chart-3.txt"), (0, SAMPLES["chart-3"], ""))
        marked = self.kept("marked.txt", b"\xef\xbb\xbf" + CHART.replace("\n", "\r\n").encode())
        self.assertEqual(self.run_script("pack", marked), (0, SAMPLES["chart-3"], ""))

    def test_pack_refuses_with_file_and_line(self):
        self.assertEqual(self.run_script("pack", self.kept("a.txt", b"class A\nclass B under C\n")), (1, b"", "a.txt:2: there is no class C\n"))
        self.assertEqual(self.run_script("pack", self.kept("b.txt", b"class \xff\n")), (1, b"", "b.txt:1: this is no UTF-8 text\n"))
        self.assertEqual(self.run_script("pack", "absent.txt"), (1, b"", "absent.txt: No such file or directory\n"))

    def test_unpack(self):
        code, text, said = self.run_script("unpack", self.kept("c.bundle", SAMPLES["chart-4"]))
        self.assertEqual((code, bundle.pack(text.decode()), said), (0, SAMPLES["chart-4"], ""))
        code, text, said = self.run_script("unpack", "c.bundle", self.kept("c.txt", CHART.encode()))
        self.assertEqual((code, said), (0, ""))
        self.assertEqual(bundle.parse(text.decode()), bundle.parse(chart_in_documentation()))

    def test_unpack_refuses_with_the_number(self):
        for name, said in [
            ("23-bytes", "refused 1: fewer than 24 or more than 65535 bytes"),
            ("own-parent", "refused 4 record 1: the class record breaks its rule"),
        ]:
            self.assertEqual(self.run_script("unpack", self.kept("d.bundle", SAMPLES[name])), (1, b"", f"d.bundle: {said}\n"))
        self.kept("e.bundle", SAMPLES["chart-4"])
        self.assertEqual(self.run_script("unpack", "e.bundle", self.kept("e.txt", b"class")), (
            1, b"", "e.txt:1: the name of a class is missing at the end of the line\n"))

    def test_explain(self):
        text = self.kept("f.txt", CHART.encode())
        self.assertEqual(self.run_script("explain", text, given=b"refused 4 record 2\n"), (
            0, b"refused: class 2 Lapsed: the class record breaks its rule\n", ""))
        self.assertEqual(self.run_script("explain", text, given=b"accepted\nno\n"), (1, b"", "listing:2: this is no line of a listing\n"))
        self.assertEqual(self.run_script("explain", text), (1, b"", "listing: the listing has no line\n"))

    def test_chart(self):
        bundle_file, text = self.kept("g.bundle", SAMPLES["chart-3"]), self.kept("g.txt", CHART.encode())
        self.assertEqual(self.run_script("chart", bundle_file, "0"), (0, CHART_3.encode(), ""))
        self.assertEqual(self.run_script("chart", text, "arm"), (0, bundle.chart(CHART.encode(), "arm").encode(), ""))
        self.assertEqual(self.run_script("chart", bundle_file, "1"), (0, b"refused 18\n", ""))
        self.assertEqual(self.run_script("chart", self.kept("h.bundle", SAMPLES["loop"]), "0"), (0, b"refused 21\n", ""))
        self.assertEqual(self.run_script("chart", text, "disarm"), (1, b"", "g.txt: there is no function disarm\n"))
        self.assertEqual(self.run_script("chart", self.kept("i.txt", b"class A\nclass B"), "f"), (
            1, b"", "i.txt:2: class B has no parent, which only the first class may lack\n"))

    def test_usage(self):
        for arguments in [[], ["pack"], ["repack", "a"], ["pack", "a", "b"], ["chart", "a"]]:
            code, printed, said = self.run_script(*arguments)
            self.assertEqual((code, printed), (1, b""))
            self.assertIn("usage:", said)


if __name__ == "__main__":
    unittest.main()
