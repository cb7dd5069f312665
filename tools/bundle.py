#!/usr/bin/env python3
"""Bundles as text: write a bundle down with names, read one back, and read a listing and a chart with names.

usage: tools/bundle.py pack TEXT               print the bundle that a text describes
       tools/bundle.py unpack BUNDLE [TEXT]    print the text of a bundle; its names are those of TEXT as far as that goes, else made up
       tools/bundle.py explain TEXT < LISTING  print a listing of the text's bundle with names in place of numbers
       tools/bundle.py chart TEXT FUNCTION     print what each send of a function of two arguments finds, with names
       tools/bundle.py chart BUNDLE FUNCTION   the same, with numbers

Where something is refused, nothing is printed but the reason, on standard error, with its line; the exit code is then 1. Where there is no chart,
the number that says why is the answer, and is printed.

A text has one declaration or instruction a line, and # begins a comment:

    abstract class Any                          # a class is concrete where it is not called abstract
    class Session under Any                     # the first class has no parent; every other one stands after its parents
    class Bench under Any
    function arm(session, bench)                # the names of the arguments
    signature arm(Session, Bench) -> Any
    method arm(Session, Bench : Any) -> Bench   # the specialisers, each with its declared class behind a colon where that is another one
        arg session                             # the body: one of the arguments,
        new Bench                               # an object of a class,
        send arm                                # a send, which takes its arguments off the stack, the last one on top,
        resend                                  # the method's own arguments, sent on to the method that it overrides

Each kind of record is numbered by itself, from 0, in the order of its lines. docs/BUNDLE-TEXT.md says more.
"""
import itertools
import re
import struct
import sys
from typing import NamedTuple

sys.dont_write_bytecode = True
from rules import AMBIGUOUS_RESEND, MARKS, MATRIX, NO_OVERRIDDEN, asked, chart_cells, chart_lines, chart_text, resend  # noqa: E402

DIRECTORY, LONGEST = 24, 65535
CLASSES, FUNCTIONS, SIGNATURES, METHODS, PLACES, INSTRUCTIONS = 128, 64, 256, 512, 3, 64
# Bytes of a record in each section: classes, parents, functions, signatures, methods, code.
WIDTHS = 6, 1, 1, 2 + PLACES, 6 + 2 * PLACES, 2
OPERATIONS = ["arg", "new", "send", "resend"]
ARG, NEW, SEND, RESEND = range(4)


class Class(NamedTuple):
    concrete: bool
    parents: list


class Signature(NamedTuple):
    function: int
    classes: list
    result: int


class Method(NamedTuple):
    function: int
    specialisers: list
    declared: list
    result: int
    body: list  # of operations with their operands


class Bundle(NamedTuple):
    classes: list
    functions: list  # of argument counts
    signatures: list
    methods: list


class Names(NamedTuple):
    classes: list
    functions: list
    places: list  # for each function the names of its arguments


class Refused(Exception):
    """a line, or None where no line is to blame, and the reason"""

    def __init__(self, line, reason):
        super().__init__(line, reason)
        self.line, self.reason = line, reason


class Unopened(Exception):
    """the number, and the record that it names, if any"""

    def __init__(self, number, record=None):
        super().__init__(number, record)
        self.number, self.record = number, record


# Bytes


def placed(parts, at=0):
    """offset and length of each part, where one follows the other"""
    for part in parts:
        yield at, len(part)
        at += len(part)


def padded(places):
    return [*places, *[0] * (PLACES - len(places))]


def write(bundle):
    lists = [bytes(own.parents) for own in bundle.classes]
    bodies = [bytes(itertools.chain(*own.body)) for own in bundle.methods]
    sections = [
        b"".join(struct.pack("<BBHH", own.concrete, 0, *span) for own, span in zip(bundle.classes, placed(lists))),
        b"".join(lists),
        bytes(bundle.functions),
        b"".join(bytes([own.function, *padded(own.classes), own.result]) for own in bundle.signatures),
        b"".join(
            bytes([own.function, *padded(own.specialisers), *padded(own.declared), own.result]) + struct.pack("<HH", *span)
            for own, span in zip(bundle.methods, placed(bodies))),
        b"".join(bodies),
    ]
    return b"".join(struct.pack("<HH", *span) for span in placed(sections, DIRECTORY)) + b"".join(sections)


def hold(kept, number, record=None):
    """refuses by that number where a rule is not kept"""
    if not kept:
        raise Unopened(number, record)


def sections_of(data):
    hold(DIRECTORY <= len(data) <= LONGEST, 1)
    sections, at = [], DIRECTORY
    for offset, length in struct.iter_unpack("<HH", data[:DIRECTORY]):
        hold(offset == at, 2)
        sections.append(data[at:at + length])
        at += length
    hold(at == len(data), 2)
    hold(not any(len(section) % width for section, width in zip(sections, WIDTHS)), 2)
    hold(sections[4] or not sections[5], 2)
    return sections


def records(section, layout):
    """the numbers of each record"""
    return list(struct.iter_unpack(layout, section))


def cut(section, spans, number):
    """the part of each record; each begins where the one before it ends, and the last ends the section"""
    end = 0
    for k, (offset, length) in enumerate(spans):
        end += length
        hold(offset + length == end <= len(section) and (end == len(section) or k + 1 < len(spans)), number, k)
        yield section[offset:end]


def read_classes(found, parents):
    for k, ((kind, zero, *_), above) in enumerate(zip(found, cut(parents, [own[2:] for own in found], 4))):
        rising = all(lower < higher for lower, higher in itertools.pairwise([*above, k]))
        hold(kind <= 1 and zero == 0 and rising and (len(above) > 0) == (k > 0), 4, k)
        yield Class(kind == 1, list(above))


def read_places(classes, functions, rule, function, result, *triples):
    """the classes of each triple at the places that the function has; rule: the number and the record that keeps it or not"""
    hold(function < len(functions) and result < len(classes), *rule)
    count = functions[function]
    for triple in triples:
        hold(all(own < len(classes) for own in triple[:count]) and not any(triple[count:]), *rule)
        yield list(triple[:count])


def read_signatures(found, classes, functions):
    for k, (function, triple, result) in enumerate(found):
        yield Signature(function, *read_places(classes, functions, (6, k), function, result, triple), result)


def read_methods(found, code, classes, functions):
    bodies = cut(code, [own[-2:] for own in found], 7)
    for k, ((function, specialisers, declared, result, *_), body) in enumerate(zip(found, bodies)):
        hold(len(body) in range(2, 2 * INSTRUCTIONS + 1, 2), 7, k)
        places = read_places(classes, functions, (7, k), function, result, specialisers, declared)
        yield Method(function, *places, result, records(body, "BB"))


def applies_to(method):
    return method.function, *method.specialisers


def read(data):
    """The bundle. One that does not open is refused by the first rule that it breaks and the lowest record that breaks it."""
    class_part, parents, functions, signature_part, method_part, code = sections_of(data)
    found = records(class_part, "<BBHH"), list(functions), records(signature_part, f"B{PLACES}sB"), records(method_part, f"<B{PLACES}s{PLACES}sBHH")
    hold(class_part and all(len(part) <= limit for part, limit in zip(found, [CLASSES, FUNCTIONS, SIGNATURES, METHODS])), 3)
    found_classes, functions, found_signatures, found_methods = found
    classes = list(read_classes(found_classes, parents))
    for k, count in enumerate(functions):
        hold(count <= PLACES, 5, k)
    signatures = list(read_signatures(found_signatures, classes, functions))
    methods = list(read_methods(found_methods, code, classes, functions))
    earlier = set()
    for k, own in enumerate(methods):
        hold(applies_to(own) not in earlier, 8, k)
        earlier.add(applies_to(own))
    for k, own in enumerate(methods):
        # RESEND has no operand but 0.
        limits = [functions[own.function], len(classes), len(functions), 1]
        hold(all(operation < len(limits) and operand < limits[operation] for operation, operand in own.body), 9, k)
    return Bundle(classes, functions, signatures, methods)


# Text


def counted(count, one, many=None):
    return f"{count} {one if count == 1 else many or one + 's'}"


class Line:
    """the words of a line, taken one after the other"""

    def __init__(self, number, text):
        self.number = number
        self.words = re.findall(r"->|\w+|\S", text.split("#", 1)[0])

    def refuse(self, reason):
        raise Refused(self.number, reason)

    def missing(self, what):
        self.refuse(f"{what} is missing before '{self.words[0]}'" if self.words else f"{what} is missing at the end of the line")

    def take(self, word):
        """whether that word is next; it is then taken"""
        if self.words[:1] != [word]:
            return False
        self.words.pop(0)
        return True

    def need(self, word):
        if not self.take(word):
            self.missing(f"'{word}'")

    def name(self, what):
        if not self.words or not re.fullmatch(r"[^\W\d]\w*", self.words[0]):
            self.missing(f"the name of {what}")
        return self.words.pop(0)

    def series(self, item):
        """items with commas between them"""
        items = [item()]
        while self.take(","):
            items.append(item())
        return items

    def bracketed(self, item):
        """no items, or some, in parentheses"""
        self.need("(")
        if self.take(")"):
            return []
        items = self.series(item)
        self.need(")")
        return items

    def class_name(self):
        return self.name("a class")

    def function_name(self):
        return self.name("a function")

    def argument_name(self):
        return self.name("an argument")

    def place(self):
        """the names of a specialiser and of its declared class"""
        specialiser = self.class_name()
        return specialiser, self.class_name() if self.take(":") else specialiser

    def result(self):
        self.need("->")
        return self.class_name()

    def end(self):
        if self.words:
            self.refuse(f"'{self.words[0]}' is too much")


class Declarations:
    """the declarations of a text, with the names that they use"""

    def __init__(self, text):
        self.classes, self.functions, self.signatures, self.methods = [], [], [], []
        self.body = None
        lines = text.split("\n")
        for number, content in enumerate(lines, 1):
            line = Line(number, content)
            if line.words:
                self.declare(line, line.words.pop(0))
                line.end()
        if not self.classes:
            raise Refused(len(lines), "there is no class in the text")

    def declare(self, line, word):
        if word in OPERATIONS:
            self.instruct(line, OPERATIONS.index(word))
            return
        self.body = None
        if word in ("abstract", "class"):
            if word == "abstract":
                line.need("class")
            name = line.class_name()
            parents = line.series(line.class_name) if line.take("under") else []
            self.add(self.classes, CLASSES, "classes", line, name, word == "class", parents)
        elif word == "function":
            name, arguments = line.function_name(), line.bracketed(line.argument_name)
            if len(arguments) > PLACES:
                line.refuse(f"a function has at most {PLACES} arguments")
            if len(set(arguments)) < len(arguments):
                line.refuse("two arguments have one name")
            self.add(self.functions, FUNCTIONS, "functions", line, name, arguments)
        elif word == "signature":
            parts = line.function_name(), line.bracketed(line.class_name), line.result()
            self.add(self.signatures, SIGNATURES, "signatures", line, *parts)
        elif word == "method":
            self.body = []
            parts = line.function_name(), line.bracketed(line.place), line.result()
            self.add(self.methods, METHODS, "methods", line, *parts, self.body)
        else:
            line.refuse(f"'{word}' begins no declaration and no instruction")

    def instruct(self, line, operation):
        if self.body is None:
            line.refuse("the instruction is in no method")
        named = {ARG: line.argument_name, NEW: line.class_name, SEND: line.function_name}
        # A resend names nothing.
        word = named[operation]() if operation in named else None
        self.add(self.body, INSTRUCTIONS, "instructions", line, operation, word, whole="a body")

    def add(self, declared, limit, what, line, *parts, whole="a bundle"):
        if len(declared) == limit:
            line.refuse(f"{whole} has at most {limit} {what}")
        declared.append((line, *parts))


def numbers(what, declared):
    """the number of each name"""
    known = {}
    for k, (line, name, *_) in enumerate(declared):
        if name in known:
            line.refuse(f"there is a {what} {name} already, in line {declared[known[name]][0].number}")
        known[name] = k
    return known


class Numbered:
    """what names stand for: the bundle of a text's declarations"""

    def __init__(self, declarations):
        self.classes, self.functions = numbers("class", declarations.classes), numbers("function", declarations.functions)
        self.arguments = [arguments for _, _, arguments in declarations.functions]
        self.bundle = Bundle(
            [self.class_record(k, *own) for k, own in enumerate(declarations.classes)],
            [len(arguments) for arguments in self.arguments],
            [self.signature_record(*own) for own in declarations.signatures],
            [self.method_record(*own) for own in declarations.methods])
        self.names = Names(list(self.classes), list(self.functions), self.arguments)

    def known(self, line, what, names, name):
        if name not in names:
            line.refuse(f"there is no {what} {name}")
        return names[name]

    def class_number(self, line, name):
        return self.known(line, "class", self.classes, name)

    def function_number(self, line, name):
        return self.known(line, "function", self.functions, name)

    def class_record(self, k, line, name, concrete, parents):
        above = [self.class_number(line, parent) for parent in parents]
        if len(set(above)) < len(above):
            line.refuse("two parents are one class")
        for parent in above:
            if parent >= k:
                line.refuse(f"class {name} does not stand after its parent {parents[above.index(parent)]}")
        if k and not above:
            line.refuse(f"class {name} has no parent, which only the first class may lack")
        # The order of parents means nothing, and the bytes have them in number order.
        return Class(concrete, sorted(above))

    def places(self, line, function, classes):
        """the classes at the places of a function"""
        count = len(self.arguments[function])
        if len(classes) != count:
            line.refuse(f"the function has {counted(count, 'argument')}, and here are {len(classes)}")
        return [self.class_number(line, name) for name in classes]

    def signature_record(self, line, name, classes, result):
        function = self.function_number(line, name)
        return Signature(function, self.places(line, function, classes), self.class_number(line, result))

    def method_record(self, line, name, places, result, body):
        function = self.function_number(line, name)
        if not body:
            line.refuse("the method has no instruction")
        specialisers, declared = (self.places(line, function, [place[k] for place in places]) for k in range(2))
        instructions = [(operation, self.operand(own, function, operation, word)) for own, operation, word in body]
        return Method(function, specialisers, declared, self.class_number(line, result), instructions)

    def operand(self, line, function, operation, word):
        if operation == NEW:
            return self.class_number(line, word)
        if operation == SEND:
            return self.function_number(line, word)
        if operation == RESEND:
            return 0
        if word not in self.arguments[function]:
            line.refuse(f"the method's function has no argument {word}")
        return self.arguments[function].index(word)


def refuse_twins(declared, methods):
    earlier = {}
    for (line, *_), own in zip(declared, methods):
        if applies_to(own) in earlier:
            line.refuse(f"the method of line {earlier[applies_to(own)]} has the same specialisers")
        earlier[applies_to(own)] = line.number


def refuse_length(declared, bundle):
    counts = [len(bundle.classes), sum(len(own.parents) for own in bundle.classes), *map(len, bundle[1:])]
    length = DIRECTORY + sum(count * width for count, width in zip(counts, WIDTHS))
    for (line, *_), own in zip(declared, bundle.methods):
        length += 2 * len(own.body)
        if length > LONGEST:
            line.refuse(f"with the body of this method the bundle is longer than {LONGEST} bytes")


def parse(text):
    """the bundle that a text describes, and its names"""
    declarations = Declarations(text)
    numbered = Numbered(declarations)
    refuse_twins(declarations.methods, numbered.bundle.methods)
    refuse_length(declarations.methods, numbered.bundle)
    return numbered.bundle, numbered.names


class Shown:
    """records as a text has them"""

    def __init__(self, bundle, names):
        self.bundle, self.names = bundle, names

    def send(self, function, classes):
        return f"{self.names.functions[function]}({', '.join(self.names.classes[own] for own in classes)})"

    def class_line(self, k):
        own = self.bundle.classes[k]
        under = " under " + ", ".join(self.names.classes[parent] for parent in own.parents) if own.parents else ""
        return ("" if own.concrete else "abstract ") + f"class {self.names.classes[k]}{under}"

    def function_line(self, k):
        return f"function {self.names.functions[k]}({', '.join(self.names.places[k])})"

    def signature(self, k):
        own = self.bundle.signatures[k]
        return f"{self.send(own.function, own.classes)} -> {self.names.classes[own.result]}"

    def method(self, k):
        """without its result class"""
        own, classes = self.bundle.methods[k], self.names.classes
        places = [classes[s] if s == d else f"{classes[s]} : {classes[d]}" for s, d in zip(own.specialisers, own.declared)]
        return f"{self.names.functions[own.function]}({', '.join(places)})"

    def instruction(self, k, at):
        own = self.bundle.methods[k]
        operation, operand = own.body[at]
        if operation == RESEND:
            return OPERATIONS[operation]
        return f"{OPERATIONS[operation]} {[self.names.places[own.function], self.names.classes, self.names.functions][operation][operand]}"

    def method_lines(self, k):
        own = self.bundle.methods[k]
        yield f"method {self.method(k)} -> {self.names.classes[own.result]}"
        for at in range(len(own.body)):
            yield "    " + self.instruction(k, at)

    def text(self):
        parts = [
            [self.class_line(k) for k in range(len(self.bundle.classes))],
            [self.function_line(k) for k in range(len(self.bundle.functions))],
            [f"signature {self.signature(k)}" for k in range(len(self.bundle.signatures))],
            *(self.method_lines(k) for k in range(len(self.bundle.methods))),
        ]
        return "\n\n".join(text for text in ("\n".join(part) for part in parts) if text) + "\n"


def filled(names, count, made_up):
    """names as far as they go, and made-up ones beyond them, each unlike the ones before it"""
    names = list(names[:count])
    for k in range(len(names), count):
        name = made_up(k)
        while name in names:
            name += "_"
        names.append(name)
    return names


def named(bundle, known):
    """names for all of a bundle, with the known ones kept"""
    places = known.places + [[]] * len(bundle.functions)
    return Names(
        filled(known.classes, len(bundle.classes), lambda k: f"class{k}"),
        filled(known.functions, len(bundle.functions), lambda k: f"fn{k}"),
        [filled(own, count, lambda k: chr(ord("a") + k)) for own, count in zip(places, bundle.functions)])


# Listings

OPENING = {
    1: f"fewer than {DIRECTORY} or more than {LONGEST} bytes",
    2: "the directory is wrong, or a section holds no whole records, or there is code without methods",
    3: "there is no class, or more classes, functions, signatures or methods than the limits",
    4: "the class record breaks its rule",
    5: f"the function has more than {PLACES} arguments",
    6: "the signature record breaks its rule",
    7: "the method record breaks its rule",
    8: "an earlier method of the function has the same specialisers",
    9: "an instruction has an unknown operation or a wrong operand",
}
# The kinds of line: N is a number, and a send is a function with its argument classes.
LISTED = [
    ("counts", r"classes (N) functions (N) signatures (N) methods (N)"),
    ("accepted", r"accepted"),
    ("whole", r"refused ([1-3])"),
    ("record", r"refused ([4-9]) record (N)"),
    ("coverage", r"refused (10) signature (N) send (N(?: N)*)"),
    ("coverage", r"refused (11) signature (N) send (N(?: N)*) methods (N) (N)"),
    ("coverage", r"refused (1[23]) signature (N) send (N(?: N)*) method (N)"),
    ("body", r"refused (1[4-7]|2[5-7]) method (N) at (N)"),
]


class Explained:
    """the lines of a listing, with names of a text"""

    def __init__(self, bundle, names):
        self.bundle, self.shown = bundle, Shown(bundle, names)

    def text(self, listing):
        lines = listing.splitlines()
        if not lines:
            raise Refused(None, "the listing has no line")
        return "".join(self.line(number, line) + "\n" for number, line in enumerate(lines, 1))

    def line(self, number, line):
        for kind, pattern in LISTED:
            match = re.fullmatch(pattern.replace("N", "[0-9]{1,5}"), line)
            if match:
                try:
                    return getattr(self, kind)(*([int(word) for word in part.split()] for part in match.groups()))
                except Refused as refused:
                    raise Refused(number, refused.reason) from None
        raise Refused(number, "this is no line of a listing")

    def present(self, what, records, k):
        if k >= len(records):
            raise Refused(None, f"the text has no {what} {k}")
        return k

    def counts(self, *counts):
        told = list(itertools.chain(*counts))
        if told != [len(part) for part in self.bundle]:
            raise Refused(None, "the text has other counts, so the listing is of another bundle")
        words = [("class", "classes"), ("function",), ("signature",), ("method",)]
        return ", ".join(counted(count, *word) for count, word in zip(told, words))

    def accepted(self):
        return "accepted"

    def whole(self, number):
        return f"refused: {OPENING[number[0]]}"

    def record(self, number, record):
        [number], [k] = number, record
        whose = {4: self.a_class, 5: self.a_function, 6: self.a_signature}.get(number, self.a_method)
        return f"refused: {whose(k)}: {OPENING[number]}"

    def a_class(self, k):
        return f"class {k} {self.shown.names.classes[self.present('class', self.bundle.classes, k)]}"

    def a_function(self, k):
        return f"function {k} {self.shown.names.functions[self.present('function', self.bundle.functions, k)]}"

    def a_signature(self, k):
        return f"signature {k} {self.shown.signature(self.present('signature', self.bundle.signatures, k))}"

    def a_method(self, k):
        return f"method {k} {self.shown.method(self.present('method', self.bundle.methods, k))}"

    def coverage(self, number, signature, send, *methods):
        [number], [signature], (function, *classes) = number, signature, send
        methods = [method for [method] in methods]
        covering = f"for {self.a_signature(signature)}"
        own = self.bundle.signatures[signature]
        if function != own.function or len(classes) != len(own.classes):
            raise Refused(None, f"signature {signature} of the text is of another function, or of other arguments, than the send")
        sent = self.shown.send(function, [self.present("class", self.bundle.classes, k) for k in classes])
        found = [self.a_method(method) for method in methods]
        for method in methods:
            if self.bundle.methods[method].function != function:
                raise Refused(None, f"method {method} of the text is of another function than the send")
        if number == 10:
            return f"refused: {sent} finds no method, {covering}"
        if number == 11:
            return f"refused: {sent} is ambiguous between {found[0]} and {found[1]}, {covering}"
        if number == 12:
            return f"refused: {sent} finds {found[0]}, whose declared classes do not hold the arguments, {covering}"
        result = self.shown.names.classes[self.bundle.methods[methods[0]].result]
        return f"refused: {sent} finds {found[0]}, whose result class {result} is not under the signature's, {covering}"

    def body(self, number, method, at):
        [number], [k], [at] = number, method, at
        whose = self.a_method(k)
        own = self.bundle.methods[k]
        operations = [operation for operation, _ in own.body] + ["end"]
        operation = operations[at] if at < len(operations) else None
        reason = self.resent(number, k) if operation == RESEND else {
            (14, SEND): "there are fewer values than it has arguments",
            (14, "end"): "not exactly one value is left",
            (15, NEW): "the class is abstract",
            (16, SEND): "no signature licenses it",
            (17, "end"): f"the value need not be under the result class {self.shown.names.classes[own.result]}",
        }.get((number, operation))
        if not reason:
            raise Refused(None, f"{number} is no refusal of what the text has at {at} in {whose}")
        where = "at its end" if operation == "end" else f"instruction {at}, {self.shown.instruction(k, at)}"
        return f"refused: {whose}, {where}: {reason}"

    def resent(self, number, k):
        """why a resend in a method is refused by that number, or nothing where it is not"""
        found, values = resend(write(self.bundle), k)
        if found != number:
            return None
        if number == NO_OVERRIDDEN:
            return "the method overrides no other"
        if number == AMBIGUOUS_RESEND:
            newer, older = map(self.a_method, values)
            return f"it is ambiguous between {newer} and {older}, both of which the method overrides"
        target, place = values
        argument = self.shown.names.places[self.bundle.methods[k].function][place]
        declared = self.shown.names.classes[self.bundle.methods[target].declared[place]]
        return f"argument {argument} need not be under the declared class {declared} of {self.a_method(target)}, to which it goes"


# Charts


def named_chart(data, function, shown):
    """all lines of a chart with names in place of numbers, in columns as wide as these need"""
    classes = shown.names.classes
    (corner, *columns), *rows = (chart_cells(data, function, line) for line in chart_lines(data))
    table = [[corner, *(classes[own] for own in columns)]]
    for first, *found in rows:
        table.append([classes[first], *(own if own in MARKS.values() else shown.method(own) for own in found)])
    widths = [max(map(len, column)) for column in zip(*table)]
    return "".join("  ".join(f"{name:>{width}}" for name, width in zip(line, widths)) + "\n" for line in table)


def charted(data, function, shown=None):
    """the chart of a function, with names where records are shown by them; or the number by which there is none, in a line like a listing's"""
    number, values = asked(data, MATRIX, "chart", function, 0, LONGEST)
    if number:
        return " ".join(["refused", str(number), *(f"record {k}" for k in values)]) + "\n"
    return named_chart(data, function, shown) if shown else chart_text(data, function).decode()


# Commands


def pack(text):
    """The bytes of a text. They are read back first, and have to give what the text describes."""
    bundle, _ = parse(text)
    written = write(bundle)
    try:
        same = read(written) == bundle
    except Unopened:
        same = False
    if not same:
        raise Refused(None, "the bundle that was written does not read back as the text describes it")
    return written


def unpack(data, known=Names([], [], [])):
    """the text of a bundle that opens"""
    bundle = read(data)
    text = Shown(bundle, named(bundle, known)).text()
    if pack(text) != data:
        raise Refused(None, "the text that was made does not pack to the same bytes")
    return text


def function_number(names, word):
    """the function that is meant by a name, or by its number"""
    if word in names:
        return names.index(word)
    if not re.fullmatch("[0-9]{1,20}", word):
        raise Refused(None, f"there is no function {word}")
    return int(word)


def chart(data, word):
    """the chart of a function of a text, or of a bundle, whose functions have no names"""
    # The directory of a bundle that opens begins with 24 as two bytes, of which the second is 0, and no text that packs has such a byte.
    if 0 in data:
        return charted(data, function_number([], word))
    text = decoded(data)
    bundle, names = parse(text)
    return charted(pack(text), function_number(names.functions, word), Shown(bundle, names))


def decoded(data):
    try:
        return data.decode("utf-8-sig")
    except UnicodeDecodeError as error:
        raise Refused(data.count(b"\n", 0, error.start) + 1, "this is no UTF-8 text") from None


def content(path):
    with open(path, "rb") as file:
        return file.read()


def on(name, call, *arguments):
    """what a call gives; what it refuses is said of the file of that name"""
    try:
        return call(*arguments)
    except Refused as refused:
        sys.exit(f"{name}:{refused.line}: {refused.reason}" if refused.line else f"{name}: {refused.reason}")
    except Unopened as unopened:
        named_record = "" if unopened.record is None else f" record {unopened.record}"
        sys.exit(f"{name}: refused {unopened.number}{named_record}: {OPENING[unopened.number]}")
    except OSError as error:
        sys.exit(f"{name}: {error.strerror}")


def text_of(path):
    return on(path, lambda: decoded(content(path)))


def main(arguments):
    match arguments:
        case ["pack", path]:
            printed = on(path, pack, text_of(path))
        case ["unpack", path]:
            printed = on(path, unpack, on(path, content, path)).encode()
        case ["unpack", path, names]:
            _, known = on(names, parse, text_of(names))
            printed = on(path, unpack, on(path, content, path), known).encode()
        case ["explain", path]:
            described = on(path, parse, text_of(path))
            listing = on("listing", lambda: decoded(sys.stdin.buffer.read()))
            printed = on("listing", Explained(*described).text, listing).encode()
        case ["chart", path, function]:
            printed = on(path, chart, on(path, content, path), function).encode()
        case _:
            sys.exit(__doc__)
    sys.stdout.buffer.write(printed)


if __name__ == "__main__":
    main(sys.argv[1:])
