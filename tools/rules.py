"""The rules for opening, the body view and reader, the scratch, ancestry, lookup, charts and arguments known only by upper classes, for which sends
signatures cover, and for what a method resends to, written without the library."""
import functools
import itertools

LONGEST = 65535
CLASSES, FUNCTIONS, SIGNATURES, METHODS, PLACES = 128, 64, 256, 512, 3
ABSENT, SHORT, SHORT_ROW, NOT_BINARY, NO_LINE, SHORT_BUFFER, NONE_CONCRETE, NO_OVERRIDDEN, AMBIGUOUS_RESEND, NARROW_TARGET = range(18, 28)
# The last of the operations.
RESEND = 3
# The bytes of the subclass matrix, and of each of its rows.
MATRIX, MATRIX_ROW = 2048, 16
# What a chart shows where lookup gives one of these numbers.
MARKS = {10: "-", 11: "*"}
# What ancestry answers for one class and another: the first is not under the other; they are one class; the first is under the other and not that one.
NEITHER, SAME, HEIR = range(3)
# The first value of what is said where only upper classes are known.
ONE, MAY_FAIL, SEVERAL = range(3)


def word(data, at):
    return data[at] + 256 * data[at + 1]


def spans(bundle):
    """offset and length of each section"""
    return [(word(bundle, at), word(bundle, at + 2)) for at in range(0, 24, 4)]


def records(section, width):
    return [section[at:at + width] for at in range(0, len(section), width)]


def follow(lists, end):
    """for each (offset, length): whether it begins where the one before it ends, lies within end, and, for the last, reaches it"""
    at = 0
    for k, (offset, length) in enumerate(lists):
        at += length
        yield offset + length == at <= end and (at == end or k + 1 < len(lists))


def lowest(number, kept):
    """the number and the record that is the first not to keep its rule, or nothing"""
    return next(((number, [k]) for k, keeps in enumerate(kept) if not keeps), None)


@functools.cache
def opening(bundle):
    """the number, 0 where the bundle opens, with its values"""
    if not 24 <= len(bundle) <= LONGEST:
        return 1, []
    sections, at = [], 24
    for offset, length in spans(bundle):
        if offset != at:
            return 2, []
        sections.append(bundle[at:at + length])
        at += length
    if at != len(bundle):
        return 2, []
    parents, code = sections[1], sections[5]
    if any(len(sections[k]) % width for k, width in [(0, 6), (3, 5), (4, 12), (5, 2)]) or (code and not sections[4]):
        return 2, []
    classes, functions, signatures, methods = (records(sections[k], width) for k, width in [(0, 6), (2, 1), (3, 5), (4, 12)])
    counts = [len(classes), len(functions), len(signatures), len(methods)]
    if not classes or any(count > limit for count, limit in zip(counts, [CLASSES, FUNCTIONS, SIGNATURES, METHODS])):
        return 3, []

    def class_kept(k, record):
        above = parents[word(record, 2):][:word(record, 4)]
        rising = all(lower < higher for lower, higher in itertools.pairwise([*above, k]))
        return record[0] <= 1 and record[1] == 0 and rising and (k == 0) == (word(record, 4) == 0)

    def places_kept(function, places):
        arity = functions[function][0]
        return all(c < len(classes) for c in places[:arity]) and not any(places[arity:])

    def signature_kept(record):
        return record[0] < len(functions) and places_kept(record[0], record[1:4]) and record[4] < len(classes)

    def method_kept(record):
        if record[0] >= len(functions) or record[7] >= len(classes) or word(record, 10) not in range(2, 129, 2):
            return False
        return places_kept(record[0], record[1:4]) and places_kept(record[0], record[4:7])

    def applies_to(record):
        """the function and the specialisers"""
        return record[:4]

    def instruction_kept(function, operation, operand):
        # RESEND has no operand but 0.
        limits = [functions[function][0], len(classes), len(functions), 1]
        return operation < len(limits) and operand < limits[operation]

    lists = list(follow([(word(record, 2), word(record, 4)) for record in classes], len(parents)))
    bodies = list(follow([(word(record, 8), word(record, 10)) for record in methods], len(code)))
    # Each rule is judged only where the ones before it hold, since a later one reads what an earlier one makes sure is there.
    rules = [
        lambda: lowest(4, (class_kept(k, record) and lists[k] for k, record in enumerate(classes))),
        lambda: lowest(5, (record[0] <= PLACES for record in functions)),
        lambda: lowest(6, (signature_kept(record) for record in signatures)),
        lambda: lowest(7, (method_kept(record) and bodies[k] for k, record in enumerate(methods))),
        lambda: lowest(8, (applies_to(record) not in map(applies_to, methods[:k]) for k, record in enumerate(methods))),
        lambda: lowest(9, (
            all(instruction_kept(record[0], *instruction) for instruction in records(code[word(record, 8):][:word(record, 10)], 2))
            for record in methods)),
    ]
    return next(filter(None, (rule() for rule in rules)), (0, counts))


def refused(number, values):
    """what a view answers for a bundle that does not open: the number, and the record it names, with an empty part"""
    return number, values[0] if values else 0, 0


def method_record(bundle, method):
    return bundle[spans(bundle)[4][0] + 12 * method:][:12]


def view(bundle, method):
    """number, then the part's start and length; for a refusal the record it names, or 0, and 0"""
    number, values = opening(bundle)
    if number:
        return refused(number, values)
    if method >= values[3]:
        return ABSENT, 0, 0
    record = method_record(bundle, method)
    return 0, spans(bundle)[5][0] + word(record, 8), word(record, 10)


def reading(code, position):
    """the values of what is read at a position of any bytes, counted in instructions: one more than the operation, and the operand, which is 0 for a
    RESEND whatever stands there; both are 0 where no whole instruction with a known operation stands"""
    pair = code[2 * position:][:2]
    if len(pair) < 2 or pair[0] > RESEND:
        return [0, 0]
    return [pair[0] + 1, 0 if pair[0] == RESEND else pair[1]]


def instruction(bundle, method, position):
    """number and values of what is read at a position of a method's code"""
    opened, values = opening(bundle)
    if opened:
        return opened, values
    number, start, length = view(bundle, method)
    return number, [] if number else reading(bundle[start:][:length], position)


@functools.cache
def above(bundle):
    """for each class the set of those it is under"""
    (class_at, length), (parent_at, _) = spans(bundle)[:2]
    sets = []
    for k, record in enumerate(records(bundle[class_at:][:length], 6)):
        sets.append({k}.union(*(sets[p] for p in bundle[parent_at + word(record, 2):][:word(record, 4)])))
    return sets


def matrix_rows(bundle):
    """for each class its row of the subclass matrix: a bit for each class that it is under, the lowest first"""
    return [sum(1 << c for c in own).to_bytes(MATRIX_ROW, "little") for own in above(bundle)]


def matrix(bundle):
    """the subclass matrix, as an opened bundle has it in the scratch: the rows of absent classes are 0"""
    return b"".join(matrix_rows(bundle)).ljust(MATRIX, b"\0")


def ancestry(bundle, a, b):
    """number and values, of an opened bundle: one of NEITHER, SAME and HEIR"""
    sets = above(bundle)
    if max(a, b) >= len(sets):
        return ABSENT, []
    if a == b:
        return 0, [SAME]
    return 0, [HEIR if b in sets[a] else NEITHER]


def all_under(bundle, classes, others):
    """whether each class is under the other one at its place"""
    sets = above(bundle)
    return all(other in sets[c] for c, other in zip(classes, others))


def arity_of(bundle, function):
    return bundle[spans(bundle)[2][0] + function]


def is_there(bundle, function, *places):
    """whether the function is there, a class at each of its places, and 0 at the others"""
    if function >= spans(bundle)[2][1]:
        return False
    arity = arity_of(bundle, function)
    return all(c < len(above(bundle)) for c in places[:arity]) and not any(places[arity:])


def methods_of(bundle, function):
    """from each method of a function to its specialisers"""
    arity, (at, length) = arity_of(bundle, function), spans(bundle)[4]
    return {m: record[1:1 + arity] for m, record in enumerate(records(bundle[at:][:length], 12)) if record[0] == function}


def applicable(bundle, function, *places):
    """from each method that applies to a send to its specialisers"""
    return {m: own for m, own in methods_of(bundle, function).items() if all_under(bundle, places, own)}


def unbeaten(bundle, methods):
    """of methods with their specialisers those that no other one is at least as specific as, the highest number first"""
    return [m for m, own in reversed(methods.items()) if not any(all_under(bundle, others, own) for o, others in methods.items() if o != m)]


def rivals(bundle, function, *places):
    """the applicable methods that no other one is at least as specific as, the highest number first"""
    return unbeaten(bundle, applicable(bundle, function, *places))


def leading(bundle, methods):
    """of methods with their specialisers the one that is at least as specific as all, or none"""
    return [m for m, own in methods.items() if all(all_under(bundle, own, others) for others in methods.values())]


def lookup(bundle, function, *places):
    """number and values, of an opened bundle: the method found, and 1 where each of its specialisers is the class at that place, else 0; or the function
    and the places, with the two newest rivals for 11, the newer first"""
    if not is_there(bundle, function, *places):
        return ABSENT, []
    methods = applicable(bundle, function, *places)
    if not methods:
        return 10, [function, *places]
    found = leading(bundle, methods)
    if found:
        [method] = found
        return 0, [method, int(all(c == own for c, own in zip(places, methods[method])))]
    return 11, [function, *places, *rivals(bundle, function, *places)[:2]]


def is_covered(bundle, function, *places):
    """whether some signature of the function has each class of a send of it under its class at that place"""
    arity, (at, length) = arity_of(bundle, function), spans(bundle)[3]
    return any(record[0] == function and all_under(bundle, places, record[1:1 + arity]) for record in records(bundle[at:][:length], 5))


def overridden(bundle, method):
    """from each method that a method overrides to its specialisers: the others of its function whose specialisers its own are each under"""
    methods = methods_of(bundle, method_record(bundle, method)[0])
    own = methods.pop(method)
    return {m: others for m, others in methods.items() if all_under(bundle, own, others)}


def declared_of(bundle, method):
    """the declared classes at the places that the method's function has"""
    record = method_record(bundle, method)
    return record[4:4 + arity_of(bundle, record[0])]


def argument_types(bundle, method):
    """for each place the classes that an argument of the method is known to be under, by its specialiser and by its declared class"""
    specialisers = methods_of(bundle, method_record(bundle, method)[0])[method]
    return [above(bundle)[own] | above(bundle)[declared] for own, declared in zip(specialisers, declared_of(bundle, method))]


def resend(bundle, method):
    """number and values of what the check finds of a resend in a method: the method that it resends to; or the two newest of those that tie, the newer first;
    or the method that it resends to and the first place at which the declared class of that one need not hold the argument"""
    methods = overridden(bundle, method)
    if not methods:
        return NO_OVERRIDDEN, []
    found = leading(bundle, methods)
    if not found:
        return AMBIGUOUS_RESEND, unbeaten(bundle, methods)[:2]
    [target] = found
    for place, (known, declared) in enumerate(zip(argument_types(bundle, method), declared_of(bundle, target))):
        if declared not in known:
            return NARROW_TARGET, [target, place]
    return 0, [target]


def resending(bundle):
    """(method, position) of each RESEND, the lowest method first"""
    for method in range(opening(bundle)[1][3]):
        _, start, length = view(bundle, method)
        for position in range(length // 2):
            if bundle[start + 2 * position] == RESEND:
                yield method, position


@functools.cache
def concretes(bundle):
    """the numbers of the concrete classes"""
    at, length = spans(bundle)[0]
    return [k for k, record in enumerate(records(bundle[at:][:length], 6)) if record[0] == 1]


def cell(bundle, function, first, second):
    """what a chart shows for a send: the method found, or a mark"""
    number, values = lookup(bundle, function, first, second)
    return MARKS[number] if number else values[0]


def chart_cells(bundle, function, line):
    """what stands in a line of a chart, from left to right: line 0 is the head, and each other one belongs to a concrete class as first argument"""
    columns = concretes(bundle)
    if line == 0:
        return ["", *columns]
    first = columns[line - 1]
    return [first, *(cell(bundle, function, first, second) for second in columns)]


def chart_line(bundle, function, line):
    """the bytes of a line: four places a cell, with a blank between two"""
    return (" ".join(f"{shown:>4}" for shown in chart_cells(bundle, function, line)) + "\n").encode()


def chart_lines(bundle):
    """the numbers of a chart's lines, whatever the function"""
    return range(1 + len(concretes(bundle)))


def chart_text(bundle, function):
    """the bytes of all lines"""
    return b"".join(chart_line(bundle, function, line) for line in chart_lines(bundle))


def chart(bundle, function, line, buffer):
    """number and values, of an opened bundle, for a line of a chart in a buffer of so many bytes: the length of the line"""
    if function >= spans(bundle)[2][1]:
        return ABSENT, []
    if arity_of(bundle, function) != 2:
        return NOT_BINARY, []
    if line not in chart_lines(bundle):
        return NO_LINE, []
    length = 5 + 5 * len(concretes(bundle))
    return (0, [length]) if buffer >= length else (SHORT_BUFFER, [])


def below(bundle, function, *uppers):
    """for each place that the function uses the concrete classes under the upper class there"""
    return [[c for c in concretes(bundle) if upper in above(bundle)[c]] for upper in uppers[:arity_of(bundle, function)]]


def rough(bundle, function, *uppers):
    """number and values, of an opened bundle: ONE and the method, where every tuple of concrete classes under the upper ones finds that; MAY_FAIL where
    one finds none or two; else SEVERAL"""
    if not is_there(bundle, function, *uppers):
        return ABSENT, []
    candidates = below(bundle, function, *uppers)
    if not all(candidates):
        return NONE_CONCRETE, []
    methods = methods_of(bundle, function)
    # What a tuple finds depends only on which methods apply to it. The sets of those are few where the tuples are many.
    applying = {frozenset(methods)}
    for place, classes in enumerate(candidates):
        held = {frozenset(m for m, own in methods.items() if own[place] in above(bundle)[c]) for c in classes}
        applying = {some & others for some, others in itertools.product(applying, held)}
    found = {tuple(leading(bundle, {m: methods[m] for m in some})) for some in applying}
    if () in found:
        return 0, [MAY_FAIL]
    return 0, [ONE, *found.pop()] if len(found) == 1 else [SEVERAL]


ASKED = {"ancestry": ancestry, "lookup": lookup, "chart": chart, "rough": rough}


def refusal(bundle, scratch):
    """number and values where the bundle does not open or a scratch of so many bytes is too short, and else nothing"""
    number, values = opening(bundle)
    if number:
        return number, values
    return (SHORT, []) if scratch < MATRIX else None


def asked(bundle, scratch, kind, *numbers):
    """the answer of a call that is lent so much scratch"""
    return refusal(bundle, scratch) or ASKED[kind](bundle, *numbers)
