#!/usr/bin/env python3
"""Make the cases of the test program call_cases: what it reads from standard input, and what it has to print. docs/CASES.md has the format.

usage: tools/vectors.py FOLDER          write them, from the vectors of FOLDER (JSON lines), the cases that the rules name and the sample bundles
       tools/vectors.py FOLDER --check  write nothing; say which files differ, and exit with 1 if any does
       tools/vectors.py one N           from the cases on standard input write the one numbered N, with its bundle, to standard output
       tools/vectors.py FOLDER current OUT
                                        write the vectors of FOLDER alone, with the answers of the rules as they stand, to OUT, an empty or new folder

Vectors in a folder whose name is two digits follow the rules with the requests up to that number, those in any other folder the rules before the first
request. Answers that a later request changed are brought to the rules as they stand where vectors are read (earlier.py).

The rules for opening, the scratch, ancestry, lookup, charts and arguments known only by upper classes stand a second time in rules.py. They give the
answers for bundles that no vector has, and every vector is held to them, so that an answer or a byte of scratch on which the two differ is never passed
on; so are the answers and bytes that uppers.py, matrices.py and exact.py have worked out apart. The other answers, of runs, checks, send types and
witnesses, are taken from the vectors and the rules' own cases; those for bundles made here and in resends.py are worked out by hand from its rules. Of these
answers rules.py holds what they say of resends: which one a check names first, and that a run stops at one for a reason that its method gives. The answers
of accepted runs follow from those of the run and the check and from which signatures cover the send.
"""
import itertools
import math
import pathlib
import sys

ROOT = pathlib.Path(__file__).resolve().parent.parent
sys.dont_write_bytecode = True
sys.path.insert(0, str(ROOT / "bundles"))
import exact  # noqa: E402
import make  # noqa: E402
import matrices  # noqa: E402
import resends  # noqa: E402
import uppers  # noqa: E402
from earlier import entries, write_current  # noqa: E402
from made import write_or_check  # noqa: E402
from make import applying, chain, flat, of_methods  # noqa: E402
from rules import (  # noqa: E402
    ABSENT, ASKED, CLASSES, FUNCTIONS, LONGEST, MATRIX, MAY_FAIL, METHODS, NARROW_TARGET, NO_OVERRIDDEN, ONE, PLACES, SEVERAL, SHORT, SHORT_ROW,
    SIGNATURES, arity_of, asked, below, chart_line, chart_lines, instruction, is_covered, lookup, matrix, opening, reading, refusal, refused, resend,
    resending, spans, view)
from stream import FRAMES, MOST, ROW, SCRATCH, SCRATCHED, Call, ended, fills, one, reply, stream_of, tally, typed  # noqa: E402


# Bundles that no vector has


def at_limits(classes, filled=0):
    """what make.bundle takes, for as many records of each kind as there may be; filled instructions are put into bodies beside the one of each"""
    arities = [1 + f % PLACES for f in range(FUNCTIONS)]
    signatures, methods = [], []
    for s in range(SIGNATURES):
        f = s % FUNCTIONS
        signatures.append((f, [s % CLASSES] * arities[f], s % CLASSES))
    for m in range(METHODS):
        f, c = m % FUNCTIONS, m % CLASSES
        more = min(filled, 63)
        filled -= more
        body = [
            [(make.ARG, i % arities[f]), (make.NEW, i % CLASSES), (make.SEND, i % FUNCTIONS), (make.RESEND, 0)][i % 4] for i in range(1 + more)]
        # The first specialiser tells the methods of a function apart.
        methods.append((f, [m // FUNCTIONS, c, CLASSES - 1 - c][:arities[f]], [c] * arities[f], c, body))
    return [classes, arities, signatures, methods]


def broken_at_the_last_record():
    """(bundle, number, record) for the rules 4 to 9, each broken by the last record that may be there"""
    for number, section, broken in [
        (4, 0, lambda kind, above: (2, above)),
        (5, 1, lambda arity: PLACES + 1),
        (6, 2, lambda f, places, result: (f, places, CLASSES)),
        (7, 3, lambda f, places, declared, result, body: (f, places, declared, CLASSES, body)),
        # Its specialisers become those of the method before it of the same function.
        (8, 3, lambda f, places, declared, result, body: (f, [places[0] - 1], declared, result, body)),
        *(
            (9, 3, lambda f, places, declared, result, body, instruction=instruction: (f, places, declared, result, [instruction]))
            for instruction in [(make.NEW, CLASSES), (make.RESEND, 1), (make.RESEND, 255), (make.RESEND + 1, 0)]),
    ]:
        sections = at_limits(chain(CLASSES))
        last = sections[section][-1]
        sections[section][-1] = broken(*last) if isinstance(last, tuple) else broken(last)
        yield make.bundle(*sections), number, len(sections[section]) - 1


def longest():
    """a bundle of 65,535 bytes, and one of 65,536 that has one parent more"""
    every = [(make.CONCRETE, list(range(k))) for k in range(CLASSES)]
    filled = (LONGEST + 1 - len(make.bundle(*at_limits(every)))) // 2
    too_long = make.bundle(*at_limits(every, filled))
    every[-1] = (make.CONCRETE, every[-1][1][1:])
    long = make.bundle(*at_limits(every, filled))
    assert (len(long), len(too_long)) == (LONGEST, LONGEST + 1)
    return long, too_long


def of_two_instructions():
    """a bundle at the limits whose bodies have two instructions each"""
    *others, methods = at_limits(chain(CLASSES))
    return make.bundle(*others, [(*own, 2 * body) for *own, body in methods])


def moved_lists():
    """(bundle, class, bytes later, bytes longer, class that is named) for a list that is said to be where it is not. Unless a comment says otherwise it
    is lawful there, and only the lengths before it tell"""
    in_chain, in_flat = make.bundle(chain(CLASSES)), make.bundle(flat(CLASSES))
    of_two = make.bundle(flat(2) + [(make.CONCRETE, [0, k - 1]) for k in range(2, CLASSES)])
    by_turns = make.bundle(flat(2) + [(make.CONCRETE, [k % 2]) for k in range(2, CLASSES)])
    last = CLASSES - 1
    # The empty list and the one behind it: a byte late; a byte early modulo 65,536, which is outside.
    for k, later in itertools.product([0, 1], [1, LONGEST]):
        yield in_flat, k, later, 0, k
    for k in [2, 64, last]:
        # A byte late and early, as long as before: the last one passes the section, or leaves a byte over.
        yield in_flat, k, 1, 0, k
        yield in_chain, k, -1, 0, k
        # The same with the end that it had.
        yield of_two, k, 1, -1, k
        yield in_chain, k, -1, 1, k
    # A parent too many, taken from the next list, which then begins early.
    for k in [2, 64, last - 1]:
        yield by_turns, k, 0, 1, k + 1
    # One that is not lower, or is outside.
    for k in [1, 64, last]:
        yield in_chain, k, 0, 1, k
    # A parent too few, so that the next list begins late; at the last one it is left over; elsewhere none is left.
    for k in [2, 64, last - 1, last]:
        yield of_two, k, 0, -1, min(k + 1, last)
    yield in_chain, 64, 0, -1, 64
    # Lengths that come to 65,535, outside.
    for k in [64, last]:
        yield in_chain, k, 0, LONGEST - k, k
    # A byte early, with one parent; a byte late, with the end that it had.
    long, _ = longest()
    yield long, 64, -1, -63, 64
    yield long, last, 1, -1, last


def moved_bodies():
    """(bundle, method, bytes later, bytes longer, method that is named), as moved_lists"""
    of_two, last = of_two_instructions(), METHODS - 1
    # The first one cannot be early but modulo 65,536, which is outside.
    for later, longer in [(1, 0), (LONGEST, 0), (2, -2)]:
        yield of_two, 0, later, longer, 0
    for m in [1, 256, last]:
        # By a byte and as long as before; by an instruction, with the end that it had.
        for later, longer in [(1, 0), (-1, 0), (2, -2), (-2, 2)]:
            yield of_two, m, later, longer, m
    # An instruction too many or too few, so that the next body is early or late; the last one passes the section, or leaves an instruction over.
    for m, longer in itertools.product([0, 256, last], [2, -2]):
        yield of_two, m, 0, longer, min(m + 1, last)
    # A body of 130 bytes, an empty one, and lengths that come to 65,535.
    for m, longer in [(0, 2), (256, -2), (last, LONGEST - 126 - 2 * METHODS)]:
        yield make.bundle(*at_limits(chain(CLASSES), 63)), m, 0, longer, m
    long, _ = longest()
    yield long, 256, 1, 0, 256
    yield long, last, -2, 2, last


def moved_together():
    """(bundle, moves, number, record) for several lists or bodies at once"""
    parents, body = make.PARENTS, make.BODY
    in_chain, of_two = make.bundle(chain(CLASSES)), of_two_instructions()
    last, last_method = CLASSES - 1, METHODS - 1
    # The lower one is named, and a class before any method.
    yield in_chain, [(parents, last, -1, 1), (parents, 64, -1, 1)], 4, 64
    yield of_two, [(body, last_method, -2, 2), (body, 256, -2, 2)], 7, 256
    yield of_two, [(body, 0, 2, -2), (parents, last, -1, 1)], 4, last
    # All lengths together come right, but not those before the body between the two.
    yield of_two, [(body, 256, 0, 2), (body, 258, 0, -2)], 7, 257
    # One passes the section and the next is placed modulo 65,536, so that it ends the section. What the section has of the two lists is lawful.
    for k in [3, last - 1]:
        wrapping = make.bundle(flat(k) + [(make.CONCRETE, [1]), (make.CONCRETE, [2])])
        yield wrapping, [(parents, k, 0, LONGEST - 1), (parents, k + 1, -2, 2)], 4, k
    yield of_two, [(body, last_method - 1, 0, LONGEST - 5), (body, last_method, -6, 6)], 7, last_method - 1


def out_of_place():
    """(bundle, number, record) for lists and bodies that do not follow each other, or that pass their section or do not fill it"""
    for stated, number, moves in [(make.PARENTS, 4, moved_lists()), (make.BODY, 7, moved_bodies())]:
        for bundle, *move, named in moves:
            yield make.moved(bundle, stated, *move), number, named
    for bundle, moves, number, named in moved_together():
        for move in moves:
            bundle = make.moved(bundle, *move)
        yield bundle, number, named
    # Bodies of 128 bytes each: 16 fill the section. All have 65,536 bytes, which modulo that number is an empty section.
    bundle = of_two_instructions()
    for m in range(METHODS):
        bundle = make.moved(bundle, make.BODY, m, 124 * m, 124)
    yield bundle, 7, 16
    yield make.joined(*(bundle[at:at + length] for at, length in spans(bundle)[:-1]), b""), 7, 0
    # A class above 0 without a parent, the lists behind its own where they then have to be.
    for k in [1, 64, CLASSES - 1]:
        classes = chain(CLASSES)
        classes[k] = (make.CONCRETE, [])
        yield make.bundle(classes), 4, k
    # The first list that is not empty begins a byte late and ends the section.
    yield make.moved(make.bundle([(make.CONCRETE, []), (make.CONCRETE, [0, 0])]), make.PARENTS, 1, 1, -1), 4, 1
    yield make.FURTHER["late-list"], 4, 2
    yield make.FURTHER["late-body"], 7, 1


def bucket(function, places):
    """a method is compared only with those that have the same number here (crate twin_rule)"""
    return int.from_bytes(bytes([function]) + make.padded(places), "little") % 521


def in_bucket(number):
    """specialisers in one bucket, all different, for as many methods of function 0 as there may be"""
    every = itertools.product(range(CLASSES), repeat=PLACES)
    return list(itertools.islice((places for places in every if bucket(0, places) == number), METHODS))


def twinned(classes, specialisers, *pairs):
    """a bundle of methods of one function; the second of each pair has the specialisers of the first"""
    places = list(specialisers)
    for earlier, later in pairs:
        places[later] = places[earlier]
    return applying(flat(classes), [len(places[0])], [(0, own) for own in places])


def twins():
    """(bundle, number, values) for methods that are twins, and for methods that are not but share a bucket, a function or specialisers"""
    last = METHODS - 1
    cube = list(itertools.product(range(8), repeat=PLACES))
    yield twinned(8, cube, (0, 1)), 8, [1]
    yield twinned(8, cube, (0, last)), 8, [last]
    yield twinned(8, cube, (last - 1, last)), 8, [last]
    # Of three twins the second.
    yield twinned(8, cube, (0, 256), (0, last)), 8, [256]
    # Of two pairs the one whose later method is lower. Method 0 is in the lowest bucket.
    yield twinned(8, cube, (0, last), (300, 301)), 8, [301]
    yield twinned(8, cube, (0, 301), (300, last)), 8, [301]
    # As many methods in one bucket as there may be.
    for number in [0, 520]:
        yield twinned(CLASSES, in_bucket(number)), 0, [CLASSES, 1, 0, METHODS]
        yield twinned(CLASSES, in_bucket(number), (0, last)), 8, [last]
    yield twinned(CLASSES, in_bucket(0), (last - 1, last)), 8, [last]
    yield twinned(CLASSES, in_bucket(0), (0, last), (255, 256)), 8, [256]
    # A few in one bucket, of one function and of two.
    few = [(0, 0, 0), (9, 2, 0), (0, 9, 2)]
    two = [(0, (0,)), (9, (2,))]
    assert {bucket(0, places) for places in few} == {bucket(*own) for own in two} == {0}
    yield twinned(10, few), 0, [10, 1, 0, 3]
    yield applying(flat(3), [1] * 10, two), 0, [3, 10, 0, 2]
    for places in few:
        yield twinned(10, [*few, places]), 8, [3]
    for own in two:
        yield applying(flat(3), [1] * 10, [*two, own]), 8, [2]
    # The same specialisers for every function; the same bytes for functions of no argument to three.
    every = [(f, (c,)) for c in range(8) for f in range(FUNCTIONS)]
    yield applying(flat(8), [1] * FUNCTIONS, every), 0, [8, FUNCTIONS, 0, METHODS]
    yield applying(flat(1), range(PLACES + 1), [(f, (0,) * f) for f in range(PLACES + 1)]), 0, [1, PLACES + 1, 0, PLACES + 1]
    # Fewer arguments than three: two, one, none.
    yield twinned(23, list(itertools.product(range(23), repeat=2))[:METHODS], (0, last)), 8, [last]
    yield twinned(10, [(0, 0), (9, 2), (0, 0)]), 8, [2]
    yield applying(flat(8), [1] * FUNCTIONS, [*every[:-1], every[FUNCTIONS - 1]]), 8, [last]
    for f in [0, FUNCTIONS - 1]:
        yield applying(flat(1), [0] * FUNCTIONS, [(g, ()) for g in [*range(FUNCTIONS), f]]), 8, [FUNCTIONS]
    # Twins that differ in all else; methods that differ in their specialisers alone.
    yield make.bundle(flat(2), [1], [], [(0, [0], [0], 0, [(make.NEW, 0)]), (0, [0], [1], 1, [(make.ARG, 0)] * 2)]), 8, [1]
    yield make.bundle(flat(2), [1], [], [(0, [c], [0], 0, [(make.NEW, 0)]) for c in range(2)]), 0, [2, 1, 0, 2]
    # 7 comes before 8, whatever bytes the methods have, and 8 before 9.
    twin, body = (0, [0], [0]), [(make.NEW, 0)]
    yield make.bundle(flat(1), [1], [], [(*twin, 0, body), (*twin, 0, body), (*twin, 1, body)]), 7, [2]
    yield make.joined(make.CLASS, b"", b"\0", b"", b"\xff" * 12 * METHODS, b"\0\0"), 7, [0]
    yield make.bundle(flat(1), [1], [], [(*twin, 0, [(make.RESEND + 1, 0)]), (*twin, 0, body)]), 8, [1]


def of_the_rules():
    """(bundle, number, values) for the cases of the rules that opening answers, and for bundles at the limits"""
    alone = make.SAMPLES["one-class"]
    assert len(alone) == 30
    yield alone[:23], 1, []
    yield make.bundle([]), 3, []
    yield alone, 0, [1, 0, 0, 0]
    yield make.bundle(chain(CLASSES)), 0, [CLASSES, 0, 0, 0]
    yield make.bundle(chain(CLASSES + 1)), 3, []
    long, too_long = longest()
    yield long, 0, [CLASSES, FUNCTIONS, SIGNATURES, METHODS]
    yield too_long, 1, []
    yield make.bundle(*at_limits(chain(CLASSES))), 0, [CLASSES, FUNCTIONS, SIGNATURES, METHODS]
    for bundle, number, record in itertools.chain(broken_at_the_last_record(), out_of_place()):
        yield bundle, number, [record]
    yield from twins()


def most_tuples(last):
    """one signature that covers 128 * 128 * 128 tuples and one method for all of them; last: a second method, for the last tuple alone, whose result
    the signature does not allow"""
    top = [CLASSES - 1] * PLACES
    methods = [(0, [0] * PLACES, [0] * PLACES, 1, [(make.NEW, 1)])] + [(0, top, top, 2, [(make.NEW, 2)])] * last
    return make.bundle(flat(CLASSES), [PLACES], [(0, [0] * PLACES, 1)], methods)


def most_methods():
    """the same tuples with as many methods of the function as there may be; the ones that apply to a tuple go from the general to the special"""
    places = [[0, 0, 0]] + [[k, j, 0] for j in range(4) for k in range(1, CLASSES)]
    places += [[k, 4, 0] for k in range(1, 1 + METHODS - len(places))]
    return make.bundle(flat(CLASSES), [PLACES], [(0, [0] * PLACES, 1)], [(0, own, own, 1, [(make.NEW, 1)]) for own in places])


def chained(places):
    """the same tuples over a chain of classes, with a method for each of the given specialisers, most of which apply to most tuples"""
    return make.bundle(chain(CLASSES), [PLACES], [(0, [0] * PLACES, 0)], [(0, own, own, 0, [(make.NEW, 0)]) for own in places])


def leaving_out():
    """(bundle, number, values) for checks in which a class or a signature is like one that comes before it, so that a search may leave it out, or is not
    quite like it, so that it may not"""
    pair = [(make.ABSTRACT, []), (make.CONCRETE, [0]), (make.CONCRETE, [0])]
    # Of two classes that no specialiser below tells apart, class 1 holds the lower and not the higher.
    apart = [(make.ABSTRACT, []), (make.ABSTRACT, [0]), (make.CONCRETE, [1]), (make.CONCRETE, [0])]
    wide, narrow = (0, [0], 0), (0, [1], 0)
    yield make.FURTHER["declared-apart"], 12, [0, 0, 3, 0, 0, 0]
    # Only after one of the classes at the first place is there a method that declares it at the second.
    yield of_methods(apart, [2], [(0, [0, 0], 0)], [(0, [2, 0], [2, 0]), (0, [3, 0], [3, 1])]), 12, [0, 0, 3, 3, 0, 1]
    # A specialiser alone tells two classes apart.
    yield of_methods(pair, [1], [wide], [(0, [1], [0])]), 10, [0, 0, 2, 0, 0]
    # A method of its own for the higher class.
    yield of_methods(apart, [1], [wide], [(0, [0], [1]), (0, [3], [3])]), 0, []
    # The class that no method applies to is like a lower one that is abstract; not under the signature's class; tried, but beside another class.
    yield make.FURTHER["uncovered-class"], 10, [0, 0, 2, 0, 0]
    yield of_methods([*pair, (make.CONCRETE, [2])], [1], [(0, [2], 0)], [(0, [3], [3])]), 10, [0, 0, 2, 0, 0]
    yield of_methods(pair, [2], [(0, [0, 0], 0)], [(0, [1, 0], [1, 0]), (0, [2, 2], [2, 2])]), 10, [0, 0, 2, 1, 0]
    # The same arguments as those of the signature before, and a narrower result; a wider one.
    yield make.FURTHER["narrower-result"], 13, [1, 0, 1, 0, 0, 0]
    yield make.bundle(pair, [1], [(0, [1], 1), narrow], [(0, [1], [1], 1, [(make.NEW, 1)])]), 0, []
    # Wider arguments than those before: at the second place, at the first, at one place than either of two; another function; a lower signature that is
    # broken too.
    some, either = [(0, [1, 1], [1, 1])], [(0, [0, 1], [0, 1]), (0, [1, 0], [1, 0]), (0, [1, 1], [1, 1])]
    yield of_methods(pair, [2], [(0, [1, 1], 0), (0, [1, 0], 0)], some), 10, [1, 0, 1, 2, 0]
    yield of_methods(pair, [2], [(0, [1, 1], 0), (0, [0, 1], 0)], some), 10, [1, 0, 2, 1, 0]
    yield of_methods(pair, [2], [(0, [0, 1], 0), (0, [1, 0], 0), (0, [0, 0], 0)], either), 10, [2, 0, 2, 2, 0]
    yield of_methods(pair[:2], [1, 1], [wide, (1, [0], 0)], [(0, [0], [0])]), 10, [1, 1, 1, 0, 0]
    yield of_methods(pair, [1], [narrow, wide], [(0, [2], [2])]), 10, [0, 0, 1, 0, 0]
    # The same signature again, and narrower arguments.
    yield of_methods(pair, [1], [wide, wide, narrow], [(0, [0], [0])]), 0, []


def without_method():
    return make.bundle(flat(1), [0], [(0, [], 0)])


def descent(last):
    """a function of one argument that calls itself on the class before its argument, down to class 0, which it returns"""
    methods = [(0, [0], [0], 0, [(make.ARG, 0)])] + [(0, [k], [k], 0, [(make.NEW, k - 1), (make.SEND, 0)]) for k in range(1, last + 1)]
    return make.bundle(flat(last + 1), [1], [(0, [0], 0)], methods)


def doubling(last):
    """functions 0 to last of no argument: each but the first sends the one before it twice, and joins the two values by the function after last"""
    join = last + 1
    methods = [(0, [], [], 0, [(make.NEW, 0)])]
    methods += [(f, [], [], 0, [(make.SEND, f - 1), (make.SEND, f - 1), (make.SEND, join)]) for f in range(1, join)]
    methods += [(join, [0, 0], [0, 0], 0, [(make.NEW, 0)])]
    return make.bundle(flat(1), [0] * join + [2], [(f, [0] * (2 * (f == join)), 0) for f in range(join + 1)], methods)


def doubling_steps(last):
    return 5 * 2**last - 4


# The cases


def held(bundle, answer, second):
    """stops where an expected answer is not the one that the rules give"""
    if answer != second:
        sys.exit(f"answers differ: {answer} expected, {second} by the rules, for the bundle {bundle.hex()[:200]}")


# The later parts of the rules that have vectors of their own, beside those of the folder itself.
LATER = [f"requests/{request:02}" for request in range(1, 9)]


def vectors(folder, name):
    paths = [path for path in [folder / name, *(folder / later / name for later in LATER)] if path.exists()]
    if not paths:
        sys.exit(f"there are no vectors {name} in {folder}")
    for path in paths:
        for entry in entries(path):
            yield entry, bytes.fromhex(entry["bundle"])


# Their resends are all that these samples show, so that they are opened, checked, listed and run, and asked nothing else.
REFUSED_RESENDS = ["no-overridden", "ambiguous-resend", "narrow-target"]


def opened_samples():
    return [bundle for name, bundle in make.SAMPLES.items() if name not in REFUSED_RESENDS and opening(bundle)[0] == 0]


def opening_vectors(folder):
    """(bundle, number, values)"""
    for entry, bundle in vectors(folder, "opening.jsonl"):
        yield bundle, entry["answer"]["number"], entry["answer"]["values"]


def opening_cases(folder):
    """(bundle, call, reply), as all of these"""
    sampled = [(bundle, *opening(bundle)) for bundle in make.SAMPLES.values()]
    for bundle, *answer in itertools.chain(opening_vectors(folder), of_the_rules(), sampled):
        held(bundle, tuple(answer), opening(bundle))
        yield bundle, Call("opening"), reply(*answer)


def view_answers(folder):
    """(bundle, method, number, start, length), as view answers"""
    for entry, bundle in vectors(folder, "view.jsonl"):
        for call in entry["calls"]:
            answer = call["answer"]
            yield bundle, call["view"][0], answer["number"], answer.get("start", 0), answer.get("length", 0)
    for bundle in opened_samples():
        methods = opening(bundle)[1][3]
        for m in [*range(methods), methods, LONGEST]:
            yield bundle, m, *view(bundle, m)
    for bundle, m in itertools.product(longest(), [0, 1, 255, 256, METHODS - 1, METHODS]):
        yield bundle, m, *view(bundle, m)
    # A view opens the bundle first: it refuses what opening refuses.
    for bundle, number, values in opening_vectors(folder):
        if number:
            yield bundle, 0, *refused(number, values)


def view_cases(folder):
    """the values are the record of a refusal and the length of the part, and the part is copied to the row"""
    for bundle, method, number, start, length in view_answers(folder):
        held(bundle, (number, start, length), view(bundle, method))
        values, part = ([start, 0], b"") if number else ([0, length], bundle[start:][:length])
        yield bundle, Call("view", (method,), row=ROW), reply(number, values, written=part)


# Bytes that are no method's code, with what is read at each position: RESEND with any operand, and operations that there are not.
READ = [
    (b"\3\0", [[4, 0]]),
    (b"\3\1\3\x7f\3\x80\3\xff", [[4, 0]] * 4),
    (b"\2\3\3\2\3", [[3, 3], [4, 0], [0, 0]]),
    (b"\3", [[0, 0]]),
    (b"\4\0\4\3\3\4", [[0, 0], [0, 0], [4, 0]]),
    (b"\2\0\4\0\1\5", [[3, 0], [0, 0], [2, 5]]),
    (b"\xff\0\0\xff", [[0, 0], [1, 255]]),
]


def reader_cases(folder):
    """every instruction of a part, and some positions past them; where there is no part, the refusal"""
    for bundle, method, number, start, length in view_answers(folder):
        past = [*range(length // 2, length // 2 + 2), METHODS, LONGEST, 2**63, 2**64 - 1]
        for at in [*range(length // 2), *past]:
            answer = (number, [start] if start else []) if number else (0, reading(bundle[start:][:length], at))
            held(bundle, reply(*answer), reply(*instruction(bundle, method, at)))
            yield bundle, Call("instruction", (method, at)), reply(*answer)
    for code, values in READ:
        held(code, values, [reading(code, at) for at in range(len(values))])
    # Further such bytes: a byte left over, none at all, whole bundles.
    for code in [b"", b"\0", b"\0\1", b"\1\7\2", *(code for code, _ in READ), *make.SAMPLES.values()]:
        for at in [*range(len(code) // 2), (len(code) + 1) // 2, 2**63, 2**64 - 1]:
            yield code, Call("reading", (at,)), reply(0, reading(code, at))


# What a vector says of two classes, in the order of the values.
RELATED = ["neither", "same", "heir"]


def answer_values(answer):
    """the values of an answer of ancestry or lookup, as the rules give them"""
    if answer["number"] == ABSENT:
        return []
    if answer["number"]:
        return [answer["function"], *answer["tuple"], *answer["methods"]]
    if "answer" in answer:
        return [RELATED.index(answer["answer"])]
    return [answer["method"], int(answer["exact"])]


# P 1 to P 5, and a send with three rivals: (bundle, argument classes of function 0, number, values)
P_CASES = [
    ("chart-3", [1, 3], 0, [2, 1]),
    ("chart-3", [1, 4], 0, [0, 1]),
    ("chart-3", [2, 3], 0, [1, 1]),
    ("chart-3", [2, 4], 11, [0, 2, 4, 0, 1, 0]),
    ("chart-4", [2, 4], 0, [3, 1]),
    ("three-rivals", [5], 11, [0, 5, 0, 0, 3, 1]),
]


def every_send(bundle):
    """the numbers of each function with each tuple, and such as are absent or out of place"""
    classes, functions = opening(bundle)[1][:2]
    for function in range(functions):
        arity = arity_of(bundle, function)
        unused = [0] * (PLACES - arity)
        for places in itertools.product(range(classes), repeat=arity):
            yield [function, *places, *unused]
        # One place after the other holds a class that is not there, or 1 where none may be.
        for place in range(PLACES):
            for number in [classes, CLASSES, LONGEST] if place < arity else [1, LONGEST]:
                yield [function, *(number if i == place else 0 for i in range(PLACES))]
    for function in [functions, FUNCTIONS, LONGEST]:
        yield [function, 0, 0, 0]


def every_question(bundle):
    """(kind, numbers) for each pair of classes, absent ones too, and each send"""
    for a, b in itertools.product([*range(opening(bundle)[1][0]), CLASSES, LONGEST], repeat=2):
        yield "ancestry", [a, b]
    for numbers in every_send(bundle):
        yield "lookup", numbers


def lookup_answers(folder):
    """(bundle, scratch, kind, numbers, number, values)"""
    for entry, bundle in vectors(folder, "lookup.jsonl"):
        for call in entry["calls"]:
            kind = next(kind for kind in ASKED if kind in call)
            yield bundle, SCRATCH, kind, call[kind], call["answer"]["number"], answer_values(call["answer"])
    for name, places, number, values in P_CASES:
        yield make.SAMPLES[name], SCRATCH, "lookup", [0, *make.padded(places)], number, values
    for bundle, kind, numbers, answer in exact.cases():
        yield bundle, SCRATCH, kind, numbers, *answer

    def answered(bundle, scratch, questions):
        for kind, numbers in questions:
            yield bundle, scratch, kind, numbers, *asked(bundle, scratch, kind, *numbers)

    # The last two name a class and a function that are absent: 19 comes before 18.
    few = [("ancestry", [0, 0]), ("lookup", [0, 0, 0, 0]), ("ancestry", [LONGEST, 0]), ("lookup", [LONGEST, 0, 0, 0])]
    for bundle in opened_samples():
        yield from answered(bundle, SCRATCH, every_question(bundle))
        for scratch in [0, MATRIX - 1, MATRIX]:
            yield from answered(bundle, scratch, few)
    long, too_long = longest()
    many = [("lookup", [f, c, c, 0]) for f in [1, FUNCTIONS - 2] for c in range(0, CLASSES, 9)]
    for bundle in [long, make.bundle(*at_limits(chain(CLASSES)))]:
        yield from answered(bundle, SCRATCH, few + many)
    # Every call opens the bundle first, and one that does not open leaves the scratch as it was, however short it is.
    for bundle in [too_long, *(bundle for bundle, number, _ in opening_vectors(folder) if number)]:
        for scratch in [SCRATCH, MATRIX - 1]:
            yield from answered(bundle, scratch, few[:2])


def lookup_cases(folder):
    """ancestry has the place of its word among RELATED, and a method that is found 1 beside it where it is exact, else 0"""
    for bundle, scratch, kind, numbers, *answer in lookup_answers(folder):
        held(bundle, tuple(answer), asked(bundle, scratch, kind, *numbers))
        yield bundle, Call(kind, tuple(numbers), scratch), reply(*answer)


def found(answer):
    """the reply that a vector's answer gives"""
    values = answer.get("values", [])
    if "tuple" in answer:
        values = [answer["function"], *answer["tuple"], *answer["methods"]]
    elif "method" in answer:
        values = [answer["method"], answer["instruction"]]
    elif "class" in answer:
        values = [answer["class"]]
    if "steps" in answer:
        return ended(answer.get("end", answer.get("number")), values, answer["steps"])
    if "signature" in answer:
        values = [answer["signature"], *values]
    return reply(answer["number"], values)


def turned_away(folder, entry, numbers, count=0, rows=(0,)):
    """calls that are refused for their scratch or their bundle, lent a row of each of these lengths"""

    def refusals():
        """(bundle, scratch, numbers, reply)"""
        for bundle in opened_samples():
            # 19 comes before 18: the second call names what is absent.
            for scratch, asked_for in [(MATRIX - 1, numbers), (MATRIX - 1, [LONGEST] * len(numbers)), (0, numbers)]:
                yield bundle, scratch, asked_for, reply(SHORT)
        # Every call opens the bundle first, and one that does not open leaves the scratch as it was, however short it is.
        for bundle, number, values in [*opening_vectors(folder), (longest()[1], 1, [])]:
            if number:
                for scratch in [SCRATCH, MATRIX - 1]:
                    yield bundle, scratch, numbers, reply(number, values)

    for bundle, scratch, asked_for, answer in refusals():
        for row in rows:
            yield bundle, Call(entry, tuple(asked_for), scratch, row, count), answer


# P 7, P 8, P 10 and P 11, and runs beside them: (bundle, numbers, count, steps, end, values)
RUNS = [
    ("chart-4", [0, 2, 4, 0], 1, 1, "value", [7]),
    ("chart-4", [0, 2, 4, 0], 0, 0, "spent", []),
    ("chart-4", [0, 2, 4, 0], MOST, 1, "value", [7]),
    ("loop", [0, 0, 0, 0], 31, 31, "spent", []),
    ("loop", [0, 0, 0, 0], 32, 31, "deep", []),
    ("loop", [0, 0, 0, 0], 0, 0, "spent", []),
    ("loop", [0, 0, 0, 0], 30, 30, "spent", []),
    ("loop", [0, 0, 0, 0], 33, 31, "deep", []),
    ("loop", [0, 0, 0, 0], MOST, 31, "deep", []),
    # The opening lookup fails, whatever the count; then what the opening body does.
    ("chart-3", [0, 2, 4, 0], 0, 0, 11, [0, 2, 4, 0, 1, 0]),
    ("three-rivals", [0, 5, 0, 0], 1, 0, 11, [0, 5, 0, 0, 3, 1]),
    ("narrow-declared", [0, 0, 0, 0], 0, 0, 12, [0, 0, 0, 0, 0]),
    ("abstract-argument", [0, 0, 0, 0], 1, 0, ABSENT, []),
    ("two-values", [0, 0, 0, 0], 2, 2, 14, [0, 2]),
    ("abstract-new", [0, 0, 0, 0], 1, 0, 15, [0, 0]),
    ("abstract-new", [0, 0, 0, 0], 0, 0, "spent", []),
    # Two resends, the object, and for each frame that resent a send that returns its argument.
    ("resend", [0, 2, 4, 0], 7, 7, "value", [6]),
    ("resend", [0, 2, 4, 0], 6, 6, "spent", []),
    ("resend", [0, 2, 4, 0], 1, 1, "spent", []),
    ("resend", [0, 2, 4, 0], 0, 0, "spent", []),
    ("resend", [0, 2, 3, 0], 4, 4, "value", [6]),
    ("resend", [0, 1, 4, 0], 1, 1, "value", [6]),
    ("no-overridden", [0, 0, 0, 0], 1, 0, 25, [0, 0]),
    ("no-overridden", [0, 0, 0, 0], 0, 0, "spent", []),
    ("no-overridden", [0, 1, 0, 0], 2, 1, 25, [0, 0]),
    ("ambiguous-resend", [0, 2, 4, 0], 1, 0, 26, [2, 0]),
    ("narrow-target", [0, 2, 0, 0], 1, 0, 27, [1, 0]),
    ("narrow-target", [0, 1, 0, 0], 1, 1, "value", [1]),
]


LONG_RUN = 100_000_000


def recursive_runs():
    """(bundle, numbers, count, steps, end, values) of runs that call and return"""
    # A step for NEW and one for SEND in each frame but the last, which has ARG. The class one higher needs one frame more.
    most = FRAMES - 1
    for k, count, steps, *end in [
        (0, MOST, 1, "value", [0]), (1, MOST, 3, "value", [0]), (most, MOST, 2 * most + 1, "value", [0]),
        (most, 2 * most + 1, 2 * most + 1, "value", [0]), (most, 2 * most, 2 * most, "spent", []),
        (FRAMES, MOST, 2 * most + 1, "deep", []), (FRAMES, 2 * most + 1, 2 * most + 1, "spent", []),
    ]:
        yield descent(FRAMES), [0, k, 0, 0], count, steps, *end
    for last in [0, 1, 4, 12]:
        steps = doubling_steps(last)
        yield doubling(last), [last, 0, 0, 0], MOST, steps, "value", [0]
        yield doubling(last), [last, 0, 0, 0], steps - 1, steps - 1, "spent", []
    assert doubling_steps(25) > LONG_RUN
    yield doubling(25), [25, 0, 0, 0], LONG_RUN, LONG_RUN, "spent", []


def run_cases(folder):
    """the last value is that of the steps"""
    for entry, bundle in vectors(folder, "run.jsonl"):
        for call in entry["calls"]:
            *numbers, count = call["run"]
            yield bundle, Call("run", tuple(numbers), SCRATCH, count=count), found(call["answer"])
    sampled = [(make.SAMPLES[name], [SCRATCH, MATRIX], *rest) for name, *rest in RUNS]
    for bundle, lengths, numbers, count, steps, end, values in [*sampled, *((b, [SCRATCH], *rest) for b, *rest in recursive_runs())]:
        for scratch in lengths:
            yield bundle, Call("run", tuple(numbers), scratch, count=count), ended(end, values, steps)
    yield from turned_away(folder, "run", [0, 0, 0, 0], MOST)


# The checks that the rules name, and of the samples that break one rule each: (bundle, number, values)
CHECKS = [
    ("chart-3", 11, [0, 0, 2, 4, 0, 1, 0]),
    ("three-rivals", 11, [0, 0, 5, 0, 0, 3, 1]),
    ("chart-4", 0, []),
    ("one-class", 0, []),
    ("abstract-argument", 0, []),
    ("no-method", 10, [0, 0, 0, 0, 0]),
    ("three-faults", 10, [0, 0, 0, 0, 0]),
    ("narrow-declared", 12, [0, 0, 0, 0, 0, 0]),
    ("several-broken", 12, [0, 0, 1, 3, 0, 3]),
    ("wide-result", 13, [0, 0, 0, 0, 0, 0]),
    ("two-values", 14, [0, 2]),
    ("abstract-new", 15, [0, 0]),
    ("no-licence", 16, [0, 1]),
    ("loose-result", 17, [0, 1]),
    ("resend", 0, []),
    ("no-overridden", 25, [0, 0]),
    ("ambiguous-resend", 26, [2, 0]),
    ("narrow-target", 27, [1, 0]),
]


def check_cases(folder):
    """from 10 to 13 the first value is that of the signature"""
    for entry, bundle in vectors(folder, "check.jsonl"):
        yield bundle, Call("check", scratch=SCRATCH), found(entry["answer"])
    for name, *answer in CHECKS:
        for scratch in [SCRATCH, MATRIX]:
            yield make.SAMPLES[name], Call("check", scratch=scratch), reply(*answer)
    # Methods that the first places tell apart, and methods that the last alone does, the general one first and last.
    last = [[0, 0, k] for k in range(CLASSES)]
    for bundle, *answer in [
        (without_method(), 10),
        (most_tuples(False), 0),
        (most_methods(), 0),
        *((chained(places), 0) for places in [[[i, j, 0] for i in range(22) for j in range(23)], last, last[::-1]]),
        (most_tuples(True), 13, [0, 0, *[CLASSES - 1] * PLACES, 1]),
        *leaving_out(),
    ]:
        yield bundle, Call("check", scratch=SCRATCH), reply(*answer)
    yield from turned_away(folder, "check", [])


# P 9, and sends beside it: (bundle, numbers, number, classes)
SEND_TYPES = [
    ("chart-5", [0, 2, 4, 0], 0, [0, 5, 7]),
    # Only one of the two signatures licenses it.
    ("chart-5", [0, 1, 3, 0], 0, [0, 5]),
    # An abstract class is an argument too, whether the send is licensed or not.
    ("abstract-argument", [0, 0, 0, 0], 0, [0]),
    ("chart-5", [0, 0, 3, 0], 16, []),
    ("chart-5", [0, 2, 4, 1], ABSENT, []),
]


def send_type_cases(folder):
    """the row: 1 for each class of the type, 0 for the others"""

    def asked_for(bundle, row, numbers, number, classes):
        call = Call("send type", tuple(numbers), SCRATCH, row)
        if row < CLASSES:
            # 20 comes before 18 and 16.
            return bundle, call, reply(SHORT_ROW)
        return bundle, call, reply(number) if number else typed(classes)

    for entry, bundle in vectors(folder, "sendtype.jsonl"):
        questions = [(call["sendtype"], call["answer"]["number"], call["row"]) for call in entry["calls"]]
        for question in questions:
            yield asked_for(bundle, ROW, *question)
        yield asked_for(bundle, CLASSES - 1, *questions[0])
    for name, *question in SEND_TYPES:
        for row in [ROW, CLASSES, CLASSES - 1, 0]:
            yield asked_for(make.SAMPLES[name], row, *question)
    # 1 to 9 and 19 come before 20.
    yield from turned_away(folder, "send type", [0, 0, 0, 0], rows=(ROW, CLASSES - 1))


# Witness checks of the samples: (bundle, numbers, number, values)
WITNESSES = [
    ("chart-3", [0, 2, 4, 0], 11, [0, 0, 2, 4, 0, 1, 0]),
    ("three-rivals", [0, 5, 0, 0], 11, [0, 0, 5, 0, 0, 3, 1]),
    ("chart-3", [0, 1, 4, 0], 0, []),
    ("chart-4", [0, 2, 4, 0], 0, []),
    ("chart-5", [1, 2, 4, 0], 0, []),
    # Not covered; absent; unused and not 0; abstract.
    ("chart-5", [1, 1, 4, 0], ABSENT, []),
    ("chart-5", [2, 2, 4, 0], ABSENT, []),
    ("chart-5", [0, 2, 4, 1], ABSENT, []),
    ("abstract-argument", [0, 0, 0, 0], ABSENT, []),
    ("abstract-argument", [0, 1, 0, 0], 0, []),
    ("narrow-declared", [0, 0, 0, 0], 12, [0, 0, 0, 0, 0, 0]),
    ("narrow-declared", [0, 1, 0, 0], 0, []),
    ("wide-result", [0, 0, 0, 0], 13, [0, 0, 0, 0, 0, 0]),
]


def witness_cases(folder):
    """from 10 to 13 the first value is that of the signature"""
    for entry, bundle in vectors(folder, "witness.jsonl"):
        for call in entry["calls"]:
            yield bundle, Call("witness", tuple(call["witness"]), SCRATCH), found(call["answer"])
    for name, numbers, *answer in WITNESSES:
        for scratch in [SCRATCH, MATRIX]:
            yield make.SAMPLES[name], Call("witness", tuple(numbers), scratch), reply(*answer)
    yield from turned_away(folder, "witness", [0, 0, 0, 0])


def charted(bundle, scratch, function, line, buffer):
    """number, values and the line that is written"""
    number, values = asked(bundle, scratch, "chart", function, line, buffer)
    return number, values, b"" if number else chart_line(bundle, function, line)


def chart_questions(bundle):
    """(function, line, length of the buffer) for every function and line and for absent ones, in all pairs, so that some are wrong in several ways"""
    functions, lines, length = opening(bundle)[1][1], chart_lines(bundle), len(chart_line(bundle, 0, 0))
    return itertools.product(
        [*range(functions), functions, LONGEST], [*lines, len(lines), LONGEST, 2**64 - 1], [length, length - 1, length + 1, 0, ROW])


def chart_answers(folder):
    """(bundle, scratch, numbers, number, values, line)"""
    for entry, bundle in vectors(folder, "chart.jsonl"):
        for call in entry["calls"]:
            answer = call["answer"]
            values = [answer["length"]] if "length" in answer else answer["values"]
            yield bundle, SCRATCH, call["chart"], answer["number"], values, (call["line"] or "").encode()

    def answered(bundle, scratch, questions):
        for numbers in questions:
            yield bundle, scratch, numbers, *charted(bundle, scratch, *numbers)

    every_arity = make.bundle(make.CHART, [2, 0, 1, 3], [], make.CHART_METHODS)
    for bundle in [*opened_samples(), *(make.FURTHER[name] for name in ["no-concrete-class", "102-methods"]), every_arity]:
        yield from answered(bundle, SCRATCH, chart_questions(bundle))
        yield from answered(bundle, MATRIX, [(0, 0, ROW), (LONGEST, 0, ROW)])
    # The longest lines, with methods up to the highest that a function of two arguments has there.
    longest_line = 5 + 5 * CLASSES
    yield from answered(
        make.bundle(*at_limits(chain(CLASSES))), SCRATCH,
        itertools.product([1, FUNCTIONS - 3], [0, 1, 2, 8, CLASSES - 1, CLASSES, CLASSES + 1], [longest_line, longest_line - 1, longest_line + 1]))


def chart_cases(folder):
    """the row is the buffer, and the value the length of the line"""
    for bundle, scratch, numbers, number, values, line in chart_answers(folder):
        held(bundle, (number, values, line), charted(bundle, scratch, *numbers))
        *numbers, buffer = numbers
        yield bundle, Call("chart", tuple(numbers), scratch, buffer), reply(number, values, written=line)
    # 1 to 9 and 19 come before all others.
    yield from turned_away(folder, "chart", [0, 0], rows=(ROW, 0))


# What a vector says of upper classes, in the order of the values.
SAID = ["one", "may fail", "several"]


def rough_answers(folder):
    """(bundle, scratch, numbers, number, values)"""
    for entry, bundle in vectors(folder, "rough.jsonl"):
        for call in entry["calls"]:
            answer = call["answer"]
            values = [SAID.index(answer["answer"]), answer.get("method", 0)] if "answer" in answer else answer["values"]
            yield bundle, SCRATCH, call["rough"], answer["number"], values
    for bundle, numbers, answer in uppers.cases():
        yield bundle, SCRATCH, numbers, *answer

    def answered(bundle, scratch, questions):
        for numbers in questions:
            yield bundle, scratch, numbers, *asked(bundle, scratch, "rough", *numbers)

    upper_classes = make.SAMPLES["upper-classes"]
    for bundle in [*opened_samples(), *(make.FURTHER[name] for name in ["no-concrete-class", "102-methods", "declared-apart"])]:
        yield from answered(bundle, SCRATCH, every_send(bundle))
    # Where the scratch is long enough, class 7 has 24 and class 8 has 18.
    for scratch in [0, MATRIX - 1, MATRIX]:
        yield from answered(upper_classes, scratch, [[0, c, 0, 0] for c in [0, 1, 2, 7, 8]])
    # Methods up to the highest number there may be, found by one tuple and by 128; all two million tuples; and many functions.
    numbers = [63, 64, 127, 128, 255, 256, 383, 384, 507, 508]
    found = [[0, 1 + (m - 1) % (CLASSES - 1), (m - 1) // (CLASSES - 1), third] for m in numbers for third in [5, 0]]
    yield from answered(most_methods(), SCRATCH, [*found, [0, 3, 4, 0], [0, 0, 0, 0]])
    for bundle in [most_tuples(False), most_tuples(True), chained([[0, 0, k] for k in range(CLASSES)])]:
        yield from answered(bundle, SCRATCH, [[0, 0, 0, 0], [0, 0, 0, CLASSES - 1]])
    yield from answered(
        make.bundle(*at_limits(chain(CLASSES))), SCRATCH,
        [[f, *make.padded([c] * (1 + f % PLACES))] for f in [0, 1, 2, FUNCTIONS - 1] for c in [0, 1, 9, 64, CLASSES - 2, CLASSES - 1]])


# Up to so many tuples are looked up one after the other as well.
FEW_TUPLES = 500


def by_lookups(bundle, function, *upper):
    """what rough answers where nothing is refused, from a lookup of each tuple"""
    unused = [0] * (PLACES - arity_of(bundle, function))
    answers = [lookup(bundle, function, *places, *unused) for places in itertools.product(*below(bundle, function, *upper))]
    if any(number for number, _ in answers):
        return 0, [MAY_FAIL]
    first, *others = [method for _, [method, _] in answers]
    return 0, [SEVERAL] if any(method != first for method in others) else [ONE, first]


def rough_cases(folder):
    """the first value is one of SAID, and the second the one method"""
    for bundle, scratch, numbers, *answer in rough_answers(folder):
        held(bundle, reply(*answer), reply(*asked(bundle, scratch, "rough", *numbers)))
        if answer[0] == 0 and math.prod(map(len, below(bundle, *numbers))) <= FEW_TUPLES:
            held(bundle, reply(*answer), reply(*by_lookups(bundle, *numbers)))
        yield bundle, Call("rough", tuple(numbers), scratch), reply(*answer)
    yield from turned_away(folder, "rough", [0, 0, 0, 0])


def listing_cases(folder):
    """the row is the buffer: longer than the text, as long, and a byte shorter"""
    texts = [(bundle, entry["listing"].encode()) for entry, bundle in vectors(folder, "check.jsonl")]
    texts += [(path.read_bytes(), path.with_suffix(".listing").read_bytes()) for path in sorted((ROOT / "bundles").glob("*.bundle"))]
    # Input of any length beyond the longest is refused like a bundle of one byte more.
    texts += [(bytes(LONGEST + 1), b"refused 1\n"), (b"", b"refused 1\n")]
    for bundle, text in texts:
        for row in [ROW, len(text)]:
            yield bundle, Call("listing", row=row), reply(0, [len(text)], written=text)
        yield bundle, Call("listing", row=len(text) - 1), reply(SHORT_ROW)


def scratch_cases(folder):
    """how long the scratch is and what is left in it"""
    for entry, bundle in vectors(folder, "scratch.jsonl"):
        for check in entry["calls"]:
            [length] = check["check"]
            # The program has no longer scratch to lend.
            call, answer = Call("check", scratch=min(length, SCRATCH)), found(check["answer"])
            left = [[at, byte] for at, byte in enumerate(matrix(bundle)) if byte] if fills(call, answer) else None
            held(bundle, check["scratch"], left)
            yield bundle, call, answer
    for bundle, place, part in matrices.parts():
        held(bundle, part, matrix(bundle)[place])
    for bundle, call, answer in matrices.cases():
        if call.entry in ["ancestry", "lookup", "rough"]:
            held(bundle, answer, reply(*asked(bundle, call.scratch, call.entry, *call.numbers)))
        yield bundle, call, answer


def resend_cases(folder):
    """resends of many kinds; no folder has them"""
    return resends.cases()


def refused_resends(bundle):
    """(number, (method, position)) of each resend that a check refuses, the one that it comes to first before the others"""
    for place in resending(bundle):
        number, _ = resend(bundle, place[0])
        if number:
            yield number, place


def hold_resends(bundle, call, answer):
    """stops where a check or a run refuses a resend that the rules allow, or a check passes over one that they refuse"""
    place = answer.values[:2]
    if NO_OVERRIDDEN <= answer.number <= NARROW_TARGET:
        # A check names the first, and a run may come to any: one that a check allows never stops a run.
        refusals = (own for own in refused_resends(bundle) if call.entry == "check" or own[1] == place)
        held(bundle, (answer.number, place), next(refusals, None))
    elif call.entry == "check" and answer.number in (0, *range(14, 18)):
        held(bundle, [], [own for _, own in refused_resends(bundle) if answer.number == 0 or own < place])


def accepted_runs(bundle, calls):
    """(call, reply) for each run of the bundle, where the verdict of its check is known"""
    verdict = calls.get(Call("check", scratch=SCRATCH))
    for call, ran in list(calls.items()):
        if call.entry != "run" or verdict is None:
            continue
        accepted = call._replace(entry="accepted run")
        # Refusals of the run call come first, then what the check found.
        if 0 < ran.number < 10 or ran.number in (ABSENT, SHORT):
            yield accepted, ran
        elif verdict.number:
            yield accepted, verdict
        elif not is_covered(bundle, *call.numbers):
            yield accepted, reply(ABSENT, [1])
        else:
            held(bundle, ran.number, 0)
            yield accepted, ran


def all_cases(folder):
    """from each bundle to its calls, and from each call to its reply; a call that comes again has to have the same reply"""
    cases, repeats = {}, 0
    for bundle, call, answer in itertools.chain.from_iterable(
        made(folder) for made in [
            opening_cases, view_cases, reader_cases, lookup_cases, send_type_cases, check_cases, witness_cases, run_cases, listing_cases,
            chart_cases, rough_cases, scratch_cases, resend_cases]):
        if call.entry in SCRATCHED:
            refused_by = refusal(bundle, call.scratch)
            if refused_by or not fills(call, answer):
                held(bundle, answer, refused_by and reply(*refused_by))
        hold_resends(bundle, call, answer)
        calls = cases.setdefault(bundle, {})
        repeats += call in calls
        held(bundle, calls.setdefault(call, answer), answer)
    for bundle, calls in cases.items():
        calls.update(accepted_runs(bundle, calls))
    return cases, repeats


def wanted_files(folder):
    """from each path to its bytes"""
    cases, repeats = all_cases(folder)
    crate = ROOT / "crates" / "call_cases"
    wanted = {
        crate / "stdin": stream_of(cases),
        crate / "stdout": tally(cases),
    }
    # The programs themselves are run on one of the samples.
    for program in ["listing", "chart"]:
        for name, ending in [("stdin", "bundle"), ("stdout", program)]:
            wanted[ROOT / "crates" / program / name] = (ROOT / "bundles" / f"chart-3.{ending}").read_bytes()
    print(f"{len(cases)} bundles, {sum(map(len, cases.values()))} cases, {repeats} repeats left out", file=sys.stderr)
    return wanted


def main(arguments):
    match arguments:
        case ["one", number]:
            alone, said = one(sys.stdin.buffer.read(), int(number))
            print(said, file=sys.stderr)
            sys.exit(sys.stdout.buffer.write(alone) != len(alone))
        case [folder, "current", out]:
            write_current(pathlib.Path(folder), pathlib.Path(out))
        case [folder] | [folder, "--check"]:
            sys.exit(write_or_check(ROOT, wanted_files(pathlib.Path(folder)), "--check" in arguments))
        case _:
            sys.exit(__doc__)


if __name__ == "__main__":
    main(sys.argv[1:])
