"""Lookups that find a method for exactly the classes of the send or one for other classes, and ancestry in both directions, on bundles that no vector has.
The answers are worked out by hand from the rules."""
import itertools

import make
import uppers
from rules import ABSENT, CLASSES, FUNCTIONS, HEIR, LONGEST, NEITHER, PLACES, SAME
from uppers import PAIR, answering, dispatching, hierarchy, widened

WRONG = ABSENT, []


def exactly(method):
    """this method is found, and its specialisers are the classes of the send"""
    return 0, [method, 1]


def wider(method):
    """this method is found, and at some place its specialiser is another class, above that of the send"""
    return 0, [method, 0]


def none(*send):
    """no method applies to this function and these classes"""
    return 10, list(send)


def two(send, rivals):
    """none of the methods that apply leads"""
    return 11, [*send, *rivals]


DIAMOND = hierarchy(*uppers.HEIR)


def same_at_some_places():
    """one method, which has class 1 at every place; above that is 0, and below it 2"""
    for arity in range(1, PLACES + 1):
        own = (1,) * arity
        answers = {places: wider(0) for places in itertools.product([1, 2], repeat=arity)}
        answers[own] = exactly(0)
        for place in range(arity):
            general = (*own[:place], 0, *own[place + 1:])
            answers[general] = none(0, *make.padded(general))
        yield from answering(dispatching(make.chain(3), own), answers)


def without_arguments():
    """a method without arguments has no specialiser that could differ, whatever those of another function have"""
    bundle = make.applying(PAIR, [0, 1, 0, 0], [(2, []), (1, [0]), (0, [])])
    for function, answers in enumerate([
        {(): exactly(2), (1,): WRONG, (0, 0, 1): WRONG},
        {(0,): exactly(1), (1,): wider(1)},
        {(): exactly(0)},
        {(): none(3, 0, 0, 0)},
    ]):
        yield from answering(bundle, answers, function)


def beside_other_methods():
    """methods for other classes: more general ones, special ones that do not apply, and ones that do"""
    for classes, methods, answers in [
        # Each class is under all before it.
        (make.chain(4), [[2], [0], [3]], {(0,): exactly(1), (1,): wider(1), (2,): exactly(0), (3,): exactly(2)}),
        (make.chain(4), [[2], [1]], {(0,): none(0, 0, 0, 0), (1,): exactly(1), (2,): exactly(0), (3,): wider(0)}),
        (make.chain(4), [[1, 1], [0, 0], [1, 0], [3, 3]], {
            (0, 0): exactly(1), (0, 1): wider(1), (0, 3): wider(1), (1, 0): exactly(2), (2, 0): wider(2), (1, 1): exactly(0), (1, 2): wider(0),
            (2, 1): wider(0), (3, 1): wider(0), (3, 2): wider(0), (2, 3): wider(0), (3, 3): exactly(3)}),
        (make.chain(3), [[2, 1, 0], [1, 1, 0], [0, 0, 0], [2, 1, 2]], {
            (0, 0, 0): exactly(2), (1, 0, 0): wider(2), (0, 1, 0): wider(2), (0, 0, 1): wider(2), (1, 1, 0): exactly(1), (1, 2, 0): wider(1),
            (1, 1, 1): wider(1), (2, 1, 0): exactly(0), (2, 1, 1): wider(0), (2, 2, 0): wider(0), (2, 2, 1): wider(0), (2, 1, 2): exactly(3),
            (2, 2, 2): wider(3)}),
        # The same two classes, but at other places.
        (make.chain(2), [[0, 1, 0]], {(0, 1, 0): exactly(0), (1, 1, 0): wider(0), (0, 1, 1): wider(0), (1, 0, 0): none(0, 1, 0, 0)}),
        (PAIR, [[0, 0], [1, 2]], {
            (1, 2): exactly(1), (2, 1): wider(0), (1, 1): wider(0), (2, 2): wider(0), (0, 0): exactly(0), (0, 2): wider(0), (1, 0): wider(0)}),
        # All classes but the last are abstract; all of them are.
        (hierarchy([], [0], [1], abstract=[0, 1]), [[1], [0]], {(0,): exactly(1), (1,): exactly(0), (2,): wider(0)}),
        (hierarchy([], [0], [0], abstract=[0, 1, 2]), [[0], [2]], {(0,): exactly(0), (1,): wider(0), (2,): exactly(1)}),
        # Class 3 is under 1 and 2.
        (DIAMOND, [[1], [2]], {(0,): none(0, 0, 0, 0), (1,): exactly(0), (2,): exactly(1), (3,): two([0, 3, 0, 0], [1, 0])}),
        (DIAMOND, [[1], [2], [3]], {(1,): exactly(0), (2,): exactly(1), (3,): exactly(2)}),
        (DIAMOND, [[0], [1]], {(0,): exactly(0), (1,): exactly(1), (2,): wider(0), (3,): wider(1)}),
        (DIAMOND, [[1, 0], [0, 2], [3, 3]], {
            (1, 0): exactly(0), (3, 0): wider(0), (1, 1): wider(0), (0, 2): exactly(1), (0, 3): wider(1), (1, 2): two([0, 1, 2, 0], [1, 0]),
            (3, 3): exactly(2)}),
    ]:
        yield from answering(dispatching(classes, *methods), answers)
    # A method of another function has the classes of the send.
    bundle = make.applying(PAIR, [1, 1], [(0, [0]), (1, [1]), (1, [0])])
    yield from answering(bundle, {(0,): exactly(0), (1,): wider(0)})
    yield from answering(bundle, {(0,): exactly(2), (1,): exactly(1), (2,): wider(2)}, 1)


def declared_classes():
    """what a method declares plays no part: it has the class of the send or not"""
    bundle = make.of_methods(make.chain(3), [1], [], [(0, [0], [1]), (0, [2], [0])])
    yield from answering(bundle, {(0,): exactly(0), (1,): wider(0), (2,): exactly(1)})
    bundle = make.of_methods(make.chain(2), [2], [], [(0, [0, 1], [1, 1])])
    yield from answering(bundle, {(0, 1): exactly(0), (1, 1): wider(0)})


def many_methods():
    """as many methods as there may be, one for each triple of the classes 1 to 8, each of which has one heir, 8 numbers on"""
    classes = hierarchy([], *[[0]] * 8, *([c] for c in range(1, 9)))
    bundle = dispatching(classes, *itertools.product(range(1, 9), repeat=PLACES))
    for m, (a, b, c) in {0: (1, 1, 1), 255: (4, 8, 8), 256: (5, 1, 1), 511: (8, 8, 8)}.items():
        answers = {places: wider(m) for places in itertools.product([a, a + 8], [b, b + 8], [c, c + 8])}
        yield from answering(bundle, {**answers, (a, b, c): exactly(m)})


def last_numbers():
    """the highest class and the highest function that there may be, and numbers that only in their lowest bits are those of a method"""
    last, f = CLASSES - 1, FUNCTIONS - 1
    for classes in [make.flat(CLASSES), make.chain(CLASSES)]:
        bundle = make.applying(classes, [1] * FUNCTIONS, [(f, [last]), (f, [0])])
        yield from answering(bundle, {(0,): exactly(1), (1,): wider(1), (last - 1,): wider(1), (last,): exactly(0), (last + 1,): WRONG}, f)
    bundle, numbers = make.SAMPLES["chart-4"], [0, 2, 4, 0]
    yield bundle, numbers, exactly(3)
    for wide in widened(numbers):
        yield bundle, wide, WRONG


def lookups():
    """(bundle, numbers, answer)"""
    return itertools.chain(
        same_at_some_places(), without_arguments(), beside_other_methods(), declared_classes(), many_methods(), last_numbers())


def relations():
    """(classes, two of them, answer of ancestry)"""
    # For each class of a diamond how it stands to each. Whether they are abstract plays no part.
    for abstract in [(0,), (), (0, 1, 2, 3)]:
        classes = hierarchy(*uppers.HEIR, abstract=abstract)
        for a, row in enumerate([
            [SAME, NEITHER, NEITHER, NEITHER],
            [HEIR, SAME, NEITHER, NEITHER],
            [HEIR, NEITHER, SAME, NEITHER],
            [HEIR, HEIR, HEIR, SAME],
        ]):
            for b, answer in enumerate(row):
                yield classes, (a, b), (0, [answer])
    # A class alone, and as many as there may be, under one another and beside each other.
    last = CLASSES - 1
    for classes, answers in [
        (make.chain(1), {(0, 0): SAME}),
        (make.chain(CLASSES), {
            (0, 0): SAME, (last, last): SAME, (last, 0): HEIR, (0, last): NEITHER, (last, last - 1): HEIR, (last - 1, last): NEITHER, (64, 63): HEIR,
            (63, 64): NEITHER, (64, 64): SAME}),
        (make.flat(CLASSES), {
            (0, 0): SAME, (last, last): SAME, (last, 0): HEIR, (0, last): NEITHER, (last, last - 1): NEITHER, (last - 1, last): NEITHER, (64, 64): SAME}),
    ]:
        for pair, answer in answers.items():
            yield classes, pair, (0, [answer])
    # A number that is not there, with one that is, with itself, and with another like it.
    for classes in [make.chain(1), DIAMOND, make.chain(CLASSES)]:
        count = len(classes)
        for absent in [count, CLASSES, 255, 256, LONGEST, 2**32, 2**64 - 1]:
            for pair in [(absent, 0), (0, absent), (absent, count - 1), (count - 1, absent), (absent, absent), (absent, count), (count, absent)]:
                yield classes, pair, WRONG


def cases():
    """(bundle, kind, numbers, answer)"""
    for bundle, numbers, answer in lookups():
        yield bundle, "lookup", numbers, answer
    for classes, pair, answer in relations():
        yield make.bundle(classes), "ancestry", list(pair), answer
