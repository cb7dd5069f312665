"""Calls with upper classes in place of arguments, on bundles that no vector has. The answers are worked out by hand from the rules."""
import itertools

import make
from rules import ABSENT, CLASSES, FUNCTIONS, MAY_FAIL, NONE_CONCRETE, ONE, PLACES, SEVERAL

# Number and values of the answers: not there; no concrete class; some tuple finds none or two; the tuples find different methods.
WRONG, LACKING, FAILS, DIFFER = (ABSENT, []), (NONE_CONCRETE, []), (0, [MAY_FAIL]), (0, [SEVERAL])


def finds(method):
    """every tuple finds this one"""
    return 0, [ONE, method]


def hierarchy(*parents, abstract=(0,)):
    """classes with these parents, all concrete but the ones named"""
    return [(make.ABSTRACT if k in abstract else make.CONCRETE, above) for k, above in enumerate(parents)]


def dispatching(classes, *methods):
    """a bundle of one function, with a method for each of these specialisers"""
    return make.applying(classes, [len(methods[0])], [(0, own) for own in methods])


def answering(bundle, answers, function=0):
    """(bundle, numbers, answer) for each list of upper classes"""
    for uppers, answer in answers.items():
        yield bundle, [function, *make.padded(uppers)], answer


# Below class 0: 1 and 2; 1 to 3.
PAIR, THREE = hierarchy([], [0], [0]), hierarchy([], [0], [0], [0])
# Below class 1, which is concrete: 2, and 4 under an abstract one; 3 and 4, both under an abstract one.
LINE, FORK = hierarchy([], [0], [1], [1], [3], abstract=[0, 3]), hierarchy([], [0], [1], [2], [2], abstract=[0, 2])
# The parents of class 3 are 1 and 2.
HEIR = [], [0], [0], [1, 2]


def with_heir(earlier, later):
    """concrete classes, two abstract ones, a common heir of these, and concrete classes again, with the number of the first abstract one"""
    first = 1 + earlier
    parents = [[], *[[0]] * (earlier + 2), [first, first + 1], *[[0]] * later]
    return hierarchy(*parents, abstract=[0, first, first + 1]), first


def of_one_place():
    """(classes, methods, answers by upper class, signatures): a method is its specialiser, or that with its declared class; a signature is its class
    and its result"""
    # Whether the upper class itself counts, and abstract ones below it.
    yield LINE, [1, 2, 4], {0: DIFFER, 1: DIFFER, 2: finds(1), 3: finds(2), 4: finds(2)}
    yield LINE, [2, 4], {0: FAILS, 1: FAILS, 2: finds(0), 3: finds(1)}
    yield LINE, [0, 1], {0: finds(1), 1: finds(1), 3: finds(1)}
    yield LINE, [0, 3, 4], {0: DIFFER, 2: finds(0), 3: finds(2), 4: finds(2)}
    yield LINE, [4], {0: FAILS, 2: FAILS, 3: finds(0), 4: finds(0)}
    yield FORK, [1, 2], {0: DIFFER, 1: DIFFER, 2: finds(1), 3: finds(1)}
    yield FORK, [2], {0: FAILS, 1: FAILS, 2: finds(0), 4: finds(0)}
    yield make.flat(2), [1], {0: FAILS, 1: finds(0)}
    # The first or the last class finds none, or all do.
    yield PAIR, [1, 2], {0: DIFFER, 1: finds(0), 2: finds(1)}
    yield PAIR, [1], {0: FAILS, 1: finds(0), 2: FAILS}
    yield PAIR, [2], {0: FAILS, 1: FAILS, 2: finds(0)}
    yield PAIR, [], {0: FAILS, 1: FAILS}
    # A declared class does not hold the argument (12), or holds one that the specialiser does not.
    wide = [(0, 0)]
    yield PAIR, [(0, 1)], {0: finds(0), 1: finds(0), 2: finds(0)}, wide
    yield PAIR, [(1, 0)], {0: FAILS, 1: finds(0), 2: FAILS}, wide
    yield PAIR, [(1, 2), (2, 1)], {0: DIFFER, 1: finds(0), 2: finds(1)}, wide
    yield PAIR, [0, (1, 2)], {0: DIFFER, 1: finds(1), 2: finds(0)}, wide
    # The signature does not allow the result (13); it covers only some of the classes.
    yield PAIR, [0], {0: finds(0), 1: finds(0)}, [(0, 1)]
    yield PAIR, [1, 2], {0: DIFFER, 2: finds(1)}, [(1, 0)]
    yield PAIR, [1], {0: FAILS, 1: finds(0), 2: FAILS}, [(1, 0)]
    # Two rivals for a common heir: settled by a third method; abstract itself; the one class that is concrete.
    yield hierarchy(*HEIR), [1, 2], {0: FAILS, 1: FAILS, 2: FAILS, 3: FAILS}
    yield hierarchy(*HEIR), [1, 2, 3], {0: DIFFER, 1: DIFFER, 3: finds(2)}
    yield hierarchy(*HEIR, abstract=[0, 3]), [1, 2], {0: DIFFER, 1: finds(0), 2: finds(1), 3: LACKING}
    yield hierarchy(*HEIR, abstract=[0, 1, 2]), [1, 2], {0: FAILS, 1: FAILS, 3: FAILS}
    yield hierarchy(*HEIR, abstract=[0, 1, 2]), [1, 3, 2], {0: finds(1), 1: finds(1), 3: finds(1)}
    # All classes but the heir, which is the first, one in the middle or the last, find one method.
    for earlier, later in [(0, 2), (1, 1), (2, 0)]:
        classes, first = with_heir(earlier, later)
        other = 1 if earlier else len(classes) - 1
        yield classes, [0, first, first + 1], {0: FAILS, first: FAILS, first + 2: FAILS, other: finds(0)}


def at(place, arity, c):
    """the class at one place, and 0 at the others"""
    return tuple(c if k == place else 0 for k in range(arity))


def at_each_place():
    """(bundle, numbers, answer) for each of these at each place of functions of one argument to three; at the other places are all concrete classes,
    and no method tells them apart"""
    spots = [(place, arity) for arity in range(1, PLACES + 1) for place in range(arity)]
    for (classes, methods, answers, *signatures), spot in itertools.product(of_one_place(), spots):
        pairs = [own if isinstance(own, tuple) else (own, own) for own in methods]
        bundle = make.of_methods(
            classes, [spot[1]], [(0, at(*spot, c), result) for c, result in itertools.chain(*signatures)],
            [(0, at(*spot, own), at(*spot, declared)) for own, declared in pairs])
        yield from answering(bundle, {at(*spot, upper): answer for upper, answer in answers.items()})


def odd_tuples():
    """one tuple of the 3, 9 or 27, the first, one in the middle or the last, is not like the others"""
    for arity, odd in itertools.product(range(1, PLACES + 1), [(1, 1, 1), (2, 3, 1), (3, 3, 3)]):
        here = odd[:arity]
        anywhere, there = (0,) * arity, tuple(c % 3 + 1 for c in here)
        yield from answering(dispatching(THREE, anywhere, here), {anywhere: DIFFER, here: finds(1), there: finds(0)})
        # It finds none, and the others a method each.
        others = [own for own in itertools.product([1, 2, 3], repeat=arity) if own != here]
        yield from answering(
            dispatching(THREE, *others), {anywhere: FAILS, here: FAILS, others[0]: finds(0), others[-1]: finds(len(others) - 1)})
        # It finds two, and some of the others each of these alone.
        if arity > 1:
            earlier, later = (*here[:-1], 0), (0, *here[1:])
            yield from answering(dispatching(THREE, anywhere, later, earlier), {
                anywhere: FAILS, here: FAILS, (*here[:-1], there[-1]): finds(2), (there[0], *here[1:]): finds(1), (there[0], *anywhere[1:]): DIFFER,
                there: finds(0)})


def several_places():
    """methods that tell classes apart at one place for some classes at another only"""
    for classes, methods, answers in [
        (PAIR, [[1, 0], [2, 0], [2, 2]], {
            (0, 0): DIFFER, (1, 0): finds(0), (2, 0): DIFFER, (0, 1): DIFFER, (2, 1): finds(1), (2, 2): finds(2)}),
        (PAIR, [[1, 0], [2, 2]], {(0, 0): FAILS, (1, 0): finds(0), (2, 0): FAILS, (0, 1): FAILS, (0, 2): DIFFER}),
        (PAIR, [[1, 2], [2, 1]], {(0, 0): FAILS, (1, 0): FAILS, (1, 1): FAILS, (1, 2): finds(0), (2, 1): finds(1)}),
        (PAIR, [[0, 0, 1], [0, 0, 2], [1, 0, 0]], {
            (0, 0, 0): FAILS, (1, 0, 0): FAILS, (2, 0, 0): DIFFER, (2, 0, 1): finds(0), (2, 1, 2): finds(1)}),
        (PAIR, [[1, 2, 0], [1, 1, 0], [2, 0, 2], [2, 0, 1]], {
            (0, 0, 0): DIFFER, (1, 0, 0): DIFFER, (1, 2, 0): finds(0), (2, 0, 0): DIFFER, (2, 0, 2): finds(2), (0, 1, 1): DIFFER}),
        # Two groups of classes that no method tells apart.
        (hierarchy([], [0], [0], [1], [1], [1], [2], [2], abstract=[0, 1, 2]), [[1, 1], [1, 2], [2, 0]], {
            (0, 0): DIFFER, (1, 0): DIFFER, (0, 2): DIFFER, (1, 1): finds(0), (1, 2): finds(1), (2, 0): finds(2), (3, 7): finds(1)}),
    ]:
        yield from answering(dispatching(classes, *methods), answers)
    # The common heir, twice, is the one tuple that finds two, until there is a method for it.
    classes, first = with_heir(1, 0)
    rivals = [[0, 0], [first, first + 1], [first + 1, first]]
    heirs = first + 2, first + 2
    elsewhere = {(1, 0): finds(0), (0, 1): finds(0)}
    yield from answering(dispatching(classes, *rivals), {(0, 0): FAILS, (first, first): FAILS, heirs: FAILS, **elsewhere})
    yield from answering(dispatching(classes, *rivals, heirs), {(0, 0): DIFFER, (first, first): finds(3), heirs: finds(3), **elsewhere})
    # The methods of two functions by turns.
    bundle = make.applying(PAIR, [1, 1], [(1, [1]), (0, [0]), (1, [2])])
    yield from answering(bundle, {(0,): finds(1), (1,): finds(1), (2,): finds(1)})
    yield from answering(bundle, {(0,): DIFFER, (1,): finds(0), (2,): finds(2)}, 1)


def refusals():
    """18 before 24, at each place; a function without arguments has no 24"""
    # No class is concrete. Function 3 has a method for all, and 0 and 2 have none.
    bundle = make.applying(hierarchy([], [0], abstract=[0, 1]), [0, 0, 1, 2], [(3, [0, 0]), (1, [])])
    for function, answers in enumerate([
        {(): FAILS, (1,): WRONG, (0, 1): WRONG, (0, 0, 1): WRONG},
        {(): finds(1), (1,): WRONG, (0, 0, 1): WRONG},
        {(0,): LACKING, (1,): LACKING, (2,): WRONG, (0, 1): WRONG, (0, 0, 1): WRONG},
        {(0, 0): LACKING, (1, 0): LACKING, (2, 0): WRONG, (0, 2): WRONG, (0, 0, 1): WRONG},
        {(): WRONG},
    ]):
        yield from answering(bundle, answers, function)
    # Under 2 are two abstract classes, under 4 is one concrete class; 6 is not there. Functions 0 to 2 have a method for all, and 3 has none.
    classes = hierarchy([], [0], [0], [2], [0], [4], abstract=[0, 2, 3, 4])
    bundle = make.applying(classes, [1, 2, 3, 1], [(f, [0] * (f + 1)) for f in range(PLACES)])
    for function in range(PLACES):
        used = range(function + 1)
        yield from answering(bundle, {(4,) * len(used): finds(function), (2,) * len(used): LACKING}, function)
        for place, empty in itertools.product(used, [2, 3]):
            uppers = [empty if k == place else 4 if k in used else 0 for k in range(PLACES)]
            yield from answering(bundle, {tuple(uppers): LACKING}, function)
            for k in range(PLACES):
                if k != place:
                    changed = {(*uppers[:k], c, *uppers[k + 1:]): WRONG for c in ([6] if k in used else [1, 6])}
                    yield from answering(bundle, changed, function)
    yield from answering(bundle, {(4,): FAILS, (2,): LACKING}, 3)
    yield from answering(bundle, {(4,): WRONG, (2,): WRONG}, 4)


def widened(numbers):
    """the numbers with each in turn so much higher that it is itself only in its lowest bits"""
    for k, more in itertools.product(range(len(numbers)), [128, 2**8, 2**16, 2**32, 2**63]):
        yield [n + more if i == k else n for i, n in enumerate(numbers)]


def wide_numbers():
    """each number in turn is another one in its lowest bits, or is the highest there may be"""
    bundle, numbers = make.SAMPLES["chart-4"], [0, 2, 4, 0]
    yield bundle, numbers, finds(3)
    for wide in widened(numbers):
        yield bundle, wide, WRONG
    for k, most in itertools.product(range(len(numbers)), [255, 2**32 - 1, 2**64 - 1]):
        yield bundle, [most if i == k else n for i, n in enumerate(numbers)], WRONG
    # As many classes and functions as there may be, with a method of the last function for the last class.
    last, f = CLASSES - 1, FUNCTIONS - 1
    bundle = make.applying(make.flat(CLASSES), [1] * FUNCTIONS, [(f, [last])])
    yield from answering(bundle, {(last,): finds(0), (0,): FAILS, (last + 1,): WRONG, (255,): WRONG}, f)
    yield from answering(bundle, {(last,): WRONG}, f + 1)


def many_tuples():
    """two million tuples and some more: 128 concrete classes at each of three places, or nearly as many"""
    last = CLASSES - 1
    every, general, specific = make.flat(CLASSES), (0,) * PLACES, (last,) * PLACES
    first, second, third = (at(place, PLACES, last - 1) for place in range(PLACES))
    # One method, beside those of another function, which has none for the first tuple.
    bundle = make.applying(every, [PLACES] * 2, [(1, specific), (0, general), (1, [1, 0, 0])])
    yield from answering(bundle, {general: finds(1), specific: finds(1)})
    yield from answering(bundle, {general: FAILS, specific: finds(0), (1, 0, 0): finds(2), (last, last, 0): FAILS}, 1)
    # The last tuple finds another method than all others.
    yield from answering(dispatching(every, general, specific), {
        general: DIFFER, specific: finds(1), (0, 0, last): DIFFER, first: finds(0), second: finds(0), third: finds(0)})
    # The last tuple is the only one that finds two.
    yield from answering(dispatching(every, general, [last, last, 0], [0, last, last]), {
        general: FAILS, specific: FAILS, first: DIFFER, second: finds(0), third: DIFFER, (last, last, 1): finds(1)})
    # The most specific of eight methods is for all 126 concrete classes.
    below = hierarchy([], [0], *[[1]] * (CLASSES - 2), abstract=[0, 1])
    *others, most_specific = itertools.product([0, 1], repeat=PLACES)
    yield from answering(dispatching(below, *others[:3], most_specific, *others[3:]), {general: finds(3), (1, last, 0): finds(3)})
    # Of 127 concrete classes a method for each but the last, at the first place; beside the last there at the second; beside both at the third. Only
    # the last tuple finds none.
    beside = [[*specific[:place], k, *general[place + 1:]] for place in range(PLACES) for k in range(1, last)]
    yield from answering(dispatching(hierarchy([], *[[0]] * last), *beside), {
        general: FAILS, first: finds(last - 2), second: DIFFER, third: DIFFER, (last, last, last - 1): finds(len(beside) - 1), (last, last, 0): FAILS})


def cases():
    """(bundle, numbers, answer)"""
    return itertools.chain(at_each_place(), odd_tuples(), several_places(), refusals(), wide_numbers(), many_tuples())
