"""Checks and runs of bundles with resends, on bundles that no vector has. The answers are worked out by hand from the rules."""
import itertools

import make
from make import ABSTRACT, ARG, CONCRETE, NEW, RESEND, SEND
from rules import AMBIGUOUS_RESEND, CLASSES, METHODS, NARROW_TARGET, NO_OVERRIDDEN, PLACES
from stream import FRAMES, MOST, SCRATCH, Call, ended, reply
from uppers import hierarchy

ACCEPTED = reply(0)
AGAIN = [(RESEND, 0)]


def broken(number, method, at=0):
    """the verdict that names an instruction"""
    return reply(number, [method, at])


def run(send, end, values, steps, at_an_end=False):
    """(call, reply) for a run that is given more steps than it needs, just as many, and one less; at_an_end: it stops at the end of a body"""
    # An instruction that is not made is no step, but comes only where one is left.
    needed = steps if at_an_end or end == "value" else steps + 1
    for count in [MOST, needed]:
        yield Call("run", send, SCRATCH, count=count), ended(end, values, steps)
    yield Call("run", send, SCRATCH, count=needed - 1), ended("spent", [], needed - 1)


def judged(bundle, verdict, *runs):
    """(bundle, call, reply) for the check, and for runs, each as run takes it"""
    yield bundle, Call("check", scratch=SCRATCH), verdict
    for call, answer in itertools.chain.from_iterable(run(*asked) for asked in runs):
        yield bundle, call, answer


def marked(classes, methods, again, declared=None, signatures=()):
    """a bundle of one function with a method for each of these specialisers. The methods whose numbers are in again resend, and each other one makes an
    object of a class that is not among those given, so that the value of a run tells which method made it"""
    marks = [(CONCRETE, [0])] * len(methods)
    bodies = [AGAIN if m in again else [(NEW, len(classes) + m)] for m in range(len(methods))]
    places = dict(enumerate(methods)) | (declared or {})
    return make.bundle(
        [*classes, *marks], [len(methods[0])], signatures, [(0, own, places[m], 0, bodies[m]) for m, own in enumerate(methods)])


def reaches(method, resends):
    """the run comes to this method by so many resends"""
    return "made", method, resends


def stops(number, method, resends):
    """after so many resends the one of this method is refused"""
    return number, method, resends


# Class 4 is under 3, which is under 1 and 2.
DIAMOND = hierarchy([], [0], [0], [1, 2], [3], abstract=())
GENERAL = [(0, [0], 0)]


def choices():
    """(classes, specialisers of the methods, those that resend, verdict, how the run of each send ends), and where they matter the declared classes of some
    methods and the signatures"""
    # A frame that a resend opened resends from its own method, whatever the class of the send and the order of the methods.
    for order in [[0, 1, 2], [2, 1, 0], [1, 2, 0]]:
        again, general = [m for m, c in enumerate(order) if c], order.index(0)
        yield make.chain(4), [[c] for c in order], again, ACCEPTED, {(c,): reaches(general, min(c, 2)) for c in range(4)}, {}, GENERAL
    # The one candidate is not for a parent.
    yield make.chain(4), [[0], [3]], [1], ACCEPTED, {(3,): reaches(0, 1), (2,): reaches(0, 0)}, {}, GENERAL
    # Only special methods, methods beside it, or none; one that is above it at one place alone.
    yield make.chain(3), [[1], [2]], [0], broken(NO_OVERRIDDEN, 0), {(1,): stops(NO_OVERRIDDEN, 0, 0), (2,): reaches(1, 0)}
    yield DIAMOND, [[1], [2]], [1], broken(NO_OVERRIDDEN, 1), {(2,): stops(NO_OVERRIDDEN, 1, 0), (1,): reaches(0, 0)}
    yield make.chain(1), [[0]], [0], broken(NO_OVERRIDDEN, 0), {(0,): stops(NO_OVERRIDDEN, 0, 0)}
    yield make.chain(1), [[]], [0], broken(NO_OVERRIDDEN, 0), {(): stops(NO_OVERRIDDEN, 0, 0)}
    yield make.chain(2), [[0, 1], [1, 0]], [1], broken(NO_OVERRIDDEN, 1), {(1, 0): stops(NO_OVERRIDDEN, 1, 0)}
    yield make.chain(2), [[0, 0, 1], [1, 1, 0]], [1], broken(NO_OVERRIDDEN, 1), {(1, 1, 0): stops(NO_OVERRIDDEN, 1, 0)}
    # Two candidates of which none leads, with a general one beside them and without; a method below them that leads.
    tie = {(3,): stops(AMBIGUOUS_RESEND, 2, 0), (1,): reaches(0, 0)}
    yield DIAMOND, [[1], [2], [3]], [2], broken(AMBIGUOUS_RESEND, 2), tie
    yield DIAMOND, [[1], [2], [3], [0]], [2], broken(AMBIGUOUS_RESEND, 2), tie
    yield DIAMOND, [[1], [2], [3], [4], [0]], [3], ACCEPTED, {(4,): reaches(2, 1), (3,): reaches(2, 0)}, {}, GENERAL
    yield DIAMOND, [[1], [2], [3], [4], [0]], [2, 3], broken(AMBIGUOUS_RESEND, 2), {(4,): stops(AMBIGUOUS_RESEND, 2, 1)}
    # The target has nothing to resend to itself.
    yield make.chain(3), [[1], [2]], [0, 1], broken(NO_OVERRIDDEN, 0), {(2,): stops(NO_OVERRIDDEN, 0, 1)}
    # At each place: a step down from the general method, three steps, and two beside each other.
    for order in itertools.permutations(range(PLACES)):
        steps = [[int(order[place] < k) for place in range(PLACES)] for k in range(PLACES + 1)]
        yield make.chain(2), steps, [1, 2, 3], ACCEPTED, {tuple(own): reaches(0, k) for k, own in enumerate(steps)}, {}, [(0, [0] * PLACES, 0)]
        first, second = ([int(order[place] == k) for place in range(PLACES)] for k in range(2))
        both = [a + b for a, b in zip(first, second)]
        yield make.chain(2), [first, second, both], [2], broken(AMBIGUOUS_RESEND, 2), {tuple(both): stops(AMBIGUOUS_RESEND, 2, 0)}


def declared_classes():
    """as choices, where the declared class of the target does not hold every argument of its specialiser"""
    refused = broken(NARROW_TARGET, 1)
    # The target declares class 2, and the method that resends takes class 1: the check knows no more, and the run of class 2 goes on.
    yield make.chain(4), [[0], [1]], [1], refused, {(1,): stops(NARROW_TARGET, 1, 0), (2,): reaches(0, 1), (3,): reaches(0, 1)}, {0: [2]}
    # It declares class 2 itself, or takes it; or the target declares a class above the one that it takes.
    yield make.chain(4), [[0], [1]], [1], ACCEPTED, {(2,): reaches(0, 1), (3,): reaches(0, 1)}, {0: [2], 1: [2]}
    yield make.chain(4), [[0], [2]], [1], ACCEPTED, {(2,): reaches(0, 1)}, {0: [2], 1: [0]}
    yield make.chain(4), [[0], [2]], [1], ACCEPTED, {(2,): reaches(0, 1)}, {0: [1]}
    # Both declare a class beside the specialiser, and the argument is under both.
    yield DIAMOND, [[0], [1]], [1], ACCEPTED, {(3,): reaches(0, 1), (4,): reaches(0, 1)}, {0: [2], 1: [2]}
    yield DIAMOND, [[0], [1]], [1], refused, {(1,): stops(NARROW_TARGET, 1, 0), (3,): reaches(0, 1)}, {0: [2]}
    # At each of three places.
    for place in range(PLACES):
        narrow = [int(k == place) for k in range(PLACES)]
        high = [2 * (k == (place + 1) % PLACES) for k in range(PLACES)]
        held = tuple(max(pair) for pair in zip(narrow, high))
        yield make.chain(3), [[0] * PLACES, high], [1], refused, {tuple(high): stops(NARROW_TARGET, 1, 0), held: reaches(0, 1)}, {0: narrow}
    # The second resend of a run; and a leader that is narrow where another candidate would not be.
    yield make.chain(4), [[0], [1], [2]], [1, 2], refused, {(2,): stops(NARROW_TARGET, 1, 1), (3,): reaches(0, 2)}, {0: [3]}
    yield make.chain(4), [[0], [1], [2]], [2], broken(NARROW_TARGET, 2), {(2,): stops(NARROW_TARGET, 2, 0), (3,): reaches(1, 1)}, {1: [3]}


def told_by_marks():
    """(bundle, call, reply) for these"""
    for classes, methods, again, verdict, ends, *more in itertools.chain(choices(), declared_classes()):
        runs = []
        for places, (end, method, resends) in ends.items():
            made = "value", [len(classes) + method], resends + 1
            runs.append(((0, *make.padded(places)), *(made if end == "made" else (end, [method, 0], resends))))
        yield from judged(marked(classes, methods, again, *more), verdict, *runs)


def deep_chains():
    """a method for each class of a chain, each of which resends to the one before it: Deep is the last thing that is tried"""
    last = FRAMES - 1

    def chained(count, declared=0, body=((ARG, 0),)):
        """the method of class 0, which resends only where its body says so, declares that class"""
        return make.bundle(
            make.chain(count), [1], [], [(0, [0], [declared], 0, body), *((0, [c], [c], 0, AGAIN) for c in range(1, count))])

    yield from judged(chained(FRAMES), ACCEPTED, ((0, last, 0, 0), "value", [last], FRAMES))
    yield from judged(chained(FRAMES + 1), ACCEPTED, ((0, FRAMES, 0, 0), "deep", [], last))
    # The method in the last frame has nothing to resend to, or a target that declares too narrow a class.
    yield from judged(chained(FRAMES, body=AGAIN), broken(NO_OVERRIDDEN, 0), ((0, last, 0, 0), NO_OVERRIDDEN, [0, 0], last))
    yield from judged(
        chained(FRAMES + 2, FRAMES + 1), broken(NARROW_TARGET, 1), ((0, FRAMES, 0, 0), NARROW_TARGET, [1, 0], last))
    # Above the chain from class 3 on are two classes beside each other, so that 26 comes in the last frame.
    classes = hierarchy([], [0], [0], [1, 2], *([c] for c in range(3, FRAMES + 2)), abstract=())
    own = range(1, len(classes))
    bundle = make.bundle(classes, [1], [], [(0, [c], [c], 0, AGAIN if c > 2 else [(ARG, 0)]) for c in own])
    yield from judged(bundle, broken(AMBIGUOUS_RESEND, 2), ((0, FRAMES + 2, 0, 0), AMBIGUOUS_RESEND, [2, 0], last))


def bodies():
    """(body of the special method, its result class, verdict, how the run of class 2 ends). The general method has result class 1 and returns its argument. A
    signature has function 1 for class 1, function 2 for any two arguments, function 3 for class 2"""
    yield AGAIN, 1, ACCEPTED, ("value", [2], 2)
    # Nothing is taken off the stack, and one value put there each time.
    yield [(NEW, 1), *AGAIN], 1, broken(14, 1, 2), (14, [1, 2], 3)
    yield AGAIN * 2, 1, broken(14, 1, 2), (14, [1, 2], 4)
    yield [*AGAIN * 2, (SEND, 2)], 0, ACCEPTED, ("value", [1], 6)
    yield [(NEW, 1), *AGAIN, (SEND, 2)], 0, ACCEPTED, ("value", [1], 5)
    # The type is that of the target's result class, whatever is known of the argument that comes back.
    yield AGAIN, 2, broken(17, 1, 1), ("value", [2], 2)
    yield [*AGAIN, (SEND, 1)], 0, ACCEPTED, ("value", [1], 4)
    yield [*AGAIN, (SEND, 3)], 0, broken(16, 1, 1), ("value", [1], 4)
    # What comes first is named.
    yield [(NEW, 0), *AGAIN], 1, broken(15, 1), (15, [1, 0], 0)
    yield [*AGAIN, (NEW, 0)], 1, broken(15, 1, 1), (15, [1, 1], 2)
    yield [(SEND, 1), *AGAIN], 1, broken(14, 1), (14, [1, 0], 0)


def told_by_bodies():
    """(bundle, call, reply) for these, over the abstract class 0, 1 under it and 2 under 1"""
    classes = [(ABSTRACT, []), (CONCRETE, [0]), (CONCRETE, [1])]
    for body, result, verdict, end in bodies():
        bundle = make.bundle(
            classes, [1, 1, 2, 1], [(0, [2], 0), (1, [1], 0), (2, [0, 0], 0), (3, [2], 0)], [
                (0, [0], [1], 1, [(ARG, 0)]), (0, [2], [2], result, body), (1, [0], [0], 0, [(NEW, 1)]), (2, [0, 0], [0, 0], 0, [(NEW, 1)]),
                (3, [0], [0], 0, [(NEW, 1)])])
        yield from judged(bundle, verdict, ((0, 2, 0, 0), *end, end[1] == [1, len(body)]))


def beside_others():
    """(bundle, call, reply): signatures come before resends, and methods of other functions are never resent to"""
    chain = make.chain(2)
    general, special = (0, [0], [0], 0, [(ARG, 0)]), (0, [1], [1], 0, AGAIN)
    for methods, signatures, verdict in [
        # The resend is sound, and so is the other function's, whose methods come between.
        ([(1, [0], [0], 0, [(NEW, 0)]), special, (1, [1], [1], 0, AGAIN), general], [(0, [0], 0), (1, [0], 0)], ACCEPTED),
        # The general method is another function's.
        ([(1, [0], [0], 0, [(ARG, 0)]), special], [], broken(NO_OVERRIDDEN, 1)),
        # A signature that is broken too; a resend that no send reaches; the lower of two methods.
        ([special], [(0, [0], 0)], reply(10, [0, 0, 0, 0, 0])),
        ([special], [(0, [1], 0)], broken(NO_OVERRIDDEN, 0)),
        ([special], [], broken(NO_OVERRIDDEN, 0)),
        ([(1, [1], [1], 0, AGAIN), special], [], broken(NO_OVERRIDDEN, 0)),
    ]:
        yield from judged(make.bundle(chain, [1, 1], signatures, methods), verdict)


def many_methods():
    """(bundle, call, reply): as many methods as there may be, one for each two classes of a chain, by rows. One of them resends"""
    row = 23
    places = list(itertools.product(range(row), repeat=2))[:METHODS]

    def resending(m):
        return make.bundle(
            make.chain(CLASSES), [2], [],
            [(0, own, own, 0, AGAIN if k == m else [(NEW, k % CLASSES)]) for k, own in enumerate(places)])

    # In the first row and the first column each method overrides one that leads; elsewhere two tie.
    for m, target in [(1, 0), (row - 1, row - 2), (row, 0), (22 * row, 21 * row)]:
        yield from judged(resending(m), ACCEPTED, ((0, *places[m], 0), "value", [target % CLASSES], 2))
    for m in [row + 1, METHODS - 1]:
        yield from judged(resending(m), broken(AMBIGUOUS_RESEND, m), ((0, *places[m], 0), AMBIGUOUS_RESEND, [m, 0], 0))


def cases():
    """(bundle, call, reply)"""
    return itertools.chain(told_by_marks(), deep_chains(), told_by_bodies(), beside_others(), many_methods())
