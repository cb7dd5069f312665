"""Calls for which it matters how long the scratch is and where in it the bit of two classes lies, and bytes of the subclass matrix, on bundles that no
vector has. The bytes are written down by hand, and the answers follow from the one parent of each class."""
import itertools

import make
from rules import ABSENT, CLASSES, HEIR, NEITHER, ONE, SAME, SEVERAL, SHORT
from stream import ROW, SCRATCH, Call, ended, reply, typed
from uppers import hierarchy

# Scratch that is too short, and scratch that is long enough, also where a byte a pair would not fit. Here and below the sizes stand as numbers, since
# those of rules.py are held to them.
TOO_SHORT, ENOUGH = [0, 1, 2047], [2048, 2049, 16383, 16384]
LEAST = ENOUGH[0]


def of_each_length():
    """(bundle, call, reply) for every entry point but the accepted run, whose answers follow from those of the run and the check"""
    send = (0, 2, 4, 0)
    for call, answer in [
        (Call("ancestry", (2, 1)), reply(0, [HEIR])),
        (Call("lookup", send), reply(0, [3, 1])),
        (Call("send type", send, row=CLASSES), typed([0, 5])),
        (Call("check"), reply(0)),
        (Call("witness", send), reply(0)),
        (Call("run", send, count=1), ended("value", [7], 1)),
        (Call("chart", (0, 0), row=ROW), reply(0, [35], written=b"        1    2    3    4    6    7\n")),
        (Call("rough", send), reply(0, [ONE, 3])),
    ]:
        for scratch in TOO_SHORT:
            yield make.SAMPLES["chart-4"], call._replace(scratch=scratch), reply(SHORT)
        for scratch in ENOUGH:
            yield make.SAMPLES["chart-4"], call._replace(scratch=scratch), answer


# The parent of each class but 0, in hierarchies of one parent each.
PARENT = {
    "flat": lambda c: 0,
    "chain": lambda c: c - 1,
    "tree": lambda c: (c - 1) // 2,
    # Each class whose bit is the first of a byte is under the one whose bit is the last of the byte before.
    "across": lambda c: 0 if c % 8 else c - 1,
}

# Rows of the matrix of 128 such classes, in hexadecimal, without the zeros at their ends.
ROWS = {
    "flat": {
        0: "01", 1: "03", 7: "81", 8: "0101", 15: "0180", 16: "010001", 63: "01" + 6 * "00" + "80", 64: "01" + 7 * "00" + "01",
        119: "01" + 13 * "00" + "80", 120: "01" + 14 * "00" + "01", 127: "01" + 14 * "00" + "80"},
    "chain": {
        0: "01", 6: "7f", 7: "ff", 8: "ff01", 15: "ffff", 16: "ffff01", 63: 8 * "ff", 64: 8 * "ff" + "01", 119: 15 * "ff", 120: 15 * "ff" + "01",
        126: 15 * "ff" + "7f", 127: 16 * "ff"},
    # Above 120 are 59, 29, 14, 6, 2 and 0, and above 127 are 63, 31, 15, 7, 3, 1 and 0.
    "tree": {
        8: "0b01", 64: "8b80008000000000" + "01", 120: "4540002000000008" + "0000000000000001", 127: "8b80008000000080" + "0000000000000080"},
    "across": {
        7: "81", 8: "8101", 9: "0102", 16: "018001", 64: "01" + 6 * "00" + "8001", 120: "01" + 13 * "00" + "8001", 127: "01" + 14 * "00" + "80"},
}

# The parents of a few classes, with the rows of all of them.
WHOLE = [
    ([[]], ["01"]),
    ([[], [0], [1], [1], [1], [2, 3, 4]], ["01", "03", "07", "0b", "13", "3f"]),
    ([[], [0], [0], [1, 2], [0], [4], [5], [3], [6, 7]], ["01", "03", "05", "0f", "11", "31", "71", "8f", "ff01"]),
]


def filled(row):
    """the bytes of a row"""
    return bytes.fromhex(row).ljust(16, b"\0")


def parts():
    """(bundle, place, bytes) for whole matrices, and for rows of others"""
    for parents, rows in WHOLE:
        yield make.bundle(hierarchy(*parents)), slice(None), b"".join(map(filled, rows)).ljust(2048, b"\0")
    for name, rows in ROWS.items():
        for c, row in rows.items():
            yield make.bundle(single(PARENT[name], CLASSES)), slice(16 * c, 16 * c + 16), filled(row)


def single(parent, count, abstract=()):
    """so many classes with one parent each"""
    return hierarchy(*([parent(c)] if c else [] for c in range(count)), abstract=abstract)


def upwards(parent, c):
    """the class and all that it is under"""
    return {c, *(upwards(parent, parent(c)) if c else [])}


# Classes whose bits are the last of a byte and the first of the next, or the last of all.
EDGES = [7, 8, 15, 16, 63, 64, 119, 120, 127]


def at_edges(parent, count):
    """calls of a function that returns its argument and has a signature and a method for class 0, each class at an edge and the last"""
    own = sorted({0, count - 1, *(c for c in EDGES if c < count)})
    bundle = make.bundle(
        single(parent, count), [1], [(0, [c], c) for c in own], [(0, [c], [c], c, [(make.ARG, 0)]) for c in own])
    above = [upwards(parent, c) for c in range(count)]
    # Of the methods that apply to a class the last has the nearest specialiser.
    found = [max(m for m, c in enumerate(own) if c in above[k]) for k in range(count)]

    def answers():
        for scratch in [LEAST, SCRATCH]:
            yield Call("check", scratch=scratch), reply(0)
        for a, b in itertools.product(own, repeat=2):
            yield Call("ancestry", (a, b), LEAST), reply(0, [SAME if a == b else HEIR if b in above[a] else NEITHER])
        for s, c in itertools.product(range(len(own)), own):
            yield Call("witness", (s, c, 0, 0), LEAST), reply(0 if own[s] in above[c] else ABSENT)
        for c in sorted({near for k in own for near in [k - 1, k, k + 1] if near in range(count)}):
            send = (0, c, 0, 0)
            several = {found[k] for k in range(count) if c in above[k]} != {found[c]}
            yield Call("lookup", send, LEAST), reply(0, [found[c], int(c in own)])
            yield Call("send type", send, LEAST, CLASSES), typed(above[own[found[c]]])
            yield Call("run", send, LEAST, count=1), ended("value", [c], 1)
            yield Call("rough", send, LEAST), reply(0, [SEVERAL] if several else [ONE, found[c]])

    for call, answer in answers():
        yield bundle, call, answer


def across_an_edge():
    """checks in which the one class under that of the signature, which is abstract, has no method"""
    for c in [7, 15, 63, 119]:
        bundle = make.bundle(single(PARENT["across"], CLASSES, [c]), [1], [(0, [c], 0)])
        yield bundle, Call("check", scratch=LEAST), reply(10, [0, 0, c + 1, 0, 0])


def cases():
    """(bundle, call, reply)"""
    yield from of_each_length()
    for name, count in [*((name, CLASSES) for name in PARENT), *itertools.product(["chain", "across"], [1, 7, 8, 9, 64, 65, 127])]:
        yield from at_edges(PARENT[name], count)
    yield from across_an_edge()
    for bundle, _, _ in parts():
        yield bundle, Call("check", scratch=LEAST), reply(0)
