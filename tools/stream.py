"""The input of the test program call_cases, as docs/CASES.md has it."""
import sys
from typing import NamedTuple

from rules import CLASSES, MATRIX_ROW, SHORT, matrix_rows, opening

# The first value of a run that no number stops.
ENDS = {"value": 0, "spent": 1, "deep": 2}
VALUES = 8
# The most steps that a run may be given, and the most frames that it may have at once.
MOST, FRAMES = 2**32 - 1, 32
# The scratch of a call is longer than the matrix, also than one of a byte a pair, so that a byte written past it shows.
SCRATCH = 17000
# So is the row longer than the longest line of a chart, and than a type.
ROW = 660
# The entry points in the order of their codes, and those that take scratch.
ENTRIES = [
    "opening", "view", "instruction", "reading", "ancestry", "lookup", "send type", "check", "witness", "run", "accepted run", "listing", "chart",
    "rough"]
SCRATCHED = [*ENTRIES[4:11], *ENTRIES[12:]]


class Call(NamedTuple):
    """what is asked, and how many bytes of scratch and row are lent"""
    entry: str
    numbers: tuple = ()
    scratch: int = 0
    row: int = 0
    count: int = 0


class Reply(NamedTuple):
    """the number, eight values, and what is written to the row: these bytes, then zeros up to a place"""
    number: int
    values: tuple
    written: bytes = b""
    zeros_to: int = 0


def reply(number, values=(), **more):
    return Reply(number, (*values, *[0] * (VALUES - len(values))), **more)


def ended(end, values, steps):
    """the reply to a run that ends so: one of ENDS, or a number. The steps are the last value"""
    number, values = (0, [ENDS[end], *values]) if end in ENDS else (end, values)
    return reply(number, [*values, *[0] * (VALUES - 1 - len(values)), steps])


def typed(classes):
    """the reply to a send of this type: 1 in the row for each of its classes, 0 for the others"""
    return reply(0, written=bytes(c in classes for c in range(max(classes) + 1)), zeros_to=CLASSES)


def grouped(n):
    """a number in groups of seven bits, the highest first; 128 is added to all but the last"""
    groups = [n % 128]
    while n := n // 128:
        groups.append(128 + n % 128)
    return bytes(reversed(groups))


def block(*numbers):
    """a byte that says how many follow, and the numbers; zeros at the end are left out"""
    while numbers and not numbers[-1]:
        numbers = numbers[:-1]
    content = b"".join(map(grouped, numbers))
    return bytes([len(content)]) + content


def fills(call, answer):
    """whether the call leaves the matrix in the scratch"""
    return call.entry in SCRATCHED and answer.number not in (*range(1, 10), SHORT)


def call_bytes(call, answer):
    numbers = [*call.numbers, *[0] * (4 - len(call.numbers))]
    asked_for = block(ENTRIES.index(call.entry), call.scratch, *numbers, call.count, call.row)
    answered = block(answer.number, fills(call, answer), *answer.values, len(answer.written), answer.zeros_to)
    return asked_for + answered + answer.written


def bundle_bytes(bundle, calls):
    rows = [] if opening(bundle)[0] else matrix_rows(bundle)
    return block(len(bundle), len(rows), len(calls)) + bundle + b"".join(rows) + b"".join(calls)


def stream_of(cases):
    """cases: from each bundle to its calls, and from each call to its reply"""
    return b"".join(bundle_bytes(bundle, [call_bytes(*case) for case in calls.items()]) for bundle, calls in cases.items())


def tally(cases):
    """what the program has to print"""
    asked_for = [call.entry for calls in cases.values() for call in calls]
    return "".join(f"{entry} cases {asked_for.count(entry)} differing 0\n" for entry in ENTRIES).encode()


def taken_block(stream, at):
    """the numbers of the block at a place, and the place after it"""
    end = at + 1 + stream[at]
    numbers, value = [], 0
    for byte in stream[at + 1:end]:
        value = 128 * value + byte % 128
        if byte < 128:
            numbers.append(value)
            value = 0
    return numbers, end


def field(numbers, k):
    return numbers[k] if k < len(numbers) else 0


def one(stream, wanted):
    """the stream of one case, and what it asks and expects"""
    at, case = 0, 0
    while at < len(stream):
        head, start = taken_block(stream, at)
        length, classes, calls = (field(head, k) for k in range(3))
        at = start + length + MATRIX_ROW * classes
        shared = stream[start:at]
        for _ in range(calls):
            asked_for, middle = taken_block(stream, at)
            answered, end = taken_block(stream, middle)
            end += field(answered, 2 + VALUES)
            if case == wanted:
                said = f"{ENTRIES[field(asked_for, 0)]} on a bundle of {length} bytes: asked {asked_for[1:]}, expected {answered}"
                return block(length, classes, 1) + shared + stream[at:end], said
            at, case = end, case + 1
    sys.exit(f"there are {case} cases, numbered from 0")
