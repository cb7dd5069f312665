"""Vectors that were made before some of the requests landed, with the answers of the rules as they stand."""
import json
import re
import sys

from made import write
from rules import RESEND, methods_of, opening, rivals, spans


def request_of(folder):
    """the last request that the vectors of a folder follow: the folder's name, where that is two digits, and else 0"""
    name = folder.resolve().name
    return int(name) if re.fullmatch("[0-9]{2}", name) else 0


def stop(entry, what):
    """ends the program because of what an entry says"""
    sys.exit(f"{what}, for the bundle {entry['bundle'][:200]}")


def newest_rivals(entry):
    """Three: number 11 names the two highest rivals, the higher first; before, it named the two lowest, the lower first"""
    bundle = bytes.fromhex(entry["bundle"])

    def renamed(named, lowest, highest):
        if named != lowest:
            stop(entry, f"number 11 names {named!r} and not {lowest!r}, the two lowest rivals")
        return highest

    for answer in [entry["answer"]] if "answer" in entry else [call["answer"] for call in entry["calls"]]:
        if answer["number"] == 11:
            falling = rivals(bundle, answer["function"], *answer["tuple"])
            pairs = falling[::-1][:2], falling[:2]
            answer["methods"] = renamed(answer["methods"], *pairs)
            if "listing" in entry:
                start, word, named = entry["listing"].rpartition(" methods ")
                entry["listing"] = start + word + renamed(named, *("{} {}\n".format(*pair) for pair in pairs))


def exact_match(entry):
    """Seven: ancestry tells the same class from a proper heir, to both of which it said yes before, and beside the method of a lookup stands whether that is
    for exactly the classes of the send"""
    bundle = bytes.fromhex(entry["bundle"])

    def related(said, a, b):
        words = {"yes": "same"} if a == b else {"yes": "heir", "no": "neither"}
        if said not in words:
            stop(entry, f"ancestry says {said!r} of {a} and {b}")
        return words[said]

    def is_exact(method, function, *places):
        methods = methods_of(bundle, function)
        if method not in methods:
            stop(entry, f"a lookup finds {method!r}, which is no method of function {function}")
        own = methods[method]
        return tuple(own) == places[:len(own)]

    for call in entry.get("calls", []):
        answer = call["answer"]
        if "ancestry" in call and not answer["number"]:
            answer["answer"] = related(answer["answer"], *call["ancestry"])
        elif "lookup" in call and not answer["number"]:
            if "exact" in answer:
                stop(entry, "a lookup says already whether it is exact")
            answer["exact"] = is_exact(answer["method"], *call["lookup"])


def resend(entry):
    """Eight: operation 3 is RESEND; before, it was unknown, and number 9 named a method that has it"""
    bundle = bytes.fromhex(entry["bundle"])
    now = opening(bundle)
    # Any other number is given before the code is looked at.
    if now[0] not in (0, 9):
        return
    at, length = spans(bundle)[5]
    unknown = bytearray(bundle)
    for k in range(at, at + length, 2):
        if bundle[k] == RESEND:
            unknown[k] = 255
    before = opening(bytes(unknown))
    if now == before:
        return
    if "listing" in entry or "calls" in entry:
        stop(entry, "only an opening can be answered anew for a bundle with operation 3")
    answer = entry["answer"]
    if (answer["number"], answer["values"]) != before:
        stop(entry, f"opening answers {answer!r} where operation 3 is unknown")
    answer["number"], answer["values"] = now


# The requests that change answers of vectors made before them, each with what brings such an entry to its rules.
CHANGES = {3: newest_rivals, 7: exact_match, 8: resend}


def entries(path):
    """the entries of a file, as the rules stand"""
    request = request_of(path.parent)
    for line in path.read_text().splitlines():
        entry = json.loads(line)
        for landed, change in CHANGES.items():
            if request < landed:
                change(entry)
        yield entry


def write_current(folder, out):
    """writes the files of a folder, with their entries as the rules stand, to a folder that holds nothing else"""
    paths = sorted(folder.glob("*.jsonl"))
    if not paths:
        sys.exit(f"there are no vectors in {folder}")
    out.mkdir(parents=True, exist_ok=True)
    if any(out.iterdir()):
        sys.exit(f"{out} is not empty")
    write({
        out / path.name: "".join(json.dumps(entry, separators=(",", ":"), ensure_ascii=False) + "\n" for entry in entries(path)).encode()
        for path in paths})
