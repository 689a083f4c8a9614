#!/usr/bin/env python3
"""Times each call at growing sizes, and fails where its time grows faster than its documentation says.

    tools/bench/grows.py [--rounds N] [--ours PROGRAM]

It times the program that program.py builds, or another build of it. A call is timed at 1, 10, 100, 1000 and 10,000
tokens or members. The exponent is the slope of the logarithm of the time from the third size on: 0 for constant time,
1 for linear time. Logarithmic time counts as constant. The result of a size is its minimum over all rounds.
"""
import argparse
import json
import math
import os
import re
import sys

from cases import plain
from program import add_ours, built
from speed import least_of, shown, times_of

SOURCES = os.path.join(os.path.dirname(os.path.abspath(__file__)), "../../crates/jsonptr/src")
SIZES = (1, 10, 100, 1000, 10_000)
# Memory gets slower as more of it is used: a constant call may seem to grow this fast. A wrong exponent differs by 1.
TOLERANCE = 0.45
LINEAR = "linear in the length of"
CONSTANT = ""


def half(pointer):
    """Returns the first half of the tokens of a pointer, at least one."""
    tokens = pointer.split("/")[1:]
    return "".join(f"/{token}" for token in tokens[: max(1, len(tokens) // 2)])


def last_half(pointer):
    """Returns the last half of the tokens of a pointer, at least one."""
    tokens = pointer.split("/")[1:]
    return "".join(f"/{token}" for token in tokens[len(tokens) // 2 :])


def members(count):
    """Returns the text of an object of this many members."""
    return json.dumps({f"key{number}": number for number in range(count)}, separators=(",", ":"))


def elements(count):
    """Returns the text of an array of this many elements."""
    return json.dumps([*range(count)], separators=(",", ":"))


def on(call, text_of, pointer_of):
    """Returns the words of a call on a document of a size."""
    return lambda size: (call, "json", text_of(size), pointer_of(size), "1", "16")


def changes(kind, change):
    """Returns the words of many such calls on one document of a size."""
    return lambda size: ("patch", "calls", kind, change, str(size), str(min(size, 1000)), "1")


def calls():
    """Yields each call: its name, its exponent, the file and the words of its documented cost, and its words at a size."""
    def text(size):
        return plain(size)

    for call, exponent, file, function, cost, words in [
        ("parse", 1, "pointer.rt", "parse", "linear in its length", lambda n: ("parse", text(n))),
        ("front", 0, "pointer.rt", "front", "length of the first token", lambda n: ("front", text(n))),
        ("back", 0, "pointer.rt", "back", "length of the last token", lambda n: ("back", text(n))),
        ("parent", 0, "pointer.rt", "parent", "length of the last token", lambda n: ("parent", text(n))),
        ("count", 1, "pointer/tokens.rt", "count", LINEAR, lambda n: ("count", text(n))),
        ("get", 1, "pointer/slice.rt", "get", LINEAR, lambda n: ("get", text(n), str(n // 2))),
        ("get of a range", 1, "pointer/slice.rt", "get", LINEAR, lambda n: ("range", text(n), str(n // 4), str(n // 2))),
        ("split_at_offset", 0, "pointer.rt", "split_at_offset", CONSTANT, lambda n: ("split_at_offset", text(n), str(len(half(text(n))) if n > 1 else 0))),
        ("starts_with", 1, "pointer.rt", "starts_with", LINEAR, lambda n: ("starts_with", text(n), half(text(n)))),
        ("ends_with", 1, "pointer.rt", "ends_with", LINEAR, lambda n: ("ends_with", text(n), last_half(text(n)))),
        ("strip_prefix", 1, "pointer.rt", "strip_prefix", LINEAR, lambda n: ("strip_prefix", text(n), half(text(n)))),
        ("strip_suffix", 1, "pointer.rt", "strip_suffix", LINEAR, lambda n: ("strip_suffix", text(n), last_half(text(n)))),
        ("intersection", 1, "pointer.rt", "intersection", LINEAR, lambda n: ("intersection", text(n), half(text(n)) + "/x")),
        ("concat", 1, "pointer.rt", "concat", LINEAR, lambda n: ("concat", text(n), half(text(n)))),
        ("to_buf", 1, "pointer.rt", "to_buf", LINEAR, lambda n: ("to_buf", text(n))),
        ("push_back", 0, "pointer/buf.rt", "push_back", "length of the token", lambda n: ("edit", "push_back", text(n), "abcdefg", "64")),
        ("push_front", 1, "pointer/buf.rt", "push_front", "linear in its length", lambda n: ("edit", "push_front", text(n), "abcdefg", "64")),
        ("pop_back", 0, "pointer/buf.rt", "pop_back", "length of the last token", lambda n: ("edit", "pop_back", text(n), "", str(min(n, 64)))),
        ("pop_front", 1, "pointer/buf.rt", "pop_front", "linear in its length", lambda n: ("edit", "pop_front", text(n), "", str(min(n, 64)))),
        ("replace", 1, "pointer/buf.rt", "replace", LINEAR, lambda n: ("edit", "replace", text(n), "abcdefg", "64")),
        ("append of 8 tokens", 0, "pointer/buf.rt", "append", "length of `other`", lambda n: ("edit", "append", text(n), plain(8), "64")),
        ("resolve in an object", 0, "resolve.rt", "resolve", "logarithmic time for each object", on("resolve", members, lambda n: f"/key{n // 2}")),
        ("resolve in an array", 0, "resolve.rt", "resolve", "length of the pointer", on("resolve", elements, lambda n: f"/{n // 2}")),
        ("resolve_mut in an object", 0, "resolve.rt", "resolve_mut", "logarithmic time for each object", on("resolve_mut", members, lambda n: f"/key{n // 2}")),
        ("assign a new member", 0, "assign.rt", "assign", "logarithmic time for each object", changes("object", "add")),
        ("assign after the last element", 0, "assign.rt", "assign", "length of the pointer", changes("array", "add")),
        ("delete from an object", 0, "delete.rt", "delete", "logarithmic time for each object", changes("object", "remove")),
        ("delete from an array", 1, "delete.rt", "delete", "moves the elements after it", on("delete", elements, lambda n: "/0")),
    ]:
        yield call, exponent, file, function, cost, words


def documentation(file, function):
    """Returns the documentation of the public function with this name in a file of `jsonptr`."""
    with open(os.path.join(SOURCES, file), encoding="utf-8") as opened:
        text = opened.read()
    found = re.findall(r"((?:^ *///.*\n)+)(?:^ *#.*\n)*^ *(?:pub )?fn " + function + r"\b", text, re.MULTILINE)
    return " ".join(re.sub(r"\s*\n\s*///\s*", " ", docs) for docs in found)


def exponent_of(times):
    """Returns the slope of the logarithm of the time over that of the size, from the third size on."""
    points = [(math.log(size), math.log(time)) for size, time in zip(SIZES, times)][2:]
    mean_x, mean_y = (sum(it) / len(points) for it in zip(*points))
    return sum((x - mean_x) * (y - mean_y) for x, y in points) / sum((x - mean_x) ** 2 for x, _ in points)


def main():
    parser = argparse.ArgumentParser(description=__doc__, formatter_class=argparse.RawDescriptionHelpFormatter)
    parser.add_argument("--rounds", type=int, default=3)
    add_ours(parser)
    words = parser.parse_args()
    timed = words.ours or built()
    undocumented = [call for call, _, file, function, cost, _ in calls() if cost not in documentation(file, function)]
    lines = "".join(
        "\t".join([f"{call}, {size}", *words_at(size)]) + "\n" for call, *_, words_at in calls() for size in SIZES
    )
    least = {}
    for _ in range(words.rounds):
        least = least_of(least, times_of([timed, "0"], lines))
    steep = []
    for call, exponent, *_ in calls():
        times = [max(1, least[f"{call}, {size}"]) for size in SIZES]
        found = exponent_of(times)
        print(f"{call:32}{found:6.2f} of {exponent}  {'  '.join(shown(time) for time in times)}")
        if found > exponent + TOLERANCE:
            steep.append(call)
    if undocumented or steep:
        sys.exit(f"grows: cost not documented: {undocumented}; grows faster than documented: {steep}")
    print(f"grows: {len(list(calls()))} calls grow as their documentation says")


if __name__ == "__main__":
    main()
