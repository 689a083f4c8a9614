#!/usr/bin/env python3
"""Times reading and writing patch documents beside Python's `jsonpatch`, in one run, and prints a table in Markdown.

    tools/bench/patch_documents.py [--rounds N] [--ours PROGRAM]

It times the program that program.py builds, or another build of it. `jsonpatch` is the module of Debian's
`python3-jsonpatch`. The result of a case is its minimum over all rounds, for one document.
"""
import argparse
import json
import time

import jsonpatch

from program import add_ours, built
from speed import least_of, shown, times_of

SIZES = (10, 1000)
CALLS = (
    ("text", "from text", "`Value::from_str`, `read_patch`", "`JsonPatch.from_string`"),
    ("read", "from a document", "`read_patch`", "`JsonPatch(list)`"),
    ("write", "to a document", "`write_patch`", ""),
)


def operation(number):
    """Returns the operation with this number: the six operations take turns."""
    path, other = f"/records/{number}/name", f"/records/{number}/tags/0"
    return (
        {"op": "test", "path": path, "value": f"name {number}"},
        {"op": "replace", "path": path, "value": "another name"},
        {"op": "add", "path": other, "value": {"a/b": [number, None]}},
        {"op": "copy", "from": other, "path": f"/copies/{number}"},
        {"op": "move", "from": path, "path": f"/old~0names/{number}"},
        {"op": "remove", "path": other},
    )[number % 6]


def document(size):
    """Returns the text of a patch document with so many operations."""
    return json.dumps([operation(number) for number in range(size)], separators=(",", ":"))


def lines_of():
    """Returns the lines of the benchmark's input."""
    for size in SIZES:
        for call, *_ in CALLS:
            yield f"{call} {size}\tpatch document\t{call}\t{document(size)}"


def picoseconds_of(call, argument):
    """Returns the minimum time of a Python call over eleven samples."""
    turns = max(1, 20_000 // len(argument))
    least = None
    for _ in range(11):
        start = time.perf_counter_ns()
        for _ in range(turns):
            call(argument)
        spent = 1000 * (time.perf_counter_ns() - start) // turns
        least = spent if least is None else min(least, spent)
    return least


def times_in_python():
    """Returns the time of each case of Python's library, by its name."""
    found = {}
    for size in SIZES:
        text = document(size)
        found[f"text {size}"] = picoseconds_of(jsonpatch.JsonPatch.from_string, text)
        found[f"read {size}"] = picoseconds_of(jsonpatch.JsonPatch, json.loads(text))
    return found


def main():
    parser = argparse.ArgumentParser(description=__doc__, formatter_class=argparse.RawDescriptionHelpFormatter)
    parser.add_argument("--rounds", type=int, default=3)
    add_ours(parser)
    words = parser.parse_args()
    timed = words.ours or built()
    lines, ours, theirs = "\n".join(lines_of()) + "\n", {}, {}
    for _ in range(words.rounds):
        ours = least_of(ours, times_of([timed, "0"], lines))
        theirs = least_of(theirs, times_in_python())
    print("| Patch document | calls | time | Python's calls | time | ratio |")
    print("|---|---|---|---|---|---|")
    for call, what, our_calls, their_calls in CALLS:
        for size in SIZES:
            name = f"{call} {size}"
            their = shown(theirs[name]) if name in theirs else ""
            ratio = f"{ours[name] / theirs[name]:.3f}" if name in theirs else ""
            print(f"| {what}, {size:,} operations | {our_calls} | {shown(ours[name])} | {their_calls} | {their} | {ratio} |")


if __name__ == "__main__":
    main()
