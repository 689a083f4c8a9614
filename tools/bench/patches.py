#!/usr/bin/env python3
"""Times patches beside the same changes by one call each, in one run, and prints a table in Markdown.

    tools/bench/patches.py [--rounds N] [--ours PROGRAM] [PROGRAM]

It times the program that program.py builds, or another build of it. The result of a case is its minimum over all
rounds, for one operation. Where Python has `jsonpatch`, it is timed too, on 1,000 moves and removals in one object of
100,000 records. With PROGRAM, that of crates/jsonptr_run, it also prints the time and the peak memory of a patch of three
operations and of a deletion on a document of 10 MB.
"""
import argparse
import json
import os
import subprocess
import tempfile
import time

from program import add_ours, built
from speed import least_of, shown, times_of

SIZES = (10, 1000, 100_000)
SINGLE = [("object", "add"), ("object", "replace"), ("object", "remove"), ("array", "add"), ("array", "replace"),
          ("object", "test"), ("array", "test")]
TEN = ["replace a name", "add", "add a member", "add, then an error"]
WAITING = ["move", "remove", "move, then an error", "remove, then an error"]


def rows():
    """Returns each row of the table: what it times, and the words of its case after `apply` or `calls`."""
    for kind, change in SINGLE:
        for records in SIZES:
            yield f"one `{change}`, {kind} of {records:,}", (kind, change, records, min(records, 1000), 1)
    for change in TEN:
        for records in SIZES[1:]:
            yield f"ten: {change}, object of {records:,}", ("object", change, records, 10, 10)
    for change in WAITING:
        for records in (100, 10_000, 100_000):
            for operations in (1, 2, 10):
                patches = min(records, 1000) // (2 * operations)
                yield f"{operations}: {change}, object of {records:,}", ("object", change, records, patches, operations)


def long_rows():
    """Returns the rows that are timed beside Python's jsonpatch, in the same form."""
    for change in ("move", "remove"):
        yield f"1,000: {change}, object of 100,000", ("object", change, 100_000, 1, 1000)


def lines_of():
    """Returns the lines of the benchmark's input."""
    for title, words in [*rows(), *long_rows()]:
        for maker in ("apply", "calls"):
            yield "\t".join([f"{title}, {maker}", "patch", maker, *map(str, words)])


def seconds_and_memory(command, path):
    """Returns the seconds and the peak memory in MiB of a run on a file."""
    with open(path, "rb") as given:
        start = time.perf_counter()
        run = subprocess.Popen(command, stdin=given, stdout=subprocess.DEVNULL)
        _, status, usage = os.wait4(run.pid, 0)
        if status:
            raise subprocess.CalledProcessError(status, command)
        return time.perf_counter() - start, usage.ru_maxrss / 1024


def python_times(rounds):
    """Returns the picoseconds of one operation of Python's jsonpatch for each of the long rows, or nothing without it."""
    try:
        import jsonpatch
    except ImportError:
        return {}
    found = {}
    for title, (_, change, records, _, operations) in long_rows():
        names = [f"/k{number * (records // operations):06}" for number in range(operations)]
        moves = [{"op": "move", "from": name, "path": f"{name}x0"} for name in names]
        removals = [{"op": "remove", "path": name} for name in names]
        patch = jsonpatch.JsonPatch(moves if change == "move" else removals)
        for _ in range(rounds):
            document = {f"k{number:06}": {"id": number, "name": "some name"} for number in range(records)}
            start = time.perf_counter()
            patch.apply(document, in_place=True)
            picoseconds = int(1e12 * (time.perf_counter() - start) / operations)
            found[title] = min(picoseconds, found.get(title, picoseconds))
    return found


def time_program(program, rounds):
    """Prints the time and the peak memory of the program on a document of 10 MB."""
    document = [{"id": number, "name": f"name {number}", "tags": ["x", "y"], "a/b": {"m~n": number}} for number in range(125_000)]
    last = "/124999/name"
    with tempfile.NamedTemporaryFile("w", suffix=".json") as file:
        json.dump(document, file)
        file.flush()
        for words in (["patch", "add", "/5/x", "1", "remove", "/100/tags/0", "replace", last, '"z"'], ["delete", last]):
            runs = [seconds_and_memory([program, *words], file.name) for _ in range(3 * rounds)]
            seconds, memory = min(runs)
            print(f"{words[0]} on 10 MB: {1000 * seconds:.0f} ms, {memory:.0f} MiB")


def main():
    parser = argparse.ArgumentParser(description=__doc__, formatter_class=argparse.RawDescriptionHelpFormatter)
    parser.add_argument("--rounds", type=int, default=3)
    add_ours(parser)
    parser.add_argument("program", nargs="?")
    words = parser.parse_args()
    timed = words.ours or built()
    lines, least = "\n".join(lines_of()) + "\n", {}
    for _ in range(words.rounds):
        least = least_of(least, times_of([timed, "0"], lines))
    print("| Operation | in a patch | by itself | ratio |")
    print("|---|---|---|---|")
    for title, _ in rows():
        ours, plain = least[f"{title}, apply"], least[f"{title}, calls"]
        print(f"| {title} | {shown(ours)} | {shown(plain)} | {ours / plain:.2f} |")
    theirs = python_times(words.rounds)
    print("| Operation | in a patch | by itself | in Python's jsonpatch | ratio to it |")
    print("|---|---|---|---|---|")
    for title, _ in long_rows():
        ours, plain = least[f"{title}, apply"], least[f"{title}, calls"]
        python = f"{shown(theirs[title])} | {ours / theirs[title]:.2f}" if theirs else " | "
        print(f"| {title} | {shown(ours)} | {shown(plain)} | {python} |")
    if words.program:
        time_program(words.program, words.rounds)


if __name__ == "__main__":
    main()
