#!/usr/bin/env python3
"""Times edits in a text beside reading, changing and printing the document, and beside `jq`, and prints tables in Markdown.

    tools/bench/edits.py [--rounds N] [--only WORD] OURS [--jq PROGRAM]
    tools/bench/edits.py [--only WORD] OURS --before PROGRAM

OURS is the built program of crates/jsonptr_tool_calls. The ways run in turn on each file. A time is the processor time of
one edit: the least of all rounds, without starting the program and reading the file. That of `jq` is of a whole run. Memory
is the greatest of a run that makes one edit. The edits in a text share one `Buffers`; the column "with its own buffers"
has the time of the first edit where each makes its own.

With --before, the same program of an earlier commit, it prints the instructions of each edit in a text of 1 KB, before and
now, as `valgrind` counts them.
"""
import argparse
import json
import os
import re
import subprocess
import sys
import tempfile
from typing import NamedTuple

from in_text import deep, jq_path, make, record, run


class Shape(NamedTuple):
    """What a file has, how its document is made from a count, and pointers into it.

    They lead to a value near the start, to one near the end, to a new child near the end, and to a child in the middle.
    """

    name: str
    document: object
    first: object
    last: object
    new: object
    middle: object


DOWN = "/0/n" * 30
SHAPES = {
    "records": Shape(
        "an array of {:,} records", lambda n: [record(it) for it in range(n)],
        lambda n: "/0/name", lambda n: f"/{n - 1}/name", lambda n: f"/{n - 1}/new", lambda n: f"/{n // 2}",
    ),
    "object": Shape(
        "one object of {:,} keys", lambda n: {f"key{it}": record(it) for it in range(n)},
        lambda n: "/key0/name", lambda n: f"/key{n - 1}/name", lambda n: "/new", lambda n: f"/key{n // 2}",
    ),
    "deep": Shape(
        "{:,} records 60 levels down", lambda n: [deep(it) for it in range(n)],
        lambda n: f"/0{DOWN}/name", lambda n: f"/{n - 1}{DOWN}/name", lambda n: f"/{n - 1}{DOWN}/new", lambda n: f"/{n // 2}",
    ),
    "floats": Shape(
        "{:,} pairs of floats", lambda n: [[it * 0.37, it * 1.001e-3] for it in range(n)],
        lambda n: "/0/1", lambda n: f"/{n - 1}/1", lambda n: f"/{n - 1}/-", lambda n: f"/{n // 2}",
    ),
    "integers": Shape(
        "{:,} pairs of integers", lambda n: [[it * 37, it * 1001] for it in range(n)],
        lambda n: "/0/1", lambda n: f"/{n - 1}/1", lambda n: f"/{n - 1}/-", lambda n: f"/{n // 2}",
    ),
}

# Each file: its shape, how many items it has, its size in words, and how many edits a run makes.
FILES = [
    ("records", 10, "1 KB", 10_000), ("records", 10_000, "1 MB", 20), ("records", 100_000, "10 MB", 2),
    ("object", 10, "1 KB", 10_000), ("object", 10_000, "1 MB", 20), ("object", 100_000, "10 MB", 2),
    ("deep", 2, "1 KB", 10_000), ("deep", 2_800, "1 MB", 20), ("deep", 28_000, "10 MB", 2),
    ("floats", 30, "1 KB", 10_000), ("floats", 37_000, "1 MB", 20), ("floats", 370_000, "10 MB", 2),
    ("integers", 60, "1 KB", 10_000), ("integers", 60_000, "1 MB", 20), ("integers", 600_000, "10 MB", 2),
]
EDITS = ["replace near the end", "replace near the start", "add a child", "delete a child", "apply one operation"]


def edit_of(name, shape, count):
    """Returns the command, the pointer and the argument of an edit."""
    if name == "replace near the end":
        return "assign", shape.last(count), "7"
    if name == "replace near the start":
        return "assign", shape.first(count), "7"
    if name == "add a child":
        return "assign", shape.new(count), "7"
    if name == "delete a child":
        return "delete", shape.middle(count), ""
    return "apply", "", json.dumps([{"op": "replace", "path": shape.last(count), "value": 7}])


def least(commands, path, rounds):
    """Returns the least processor time and the greatest memory of each command on a file."""
    found = {}
    for _ in range(rounds):
        for name, command in commands.items():
            seconds, memory = run(command, path)
            before = found.get(name, (seconds, memory))
            found[name] = min(before[0], seconds), max(before[1], memory)
    return found


def measured(words, kind, count, turns, path):
    """Returns the time of each edit in both ways, and the memory in both ways of an edit near the end."""
    shape, times = SHAPES[kind], {}
    for name in EDITS:
        edit = edit_of(name, shape, count)
        ways = ("text", "document", "own") if name == EDITS[0] else ("text", "document")
        commands = {(way, number): [words.ours, way, *edit, str(number)] for way in ways for number in (0, turns)}
        try:
            found = least(commands, path, words.rounds)
        except subprocess.CalledProcessError:
            continue
        times[name] = [(found[way, turns][0] - found[way, 0][0]) / turns for way in ways]
    edit = edit_of(EDITS[0], shape, count)
    commands = {way: [words.ours, way, *edit, "1"] for way in ("text", "document")}
    if words.jq:
        commands["jq"] = [words.jq, "-c", jq_path(edit[1]) + " = 7"]
    return times, least(commands, path, min(words.rounds, 3))


def instructions(command, path):
    """Returns how many instructions a run on a file takes."""
    with open(path, "rb") as given:
        counting = ["valgrind", "--tool=callgrind", "--callgrind-out-file=/dev/null", *command]
        done = subprocess.run(counting, stdin=given, stdout=subprocess.DEVNULL, stderr=subprocess.PIPE, text=True, check=True)
    return int(re.search(r"refs: +([\d,]+)", done.stderr)[1].replace(",", ""))


def instructions_of_edit(program, edit, path):
    """Returns how many instructions one edit takes, without starting the program and reading the file."""
    few, many = (instructions([program, "text", *edit, str(turns)], path) for turns in (10, 110))
    return (many - few) / 100


def compare(words):
    """Prints the instructions of each edit in the texts of 1 KB, before and now."""
    print("| Text | " + " | ".join(EDITS) + " |")
    print("|---" * (len(EDITS) + 1) + "|")
    for kind, count, size_name, _ in FILES:
        if size_name != "1 KB" or (words.only and words.only not in kind):
            continue
        with tempfile.NamedTemporaryFile(suffix=".json") as file:
            make(SHAPES[kind].document, count, file.name)
            cells = []
            for name in EDITS:
                edit = edit_of(name, SHAPES[kind], count)
                before, now = (instructions_of_edit(it, edit, file.name) for it in (words.before, words.ours))
                cells.append(f"{before:,.0f}, {now:,.0f}: {now / before:.3f}")
        print(f"| {SHAPES[kind].name.format(count)} | " + " | ".join(cells) + " |")
        sys.stdout.flush()


def shown(seconds):
    """Returns a time with its unit."""
    return f"{1e6 * seconds:.3g} µs" if seconds < 1e-3 else f"{1e3 * seconds:.3g} ms"


def cell(times):
    """Returns both times of an edit and their ratio."""
    if times is None:
        return ""
    ours, document, *_ = times
    return f"{shown(ours)} / {shown(document)} = {ours / document:.2f}"


def memory_of(found, size):
    """Returns the cells of the memory in each way, and of the time of `jq`."""
    cells = [f"{found[way][1] / 2**20:.0f} MiB" if size > 4_000_000 else "" for way in ("text", "document")]
    if "jq" in found:
        seconds, memory = found["jq"]
        cells.append(shown(seconds) + (f", {memory / 2**20:.0f} MiB" if size > 4_000_000 else ""))
    return cells


def main():
    parser = argparse.ArgumentParser(description=__doc__, formatter_class=argparse.RawDescriptionHelpFormatter)
    parser.add_argument("--rounds", type=int, default=7)
    parser.add_argument("--only")
    parser.add_argument("ours")
    parser.add_argument("--jq")
    parser.add_argument("--before")
    words = parser.parse_args()
    if words.before:
        return compare(words)
    names = ["Text", "Size", *EDITS, "with its own buffers", "memory in text", "memory of the document", *(["`jq`"] if words.jq else [])]
    print("| " + " | ".join(names) + " |")
    print("|---" * len(names) + "|")
    for kind, count, size_name, turns in FILES:
        if words.only and words.only not in f"{kind} {size_name}":
            continue
        with tempfile.NamedTemporaryFile(suffix=".json") as file:
            make(SHAPES[kind].document, count, file.name)
            times, memory = measured(words, kind, count, turns, file.name)
            own = times.get(EDITS[0], ["", "", ""])[2]
            cells = [cell(times.get(name)) for name in EDITS] + [own and shown(own)] + memory_of(memory, os.path.getsize(file.name))
        print(f"| {SHAPES[kind].name.format(count)} | {size_name} | " + " | ".join(cells) + " |")
        sys.stdout.flush()


if __name__ == "__main__":
    main()
