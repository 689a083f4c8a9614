#!/usr/bin/env python3
"""Times `resolve` of the program beside programs that read the whole document, and prints a table in Markdown.

    tools/bench/in_text.py [--rounds N] [--only WORD] OURS [--before PROGRAM] [--original PROGRAM] [--jq PROGRAM]

OURS is the built program of crates/jsonptr_run, PROGRAM of --before the same program of an earlier commit, and that of
--original the built program of tools/bench/original. The programs run in turn on each file. A result is the least
processor time of all rounds, and the greatest peak memory.
"""
import argparse
import json
import multiprocessing
import os
import subprocess
import sys
import tempfile
from typing import NamedTuple


class Shape(NamedTuple):
    """What a file has, how its document is made from a count, and the pointer to a value near its end."""

    name: str
    document: object
    pointer: object


def record(number):
    """Returns a record of an array or of an object."""
    return {"id": number, "name": f"name {number}", "tags": ["x", "y"], "a/b": {"m~n": number}, "is_new": number % 2 == 0}


def deep(number):
    """Returns a record 60 levels down."""
    at = record(number)
    for level in range(60):
        at = [at] if level % 2 else {"n": at}
    return at


SHAPES = {
    "records": Shape("an array of records", lambda n: [record(it) for it in range(n)], lambda n: f"/{n - 1}/name"),
    "object": Shape(
        "one object", lambda n: {f"key{it}": record(it) for it in range(n)}, lambda n: f"/key{n - 1}/name"
    ),
    "deep": Shape("records 60 levels down", lambda n: [deep(it) for it in range(n)], lambda n: f"/{n - 1}" + "/0/n" * 30 + "/name"),
    "numbers": Shape("pairs of floats", lambda n: [[it * 0.37, it * 1.001e-3] for it in range(n)], lambda n: f"/{n - 1}/1"),
    "found": Shape("an array of records, all of it found", lambda n: {"all": [record(it) for it in range(n)]}, lambda n: "/all"),
}

# Each file: its shape, how many items it has, and its size in words.
FILES = [
    ("records", 10, "1 KB"), ("records", 10_000, "1 MB"), ("records", 100_000, "10 MB"), ("records", 1_000_000, "100 MB"),
    ("object", 10_000, "1 MB"), ("object", 100_000, "10 MB"), ("deep", 14_000, "5 MB"), ("numbers", 260_000, "7 MB"),
    ("found", 100_000, "10 MB"),
]


def jq_path(pointer):
    """Returns the filter of jq that a pointer without escapes is."""
    return "." + "".join(f"[{it}]" if it.isdigit() else f"[{json.dumps(it)}]" for it in pointer.split("/")[1:])


def run(command, path):
    """Returns the processor time in seconds and the peak memory in bytes of a run on a file."""
    with open(path, "rb") as given:
        process = subprocess.Popen(command, stdin=given, stdout=subprocess.DEVNULL)
        _, status, usage = os.wait4(process.pid, 0)
    if status:
        raise subprocess.CalledProcessError(status, command)
    return usage.ru_utime + usage.ru_stime, usage.ru_maxrss * 1024


def write(document, count, path):
    """Writes the document that is made from a count."""
    with open(path, "w", encoding="utf-8") as file:
        json.dump(document(count), file)


def make(document, count, path):
    """Writes the document of a file in a process of its own, since the memory of this one counts for each program."""
    process = multiprocessing.Process(target=write, args=(document, count, path))
    process.start()
    process.join()
    if process.exitcode:
        sys.exit(f"no file of {count} items")


def measured(programs, path, rounds):
    """Returns the least time and the greatest memory of each program on a file."""
    found = {}
    for _ in range(rounds):
        for name, command in programs.items():
            seconds, memory = run(command, path)
            least, most = found.get(name, (seconds, memory))
            found[name] = min(least, seconds), max(most, memory)
    return found


def shown(result, size):
    """Returns a result for a cell: milliseconds, and of large files MiB and bytes of memory for each byte of the text.

    Below some 16 MiB the memory is that of this program, of which each run begins as a copy.
    """
    seconds, memory = result
    space = f", {memory / 2**20:.0f} MiB ({memory / size:.1f})" if size > 4_000_000 else ""
    return f"{1000 * seconds:.1f} ms{space}"


def rows(words):
    """Prints a row for each file."""
    names = ["ours", *(name for name in ("before", "original", "jq") if getattr(words, name))]
    print("| Text | size | " + " | ".join(names) + " |")
    print("|---|---|" + "---|" * len(names))
    for kind, count, size_name in FILES:
        if words.only and words.only not in f"{kind} {size_name}":
            continue
        shape = SHAPES[kind]
        with tempfile.NamedTemporaryFile(suffix=".json") as file:
            make(shape.document, count, file.name)
            size, pointer = os.path.getsize(file.name), shape.pointer(count)
            programs = {name: [getattr(words, name), "resolve", pointer] for name in names}
            if words.jq:
                programs["jq"] = [words.jq, "-c", jq_path(pointer)]
            rounds = words.rounds if size < 50_000_000 else min(words.rounds, 3)
            found = measured(programs, file.name, rounds)
        cells = [shown(found[name], size) for name in names]
        print(f"| {shape.name}, {count:,} | {size_name} | " + " | ".join(cells) + " |")
        sys.stdout.flush()


def main():
    parser = argparse.ArgumentParser(description=__doc__, formatter_class=argparse.RawDescriptionHelpFormatter)
    parser.add_argument("--rounds", type=int, default=7)
    parser.add_argument("--only")
    parser.add_argument("ours")
    parser.add_argument("--before")
    parser.add_argument("--original")
    parser.add_argument("--jq")
    rows(parser.parse_args())


if __name__ == "__main__":
    main()
