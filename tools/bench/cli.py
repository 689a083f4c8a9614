#!/usr/bin/env python3
"""Times commands of `jptr` beside the same work of `jq`, and prints a table in Markdown.

    tools/bench/cli.py [--rounds N] [--only WORD] JPTR [--jq PROGRAM]

JPTR is the built program of crates/jptr. Both programs run on each file. A result is the least processor
time of all rounds, and the peak memory, which `/usr/bin/time` measures (Debian: `time`). The last two lines have the
times of `jptr get --comments` on an array of records with comments, and of `jptr get` on the same text with
spaces instead of them: once of a value, and once of the whole document with sorted keys, which is read for that.
"""
import argparse
import math
import json
import os
import subprocess
import sys
import tempfile
from multiprocessing import Process
from typing import NamedTuple

from in_text import SHAPES, make, run


class Row(NamedTuple):
    """A row of the table: its name, what makes its file, and the words of both programs."""

    name: str
    make: object
    ours: list
    jq: list


def make_lines(count, path):
    """Writes a file with a record on each line."""
    with open(path, "w", encoding="utf-8") as file:
        for number in range(count):
            value = {"id": number, "name": f"name {number}", "user": {"age": number % 90}, "tags": ["x", "y"]}
            file.write(json.dumps(value) + "\n")


def lines(path):
    """Writes 1,000,000 lines, in a process of its own, since the memory of this one counts for each program."""
    process = Process(target=make_lines, args=(1_000_000, path))
    process.start()
    process.join()
    if process.exitcode:
        sys.exit("no file of lines")


def records(count):
    """Returns what writes an array of records."""
    return lambda path: make(SHAPES["records"].document, count, path)


ROWS = [
    Row("`get`, 1 KB", records(10), ["get", "/9/name"], [".[9].name"]),
    Row("`get`, 1 MB", records(10_000), ["get", "/9999/name"], [".[9999].name"]),
    Row("`get`, 100 MB", records(1_000_000), ["get", "/999999/name"], [".[999999].name"]),
    Row("`get ''`, all of 10 MB", records(100_000), ["get", ""], ["."]),
    Row("`format --compact`, 10 MB", records(100_000), ["format", "--compact"], ["."]),
    Row("`paths`, 10 MB", records(100_000), ["paths"], ["tostream | select(length == 2)"]),
    Row("`get --lines`, 1,000,000 lines", lines, ["get", "--lines", "/user/age"], [".user.age"]),
    Row("`set --lines`, 1,000,000 lines", lines, ["set", "--lines", "/user/age", "0"], [".user.age = 0"]),
]


def memory_of(command, path):
    """Returns the peak memory in bytes of a run on a file, which does not begin as a copy of this process."""
    with tempfile.NamedTemporaryFile() as report, open(path, "rb") as given:
        words = ["/usr/bin/time", "-f", "%M", "-o", report.name, *command]
        subprocess.run(words, stdin=given, stdout=subprocess.DEVNULL, check=True)
        return 1024 * int(report.read())


def shown(result):
    """Returns a result for a cell."""
    seconds, memory = result
    time = f"{1000 * seconds:.1f} ms" if seconds < 1 else f"{seconds:.2f} s"
    return f"{time}, {memory / 2**20:.1f} MiB"


def print_comments(jptr, rounds):
    """Prints how long a text with comments takes, beside the same text with spaces instead of them."""
    record = '  {"id": 1, /* %s */ "name": "x", "tags": ["y", "z"]}, // %s\n'
    count = 100_000
    commented = "[\n" + record % ("key", "each") * count + '  {"name": "last"}\n]\n'
    bare = commented.replace("/* key */", " " * 9).replace("// each", " " * 7)
    for what, words in [("a value", [f"/{count}/name"]), ("the document", ["--sort-keys", ""])]:
        with tempfile.NamedTemporaryFile() as first, tempfile.NamedTemporaryFile() as second:
            runs = [(first, commented, ["--comments"]), (second, bare, [])]
            for file, text, _ in runs:
                file.write(text.encode())
                file.flush()
            times = [math.inf, math.inf]
            # In turn, so that both meet what else the machine does.
            for _ in range(rounds):
                for which, (file, _, flags) in enumerate(runs):
                    times[which] = min(times[which], run([jptr, "get", *flags, *words], file.name)[0])
        print(f"comments, {len(commented) / 1e6:.1f} MB, {what}: {1000 * times[0]:.1f} ms, without {1000 * times[1]:.1f} ms, {times[0] / times[1]:.2f}")


def main():
    parser = argparse.ArgumentParser(description=__doc__, formatter_class=argparse.RawDescriptionHelpFormatter)
    parser.add_argument("--rounds", type=int, default=5)
    parser.add_argument("--only", default="")
    parser.add_argument("jptr")
    parser.add_argument("--jq", default="jq")
    words = parser.parse_args()
    print("| Command | jptr | jq | time | memory |")
    print("|---|---|---|---|---|")
    for row in ROWS:
        if words.only not in row.name:
            continue
        with tempfile.NamedTemporaryFile() as file:
            row.make(file.name)
            rounds = words.rounds if os.path.getsize(file.name) < 50_000_000 else min(words.rounds, 3)
            found = {}
            for name, command in {"jptr": [words.jptr, *row.ours], "jq": [words.jq, "-c", *row.jq]}.items():
                seconds = min(run(command, file.name)[0] for _ in range(rounds))
                found[name] = seconds, memory_of(command, file.name)
        (ours, our_memory), (theirs, their_memory) = found["jptr"], found["jq"]
        ratios = f"{ours / theirs:.2f} | {our_memory / their_memory:.2f}"
        print(f"| {row.name} | {shown(found['jptr'])} | {shown(found['jq'])} | {ratios} |", flush=True)
    if words.only in "comments":
        print_comments(words.jptr, words.rounds)


if __name__ == "__main__":
    main()
