#!/usr/bin/env python3
"""Times patches in a text by `jptr` beside Python's program `jsonpatch`, and prints a table in Markdown.

    tools/bench/long_patches.py [--rounds N] [--only WORD] JPTR [--jsonpatch PROGRAM]

JPTR is the built program of crates/jptr. The document is an array of records, two spaces a level. Each patch replaces a
member of as many records as it has operations, in a random order. `relayout` gets the document that the patch makes,
printed by Python in one line. A result is the least processor time of all rounds, with the start of each program.
"""
import argparse
import copy
import json
import os
import random
import subprocess
import sys
import tempfile

from in_text import SHAPES

COUNTS = (1, 16, 17, 100, 1_000, 10_000)
# The numbers of records, and what a row says of the document.
SIZES = {10: "1 KB", 100: "10 KB", 10_000: "1 MB"}


def documents(records, operations):
    """Returns a document, a patch of it, and the new document."""
    old = SHAPES["records"].document(records)
    patch, new = [], copy.deepcopy(old)
    for number in random.Random(records).sample(range(records), operations):
        patch.append({"op": "replace", "path": f"/{number}/name", "value": f"other {number}"})
        new[number]["name"] = f"other {number}"
    return old, patch, new


def seconds_of(command):
    """Returns the processor time of a run, and what it printed."""
    process = subprocess.Popen(command, stdout=subprocess.PIPE)
    text = process.stdout.read()
    _, status, usage = os.wait4(process.pid, 0)
    if status:
        raise subprocess.CalledProcessError(status, command)
    return usage.ru_utime + usage.ru_stime, text


def least(command, new, rounds):
    """Returns the least processor time of the runs, each of which must print the new document."""
    found = []
    for _ in range(rounds):
        seconds, text = seconds_of(command)
        if json.loads(text) != new:
            sys.exit(f"{command} printed another document")
        found.append(seconds)
    return min(found)


def write(folder, name, text):
    """Writes a file, and returns its path."""
    path = f"{folder}/{name}"
    with open(path, "w", encoding="utf-8") as file:
        file.write(text)
    return path


def main():
    parser = argparse.ArgumentParser(description=__doc__, formatter_class=argparse.RawDescriptionHelpFormatter)
    parser.add_argument("--rounds", type=int, default=3)
    parser.add_argument("--only", default="")
    parser.add_argument("jptr")
    parser.add_argument("--jsonpatch", default="jsonpatch")
    words = parser.parse_args()
    print("| Document | operations | `jptr patch` | `jsonpatch` | ratio | `jptr relayout` |")
    print("|---|---|---|---|---|---|")
    for records, size in SIZES.items():
        for count in COUNTS:
            if count > records or words.only not in f"{size}, {count}":
                continue
            old, patch, new = documents(records, count)
            with tempfile.TemporaryDirectory() as folder:
                path = write(folder, "old.json", json.dumps(old, indent=2) + "\n")
                operations = write(folder, "patch.json", json.dumps(patch))
                other = write(folder, "new.json", json.dumps(new))
                ours = least([words.jptr, "patch", operations, path], new, words.rounds)
                theirs = least([words.jsonpatch, path, operations], new, words.rounds)
                relaid = least([words.jptr, "relayout", path, other], new, words.rounds)
            times = f"{1000 * ours:.0f} ms | {1000 * theirs:.0f} ms | {ours / theirs:.2f} | {1000 * relaid:.0f} ms"
            print(f"| {size} | {count:,} | {times} |", flush=True)


if __name__ == "__main__":
    main()
