#!/usr/bin/env python3
"""Compares `to_string` and `copy` of jsonptr_value with the kit's calls, which recurse, and prints a table in Markdown.

    tools/bench/values.py [--rounds N] [--ours PROGRAM]

It times the program that program.py builds, or another build of it, on shallow documents. The two calls of a row run in
turn, and each has the minimum over all rounds.
"""
import argparse
import json
import subprocess

from documents import records, settings
from program import add_ours, built
from speed import shown

CALLS = (("print", "kit print"), ("copy", "kit clone"))


def documents():
    """Yields the name and the value of each row."""
    yield "an object of 4 members", {"a": 1, "b": [1, 2], "c": "x", "d": {}}
    yield "a settings file", settings()
    yield "10,000 records", records()
    yield "an array of 100,000 whole numbers", list(range(100_000))
    yield "an array of 10,000 floats", [number + 0.5 for number in range(10_000)]
    yield "an array of 10,000 strings", [f"/usr/share/{number}" for number in range(10_000)]
    yield "an object of 10,000 members", {f"key{number}": None for number in range(10_000)}


def least_of(program, value, rounds):
    """Returns the picoseconds of each call on a value."""
    text = json.dumps(value, separators=(",", ":"))
    lines = "".join(f"{call}\tvalue\t{call}\t{text}\n" for pair in CALLS for call in pair)
    least = {}
    for _ in range(rounds):
        ran = subprocess.run([program, "0"], input=lines, stdout=subprocess.PIPE, encoding="utf-8", check=True)
        for name, time in (line.split("\t") for line in ran.stdout.splitlines()):
            least[name] = min(int(time), least.get(name, int(time)))
    return least


def main():
    parser = argparse.ArgumentParser(description=__doc__, formatter_class=argparse.RawDescriptionHelpFormatter)
    parser.add_argument("--rounds", type=int, default=5)
    add_ours(parser)
    words = parser.parse_args()
    timed = words.ours or built()
    print("| Value | `to_string` | kit | ratio | `copy` | kit | ratio |\n|---|---|---|---|---|---|---|")
    for title, value in documents():
        least = least_of(timed, value, words.rounds)
        cells = [f"{shown(least[ours])} | {shown(least[kits])} | {least[ours] / least[kits]:.2f}" for ours, kits in CALLS]
        print(f"| {title} | {' | '.join(cells)} |", flush=True)


if __name__ == "__main__":
    main()
