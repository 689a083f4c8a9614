#!/usr/bin/env python3
"""Times this library and the Rust crate in one run, and prints the times and their ratio.

    tools/bench/speed.py [--rounds N] [--only WORD] [--save] [--ours PROGRAM] THEIRS [PROGRAM]

It times the program that program.py builds, or another build of it. THEIRS is the built program of
tools/bench/original, PROGRAM that of crates/jsonptr_run. Each program runs in turn. The result of a case is its
minimum over all rounds. With --save the times are written to tools/bench/results.tsv, in picoseconds, from which
chart.py makes what docs/SPEED.md shows.
"""
import argparse
import json
import os
import subprocess
import tempfile
import time

from cases import cases
from program import add_ours, built

RESULTS = os.path.join(os.path.dirname(os.path.abspath(__file__)), "results.tsv")


def read_results():
    """Returns the saved times of each case, here and of the Rust crate."""
    with open(RESULTS, encoding="utf-8") as file:
        rows = [row.rstrip("\n").split("\t") for row in file][1:]
    return {case: (int(ours), int(theirs)) for case, ours, theirs in rows}


def save(ours, theirs):
    """Saves the times of each case."""
    with open(RESULTS, "w", encoding="utf-8") as file:
        file.write("case\there\trust crate\n")
        file.writelines(f"{case}\t{least}\t{theirs[case]}\n" for case, least in ours.items())


def times_of(command, lines):
    """Runs a program on the cases, and returns the picoseconds of each by its name."""
    ran = subprocess.run(command, input=lines, stdout=subprocess.PIPE, encoding="utf-8", check=True)
    return {name: int(least) for name, least in (it.split("\t") for it in ran.stdout.splitlines())}


def least_of(old, new):
    """Returns the minimum of both times for each name of `new`."""
    return {name: min(least, old.get(name, least)) for name, least in new.items()}


def seconds_of(command, path):
    """Returns how long a run of a whole program takes on a file."""
    with open(path, "rb") as given:
        start = time.perf_counter()
        subprocess.run(command, stdin=given, stdout=subprocess.DEVNULL, check=True)
        return time.perf_counter() - start


def whole_programs(words):
    """Returns the picoseconds of both programs, each on files."""
    ours, theirs = {}, {}
    for name, count in (("of 100 bytes", 1), ("of 8 megabytes", 100_000)):
        document = [{"id": number, "name": f"name {number}", "tags": ["x", "y"], "a/b": {"m~n": number}} for number in range(count)]
        with tempfile.NamedTemporaryFile("w", suffix=".json") as file:
            json.dump(document, file)
            file.flush()
            pointer = f"/{count - 1}/a~1b/m~0n"
            for _ in range(5 * words.rounds):
                for side, program in ((ours, words.program), (theirs, words.theirs)):
                    least = int(1e12 * seconds_of([program, "resolve", pointer], file.name))
                    name_of_case = f"the whole program, a file {name}"
                    side[name_of_case] = min(least, side.get(name_of_case, least))
    return ours, theirs


def shown(picoseconds):
    """Returns a time in a unit that suits it."""
    for unit, size in (("ns", 1e3), ("µs", 1e6), ("ms", 1e9)):
        if picoseconds < 1000 * size:
            return f"{picoseconds / size:.3g} {unit}"
    return f"{picoseconds / 1e12:.3g} s"


def main():
    words = argparse.ArgumentParser()
    words.add_argument("--rounds", type=int, default=3)
    words.add_argument("--only", default="")
    words.add_argument("--save", action="store_true")
    add_ours(words)
    words.add_argument("theirs")
    words.add_argument("program", nargs="?")
    words = words.parse_args()
    timed = words.ours or built()
    lines = "".join("\t".join(it) + "\n" for it in cases() if words.only in it[0])
    ours, theirs = {}, {}
    for _ in range(words.rounds):
        ours = least_of(ours, times_of([timed, "0"], lines))
        theirs = least_of(theirs, times_of([words.theirs], lines))
    if words.program:
        for side, programs in zip((ours, theirs), whole_programs(words)):
            side.update(programs)
    if words.save:
        save(ours, theirs)
    print("| Call | here | the Rust crate | ratio |\n|---|---|---|---|")
    for name, least in ours.items():
        print(f"| {name} | {shown(least)} | {shown(theirs[name])} | {least / theirs[name]:.2f} |")


if __name__ == "__main__":
    main()
