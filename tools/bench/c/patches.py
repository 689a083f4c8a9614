#!/usr/bin/env python3
"""Times patches of one object with the library for C, cJSON and nlohmann's json, in one run, and prints a table in Markdown.

    tools/bench/c/patches.py FOLDER CJSON [--rounds N]

FOLDER is one that tools/c/build made. CJSON has the sources of cJSON with `cJSON_Utils.c`, which Debian's library leaves out:
`apt-get source cjson` unpacks them. It also needs a compiler for C++ and Debian's nlohmann-json3-dev. A time is the least
of all rounds, in processor time, for one operation; each library reads the text of the patch and applies it.
"""
import argparse
import os
import subprocess
import tempfile

from speed import HERE, shown

MEMBERS, OPERATIONS = (100, 10_000, 100_000), (1, 2, 10)
PEERS = ("cJSON", "nlohmann")


def compile_all(built, cjson, work):
    """Compiles cJSON and patches.cpp into a folder, and returns the path of the program."""
    objects = []
    for name in ("cJSON", "cJSON_Utils"):
        objects.append(f"{work}/{name}.o")
        subprocess.run([os.environ.get("CC", "cc"), "-O2", "-c", f"{cjson}/{name}.c", "-o", objects[-1]], check=True)
    program = f"{work}/patches"
    subprocess.run([os.environ.get("CXX", "c++"), "-std=c++17", "-O2", f"-I{built}/include", f"-I{cjson}", f"{HERE}/patches.cpp",
                    *objects, f"{built}/lib/libjsonptr.a", "-o", program], check=True)
    return program


def times_of(program, change, members, operations, rounds):
    """Returns the nanoseconds of one operation by the name of the library."""
    run = subprocess.run([program, change, str(members), str(operations), str(rounds)], check=True, capture_output=True,
                         encoding="utf-8")
    return {name: float(least) for name, least in (line.split("\t") for line in run.stdout.splitlines())}


def main():
    parser = argparse.ArgumentParser(description=__doc__, formatter_class=argparse.RawDescriptionHelpFormatter)
    parser.add_argument("folder")
    parser.add_argument("cjson")
    parser.add_argument("--rounds", type=int, default=7)
    words = parser.parse_args()
    print("| Change, object of | patch of 1 | of 2 | of 10 | ratio to cJSON | to nlohmann |\n|---|---|---|---|---|---|")
    with tempfile.TemporaryDirectory() as work:
        program = compile_all(os.path.abspath(words.folder), os.path.abspath(words.cjson), work)
        for change in ("move", "remove"):
            for members in MEMBERS:
                rows = [times_of(program, change, members, operations, words.rounds) for operations in OPERATIONS]
                cells = [shown(row["jsonptr"]) for row in rows]
                cells += [", ".join(f"{row['jsonptr'] / row[peer]:.3f}" for row in rows) for peer in PEERS]
                print(f"| {change}, {members:,} | " + " | ".join(cells) + " |", flush=True)


if __name__ == "__main__":
    main()
