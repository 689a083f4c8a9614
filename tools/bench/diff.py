#!/usr/bin/env python3
"""Compares `diff` with `jsonpatch.make_patch` of Python, in one run, and prints a table in Markdown.

    tools/bench/diff.py [--rounds N] [--ours PROGRAM]

It times the program that program.py builds, or another build of it. Python's library is Debian's package
python3-jsonpatch, so run this with /usr/bin/python3. Each row has the number of operations, the bytes of the patch as
JSON text without spaces, and the time of one call on documents that are parsed already: the minimum over all rounds.
The patch of the other side is checked too: it has to make the new document of the old one.
"""
import argparse
import copy
import json
import subprocess
import time

import jsonpatch

from documents import WORDS, records, settings
from program import add_ours, built
from speed import shown


def changed_settings():
    """Returns the settings after some edits."""
    new = settings()
    new["alpha.beta"]["level"] = 99
    new["alpha.gamma"]["paths"].insert(0, "/home/user")
    new["beta.mu"]["paths"].remove("/usr/share/beta/mu/gamma")
    new["gamma.eta"]["limits"]["lines"] = None
    del new["delta.iota"]
    new["theta/new~section"] = {"enabled": True}
    return new


def lock_file(version):
    """Returns a lock file of a package manager: packages with their dependencies."""
    return {
        "lockfileVersion": 3,
        "packages": {
            f"node_modules/{WORDS[number % 12]}-{number}": {
                "version": version(number),
                "resolved": f"https://registry.example/{number}/-/{number}-{version(number)}.tgz",
                "integrity": f"sha512-{number * 2654435761 % 2**64:x}{version(number)}",
                "dependencies": {f"{WORDS[(number + step) % 12]}-{number + step}": "^1.0.0" for step in range(1, 4)},
                "engines": {"node": ">=18"},
                "files": [f"lib/{part}.js" for part in WORDS[:5]],
            }
            for number in range(1500)
        },
    }


def changed_lock_file():
    """Returns the lock file after 40 updates, an addition and a removal."""
    new = lock_file(lambda number: "2.1.0" if number % 38 == 0 else "1.0.0")
    packages = new["packages"]
    packages["node_modules/new"] = {"version": "0.1.0"}
    del packages["node_modules/beta-1"]
    return new


def changed_records(count):
    """Returns the records after this many changes, spread over them."""
    new = records()
    for change in range(count):
        new[change * len(new) // count]["name"] = f"changed {change}"
    return new


def inserted_record(index):
    """Returns the records with one more at the index."""
    new = records()
    new.insert(index, {"id": -1, "name": "inserted"})
    return new


def mixed_records():
    """Returns the records after a removal at the beginning, 20 insertions, and a change at the end."""
    new = records()
    new[-1]["active"] = None
    for index in range(20):
        new.insert(400 * index + 399, {"id": -index, "name": "inserted"})
    del new[0]
    return new


def rows():
    """Returns the name of each row, and its two documents."""
    yield "a settings file, 6 edits", settings(), changed_settings()
    yield "a lock file of 1,500 packages, 40 updates", lock_file(lambda number: "1.0.0"), changed_lock_file()
    for count in (1, 10, 1000):
        yield f"10,000 records, {count:,} changed", records(), changed_records(count)
    yield "10,000 records, one inserted at the front", records(), inserted_record(0)
    yield "10,000 records, 1 removed, 20 inserted, 1 changed", records(), mixed_records()
    yield "10,000 records, the same", records(), records()


def ours_of(program, old, new):
    """Returns the number of operations, the bytes and the seconds of ours."""
    texts = [json.dumps(it, separators=(",", ":")) for it in (old, new)]
    lines = "".join("\t".join([what, "diff", what, *texts]) + "\n" for what in ("operations", "bytes", "time"))
    ran = subprocess.run([program, "0"], input=lines, stdout=subprocess.PIPE, encoding="utf-8", check=True)
    found = dict(line.split("\t") for line in ran.stdout.splitlines())
    zero = {"done": "0"}
    operations, size, least = (int(zero.get(found[what], found[what])) for what in ("operations", "bytes", "time"))
    return operations, size, least / 1e12


def theirs_of(old, new):
    """Returns the number of operations, the bytes and the seconds of Python's."""
    # Parsed one by one, as documents are, the two share no objects.
    old, new = (json.loads(json.dumps(it)) for it in (old, new))
    start = time.perf_counter()
    patch = jsonpatch.make_patch(old, new)
    spent = time.perf_counter() - start
    if patch.apply(copy.deepcopy(old)) != new:
        raise SystemExit("the patch of jsonpatch does not make the new document")
    return len(patch.patch), len(json.dumps(patch.patch, separators=(",", ":"))), spent


def main():
    parser = argparse.ArgumentParser(description=__doc__, formatter_class=argparse.RawDescriptionHelpFormatter)
    parser.add_argument("--rounds", type=int, default=3)
    add_ours(parser)
    words = parser.parse_args()
    timed = words.ours or built()
    print("| Documents | operations here | `make_patch` | bytes here | `make_patch` | time here | `make_patch` | ratio |")
    print("|---|---|---|---|---|---|---|---|")
    for title, old, new in rows():
        ours = min((ours_of(timed, old, new) for _ in range(words.rounds)), key=lambda it: it[2])
        theirs = min((theirs_of(old, new) for _ in range(words.rounds)), key=lambda it: it[2])
        sizes = " | ".join(f"{mine:,} | {other:,}" for mine, other in zip(ours[:2], theirs[:2]))
        times = f"{shown(1e12 * ours[2])} | {shown(1e12 * theirs[2])} | {ours[2] / theirs[2]:.4f}"
        print(f"| {title} | {sizes} | {times} |", flush=True)


if __name__ == "__main__":
    main()
