#!/usr/bin/env python3
"""Runs `jptr merge-patch` and `jptr merge` on random documents with layouts of their own, beside Python.

    tools/merges_in_text.py [--count N] [--seed N]

Of each command there are N runs. The document that is printed must be the one of the plain versions in `merges.py`, or the
conflicts must be; each number in it must be written as in a document that it comes from, unless it is in a new object without a
`null` of the merge patch; and a document that does not change must be printed as it is.
"""
import argparse
import json
import os
import random
import re
import subprocess
import sys
import tempfile
from concurrent.futures import ThreadPoolExecutor

from harness import CheckFailed, program
from merges import NONE, Documents, merge_patched, merged, same, text_of

PROGRAM = program("jptr")
SECONDS = 60
NUMBER = re.compile(r'"(?:[^"\\]|\\.)*"|(-?\d[0-9.eE+-]*)')
FORMS = {0.5: ("0.5", "0.50", "5e-1"), 1.0: ("1.0", "1.00", "1e0"), 0.0: ("0.0", "0e0")}
PATH = re.compile(r'^(?:/.*|"")$', re.MULTILINE)


def written(drawn, value, indent=None, level=0):
    """Returns a text of a value, with its members in any order and its numbers in any form."""
    if isinstance(value, (dict, list)) and value:
        open_, close = "{}" if isinstance(value, dict) else "[]"
        items = list(value.items()) if isinstance(value, dict) else [(None, it) for it in value]
        if isinstance(value, dict):
            drawn.shuffle(items)
        parts = [("" if key is None else f"{json.dumps(key)}: ") + written(drawn, it, indent, level + 1) for key, it in items]
        if indent is None:
            return f"{open_}{', '.join(parts)}{close}"
        space, last = "\n" + " " * indent * (level + 1), "\n" + " " * indent * level
        return f"{open_}{space}{(',' + space).join(parts)}{last}{close}"
    if isinstance(value, float) and str(value) in map(str, FORMS):
        return drawn.choice(FORMS[value]) if str(value) != "-0.0" else "-0.0"
    return json.dumps(value, ensure_ascii=False)


def numbers(text):
    """Returns the numbers of a JSON text, as they are written."""
    return {found[1] for found in NUMBER.finditer(text) if found[1]}


def put(folder, name, text):
    """Writes a file, and returns its path."""
    path = os.path.join(folder, name)
    with open(path, "w", encoding="utf-8") as file:
        file.write(text)
    return path


def run(*words):
    """Runs the program."""
    return subprocess.run([PROGRAM, *words], capture_output=True, text=True, timeout=SECONDS)


def check_text(what, printed, wanted, old, *sources):
    """Fails if a document is printed that is not the wanted one, has a number in a form of its own, or changed for nothing."""
    if not same(json.loads(printed), wanted):
        raise CheckFailed(f"{what}: {printed} instead of {text_of(wanted)}")
    if more := numbers(printed) - numbers("\n".join((old, *sources))):
        raise CheckFailed(f"{what}: {printed} has {more}, which no document has so")
    if same(json.loads(old), wanted) and printed != old:
        raise CheckFailed(f"{what}: {printed!r} instead of {old!r}, though nothing changes")


def leaves_out(target, patch):
    """Whether a new object has a member `null` in the merge patch, and so is printed."""
    if not isinstance(patch, dict):
        return False
    if not isinstance(target, dict):
        return any(it is None or leaves_out(None, it) for it in patch.values())
    return any(leaves_out(target.get(key), it) for key, it in patch.items())


def check_merge_patch(seed):
    """Applies a random merge patch."""
    documents = Documents(seed)
    drawn = documents.random
    old = documents.value()
    patch = documents.changed(old) if drawn.random() < 0.6 else documents.value()
    with tempfile.TemporaryDirectory() as folder:
        indent = drawn.choice((None, 2, 4))
        texts = written(drawn, old, indent) + "\n", written(drawn, patch, drawn.choice((None, 2)))
        paths = put(folder, "patch.json", texts[1]), put(folder, "old.json", texts[0])
        done = run("merge-patch", *paths)
        what = f"merge-patch, seed {seed}: {texts}"
        if done.returncode:
            raise CheckFailed(f"{what}: {done.stderr}")
        printed = [done.stdout] if leaves_out(old, patch) else []
        check_text(what, done.stdout, merge_patched(old, patch), *texts, *printed)


def decided(base, ours, theirs, side):
    """Returns the merge in which a side decides each conflict."""
    if same(ours, theirs) or same(base, theirs):
        return ours
    if same(base, ours):
        return theirs
    if not all(isinstance(it, dict) for it in (base, ours, theirs)):
        return ours if side == "--ours" else theirs
    made = {key: decided(*(it.get(key, NONE) for it in (base, ours, theirs)), side) for key in {*base, *ours, *theirs}}
    return {key: value for key, value in made.items() if value is not NONE}


def check_merge(seed):
    """Merges two random copies of a random document."""
    documents = Documents(seed)
    drawn = documents.random
    base = documents.object() if drawn.random() < 0.9 else documents.value()
    sides = base, documents.changed(base), documents.changed(base)
    with tempfile.TemporaryDirectory() as folder:
        texts = [written(drawn, it, drawn.choice((None, 2, 4))) + "\n" for it in sides]
        paths = [put(folder, name, text) for name, text in zip(("base.json", "ours.json", "theirs.json"), texts, strict=True)]
        what = f"merge, seed {seed}: {texts}"
        conflicts = []
        wanted = merged(*sides, (), conflicts)
        done = run("merge", *paths)
        if done.returncode != (1 if conflicts else 0):
            raise CheckFailed(f"{what}: status {done.returncode}\n{done.stderr}")
        if conflicts:
            shown = [path.replace('""', "") for path in PATH.findall(done.stderr)]
            if shown != [path for path, *_ in conflicts] or done.stdout:
                raise CheckFailed(f"{what}: {done.stderr} instead of {conflicts}")
        else:
            check_text(what, done.stdout, wanted, texts[1], texts[2])
        for side in ("--ours", "--theirs"):
            done = run("merge", side, *paths)
            if done.returncode:
                raise CheckFailed(f"{what}: {side}: {done.stderr}")
            check_text(f"{what}: {side}", done.stdout, decided(*sides, side), texts[1], texts[2])
        return bool(conflicts)


def main():
    """Runs the checks."""
    parser = argparse.ArgumentParser(description=__doc__, formatter_class=argparse.RawDescriptionHelpFormatter)
    parser.add_argument("--count", type=int, default=1000)
    parser.add_argument("--seed", type=int, default=1)
    given = parser.parse_args()
    seeds = [random.Random(given.seed + number).getrandbits(48) for number in range(given.count)]
    with ThreadPoolExecutor(len(os.sched_getaffinity(0))) as pool:
        list(pool.map(check_merge_patch, seeds))
        with_conflicts = sum(pool.map(check_merge, seeds))
    print(f"merges_in_text: {given.count} merge patches, {given.count} merges, {with_conflicts} of them with conflicts")


if __name__ == "__main__":
    try:
        main()
    except CheckFailed as error:
        sys.exit(f"merges_in_text: {error}")
