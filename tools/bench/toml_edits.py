#!/usr/bin/env python3
"""Times edits in TOML texts beside Python's `tomlkit` (Debian: python3-tomlkit), and prints a table in Markdown.

    /usr/bin/python3 tools/bench/toml_edits.py [--rounds N] OURS

OURS is the built program of crates/jsonptr_tool_calls. A time is the processor time of one edit, with reading the text and
making the new one: the least of all rounds. Starting the program and Python is not counted.
"""
import argparse
import os
import subprocess
import tempfile
import time

import tomlkit

SIZES = {"1 KB": (7, 2_000, 20), "10 KB": (70, 200, 4), "100 KB": (700, 40, 1)}


def text_of(count):
    """Returns a text of so many tables, some 130 bytes each, with comments."""
    tables = (
        f'# number {it}\n[[package]]\nname = "package-{it}"\nversion = "1.{it}.0" # pinned\nfeatures = ["std", "alloc"]\n'
        f"source = {{ git = \"https://example.com/{it}\", rev = 'abc' }}\n"
        for it in range(count)
    )
    return "# A lock file\nversion = 3\n\n" + "\n".join(tables)


def edits_of(count):
    """Returns the edits: the name, the command, the pointer and the value."""
    middle = f"/package/{count // 2}"
    yield "replace a value", "assign", f"{middle}/version", '"2"'
    yield "add a key", "assign", f"{middle}/new", "true"
    yield "append an element", "assign", f"{middle}/features/-", '"x"'
    yield "delete a key", "delete", f"{middle}/features", ""


def ours(program, path, edit, count):
    """Returns the processor time of an edit."""
    _, command, pointer, value = edit
    with open(path, "rb") as file:
        before = os.times()
        subprocess.run([program, "toml", command, pointer, value, str(count)], stdin=file, stdout=subprocess.PIPE, check=True)
        after = os.times()
    return after.children_user + after.children_system - before.children_user - before.children_system


def theirs(text, edit, count):
    """Returns the processor time of an edit by `tomlkit`."""
    _, command, pointer, value = edit
    *front, last = pointer[1:].split("/")
    before = time.process_time()
    for _ in range(count):
        document = tomlkit.parse(text)
        here = document
        for token in front:
            here = here[int(token) if token.isdigit() else token]
        if command == "delete":
            del here[last]
        elif last == "-":
            here.append(tomlkit.value(value))
        else:
            here[last] = tomlkit.value(value)
        tomlkit.dumps(document)
    return (time.process_time() - before) / count


def main():
    parser = argparse.ArgumentParser(description=__doc__, formatter_class=argparse.RawDescriptionHelpFormatter)
    parser.add_argument("--rounds", type=int, default=3)
    parser.add_argument("program")
    words = parser.parse_args()
    print("| Text | Edit | here | tomlkit | ratio |\n|---|---|---|---|---|")
    with tempfile.TemporaryDirectory() as folder:
        for size, (tables, many, few) in SIZES.items():
            text = text_of(tables)
            with open(f"{folder}/text.toml", "w", encoding="utf-8") as file:
                file.write(text)
            for edit in edits_of(tables):
                once = min(ours(words.program, file.name, edit, 1) for _ in range(words.rounds))
                times = [ours(words.program, file.name, edit, many + 1) - once for _ in range(words.rounds)]
                here, there = min(times) / many, min(theirs(text, edit, few) for _ in range(words.rounds))
                print(f"| {size} | {edit[0]} | {1000 * here:.3g} ms | {1000 * there:.3g} ms | 1/{there / here:.0f} |", flush=True)


if __name__ == "__main__":
    main()
