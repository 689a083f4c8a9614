#!/usr/bin/env python3
"""Counts the instructions of patches by jptr, and how often they print a value and apply a patch, by callgrind.

  tools/bench/passes.py PROGRAM [OTHER]

PROGRAM is jptr, as the gate builds it, with its symbols. It is run on fixed documents: patches of 3 and of 100 operations, and
one that fails. With OTHER, the counts of that program are beside them; of a program without symbols, as that of a release, only
the instructions are known. Needs valgrind (apt-get install valgrind)."""
import json
import os
import re
import subprocess
import sys
import tempfile

# What is counted, and the functions whose calls are counted for it. The compiler does not inline them
COUNTED = (
    ("values printed", r"^serde_json::value::Value::to_string(_pretty)?\b"),
    ("patches applied to a document", r"^jsonptr_patch::patch::apply_naming_pointer\b"),
)


def document(count):
    """Returns the text of an object of `count` members, each an object on a line of its own."""
    lines = [f'  "k{i}": {{"name": "n{i}", "size": {i}, "tags": ["a", "b"]}}' for i in range(count)]
    return "{\n" + ",\n".join(lines) + "\n}\n"


def patch(count, last=None):
    """Returns the text of a patch of `count` operations, each of which replaces a member by an object."""
    operations = [{"op": "replace", "path": f"/k{i}/size", "value": {"in": i, "unit": "cm"}} for i in range(count)]
    return json.dumps(operations + ([last] if last else []))


CASES = (
    ("patch of 3 operations", document(200), patch(3)),
    ("patch of 100 operations", document(200), patch(100)),
    ("patch whose last operation fails", document(200), patch(2, {"op": "move", "from": "/none", "path": "/k0"})),
)


def calls_in(text):
    """Returns how often each function is called, by its name, and the instructions of the run, from callgrind's output."""
    names, calls, total, called = {}, {}, 0, None
    for line in text.split("\n"):
        name = re.match(r"c?fn=\((\d+)\)(?: (.*))?$", line)
        if name:
            if name[2]:
                names[name[1]] = name[2]
            if line.startswith("cfn="):
                called = names[name[1]]
        elif line.startswith("calls="):
            calls[called] = calls.get(called, 0) + int(line[6:].split()[0])
        elif line.startswith(("summary:", "totals:")):
            total = int(line.split()[1])
    return calls, total


def counts(program, document, patch):
    """Returns the counts of a run, in the order of COUNTED, and its instructions."""
    with tempfile.TemporaryDirectory() as folder:
        for name, text in (("d.json", document), ("p.json", patch)):
            with open(f"{folder}/{name}", "w", encoding="utf-8") as file:
                file.write(text)
        words = ["valgrind", "--tool=callgrind", "--callgrind-out-file=out", "--separate-recs=1", program, "patch", "p.json", "d.json"]
        subprocess.run(words, cwd=folder, stdout=subprocess.DEVNULL, stderr=subprocess.DEVNULL, check=False)
        with open(f"{folder}/out", encoding="utf-8", errors="replace") as file:
            calls, total = calls_in(file.read())
    return [sum(n for name, n in calls.items() if re.search(pattern, name)) for _, pattern in COUNTED] + [total]


def main():
    programs = [os.path.abspath(it) for it in sys.argv[1:]]
    if not programs:
        sys.exit(__doc__)
    for title, text, given in CASES:
        print(title)
        found = [counts(it, text, given) for it in programs]
        for i, what in enumerate([it for it, _ in COUNTED] + ["instructions"]):
            print(f"  {what}: " + ", ".join(f"{it[i]:,}" for it in found))


if __name__ == "__main__":
    main()
