#!/usr/bin/env python3
"""Times the library for C beside json-c and cJSON, and its Python wrapper beside jsonpointer and jsonpatch.

    tools/bench/c/speed.py FOLDER [--rounds N]

FOLDER is one that tools/c/build made. The C part needs a compiler, libjson-c-dev and libcjson-dev; the other part runs in
the Python that runs this, which needs jsonpointer and jsonpatch (Debian: python3-jsonpatch). Prints tables in Markdown. A
time is the least of all rounds, in processor time.
"""
import argparse
import json
import os
import subprocess
import sys
import tempfile
import time

HERE = os.path.dirname(os.path.abspath(__file__))


def document():
    """Returns a document of 10,000 records."""
    items = [{"id": i, "name": f"item {i}", "tags": ["red", "green", "blue"], "deep": {"x": i * 7, "y": [1, 2, 3, 4]}}
             for i in range(10_000)]
    return {"items": items, "size": {"width": 10, "a/b": 3}}


def shown(nanoseconds):
    """Returns a time with its unit."""
    for unit, size in (("s", 1e9), ("ms", 1e6), ("µs", 1e3)):
        if nanoseconds >= size:
            return f"{nanoseconds / size:.3g} {unit}"
    return f"{nanoseconds:.3g} ns"


def compile_c(built, text, work):
    """Compiles times.c and writes the document into a folder, and returns the paths of both."""
    program, file = os.path.join(work, "times"), os.path.join(work, "document.json")
    with open(file, "w", encoding="utf-8") as written:
        written.write(text)
    subprocess.run([os.environ.get("CC", "cc"), "-std=c11", "-D_POSIX_C_SOURCE=200809L", "-O2", f"-I{built}/include",
                    f"{HERE}/times.c", f"{built}/lib/libjsonptr.a", "-ljson-c", "-lcjson", "-o", program], check=True)
    return program, file


def time_c(built, text, rounds):
    """Compiles and runs times.c, and prints its table."""
    with tempfile.TemporaryDirectory() as work:
        program, file = compile_c(built, text, work)
        run = subprocess.run([program, file, str(rounds)], check=True, capture_output=True, encoding="utf-8")
    times = {}
    for line in run.stdout.splitlines():
        name, library, nanoseconds = line.split("\t")
        times.setdefault(name, {})[library] = float(nanoseconds)
    print("| In C | here | json-c | ratio | cJSON | ratio |\n|---|---|---|---|---|---|")
    for name, row in times.items():
        cells = [shown(row["jsonptr"])]
        for other in ("json-c", "cJSON"):
            cells += [shown(row[other]), f"{row['jsonptr'] / row[other]:.2f}"] if other in row else ["", ""]
        print(f"| {name} | " + " | ".join(cells) + " |")


def least(call, repeats, rounds):
    """Returns the least time of a call in nanoseconds."""
    best = float("inf")
    for _ in range(rounds):
        start = time.process_time_ns()
        for _ in range(repeats):
            call()
        best = min(best, (time.process_time_ns() - start) / repeats)
    return best


def time_python(built, text, rounds):
    """Times the Python wrapper, and prints its table."""
    os.environ["JSONPTR_LIBRARY"] = f"{built}/lib/libjsonptr.so"
    sys.path.insert(0, f"{built}/python")
    import jsonpatch
    import jsonpointer
    import jsonptr

    ours, theirs, compiled = jsonptr.Document(text), json.loads(text), jsonpointer.JsonPointer("/items/9999/deep/y/2")
    deep, member = "/items/9999/deep/y/2", "/size/a~1b"

    def patch(count):
        return [{"op": "replace", "path": f"/items/{999 + i * 1000}/name", "value": "new"} for i in range(count)]

    rows = [
        ("resolve, a member", lambda: ours.resolve(member), lambda: jsonpointer.resolve_pointer(theirs, member), 500),
        ("resolve, in the last record", lambda: ours.resolve(deep), lambda: jsonpointer.resolve_pointer(theirs, deep), 500),
        ("the same as JSON bytes, and a pointer that is parsed already", lambda: ours.get(deep),
         lambda: compiled.resolve(theirs), 500),
        ("read and resolve", lambda: jsonptr.Document(text).resolve(deep),
         lambda: jsonpointer.resolve_pointer(json.loads(text), deep), 1),
        ("resolve in the text", lambda: json.loads(jsonptr.resolve_in_text(text, deep)),
         lambda: jsonpointer.resolve_pointer(json.loads(text), deep), 1),
        ("a patch of 1 operation", lambda: ours.apply(patch(1)),
         lambda: jsonpatch.JsonPatch(patch(1)).apply(theirs, in_place=True), 200),
        ("a patch of 10 operations", lambda: ours.apply(patch(10)),
         lambda: jsonpatch.JsonPatch(patch(10)).apply(theirs, in_place=True), 50),
    ]
    print(f"\n| In Python {sys.version.split()[0]} | here | jsonpointer {jsonpointer.__version__}, "
          f"jsonpatch {jsonpatch.__version__} | ratio |\n|---|---|---|---|")
    for name, mine, other, repeats in rows:
        first, second = least(mine, repeats, rounds), least(other, repeats, rounds)
        print(f"| {name} | {shown(first)} | {shown(second)} | {first / second:.2f} |")


def main():
    parser = argparse.ArgumentParser(description=__doc__, formatter_class=argparse.RawDescriptionHelpFormatter)
    parser.add_argument("folder")
    parser.add_argument("--rounds", type=int, default=11)
    arguments = parser.parse_args()
    built, text = os.path.abspath(arguments.folder), json.dumps(document(), separators=(",", ":"))
    print(f"A document of {len(text):,} bytes.\n")
    time_c(built, text, arguments.rounds)
    time_python(built, text, arguments.rounds)


if __name__ == "__main__":
    main()
