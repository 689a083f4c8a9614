#!/usr/bin/env python3
"""Builds the static library of the crate jsonptr_c, and prints its path: tools/c/archive.py

`rt ci` proves the libraries below, and leaves them in their folders `out/`, but `rt lib` would prove them once more. So if
each of them is there and no file of its crate is newer, the compiler builds over them, and proves `jsonptr_c` again. If
one is missing or older, or has a stamp of `rt`, then `rt lib` builds the library: it proves what it has not kept.
"""
import os
import subprocess
import sys

sys.path.insert(0, os.path.dirname(os.path.dirname(os.path.abspath(__file__))))
import repository  # noqa: E402

CRATES = repository.CRATES
NAME = "jsonptr_c"
ARCHIVE = f"{CRATES}/{NAME}/out/lib{NAME}.a"
# `rt` keeps work in `out`. The rest of a crate's folder is what it is proved from, except for these and documents.
NOT_READ = {"out", "must-fail", "mutants"}


def kept(name):
    """Returns where `rt` puts the proved library of a crate."""
    return f"{CRATES}/{name}/out/rlib/{name}.rlib"


def files_below(folder):
    """Yields the files that a crate is proved from."""
    for path, folders, files in os.walk(folder):
        if path == folder:
            folders[:] = [it for it in folders if it not in NOT_READ]
        yield from (f"{path}/{file}" for file in files if not file.endswith(".md"))


def is_left_by_the_gate(name):
    """Returns whether the library of a crate is one that `rt ci` proved from the files that the crate has now."""
    library = kept(name)
    if not os.path.exists(library) or os.path.exists(f"{os.path.dirname(library)}/stamp"):
        return False
    made = os.path.getmtime(library)
    return all(os.path.getmtime(file) < made for file in files_below(f"{CRATES}/{name}"))


def compiler_words(kit, libraries):
    """Returns the compiler's command that proves and builds the crate over these libraries."""
    uses = repository.listed()[NAME]
    of_kit = ["std", *(it for it in uses if it not in libraries)]
    words = [f"{kit}/bin/rattle", "build", "--crate-name", NAME, "src/lib.rt", "--crate-type", "staticlib"]
    for library in of_kit:
        words += ["--extern", f"{library}={kit}/rlibs/{library}.rlib"]
    words += ["-L", f"dependency={kit}/rlibs"]
    for library in libraries:
        words += ["--extern", f"{library}={kept(library)}"] * (library in uses)
        words += ["-L", f"dependency={os.path.dirname(kept(library))}"]
    words += ["--antt-project", f"{kit}/rattle/logic/antt-project.json", "--logic-built", f"{kit}/logic_built"]
    words += ["--links", f"{NAME}=", "--jobs", "1", "--toolchain", f"{kit}/toolchain", "--backend", "llvm"]
    return [*words, "-o", ARCHIVE]


def run(words):
    """Runs a command in the crate's folder, and returns it with what it printed."""
    options = {"stdout": subprocess.PIPE, "stderr": subprocess.STDOUT, "encoding": "utf-8", "errors": "replace"}
    return subprocess.run(words, cwd=f"{CRATES}/{NAME}", **options)


def build_over_the_gate():
    """Builds over what `rt ci` left. Returns whether that was there and sufficed."""
    libraries = repository.lowest_first([NAME])[:-1]
    if not all(map(is_left_by_the_gate, libraries)):
        return False
    kit = os.path.dirname(run(["rt", "doc"]).stdout.strip())
    os.makedirs(os.path.dirname(ARCHIVE), exist_ok=True)
    ran = run(compiler_words(kit, libraries))
    if ran.returncode:
        print("The libraries that `rt ci` left could not be used:", ran.stdout[-2000:], sep="\n", file=sys.stderr)
    return ran.returncode == 0


def main():
    if not build_over_the_gate():
        ran = run(["rt", "lib"])
        if ran.returncode:
            sys.exit(ran.stdout)
    print(ARCHIVE)


if __name__ == "__main__":
    main()
