#!/usr/bin/env python3
"""Builds the program whose calls the scripts here time, and prints its path.

    tools/bench/program.py         proves and builds it
    tools/bench/program.py --try   compiles it without proofs, runs each case once, and keeps nothing

Its sources are in `tools/bench/program/`, as `NAME.rt.txt`: it is no crate of this repository, so `rt ci` does not prove it.
It is proved and built in a repository of its own in a temporary folder, over the libraries as `rt lib` builds them here, and
kept in `tools/bench/out/` until something changes that it is made of.
"""
import glob
import hashlib
import os
import shutil
import subprocess
import sys
import tempfile

HERE = os.path.dirname(os.path.abspath(__file__))
sys.path.insert(0, os.path.dirname(HERE))
import repository  # noqa: E402

NAME = "jsonptr_timed"
USES = ["jsonptr_merge", "jsonptr_patch_diff", "jsonptr_patch_document", "jsonptr_patch", "jsonptr_value", "jsonptr", "serde_json", "toml"]
BUILT = f"{HERE}/out/{NAME}"


def sources():
    """Returns the texts of the program's files by their paths in its crate."""
    found = {f"src/{os.path.basename(path).removesuffix('.txt')}": repository.read(path) for path in glob.glob(f"{HERE}/program/*.rt.txt")}
    return {**found, **{name: repository.read(f"{HERE}/program/{name}") for name in ("stdin", "stdout")}}


def stamp():
    """Returns a sum of all that the program is made of: its own files, the libraries below it and the kit."""
    version = subprocess.run(["rt", "version"], stdout=subprocess.PIPE, check=True).stdout
    found = hashlib.sha256(version + repr(sorted(sources().items())).encode())
    for name in sorted(repository.below(USES)):
        for path in sorted(glob.glob(f"{repository.CRATES}/{name}/src/**/*.rt", recursive=True)):
            found.update(f"{path.removeprefix(repository.TOP)}\n{repository.read(path)}".encode())
    return found.hexdigest()


def run(command, folder, parts):
    """Runs the program in a repository with these parts of the libraries, on each case once. Returns the crate's folder."""
    repository.make(folder, {NAME: (USES, sources())}, parts)
    crate = f"{folder}/crates/{NAME}"
    with open(f"{crate}/stdin", "rb") as cases:
        ran = subprocess.run(["rt", command], cwd=crate, stdin=cases, stdout=subprocess.PIPE, encoding="utf-8", check=True)
    if ran.stdout != repository.read(f"{crate}/stdout"):
        sys.exit(f"program: not the expected output:\n{ran.stdout}")
    return crate


def build():
    """Proves and builds the program, over the libraries here."""
    for name in repository.lowest_first(USES):
        subprocess.run(["rt", "lib"], cwd=f"{repository.CRATES}/{name}", stdout=sys.stderr, check=True)
    with tempfile.TemporaryDirectory(prefix="timed-") as folder:
        crate = run("run", folder, ("src", "specs", "proofs", "out/rlib"))
        os.makedirs(os.path.dirname(BUILT), exist_ok=True)
        shutil.copy(f"{crate}/out/{NAME}", BUILT)


def built():
    """Returns the path of the built program. Builds it if something has changed."""
    now = stamp()
    if repository.read(f"{BUILT}.stamp") != now or not os.path.exists(BUILT):
        build()
        repository.write(f"{BUILT}.stamp", now)
    return BUILT


def add_ours(parser):
    """Adds to a script's words the program to time: another one than what is built here."""
    parser.add_argument("--ours", metavar="PROGRAM", help="another build of the program to time")


def main():
    if sys.argv[1:] == ["--try"]:
        with tempfile.TemporaryDirectory(prefix="timed-") as folder:
            run("try", folder, ("src", "specs"))
    else:
        print(built())


if __name__ == "__main__":
    main()
