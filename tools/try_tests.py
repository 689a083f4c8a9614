"""Runs tests without proving them: those of the folder `tests`, and those that a tool makes. Each group is a module of one
crate, so that what they use is compiled once.
"""
import glob
import os
import re
import subprocess
import tempfile
from typing import NamedTuple

import repository

CRATE = "all_tests"
RESULT = re.compile(r"^test (\S+) \.\.\. (\w+)\n((?:[ \t]+.*\n)*)", re.MULTILINE)
POSITION = re.compile(r"\b(src/[\w/]+\.rt):(\d+)")
ROOT = "#![tactic(auto)]\n"
# The kit wants each `.rt` file in a crate that it proves.
ENDING = ".rt.txt"


class Module(NamedTuple):
    """A module of tests: its name, the libraries that it uses, and its files.

    A file is its text by its path, and in `origins` by that path the file here that it is made of, with the line there of
    each of its lines (`None`: the lines are the same ones).
    """

    name: str
    uses: list
    files: dict
    origins: dict


class Results(NamedTuple):
    """The names of the tests that passed, what was said of each other one by its name, and all other output."""

    passed: list
    failed: dict
    said: str


def module_of(group):
    """Returns a group of tests as a module with its name. Paths that begin with `crate` are those of the group."""
    files, origins = {}, {}
    top = f"{repository.TESTS}/{group}"
    for path in sorted(glob.glob(f"{top}/**/*{ENDING}", recursive=True)):
        inner = os.path.relpath(path, top).removesuffix(ENDING)
        name = f"src/{group}.rt" if inner == "lib" else f"src/{group}/{inner}.rt"
        files[name] = repository.read(path).replace(ROOT, "\n").replace("crate::", f"crate::{group}::")
        origins[name] = os.path.relpath(path, repository.TOP), None
    return Module(group, repository.tests()[group], files, origins)


def located(text, origins):
    """Returns a text that `rt` wrote, with the files and lines here instead of those of the crate of tests."""

    def place(found):
        path, lines = origins.get(found[1], (found[1], None))
        number = int(found[2])
        return f"{path}:{number if lines is None else lines[number - 1]}"

    return POSITION.sub(place, text)


def run(modules):
    """Runs the tests of modules. If they do not compile, none ran, and the output names the lines."""
    files = {path: text for module in modules for path, text in module.files.items()}
    origins = {path: origin for module in modules for path, origin in module.origins.items()}
    files["src/lib.rt"] = ROOT + "".join(f"#[cfg(test)]\nmod {module.name};\n" for module in modules)
    uses = list(dict.fromkeys(name for module in modules for name in module.uses))
    with tempfile.TemporaryDirectory(prefix="tests-") as folder:
        repository.make(folder, {CRATE: (uses, files)})
        options = {"stdout": subprocess.PIPE, "stderr": subprocess.STDOUT, "encoding": "utf-8", "errors": "replace"}
        words = ["rt", "try", "--test"]
        ran = subprocess.run(words, cwd=f"{folder}/crates/{CRATE}", stdin=subprocess.DEVNULL, **options)
    found = RESULT.findall(ran.stdout)
    passed = [name for name, result, _ in found if result == "ok"]
    failed = {name: located(said, origins) for name, result, said in found if result != "ok"}
    said = located(RESULT.sub("", ran.stdout), origins)
    if not failed and (ran.returncode or not passed):
        failed = {f"run of the tests: status {ran.returncode}, {len(passed)} passed": said}
    return Results(passed, failed, said)
