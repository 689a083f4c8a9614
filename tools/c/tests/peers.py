"""Runs the own tests of python-json-pointer and python-json-patch on the module jsonptr: peers.py POINTER PATCH

Each argument is the folder of the sources of one of them (Debian: `apt-get source python-json-pointer python-json-patch`), whose
`tests.py` is run. The names that the tests import are those of jsonptr under other names, and nothing else: what jsonptr
lacks stays missing. Tests that fail are those of the tables in docs/FROM_JSONPATCH.md, or this fails.
"""
import importlib.util
import json
import os
import re
import sys
import types
import unittest

import jsonptr

TOP = os.path.dirname(os.path.dirname(os.path.dirname(os.path.dirname(os.path.abspath(__file__)))))


class JsonPointer:
    """A pointer, as jsonpointer has it: a text and its tokens."""

    def __init__(self, pointer):
        self.path, self.parts = pointer, jsonptr.tokens(pointer)

    def get_parts(self):
        return self.parts

    def resolve(self, doc, *default):
        return jsonptr.resolve_pointer(doc, self.path, *default)

    def set(self, doc, value, inplace=True):
        return jsonptr.set_pointer(doc, self.path, value, inplace)

    @classmethod
    def from_parts(cls, parts):
        return cls("".join(f"/{jsonptr.escape(part)}" for part in parts))

    def __eq__(self, other):
        return isinstance(other, JsonPointer) and self.parts == other.parts

    def __hash__(self):
        return hash(tuple(self.parts))

    def __str__(self):
        return self.path

    def __repr__(self):
        return f"JsonPointer({self.path!r})"


class JsonPatch(jsonptr.Patch):
    """A patch, as jsonpatch has it."""

    @property
    def patch(self):
        return self.operations

    @classmethod
    def from_string(cls, text):
        return cls(text)

    @classmethod
    def from_diff(cls, src, dst):
        return cls(jsonptr.make_patch(src, dst).text)

    def to_string(self):
        return json.dumps(self.operations)

    def apply(self, doc, in_place=False, **named):
        return super().apply(doc, **named) if named else jsonptr.apply_patch(doc, self, in_place)

    def __str__(self):
        return self.to_string()

    def __bool__(self):
        return bool(self.operations)

    def __iter__(self):
        return iter(self.operations)


class NoSuchName:
    """A name that jsonptr has not."""

    def __init__(self, *_arguments, **_named):
        raise NotImplementedError("jsonptr has no such name")


def as_modules():
    """Puts the names of jsonptr into modules with the names of the peers."""
    pointer, patch = types.ModuleType("jsonpointer"), types.ModuleType("jsonpatch")
    pointer.__dict__.update(
        JsonPointer=JsonPointer, JsonPointerException=jsonptr.JsonptrError, EndOfList=NoSuchName, escape=jsonptr.escape,
        resolve_pointer=jsonptr.resolve_pointer, set_pointer=jsonptr.set_pointer)
    patch.__dict__.update(
        JsonPatch=JsonPatch, JsonPatchException=jsonptr.JsonPatchError, InvalidJsonPatch=jsonptr.JsonPatchError,
        JsonPatchConflict=jsonptr.JsonPatchError, JsonPatchTestFailed=jsonptr.JsonPatchError,
        JsonPointerException=jsonptr.JsonptrError, JsonPointer=JsonPointer, apply_patch=jsonptr.apply_patch,
        make_patch=JsonPatch.from_diff)
    for name in ("PatchOperation", "AddOperation", "RemoveOperation", "ReplaceOperation", "MoveOperation", "CopyOperation", "TestOperation"):
        setattr(patch, name, NoSuchName)
    sys.modules.update(jsonpointer=pointer, jsonpatch=patch)


def failing(name, folder):
    """Runs the tests of a peer, and returns how many there are, and which fail, each with its error."""
    found = importlib.util.spec_from_file_location(name, os.path.join(folder, "tests.py"))
    tests = importlib.util.module_from_spec(found)
    sys.modules[name] = tests
    here = os.getcwd()
    os.chdir(folder)
    try:
        found.loader.exec_module(tests)
        cases = [it for it in vars(tests).values() if isinstance(it, type) and issubclass(it, unittest.TestCase)]
        suite = unittest.TestSuite(unittest.defaultTestLoader.loadTestsFromTestCase(it) for it in cases)
        result = unittest.TestResult()
        suite.run(result)
    finally:
        os.chdir(here)
    return result.testsRun, {it.id().split(".", 1)[1]: said.strip().splitlines()[-1] for it, said in result.failures + result.errors}


def listed():
    """Returns the tests that docs/FROM_JSONPATCH.md says fail."""
    with open(os.path.join(TOP, "docs", "FROM_JSONPATCH.md"), encoding="utf-8") as file:
        return set(re.findall(r"`(\w+Tests?(?:Case)?\.test_\w+)`", file.read()))


def main():
    if len(sys.argv) != 3:
        sys.exit(__doc__)
    as_modules()
    wanted, errors = listed(), {}
    for name, folder in zip(("pointer_tests", "patch_tests"), sys.argv[1:]):
        run, failed = failing(name, folder)
        print(f"{name}: {run} tests, {len(failed)} fail")
        errors.update(failed)
    for name in sorted(set(errors) - wanted):
        print(f"fails, and is not in docs/FROM_JSONPATCH.md: {name}: {errors[name]}")
    for name in sorted(wanted - set(errors)):
        print(f"passes, but is in docs/FROM_JSONPATCH.md: {name}")
    sys.exit(set(errors) != wanted)


if __name__ == "__main__":
    main()
