#!/usr/bin/env python3
"""Applies random merge patches (RFC 7396) with this library and with evanphx's json-patch, which is in Go.

    tools/compare/merge_patches.py [--count N] [--seed N] [PROGRAM]

PROGRAM is the built program of crates/jsonptr_tool_calls. It needs Debian's packages golang-go and
golang-github-evanphx-json-patch-dev. Each difference has to be one of these two, of the other library:

- it returns an error for a document that is a scalar, and for a patch that is one, at the root;
- it leaves out what is `null` in an array of the patch, as an element or as a member. The RFC says that an array replaces what
  was there.
"""
import argparse
import collections
import json
import os
import subprocess
import sys
import tempfile

sys.path.insert(0, os.path.dirname(os.path.dirname(os.path.abspath(__file__))))
from harness import fields_of, line_of, program  # noqa: E402
from merges import Documents, patch_case  # noqa: E402

FOLDER = os.path.dirname(os.path.abspath(__file__))


def ours(path, cases):
    """Returns the documents that this library makes."""
    given = "".join(line_of("merge", "patch", *case) for case in cases).encode()
    completed = subprocess.run([path], input=given, stdout=subprocess.PIPE, check=True)
    return [fields_of(line)["detail"] for line in completed.stdout.decode().split("\n")[:-1]]


def theirs(cases):
    """Returns the documents that the other library makes, and `-` for each error."""
    with tempfile.TemporaryDirectory() as folder:
        built = f"{folder}/merge_patches"
        environment = {**os.environ, "GOPATH": "/usr/share/gocode", "GO111MODULE": "off", "GOCACHE": f"{folder}/cache"}
        subprocess.run(["go", "build", "-o", built, f"{FOLDER}/merge_patches.go"], env=environment, check=True)
        given = "".join("\t".join(case) + "\n" for case in cases).encode()
        completed = subprocess.run([built], input=given, stdout=subprocess.PIPE, check=True)
    return completed.stdout.decode().split("\n")[:-1]


def without_nulls(value, is_in_array=False):
    """Returns a value without what is null in its arrays, as an element or as a member."""
    if isinstance(value, list):
        return [without_nulls(it, True) for it in value if it is not None]
    if isinstance(value, dict):
        kept = (it for it in value.items() if not is_in_array or it[1] is not None)
        return {key: without_nulls(it, is_in_array) for key, it in kept}
    return value


def is_container(text):
    """Whether a JSON text is that of an array or an object."""
    return text[0] in "[{"


def difference(case, one, other):
    """Returns which of the known differences it is in which the results differ, or none."""
    if other == "-":
        return None if all(map(is_container, case)) else "a scalar at the root is an error"
    if without_nulls(json.loads(one)) == without_nulls(json.loads(other)):
        return "null is left out of an array"
    return None


def main():
    parser = argparse.ArgumentParser(description=__doc__, formatter_class=argparse.RawDescriptionHelpFormatter)
    parser.add_argument("--count", type=int, default=100_000)
    parser.add_argument("--seed", type=int, default=1)
    parser.add_argument("program", nargs="?")
    words = parser.parse_args()
    documents = Documents(f"{words.seed} evanphx")
    cases = [patch_case(documents)[0][1:] for _ in range(words.count)]
    kinds, errors = collections.Counter(), []
    for case, one, other in zip(cases, ours(words.program or program("jsonptr_tool_calls"), cases), theirs(cases), strict=True):
        if other != "-" and json.loads(one) == json.loads(other):
            kinds["no difference"] += 1
            continue
        kind = difference(case, one, other)
        kinds[kind] += 1
        if kind is None:
            errors.append(f"{case} is {one}, and there {other}")
    if errors:
        sys.exit("\n".join(f"merge_patches: {error[:2000]}" for error in sorted(errors, key=len)[:10]))
    print(f"merge_patches: {words.count}: {', '.join(f'{count} {kind}' for kind, count in kinds.most_common())}")


if __name__ == "__main__":
    main()
