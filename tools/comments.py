#!/usr/bin/env python3
"""Reads past the comments of random texts, and edits random files with comments.

    tools/comments.py [--count N] [--files N] [--seed N] [PROGRAM]

PROGRAM is the built program of crates/jsonptr_tool_calls. Of N random texts with comments and trailing commas, half are
damaged. What is left of each must be what a reader in Python leaves; of a text that is not damaged, also what its
parts leave. Each edit of a file with comments, and each patch of up to five, must make the text that is expected, byte
for byte: the file is a tree of children with their comments, which is edited in Python and laid out again.
"""
import argparse
import collections
import os
import random
import subprocess
import sys
from multiprocessing import Pool

from commented import files, texts
from harness import fields_of, line_of, program

BATCH = 5_000
KINDS = ("same", "copy", "not closed")


def ask(path, requests):
    """Returns the kind of each result, and its text or error."""
    given = "".join(line_of("comments", *it) for it in requests).encode()
    completed = subprocess.run([path], input=given, stdout=subprocess.PIPE, check=True)
    lines = completed.stdout.decode().split("\n")[:-1]
    if len(lines) != len(requests):
        raise ValueError(f"{len(lines)} lines for {len(requests)} requests")
    return [(fields["kind"], fields.get("detail", "")) for fields in map(fields_of, lines)]


def read_texts(words):
    """Reads past the comments of a batch of texts. Returns how many came to each kind, and the errors."""
    path, seed, count = words
    made = texts.Texts(seed)
    cases = [made.case() for _ in range(count)]
    kinds, errors = collections.Counter(), []
    for case, result in zip(cases, ask(path, [("read past", case.text, "", "") for case in cases])):
        kinds[result[0]] += 1
        wanted = texts.read_past(case.text)
        if result != wanted:
            errors.append(f"{case.text!r} leaves {result}, and not {wanted}")
        if case.left is not None and result[1] != case.left:
            errors.append(f"{case.text!r} leaves {result}, and its parts leave {case.left!r}")
    return kinds, errors


def edit_files(words):
    """Makes a batch of edits of files. Returns how many there were of each kind, and the errors."""
    path, seed, count = words
    chance = random.Random(seed)
    cases = [files.case(chance) for _ in range(count)]
    kinds, errors = collections.Counter(), []
    for case, result in zip(cases, ask(path, [case.request for case in cases])):
        kinds[case.kind] += 1
        if result != ("in place", case.wanted):
            errors.append(f"{case.request}\nbecomes {result}\nand not\n{case.wanted}")
    return kinds, errors


def batches(path, seed, count):
    """Returns the words of each batch."""
    return [(path, f"{seed} {start}", min(BATCH, count - start)) for start in range(0, count, BATCH)]


def main():
    parser = argparse.ArgumentParser(description=__doc__, formatter_class=argparse.RawDescriptionHelpFormatter)
    parser.add_argument("--count", type=int, default=100_000)
    parser.add_argument("--files", type=int, default=10_000)
    parser.add_argument("--seed", type=int, default=1)
    parser.add_argument("program", nargs="?")
    words = parser.parse_args()
    path = words.program or program("jsonptr_tool_calls")
    kinds, edits, errors = collections.Counter(), collections.Counter(), []
    with Pool(os.cpu_count()) as pool:
        for found, wrong in pool.imap_unordered(read_texts, batches(path, words.seed, words.count)):
            kinds.update(found)
            errors += wrong
        for found, wrong in pool.imap_unordered(edit_files, batches(path, words.seed, words.files)):
            edits.update(found)
            errors += wrong
    errors += [f"too few texts of {kind}" for kind in KINDS if words.count and kinds[kind] < words.count // 500]
    if errors:
        sys.exit("\n".join(f"comments: {error[:2000]}" for error in sorted(errors, key=len)[:10]))
    of_texts = ", ".join(f"{count} {kind}" for kind, count in kinds.most_common())
    of_files = ", ".join(f"{count} {kind}" for kind, count in edits.most_common())
    print(f"comments: {words.count} texts, {of_texts}; {words.files} edits of files, {of_files}; no difference")


if __name__ == "__main__":
    main()
