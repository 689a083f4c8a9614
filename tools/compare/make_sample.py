#!/usr/bin/env python3
"""Makes the sample of the Rust crate's answers: tools/compare/make_sample.py THEIRS

THEIRS is the built program of tools/compare/original. From many random requests it keeps some for each call, each shape
of an answer and each departure. It writes them with the Rust crate's answers to sample/requests.txt and
sample/answers.txt, which check_sample.py reads.
"""
import collections
import os
import re
import subprocess
import sys

import departures
import generate

HERE = os.path.dirname(os.path.abspath(__file__))
CASES, SEED = 600_000, 11
# The maximum number of cases of one shape, and of one call.
EACH, OF_A_CALL = 60, 290
WORDS = "None true false Less Equal Greater stops done Next Empty Overflow LeadingZeros Tilde Slash FailedToParseIndex OutOfBounds NotFound Unreachable".split()


def kind_of(value):
    """Returns the kind of a field's value, as the part of it that does not vary."""
    if value in WORDS:
        return value
    found = re.match(r"=|Num|InvalidCharacter|OutOfBounds|\d+\+0 |\d+\+1 |\d+\+|\d+,\d+ ", value)
    return re.sub(r"\d+(?=[+,])", "", found[0]) if found else str(bool(value))


def shape_of(request, answer):
    """Returns the shape of a request and its answer: the call and the kinds of the fields."""
    words, fields = request.split("\t"), departures.fields_of(answer)
    named = words[2:3] if words[0] == "get" else words[1:2] if words[0] in ("resolve", "write", "assign", "delete", "resolve error", "assign error") else []
    if words[0] == "number":
        named = [words[1].split(":")[0]]
    if words[0] == "edit":
        fields = fields[:4]
    return (words[0], *named, *((name, kind_of(value)) for name, value in fields))


def main(theirs):
    requests = [*generate.requests(CASES, SEED, length=3)]
    completed = subprocess.run([theirs], input="\n".join(requests) + "\n", stdout=subprocess.PIPE, encoding="utf-8", check=True)
    answers = completed.stdout.split("\n")[:-1]
    cases = sorted(set(zip(requests, answers)), key=lambda it: (len(it[0]), it))
    count, kept = collections.Counter(), []
    for request, answer in cases:
        shape = shape_of(request, answer)
        if count[shape] < EACH:
            count[shape] += 1
            kept.append((count[shape], request, answer))
    # For each call: the first case of each shape, then the second of each, up to the maximum.
    kept, room = sorted(kept, key=lambda it: it[0]), collections.Counter()
    chosen = []
    for _, request, answer in kept:
        call = request.split("\t")[0]
        room[call] += 1
        if room[call] <= OF_A_CALL:
            chosen.append((request, answer))
    kept = sorted(chosen)
    print(f"{len(count)} shapes, {len(kept)} cases")
    for name, at in (("requests", 0), ("answers", 1)):
        with open(f"{HERE}/sample/{name}.txt", "w", encoding="utf-8", newline="\n") as file:
            file.writelines(it[at] + "\n" for it in kept)


if __name__ == "__main__":
    main(*sys.argv[1:])
