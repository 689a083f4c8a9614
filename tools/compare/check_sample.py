#!/usr/bin/env python3
"""Compares this library with the stored results of the Rust crate: tools/compare/check_sample.py OURS

OURS is the built program of crates/jsonptr_tool_calls. Each field in which an answer differs must be a departure
(departures.py), and each departure must occur. Otherwise the exit status is 1.
"""
import collections
import os
import subprocess
import sys

import departures

HERE = os.path.dirname(os.path.abspath(__file__))


def lines_of(name):
    """Returns the lines of a file of the sample."""
    with open(f"{HERE}/sample/{name}.txt", encoding="utf-8", newline="\n") as file:
        return file.read().split("\n")[:-1]


def main(ours):
    requests, theirs = lines_of("requests"), lines_of("answers")
    completed = subprocess.run([ours], input="\n".join(requests) + "\n", stdout=subprocess.PIPE, encoding="utf-8", check=True)
    answers = completed.stdout.split("\n")[:-1]
    met, different = collections.Counter(), abs(len(requests) - len(answers))
    for request, our_answer, their_answer in zip(requests, answers, theirs):
        names = [] if our_answer == their_answer else departures.excuses(request, our_answer, their_answer)
        if names is None:
            different += 1
            print(f"{request!r}\n  ours   {our_answer!r}\n  theirs {their_answer!r}")
        else:
            met.update(names)
    unmet = [it.__name__ for it in departures.ALL if not met[it.__name__]]
    for name in unmet:
        print(f"no answer shows the departure {name}")
    print(f"check_sample: {len(requests)} answers of the Rust crate, {sum(met.values())} departures in {len(met)} kinds, {different} other differences")
    return 1 if different or unmet else 0


if __name__ == "__main__":
    sys.exit(main(*sys.argv[1:]))
