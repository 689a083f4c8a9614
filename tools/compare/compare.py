#!/usr/bin/env python3
"""Compares every answer of this library with the Rust crate's.

    tools/compare/compare.py [--cases N] [--seed N] [--without DEPARTURE] OURS THEIRS

OURS is the built program of crates/jsonptr_tool_calls, THEIRS that of tools/compare/original. Both answer the same
requests. Each field in which they differ must be a departure (departures.py). Prints how often each departure occurred,
and the first other differences. The exit status is 1 if there is one.
"""
import argparse
import collections
import itertools
import subprocess
import sys
import tempfile

import departures
import generate


def answers(program, requests):
    """Runs a program on a file of requests, and yields the lines of its output."""
    with open(requests, "rb") as given, subprocess.Popen([program], stdin=given, stdout=subprocess.PIPE) as run:
        for line in run.stdout:
            yield line.decode("utf-8").rstrip("\n")
    if run.returncode:
        raise SystemExit(f"{program} ended with status {run.returncode}")


def main():
    words = argparse.ArgumentParser()
    words.add_argument("--cases", type=int, default=1_000_000)
    words.add_argument("--seed", type=int, default=1)
    words.add_argument("--without", action="append", default=[], help="takes a departure off the list")
    words.add_argument("ours")
    words.add_argument("theirs")
    words = words.parse_args()
    excused = [it for it in departures.ALL if it.__name__ not in words.without]
    met, calls, different = collections.Counter(), collections.Counter(), 0
    with tempfile.NamedTemporaryFile("w", encoding="utf-8", newline="\n") as requests:
        for line in generate.requests(words.cases, words.seed):
            requests.write(line + "\n")
        requests.flush()
        with open(requests.name, encoding="utf-8", newline="\n") as lines:
            both = itertools.zip_longest(lines, answers(words.ours, requests.name), answers(words.theirs, requests.name))
            for request, ours, theirs in both:
                if request is None or ours is None or theirs is None:
                    raise SystemExit("the programs did not answer line by line")
                request = request.rstrip("\n")
                calls[request.split("\t")[0]] += 1
                names = [] if ours == theirs and not ours.startswith("unknown") else departures.excuses(request, ours, theirs, excused)
                if names is None or ours.startswith("unknown"):
                    different += 1
                    if different <= 10:
                        print(f"{request!r}\n  ours   {ours!r}\n  theirs {theirs!r}")
                else:
                    met.update(names)
    for name, count in sorted(calls.items()):
        print(f"{count:9} {name}")
    for it in excused:
        print(f"{met[it.__name__]:9} {it.__name__}")
    print(f"{sum(calls.values())} cases, {sum(met.values())} departures in {len(met)} of {len(excused)} kinds, {different} other differences")
    return 1 if different else 0


if __name__ == "__main__":
    sys.exit(main())
