#!/usr/bin/env python3
"""Runs worked examples of edits in texts, edits of files, and random edits of random texts.

    tools/edits_in_text.py [--count N] [--seed N] [PROGRAM]

PROGRAM is the built program of crates/jsonptr_tool_calls. The worked examples (edits/rows.py) and the files (edits/files.py)
have their new texts and the lines that `diff` shows. Of N random edits each new text must read as the document that
`assign`, `delete` or `apply` makes, and each error must be theirs. A reader in Python finds where an edit lands in the old
text: no character outside changes, and what comes has the white space of its siblings. No document may be printed anew.
"""
import argparse
import collections
import json
import os
import sys
from multiprocessing import Pool

from edits import files, rows
from edits.asking import Request, ask
from edits.judging import check_meaning, judge_assign, judge_delete, judge_patch
from edits.landing import Wrong
from edits.texts import Texts, pointer
from harness import program

BATCH = 5000
KINDS = ("in place", "none", "refused", "not JSON", "too deep")


def requests_of(case):
    """Returns the requests of a case: of a patch one for each of its prefixes."""
    command, text, tokens, argument = case
    if command != "apply":
        return [Request(command, text, pointer(tokens), argument)]
    operations = json.loads(argument)
    prefixes = (json.dumps(operations[:count]) for count in range(len(operations) + 1))
    return [Request(command, text, "", it) for it in prefixes]


def judge(case, outcomes):
    """Judges the outcomes of a case. Returns what is wrong with them, or None."""
    command, text, tokens, argument = case
    try:
        if command == "apply":
            judge_patch(text, json.loads(argument), outcomes)
            return None
        check_meaning(outcomes[0])
        if command == "assign":
            judge_assign(text, tokens, argument, outcomes[0])
        else:
            judge_delete(text, tokens, outcomes[0])
        return None
    except Wrong as fault:
        return f"{fault}: {case} becomes {outcomes[-1][:2]}"


def run(words):
    """Runs a batch of random cases. Returns how many requests came to each kind of outcome, and the errors."""
    path, seed, count = words
    texts = Texts(seed)
    cases = [texts.case() for _ in range(count)]
    requests = [requests_of(it) for it in cases]
    outcomes = iter(ask(path, [it for each in requests for it in each]))
    kinds, errors = collections.Counter(), []
    for case, asked in zip(cases, requests):
        came = [next(outcomes) for _ in asked]
        kinds.update(it.kind for it in came)
        fault = judge(case, came)
        if fault:
            errors.append((len(case[1]) + len(case[3]), fault))
    return kinds, errors


def faults_of_examples(path):
    """Returns what is wrong with the outcomes of the worked examples and of the files."""
    pairs = [list(rows.requests_of(it)) for it in rows.ROWS]
    outcomes = iter(ask(path, [request for each in pairs for request, _ in each]))
    errors = [fault for row, each in zip(rows.ROWS, pairs) for fault in rows.faults(row, [next(outcomes) for _ in each])]
    outcomes = ask(path, [files.request_of(it) for it in files.CHANGES])
    return errors + [it for it in map(files.fault_of, files.CHANGES, outcomes) if it]


def main():
    parser = argparse.ArgumentParser(description=__doc__, formatter_class=argparse.RawDescriptionHelpFormatter)
    parser.add_argument("--count", type=int, default=100_000)
    parser.add_argument("--seed", type=int, default=1)
    parser.add_argument("program", nargs="?")
    words = parser.parse_args()
    path = words.program or program("jsonptr_tool_calls")
    starts = range(0, words.count, BATCH)
    batches = [(path, f"{words.seed} {it}", min(BATCH, words.count - it)) for it in starts]
    kinds, errors = collections.Counter(), [(0, it) for it in faults_of_examples(path)]
    with Pool(os.cpu_count()) as pool:
        for found, wrong in pool.imap_unordered(run, batches):
            kinds.update(found)
            errors += wrong
    rare = [kind for kind in KINDS if kinds[kind] < words.count // 5000]
    errors += [(0, f"too few cases of {kind}") for kind in rare]
    if errors:
        sys.exit("\n".join(f"edits_in_text: {error[:900]}" for _, error in sorted(errors)[:20]))
    examples = f"{len(rows.ROWS)} examples, {len(files.CHANGES)} edits of files"
    print(f"edits_in_text: {examples}, {words.count} random cases, " + ", ".join(f"{count} {kind}" for kind, count in kinds.most_common()) + ", no difference")


if __name__ == "__main__":
    main()
