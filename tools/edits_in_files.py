#!/usr/bin/env python3
"""Makes random edits of the JSON files of this machine.

    tools/edits_in_files.py [--count N] [--seed N] [--folder FOLDER] [--most BYTES] [PROGRAM]

PROGRAM is the built program of crates/jsonptr_tool_calls. The files are those below FOLDER whose names end in `.json`, of at
most so many bytes, which read as JSON. Of each edit, an assignment, a deletion or one operation of a patch, nothing outside the
edited piece may change, as `edits_in_text.py` judges it, and Python's `json` has to read the new text as the document that the
edit makes of the old one in Python.
"""
import argparse
import collections
import json
import os
import random
import sys
from multiprocessing import Pool

from edits import spans
from edits.asking import ask
from edits.judging import whole
from edits.texts import VALUES, Texts
from edits_in_text import judge, requests_of
from harness import TOP, program
from patches import Refused, index_of, printed, removed, step

BATCH = 100
PASSED_OVER = ("/proc", "/sys", "/dev", "/tmp", os.path.dirname(TOP))


def files_in(folder, most):
    """Yields the paths of the `.json` files of at most so many bytes below a folder."""
    for at, folders, names in os.walk(folder):
        folders[:] = sorted(it for it in folders if os.path.join(at, it) not in PASSED_OVER)
        for path in (os.path.join(at, it) for it in sorted(names) if it.endswith(".json")):
            if os.path.isfile(path) and not os.path.islink(path) and os.path.getsize(path) <= most:
                yield path


def text_of(path):
    """Returns the text of a file, or None if it is not JSON."""
    try:
        with open(path, encoding="utf-8", newline="") as it:
            text = it.read()
        spans.read(text)
        return text
    except (OSError, UnicodeDecodeError, spans.NotJson):
        return None


def expanded(tokens, value):
    """Returns a value below new containers."""
    for token in reversed(tokens):
        value = [value] if token in ("0", "-") else {token: value}
    return value


def assigned(node, tokens, value):
    """Returns a node with a value assigned."""
    if not tokens or not isinstance(node, (dict, list)):
        return expanded(tokens, value)
    token, rest = tokens[0], tokens[1:]
    if isinstance(node, list):
        token = len(node) if token == "-" else index_of(token, len(node))
        if token == len(node):
            return [*node, expanded(rest, value)]
    elif token not in node:
        return {**node, token: expanded(rest, value)}
    node[token] = assigned(node[token], rest, value)
    return node


def edited(case):
    """Returns the document that an edit makes, printed, or None if it fails."""
    command, text, tokens, argument = case
    document = json.loads(text, parse_int=whole)
    try:
        if command == "assign":
            document = assigned(document, tokens, json.loads(argument, parse_int=whole))
        elif command == "delete":
            document = removed(document, tokens)[0]
        else:
            for operation in json.loads(argument, parse_int=whole):
                document = step(document, operation)
    except Refused:
        return None
    return printed(document)


def fault_of(case, outcomes):
    """Returns what is wrong with the outcomes of an edit, or None."""
    outcome, wanted = outcomes[-1], edited(case)
    if outcome.kind == "too deep":
        return judge(case, outcomes)
    made = printed(json.loads(outcome.detail, parse_int=whole)) if outcome.kind == "in place" else None
    if made != wanted:
        return f"Python makes {str(wanted)[:200]}, and the edit {outcome.kind} {str(made)[:200]}"
    return judge(case, outcomes)


class Edits(Texts):
    """Random edits of a given text."""

    def edit(self, text, root):
        """Returns a random edit of a text."""
        kind = self.random.random()
        if kind < 0.45:
            return "assign", text, self.tokens(root), self.random.choice(VALUES)
        if kind < 0.75:
            return "delete", text, self.tokens(root), ""
        return "apply", text, [], json.dumps([self.operation(root)])


def run(words):
    """Makes a batch of edits. Returns how many came to each kind of outcome, how many bytes had to stay, and the errors."""
    path, seed, files = words
    edits = Edits(seed)
    texts = [(it, text_of(it)) for it in files]
    cases = [(it, edits.edit(text, spans.read(text))) for it, text in texts if text is not None]
    requests = [requests_of(it) for _, it in cases]
    outcomes = iter(ask(path, [it for each in requests for it in each]))
    kinds, bytes_read, errors = collections.Counter(), 0, []
    for (file, case), asked in zip(cases, requests):
        came = [next(outcomes) for _ in asked]
        kinds[came[-1].kind] += 1
        bytes_read += len(case[1].encode())
        fault = fault_of(case, came)
        if fault:
            errors.append(f"{file}: {case[0]} {case[2]} {case[3]}: {fault[:400]}")
    return kinds, bytes_read, errors


def main():
    parser = argparse.ArgumentParser(description=__doc__, formatter_class=argparse.RawDescriptionHelpFormatter)
    parser.add_argument("--count", type=int, default=10_000)
    parser.add_argument("--seed", type=int, default=1)
    parser.add_argument("--folder", default="/")
    parser.add_argument("--most", type=int, default=100_000)
    parser.add_argument("program", nargs="?")
    words = parser.parse_args()
    path = os.path.abspath(words.program or program("jsonptr_tool_calls"))
    picks, paths = random.Random(words.seed), list(files_in(words.folder, words.most))
    kinds, bytes_read, errors = collections.Counter(), 0, []
    with Pool(os.cpu_count()) as pool:
        files = [path for path, text in zip(paths, pool.imap(text_of, paths, BATCH)) if text is not None]
        chosen = [picks.choice(files) for _ in range(words.count)]
        batches = [(path, f"{words.seed} {it}", chosen[it : it + BATCH]) for it in range(0, words.count, BATCH)]
        for found, read, wrong in pool.imap_unordered(run, batches):
            kinds.update(found)
            bytes_read += read
            errors += wrong
    if errors:
        sys.exit("\n".join(f"edits_in_files: {it}" for it in errors[:20]) + f"\n{len(errors)} of {words.count} edits differ")
    came = ", ".join(f"{count} {kind}" for kind, count in kinds.most_common())
    print(f"edits_in_files: {kinds.total()} edits of {len(set(chosen))} files, {bytes_read} bytes: {came}, no difference")


if __name__ == "__main__":
    main()
