#!/usr/bin/env python3
"""Lays random documents out as older texts of them are laid out.

    tools/relayouts.py [--count N] [--seed N] [PROGRAM]

PROGRAM is the built program of crates/jsonptr_tool_calls. Each old text has a layout of some kind, and the new text has
the document with some values changed, added and removed, printed by Python. The result must read as the new document. A
value that is the same in both, and that the same keys lead to, must keep its characters.
"""
import argparse
import collections
import json
import os
import random
import subprocess
import sys
from multiprocessing import Pool

from edits import spans
from edits.texts import NUMBERS, STRINGS, Texts
from harness import fields_of, line_of, program

BATCH = 2_000
# So that no document nests deeper than 127.
MOST_CONTAINERS = 100
LARGEST, LEAST = 2**64 - 1, -(2**63)


def integer(text):
    """Returns the number that `serde_json` reads for an integer."""
    value = int(text)
    return float(text) if text == "-0" or not LEAST <= value <= LARGEST else value


def read(text):
    """Returns the document of a text."""
    return json.loads(text, parse_int=integer)


def form(value):
    """Returns what two values have in common exactly if they are the same."""
    if isinstance(value, dict):
        return "{", tuple((key, form(value[key])) for key in sorted(value))
    if isinstance(value, list):
        return "[", tuple(form(it) for it in value)
    return type(value).__name__, repr(value)


class Changes:
    """Random changes of a document."""

    def __init__(self, seed):
        self.random = random.Random(seed)

    def scalar(self):
        """Returns a scalar."""
        return read(self.random.choice([*NUMBERS, *STRINGS, "true", "null"]))

    def fresh(self, depth):
        """Returns a value that nests at most so deep."""
        kind = self.random.randrange(4 if depth else 2)
        if kind == 2:
            return [self.fresh(depth - 1) for _ in range(self.random.randrange(4))]
        if kind == 3:
            return {self.random.choice("abcxyz"): self.fresh(depth - 1) for _ in range(self.random.randrange(4))}
        return self.scalar()

    def changed(self, value, chance):
        """Returns a value in which each part is changed with this chance."""
        if self.random.random() < chance / 4:
            return self.fresh(2)
        if isinstance(value, list):
            return self.elements(value, chance)
        if isinstance(value, dict):
            return self.members(value, chance)
        return self.scalar() if self.random.random() < chance else value

    def elements(self, value, chance):
        """Returns an array with some elements changed, added, moved and removed."""
        made = []
        for element in value:
            if self.random.random() < chance / 2:
                made.append(self.fresh(2))
            if self.random.random() >= chance / 2:
                made.append(self.changed(element, chance))
        if made and self.random.random() < chance / 2:
            made.insert(self.random.randrange(len(made)), made.pop(self.random.randrange(len(made))))
        return made + [self.fresh(2)] * (self.random.random() < chance / 2)

    def members(self, value, chance):
        """Returns an object with some members changed, added and removed, in another order now and then."""
        made = {key: self.changed(it, chance) for key, it in value.items() if self.random.random() >= chance / 2}
        if self.random.random() < chance:
            made[self.random.choice("abcxyz") * 2] = self.fresh(2)
        if self.random.random() < 0.2:
            made = dict(sorted(made.items(), reverse=True))
        return made


def printed(value, how):
    """Returns a text of a document, as some program prints it."""
    styles = [{"separators": (",", ":")}, {}, {"indent": 2}, {"indent": "\t", "ensure_ascii": False}]
    return json.dumps(value, **styles[how % len(styles)])


def kept(old, old_text, new, new_text):
    """Returns the first value that the same keys lead to, that is the same, and whose characters differ, or None."""
    before, after = old_text[old.start : old.end], new_text[new.start : new.end]
    if form(read(before)) == form(read(after)):
        return None if before == after else (before, after)
    if not (old.is_object and new.is_object):
        return None
    olds, news = {it.key: it.value for it in old.children}, {it.key: it.value for it in new.children}
    return next((found for key in olds if key in news and (found := kept(olds[key], old_text, news[key], new_text))), None)


def judge(old, new, kind, text):
    """Returns what is wrong with a result, or None."""
    if kind != "kept":
        return f"{kind}: {text}"
    if form(read(text)) != form(read(new)):
        return "another document"
    difference = kept(spans.read(old), old, spans.read(text), text)
    return f"lost the characters {difference}" if difference else None


def run(batch):
    """Runs some cases, and returns the kinds of their results and what is wrong."""
    path, seed, count = batch
    texts, changes = Texts(seed), Changes(seed)
    cases = []
    for number in range(count):
        old = next(it for it in iter(texts.text, None) if it.count("[") + it.count("{") < MOST_CONTAINERS)
        chance = changes.random.choice([0, 0.02, 0.1, 0.3])
        cases.append((old, printed(changes.changed(read(old), chance), number)))
    requests = "".join(line_of("relayout", *it) for it in cases)
    completed = subprocess.run([path], input=requests.encode(), stdout=subprocess.PIPE, check=True)
    fields = [fields_of(it) for it in completed.stdout.decode().split("\n")[:-1]]
    if len(fields) != len(cases):
        raise ValueError(f"{len(fields)} lines for {len(cases)} requests")
    kinds, errors = collections.Counter(), []
    for (old, new), found in zip(cases, fields):
        kinds["unchanged" if found["detail"] == old else found["kind"]] += 1
        fault = judge(old, new, found["kind"], found["detail"])
        if fault:
            errors.append((len(old) + len(new), f"{old!r} and {new!r} gave {found['detail']!r}: {fault}"))
    return kinds, errors


def main():
    parser = argparse.ArgumentParser(description=__doc__, formatter_class=argparse.RawDescriptionHelpFormatter)
    parser.add_argument("--count", type=int, default=100_000)
    parser.add_argument("--seed", type=int, default=1)
    parser.add_argument("program", nargs="?")
    words = parser.parse_args()
    path = words.program or program("jsonptr_tool_calls")
    batches = [(path, f"{words.seed} {it}", min(BATCH, words.count - it)) for it in range(0, words.count, BATCH)]
    kinds, errors = collections.Counter(), []
    with Pool(os.cpu_count()) as pool:
        for found, wrong in pool.imap_unordered(run, batches):
            kinds.update(found)
            errors += wrong
    if errors:
        sys.exit(f"relayouts: {len(errors)} wrong\n" + "\n".join(f"relayouts: {it[:900]}" for _, it in sorted(errors)[:10]))
    print(f"relayouts: {words.count} random cases, " + ", ".join(f"{count} {kind}" for kind, count in kinds.most_common()))


if __name__ == "__main__":
    main()
