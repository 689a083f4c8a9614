#!/usr/bin/env python3
"""Merges random documents: by merge patches (RFC 7396), and of two changed copies.

    tools/merges.py [--count N] [--seed N] [PROGRAM]

PROGRAM is the built program of crates/jsonptr_tool_calls. Of each of four things there are N:

- a merge patch, applied to a document: the new document must be that of the RFC's own pseudocode, in Python;
- a merge patch that is made: it must be the one that is expected, or the error must have the pointer to the first member that is
  newly null; and the RFC's pseudocode must make the new document of it;
- a document and two changed copies: the merge, or the list of its conflicts, must be that of a plain version in Python;
- two JSON Patches (RFC 6902) of a document whose pointers lead through objects alone and are apart: the merge of what each makes
  must be what both make, one after the other.
"""
import argparse
import collections
import copy
import json
import os
import random
import subprocess
import sys
from multiprocessing import Pool

from harness import fields_of, line_of, program
from patches import added, pointer_of, removed, replaced

BATCH = 5000
KEYS = ("a", "b", "c", "a/b", "~", "", "\u00e9")
SCALARS = (None, True, False, 0, 1, 1.0, -0.0, 0.0, "", "a", 2**63, 0.5)
NONE = object()


def text_of(value):
    """Returns the JSON text of a value, with sorted keys."""
    return json.dumps(value, ensure_ascii=False, separators=(",", ":"), sort_keys=True)


def same(one, two):
    """Whether two values are the same. Numbers are by their form: 1 and 1.0 differ, and so do 0.0 and -0.0."""
    if one is NONE or two is NONE:
        return one is two
    return text_of(one) == text_of(two)


def merge_patched(target, patch):
    """MergePatch of RFC 7396, section 2."""
    if not isinstance(patch, dict):
        return patch
    made = dict(target) if isinstance(target, dict) else {}
    for key, value in patch.items():
        if value is None:
            made.pop(key, None)
        else:
            made[key] = merge_patched(made.get(key), value)
    return made


class NewNull(Exception):
    """A member that is newly null, so that no merge patch makes it."""


def merge_patch_of(old, new, tokens=()):
    """Returns the merge patch that makes `new` of `old`."""
    if not isinstance(new, dict):
        return new
    before = old if isinstance(old, dict) else {}
    made = {}
    for key in sorted({*before, *new}, key=str.encode):
        way = (*tokens, key)
        if key not in new:
            made[key] = None
        elif not same(before.get(key, NONE), new[key]):
            if new[key] is None:
                raise NewNull(pointer_of(way))
            made[key] = merge_patch_of(before.get(key, NONE), new[key], way)
    return made


def merged(base, ours, theirs, tokens, conflicts):
    """Returns the merge of two changed copies of `base`, or of parts of them, and lists their conflicts."""
    if same(ours, theirs) or same(base, theirs):
        return ours
    if same(base, ours):
        return theirs
    if not all(isinstance(it, dict) for it in (base, ours, theirs)):
        conflicts.append((pointer_of(tokens), base, ours, theirs))
        return NONE
    made = {}
    for key in sorted({*base, *ours, *theirs}, key=str.encode):
        sides = (it.get(key, NONE) for it in (base, ours, theirs))
        member = merged(*sides, (*tokens, key), conflicts)
        if member is not NONE:
            made[key] = member
    return made


class Documents:
    """Random documents."""

    def __init__(self, seed):
        self.random = random.Random(seed)

    def value(self, depth=3):
        """Returns a value that nests at most so deep."""
        kind = self.random.random()
        if depth == 0 or kind < 0.4:
            return self.random.choice(SCALARS)
        if kind < 0.55:
            return [self.value(depth - 1) for _ in range(self.random.randrange(3))]
        return self.object(depth)

    def object(self, depth=3):
        """Returns an object."""
        return {key: self.value(depth - 1) for key in self.random.sample(KEYS, self.random.randrange(4))}

    def changed(self, value):
        """Returns a value with some changes, mostly below objects."""
        if not isinstance(value, dict) or self.random.random() < 0.1:
            return self.value(2) if self.random.random() < 0.4 else copy.deepcopy(value)
        made = {}
        for key, member in value.items():
            chance = self.random.random()
            if chance > 0.15:
                made[key] = copy.deepcopy(member) if chance > 0.6 else self.changed(member)
        if self.random.random() < 0.4:
            made[self.random.choice(KEYS)] = self.value(2)
        return made

    def places(self, document):
        """Returns the tokens of each object to which objects lead, and those of their members and of one that is not there."""
        rows, found = [((), document)], []
        while rows:
            tokens, there = rows.pop()
            for key in KEYS:
                found.append(((*tokens, key), key in there))
                if isinstance(there.get(key), dict):
                    rows.append(((*tokens, key), there[key]))
        return found

    def operations(self, document, places):
        """Makes some operations at these places. Returns their pointers, and the document after them."""
        made, used = copy.deepcopy(document), []
        for tokens, is_there in places:
            kind = self.random.choice(("add", "remove", "replace")) if is_there else "add"
            if kind == "add":
                made = added(made, list(tokens), self.value(2))
            elif kind == "remove":
                made = removed(made, list(tokens))[0]
            else:
                made = replaced(made, list(tokens), self.value(2))
            used.append(tokens)
        return used, made


def are_apart(one, two):
    """Whether neither of two lists of tokens begins with the other."""
    length = min(len(one), len(two))
    return one[:length] != two[:length]


def apart(places):
    """Returns the places of which none is above another one."""
    kept = []
    for tokens, is_there in places:
        if all(are_apart(tokens, other) for other, _ in kept):
            kept.append((tokens, is_there))
    return kept


def patch_case(documents):
    """Returns the request for a merge patch, and the result that is expected."""
    document, patch = documents.value(), documents.value()
    if documents.random.random() < 0.6:
        patch = documents.changed(document)
    made = text_of(merge_patched(document, patch))
    return ("patch", text_of(document), text_of(patch)), {"kind": "made", "detail": made, "again": made}


def make_case(documents):
    """Returns the request for making a merge patch, and the result that is expected."""
    old = documents.value()
    new = documents.changed(old) if documents.random.random() < 0.8 else documents.value()
    try:
        patch = merge_patch_of(old, new)
    except NewNull as error:
        return ("make", text_of(old), text_of(new)), {"kind": "null", "detail": str(error)}
    if not same(merge_patched(old, patch), new):
        raise ValueError(f"{patch} does not make {new} of {old}")
    return ("make", text_of(old), text_of(new)), {"kind": "made", "detail": text_of(patch)}


def shown(value):
    """Returns how a value of a conflict is written."""
    return "none" if value is NONE else text_of(value)


def three_case(documents):
    """Returns the request for a merge of two changed copies, and the result that is expected."""
    base = documents.object() if documents.random.random() < 0.9 else documents.value()
    ours, theirs = documents.changed(base), documents.changed(base)
    conflicts = []
    made = merged(base, ours, theirs, (), conflicts)
    wanted = {"kind": "made", "detail": "" if conflicts else text_of(made)}
    if conflicts:
        listed = ("".join(f"{it};" for it in (path, *map(shown, sides))) for path, *sides in conflicts)
        wanted = {"kind": "conflicts", "detail": "".join(listed)}
    return ("three", *map(text_of, (base, ours, theirs))), wanted


def apart_case(documents):
    """Returns the request for a merge of what two patches make that are apart, and the result that is expected."""
    base = documents.object(4)
    places = documents.places(base)
    documents.random.shuffle(places)
    chosen = apart(places[: documents.random.randrange(2, 7)])
    cut = documents.random.randrange(len(chosen) + 1)
    _, ours = documents.operations(base, chosen[:cut])
    state = documents.random.getstate()
    _, theirs = documents.operations(base, chosen[cut:])
    documents.random.setstate(state)
    _, both = documents.operations(ours, chosen[cut:])
    return ("three", *map(text_of, (base, ours, theirs))), {"kind": "made", "detail": text_of(both)}


CASES = {"patch": patch_case, "make": make_case, "three": three_case, "apart": apart_case}


def run(words):
    """Makes a batch of merges. Returns how many there were of each kind, and the errors."""
    path, name, seed, count = words
    documents = Documents(seed)
    cases = [CASES[name](documents) for _ in range(count)]
    given = "".join(line_of("merge", *request) for request, _ in cases).encode()
    completed = subprocess.run([path], input=given, stdout=subprocess.PIPE, check=True)
    lines = completed.stdout.decode().split("\n")[:-1]
    if len(lines) != count:
        raise ValueError(f"{len(lines)} lines for {count} requests")
    kinds, errors = collections.Counter(), []
    for (request, wanted), line in zip(cases, lines):
        found = fields_of(line)
        kinds[name, wanted["kind"]] += 1
        if found != wanted:
            errors.append(f"{request}\nis {found}\nand not {wanted}")
    return kinds, errors


def main():
    parser = argparse.ArgumentParser(description=__doc__, formatter_class=argparse.RawDescriptionHelpFormatter)
    parser.add_argument("--count", type=int, default=100_000)
    parser.add_argument("--seed", type=int, default=1)
    parser.add_argument("program", nargs="?")
    words = parser.parse_args()
    path = words.program or program("jsonptr_tool_calls")
    batches = [
        (path, name, f"{words.seed} {name} {start}", min(BATCH, words.count - start))
        for name in CASES
        for start in range(0, words.count, BATCH)
    ]
    kinds, errors = collections.Counter(), []
    with Pool(os.cpu_count()) as pool:
        for found, wrong in pool.imap_unordered(run, batches):
            kinds.update(found)
            errors += wrong
    for name, kind in (("make", "null"), ("three", "conflicts"), ("three", "made")):
        if kinds[name, kind] < words.count // 100:
            errors.append(f"too few of {name}: {kind}")
    if errors:
        sys.exit("\n".join(f"merges: {error[:2000]}" for error in sorted(errors, key=len)[:10]))
    listed = ", ".join(f"{count} {name} ({kind})" for (name, kind), count in sorted(kinds.items()))
    print(f"merges: {words.count} of each: {listed}; no difference")


if __name__ == "__main__":
    main()
