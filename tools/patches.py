#!/usr/bin/env python3
"""Applies random patches and takes them back, and applies pairs of patches in both orders.

    tools/patches.py [--count N] [--seed N] [PROGRAM]

PROGRAM is the built program of crates/jsonptr_tool_calls. N random patches are applied by `apply` and by
`apply_with_inverse`. The documents must be those of a plain version in Python, and so must the number of the operation that
fails. What takes a patch back must restore the document, here and in Python. Of N random pairs, the two orders must make the
same document if the pointers diverge at objects.
"""
import argparse
import collections
import copy
import json
import os
import random
import subprocess
import sys
from multiprocessing import Pool

from harness import fields_of, line_of, program

BATCH = 5000
KEYS = ("a", "b", "c", "d", "a/b", "~", "")


class Refused(Exception):
    """An operation that fails."""


def tokens_of(pointer):
    """Returns the tokens of a pointer."""
    return [it.replace("~1", "/").replace("~0", "~") for it in pointer.split("/")[1:]]


def pointer_of(tokens):
    """Returns the pointer of tokens."""
    return "".join("/" + it.replace("~", "~0").replace("/", "~1") for it in tokens)


def index_of(token, most):
    """Returns the index that a token refers to, up to `most`."""
    if not (token.isascii() and token.isdigit()) or (token[0] == "0" and token != "0") or int(token) > most:
        raise Refused
    return int(token)


def child(node, token):
    """Returns the child of a node."""
    if isinstance(node, dict) and token in node:
        return node[token]
    if isinstance(node, list):
        return node[index_of(token, len(node) - 1)]
    raise Refused


def found(document, tokens):
    """Returns the value that tokens evaluate to."""
    for token in tokens:
        document = child(document, token)
    return document


def added(document, tokens, value):
    """Returns the document with a value added."""
    if not tokens:
        return value
    parent, last = found(document, tokens[:-1]), tokens[-1]
    if isinstance(parent, dict):
        parent[last] = value
    elif isinstance(parent, list):
        parent.insert(len(parent) if last == "-" else index_of(last, len(parent)), value)
    else:
        raise Refused
    return document


def removed(document, tokens):
    """Returns the document without a value, and the value."""
    value = found(document, tokens)
    if not tokens:
        return None, value
    parent, last = found(document, tokens[:-1]), tokens[-1]
    del parent[last if isinstance(parent, dict) else int(last)]
    return document, value


def replaced(document, tokens, value):
    """Returns the document with a value replaced."""
    found(document, tokens)
    if not tokens:
        return value
    parent, last = found(document, tokens[:-1]), tokens[-1]
    parent[last if isinstance(parent, dict) else int(last)] = value
    return document


def printed(value):
    """Returns a document as a text, with sorted keys."""
    return json.dumps(value, sort_keys=True, ensure_ascii=False)


def step(document, operation):
    """Returns the document after an operation, as RFC 6902 has it."""
    name, path = operation["op"], tokens_of(operation["path"])
    if name == "add":
        return added(document, path, copy.deepcopy(operation["value"]))
    if name == "remove":
        return removed(document, path)[0]
    if name == "replace":
        return replaced(document, path, copy.deepcopy(operation["value"]))
    if name == "test":
        if printed(found(document, path)) != printed(operation["value"]):
            raise Refused
        return document
    source = tokens_of(operation["from"])
    if name == "copy":
        return added(document, path, copy.deepcopy(found(document, source)))
    if len(source) < len(path) and path[: len(source)] == source:
        raise Refused
    document, value = removed(document, source)
    return added(document, path, value)


def patched(document, patch):
    """Returns the document after a patch and None, or the document before it and the number of the operation that fails."""
    now = copy.deepcopy(document)
    for number, operation in enumerate(patch):
        try:
            now = step(now, operation)
        except Refused:
            return document, number
    return now, None


def pointers_of(patch):
    """Returns the tokens of each pointer of a patch."""
    return [tokens_of(it[name]) for it in patch for name in ("from", "path") if name in it]


def diverge(document, left, right):
    """Returns whether two lists of tokens diverge at an object of the document."""
    for position, (x, y) in enumerate(zip(left, right)):
        if x != y:
            try:
                return isinstance(found(document, left[:position]), dict)
            except Refused:
                return False
    return False


def are_apart(document, left, right):
    """Returns whether each pointer of one patch diverges from each of the other at an object of the document."""
    return all(diverge(document, x, y) for x in pointers_of(left) for y in pointers_of(right))


class Patches:
    """Random documents and patches."""

    def __init__(self, seed):
        self.random = random.Random(seed)

    def value(self, depth=0):
        """Returns a random value."""
        kind = self.random.random()
        if depth < 3 and kind < (0.95 if depth == 0 else 0.3):
            return {it: self.value(depth + 1) for it in self.random.sample(KEYS, self.random.randint(0, 5))}
        if depth < 3 and kind < 0.5:
            return [self.value(depth + 1) for _ in range(self.random.randint(0, 4))]
        return self.random.choice([None, True, "x", 0, 1, 2, 3])

    def pointer(self, document, new=False):
        """Returns a random pointer, mostly of a value that is there, or with `new` of a place for one."""
        tokens, node = [], document
        while isinstance(node, (dict, list)) and node and self.random.random() < 0.75:
            token = self.random.choice(list(node)) if isinstance(node, dict) else str(self.random.randrange(len(node)))
            tokens.append(token)
            node = child(node, token)
        chance = self.random.random()
        if new and isinstance(node, dict) and chance < 0.8:
            tokens.append(self.random.choice(KEYS))
        elif new and isinstance(node, list) and chance < 0.8:
            tokens.append(self.random.choice(["-", str(len(node)), "0"]))
        elif chance < 0.03:
            tokens.append(self.random.choice(["-", "01", "zz", "9"]))
        return pointer_of(tokens)

    def operation(self, document, used):
        """Returns a random operation. Often it is at a pointer of an earlier one."""
        name = self.random.choice(["add", "remove", "remove", "replace", "move", "move", "move", "copy", "test"])
        again = used and self.random.random() < 0.35
        path = self.random.choice(used) if again else self.pointer(document, name in ("add", "move", "copy"))
        operation = {"op": name, "path": path}
        if name in ("move", "copy"):
            operation["from"] = self.random.choice(used) if used and self.random.random() < 0.2 else self.pointer(document)
        elif name != "remove":
            operation["value"] = self.value(2)
        if name == "test" and self.random.random() < 0.9:
            try:
                operation["value"] = copy.deepcopy(found(document, tokens_of(path)))
            except Refused:
                pass
        return operation

    def patch(self, document, most=7):
        """Returns a random patch, most of which applies."""
        now, patch, used = copy.deepcopy(document), [], []
        for _ in range(self.random.randint(1, most)):
            operation = self.operation(now, used)
            made, failed = patched(now, [operation])
            if failed is not None and self.random.random() < 0.85:
                continue
            patch.append(operation)
            used += [operation[it] for it in ("from", "path") if it in operation]
            now = made
        return patch


def ask(path, cases):
    """Returns the fields of each case: a document and a patch."""
    given = "".join(line_of("patch", json.dumps(document), json.dumps(patch)) for document, patch in cases).encode()
    completed = subprocess.run([path], input=given, stdout=subprocess.PIPE, check=True)
    lines = completed.stdout.decode().split("\n")[:-1]
    if len(lines) != len(cases):
        raise ValueError(f"{len(lines)} lines for {len(cases)} cases")
    return [fields_of(it) for it in lines]


def fault_of(document, patch, fields):
    """Returns what is wrong with the outcome of a patch, or None."""
    made, failed = patched(document, patch)
    if printed(json.loads(fields["made"])) != printed(made):
        return f"apply makes {fields['made']}, expected {printed(made)}"
    if printed(json.loads(fields["restored"])) != printed(document):
        return f"taken back: {fields['restored']}"
    if failed is not None:
        wanted = f"patch failed at operation {failed}:"
        wrong = [it for it in (fields["done"], fields["back"]) if not it.startswith(wanted)]
        return f"{wrong[0]}, expected {wanted}" if wrong else None
    if fields["done"] != "done" or printed(json.loads(fields["again"])) != printed(made):
        return f"apply_with_inverse makes {fields.get('again')}, expected {printed(made)}"
    if printed(patched(made, json.loads(fields["back"]))[0]) != printed(document):
        return f"the operations {fields['back']} do not take it back"
    return None


def run_patches(words):
    """Runs a batch of random patches. Returns how many came to each outcome, and the errors."""
    path, seed, count = words
    patches = Patches(f"patch {seed}")
    documents = [patches.value() for _ in range(count)]
    cases = [(it, patches.patch(it)) for it in documents]
    kinds, errors = collections.Counter(), []
    for (document, patch), fields in zip(cases, ask(path, cases)):
        kinds["applied" if fields["done"] == "done" else "failed"] += 1
        kinds["moved back"] += '"move"' in fields["back"]
        fault = fault_of(document, patch, fields)
        if fault:
            errors.append((len(patch), f"{fault}: {printed(document)} by {json.dumps(patch)}"))
    return kinds, errors


def run_pairs(words):
    """Runs a batch of random pairs of patches in both orders. Returns how many are apart and not, and the errors."""
    path, seed, count = words
    patches = Patches(f"pair {seed}")
    kinds, errors, cases, lengths = collections.Counter(), [], [], []
    for _ in range(count):
        document = patches.value()
        left, right = patches.patch(document, 3), patches.patch(document, 3)
        cases += [(document, left + right), (document, right + left)]
        lengths.append(len(left))
    outcomes = ask(path, cases)
    for position in range(0, len(cases), 2):
        (document, patch), (_, turned) = cases[position], cases[position + 1]
        for each, fields in zip((patch, turned), outcomes[position : position + 2]):
            fault = fault_of(document, each, fields)
            if fault:
                errors.append((len(each), f"{fault}: {printed(document)} by {json.dumps(each)}"))
        first, second = (it["made"] for it in outcomes[position : position + 2])
        length = lengths[position // 2]
        apart = are_apart(document, patch[:length], patch[length:])
        kinds["apart" if apart else "not apart"] += 1
        if apart and first != second:
            errors.append((len(patch), f"two orders make {first} and {second}: {printed(document)} by {json.dumps(patch)}"))
    return kinds, errors


def run(words):
    """Runs a batch."""
    return (run_patches if words[0] == "patches" else run_pairs)(words[1:])


def main():
    parser = argparse.ArgumentParser(description=__doc__, formatter_class=argparse.RawDescriptionHelpFormatter)
    parser.add_argument("--count", type=int, default=100_000)
    parser.add_argument("--seed", type=int, default=1)
    parser.add_argument("program", nargs="?")
    words = parser.parse_args()
    path = words.program or program("jsonptr_tool_calls")
    starts = [(kind, it) for kind in ("patches", "pairs") for it in range(0, words.count, BATCH)]
    batches = [(kind, path, f"{words.seed} {it}", min(BATCH, words.count - it)) for kind, it in starts]
    kinds, errors = collections.Counter(), []
    with Pool(os.cpu_count()) as pool:
        for counts, wrong in pool.imap_unordered(run, batches):
            kinds.update(counts)
            errors += wrong
    rare = [kind for kind in ("applied", "failed", "moved back", "apart", "not apart") if kinds[kind] < words.count // 100]
    errors += [(0, f"too few cases: {kind}") for kind in rare]
    if errors:
        sys.exit("\n".join(f"patches: {error[:900]}" for _, error in sorted(errors)[:20]))
    print(f"patches: {words.count} patches and {words.count} pairs, " + ", ".join(f"{count} {kind}" for kind, count in kinds.most_common()) + ", no difference")


if __name__ == "__main__":
    main()
