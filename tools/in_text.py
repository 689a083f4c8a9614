#!/usr/bin/env python3
"""Compares resolving in text with reading and resolving, on random texts and pointers, valid and damaged.

    tools/in_text.py [--count N] [--seed N] [PROGRAM]

PROGRAM is the built program of crates/jsonptr_tool_calls. For each case `resolve_in_text` and `resolve_in_slice` must
say what `Value::from_slice` and then `resolve` say, and `exists_in_text` must fit that. What is found in a text that
Python reads too must be the value that Python finds there.
"""
import argparse
import collections
import json
import os
import random
import subprocess
import sys
from concurrent.futures import ThreadPoolExecutor

from harness import fields_of, line_of, program

KEYS = ["a", "b", "", "0", "1", "01", "-", "a/b", "m~n", "é", "k\n", "😀"]
NUMBERS = [
    "0", "-0", "1", "-1", "18446744073709551615", "18446744073709551616", "-9223372036854775808", "-9223372036854775809",
    "1e308", "1.7976931348623157e308", "1.7976931348623159e308", "1e309", "-1e309", "1e-400", "0.1", "2.5E+3", "9" * 308,
    "9" * 309, "1" + "0" * 320, "01", "1.", "+1", "-", ".5", "1e",
]
STRINGS = [
    '""', '"a"', '"\\u0061"', '"é"', '"\\n\\"\\\\"', '"\\ud83d\\ude00"', '"\\ud83d"', '"\\ude00"', '"\\ud83d\\u0061"',
    '"\\x"', '"\t"', '"\\u12"', '"',
]
GOOD_NUMBERS, GOOD_STRINGS = 11, 6
FIELDS = ["text", "slice", "exists", "read"]
SPACES = ["", "", "", " ", "\n\t", "\r"]
WRONG = ["", "{", "}", "[", "]", ",", ":", '"', "\\", "0", "-", "e", "t", "null", " ", "\x00", "\x1f", "1e999", "é"]


class Texts:
    """Random texts and pointers."""

    def __init__(self, seed):
        self.random = random.Random(seed)

    def string(self):
        """Returns a JSON string, rarely a wrong one."""
        rare = self.random.random() < 0.01
        return self.random.choice(STRINGS if rare else STRINGS[:GOOD_STRINGS])

    def key(self):
        """Returns a key as a JSON string, with an escape now and then."""
        text = self.random.choice(KEYS)
        if self.random.random() < 0.2:
            return '"' + "".join(f"\\u{ord(it):04x}" if ord(it) < 65536 else it for it in text) + '"'
        return json.dumps(text, ensure_ascii=False)

    def scalar(self):
        """Returns a scalar, rarely a wrong one."""
        kind = self.random.randrange(3)
        if kind == 0:
            return self.random.choice(NUMBERS if self.random.random() < 0.03 else NUMBERS[:GOOD_NUMBERS])
        return self.string() if kind == 1 else self.random.choice(["true", "false", "null"])

    def value(self, depth):
        """Returns a value that nests at most this deep, and rarely arrays or objects to depths around 127."""
        if self.random.random() < 0.002:
            count = self.random.randrange(120, 131)
            front, back = self.random.choice([("[", "]"), ('{"a":', "}"), ('{"a":1,"a":', "}")])
            return front * count + self.scalar() + back * count
        if depth == 0 or self.random.random() < 0.3:
            return self.scalar()
        space, count = self.random.choice(SPACES), self.random.randrange(5)
        if self.random.random() < 0.4:
            return "[" + ",".join(space + self.value(depth - 1) for _ in range(count)) + space + "]"
        members = (f"{space}{self.key()}{space}:{space}{self.value(depth - 1)}" for _ in range(count))
        return "{" + ",".join(members) + space + "}"

    def damaged(self, text):
        """Returns the bytes of a text with some of them missing, repeated or wrong."""
        bytes_of = text.encode()
        start = self.random.randrange(len(bytes_of) + 1)
        end = min(len(bytes_of), start + self.random.choice([0, 1, 1, 2, 5]))
        kind = self.random.randrange(8)
        if kind == 0:
            return bytes_of[:start]
        if kind == 1:
            return bytes_of[:start] + self.random.randbytes(1) + bytes_of[end:]
        if kind == 2:
            return bytes_of[:end] + bytes_of[start:]
        return bytes_of[:start] + self.random.choice(WRONG).encode() + bytes_of[end:]

    def pointer(self, text):
        """Returns a pointer, which mostly follows the value that Python reads from the text."""
        tokens, at = [], None
        try:
            at = json.loads(text)
        except (ValueError, RecursionError):
            pass
        for _ in range(self.random.choice([0, 1, 1, 2, 2, 3, 4, 130])):
            if self.random.random() < 0.1:
                tokens.append(self.random.choice([*KEYS, "2", "18446744073709551616", "x"]))
                at = None
            elif isinstance(at, dict) and at:
                tokens.append(self.random.choice(list(at)))
                at = at[tokens[-1]]
            elif isinstance(at, list) and at:
                index = self.random.randrange(len(at))
                tokens.append(str(index))
                at = at[index]
            elif self.random.random() < 0.5:
                tokens.append(self.random.choice(KEYS))
                at = None
            else:
                break
        return "".join("/" + it.replace("~", "~0").replace("/", "~1") for it in tokens)

    def case(self):
        """Returns a pointer and the bytes of a text."""
        text = self.random.choice(SPACES) + self.value(self.random.randrange(5)) + self.random.choice(SPACES)
        pointer = self.pointer(text)
        return pointer, self.damaged(text) if self.random.random() < 0.4 else text.encode("utf-8", "surrogatepass")


def whole(digits):
    """Returns a whole number as `serde_json` reads it: as a float if it does not fit 64 bits."""
    number = int(digits)
    return number if -(1 << 63) <= number < 1 << 64 else float(digits)


def python_finds(pointer, data):
    """Returns whether Python reads the text and finds a value by the pointer, and that value."""
    try:
        at = json.loads(data.decode(), parse_int=whole)
        for token in pointer.split("/")[1:]:
            token = token.replace("~1", "/").replace("~0", "~")
            at = at[int(token)] if isinstance(at, list) else at[token]
        return True, at
    except (ValueError, KeyError, IndexError, TypeError, RecursionError):
        return False, None


def is_same_value(text, value):
    """Returns whether a printed value is this one."""
    return json.loads(text, parse_int=whole) == value


def kind_of(said):
    """Returns the kind of what the calls said."""
    for error in ("not JSON", "NotFound", "Unreachable", "OutOfBounds", "FailedToParseIndex"):
        if said.startswith(error):
            return error
    return "a value"


def fault_of(pointer, data, fields):
    """Returns what is wrong with the fields that were printed for a case, or None."""
    text, in_slice, exists, read = (fields[it] for it in FIELDS)
    if in_slice != read:
        return "resolve_in_slice differs"
    is_utf8 = text != "not UTF-8"
    if is_utf8 and text != read:
        return "resolve_in_text differs"
    kind = kind_of(read)
    if is_utf8 and exists != {"a value": "true", "not JSON": "not JSON"}.get(kind, "false"):
        return "exists_in_text does not fit"
    if kind == "a value":
        found, value = python_finds(pointer, data)
        if not found or not is_same_value(read, value):
            return "Python finds another value"
    return None


def run(path, seed, count):
    """Runs cases. Returns how many were of each kind, and the errors."""
    texts = Texts(seed)
    cases = [texts.case() for _ in range(count)]
    lines = "".join(line_of("find", pointer, data.hex()) for pointer, data in cases)
    completed = subprocess.run([path], input=lines.encode(), stdout=subprocess.PIPE, check=True)
    said = completed.stdout.decode().split("\n")[:-1]
    kinds, errors = collections.Counter(), []
    if len(said) != len(cases):
        errors.append(f"{len(said)} lines for {len(cases)} cases")
    for (pointer, data), line in zip(cases, said):
        fields = fields_of(line)
        fault = fault_of(pointer, data, fields) if sorted(fields) == sorted(FIELDS) else "not four fields"
        kinds[kind_of(fields.get("read", ""))] += 1
        if fault:
            errors.append(f"{fault}: {pointer!r} in {data!r}: {line!r}")
    return kinds, errors


def main():
    parser = argparse.ArgumentParser(description=__doc__, formatter_class=argparse.RawDescriptionHelpFormatter)
    parser.add_argument("--count", type=int, default=100_000)
    parser.add_argument("--seed", type=int, default=1)
    parser.add_argument("program", nargs="?")
    words = parser.parse_args()
    path, workers = words.program or program("jsonptr_tool_calls"), os.cpu_count() or 1
    parts = [words.count // workers + (it < words.count % workers) for it in range(workers)]
    kinds, errors = collections.Counter(), []
    with ThreadPoolExecutor(workers) as pool:
        for found, wrong in pool.map(lambda it: run(path, f"{words.seed} {it}", parts[it]), range(workers)):
            kinds.update(found)
            errors += wrong
    rare = [kind for kind in ("a value", "not JSON", "NotFound", "Unreachable", "OutOfBounds", "FailedToParseIndex") if kinds[kind] < words.count // 200]
    errors += [f"too few cases of {kind}" for kind in rare]
    if errors:
        sys.exit("\n".join(f"in_text: {error[:600]}" for error in errors[:20]))
    print(f"in_text: {words.count} cases, " + ", ".join(f"{count} {kind}" for kind, count in kinds.most_common()) + ", no difference")


if __name__ == "__main__":
    main()
