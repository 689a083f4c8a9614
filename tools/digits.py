"""Compares `jptr diff` and `jptr patch` on random pairs of documents with long numbers: no digit is lost without an error.

    tools/digits.py [PAIRS]               2,000 pairs if no number is given
    tools/digits.py --library [PAIRS]     the same by the Python module jsonptr, which tools/c/build made

Of each pair, the patch of `jptr diff OLD NEW` makes of OLD a document whose numbers have the decimal values of NEW, exactly. Or
it fails, with a pointer that leads to a number whose nearest double has another decimal value; then the patch that --lossy
prints makes a document with other decimal values. With --lossy it never fails. Of the module, a document that is read with exact numbers fails so. Python's `decimal` and `json` are the judges.
"""
import functools
import importlib
import json
import os
import re
import subprocess
import sys
import tempfile
from concurrent.futures import ThreadPoolExecutor
from decimal import Decimal
from random import Random

from harness import CheckFailed, program

ERROR = re.compile(r"jptr: (\S+): (?:the number(?: at (\S*))?|a number) loses digits: use --lossy\n")
NUMBERS = ["0", "-0", "-0.0", "1.10", "1e5", "1E+2", "0.1", "5e-324", "1e-400", "12345678901234567890123", "18446744073709551615",
           "18446744073709551616", "-9223372036854775808", "-9223372036854775809", "3.14159265358979323846", "9007199254740993.0", "1e20"]


def number(random):
    """Returns the text of a number."""
    if random.random() < 0.6:
        return random.choice(NUMBERS)
    digits = "".join(random.choice("0123456789") for _ in range(random.randint(1, 22)))
    whole = digits.lstrip("0") or "0"
    fraction = f".{digits}" if random.random() < 0.4 else ""
    power = f"e{random.randint(-40, 40)}" if random.random() < 0.3 else ""
    return f"{random.choice(['', '-'])}{whole}{fraction}{power}"


def document(random, depth=3, exact=False):
    """Returns the text of a document. If it is to be exact, no number loses digits."""
    kind = random.randint(0, 5) if depth else 0
    if kind == 1:
        return "[" + ", ".join(document(random, depth - 1, exact) for _ in range(random.randint(0, 4))) + "]"
    if kind >= 2:
        keys = random.sample("abcde", random.randint(0, 4))
        return "{" + ", ".join(f'"{key}": {document(random, depth - 1, exact)}' for key in keys) + "}"
    text = number(random)
    while exact and loses(text):
        text = number(random)
    return random.choice([text, text, text, "true", '"text"'])


def loses(text):
    """Returns whether the number is no whole number of 64 bits, and its nearest double is printed with another value."""
    if re.fullmatch(r"-?\d+", text) and -(2**63) <= int(text) < 2**64:
        return False
    return Decimal(repr(float(text))) != Decimal(text)


def values(text):
    """Returns the document with exact numbers."""
    return json.loads(text, parse_float=Decimal, parse_int=Decimal)


def numbers(text):
    """Returns the texts of the numbers of a document."""
    return re.findall(r"-?\d+(?:\.\d+)?(?:[eE][-+]?\d+)?", re.sub(r'"[^"]*"', "", text))


def resolve(text, pointer):
    """Returns the text of the number at the pointer."""
    value = json.loads(text, parse_float=lambda raw: ("number", raw), parse_int=lambda raw: ("number", raw))
    for token in pointer.split("/")[1:]:
        value = value[int(token)] if isinstance(value, list) else value[token]
    return value[1]


@functools.lru_cache(None)
def built():
    """Returns the path of the program."""
    return program("jptr")


def run(*words, stdin=""):
    """Runs the program."""
    return subprocess.run([built(), *words], input=stdin, capture_output=True, text=True, timeout=60, check=False)


def pair(seed):
    """Returns the texts of two documents."""
    random = Random(seed)
    exact = random.random() < 0.5
    before, after = document(random, exact=exact), document(random, exact=exact)
    if random.random() < 0.5:
        after = changed(random, before, exact)
    elif random.random() < 0.5:
        after = changed(random, spelled(random, before), random.random() < 0.5)
    return before, after


def check_pair(folder, seed):
    """Compares one pair. Returns whether the difference failed."""
    texts = dict(zip((f"{folder}/{seed}.old", f"{folder}/{seed}.new"), pair(seed)))
    for name, text in texts.items():
        with open(name, "w", encoding="utf-8") as file:
            file.write(text)
    (old, before), (new, after) = texts.items()
    given = run("diff", old, new)
    try:
        judge(given, texts, old, before, new, after)
    finally:
        os.remove(old)
        os.remove(new)
    return given.returncode == 3


def spelled(random, text):
    """Returns the document with some of its numbers written in another way, or with another digit."""
    def other(found):
        raw = found[0]
        if random.random() < 0.7 or found[1]:
            return raw
        if random.random() < 0.2:
            return raw[:-1] + random.choice("123456789")
        return raw + ("0" if "." in raw else ".0") + random.choice(["", "00"]) if "e" not in raw.lower() else raw
    return re.sub(r'("[^"]*")|-?\d+(?:\.\d+)?(?:[eE][-+]?\d+)?', other, text)


def changed(random, text, exact):
    """Returns the document with one member or element more."""
    more = document(random, 1, exact)
    if text.startswith("{"):
        return text[:-1] + (", " if len(text) > 2 else "") + f'"z": {more}}}'
    if text.startswith("["):
        return text[:-1] + (", " if len(text) > 2 else "") + f"{more}]"
    return more


def judge(given, texts, old, before, new, after):
    """Fails if digits are lost without an error."""
    if given.returncode == 3:
        error = ERROR.fullmatch(given.stderr)
        if not error or error[1] not in texts or before == after:
            raise CheckFailed(f"diff of {before} and {after}: {given.stderr!r}")
        if not any(map(loses, numbers(texts[error[1]]) if ": a number" in given.stderr else [resolve(texts[error[1]], error[2] or "")])):
            raise CheckFailed(f"diff of {before} and {after}: {given.stderr!r}, where no digit is lost")
        lossy = run("diff", "--lossy", old, new)
        if lossy.returncode not in (0, 1):
            raise CheckFailed(f"diff --lossy of {before} and {after}: {lossy.stderr!r}")
        patched = run("patch", "-", old, stdin=lossy.stdout)
        if patched.returncode == 0 and values(patched.stdout) == values(after):
            raise CheckFailed(f"diff of {before} and {after}: {given.stderr!r}, but {lossy.stdout} loses no digit")
        return
    if given.returncode not in (0, 1):
        raise CheckFailed(f"diff of {before} and {after}: status {given.returncode}, {given.stderr!r}")
    patched = run("patch", "-", old, stdin=given.stdout)
    if patched.returncode != 0 or values(patched.stdout) != values(after):
        raise CheckFailed(f"diff of {before} and {after}, {given.stdout}: the patch makes {patched.stdout!r} {patched.stderr!r}")


def read(module, text):
    """Returns the document of the text, or None if a number of it loses digits."""
    try:
        return module.Document(text)
    except module.NotExact as error:
        lost = resolve(text, error.pointer)
        if not loses(lost) or text[error.offset:error.offset + error.length] != lost:
            raise CheckFailed(f"{text}: {error}, at {error.offset}, where no digit is lost") from None
        if module.lost_number(text) != error.pointer or values(module.Document(text, lossy=True).text()) == values(text):
            raise CheckFailed(f"{text}: {error}, but not by another call") from None
        return None


def check_library(module, seed):
    """Compares one pair by the module. Returns whether a number lost digits."""
    before, after = pair(seed)
    old, new = read(module, before), read(module, after)
    if old is None or new is None:
        return True
    module.make_patch(old, new).apply_with_inverse(old)
    if values(old.text()) != values(after):
        raise CheckFailed(f"{before} and {after}: the patch makes {old.text()}")
    return False


def main():
    words = [word for word in sys.argv[1:] if word != "--library"]
    count = int(words[0]) if words else 2_000
    if len(words) < len(sys.argv[1:]):
        module = importlib.import_module("jsonptr")
        failed = sum(check_library(module, seed) for seed in range(count))
        print(f"digits: {count} pairs by the library, of which {failed} had a number that loses digits")
        return
    with tempfile.TemporaryDirectory() as folder, ThreadPoolExecutor(4) as pool:
        failed = sum(pool.map(lambda seed: check_pair(folder, seed), range(count)))
    print(f"digits: {count} pairs, of which {failed} had a number that loses digits")


if __name__ == "__main__":
    try:
        main()
    except CheckFailed as failure:
        sys.exit(f"digits: {failure}")
