#!/usr/bin/env python3
"""Runs random edits of TOML texts: of files of this machine, and of random texts.

    tools/edits_in_toml.py [--count N] [--compare N] [--seed N] [--files FOLDER] [PROGRAM]

PROGRAM is the built program of crates/jsonptr_tool_calls. Each new text must read, by Python's `tomllib`, as the document
after the edit. Each that is edited in place must be the old text with one piece more or less, or the text of the value
replaced. The first N edits are also made by Python's `tomlkit` (Debian: python3-tomlkit), if it is there: in 95 of 100 the
lines that `diff` shows must be no more. Without --files only random texts are edited.
"""
import argparse
import collections
import copy
import difflib
import os
import random
import subprocess
import sys
import tomllib

from edits.toml_texts import TomlTexts
from harness import fields_of, line_of, program

SCALARS = ("42", "-7", "true", '"new text"', "3.5", '"a\\\\b"', "1979-05-27T07:32:00Z", '\'it "is"\'', "nan", "-0.0")
TABLES = ('{ a = 1, b = "x" }', "{ version = '1', features = ['a', 'b'] }", "{ in = { deep = 1 } }")
ARRAYS = ("[1, 2]", "['a']", "[]", "[{ a = 1 }, { b = 2 }]")
LIMITS = {"scalar by scalar": 2, "new key": 2, "new key two below": 2, "appended": 2, "deleted key": 2}
LIMITS |= {"table by table": 10, "deleted table": 10, "new table": 10}


KINDS = ("scalar by scalar", "new key", "appended", "deleted key") * 3
KINDS += (*LIMITS, "new key anywhere", "array by array", "deleted array", "table by scalar", "appended table")


class Wrong(Exception):
    """A new text that is not the expected one."""


def plain(value):
    """Returns a value that is equal to that of the same value alone, also of a NaN, a zero and a boolean.

    `tomllib` reads each line break of a text as `\\n`, and the kit does not.
    """
    if isinstance(value, dict):
        return {key: plain(it) for key, it in value.items()}
    if isinstance(value, list):
        return [plain(it) for it in value]
    if isinstance(value, str):
        value = value.replace("\r\n", "\n")
    return type(value).__name__, repr(value)


def places(value, tokens=()):
    """Returns each value in a document, with its tokens."""
    yield tokens, value
    pairs = value.items() if isinstance(value, dict) else enumerate(value) if isinstance(value, list) else ()
    for token, child in pairs:
        yield from places(child, (*tokens, token))


def value_at(document, tokens):
    """Returns the value at the tokens."""
    for token in tokens:
        document = document[token]
    return document


def pointer_of(tokens):
    """Returns the JSON Pointer of the tokens."""
    return "".join("/" + str(it).replace("~", "~0").replace("/", "~1") for it in tokens)


class Cases:
    """Random edits: the kind, the text, the tokens, and the value as TOML, or None for a deletion."""

    def __init__(self, seed, texts):
        self.random = random.Random(seed)
        self.own = TomlTexts(seed)
        self.texts = texts

    def text(self):
        """Returns a text that `tomllib` reads, and its document."""
        while True:
            text = self.random.choice(self.texts) if self.texts and self.random.random() < 0.5 else self.own.text()
            try:
                return text, tomllib.loads(text.removeprefix("\ufeff"))
            except tomllib.TOMLDecodeError:
                continue

    def case(self):
        """Returns an edit, or None if there is none of the kind."""
        kind = self.random.choice(KINDS)
        text, document = self.text()
        wanted = {"appended": list, "table": dict, "array": list}
        word = kind.split()[1] if kind.split()[0] in ("new", "deleted") else kind.split()[0]
        if kind.startswith("new"):
            word = "table"
        chosen = [tokens for tokens, it in places(document) if self.fits(it, wanted.get(word))]
        if kind == "new key":
            chosen = [it[:-1] for it, value in places(document) if it and self.fits(value, None) and isinstance(it[-1], str)]
        if kind.startswith("appended"):
            chosen = [it for it in chosen if self.has_tables(value_at(document, it)) == (kind == "appended table")]
        if not kind.startswith(("new", "appended")):
            chosen = [it for it in chosen if it]
        if not chosen:
            return None
        return kind, text, document, *self.edit(kind, self.random.choice(chosen))

    @staticmethod
    def has_tables(elements):
        """Returns whether the elements are tables."""
        return bool(elements) and all(isinstance(it, dict) for it in elements)

    @staticmethod
    def fits(value, kind):
        """Returns whether the value is of the kind: a table, an array, or neither."""
        return isinstance(value, kind) if kind else not isinstance(value, (dict, list))

    def edit(self, kind, tokens):
        """Returns the tokens and the value of an edit."""
        if kind.startswith("deleted"):
            return tokens, None
        more = {"new key": ("zz-new",), "new key anywhere": ("zz-new",), "new key two below": ("zz-new", "in"), "new table": ("zz-new",)}
        last = kind.rsplit(" ", 1)[-1]
        values = TABLES if last == "table" else ARRAYS if last == "array" else SCALARS
        if kind.startswith("appended"):
            more[kind] = ("-",)
        return (*tokens, *more.get(kind, ())), self.random.choice(values)


def after(document, tokens, value):
    """Returns the document after the edit."""
    document = copy.deepcopy(document)
    *front, last = tokens
    here = document
    for index, token in enumerate(front):
        if isinstance(here, dict) and token not in here:
            here[token] = {}
        here = here[token]
    if value is None:
        del here[last]
    elif last == "-":
        here.append(tomllib.loads(f"v = {value}")["v"])
    else:
        here[last] = tomllib.loads(f"v = {value}")["v"]
    return document


def check(case, kind, new):
    """Fails if the new text is not right."""
    name, old, document, tokens, value = case
    try:
        got = tomllib.loads(new.removeprefix("\ufeff"))
    except tomllib.TOMLDecodeError as error:
        raise Wrong(f"{error}") from None
    if plain(got) != plain(after(document, tokens, value)):
        raise Wrong("another document")
    if kind == "in place":
        check_bytes(name, old, new, document, tokens)


def check_bytes(name, old, new, document, tokens):
    """Fails if more than one piece of the text changed, or more than the value."""
    front = len(os.path.commonprefix([old, new]))
    back = len(os.path.commonprefix([old[front:][::-1], new[front:][::-1]]))
    was, piece = old[front : len(old) - back], new[front : len(new) - back]
    if name.startswith(("new", "appended")) and was and not piece.startswith(",") and not piece.rstrip().endswith(was.strip()):
        raise Wrong(f"{was!r} becomes {piece!r}")
    if name == "deleted key" and piece.strip() and "{" not in piece and "[" not in piece:
        raise Wrong(f"{was!r} becomes {piece!r}")
    if name == "scalar by scalar" and "\n" in was and "\n" not in str(value_at(document, tokens)):
        if '"""' not in old and "'''" not in old:
            raise Wrong(f"{was!r} becomes {piece!r}")


def changed_lines(old, new):
    """Returns how many lines `diff` shows."""
    old, new = old.splitlines(), new.splitlines()
    while old and new and old[0] == new[0]:
        del old[0], new[0]
    while old and new and old[-1] == new[-1]:
        del old[-1], new[-1]
    same = sum(it.size for it in difflib.SequenceMatcher(None, old, new, False).get_matching_blocks())
    return len(old) + len(new) - 2 * same


def by_tomlkit(tomlkit, case):
    """Returns the new text that `tomlkit` makes, or None if it fails or is wrong."""
    _, old, document, tokens, value = case
    try:
        edited = tomlkit.parse(old)
        *front, last = tokens
        here = edited
        for token in front:
            if isinstance(here, dict) and token not in here:
                here[token] = tomlkit.table()
            here = here[token]
        if value is None:
            del here[last]
        elif last == "-":
            here.append(tomllib.loads(f"v = {value}")["v"])
        else:
            here[last] = tomllib.loads(f"v = {value}")["v"]
        new = tomlkit.dumps(edited)
        return new if plain(tomllib.loads(new)) == plain(after(document, tokens, value)) else None
    except Exception:  # each of its faults is one
        return None


def ask(path, cases):
    """Returns what kind of text each edit makes, and the text."""
    requests = (line_of("toml", "delete" if it[4] is None else "assign", it[1], pointer_of(it[3]), it[4] or "") for it in cases)
    completed = subprocess.run([path], input="".join(requests).encode(), stdout=subprocess.PIPE, check=True)
    fields = [fields_of(it) for it in completed.stdout.decode().split("\n")[:-1]]
    if len(fields) != len(cases):
        raise ValueError(f"{len(fields)} lines for {len(cases)} requests")
    return [(it["kind"], it["detail"]) for it in fields]


def texts_of(folder):
    """Returns the TOML texts of the folder, each once, up to 60,000 bytes long."""
    found = set()
    for name in (f"{top}/{it}" for top, _, names in os.walk(folder) for it in names if it.endswith(".toml")):
        try:
            with open(name, encoding="utf-8", newline="") as file:
                text = file.read(60_001)
            tomllib.loads(text)
        except (OSError, UnicodeDecodeError, tomllib.TOMLDecodeError):
            continue
        if len(text) <= 60_000:
            found.add(text)
    return sorted(found)


def compare(cases, outcomes):
    """Returns a line on the lines that change beside `tomlkit`, and whether they are few enough."""
    try:
        import tomlkit
    except ImportError:
        return "tomlkit is not there", True
    few, all_edits, kinds = 0, 0, collections.Counter()
    for case, (kind, new) in zip(cases, outcomes):
        if kind in ("in place", "rewritten"):
            theirs = by_tomlkit(tomlkit, case)
            is_few = theirs is None or changed_lines(case[1], new) <= changed_lines(case[1], theirs)
            few, all_edits = few + is_few, all_edits + 1
            kinds[case[0]] += not is_few
    more = ", ".join(f"{count} {name}" for name, count in kinds.most_common() if count)
    return f"{few} of {all_edits} change at most as many lines as by tomlkit; more: {more}", few >= 0.95 * all_edits


def main():
    parser = argparse.ArgumentParser(description=__doc__, formatter_class=argparse.RawDescriptionHelpFormatter)
    parser.add_argument("--count", type=int, default=10_000)
    parser.add_argument("--compare", type=int, default=1_000)
    parser.add_argument("--seed", type=int, default=1)
    parser.add_argument("--files")
    parser.add_argument("program", nargs="?")
    words = parser.parse_args()
    run(words, lambda cases: ask(words.program or program("jsonptr_tool_calls"), cases))


def run(words, ask_all):
    """Makes the edits, and prints what came of them."""
    made = Cases(words.seed, texts_of(words.files) if words.files else [])
    cases = [it for it in (made.case() for _ in range(4 * words.count)) if it][: words.count]
    outcomes = ask_all(cases)
    kinds, errors = collections.defaultdict(collections.Counter), []
    for case, (kind, new) in zip(cases, outcomes):
        kinds[case[0]][kind] += 1
        try:
            if kind not in ("in place", "rewritten"):
                raise Wrong(f"{kind}: {new}")
            check(case, kind, new)
        except Wrong as fault:
            errors.append((len(case[1]), f"{fault}: {case[0]} {case[1]!r} {pointer_of(case[3])} {case[4]} becomes {new!r}"))
    for name, limit in LIMITS.items():
        if kinds[name]["rewritten"] * 100 > limit * kinds[name].total():
            errors.append((0, f"{kinds[name]['rewritten']} of {kinds[name].total()} rewritten: {name}"))
    line, is_few = compare(cases[: words.compare], outcomes) if words.compare else ("none beside tomlkit", True)
    if not is_few:
        errors.append((0, line))
    table = "".join(f"\n  {name}: {sum(it.values())}, rewritten {it['rewritten']}" for name, it in sorted(kinds.items()))
    if errors:
        print(f"{table}\n{line}")
        sys.exit("\n".join(f"edits_in_toml: {error[:900]}" for _, error in sorted(errors)[:20]))
    print(f"edits_in_toml: {len(cases)} random edits, no difference; {line}{table}")


if __name__ == "__main__":
    main()
