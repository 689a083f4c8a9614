#!/usr/bin/env python3
"""Counts the JSON files of this machine in which an edit brings a value that looks foreign.

    tools/foreign.py [--folder FOLDER] [--most BYTES] [PROGRAM]

PROGRAM is the built program of crates/jsonptr_tool_calls. Each row has a kind of edit, and a rule for how the new text has to
look. A file counts in a row if it has a location for the edit whose siblings agree on how it looks. The rows:

- indentation: a new object in an object over lines, in a file all of whose containers over lines indent by one unit: each level
  of the new object is indented by that unit.
- empty: a child of an empty container in a container over lines, in a file in which no container with children of that kind is
  on one line: the child has a line of its own, indented by the unit, and a colon as that of the container.
- row: a copy of the last row appended to an array over lines, each element of which is an array or object on one line with one
  style: the new row is on one line, in that style.
- flat: an object on one line with one style is replaced by one with other values: the new one has that style.
- second: an element is appended to an array of one on one line, in a file whose other arrays on one line have one style of
  comma: the new comma has that style.
- last: a member is added to an object over lines with three or more: the white space before it is that of the last member, or
  of the one before.
- deleted: the last value of a row of wrapped scalars is deleted: the next row begins where it did.
"""
import argparse
import collections
import json
import os
import re
import sys
from multiprocessing import Pool

from edits import layouts, spans
from edits.asking import Request, ask
from edits.layouts import Layout
from edits.spans import SPACE
from edits.texts import pointer
from edits_in_files import BATCH, files_in, text_of
from harness import program

KEY = "zzz-new"
NEW = {"a": {"b": [1, 2]}, "c": "d"}


def walk(value, tokens=()):
    """Yields each array and object of a document, with its tokens."""
    if value.children is None:
        return
    yield value, tokens
    for position, child in enumerate(value.children):
        yield from walk(child.value, (*tokens, str(position) if child.key is None else child.key))


def unit_of(text, value):
    """Returns by what the children of a container over lines are indented, or None if it is on one line or they disagree."""
    leads = [spans.blank_before(text, it.start) for it in value.children]
    own = spans.indentation(text, value.start)
    if not leads or not all("\n" in it for it in leads):
        return None
    units = {it[it.rfind("\n") + 1 :].removeprefix(own) if it[it.rfind("\n") + 1 :].startswith(own) else None for it in leads}
    return units.pop() if len(units) == 1 else None


def is_flat(text, value):
    """Returns whether a container has children and is on one line."""
    return bool(value.children) and "\n" not in text[value.start : value.end]


def flat_layout(text, value):
    """Returns the layout of a value on one line, or None if it has none of the usual ones."""
    own = text[value.start : value.end]
    found = [it for it in layouts.ON_LINE if layouts.laid_out(text, value, it) == own]
    return found[0] if len(found) == 1 else None


def shape_of(value):
    """Returns a value with a number in place of each scalar, since a printed scalar may have another text."""
    if isinstance(value, dict):
        return {key: shape_of(it) for key, it in value.items()}
    return [shape_of(it) for it in value] if isinstance(value, list) else 7


def indentation(text, nodes):
    """The row of indentations."""
    spread = [(it, tokens) for it, tokens in nodes if it.children and not is_flat(text, it)]
    units = {unit_of(text, it) for it, _ in spread}
    if len(units) != 1 or not (unit := units.pop()):
        return
    for value, tokens in spread:
        rows = [it for it in value.children if is_flat(text, it.value) and it.value.is_object]
        if value.is_object and not rows and all(it.key != KEY for it in value.children):
            newline = "\r\n" if "\r\n" in text else "\n"
            own = newline + spans.indentation(text, value.start) + unit
            printed = json.dumps(NEW)
            layout = Layout(newline=newline, unit=unit)
            wanted = layouts.laid_out(printed, spans.read(printed), layout, own.removeprefix(newline))
            yield "assign", (*tokens, KEY), printed, lambda new, wanted=wanted: wanted in new
            return


def colon_before(text, child):
    """Returns the colon before the value of a member, with the white space around it, or the usual one if it is an element."""
    found = re.search(r"[ \t]*:[ \t]*$", text[: child.value.start])
    return found.group() if child.key is not None and found else ": "


def empty(text, nodes):
    """The row of empty containers."""
    for kind in (True, False):
        if any(is_flat(text, it) for it, _ in nodes if it.is_object == kind):
            continue
        for value, tokens in nodes:
            for child in value.children:
                inner = child.value
                if inner.children != [] or inner.is_object != kind or "\n" in text[inner.start : inner.end]:
                    continue
                if not (unit := unit_of(text, value)):
                    continue
                token = child.key if child.key is not None else str(value.children.index(child))
                lead = spans.indentation(text, inner.start)
                newline = "\r\n" if "\r\n" in text else "\n"
                name = f'"{KEY}"{colon_before(text, child)}' if kind else ""
                wanted = f"{text[inner.start]}{newline}{lead}{unit}{name}1{newline}{lead}{text[inner.end - 1]}"
                yield "assign", (*tokens, token, KEY if kind else "-"), "1", lambda new, wanted=wanted: wanted in new
                return


def row(text, nodes):
    """The row of rows."""
    for value, tokens in nodes:
        if value.is_object or len(value.children) < 2 or not unit_of(text, value):
            continue
        styles = {flat_layout(text, it.value) if is_flat(text, it.value) else None for it in value.children}
        if len(styles) == 1 and None not in styles:
            last = value.children[-1].value
            printed = json.dumps(shape_of(json.loads(text[last.start : last.end])), sort_keys=True, ensure_ascii=False)
            wanted = layouts.laid_out(printed, spans.read(printed), styles.pop())
            gap = spans.blank_before(text, last.start)
            yield "assign", (*tokens, "-"), printed, lambda new, wanted="," + gap + wanted: wanted in new
            return


def flat(text, nodes):
    """The row of objects on one line."""
    for value, tokens in nodes:
        if value.is_object and tokens and len(value.children) > 1 and is_flat(text, value) and (layout := flat_layout(text, value)):
            printed = json.dumps({"a": 1, "b": [2, 3]})
            wanted = layouts.laid_out(printed, spans.read(printed), layout)
            yield "assign", tokens, printed, lambda new, wanted=wanted: wanted in new
            return


def second(text, nodes):
    """The row of second elements."""
    flats = [it for it, _ in nodes if is_flat(text, it) and not it.is_object]
    commas = {spans.blank_before(text, child.start) for it in flats for child in it.children[1:]}
    if len(commas) != 1:
        return
    for value, tokens in nodes:
        if is_flat(text, value) and not value.is_object and len(value.children) == 1 and value.children[0].value.children is None:
            only = value.children[0].value
            wanted = text[only.start : only.end] + "," + commas.pop() + "12345"
            yield "assign", (*tokens, "-"), "12345", lambda new, wanted=wanted: wanted in new
            return


def last(text, nodes):
    """The row of last members."""
    for value, tokens in nodes:
        if value.is_object and len(value.children) > 2 and unit_of(text, value) is not None:
            gaps = [spans.blank_before(text, it.start) for it in value.children[-2:]]
            end = text[: value.children[-1].end]
            yield "assign", (*tokens, KEY), "1", lambda new, gaps=gaps, end=end: any(
                new.startswith(f'{end},{gap}"{KEY}"') for gap in gaps)
            return


def deleted(text, nodes):
    """The row of deleted values."""
    for value, tokens in nodes:
        leads = [spans.blank_before(text, it.start) for it in value.children]
        for position in range(2, len(leads) - 1):
            if "\n" in leads[position + 1] and "\n" not in leads[position] and "\n" not in leads[position - 1] and not value.is_object:
                before = text[: value.children[position - 1].end]
                after = text[value.children[position].end :]
                yield "delete", (*tokens, str(position)), "", lambda new, wanted=before + after: new == wanted
                return


ROWS = {"indentation": indentation, "empty": empty, "row": row, "flat": flat, "second": second, "last": last, "deleted": deleted}


def kind_of(text, nodes):
    """Returns the kind of a file: by what its containers are indented."""
    units = collections.Counter(unit_of(text, it) for it, _ in nodes if it.children and not is_flat(text, it))
    if not units:
        return "one line"
    unit = units.most_common(1)[0][0]
    return "mixed" if unit is None else "tab" if unit == "\t" else f"{len(unit)} spaces" if unit.strip(" ") == "" else "other"


def run(words):
    """Edits a batch of files. Returns how many files of each kind counted in each row, and which looked foreign."""
    path, files = words
    cases = []
    for file in files:
        text = text_of(file)
        nodes = list(walk(spans.read(text)))
        kind = kind_of(text, nodes)
        for name, find in ROWS.items():
            for command, tokens, argument, rule in find(text, nodes):
                cases.append((file, kind, name, rule, Request(command, text, pointer(tokens), argument)))
    outcomes = ask(path, [it[-1] for it in cases])
    counted, foreign = collections.Counter(), []
    for (file, kind, name, rule, request), outcome in zip(cases, outcomes):
        counted[name, kind] += 1
        if outcome.kind != "in place" or not rule(outcome.detail):
            foreign.append((name, kind, f"{file}: {request.command} {request.pointer} {request.argument[:60]}"))
    return counted, foreign


def main():
    parser = argparse.ArgumentParser(description=__doc__, formatter_class=argparse.RawDescriptionHelpFormatter)
    parser.add_argument("--folder", default="/")
    parser.add_argument("--most", type=int, default=100_000)
    parser.add_argument("program", nargs="?")
    words = parser.parse_args()
    path = os.path.abspath(words.program or program("jsonptr_tool_calls"))
    paths = list(files_in(words.folder, words.most))
    counted, foreign = collections.Counter(), []
    with Pool(os.cpu_count()) as pool:
        files = [path for path, text in zip(paths, pool.imap(text_of, paths, BATCH)) if text is not None]
        for found, wrong in pool.imap_unordered(run, [(path, files[it : it + BATCH]) for it in range(0, len(files), BATCH)]):
            counted.update(found)
            foreign += wrong
    print(f"{len(files)} files")
    wrong = collections.Counter((name, kind) for name, kind, _ in foreign)
    print("| Row | Kind | Files | Foreign |\n|---|---|---|---|")
    for name, kind in sorted(counted):
        print(f"| {name} | {kind} | {counted[name, kind]} | {wrong[name, kind]} |")
    for name in ROWS:
        for _, kind, told in [it for it in foreign if it[0] == name][:5]:
            print(f"{name}, {kind}: {told}", file=sys.stderr)
    if any(sum(wrong[it] for it in wrong if it[0] == name) * 100 > sum(counted[it] for it in counted if it[0] == name) for name in ROWS):
        sys.exit("foreign: more than one in a hundred files of a row")


if __name__ == "__main__":
    main()
