#!/usr/bin/env python3
"""Makes docs/API.md, the index of all public items, from the sources, and checks that it is up to date.

    tools/api.py            checks
    tools/api.py --write    writes the page anew

Each library of crates.txt has a table for its root and for each public module: the item, the first sentence of its doc
comment, and a link to its file. An item has its row under its shortest path. What a crate names again of another crate
has a link to that crate's table.
"""
import functools
import os
import re
import sys
from typing import NamedTuple

import public_items
import repository

PAGE = f"{repository.TOP}/docs/API.md"
CALLERS = ("jsonptr_conditions", "jsonptr_uses")
ITEM = re.compile(r"(?:pub )?(?:unsafe )?(?:const )?(?:fn|struct|enum|trait|type|const) (\w+)")
METHOD = re.compile(r"    (pub )?(?:const )?(?:unsafe )?fn (\w+)")
OWNER = re.compile(r"impl(?:<[^{]*?>)? ?(?!.* for )(\w+)")
OWNERS = ("struct", "enum", "trait")

HEAD = """# API

Every public item of the libraries, with the first sentence of its documentation. The link leads to its file, where the
whole documentation has errors, costs and examples, with the contract below it. `tools/api.py --write` makes this page.

A user of the port lists `jsonptr` alone: its table names what it takes from the crates below it. Who edits texts begins with
[EDITING](EDITING.md), which has the calls that a program needs; `jsonptr_text_step` and `jsonptr_comments_step` are for
crates of edits.
"""


class Row(NamedTuple):
    """A documented item: its name, after that of its type if it is a method, its first sentence and its line."""

    name: str
    summary: str
    path: str
    line: int


def plain(text):
    """Returns a summary without the targets of its links, with bars that a table can hold."""
    text = re.sub(r"\[([^\]]+)\]\([^)]*\)", r"\1", text)
    return re.sub(r"\[(`[^\]]+`)\]", r"\1", text).replace("|", "\\|")


def summary(comment):
    """Returns the first sentence of the lines of a doc comment."""
    text = " ".join(line.strip() for line in comment).strip().partition("  ")[0]
    end = re.search(r"[.:](?= [A-Z`\[]|$)", text)
    return plain(text[: end.start()] if end else text)


def file_of(crate, module):
    """Returns the path of a module's file."""
    return f"{repository.CRATES}/{crate}/src/{'/'.join(module) or 'lib'}.rt"


@functools.cache
def rows_of(path):
    """Returns the rows of a file: its items at the top level, the public methods of its types, the functions of its traits."""
    found, comment, owner, is_trait = [], [], "", False
    for number, line in enumerate(repository.read(path).splitlines(), 1):
        if line.strip().startswith("///"):
            comment.append(line.strip()[3:])
            continue
        if line.strip().startswith("#["):
            continue
        item, method, impl = ITEM.match(line), METHOD.match(line), OWNER.match(line)
        if item:
            owner, is_trait = item[1], " trait " in f" {item[0]}"
            found.append(Row(item[1], summary(comment), path, number))
        elif impl or line.startswith(("impl", "}")):
            owner, is_trait = impl[1] if impl else "", False
        elif method and owner and (method[1] or is_trait):
            found.append(Row(f"{owner}::{method[2]}", summary(comment), path, number))
        comment = []
    return found


@functools.cache
def source_files(crate):
    """Returns the source files of a crate."""
    folders = os.walk(f"{repository.CRATES}/{crate}/src")
    return sorted(f"{folder}/{name}" for folder, _, names in folders for name in names if name.endswith(".rt"))


def row_of(item):
    """Returns the row of an item."""
    return next(row for row in rows_of(file_of(item.crate, item.module)) if row.name == item.name)


def methods_of(item):
    """Returns the rows of a type's methods, of any file of its crate. Another type of this name keeps those of its file."""
    if item.kind not in OWNERS:
        return []
    own, found = file_of(item.crate, item.module), []
    for path in source_files(item.crate):
        rows = rows_of(path)
        if path == own or all(row.name != item.name for row in rows):
            found += [row for row in rows if row.name.startswith(f"{item.name}::")]
    return found


def first_sentence(crate, module=()):
    """Returns the first sentence of the page of a crate, or of a module of it."""
    lines = repository.read(file_of(crate, module)).splitlines()
    return summary([line[3:] for line in lines if line.startswith("//!")])


@functools.cache
def modules(crate):
    """Returns the public items of a crate by the module of their shortest path: the name there, and the item."""
    found, seen = {}, set()
    paths = [(path, item) for named in public_items.public(crate).values() for path, item in named]
    for path, item in sorted(paths, key=lambda it: it[0].count("::")):
        is_module_here = item.kind == "mod" and item.crate == crate
        if item not in seen and not is_module_here:
            seen.add(item)
            place, _, name = path.rpartition("::")
            found.setdefault(place, []).append((name, item))
    return found


def own_rows(crate, items):
    """Returns the rows of those items that the crate itself has, each with its methods, in the order of the sources."""
    own = [item for _, item in items if item.crate == crate]
    own.sort(key=lambda item: (item.module, row_of(item).line))
    return [row for item in own for row in (row_of(item), *methods_of(item))]


def anchor(crate):
    """Returns the link to the section of a crate, or the name of a crate of the kit."""
    return f"[`{crate}`](#{crate})" if crate in repository.listed() else f"`{crate}` of the kit"


def row_again(name, item):
    """Returns the line of what a crate names again of another crate."""
    if item.kind == "other":
        text = f"`{'::'.join((item.crate, *item.module, item.name))}`"
    elif item.kind == "mod":
        text = first_sentence(*public_items.module_of(item))
    else:
        text = row_of(item).summary
    return f"| `{name}` | {text} | {anchor(item.crate)} |"


def row_line(row):
    """Returns the line of an item: its name, its summary, and the link to its file."""
    short = row.path.partition("/src/")[2]
    return f"| `{row.name}` | {row.summary} | [{short}](../{os.path.relpath(row.path, repository.TOP)}) |"


def section(crate):
    """Returns the section of a crate."""
    lines = [f"\n## {crate}\n", f"{first_sentence(crate)}."]
    for place, items in sorted(modules(crate).items()):
        lines += [f"\n### `{place}`"] * (place != crate)
        lines += ["\n| Item | | Source |", "|---|---|---|", *map(row_line, own_rows(crate, items))]
        lines += sorted(row_again(name, item) for name, item in items if item.crate != crate)
    return "\n".join(lines) + "\n"


def libraries():
    """Returns the libraries that the page has: all but the callers to copy."""
    return [crate for crate in repository.libraries() if crate not in CALLERS]


def page():
    """Returns the whole page."""
    index = ", ".join(map(anchor, libraries()))
    return HEAD + f"\nCrates: {index}.\n" + "".join(map(section, libraries()))


def main():
    made = page()
    if "--write" in sys.argv[1:]:
        with open(PAGE, "w", encoding="utf-8") as file:
            file.write(made)
    elif repository.read(PAGE) != made:
        sys.exit("api: docs/API.md is not what the sources give: run tools/api.py --write")
    print(f"api: {made.count('](../crates/')} public items of {len(libraries())} libraries")


if __name__ == "__main__":
    main()
