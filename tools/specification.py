#!/usr/bin/env python3
"""Makes the tables of docs/SPECIFICATION.md from the comments of `specs/`, and checks that they are up to date.

    tools/specification.py            checks
    tools/specification.py --write    writes the tables anew

Each file that public contracts cite has a table: a definition as its comment writes it, with a link to its file, and what
the comment says of it. The text above the tables is written by hand.
"""
import functools
import glob
import os
import re
import sys
from typing import NamedTuple

import repository

PAGE = f"{repository.TOP}/docs/SPECIFICATION.md"
MARK = "<!-- tools/specification.py makes what follows -->\n"
PUBLIC = re.compile(r" *(?:abbrev pub|pub record|pub data|pub type|postulate pub|pub) (\w+)(?= [:({]| *$)")
WITHOUT = ("Lib", "Types")


class Word(NamedTuple):
    """A definition, or several with one comment: the names and the comment."""

    names: tuple
    comment: str


def files(crate):
    """Returns the files of a crate's definitions that public contracts cite."""
    found = sorted(glob.glob(f"{repository.CRATES}/{crate}/specs/**/*.antt", recursive=True))
    return [path for path in found if not name_of(path).startswith(("Private", *WITHOUT))]


def name_of(path):
    """Returns the name of a file of definitions."""
    return os.path.basename(path)[: -len(".antt")]


def blocks(path):
    """Yields each comment of a file that stands above a line, as one text, with that line."""
    comment = []
    for line in repository.read(path).splitlines():
        if line.strip().startswith("--"):
            comment.append(line.strip()[2:].strip())
        else:
            yield " ".join(filter(None, comment)), line
            comment = []


def head(path):
    """Returns the comment at the top of a file."""
    return next(blocks(path))[0]


@functools.cache
def words(path):
    """Returns the public definitions of a file. One without a comment has the row of the definition above it."""
    found = []
    for comment, line in blocks(path):
        defined = PUBLIC.match(line)
        is_field = line.startswith("  pub ") and not comment
        if defined and comment:
            found.append(Word((defined[1],), comment))
        elif defined and found and not is_field:
            found[-1] = found[-1]._replace(names=(*found[-1].names, defined[1]))
    return found


def cells(word):
    """Returns a definition as its comment writes it, with the names that the comment lacks, and the rest of the comment."""
    written = re.match(r"((?:`[^`]+`(?:,? and |, )?)+)(?::| is(?= )|)\s*", word.comment)
    is_named = written and re.search(rf"`{word.names[0]}\b", written[1])
    form = written[1].strip().rstrip(",").removesuffix(" and") if is_named else ""
    lacking = [f"`{name}`" for name in word.names if not re.search(rf"`{name}\b", form)]
    return ", ".join(filter(None, [form, *lacking])), word.comment[written.end() :] if is_named else word.comment


def row(path, word):
    """Returns the line of a definition."""
    form, meaning = (text.replace("|", "\\|") for text in cells(word))
    return f"| [{form}](../{os.path.relpath(path, repository.TOP)}) | {meaning} |"


def section(crate):
    """Returns the section of a crate: a table for each file."""
    lines = [f"\n## {crate}"]
    for path in filter(words, files(crate)):
        lines += [f"\n### `{name_of(path)}`\n", head(path), "", "| Word | Meaning |", "|---|---|"]
        lines += [row(path, word) for word in words(path)]
    return "\n".join(lines) + "\n"


def crates():
    """Returns the libraries that define words of public contracts."""
    return [crate for crate in repository.libraries() if crate != "jsonptr_uses" and any(map(words, files(crate)))]


def main():
    by_hand, mark, _ = repository.read(PAGE).partition(MARK)
    made = by_hand + MARK + "".join(map(section, crates()))
    if "--write" in sys.argv[1:]:
        with open(PAGE, "w", encoding="utf-8") as file:
            file.write(made)
    elif repository.read(PAGE) != made:
        sys.exit("specification: docs/SPECIFICATION.md is not what the comments say: run tools/specification.py --write")
    print(f"specification: {sum(len(word.names) for crate in crates() for path in files(crate) for word in words(path))} definitions")


if __name__ == "__main__":
    main()
