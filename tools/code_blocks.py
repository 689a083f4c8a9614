#!/usr/bin/env python3
"""Checks that the code that readers copy from the guide and the READMEs was proved or run.

Each code block of the guide (`crates/jsonptr/CALLING.md`), and each example of a doc comment that is an item, must be in a
caller, line by line. Each Rust block of a README, and of the page of edits (`docs/EDITING.md`), must be in a caller, in a test
or in an example of a doc comment; `check_vendor.py` runs the program of that page. Each contract that the README or PROVED
shows must be in a source file.
"""
import glob
import re
import sys

import doc_examples
import repository
import try_tests

GUIDE = f"{repository.CRATES}/jsonptr/CALLING.md"
EDITING = f"{repository.TOP}/docs/EDITING.md"
CALLERS = "jsonptr_conditions", "jsonptr_uses", "jsonptr_example"
BLOCK = re.compile(r"^```(?:rust|text)\n(.*?)^```$", re.MULTILINE | re.DOTALL)
CODE = re.compile(r"^```rust\n(.*?)^```$", re.MULTILINE | re.DOTALL)
CONTRACT = re.compile(r"^```text\n((?:pub fn|ensures) .*?)^```$", re.MULTILINE | re.DOTALL)
CLAUSES = re.compile(r"^(?=ensures )", re.MULTILINE)
PAGES = f"{repository.TOP}/README.md", f"{repository.TOP}/docs/PROVED.md"


def files(crates, *endings):
    """Returns the source files of these crates that have one of these endings."""
    found = [f for end in endings for f in glob.glob(f"{repository.CRATES}/{crates}/**/*.{end}", recursive=True)]
    return sorted(f for f in found if "/out/" not in f)


def lines(text):
    """Returns the lines of a text without indentation, empty lines and comments."""
    found = [line.strip() for line in text.splitlines()]
    return [line for line in found if line and not line.startswith(("//", "--"))]


def check(blocks, sources):
    """Checks that one of the sources has the lines of each block, one after the other. Returns the number of blocks."""
    for block in blocks:
        wanted = lines(block)
        if not any(wanted == found[at : at + len(wanted)] for found in sources for at in range(len(found))):
            sys.exit(f"code_blocks: no caller, no test and no source has this code:\n{block}")
    return len(blocks)


def main():
    codes = ["\n".join(example.rows) for path in doc_examples.documented() for example in doc_examples.examples(path)]
    items = [code for code in codes if doc_examples.STARTS_ITEM.match(code)]
    callers = [lines(repository.read(f)) for name in CALLERS for f in files(name, "rt", "antt")]
    paths = glob.glob(f"{repository.TESTS}/**/*{try_tests.ENDING}", recursive=True)
    tests = [lines(repository.read(f)) for f in paths] + [lines(code) for code in codes]
    readmes = [f"{repository.TOP}/README.md", *sorted(glob.glob(f"{repository.CRATES}/*/README.md"))]
    guide = check(BLOCK.findall(repository.read(GUIDE)) + items, callers)
    blocks = [block for f in readmes for block in CODE.findall(repository.read(f))]
    blocks += [block for block in CODE.findall(repository.read(EDITING)) if "\nfn main(" not in block]
    shown = check(blocks, callers + tests)
    sources = [lines(repository.read(f)) for f in files("*", "rt")]
    shown_contracts = [block for f in PAGES for block in CONTRACT.findall(repository.read(f))]
    contracts = check([part for block in shown_contracts for part in CLAUSES.split(block) if part], sources)
    print(f"code_blocks: {guide + shown} code blocks of the guides and the READMEs are in a caller or a test")
    print(f"code_blocks: {contracts} contracts of the README and PROVED are in a source")


if __name__ == "__main__":
    main()
