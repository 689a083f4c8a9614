#!/usr/bin/env python3
"""Runs the examples in doc comments, without proving them.

    tools/doc_examples.py [WORD..]     those of the files whose path has one of the words, or all

Each example is a test of a crate in a temporary folder, which `rt try --test` runs. A failing one is shown with the file and
the line of its doc comment. What an example imports is found in the sources: the public items of the libraries, the methods
of their public traits, and what the files here import of other libraries. `rt` must be on the PATH. The last line is
'N passed, M failed'.
"""
import glob
import os
import re
import sys
from typing import NamedTuple

import public_items
import repository
import try_tests

NAME = "examples"
COMMENT = re.compile(r"\s*//[/!] ?(.*)")
STARTS_ITEM = re.compile(r"(?:pub )?(?:fn|struct|enum|trait|impl)\b")
STRING = re.compile(r'r#".*?"#|b?"(?:[^"\\]|\\.)*"|//[^\n]*', re.DOTALL)
# A name at the head of a path, and what follows it: the rest of the path, a macro's mark, or a call.
HEAD = re.compile(r"(?<![\w.:])([A-Za-z_]\w*)(::|!(?=[(\[{])|\()?")
CALL = re.compile(r"(?:\.|::)(\w+)\(")
TEST = re.compile(rf"{NAME}::(\w+)::line_(\d+)")


class Example(NamedTuple):
    """The code of an example: its lines, and the number of the first one."""

    line: int
    rows: list


def examples(path):
    """Returns the examples in the doc comments of a file."""
    found, code = [], None
    for number, row in enumerate(repository.read(path).splitlines(), 1):
        comment = COMMENT.fullmatch(row)
        text = comment[1] if comment else ""
        if code is None and text == "```rust":
            code = Example(number + 1, [])
        elif code and text == "```":
            found.append(code)
            code = None
        elif code and comment:
            code.rows.append(text)
        elif code:
            sys.exit(f"{os.path.relpath(path, repository.TOP)}:{code.line}: an example without an end")
    return found


def is_item(example):
    """Returns whether an example is an item, such as a function. A caller has it, and it is no test."""
    return bool(STARTS_ITEM.match("".join(example.rows)))


def is_meant(item, mark):
    """Returns whether a name in code, with what follows it, can be this item's."""
    if item.kind in ("mod", "fn"):
        return mark == {"mod": "::", "fn": "("}[item.kind]
    return True


def import_of(name, mark, crate, path):
    """Returns the path by which an example in a file of a crate imports a name, or None if it needs no import."""
    if name[0].islower() and not mark:
        return None
    for library in public_items.nearest(crate):
        for found, item in public_items.public(library).get(name, ()):
            if is_meant(item, mark):
                return found
    for table in (public_items.imports(path), public_items.imported(crate), public_items.imported()):
        if not table.get(name, "crate").startswith("crate"):
            return table[name]
    return None


def trait_with(method, crate):
    """Returns the path of the nearest public trait, of a crate and those that it uses, that has a method, or None."""
    for library in public_items.at_or_below(crate):
        for paths in public_items.public(library).values():
            for found, item in paths:
                if item.kind == "trait" and method in public_items.methods(item):
                    return found
    return None


def imports_of(code, path):
    """Returns the paths that the code of a file's examples imports."""
    crate = os.path.relpath(path, repository.CRATES).split("/")[0]
    bare = STRING.sub('""', code)
    found = [import_of(name, mark, crate, path) for name, mark in sorted(set(HEAD.findall(bare)))]
    found += [trait_with(method, crate) for method in sorted(set(CALL.findall(bare)))]
    return sorted({it.split("::")[-1]: it for it in found if it}.values())


def rows_of(example):
    """Returns the lines of an example's test, each with the line that it is from."""
    line = example.line
    rows = [("#[test]", line), (f"fn line_{line}(rt: HostRuntime) -> Result<(), Fail> {{", line)]
    if any(re.search(r"\balloc\b", row) for row in example.rows):
        rows.append(("    let alloc = rt.alloc();", line))
    rows += [(f"    {row}", line + at) for at, row in enumerate(example.rows)]
    return [*rows, ("    Ok(())", line), ("}", line)]


def documented():
    """Returns the files of the libraries."""
    folders = [f"{repository.CRATES}/{name}/src" for name in repository.libraries()]
    return sorted(it for folder in folders for it in glob.glob(f"{folder}/**/*.rt", recursive=True))


def module(words=()):
    """Returns the tests of the examples: of the libraries' files whose path has one of the words, or of all files."""
    uses, files, origins = {}, {}, {}
    for path in documented():
        short = os.path.relpath(path, repository.TOP)
        chosen = [it for it in examples(path) if not is_item(it)]
        if not chosen or (words and not any(word in short for word in words)):
            continue
        imports = [*imports_of("\n".join(row for it in chosen for row in it.rows), path), "std::test::Fail"]
        uses.update({it.split("::")[0]: None for it in imports})
        rows = [(f"use {it};", chosen[0].line) for it in imports] + [row for it in chosen for row in rows_of(it)]
        name = re.sub(r"\W+", "_", short.removesuffix(".rt").removeprefix("crates/").replace("/src/", "/"))
        files[f"src/{NAME}/{name}.rt"] = "".join(f"{row}\n" for row, _ in rows)
        origins[f"src/{NAME}/{name}.rt"] = short, [line for _, line in rows]
    names = [os.path.basename(it).removesuffix(".rt") for it in files]
    files[f"src/{NAME}.rt"] = "".join(f"mod {name};\n" for name in names)
    kit = [word for name in repository.below(uses) for word in repository.listed()[name]]
    return try_tests.Module(NAME, [it for it in dict.fromkeys([*uses, *kit]) if it != "std"], files, origins)


def shown(name, made):
    """Returns the name of a test, or the file and the line if it is of an example."""
    found = TEST.fullmatch(name)
    return f"{made.origins[f'src/{NAME}/{found[1]}.rt'][0]}:{found[2]}" if found else name


def main():
    made = module(sys.argv[1:])
    results = try_tests.run([made])
    for name, said in results.failed.items():
        print(f"FAILED {shown(name, made)}\n{said}")
    print(f"{len(results.passed)} passed, {len(results.failed)} failed")
    sys.exit(1 if results.failed else 0)


if __name__ == "__main__":
    main()
