#!/usr/bin/env python3
"""Compares the binary interface that jsonptr.h declares with the list of its version: tools/c/abi.py [--write]

The list tests/abi/MAJOR.MINOR.txt has what a compiled program relies on: the size of each type, the type and offset of each
field, the number of each #define, and each function with its parameters. A program that was compiled with another of these
reads and writes the wrong bytes. So a header that differs from the list of its version is an error, and the list of a released
version never changes: `--write` writes the list of a version that is not released. CHANGELOG has to name under Unreleased what
is no longer in the list of the last release, and each new function. It needs $CC, or cc, and no library.
"""
import os
import re
import subprocess
import sys
import tempfile
from typing import NamedTuple

HERE = os.path.dirname(os.path.abspath(__file__))
TOP = os.path.dirname(os.path.dirname(HERE))
HEADER = f"{HERE}/jsonptr.h"
# What is for C++ alone, and no part of the binary interface.
CPLUSPLUS = re.compile(r"^#if defined\(__cplusplus\).*?^#endif$", re.DOTALL | re.MULTILINE)
COMMENT = re.compile(r"/\*.*?\*/", re.DOTALL)
MACRO = re.compile(r"^#define (JSONPTR_\w+)(?: +(\S.*?))? *$", re.MULTILINE)
DIRECTIVE = re.compile(r"^#.*$", re.MULTILINE)
MARK = re.compile(r"\bJSONPTR_(?:API|NODISCARD)\b|extern \"C\" \{(?=\s*typedef)|\}(?=\s*\Z)")
STRUCT = re.compile(r"typedef struct (\w+) \{([^{}]*)\} \1;")
TYPE = re.compile(r"typedef (\w+) (\w+);")
FUNCTION = re.compile(r"((?:\w+ )+\**)(jsonptr_\w+)\(([^()]*)\);")
# Macros that no compiled program has: what a function is marked with, and the version.
NOT_LISTED = re.compile(r"JSONPTR_(?:API|NODISCARD|H|VERSION\w*)")


class Version(NamedTuple):
    """The major and the minor number of a version."""

    major: int
    minor: int

    def name(self):
        """Returns the name of its list."""
        return f"{self.major}.{self.minor}"

    def soname(self):
        """Returns what a program asks for that was linked with the shared library."""
        return f"libjsonptr.so.{self.name() if self.major == 0 else self.major}"


def read(path):
    """Returns the text of a file, or an empty text if there is none."""
    if not os.path.exists(path):
        return ""
    with open(path, encoding="utf-8") as file:
        return file.read()


def listed(version):
    """Returns the path of the list of a version."""
    return f"{HERE}/tests/abi/{version.name()}.txt"


def versions():
    """Returns the version of this tree, and the last release."""
    words = read(f"{TOP}/crates/jsonptr/VERSION").split()[:2]
    return [Version(*map(int, word.split(".")[:2])) for word in words]


def one_line(text):
    """Returns a text with one space for each run of white space."""
    return " ".join(text.split())


def declarations(text):
    """Returns the macros, structs, types and functions of a header. What is none of these is an error."""
    code = CPLUSPLUS.sub("", COMMENT.sub(" ", text)).replace("\\\n", " ")
    macros = [(name, value or "") for name, value in MACRO.findall(code) if not NOT_LISTED.fullmatch(name)]
    code = one_line(MARK.sub(" ", DIRECTIVE.sub("", code)))
    found = [pattern.findall(code) for pattern in (STRUCT, TYPE, FUNCTION)]
    rest = one_line(FUNCTION.sub("", TYPE.sub("", STRUCT.sub("", code))))
    if rest:
        sys.exit(f"abi: this declaration of jsonptr.h is not understood: {rest[:200]}")
    return [macros, *found]


def print_row(form, *values):
    """Returns a statement of C that prints a row."""
    return f'    printf("{form}\\n"{"".join(f", (long long)({value})" for value in values)});\n'


def statements(header):
    """Yields the statements of a program that prints the rows of a header."""
    macros, structs, types, functions = declarations(read(header))
    for name, value in macros:
        if "{" in value:
            yield print_row(f"define {name}: {value}")
        else:
            yield print_row(f"define {name}: %lld", name)
    for new, name in ((new, name) for name, new in types):
        yield print_row(f"type {new}: {name}, size %lld", f"sizeof({new})")
    for name, fields in structs:
        yield print_row(f"struct {name}: size %lld, alignment %lld", f"sizeof({name})", f"_Alignof({name})")
        for field in filter(None, (it.strip() for it in fields.split(";"))):
            kind, own = re.fullmatch(r"(.*?)(\w+)", field).groups()
            yield print_row(f"field {name}.{own}: {kind.strip()}, offset %lld, size %lld", f"offsetof({name}, {own})",
                            f"sizeof((({name} *)0)->{own})")
    for result, name, parameters in functions:
        yield print_row(f"function {result}{name}({parameters.strip()})")


def rows(header=HEADER):
    """Returns the rows of a header, which a compiled program prints."""
    source = f'#include "{header}"\n#include <stdio.h>\nint main(void) {{\n{"".join(statements(header))}    return 0;\n}}\n'
    with tempfile.TemporaryDirectory() as folder:
        compiler = os.environ.get("CC", "cc").split()
        subprocess.run([*compiler, "-std=c11", "-x", "c", "-", "-o", f"{folder}/rows"], input=source, check=True, encoding="utf-8")
        return subprocess.run([f"{folder}/rows"], check=True, stdout=subprocess.PIPE, encoding="utf-8").stdout.splitlines()


def differences(wanted, found):
    """Returns a line for each row of only one of two lists, and for rows in another order."""
    lines = [f"  no longer: {row}" for row in wanted if row not in found] + [f"  new:       {row}" for row in found if row not in wanted]
    return lines or ["  the order of the rows"] * (wanted != found)


def what_to_do(version, last):
    """Returns what makes a changed interface right."""
    first = f"raise the version, since {last.name()} is released (CONTRIBUTING, Versions), " if version == last else ""
    return (f"if the header has to change, {first}run tools/c/abi.py --write, and say under 'C and Python' in CHANGELOG's Unreleased "
            "what a caller has to do.")


def name_of(row):
    """Returns the name that a row of a list is of, as `jsonptr_node.type`."""
    return re.search(r"\w*jsonptr_[\w.]+(?=[:(])|JSONPTR_\w+(?=:)", row)[0]


def untold(old, new, news):
    """Yields the names of two lists that the changelog does not have and should: of rows that are gone, and of new functions."""
    told = set(re.findall(r"`(\w[\w.]*)`", news))
    known = {name_of(row) for row in old}
    for row in [row for row in old if row not in new] + [row for row in new if name_of(row) not in known]:
        if name_of(row) not in told and (row in old or row.startswith("function")):
            yield name_of(row)


def resized(old, new):
    """Yields the words of the changelog on each struct that has another size than in the last release."""
    sizes = [dict(re.findall(r"^struct (\w+): size (\d+)", "\n".join(rows), re.M)) for rows in (old, new)]
    for name in sizes[0]:
        if sizes[1].get(name, sizes[0][name]) != sizes[0][name]:
            yield f"`{name}`", f"from {sizes[0][name]} to {sizes[1][name]}"


def renumbered(old, new):
    """Yields the numbers of the last release that are others now. A number never changes, but its name may go."""
    numbers = [dict(re.findall(r"^define (\w+): (\d+)$", "\n".join(rows), re.M)) for rows in (old, new)]
    for name, number in numbers[0].items():
        if numbers[1].get(name, number) != number:
            yield f"{name} was {number} in the last release, and a number never changes"


def check_news(version, last, new):
    """Returns the errors of the changelog, on what is no longer as in the last release."""
    old, text = read(listed(last)).splitlines(), read(f"{TOP}/CHANGELOG.md")
    news = text.partition("\n## [Unreleased]")[2].partition("\n## [")[0]
    errors = [*renumbered(old, new), *(f"CHANGELOG's Unreleased does not name `{name}`" for name in untold(old, new, news))]
    for name, sizes in resized(old, new):
        if not re.search(rf"{name}(?: grew)? {sizes}\b", news):
            errors.append(f"CHANGELOG's Unreleased does not say that {name} grew {sizes} bytes")
    if f"`{version.soname()}`" not in (text if version == last else news):
        errors.append(f"CHANGELOG does not say that the soname is `{version.soname()}`")
    if version.soname() == last.soname() and set(old) - set(new):
        errors.append(f"{version.soname()} is also that of the last release, which had {'; '.join(sorted(set(old) - set(new)))}")
    return errors


def main():
    version, last = versions()
    found = rows()
    changed = differences(read(listed(version)).splitlines(), found)
    if sys.argv[1:] == ["--write"] and (version != last or not read(listed(version))):
        with open(listed(version), "w", encoding="utf-8") as file:
            file.writelines(f"{row}\n" for row in found)
        changed = []
    errors = [f"jsonptr.h differs from {os.path.relpath(listed(version), TOP)}", *changed, what_to_do(version, last)] if changed else []
    errors += check_news(version, last, found)
    if errors:
        sys.exit("\n".join(f"abi: {error}" for error in errors))
    print(f"abi: jsonptr.h is what the list of {version.name()} has")


if __name__ == "__main__":
    main()
