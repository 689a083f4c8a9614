#!/usr/bin/env python3
"""Checks that what the documents name is there, and that lists which say that they are whole are whole.

- Each link leads to a file, and to a heading of it.
- Each table has a head, and rows of as many cells.
- Each crate, file, law, module and clause that a document names exists. The changelog alone has old names of crates, and a
  row for each.
- Each extra in a command `./vendor` exists.
- README, `docs/ARCHITECTURE.md` and `crates/jsonptr/CALLING.md` list each crate, and each module of `jsonptr_uses`.
- The version is one everywhere.
- Each word of a public contract is in `docs/SPECIFICATION.md`.
"""
import functools
import glob
import os
import re
import sys

import api
import crate_names
import repository
import specification

TOP = repository.TOP
FENCE = re.compile(r"^```.*?^```$", re.MULTILINE | re.DOTALL)
CODE = re.compile(r"`([^`\n]+)`")
LINK = re.compile(r"\[[^\]]*\]\(([^)\s]+)\)")
CLAUSE = re.compile(r"\bensures\*? (\w+) \{")
FUNCTION = re.compile(r"^ *(?:pub(?:\(\w+\))? )?(?:const )?(?:unsafe )?(?:extern \"C\" )?fn (\w+)", re.MULTILINE)
DEFINITION = re.compile(r"^(?:abbrev pub|pub record|pub data|pub type|postulate pub) (\w+)", re.MULTILINE)
CITED = re.compile(r"`((?:\w+::)*\w+)`: (`\w+`(?:, `\w+`)*)")
errors = []


def read(name):
    """Returns the text of a file of the repository."""
    return repository.read(f"{TOP}/{name}")


def documents():
    """Returns the documents that people write."""
    found = ["README.md", "CONTRIBUTING.md", "CHANGELOG.md", "tests/README.md", "tools/README.md"]
    for pattern in ("docs/*.md", "crates/*/*.md"):
        found += sorted(os.path.relpath(path, TOP) for path in glob.glob(f"{TOP}/{pattern}"))
    return [name for name in found if name != "docs/API.md"]


def expect(holds, name, what):
    """Notes an error of a document if something does not hold."""
    if not holds:
        errors.append(f"{name}: {what}")


@functools.cache
def sources():
    """Returns the text of each source file of each crate."""
    return {path: repository.read(path) for path in glob.glob(f"{TOP}/crates/*/src/**/*.rt", recursive=True)}


@functools.cache
def functions():
    """Returns the names of the clauses of each function of a library or program, by the function's name."""
    found = {}
    for path, text in sources().items():
        if "/jsonptr_tool_" in path:
            continue
        heads = list(FUNCTION.finditer(text))
        for head, following in zip(heads, [*heads[1:], None]):
            contract = text[head.end() : following.start() if following else len(text)]
            found.setdefault(head[1], set()).update(CLAUSE.findall(contract))
    return found


def heading_anchor(heading):
    """Returns the anchor that a heading has on a rendered page."""
    return re.sub(r"[^\w\- ]", "", heading.strip().lower()).replace(" ", "-")


def anchors(path):
    """Returns the anchors of a page."""
    text = FENCE.sub("", repository.read(path))
    return {heading_anchor(line.lstrip("#")) for line in text.splitlines() if line.startswith("#")}


def check_links(name, text):
    """Checks the links of a document."""
    for target in LINK.findall(FENCE.sub("", text)):
        if re.match(r"\w+:", target):
            continue
        path, _, anchor = target.partition("#")
        file = os.path.normpath(os.path.join(TOP, os.path.dirname(name), path)) if path else f"{TOP}/{name}"
        expect(os.path.exists(file), name, f"the link {target} leads to no file")
        if anchor and os.path.isfile(file) and file.endswith(".md"):
            expect(anchor in anchors(file), name, f"the link {target} leads to no heading")


def tables(text):
    """Yields the rows of each table of a document."""
    rows = []
    for line in [*FENCE.sub("", text).splitlines(), ""]:
        if line.startswith("|"):
            rows.append(line)
        elif rows:
            yield rows
            rows = []


def cells(row):
    """Returns the cells of a row. A bar in code or after a backslash does not end one."""
    inner = re.sub(r"`[^`]*`", lambda code: code[0].replace("|", "\0"), row.replace("\\|", "\0"))
    return [cell.strip().replace("\0", "|") for cell in inner.strip().strip("|").split("|")]


def check_tables(name, text):
    """Checks the form of a document's tables."""
    for rows in tables(text):
        is_headed = len(rows) > 1 and re.fullmatch(r"\|(?:\s*:?-+:?\s*\|)+", rows[1])
        expect(is_headed, name, f"a table without a head: {rows[0][:60]}")
        for row in rows:
            expect(len(cells(row)) == len(cells(rows[0])), name, f"a row of {len(cells(row))} cells: {row[:60]}")


def check_extras(name, text):
    """Checks that what a document copies by `./vendor` can be copied."""
    for words in re.findall(r"\./vendor [\w./]+((?: [\w-]+)+)(?=[`\n])", text):
        for word in words.split():
            expect(word in {*crate_names.EXTRAS, "--example", "--update"}, name, f"./vendor has no {word}")


def check_renamed():
    """Checks that the changelog has a row for each crate that was renamed."""
    rows = [cells(row) for table in tables(read("CHANGELOG.md")) for row in table]
    for old, new in crate_names.RENAMED.items():
        is_there = any(row[0] == f"`{old}`" and CODE.findall(row[1]) == new for row in rows)
        expect(is_there, "CHANGELOG.md", f"no row says that {old} is {crate_names.listed(new)}")


def check_crates(name, text, known):
    """Checks that the crates that a document names exist. A name of the C library is one of its header."""
    c_names = set(re.findall(r"\bjsonptr\w*", read("tools/c/jsonptr.h")))
    for code in CODE.findall(FENCE.sub("", text)):
        for crate in re.findall(r"(?<![\w/.-])((?:jsonptr|jptr_)\w*)(?![\w./-])", code):
            expect(crate in known or crate in c_names or crate.endswith("_"), name, f"there is no crate {crate}")


@functools.cache
def tree():
    """Returns the paths of all files of crates and tools, without what `rt` makes."""
    found = []
    for folder, folders, files in (it for top in ("crates", "tools") for it in os.walk(f"{TOP}/{top}")):
        folders[:] = [it for it in folders if it != "out"]
        found += [f"{folder}/{file}" for file in files]
    return found


def exists(name, path):
    """Returns whether a path that a document names is a file: from the top, or the last part of one of the tree."""
    starts = ("", os.path.dirname(name), "tools", "tools/c", "crates", "docs")
    if any(os.path.exists(f"{TOP}/{start}/{path}") for start in starts):
        return True
    return any(file.endswith((f"/{path}", f"/tools/c/{os.path.basename(path)}")) for file in tree())


def check_files(name, text):
    """Checks that the source files and tools that a document names exist."""
    for code in CODE.findall(FENCE.sub("", text)):
        if re.fullmatch(r"[\w./-]+\.(?:rt|antt|py|sh|h|md)", code) and "…" not in code:
            expect(exists(name, code), name, f"there is no file {code}")


@functools.cache
def laws():
    """Returns the source files that have each law, by its name."""
    found = {}
    for path, source in sources().items():
        for law in re.findall(r"\bfn (\w+_law)\b", source):
            found.setdefault(law, []).append(path)
    return found


def check_laws(name, text):
    """Checks that each law that a document names exists, in the module that it says."""
    for module, law in re.findall(r"\b(?:(\w+)::)?(\w+_law)\b", FENCE.sub("", text)):
        files = laws().get(law, [])
        expect(files, name, f"there is no law {law}")
        if files and module and module not in repository.listed():
            places = {os.path.basename(path)[:-3] for path in files} | {os.path.basename(os.path.dirname(path)) for path in files}
            expect(module in places, name, f"the law {law} is not in a module {module}")


def check_clauses(name, text):
    """Checks the clauses that a document names: after the function's name, and in tables of clauses."""
    for path, clauses in CITED.findall(FENCE.sub("", text)) if name != "docs/SPECIFICATION.md" else []:
        function = path.split("::")[-1]
        if function in functions():
            for clause in CODE.findall(clauses):
                expect(clause in functions()[function], name, f"{path} has no clause {clause}")
    for rows in tables(text):
        head = cells(rows[0])[0]
        if head.startswith("Clause"):
            check_clause_table(name, head, rows[2:])


def check_clause_table(name, head, rows):
    """Checks the first cells of a table of clauses. Its head can name the function, and so can a cell."""
    every = set().union(*functions().values())
    for row in rows:
        words = CODE.findall(cells(row)[0])
        owners = [word for word in [*CODE.findall(head), *words] if word in functions() and word not in every]
        for word in (it.split("::")[-1] for it in words if it not in owners):
            known = set().union(*(functions()[owner] for owner in owners)) if owners else every | {*functions()}
            expect(word in known, name, f"there is no clause {word} of {', '.join(owners) or 'any call'}")


def check_lists(known):
    """Checks that the documents that list all crates, or all callers, do."""
    products = {crate for crate in known if not crate.startswith("jsonptr_tool_")}
    drawing = FENCE.search(read("docs/ARCHITECTURE.md"))[0]
    for name, text, wanted in (("README.md", read("README.md"), products), ("docs/ARCHITECTURE.md", drawing, {*known})):
        named = set(re.findall(r"\b(?:jsonptr|jptr)\w*", text))
        for crate in sorted(wanted - named):
            expect(False, name, f"{crate} is not listed")
        for crate in sorted(named - {*known}) if text == drawing else []:
            expect(False, name, f"there is no crate {crate}")
    callers = re.findall(r"^(?:pub )?mod (\w+);", read("crates/jsonptr_uses/src/lib.rt"), re.MULTILINE)
    for module in callers:
        expect(f"`{module}.rt`" in read("crates/jsonptr/CALLING.md"), "crates/jsonptr/CALLING.md", f"the caller {module}.rt is not listed")
    where = "CONTRIBUTING.md"
    for group in repository.tests():
        expect(f"`{group}`" in read(where), where, f"the group of tests {group} is not listed")


def check_version():
    """Checks that every place has the version and the last release of `crates/jsonptr/VERSION`."""
    version, release, date = read("crates/jsonptr/VERSION").split()
    number = re.fullmatch(r"(\d+)\.(\d+)\.(\d+)(?:-dev)?", version)
    if not number:
        return expect(False, "crates/jsonptr/VERSION", f"{version} is no version")
    major, minor, patch = number.groups()
    # docs/C.md begins with the files of the last release.
    interface = release.rsplit(".", 1)[0] if release.startswith("0.") else release.split(".")[0]
    last = f"Version {version}, of {date}" if version == release else f"Version {version}, not released: the last release is {release}, of {date}"
    places = (
        ("README.md", last),
        ("CHANGELOG.md", f"## [{release}] - {date}"),
        ("CHANGELOG.md", f"## [{release}]" if version == release else "## [Unreleased]"),
        ("crates/jptr/src/command_line.rt", f'VERSION: &str = "{version}";'),
        ("tools/c/jsonptr.h", f"#define JSONPTR_VERSION_MAJOR {major}\n#define JSONPTR_VERSION_MINOR {minor}\n#define JSONPTR_VERSION_PATCH {patch}\n"),
        ("tools/c/jsonptr.h", f'#define JSONPTR_VERSION "{version}"\n'),
        ("tools/c/jsonptr.py", f'__version__ = "{version}"\n'),
        ("docs/C.md", f"`lib/libjsonptr.so.{interface}`"),
        ("docs/C.md", f"or else `libjsonptr.so.{interface}`"),
        ("docs/C.md", f"(`JSONPTR_{interface}`)"),
        ("docs/C.md", f"find_package(jsonptr {interface} REQUIRED)"),
    )
    for name, text in places:
        expect(os.path.exists(f"{TOP}/{name}") and text in read(name), name, f"'{text}' is missing")


@functools.cache
def definitions():
    """Returns the files of `specs/` that define each word of public contracts."""
    found = {}
    for path in glob.glob(f"{TOP}/crates/*/specs/**/*.antt", recursive=True):
        if not os.path.basename(path).startswith("Private"):
            for word in DEFINITION.findall(repository.read(path)):
                found.setdefault(word, []).append(path)
    return found


def contract(item):
    """Returns the contract of an item: its lines from the first clause to the body."""
    lines, kept = repository.read(item.path).splitlines()[item.line - 1 :], []
    for line in lines:
        if kept and re.fullmatch(r" *\{", line):
            break
        kept.append(line)
        if line.endswith(";") or line.startswith("}"):
            break
    text = "\n".join(kept)
    start = re.search(r"\b(?:ensures|requires)\b", text)
    return text[start.start() :] if start else ""


@functools.cache
def specified():
    """Returns the words of SPECIFICATION's tables, each with its file."""
    paths = [path for crate in specification.crates() for path in specification.files(crate)]
    return {(name, path) for path in paths for word in specification.words(path) for name in re.findall(r"`(\w+)", specification.cells(word)[0])}


def check_specification():
    """Checks that SPECIFICATION has each word of each public contract, with its file."""
    for crate in api.libraries():
        for module in api.modules(crate).values():
            for item in api.own_rows(crate, module):
                for word in set(re.findall(r"(?<![\w.])[A-Za-z]\w*", contract(item))):
                    files = defining(word, item.path)
                    if files and not any((word, path) in specified() for path in files):
                        where = os.path.relpath(files[0], TOP)
                        errors.append(f"{where}: {word} has no comment, so SPECIFICATION lacks it (in {item.name} of {crate})")


@functools.cache
def imported(path):
    """Returns where a source file takes the words of its contracts from: pairs of a module of `specs/` and its words."""
    uses = re.findall(r"ghost use Rattle\.(\w+)\.specs\.(\w+)\.\{([^;]+)\};", repository.read(path))
    return [(crate, file, set(re.findall(r"\w+", words))) for crate, file, words in uses]


def defining(word, path):
    """Returns the files of `specs/` that can define a word which a source file uses, none if it is not a word of ours."""
    for crate, file, words in imported(path):
        files = [it for it in definitions().get(word, []) if word in words and os.path.basename(it) == f"{file}.antt"]
        own = [it for it in files if f"/crates/{crate}/" in it]
        if files:
            return own or files
    return []


def main():
    known = list(repository.listed())
    for name in documents():
        text = read(name)
        for check in (check_links, check_tables, check_files, check_laws, check_clauses, check_extras):
            check(name, text)
        check_crates(name, text, [*known, *crate_names.RENAMED] if name == "CHANGELOG.md" else known)
    check_renamed()
    check_lists(known)
    check_version()
    check_specification()
    if errors:
        sys.exit("\n".join(f"doc_names: {error}" for error in dict.fromkeys(errors)))
    print(f"doc_names: {len(documents())} documents, {len(known)} crates, {len(definitions())} definitions")


if __name__ == "__main__":
    main()
