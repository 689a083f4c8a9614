"""Checks that the reading lists of docs/ARCHITECTURE.md have every definition that the statements rest on: [--rows]

A statement is the contracts of some public functions. Starting from their clauses, the check follows each word to its
definition, and the words of that definition in turn. The kit's words are not followed, nor are types that are declared in
code. Each definition of this repository that the headline needs, the contracts of `run_json` and `run_toml`, must be in a
file of the first list, and each file of the list must have one of them. Together they have at most 500 lines. For each other
statement its row names the further files, and counts the lines that it needs of them: --rows prints these cells.
"""
import os
import re
import sys

TOP = os.path.dirname(os.path.dirname(os.path.abspath(__file__)))
CRATES = f"{TOP}/crates"
HEADLINE = [("jsonptr_session/src/session.rt", ["run_json", "run_toml"])]
UNDO = ["assign_with_undo", "undo"]
EDITS = ["assign", "delete", "rename", "apply"]
OTHERS = {
    "undo": [("jsonptr_session/src/undo/json.rt", UNDO), ("jsonptr_session/src/undo/toml_value.rt", UNDO)],
    "a report that is drawn": [("jsonptr_diagnostic/src/rendering.rt", ["render"])],
    "the program of the port": [("jsonptr_run_command/src/run.rt", ["run_program"])],
    "tabled pointers": [
        ("jsonptr_tabled/src/tabled.rt", [
            "new", "parse", "from_plain", "into_plain", "as_ptr", "offsets", "count", "front", "back", "parent", "split_at_offset",
            "split_at", "get", "push_front", "push_back", "pop_front", "pop_back", "replace", "append", "clear",
        ]),
        ("jsonptr_tabled/src/edit_pointer.rt", [
            "as_ptr", "set_text", "push_front", "push_back", "pop_front", "pop_back", "replace", "append", "clear",
        ]),
    ],
    "fragments of URIs": [("jsonptr_fragment/src/write.rt", ["to_fragment"]), ("jsonptr_fragment/src/read.rt", ["from_fragment"])],
    "patches": [
        ("jsonptr_patch/src/patch.rt", ["apply"]),
        ("jsonptr_patch/src/inverse.rt", ["apply_with_inverse"]),
        ("jsonptr_patch/src/undo.rt", ["delete_with_undo"]),
        ("jsonptr_patch/src/laws/apart.rt", ["apart_law"]),
    ],
    "patch documents": [
        ("jsonptr_patch_document/src/read.rt", ["read_patch"]),
        ("jsonptr_patch_document/src/write.rt", ["write_patch"]),
        ("jsonptr_patch_document/src/error.rt", ["pointer_text"]),
    ],
    "differences": [("jsonptr_patch_diff/src/difference.rt", ["diff", "change"])],
    "merges": [
        ("jsonptr_merge/src/patch.rt", ["merge_patch", "merge_patched"]),
        ("jsonptr_merge/src/make.rt", ["make_merge_patch"]),
        ("jsonptr_merge/src/three_way.rt", ["merge"]),
    ],
    "resolving in text": [
        ("jsonptr_text_resolve/src/resolve.rt", ["resolve_in_text", "resolve_in_slice", "exists_in_text"]),
        ("jsonptr_text_resolve/src/format.rt", ["format_text"]),
    ],
    "edits in text": [
        *((f"jsonptr_text_step/src/{it}.rt", [f"{it}_in_text"]) for it in EDITS),
        ("jsonptr_text_step/src/located.rt", ["locate"]),
    ],
    "one edit of a text": [("jsonptr_text_edit/src/text.rt", ["edit_text"])],
    "one edit of a text with comments": [
        ("jsonptr_comments_edit/src/commented.rt", ["edit_commented"]),
        ("jsonptr_comments_edit/src/editor.rt", ["edit_in_place"]),
    ],
    "documents as lines": [
        ("jsonptr_text_paths/src/listing.rt", ["list"]),
        ("jsonptr_text_paths/src/text_listing.rt", ["list_in_text"]),
        ("jsonptr_text_paths/src/toml_listing.rt", ["list_toml"]),
        ("jsonptr_text_paths/src/build.rt", ["build"]),
    ],
    "JSON with comments": [
        ("jsonptr_comments/src/comments.rt", ["without_comments"]),
        *((f"jsonptr_comments_step/src/{it}.rt", [f"{it}_with_comments"]) for it in EDITS),
    ],
    "numbers that lose digits": [
        ("jsonptr_text_digits/src/search.rt", ["find_lost"]),
        ("jsonptr_text_digits/src/kept.rt", ["is_kept"]),
        ("jsonptr_text_digits/src/exact.rt", ["read_exactly"]),
    ],
    "layouts": [("jsonptr_text_relayout/src/relayouts.rt", ["relayout", "relayout_with_texts", "relayout_text"])],
    "TOML text": [("jsonptr_toml/src/change.rt", ["resolve_in_toml", "assign_and_print_toml", "delete_and_print_toml"])],
    "edits in TOML text": [
        ("jsonptr_toml_edit/src/text.rt", ["edit_toml"]),
        ("jsonptr_toml_edit/src/raw_value.rt", ["parse"]),
    ],
    "commands on texts and lines": [
        ("jptr_tasks/src/result.rt", ["result_in_text"]),
        ("jptr_tasks/src/document.rt", ["run_document"]),
        ("jptr_tasks/src/lines.rt", ["run_lines"]),
    ],
    "several edits, moves and copies": [
        ("jptr_tasks/src/several.rt", ["edit_each"]),
        ("jptr_tasks/src/operation.rt", ["move_patch", "copy_and_remove_patch", "moves_only_child"]),
        ("jptr_tasks/src/expansion.rt", ["check_expansion"]),
    ],
    "a file that is replaced": [("jptr_tasks/src/replacement.rt", ["replace"])],
    "calls for C": [
        ("jsonptr_c_calls/src/pointers.rt", ["count", "token", "escape", "push", "pop"]),
        ("jsonptr_c_calls/src/fragments.rt", ["from_fragment", "to_fragment"]),
        ("jsonptr_c_calls/src/documents.rt", [
            "parse", "parse_exactly", "free", "get", "string", "node", "assign", "delete", "patch", "patch_with_inverse",
            "diff",
        ]),
        ("jsonptr_c_calls/src/setters.rt", [
            "assign_string", "assign_integer", "assign_natural", "assign_number", "assign_boolean", "assign_null",
        ]),
        ("jsonptr_c_calls/src/keys.rt", ["first_key", "next_key"]),
        ("jsonptr_c_calls/src/texts.rt", ["resolve", "lost_number"]),
        ("jsonptr_c_calls/src/locations.rt", ["locate", "pointer_at"]),
        ("jsonptr_c_calls/src/outcome.rt", ["succeed", "fail", "fail_with_length"]),
        ("jsonptr_c_calls/src/message.rt", ["message"]),
        ("jsonptr_c_calls/src/values.rt", ["quote"]),
    ],
    "texts for C": [
        ("jsonptr_c_calls/src/text_calls.rt", [
            "open", "free", "assign", "delete", "rename", "patch", "relayout", "remove_comments", "locate", "pointer_at", "copy",
        ]),
    ],
}
# Files of a few lines that nearly every statement needs, in one sentence of the page.
COMMON = ["jsonptr/specs/Pointer.antt", "jsonptr_syntax/specs/PointerText.antt", "jsonptr_base/specs/Fault.antt"]
MOST_LINES = 500
WORD = re.compile(r"[^\W\d][\w'-]*(?:\.[^\W\d][\w'-]*)*")
IMPORT = re.compile(r"(pub )?(?:ghost )?use Rattle\.([\w.]+?)(?:\.\{(.*)\}| as (\w+))?;?$")
DEFINITION = re.compile(r"( *)(?:(?:abbrev|unfoldable) )*pub (data |record )?(\w+)")
NAME_OF_PART = re.compile(r" *(?:pub )?(\w+(?: \w+)*) :")


class Failed(Exception):
    """A list that is not closed, or is too long."""


def read(path):
    """Returns the text of a file below `crates`."""
    with open(f"{CRATES}/{path}", encoding="utf-8") as file:
        return file.read()


def files_of_list():
    """Returns the files that docs/ARCHITECTURE.md lists for the headline."""
    with open(f"{TOP}/docs/ARCHITECTURE.md", encoding="utf-8") as file:
        section = file.read().split("## What has to be believed\n")[1].split("\n## ")[0]
    first, second = section.split("Last come the clauses of `run_program`")
    rows = [row.split(" | ")[0] for row in first.splitlines() if row.startswith("| `") and "jsonptr_run_command" not in row]
    rows += [row for row in second.splitlines() if row.startswith("| the headline |")]
    files = []
    for row in rows:
        folder = None
        for path in re.findall(r"`([\w/]+\.antt)`", row):
            folder = os.path.dirname(path) or folder
            files.append(f"{folder}/{os.path.basename(path)}")
    return list(dict.fromkeys(files))


def file_of(module):
    """Returns the file of a module, also where a crate only passes it on, or None if it is the kit's or a declared type."""
    crate, *path = module.split(".")
    if not os.path.isdir(f"{CRATES}/{crate}") or path[:1] != ["specs"] or {"declared", "Types"} & {*path}:
        return None
    file = "/".join([crate, *path]) + ".antt"
    if os.path.exists(f"{CRATES}/{file}"):
        return file
    parent = f"{crate}/specs/{path[1]}.antt" if path[2:] else f"{crate}/specs/Lib.antt"
    passed_on = re.search(rf"^pub use Rattle\.([\w.]+\.{path[-1]})$", read(parent), re.MULTILINE)
    if not passed_on:
        raise Failed(f"the module {module} is in no file")
    return file_of(passed_on[1])


def imports_of(text):
    """Returns the module and the name there of each imported word, and the module of each imported module name."""
    words, modules = {}, {}
    for line in text.splitlines():
        found = IMPORT.match(line.strip())
        if not found:
            continue
        _, module, names, alias = found.groups()
        if names is None:
            modules[alias or module.split(".")[-1]] = module
        for name in (names or "").split(", "):
            theirs, _, ours = name.partition(" as ")
            words[ours or theirs] = module, theirs
    return words, modules


class File:
    """A file of definitions: its imports, and the lines of each definition under each name that it defines."""

    def __init__(self, path):
        text = read(path)
        self.words, self.modules = imports_of(text)
        self.definitions = {}
        lines, indent, holds_parts = [], 0, False
        for line in text.splitlines():
            if not line.strip() or line.lstrip().startswith("--") or IMPORT.match(line.strip()):
                continue
            begin = DEFINITION.match(line)
            is_part = holds_parts and len(line) - len(line.lstrip()) > indent
            if begin and not is_part:
                lines, indent, holds_parts = [], len(begin[1]), bool(begin[2])
                self.definitions[begin[3]] = lines
            elif is_part and NAME_OF_PART.match(line):
                for name in NAME_OF_PART.match(line)[1].split():
                    self.definitions.setdefault(name, lines)
            lines.append(line)


class Reading:
    """Follows words to their definitions."""

    def __init__(self):
        self.files = {}
        self.reached = {}

    def file(self, path):
        """Returns the file, which is read once."""
        if path not in self.files:
            self.files[path] = File(path)
        return self.files[path]

    def follow(self, lines, words, modules, here):
        """Follows each word of the lines, which have these imports and are in the file `here`."""
        for word in WORD.findall("\n".join(line.split(" -- ")[0] for line in lines)):
            first, _, rest = word.partition(".")
            if here and first in self.file(here).definitions:
                self.reach(here, first)
            elif first in words:
                self.find(*words[first])
            elif rest and first in modules:
                self.find(modules[first], rest.split(".")[0])

    def find(self, module, name):
        """Reaches the definition of a name of a module, unless it is the kit's or a declared type."""
        path = file_of(module)
        if path is None:
            return
        file = self.file(path)
        if name in file.definitions:
            self.reach(path, name)
        elif name in file.words:
            self.find(*file.words[name])
        else:
            raise Failed(f"{path} does not define {name}")

    def reach(self, path, name):
        """Reaches a definition, and follows its words."""
        file = self.file(path)
        lines = file.definitions[name]
        if id(lines) not in self.reached:
            self.reached[id(lines)] = path, name, lines
            self.follow(lines, file.words, file.modules, path)


def clauses_of(text, function):
    """Returns the clauses of a function."""
    head = re.split(rf"\bfn {function}[(<]", text)[1]
    head = re.split(r"^ *\{$", head, maxsplit=1, flags=re.MULTILINE)[0]
    return head[re.search(r"^ *(requires|ensures) ", head, re.MULTILINE).start() :].splitlines()


def needed(statement):
    """Returns how many lines a statement needs of each file, and the names of the definitions there."""
    reading = Reading()
    for path, functions in statement:
        text = read(path)
        for function in functions:
            reading.follow(clauses_of(text, function), *imports_of(text), None)
    lines, names = {}, {}
    for path, name, definition in reading.reached.values():
        lines[path] = lines.get(path, 0) + len(definition)
        names.setdefault(path, []).append(name)
    return lines, names


def check_headline(listed):
    """Checks the first list, and returns how many lines the headline needs."""
    lines, names = needed(HEADLINE)
    missing = sorted({*lines} - {*listed})
    if missing:
        found = "; ".join(f"{file} ({', '.join(sorted(names[file]))})" for file in missing)
        raise Failed(f"docs/ARCHITECTURE.md does not list {found}")
    unneeded = [file for file in listed if file not in lines]
    if unneeded:
        raise Failed("docs/ARCHITECTURE.md lists " + ", ".join(unneeded) + ", of which the headline needs nothing")
    count = sum(lines.values())
    if count > MOST_LINES:
        raise Failed(f"the definitions of the headline have {count} lines, more than {MOST_LINES}")
    return count


def cells(statement, listed):
    """Returns the cells of a row: the files that a statement needs beyond the first list, and how many lines of them."""
    lines = {file: count for file, count in needed(statement)[0].items() if file not in [*listed, *COMMON]}
    crates = {}
    for file in sorted(lines):
        crate, *_, name = file.split("/")
        crates.setdefault(crate, []).append(name.removesuffix(".antt"))
    shown = "; ".join(f"`{crate}`: {', '.join(names)}" for crate, names in crates.items())
    return f"{shown} | {sum(lines.values())}"


def main():
    listed = files_of_list()
    count = check_headline(listed)
    rows = {about: f"| {about} | {cells(statement, listed)} | " for about, statement in OTHERS.items()}
    if sys.argv[1:] == ["--rows"]:
        print("\n".join(rows.values()))
        return
    with open(f"{TOP}/docs/ARCHITECTURE.md", encoding="utf-8") as file:
        text = file.read()
    for about, row in rows.items():
        if row not in text:
            raise Failed(f"docs/ARCHITECTURE.md has another row of '{about}' than\n{row}")
    print(f"reading_list: the headline needs {count} lines of {len(listed)} files, and {len(rows)} other statements need what is listed")


if __name__ == "__main__":
    try:
        main()
    except Failed as error:
        sys.exit(f"reading_list: {error}")
