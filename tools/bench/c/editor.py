#!/usr/bin/env python3
"""Times an edit of a text by the Python module, and prints a table in Markdown.

    /usr/bin/python3 tools/bench/c/editor.py FOLDER [--rounds N]

FOLDER is one that tools/c/build made. TOML is beside `tomlkit` (Debian: python3-tomlkit), which keeps the layout too. JSON is
beside `json`, which reads the text, and prints all of it anew. A time is the processor time of reading the text, one edit and
the new text: the least of all rounds. Both texts have to be the same document. Needs Python 3.11.
"""
import argparse
import json
import os
import sys
import tomllib

import tomlkit

HERE = os.path.dirname(os.path.abspath(__file__))
sys.dont_write_bytecode = True
sys.path[:0] = [HERE, os.path.dirname(HERE)]
import toml_edits  # noqa: E402
from speed import least, shown  # noqa: E402

TABLES = 700
RECORDS = 600
# What reads the document of a text, to compare both results.
READERS = {"tomlkit": tomllib.loads, "json": json.loads}


def toml_text():
    """Returns a TOML text of 100 KB, with comments."""
    return toml_edits.text_of(TABLES)


def json_text():
    """Returns a JSON text of 100 KB, indented by 4."""
    records = [{"name": f"package-{it}", "version": f"1.{it}.0", "features": ["std", "alloc"], "ratio": it / 4} for it in range(RECORDS)]
    return json.dumps({"version": 3, "package": records}, indent=4)


def edits(count, value):
    """Yields what an edit does, the names and indices on the way to the value, and the new value."""
    yield "replace a value", ["package", count // 2, "version"], value
    yield "add a member", ["package", count // 2, "new"], value


def pointer_of(path):
    """Returns the pointer of names and indices, of which none has a slash or a tilde."""
    return "".join(f"/{token}" for token in path)


def ours(jsonptr, text, form, path, value):
    """Returns the text after the edit, by the module."""
    editor = jsonptr.Editor(text, form)
    editor.assign(pointer_of(path), value)
    return editor.text


def theirs(read, write, text, path, value):
    """Returns the text after the edit, by reading and printing."""
    document = read(text)
    here = document
    for token in path[:-1]:
        here = here[token]
    here[path[-1]] = value
    return write(document)


def rows(jsonptr):
    """Yields for each row its text, the edit, and both ways."""
    text, dump = toml_text(), tomlkit.dumps
    for name, path, value in edits(TABLES, "2.0"):
        yield (f"TOML, {len(text) // 1000} KB", "tomlkit", name, lambda p=path, v=value: ours(jsonptr, text, "toml", p, v),
               lambda p=path, v=value: theirs(tomlkit.parse, dump, text, p, v))
    other = json_text()
    for name, path, value in edits(RECORDS, "2.0"):
        yield (f"JSON, {len(other) // 1000} KB", "json", name, lambda p=path, v=value: ours(jsonptr, other, "json", p, v),
               lambda p=path, v=value: theirs(json.loads, lambda d: json.dumps(d, indent=4), other, p, v))


def main():
    parser = argparse.ArgumentParser(description=__doc__, formatter_class=argparse.RawDescriptionHelpFormatter)
    parser.add_argument("--rounds", type=int, default=5)
    parser.add_argument("built")
    words = parser.parse_args()
    os.environ["JSONPTR_LIBRARY"] = f"{words.built}/lib/libjsonptr.so"
    sys.path.insert(0, f"{words.built}/python")
    import jsonptr

    print("| Text | Edit | here | beside | ratio |\n|---|---|---|---|---|")
    for text, other, name, here, there in rows(jsonptr):
        if READERS[other](there()) != READERS[other](here()):
            sys.exit(f"editor: {name} of {text}: {other} makes another document")
        mine, others = least(here, 10, words.rounds), least(there, 1, words.rounds)
        print(f"| {text} | {name} | {shown(mine)} | `{other}` {shown(others)} | 1/{others / mine:.0f} |", flush=True)


if __name__ == "__main__":
    main()
