"""The texts that rivals.py finds and changes values in: some are made here, others are files of Debian's packages."""
import gzip
import json
import os
import shutil
import sys
import tempfile
from multiprocessing import Process
from typing import NamedTuple

from in_text import SHAPES, make
from rival_ways import version_of


class Text(NamedTuple):
    """A text: its name, what writes it into a file, and the pointer to a value near its end."""

    name: str
    write: object
    pointer: str


WORDS = ["plain words of a sentence", "a \"quoted\" word\tand a tab\n", "café, naïve, Übung", "漢字かな交じり文", "слова и буквы", "😀🎉", "C:\\folder\\file"]


def strings(count):
    """Returns records with long strings, in which there are escapes and letters beyond ASCII."""
    return [{"id": it, "text": " ".join(WORDS[(it + 3 * at) % len(WORDS)] for at in range(40)), "title": WORDS[it % len(WORDS)]} for it in range(count)]


def in_process(write, *arguments):
    """Writes a file in a process of its own, since the memory of this one would stay."""
    process = Process(target=write, args=arguments)
    process.start()
    process.join()
    if process.exitcode:
        sys.exit("no text")


def write_strings(count, is_ascii, path):
    """Writes the records with long strings."""
    with open(path, "w", encoding="utf-8") as file:
        json.dump(strings(count), file, ensure_ascii=is_ascii)


def of_strings(name, count, is_ascii):
    """Returns a text of long strings."""
    return Text(name, lambda path: in_process(write_strings, count, is_ascii, path), f"/{count - 1}/title")


def of_shape(name, kind, count):
    """Returns a text of in_text.py."""
    shape = SHAPES[kind]
    return Text(name, lambda path: make(shape.document, count, path), shape.pointer(count))


def copied(source):
    """Returns what writes a copy of a file, unpacked."""

    def write(path):
        with (gzip.open if source.endswith(".gz") else open)(source, "rb") as given, open(path, "wb") as file:
            shutil.copyfileobj(given, file)

    return write


def real_texts():
    """Yields the texts of Debian's packages that are installed."""
    if version := version_of("iso-codes"):
        for name, key, what in (("iso_639-3", "639-3", "languages"), ("iso_3166-2", "3166-2", "regions")):
            source = f"/usr/share/iso-codes/json/{name}.json"
            with open(source, encoding="utf-8") as file:
                last = len(json.load(file)[key]) - 1
            yield Text(f"iso-codes {version}: {what}, indented", copied(source), f"/{key}/{last}/name")
    if version := version_of("golang-1.19-src"):
        yield Text(f"golang {version}: code.json", copied("/usr/share/go-1.19/src/encoding/json/testdata/code.json.gz"), "/username")


def texts(scale):
    """Yields the texts: those that are made here, smaller by a factor, and real ones."""
    yield of_shape("10 records", "records", 10)
    yield of_shape("records", "records", 100_000 // scale)
    yield of_shape("an object of records", "object", 100_000 // scale)
    yield of_shape("pairs of floats", "numbers", 260_000 // scale)
    yield of_shape("records 60 levels down", "deep", 14_000 // scale)
    yield of_strings("long strings, UTF-8", 10_000 // scale, False)
    yield of_strings("long strings, all `\\u` escapes", 10_000 // scale, True)
    yield from real_texts()


def files(words):
    """Yields each text whose name has the word that is asked for, with the file that it is in."""
    for text in texts(words.scale):
        if words.text in text.name:
            with tempfile.NamedTemporaryFile(suffix=".json") as file:
                text.write(file.name)
                yield text, file.name


def size_of(path):
    """Returns the size of a file in words."""
    size = os.path.getsize(path)
    return f"{size / 1e6:.1f} MB" if size >= 100_000 else f"{size / 1e3:.1f} KB"


def toml_text(count):
    """Returns a list of tables in TOML, with comments."""
    tables = (
        f'# number {it}\n[[package]]\nname = "package-{it}"\nversion = "1.{it}.0" # pinned\nfeatures = ["std", "alloc"]\n'
        f"source = {{ git = \"https://example.com/{it}\", rev = 'abc' }}\n"
        for it in range(count)
    )
    return "# A lock file\nversion = 3\n\n" + "\n".join(tables)


def operations(records, count):
    """Returns a patch of so many operations, in records spread over an array: replace, add, test, remove."""

    def operation(number):
        at = f"/{number * records // count}"
        return [
            {"op": "replace", "path": f"{at}/name", "value": f"new {number}"},
            {"op": "add", "path": f"{at}/added", "value": {"a": [number, True]}},
            {"op": "test", "path": f"{at}/id", "value": number * records // count},
            {"op": "remove", "path": f"{at}/is_new"},
        ][number % 4]

    return [operation(number) for number in range(count)]


def merge_members(records, count):
    """Returns a merge patch of so many members, of records spread over an object: new values, new members, and nulls."""
    return {f"key{it * records // count}": {"name": f"new {it}", "added": {"a": [it, True]}, "is_new": None} for it in range(count)}
