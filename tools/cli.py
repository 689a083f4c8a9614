"""Runs the built program `jptr` as a process: its commands, errors, streams and files, and the examples of its guide.

It needs Linux, bash, a C compiler, and a user `nobody` if it runs as root. It also checks that the man page, the
completions and the guide name each command and flag that `--help` shows, and what zsh, fish, mandoc and man say of them,
as far as these are there.
"""
import functools
import json
import os
import re
import shutil
import stat
import subprocess
import sys
import tempfile
import tomllib
from concurrent.futures import ThreadPoolExecutor
from random import Random
from typing import NamedTuple

from call_cases import ASSIGN_OUT_OF_BOUNDS, RESOLVE_NOT_FOUND
from edits import spans
from harness import TOOLS, TOP, CheckFailed, build_shim, program, run_with_shim

PROGRAM = program("jptr")
SECONDS = 60
GUIDE = f"{TOP}/docs/COMMAND_LINE.md"
# What `jptr --generate` prints, with the word after it.
GENERATED = {"man page": "man", "completions for bash": "bash", "completions for zsh": "zsh", "completions for fish": "fish"}
# The commands that look for faults in it, and print nothing if there are none.
LINTERS = [
    ("man", ["mandoc", "-T", "lint", "-W", "warning"]), ("man", ["man", "--warnings", "-E", "UTF-8", "-Tutf8", "-Z", "-l"]),
    ("bash", ["bash", "-n"]), ("zsh", ["zsh", "-n"]), ("fish", ["fish", "-n"]),
]
CONSOLE = re.compile(r"^```console\n(.*?)^```$", re.MULTILINE | re.DOTALL)
MARK = "-- next --"
LINES = 100_000


class Case(NamedTuple):
    """Arguments and input of a run, its two outputs, and its exit status."""

    words: tuple
    input: str
    output: str
    errors: str = ""
    status: int = 0


TEXT = '{\n  "b": 1.0,\n  "a/b": [1, 2]\n}\n'
NOT_FOUND = RESOLVE_NOT_FOUND.format(0)
OUT_OF_BOUNDS = ASSIGN_OUT_OF_BOUNDS.format(5)
# Errors of an empty input, and of an open brace.
EMPTY = "the input is empty\n"
OPEN = "text is not JSON: expected a key or `}`, found the end at line 1 column 2\n{\n ^\n"


def cases():
    """Commands that succeed and fail, on standard input."""
    yield Case(("get", "/b"), TEXT, "1.0\n")
    yield from fragments()
    yield Case(("get", "/a~1b/1", "-"), TEXT, "2\n")
    yield Case(("get", ""), TEXT, TEXT)
    yield Case(("get", "/a~1b"), TEXT, "[1, 2]\n")
    yield Case(("get", "--compact", ""), TEXT, '{"b":1.0,"a/b":[1,2]}\n')
    yield Case(("get", "--sort-keys", ""), TEXT, '{"a/b":[1,2],"b":1.0}\n')
    yield Case(("get", "--sort-keys", "--pretty", ""), TEXT, '{\n  "a/b": [\n    1,\n    2\n  ],\n  "b": 1.0\n}\n')
    yield Case(("get", "/n"), '{"n": [1.10, 1e5, 18446744073709551616]}', "[1.10, 1e5, 18446744073709551616]\n")
    yield Case(("get", "--pretty", "/n"), '{"n": [1.10, 1e5]}', "[\n  1.10,\n  1e5\n]\n")
    for pointer, own in [("/a", "1.0"), ("/b/0", "1.00"), ("/b/1", "1e0"), ("/c", "10e-1")]:
        yield Case(("get", pointer), '{"a": 1.0, "b": [1.00, 1e0], "c": 5, "c": 10e-1}', f"{own}\n")
    yield Case(("get", "--pretty", "/a~1b"), TEXT, "[\n  1,\n  2\n]\n")
    yield Case(("get", "--compact", "/a~1b"), TEXT, "[1,2]\n")
    yield Case(("get", "/s"), '{"s":"x\\n\\u00e9"}', '"x\\n\\u00e9"\n')
    yield Case(("get", "--compact", "/s"), '{"s":"x\\n\\u00e9"}', '"x\\né"\n')
    yield Case(("get", "--raw", "/s"), '{"s":"x\\n\\u00e9"}', "x\né\n")
    yield Case(("get", "--raw", "/s"), '{"s":[1, "x"]}', '[1, "x"]\n')
    yield Case(("get", "--raw", "--compact", "/s"), '{"s":"x\\n\\u00e9"}', "x\né\n")
    yield Case(("get", "--default", "-1", "/c"), TEXT, "-1\n")
    yield Case(("get", "--default", '"x"', "--raw", "/c"), TEXT, "x\n")
    yield Case(("get", "--default", "[1, 2]", "/b"), TEXT, "1.0\n")
    yield Case(("set", "/b", "2"), TEXT, TEXT.replace("1.0", "2"))
    yield Case(("set", "/b", "-2"), TEXT, TEXT.replace("1.0", "-2"))
    yield Case(("set", "/b", '{"x": [ ]}'), '{"b":0}', '{"b":{"x": [ ]}}'.replace(": [ ]", ":[]"))
    yield Case(("set", "/a~1b/-", "3"), TEXT, TEXT.replace("2]", "2, 3]"))
    yield Case(("set", "--compact", "/c", "null"), TEXT, '{"b":1.0,"a/b":[1,2],"c":null}\n')
    yield Case(("set", "--sort-keys", "/a", "1.10"), TEXT, '{"a":1.1,"a/b":[1,2],"b":1.0}\n')
    yield Case(("set", "--pretty", "", "[[]]"), "1", "[\n  []\n]\n")
    yield from own_texts()
    yield from formats()
    yield from digits()
    yield Case(("delete", "/b"), TEXT, '{\n  "a/b": [1, 2]\n}\n')
    yield Case(("delete", "--compact", "/a~1b/0"), TEXT, '{"b":1.0,"a/b":[2]}\n')
    yield from on_paths()
    patch = '[{"op":"remove","path":"/a"}]'
    yield Case(("patch", "--check", "-", "/dev/null"), patch, "", f"jptr: /dev/null: {EMPTY}", 3)
    bad = '[{"op":"remove","path":"/a~b"}]'
    message = "not a JSON Patch document: member `path` of operation 0: json pointer failed to parse; the first token in the partial-pointer starting at offset 0 is malformed"
    drawn = "/a~b\n  ^^ '~' must be followed by '0' or '1'"
    yield Case(("patch", "-", "/dev/null"), bad, "", f"jptr: standard input: {message}\n{drawn}\n", 3)
    yield Case(("diff", "/dev/null", "-"), "1", "", f"jptr: /dev/null: {EMPTY}", 3)
    yield Case(("set", "--create", "/a", "1"), TEXT, "", "jptr: --create: needs a file\n", 2)
    yield Case(("tokens", "/a~1b//~0"), "", '["a/b","","~"]\n')
    yield Case(("tokens", "--raw", "/a~1b/x"), "", "a/b\nx\n")
    yield Case(("tokens", ""), "", "[]\n")
    yield Case(("escape", "a/b~c"), "", "a~1b~0c\n")
    yield Case(("escape", "--", "-x"), "", "-x\n")
    yield Case(("unescape", "a~1b~0c"), "", "a/b~c\n")
    yield from layouts()
    yield from locations()
    yield from nodes()
    yield from several()
    yield from rows()
    yield from on_toml()
    yield from unexpanded()
    yield from operations()
    yield from commented()
    yield from colours()
    yield from drawings()
    yield from hints()
    yield from escaped()
    yield from failing()


def fragments():
    """Pointers that are written as fragments of URIs."""
    yield Case(("get", "#/a%7E1b/1"), TEXT, "2\n")
    yield Case(("get", "#/b", "#/a~1b/0", "-"), TEXT, "1.0\n1\n")
    yield Case(("get", "#"), "[1]", "[1]\n")
    yield Case(("set", "#/b", "2", "#/a~1b/-", "3"), TEXT, TEXT.replace("1.0", "2").replace("2]", "2, 3]"))
    yield Case(("set", "--string", "/b", "#/b"), TEXT, TEXT.replace("1.0", '"#/b"'))
    yield Case(("move", "#/b", "#/%C3%A4"), TEXT, '{\n  "a/b": [1, 2],\n  "\u00e4": 1.0\n}\n')
    yield Case(("rename", "#/b", "#"), TEXT, TEXT.replace('"b"', '"#"'))
    yield Case(("locate", "#/b"), TEXT, "2:8\n")
    yield Case(("tokens", "#/a%20b"), "", '["a b"]\n')
    yield Case(("escape", "#/b"), "", "#~1b\n")
    error = "jptr: {0}: not a URI fragment of a JSON Pointer: {1}\n"
    yield Case(("get", "#/%"), TEXT, "", error.format("#/%", "`%` without two hexadecimal digits at byte 2"), 2)
    yield Case(("get", "#/a b"), TEXT, "", error.format("#/a b", "a byte that must be percent-encoded at byte 3"), 2)


def operations():
    """Commands that are one operation of a patch (RFC 6902, section 4)."""
    yield Case(("insert", "/a~1b/0", "0"), TEXT, TEXT.replace("[1, 2]", "[0, 1, 2]"))
    yield Case(("insert", "/a~1b/2", "1.50"), TEXT, TEXT.replace("2]", "2, 1.50]"))
    yield Case(("insert", "/a~1b/-", "-3"), TEXT, TEXT.replace("2]", "2, -3]"))
    yield Case(("insert", "/b", "2"), TEXT, TEXT.replace("1.0", "2"))
    yield Case(("insert", "--string", "/c", "x y"), TEXT, TEXT.replace("2]\n", '2],\n  "c": "x y"\n'))
    yield Case(("insert", "--compact", "/c", '{"y": 1, "x": 1e5}'), TEXT, '{"b":1.0,"a/b":[1,2],"c":{"y":1,"x":1e5}}\n')
    yield Case(("insert", "--lines", "/0", "0"), "[]\n[1]\n", "[0]\n[0,1]\n")
    yield Case(("insert", "/c", "x"), TEXT, "", "jptr: JSON: text is not JSON: expected a value, found `x` at line 1 column 1; a string needs quotes, or --string\nx\n^\n", 3)
    yield Case(("insert", "/a", "1", "x.toml"), "", "", "jptr: insert: takes JSON, not TOML\n", 2)
    yield Case(("insert", "/a~1b/3", "0"), TEXT, "", f"jptr: standard input: {OUT_OF_BOUNDS}\n/a~1b/3\n      ^ 3 is out of bounds (len: 2)\n", 6)
    yield Case(("insert", "/c", "[" * 125 + "]" * 125, "--compact"), "{}", '{"c":' + "[" * 125 + "]" * 125 + "}\n")
    yield Case(("insert", "/c", "[" * 126 + "]" * 126), "{}", "", "jptr: JSON: patch would nest deeper than 127\n", 6)
    yield Case(("move", "/b", "/c"), TEXT, '{\n  "a/b": [1, 2],\n  "c": 1.0\n}\n')
    yield Case(("move", "/a~1b/1", "/a~1b/0"), TEXT, TEXT.replace("1, 2", "2, 1"))
    yield Case(("copy", "/b", "/a~1b/0"), TEXT, TEXT.replace("[1", "[1.0, 1"))
    yield Case(("copy", "/b", "/a~1b", "--compact"), TEXT, '{"b":1.0,"a/b":1.0}\n')
    yield Case(("rename", "/b", "x/y"), TEXT, '{\n  "x/y": 1.0,\n  "a/b": [1, 2]\n}\n')
    yield Case(("rename", "/a~1b", "-x", "--compact"), TEXT, '{"b":1.0,"-x":[1,2]}\n')
    yield Case(("rename", "/b", "b"), TEXT, TEXT)
    yield Case(("rename", "/a", "b"), '{"a": 1, "a": 2}', "", "jptr: standard input: document cannot be edited in place; --reformat prints the document anew\n", 6)
    yield Case(("rename", "--reformat", "/a", "b"), '{"a": 1, "a": 2}', '{"b":2}\n')
    yield Case(("rename", "/b", "a/b"), TEXT, "", "jptr: standard input: there is a member with this key\n", 6)
    yield Case(("rename", "/a~1b/0", "x"), TEXT, "", "jptr: standard input: not a member of an object\n", 6)
    yield Case(("rename", "", "x"), TEXT, "", "jptr: POINTER: the root has no key\n", 2)
    yield Case(("rename", "/c", "b"), TEXT, "", f"jptr: standard input: {NOT_FOUND}\n/c\n ^ not found in value\n", 1)
    yield Case(("move", "/a~1b", "/a~1b/0"), TEXT, "", "jptr: POINTER: FROM is a proper prefix of it\n", 2)
    yield Case(("from-paths",), "/a\t{}\n/a/2\t3\n", '{"a":{"2":3}}\n')
    options = '{\n  "compilerOptions": {\n    "strict": true,\n    "lib": ["a", "b"]\n  }\n}\n'
    yield Case(("rename", "/compilerOptions", "options"), options, options.replace("compilerOptions", "options"))
    yield Case(("rename", "/a/b", "c"), '{\n  "a": {\n    "b": 1\n  }\n}\n', '{\n  "a": {\n    "c": 1\n  }\n}\n')
    yield Case(("move", "/a", "/b"), '{\n\t"a": [1.10,2]\n}\n', '{\n\t"b": [1.10,2]\n}\n')
    yield Case(("rename", "--comments", "/a", "b"), '// x\n{\n  "a": 1\n}\n', '// x\n{\n  "b": 1\n}\n')
    yield Case(("rename", "--comments", "/a", "b"), '{\n  "a": 1 // x\n}\n', '{\n  "b": 1 // x\n}\n')
    yield Case(("rename", "--comments", "/a", "b"), '{"a": /* x */ 1}', '{"b": /* x */ 1}')
    lost = "jptr: standard input: the edit cannot be made in the text with its comments\n"
    yield Case(("rename", "--comments", "/a", "b"), '{"a": 1, "a": /* x */ 2}', "", lost, 6)
    for pointer in ["", "/b", "/a~1b", "/a~1b/0"]:
        yield Case(("move", pointer, pointer), TEXT, TEXT)
        yield Case(("move", "--compact", pointer, pointer), TEXT, '{"b":1.0,"a/b":[1,2]}\n')
    yield Case(("move", "--comments", "/b", "/b"), COMMENTED, COMMENTED)
    yield Case(("move", "/c", "/c"), TEXT, "", f"jptr: standard input: {NOT_FOUND}\n/c\n ^ not found in value\n", 1)
    for words in [("/0", "/0"), ("/0", "/-")]:
        yield Case(("move", *words), "[\n  1\n]\n", "[\n  1\n]\n")
    yield Case(("move", "/0", "/1"), "[\n  1\n]\n", "", f"jptr: standard input: {ASSIGN_OUT_OF_BOUNDS.format(0)}\n/1\n ^ 1 is out of bounds (len: 0)\n", 6)
    yield Case(("set", "/[python]/b", "1"), '{\n  "[python]": {}\n}\n', '{\n  "[python]": {\n    "b": 1\n  }\n}\n')
    yield Case(("copy", "--comments", "/b", "/c"), '{"b": [1, 2 /* x */]}', '{"b": [1, 2 /* x */], "c": [1, 2]}')


COMMENTED = '{\n  // first\n  "a": 1.0, // one\n  "b": [1, /* x */ 2],\n}\n'
LOSES_COMMENT = "jptr: standard input: the edit would lose the comment at line {} column {}\n".format
LOSES_COMMENTS = "jptr: standard input: the document has comments or trailing commas, which another layout would lose\n"


def commented():
    """Commands on JSON with comments and trailing commas, and on JSON with a byte order mark."""
    yield Case(("get", "--comments", "/a"), COMMENTED, "1.0\n")
    yield Case(("get", "--comments", "/b"), COMMENTED, "[\n  1,\n  2\n]\n")
    yield Case(("get", "--comments", "--compact", ""), COMMENTED, '{"a":1.0,"b":[1,2]}\n')
    yield Case(("get", "--comments", "/a", "/b/1", "-"), COMMENTED, "1.0\n2\n")
    yield Case(("set", "--comments", "/a", "2.50"), COMMENTED, COMMENTED.replace("1.0", "2.50"))
    yield Case(("set", "--comments", "/c", "true"), COMMENTED, COMMENTED.replace("2],\n", '2],\n  "c": true,\n'))
    yield Case(("set", "--comments", "/b/-", "3", "/a", "null", "-"), COMMENTED, COMMENTED.replace("2]", "2, 3]").replace("1.0", "null"))
    yield Case(("delete", "--comments", "/a"), '{ "a": 1 // d\n, "b": 1}', '{ "b": 1}')
    yield Case(("delete", "--comments", "/a"), COMMENTED, COMMENTED.replace('  "a": 1.0, // one\n', ""))
    yield Case(("insert", "--comments", "/b/0", "0"), COMMENTED, COMMENTED.replace("[1", "[0, 1"))
    yield Case(("copy", "--comments", "/a", "/c"), COMMENTED, COMMENTED.replace("2],\n", '2],\n  "c": 1.0,\n'))
    yield Case(("move", "--comments", "/b/0", "/c"), COMMENTED, COMMENTED.replace("1, /* x */ 2],\n", '/* x */ 2],\n  "c": 1,\n'))
    yield Case(("move", "/a", "/c", "--comments"), COMMENTED, "", LOSES_COMMENT(3, 13), 6)
    error = LOSES_COMMENT(3, 13).replace("\n", "; --reformat does not apply to a document with comments\n")
    yield Case(("move", "/a", "/c", "--comments", "--reformat"), COMMENTED, "", error, 6)
    yield Case(("rename", "/a", "c", "--comments"), COMMENTED, COMMENTED.replace('"a"', '"c"'))
    yield Case(("move", "--comments", "/b", "/c"), COMMENTED, "", LOSES_COMMENT(4, 12), 6)
    yield Case(("move", "--comments", "/0", "/1"), "[1, // é\n2 /* é\n*/, 3]", "", LOSES_COMMENT(1, 5), 6)
    yield Case(("move", "--comments", "/1", "/0"), "[1, // é\n2 /* é\n*/, 3]", "", LOSES_COMMENT(2, 3), 6)
    yield Case(("rename", "--comments", "/b", "a"), COMMENTED, "", "jptr: standard input: there is a member with this key\n", 6)
    yield Case(("insert", "--comments", "/b/3", "0"), COMMENTED, "", f"jptr: standard input: {ASSIGN_OUT_OF_BOUNDS.format(2)}\n/b/3\n   ^ 3 is out of bounds (len: 2)\n", 6)
    yield Case(("keys", "--comments", ""), COMMENTED, '"a"\n"b"\n')
    yield Case(("length", "--comments", "/b"), COMMENTED, "2\n")
    yield Case(("test", "--comments", "/b/1", "2"), COMMENTED, "")
    yield Case(("paths", "--comments"), COMMENTED, "/a\t1.0\n/b/0\t1\n/b/1\t2\n")
    yield Case(("locate", "--comments", "/b/1"), COMMENTED, "4:20\n")
    yield Case(("locate", "--comments", "--at", "4:20"), COMMENTED, "/b/1\n")
    yield Case(("set", "--comments", "--compact", "/a", "2"), COMMENTED, "", LOSES_COMMENTS, 6)
    yield Case(("set", "--comments", "--compact", "/a", "2", "/b", "3", "-"), COMMENTED, "", LOSES_COMMENTS, 6)
    yield Case(("set", "--comments", "--compact", "/a", "2"), '{"a": 1}', '{"a":2}\n')
    yield Case(("set", "--comments", "--reformat", "/a", "2.50"), COMMENTED, COMMENTED.replace("1.0", "2.50"))
    yield Case(("format", "--comments"), COMMENTED, "", LOSES_COMMENTS, 6)
    yield Case(("format", "--comments"), "[1]", "[\n  1\n]\n")
    missing = f"jptr: standard input: {NOT_FOUND}\n/c\n ^ not found in value\n"
    yield Case(("get", "--comments", "/c"), COMMENTED, "", missing, 1)
    hint = "text is not JSON: expected a key or `}`, found `/` at line 2 column 3; with --comments, comments are read"
    yield Case(("get", "/a"), COMMENTED, "", f"jptr: standard input: {hint}\n  // first\n  ^\n", 3)
    yield Case(("get", "--comments", "/0"), "[1 /* x", "", "jptr: standard input: comment is not closed at line 1 column 4\n[1 /* x\n   ^\n", 3)
    marked = '\ufeff{"a": [1]}\n'
    yield Case(("get", "/a"), marked, "[1]\n")
    yield Case(("set", "/a/0", "2"), marked, marked.replace("1", "2"))
    yield Case(("delete", "--comments", "/a"), f"{marked}// x\n", "\ufeff{}\n// x\n")
    yield Case(("paths",), marked, "/a/0\t1\n")


def colours():
    """JSON with colours: keys are blue, and strings green."""
    blue, green, plain = "\x1b[34;1m", "\x1b[32m", "\x1b[0m"
    text = '{"a": ["b\\"", 1.0], "é" : {}}\n'
    wanted = f'{{{blue}"a"{plain}: [{green}"b\\""{plain}, 1.0], {blue}"é"{plain} : {{}}}}\n'
    yield Case(("get", "--color", "always", ""), text, wanted)
    yield Case(("get", "--color", "always", "/a/0", "/a/1", "-"), text, f'{green}"b\\""{plain}\n1.0\n')
    yield Case(("get", "--color", "always", "--raw", "/a/0"), text, 'b"\n')
    yield Case(("set", "--color", "always", "/a", "[]"), text, f'{{{blue}"a"{plain}: [], {blue}"é"{plain} : {{}}}}\n')
    yield Case(("get", "--color", "never", ""), text, text)
    yield Case(("get", "--color", "auto", ""), text, text)
    yield Case(("get", "--color", "red", ""), text, "", "jptr: --color: needs always, never or auto\n", 2)
    yield Case(("get", "--comments", "--color", "always", ""), '["a", // b\n]', '[\n  "a"\n]\n')


def drawings():
    """What is at fault with a deletion."""
    fails = "jptr: standard input: delete failed: json pointer does not resolve\n"
    yield Case(("delete", "/a~1b/2"), TEXT, "", f"{fails}/a~1b/2\n      ^ index 2 out of bounds (len: 2)\n", 1)


# Operations after one that applies to `TEXT`, why each fails, and what is drawn (RFC 6902, section 4).
FIRST = '{"op": "add", "path": "/x", "value": 1}'
MISSING = f"{NOT_FOUND}\n/y\n ^ not found in value\n"
FAILING = [
    ('{"op": "remove", "path": "/y"}', MISSING),
    ('{"op": "replace", "path": "/y", "value": 1}', MISSING),
    ('{"op": "test", "path": "/y", "value": 1}', MISSING),
    ('{"op": "move", "from": "/y", "path": "/z"}', MISSING),
    ('{"op": "copy", "from": "/y", "path": "/z/z"}', MISSING),
    ('{"op": "add", "path": "/y/z", "value": 1}', MISSING.replace("/y\n", "/y/z\n")),
    ('{"op": "copy", "from": "/x", "path": "/y/z"}', MISSING.replace("/y\n", "/y/z\n")),
    ('{"op": "add", "path": "/a~1b/3", "value": 1}', f"{OUT_OF_BOUNDS}\n/a~1b/3\n      ^ 3 is out of bounds (len: 2)\n"),
    ('{"op": "move", "from": "/x", "path": "/x/y"}', "from is a proper prefix of path\n"),
    ('{"op": "test", "path": "/x", "value": 2}', "test failed\n/x is 1, and not 2\n"),
    ('{"op": "test", "path": "/a~1b", "value": {"é": "y"}}', 'test failed\n/a~1b is [1,2], and not {"é":"y"}\n'),
    ('{"op": "test", "path": "", "value": []}', 'test failed\nthe document is {"a/b":[1,2],"b":1.0,"x":1}, and not []\n'),
    (f'{{"op": "test", "path": "/b", "value": "{"é" * 70}"}}', f'test failed\n/b is 1.0, and not "{"é" * 59}..\n'),
]


def layouts():
    """A document in the layout of a file."""
    yield Case(("relayout", "-", "/dev/null"), TEXT, "", f"jptr: /dev/null: {EMPTY}", 3)
    yield Case(("relayout", "/dev/null"), TEXT, "", f"jptr: /dev/null: {EMPTY}", 3)
    yield Case(("relayout", "-"), TEXT, "", "jptr: FILE: standard input cannot be both documents\n", 2)
    yield Case(("relayout", "-", "-"), TEXT, "", "jptr: FILE: standard input cannot be both documents\n", 2)
    yield Case(("relayout", "x.toml"), TEXT, "", "jptr: relayout: takes JSON, not TOML\n", 2)


def locations():
    """Where a value is, and which value is at a position."""
    yield Case(("locate", "/a~1b/1"), TEXT, "3:14\n")
    yield Case(("locate", ""), "\n\n  {}", "3:3\n")
    yield Case(("locate", "/é/ü"), '{"é": {"ü": 1}}', "1:13\n")
    yield Case(("locate", "/a"), '{"a": 1, "a": 2}', "1:15\n")
    yield Case(("locate", "/c"), TEXT, "", f"jptr: standard input: {NOT_FOUND}\n/c\n ^ not found in value\n", 1)
    yield Case(("locate", "/a"), "{", "", f"jptr: standard input: {OPEN}", 3)
    yield Case(("locate", "--at", "3:14"), TEXT, "/a~1b/1\n")
    yield Case(("locate", "--at", "3:13"), TEXT, "/a~1b\n")
    yield Case(("locate", "--at", "3:4"), TEXT, "\n")
    yield Case(("locate", "--at", "1:13"), '{"é": {"ü": 1}}', "/é/ü\n")
    yield Case(("locate", "--at", "1:6"), '{"a": 1, "a": 2}', "\n")
    yield Case(("locate", "--at", "4:2"), TEXT, "", "jptr: standard input: no value at 4:2\n", 1)
    yield Case(("locate", "--at", "9:1"), TEXT, "", "jptr: standard input: no value at 9:1\n", 1)
    yield Case(("locate", "--at", "4:18"), "{", "", f"jptr: standard input: {OPEN}", 3)
    yield Case(("locate", "--at", "0:1"), TEXT, "", "jptr: --at: is not LINE:COLUMN, both from 1\n", 2)
    yield Case(("locate", "--at", "1"), TEXT, "", "jptr: --at: is not LINE:COLUMN, both from 1\n", 2)
    yield Case(("locate", "--at", "1:1", "/a", "f"), TEXT, "", "jptr: locate: --at takes a file alone\n", 2)
    yield Case(("locate",), TEXT, "", "jptr: locate: needs a pointer, or --at LINE:COLUMN\n", 2)
    yield Case(("locate", "/a", "x.toml"), TEXT, "", "jptr: locate: takes JSON, not TOML\n", 2)
    yield Case(("locate", "/a", "/dev/null"), TEXT, "", f"jptr: /dev/null: {EMPTY}", 3)
    yield Case(("locate", "--at", "1:1", "/dev/null"), TEXT, "", f"jptr: /dev/null: {EMPTY}", 3)
def nodes():
    """Keys, length and type of a value, and tests of it."""
    text = '{"z": {"b": 1.0, "a/b": [1, 2], "b": null}, "s": "n\\u00e9\\n", "n": -0.5, "t": true, "": []}'
    yield Case(("keys", ""), text, '"z"\n"s"\n"n"\n"t"\n""\n')
    yield Case(("keys", "/z"), text, '"b"\n"a/b"\n')
    yield Case(("keys", "--raw", "/z"), text, "b\na/b\n")
    yield Case(("keys", ""), '{"x\\ny": 1, "\\u00e9": {"a": 2}}', '"x\\ny"\n"é"\n')
    yield Case(("keys", "--raw", ""), '{"x\\ny": 1, "\\u00e9": {"a": 2}}', "x\ny\né\n")
    yield Case(("keys", "/0", "-"), "[{}]", "")
    yield Case(("keys", ""), f'{{"a":{"[" * 126}{"]" * 126}}}', '"a"\n')
    yield Case(("keys", "/0" * 126), f'{"[" * 126}{{"a":1}}{"]" * 126}', '"a"\n')
    for pointer, kind, length in [("", "object", 5), ("/z", "object", 2), ("/z/a~1b", "array", 2), ("/s", "string", 3), ("/", "array", 0)]:
        yield Case(("type", pointer), text, f"{kind}\n")
        yield Case(("length", pointer), text, f"{length}\n")
    for pointer, kind, named in [("/n", "number", "a number"), ("/t", "boolean", "a boolean"), ("/z/b", "null", "null")]:
        yield Case(("type", pointer), text, f"{kind}\n")
        yield Case(("length", pointer), text, "", f"jptr: standard input: {named} has no length\n", 1)
    for pointer, named in [("/s", "a string"), ("/z/a~1b", "an array"), ("/n", "a number"), ("/t", "a boolean"), ("/z/b", "null")]:
        yield Case(("keys", pointer), text, "", f"jptr: standard input: {named} has no keys\n", 1)
    for value, status in [("1", 0), ("1.0", 0), ("1e0", 0), ("2", 1), ("-1", 1), ('"1"', 1), ("null", 1)]:
        yield Case(("test", "/a~1b/0", value), TEXT, "", "", status)
    yield Case(("test", "", '{"a/b": [1.0, 2], "b": 1}', "-"), TEXT, "")
    yield Case(("test", "/s", "--string", "x y"), '{"s":"x y"}', "")
    yield Case(("test", "/b"), TEXT, "")
    for words in [("test", "/c"), ("test", "/c", "1"), ("test", "/a~1b/2")]:
        yield Case(words, TEXT, "", "", 1)
    for words in [("keys",), ("length",), ("type",)]:
        yield Case((*words, "/c"), TEXT, "", f"jptr: standard input: {NOT_FOUND}\n/c\n ^ not found in value\n", 1)
    for words in [("keys", ""), ("length", ""), ("type", ""), ("test", ""), ("test", "", "1")]:
        yield Case(words, "{", "", f"jptr: standard input: {OPEN}", 3)
    yield Case(("test", "/b", "x"), TEXT, "", "jptr: JSON: text is not JSON: expected a value, found `x` at line 1 column 1; a string needs quotes, or --string\nx\n^\n", 3)
    yield Case(("test", "/b", "@-"), TEXT, "", "jptr: JSON: standard input cannot be the value and the document\n", 2)
    yield Case(("test", "/b", "@/dev/null"), TEXT, "", f"jptr: /dev/null: {EMPTY}", 3)


# The error of a pointer without a slash at its start: what to type instead, and the pointer.
NO_SLASH = "jptr: POINTER: json pointer failed to parse; does not start with a slash ('/') and is not empty; {}\n{}\n^ must start with a slash ('/')\n"
LOOKS = "a pointer looks like /a/0 and comes before FILE, and '' is the whole document"


def hints():
    """Errors that say what to type instead."""
    yield Case(("get", "f", "/name"), "", "", NO_SLASH.format(LOOKS, "f"), 2)
    yield Case(("get", ".name"), "", "", NO_SLASH.format("write /a/0 for .a[0], and '' for the whole document", ".name"), 2)
    yield Case(("get", "/a", "/b"), "{}", "", "jptr: /b: No such file or directory (os error 2); after several pointers, write - for standard input\n", 5)
    yield Case(("delete", "/a", "/b"), "{}", "", "jptr: /b: No such file or directory (os error 2); after several pointers, write - for standard input\n", 5)
    yield Case(("patch", "-", "/dev/null"), '{"a": null}', "", "jptr: standard input: not a JSON Patch document: not an array; a merge patch (RFC 7396) is not taken\n", 3)
    for text in ["", " \n"]:
        yield Case(("get", ""), text, "", f"jptr: standard input: {EMPTY}", 3)
    for text, column in [('["a\\ud83d"]', 4), ('["\\uDE00"]', 3), ('["\\ud83d\\ud83d\\ude00"]', 3)]:
        half = f"jptr: standard input: text is not JSON: an escape is half of a surrogate pair at line 1 column {column}\n{text}\n{' ' * (column - 1)}^\n"
        yield Case(("get", ""), text, "", half, 3)
    yield Case(("get", "/0"), '["\\ud83d\\ude00"]', '"\\ud83d\\ude00"\n')
    lines = "jptr: standard input: text is not JSON: expected the end, found `{` at line 2 column 1; with --lines, each line is a document\n{}\n^\n"
    yield Case(("get", "/a"), "{}\n{}\n", "", lines, 3)
    toml = "jptr: JSON: not a TOML value{}\n".format
    yield Case(("set", "--toml", "/a", "x"), "", "", toml(": a string needs quotes, or --string"), 3)
    yield Case(("set", "--toml", "/a", '{"x": 1}'), "", "", toml(': TOML writes {x = 1} for {"x": 1}'), 3)
    yield Case(("set", "--toml", "/a", "1 2"), "", "", toml(""), 3)
    for flags in [("--pretty",), ("--compact",), ("--indent", "2"), ("--sort-keys",), ("--color", "never")]:
        for words in [("get", "/a"), ("set", "/a", "1"), ("delete", "/a")]:
            yield Case((*words, "--toml", *flags), "a = 1\n", "", f"jptr: {flags[0]}: is for JSON, and the document is TOML\n", 2)
    for words in [("get", "/a"), ("delete", "/a"), ("paths",)]:
        yield Case((*words, "--toml", "--lossy"), "a = 1\n", "", "jptr: --lossy: does nothing here: reading TOML loses no digit\n", 2)
        yield Case((*words, "--comments", "x.toml"), "", "", "jptr: --comments: is for JSON, and the document is TOML\n", 2)
    yield Case(("get", "--toml", "--lossy", "--default", "1e-400", "/b"), "a = 1\n", "0.0\n")
    yield Case(("diff", "-", "x.toml"), "", "", "jptr: diff: takes JSON, not TOML\n", 2)


# Characters that could move the cursor, and how they are shown.
MOVING = [("\x1b", "\\u001b"), ("\x01", "\\u0001"), ("\x7f", "\\u007f"), ("\x85", "\\u0085"), ("\x9b", "\\u009b"), ("\u202e", "\\u202e"), ("\r", "\\r")]


def escaped():
    """Characters of the input that could move the cursor: in errors they are escaped as in a JSON string."""
    for c, shown in MOVING:
        caret = "^" * (1 + len(shown))
        yield Case(("paths",), f'{{{json.dumps(f"é{c}")}: 1e-400}}', "", f"jptr: standard input: the number at /é{shown} loses digits: use --lossy\n", 3)
        gap = f"line 1: no element is before 1 in an array at /{shown}; lines of paths --all tell an object"
        yield Case(("from-paths",), f"/{c}/1\t2\n", "", f"jptr: standard input: {gap}\n", 6)
        yield Case(("get", f"/é{c}"), "{}", "", f"jptr: standard input: {NOT_FOUND}\n/é{shown}\n {caret} not found in value\n", 1)
        yield Case(("get", "/a", f"f{c}.json"), "", "", f"jptr: f{shown}.json: No such file or directory (os error 2)\n", 5)
        wrong = f"text is not JSON: expected the end, found `{shown}` at line 1 column 3\n1 {shown}\n  ^\n"
        if c != "\r":
            yield Case(("get", ""), f"1 {c}", "", f"jptr: standard input: {wrong}", 3)


def several():
    """Several pointers in one call: all of them apply, or nothing is printed."""
    yield Case(("get", "/b", "/a~1b", "-"), TEXT, "1.0\n[1, 2]\n")
    yield Case(("get", "--raw", "/s", "/t/0", "/s", "-"), '{"s": "x\\ny", "t": ["z"]}', "x\ny\nz\nx\ny\n")
    yield Case(("get", "--default", "null", "/b", "/c", "-"), TEXT, "1.0\nnull\n")
    yield Case(("get", "--compact", "", "/b", "-"), TEXT, '{"b":1.0,"a/b":[1,2]}\n1.0\n')
    yield Case(("get", "--indent", "1", "/a~1b", "/b", "-"), TEXT, "[\n 1,\n 2\n]\n1.0\n")
    yield Case(("get", "--object", "/b", "/a~1b", "-"), TEXT, '{"/b": 1.0, "/a~1b": [1, 2]}\n')
    yield Case(("get", "--object", ""), "[1,\n 2]\n", '{"": [1,\n 2]}\n')
    yield Case(("get", "--object", "--compact", "/b", '/q"', "-"), '{"b": 1.10, "q\\"": {"z": 1, "a": 2}}', '{"/b":1.10,"/q\\"":{"z":1,"a":2}}\n')
    yield Case(("get", "--object", "--indent", "1", "/b", "-"), TEXT, '{\n "/b": 1.0\n}\n')
    yield Case(("get", "--object", "--sort-keys", "/b", "/a~1b", "-"), TEXT, '{"/a~1b":[1,2],"/b":1.0}\n')
    yield Case(("get", "--object", "--default", "null", "/b", "/c", "-"), TEXT, '{"/b": 1.0, "/c": null}\n')
    yield Case(("get", "--object", "--comments", "/b", "/c", "-"), '{"b": 1, // one\n"c": [2, /* two */ 3]}', '{"/b": 1, "/c": [\n  2,\n  3\n]}\n')
    yield Case(("get", "--object", "/b", "/c", "-"), TEXT, "", f"jptr: standard input: {NOT_FOUND}\n/c\n ^ not found in value\n", 1)
    yield Case(("get", "/b", "/c", "/d", "-"), TEXT, "", f"jptr: standard input: {NOT_FOUND}\n/c\n ^ not found in value\n", 1)
    long = '{"a": 1.10, "b": 1e-400}'
    yield Case(("get", "--sort-keys", "/a", "/b", "-"), long, "", "jptr: standard input: the number loses digits: use --lossy\n", 3)
    yield Case(("delete", "/a~1b/0", "/a~1b/0", "-"), TEXT, TEXT.replace("1, 2", ""))
    yield Case(("delete", "/a~1b/0", "/b", "-", "--compact"), TEXT, '{"a/b":[2]}\n')
    yield Case(("delete", "/b", "/b", "-"), TEXT, "", "jptr: standard input: delete failed: json pointer does not resolve\n/b\n ^ not found in value\n", 1)
    yield Case(("set", "/b", "2", "/a~1b/0", "-3.10"), TEXT, TEXT.replace("1.0", "2").replace("1,", "-3.10,"))
    yield Case(("set", "/b", "[]", "/b/-", "1e5", "/b/-", "null", "-"), '{"b": 1}', '{"b": [1e5, null]}')
    yield Case(("set", "--string", "/b", "@-", "/c", "@-", "-", "--compact"), "{}", '{"b":"@-","c":"@-"}\n')
    yield Case(("set", "--sort-keys", "/c", "1.10", "/a", "2"), '{"b": 1}', '{"a":2,"b":1,"c":1.1}\n')
    yield Case(("set", "--sort-keys", "/c", "1e-400", "/c", "2"), '{"b": 1}', '{"b":1,"c":2}\n')
    yield Case(("set", "/c", "1", "/b/5", "2"), '{"b":[]}', "",
               "jptr: standard input: assign failed: json pointer token at offset 2 is out of bounds\n/b/5\n   ^ 5 is out of bounds (len: 0)\n", 6)
    yield Case(("set", "/c", "1", "/d", "x", "-"), "{}", "", "jptr: JSON: text is not JSON: expected a value, found `x` at line 1 column 1; a string needs quotes, or --string\nx\n^\n", 3)
    yield Case(("set", "/a", "@-", "/b", "@-", "/dev/null"), "1", "", "jptr: JSON: standard input cannot be two values\n", 2)
    yield Case(("set", "/a", "1", "/b", "@-"), "1", "", "jptr: JSON: standard input cannot be the value and the document\n", 2)
    yield Case(("get", "/a", "b", "c"), "", "", NO_SLASH.format(LOOKS, "b"), 2)
    for words in [("delete", "/a", "/b", "-"), ("set", "/a", "1", "/b", "2")]:
        yield Case((*words, "--lines"), "{}", "", "jptr: --lines: takes one pointer\n", 2)
    yield Case(("delete", "--if-present", "/c"), TEXT, TEXT)
    yield Case(("delete", "--if-present", "/c", "/b", "/a~1b/9", "-"), TEXT, '{\n  "a/b": [1, 2]\n}\n')
    yield Case(("delete", "--if-present", "/b/x", "--compact"), TEXT, '{"b":1.0,"a/b":[1,2]}\n')
    yield Case(("delete", "--if-present", "--comments", "/c", "/a", "-"), '{\n  "a": 1, // one\n  "b": 2 // two\n}\n', '{\n  "b": 2 // two\n}\n')
    yield Case(("delete", "--if-present", "/c"), "{", "", f"jptr: standard input: {OPEN}", 3)


def rows():
    """The values of several pointers in each line. Only the last line is at fault: `check_memory` knows of no report before it."""
    text = '{"id": 1, "n": "x"}\n\n{"id": 3, "n": [1, 2]}\n{"id": 2}'
    fault = f"jptr: standard input:4: {NOT_FOUND}\n"
    words = ("get", "--lines", "/id", "/n", "-")
    yield Case(words, text, '1\t"x"\n3\t[1, 2]\n', fault, 7)
    yield Case((*words, "--compact"), text, '1\t"x"\n3\t[1,2]\n', fault, 7)
    yield Case((*words, "--raw"), text, "1\tx\n3\t[1, 2]\n", fault, 7)
    yield Case((*words, "--object"), text, '{"/id": 1, "/n": "x"}\n{"/id": 3, "/n": [1, 2]}\n', fault, 7)
    yield Case((*words, "--object", "--compact"), text, '{"/id":1,"/n":"x"}\n{"/id":3,"/n":[1,2]}\n', fault, 7)
    yield Case((*words, "--strict"), '{"id": 1, "n": "x"}\n{"id": 2}\n{"id": 3, "n": 4}\n', '1\t"x"\n', f"jptr: standard input:2: {NOT_FOUND}\n", 7)
    damaged = "jptr: standard input:5: text is not JSON at column 1\n"
    yield Case(words, "\n\n\n\n[", "", damaged, 7)
    yield Case((*words, "--default", "null"), f"{text}\n[", '1\t"x"\n3\t[1, 2]\n2\tnull\nnull\tnull\n', damaged, 7)
    yield Case((*words, "--default", "{}", "--object"), f"{text}\n[", '{"/id": 1, "/n": "x"}\n{"/id": 3, "/n": [1, 2]}\n{"/id": 2, "/n": {}}\n{"/id": {}, "/n": {}}\n', damaged, 7)
    yield Case(("get", "--lines", "--object", "/id"), '{"id": 1}\n', '{"/id": 1}\n')
    yield Case(("get", "--lines", "--sort-keys", "/a", "/b", "-"), '{"a": {"d": 1.10, "c": 1}, "b": 1e5}\n', '{"c":1,"d":1.1}\t100000.0\n')
    yield Case(("get", "--lines", "--sort-keys", "/a", "/b", "-"), '{"a": 1, "b": 1e-400}\n', "", "jptr: standard input:1: the number loses digits: use --lossy\n", 7)
    yield Case(("get", "--lines", "--raw", "/a", "/b", "-"), '{"a": "x\\ty", "b": 1}\n', "", "jptr: standard input:1: a value contains a tab, which is between the values\n", 7)
    yield Case(("get", "--lines", "/a", "/b", "-"), '{"a": "x\\ty", "b": 1}\n', '"x\\ty"\t1\n')
    yield Case(("get", "--lines", "/a", "b", "-"), "{}\n", "", NO_SLASH.format(LOOKS, "b"), 2)


# A document of TOML with values of each kind. What it is as JSON is known from Python's `tomllib`.
TOML_TEXT = """title = "x" # first
n = 1_000
hex = 0xFF
pi = 3.14
big = 1e100
when = 1979-05-27T07:32:00Z
ok = true
none = []

[t]
s = 'a\\b'
many = \"\"\"
one
two\"\"\"
l = [1, "two", {k = []}, {}]
"k/~\\n" = -0.0

[[t.a]]
b = 1

[[t.a]]
"""


def toml_as_json():
    """Returns the values of `TOML_TEXT`, with dates as the strings that it has."""
    values = tomllib.loads(TOML_TEXT)
    values["when"] = "1979-05-27T07:32:00Z"
    return values


def on_toml():
    """Commands on TOML that read JSON of it, several pointers, and a key that is renamed."""
    values = toml_as_json()
    flat = {"separators": (",", ":"), "sort_keys": True, "ensure_ascii": False}
    whole = json.dumps(values, **flat)
    yield Case(("get", "--toml", "--json", ""), TOML_TEXT, f"{whole}\n")
    yield Case(("get", "--toml", "--json", "--pretty", "/t/l"), TOML_TEXT, json.dumps(values["t"]["l"], indent=2) + "\n")
    for pointer in ["/title", "/n", "/hex", "/pi", "/when", "/ok", "/none", "/t/s", "/t/many", "/t/l/2", "/t/a"]:
        value = values
        for token in pointer.split("/")[1:]:
            value = value[int(token) if isinstance(value, list) else token]
        yield Case(("get", "--toml", "--json", pointer), TOML_TEXT, json.dumps(value, **flat) + "\n")
    yield Case(("get", "--toml", "--json", "--raw", "/t/s"), TOML_TEXT, "a\\b\n")
    yield Case(("get", "--toml", "--json", "/n", "/t/l/0", "-"), TOML_TEXT, "1000\n1\n")
    yield Case(("get", "--toml", "--json", "--object", "/n", "/when", "-"), TOML_TEXT, '{"/n": 1000, "/when": "1979-05-27T07:32:00Z"}\n')
    yield Case(("get", "--toml", "--json", "--default", "null", "/z"), TOML_TEXT, "null\n")
    yield Case(("get", "--json", "/a"), '{"a": 1.10}', "1.10\n")
    for number in ["nan", "-inf"]:
        yield Case(("get", "--toml", "--json", "/a"), f"a = 1\n[b]\nc = {number}\n", "", "jptr: standard input: the float at /b/c is no number of JSON\n", 3)
    yield Case(("keys", "--toml", "/t"), TOML_TEXT, "".join(f"{json.dumps(key)}\n" for key in sorted(values["t"])))
    yield Case(("keys", "--toml", "--raw", "/t/a/0"), TOML_TEXT, "b\n")
    for pointer, kind, length in [("", "object", 9), ("/t/l", "array", 4), ("/title", "string", 1), ("/when", "string", 20)]:
        yield Case(("type", "--toml", pointer), TOML_TEXT, f"{kind}\n")
        yield Case(("length", "--toml", pointer), TOML_TEXT, f"{length}\n")
    for pointer, kind in [("/n", "number"), ("/pi", "number"), ("/ok", "boolean")]:
        yield Case(("type", "--toml", pointer), TOML_TEXT, f"{kind}\n")
    yield Case(("length", "--toml", "/n"), TOML_TEXT, "", "jptr: standard input: a number has no length\n", 1)
    for value, status in [("1000", 0), ("1e3", 0), ("1001", 1), ('"1000"', 1)]:
        yield Case(("test", "--toml", "/n", value), TOML_TEXT, "", "", status)
    yield Case(("test", "--toml", "/t/a", '[{"b": 1}, {}]'), TOML_TEXT, "")
    yield Case(("test", "--toml", "/z"), TOML_TEXT, "", "", 1)
    yield Case(("get", "--toml", "/n", "/t/s", "-"), TOML_TEXT, "1000\n'a\\b'\n")
    yield Case(("get", "--toml", "--raw", "--default", "2", "/z", "/t/s", "-"), TOML_TEXT, "2\na\\b\n")
    yield Case(("get", "--toml", "/n", "/z", "-"), TOML_TEXT, "", f"jptr: standard input: {NOT_FOUND}\n/z\n ^ not found in value\n", 1)
    yield Case(("set", "--toml", "/n", "1", "/hex", "0x10"), TOML_TEXT, TOML_TEXT.replace("1_000", "1").replace("0xFF", "0x10"))
    yield Case(("set", "--toml", "/n", "[]", "/n/-", "2"), TOML_TEXT, TOML_TEXT.replace("1_000", "[2]"))
    yield Case(("set", "--toml", "--string", "/n", "@-", "/hex", "@-"), TOML_TEXT, TOML_TEXT.replace("1_000", '"@-"').replace("0xFF", '"@-"'))
    yield Case(("set", "--toml", "/n", "1", "/none/5", "1"), TOML_TEXT, "",
               "jptr: standard input: assign failed: json pointer token at offset 5 is out of bounds\n/none/5\n      ^ 5 is out of bounds (len: 0)\n", 6)
    yield Case(("set", "--toml", "--no-expand", "/n", "[]", "/n/-", "2"), TOML_TEXT, TOML_TEXT.replace("1_000", "[2]"))
    yield Case(("delete", "--toml", "/n", "/hex", "-"), TOML_TEXT, TOML_TEXT.replace("n = 1_000\nhex = 0xFF\n", ""))
    yield Case(("delete", "--toml", "/n", "/z", "-"), TOML_TEXT, "", "jptr: standard input: delete failed: json pointer does not resolve\n", 1)
    yield Case(("delete", "--toml", "--if-present", "/z", "/n", "-"), TOML_TEXT, TOML_TEXT.replace("n = 1_000\n", ""))
    yield Case(("rename", "--toml", "/n", "m"), TOML_TEXT, TOML_TEXT.replace("n = 1_000", "m = 1_000"))
    yield Case(("rename", "--toml", "/t/a", "x y"), TOML_TEXT, TOML_TEXT.replace("[[t.a]]", '[[t."x y"]]'))
    yield Case(("rename", "--toml", "/n", "hex"), TOML_TEXT, "", "jptr: standard input: there is a member with this key\n", 6)
    yield Case(("rename", "--toml", "/t/l/0", "x"), TOML_TEXT, "", "jptr: standard input: not a key of a table\n", 6)
    yield Case(("rename", "--toml", "/z", "x"), TOML_TEXT, "", f"jptr: standard input: {NOT_FOUND}\n/z\n ^ not found in value\n", 1)
    yield Case(("get", "--toml", "--object", "/n"), TOML_TEXT, "", "jptr: --object: is an object of JSON: use --json, too\n", 2)
    yield Case(("rename", "--toml", "--pretty", "/n", "m"), TOML_TEXT, "", "jptr: --pretty: is for JSON, and the document is TOML\n", 2)
    yield Case(("get", "--toml", "--json", "--lines", "/n"), TOML_TEXT, "", "jptr: --lines: a line is no TOML document\n", 2)


def unexpanded():
    """Assignments that create no container on the way, and replace no scalar there."""
    words = ("set", "--no-expand")
    yield Case((*words, "/b", "2"), TEXT, TEXT.replace("1.0", "2"))
    yield Case((*words, "/a~1b/-", "3"), TEXT, TEXT.replace("2]", "2, 3]"))
    yield Case((*words, "/c", "{}", "/c/d", "1", "--compact"), '{"b":1}', '{"b":1,"c":{"d":1}}\n')
    yield Case((*words, "", "2"), TEXT, "2\n")
    scalar = "jptr: standard input: a scalar is on the way, and --no-expand replaces none\n"
    for pointer in ["/b/c", "/a~1b/0/-"]:
        caret = " " * (len(pointer) - 1) + "^"
        yield Case((*words, pointer, "2"), TEXT, "", f"{scalar}{pointer}\n{caret} unreachable\n", 6)
    missing = f"jptr: standard input: {NOT_FOUND}; --no-expand creates no container\n"
    yield Case((*words, "/c/d", "2"), TEXT, "", f"{missing}/c/d\n ^ not found in value\n", 6)
    yield Case((*words, "/b", "2", "/c/d", "2"), TEXT, "", f"{missing}/c/d\n ^ not found in value\n", 6)
    yield Case((*words, "/c/d", "2"), "{", "", f"jptr: standard input: {OPEN}", 3)
    yield Case((*words, "--toml", "/a", "2"), "a = 1\n", "a = 2\n")
    yield Case((*words, "--toml", "/a/b", "2"), "a = 1\n", "", scalar, 6)
    missing = "an array or a table on the way is missing, and --no-expand creates none"
    yield Case((*words, "--toml", "/b/c", "2"), "a = 1\n", "", f"jptr: standard input: {missing}\n", 6)


def own_texts():
    """A value that is given keeps its text: its order, its numbers, and its repeated members."""
    given = '{ "z": 1.10, "a": [1e5, 123456789012345678901234], "z": -0 }'
    flat = '{"z":1.10,"a":[1e5,123456789012345678901234],"z":-0}'
    wide = spaced(given)
    yield Case(("set", "/b", given), '{"b": 1}', f'{{"b": {wide}}}')
    yield Case(("set", "/b", given), "{}", f'{{"b":{flat}}}')
    yield Case(("set", "/b/0/c", given), "{}", f'{{"b":[{{"c":{flat}}}]}}')
    yield Case(("set", "/b/c/-", given), '{"b": 1}', f'{{"b": {{"c": [{wide}]}}}}')
    yield Case(("set", "/-", given), "[0, 1]", f"[0, 1, {wide}]")
    yield Case(("set", "", given), "[0, 1]\n", f"{wide}\n")
    yield Case(("set", "/b", given), '{ "b": 1 }', f'{{ "b": {given} }}')
    yield Case(("set", "/b/-", '{"x":[1]}'), '{"b": [{ "x": 0 }]}', '{"b": [{ "x": 0 }, { "x": [1] }]}')
    yield Case(("set", "/b/x", "[1]"), '{\n\t"b": {},\n\t"c": 2\n}\n', '{\n\t"b": {\n\t\t"x": [\n\t\t\t1\n\t\t]\n\t},\n\t"c": 2\n}\n')
    yield Case(("set", "/-", '{"x":1}'), '[\n {"x": 0},\n {"x": 2}\n]\n', '[\n {"x": 0},\n {"x": 2},\n {"x": 1}\n]\n')
    yield Case(("delete", "/2"), "[\n  1, 2, 3,\n  4, 5\n]\n", "[\n  1, 2,\n  4, 5\n]\n")
    yield Case(("set", "/b", "--string", 'a "b" \\ é'), '{"b": 1}', '{"b": "a \\"b\\" \\\\ é"}')
    yield Case(("set", "/b", "--string", "1"), '{"b": 1}', '{"b": "1"}')
    yield Case(("set", "--string", "/b", "@x"), "{}", '{"b":"@x"}')
    yield Case(("set", "--toml", "--string", "/b", "1"), "b = 1\n", 'b = "1"\n')
    lines = '{\n    "z": 1.10,\n    "a": [\n      1e5,\n      123456789012345678901234\n    ],\n    "z": -0\n  }'
    yield Case(("set", "/c", given), TEXT, TEXT.replace("2]", f'2],\n  "c": {lines}'))
    yield Case(("set", "/b", '"\\u00e9\\/"'), '{"b": 1}', '{"b": "\\u00e9\\/"}')
    yield Case(("set", "/b/0/é", '["\\u00e9", "\\/"]'), "{}", '{"b":[{"é":["\\u00e9","\\/"]}]}')
    yield Case(("set", "/c", '[ "\\u00E9" ]'), '{\n  "b": [\n    1\n  ]\n}\n', '{\n  "b": [\n    1\n  ],\n  "c": [\n    "\\u00E9"\n  ]\n}\n')
    yield Case(("set", "--compact", "/c", given), '{"b": 1.0}', f'{{"b":1.0,"c":{flat}}}\n')
    yield Case(("set", "--lines", "/c", given), '{"b": 1.0}\n', f'{{"b": 1.0, "c": {wide}}}\n')
    deep = "[" * 126 + "1.10" + "]" * 126
    yield Case(("set", "/a", deep), "{}", f'{{"a":{deep}}}')
    failed = "jptr: standard input: document would nest deeper than 127\n"
    yield Case(("set", "/a/b", deep), "{}", "", failed, 6)


def formats():
    """A document that is laid out anew."""
    text = '{"b": 1.10,"a":[1e5, {}],"b":"\\u00e9"}'
    yield Case(("format",), text, '{\n  "b": 1.10,\n  "a": [\n    1e5,\n    {}\n  ],\n  "b": "é"\n}\n')
    yield Case(("format", "--pretty"), "[[ ]]", "[\n  []\n]\n")
    yield Case(("format", "--compact"), text, '{"b":1.10,"a":[1e5,{}],"b":"é"}\n')
    yield Case(("format", "--sort-keys"), '{"b": 1.10,"a":[]}', '{\n  "a": [],\n  "b": 1.1\n}\n')
    yield Case(("format", "--sort-keys", "--compact"), '{"b": 1.10,"a":[]}', '{"a":[],"b":1.1}\n')
    yield Case(("format", "--indent", "4"), '{"a":[1.10]}', '{\n    "a": [\n        1.10\n    ]\n}\n')
    yield Case(("format", "--indent", "1"), '["  \\n  "]', '[\n "  \\n  "\n]\n')
    yield Case(("format", "--indent", "tab", "--sort-keys"), '{"b":{"c":1.0},"a":2}', '{\n\t"a": 2,\n\t"b": {\n\t\t"c": 1.0\n\t}\n}\n')
    yield Case(("format", "--lines"), "[ 1.10, { } ]\n", "[1.10,{}]\n")
    yield Case(("get", "--indent", "3", "/a"), '{"a":[1.10]}', "[\n   1.10\n]\n")
    yield Case(("set", "--indent", "tab", "/b", "1e5"), '{"a":[1.10]}', '{\n\t"a": [\n\t\t1.10\n\t],\n\t"b": 1e5\n}\n')
    yield Case(("delete", "--indent", "1", "/b"), '{"a":1.10,"b":2}', '{\n "a": 1.10\n}\n')
    yield Case(("get", "--indent", "16", "--default", "[1]", "/b"), "{}", f"[\n{' ' * 16}1\n]\n")
    yield Case(("format",), "{", "", f"jptr: standard input: {OPEN}", 3)
    yield Case(("format", "/dev/null.toml"), "", "", "jptr: format: takes JSON, not TOML\n", 2)
    unformatted = "jptr: standard input: not laid out as format prints it\n"
    for words, text in [((), '{\n  "a": 1\n}\n'), (("--compact",), '{"a":1}\n'), (("--indent", "tab"), '{\n\t"a": 1\n}\n'), (("--sort-keys",), '{\n  "a": 1,\n  "b": 2\n}\n')]:
        yield Case(("format", "--check", *words), text, "")
        yield Case(("format", "--check", *words), text[:-1], "", unformatted, 1)
        yield Case(("format", "--check", *words), "\ufeff" + text, "")
    yield Case(("format", "--check", "--sort-keys"), '{\n  "b": 2,\n  "a": 1\n}\n', "", unformatted, 1)
    yield Case(("format", "--check"), "{", "", f"jptr: standard input: {OPEN}", 3)


def digits():
    """Numbers that lose digits, and those that do not."""
    long = '{"a": [1.10, 3.14159265358979323846]}'
    message = "jptr: {}: the number{} loses digits: use --lossy\n"
    yield Case(("get", "/a"), long, "[1.10, 3.14159265358979323846]\n")
    yield Case(("get", "--sort-keys", "/a"), long, "", message.format("standard input", " at /1"), 3)
    yield Case(("get", "--sort-keys", "/a/1"), long, "", message.format("standard input", ""), 3)
    yield Case(("get", "--sort-keys", "/a/0"), long, "1.1\n")
    yield Case(("get", "--sort-keys", "--lossy", "/a"), long, "[1.1,3.141592653589793]\n")
    yield Case(("format", "--sort-keys"), long, "", message.format("standard input", " at /a/1"), 3)
    yield Case(("set", "--sort-keys", "/b", "1e-400"), '{"a": 1.10}', "", message.format("standard input", " at /b"), 3)
    yield Case(("set", "--sort-keys", "/a/1", "5"), long, '{"a":[1.1,5]}\n')
    yield Case(("set", "--toml", "/a", "[1.10, 3.14159265358979323846]"), "a = 1\n", "", message.format("JSON", " at /1"), 3)
    yield Case(("set", "--toml", "--lossy", "/a", "3.14159265358979323846"), "a = 1\n", "a = 3.141592653589793\n")
    yield Case(("get", "--toml", "--default", "1e-400", "/b"), "a = 1\n", "", message.format("--default", ""), 3)
    yield Case(("delete", "--sort-keys", "/a/1"), long, '{"a":[1.1]}\n')
    yield Case(("paths",), long, "", message.format("standard input", " at /a/1"), 3)
    yield Case(("paths", "--lossy"), long, "/a/0\t1.1\n/a/1\t3.141592653589793\n")
    yield Case(("get", "/b", "--default", "1e-400"), long, "", message.format("--default", ""), 3)
    yield Case(("get", "/b", "--lossy", "--default", "1e-400"), long, "0.0\n")
    yield Case(("from-paths",), "/a\t1.10\n", '{"a":1.1}\n')
    yield Case(("from-paths",), "/a\t1\n/b\t[18446744073709551616]\n", "", message.format("standard input: line 2", " at /0"), 3)
    yield Case(("from-paths", "--lossy"), "/b\t18446744073709551616\n", '{"b":1.8446744073709552e+19}\n')


def on_paths():
    """A document as lines, and the document that lines build."""
    yield Case(("paths",), TEXT, "/a~1b/0\t1\n/a~1b/1\t2\n/b\t1.0\n")
    nodes = "\t{}\n/a~1b\t[]\n/a~1b/0\t1\n/a~1b/1\t2\n/b\t1.0\n"
    yield Case(("paths", "--all"), TEXT, nodes)
    yield Case(("from-paths",), nodes, '{"a/b":[1,2],"b":1.0}\n')
    yield Case(("from-paths", "--pretty"), "/a/0\t1\n", '{\n  "a": [\n    1\n  ]\n}\n')
    yield Case(("paths",), '"x"', '\t"x"\n')
    yield Case(("paths",), '{"":[{}],"t\\tb":"\\n"}', '//0\t{}\n"/t\\tb"\t"\\n"\n')
    yield Case(("from-paths",), '"/t\\tb"\t1', '{"t\tb":1}\n'.replace("\t", "\\t"))
    yield Case(("from-paths",), '\t{}\n/0\ttrue\n', '{"0":true}\n')
    yield Case(("from-paths",), "/0\ttrue\n", "[true]\n")
    yield Case(("from-paths",), "", "null\n")
    yield Case(("from-paths",), "/a\t1\n/b 2\n", "", "jptr: standard input: line 2: no tab after the pointer\n", 3)
    yield Case(("from-paths",), "a\t1\n", "", "jptr: standard input: line 1: not a pointer\n", 3)
    yield Case(("from-paths",), "/a\tx\n", "", "jptr: standard input: line 1: not JSON after the tab\n", 3)
    yield Case(("from-paths",), "/x" * 127 + "\t1\n", '{"x":' * 127 + "1" + "}" * 127 + "\n")
    yield Case(("from-paths",), "/x" * 128 + "\t1\n", "", "jptr: standard input: line 1: document would nest deeper than 127\n", 6)
    yield from guesses()
    yield Case(("paths",), "{", "", f"jptr: standard input: {OPEN}", 3)
    table = "[a]\nat = 1979-05-27\nb = [1.0, 'x\"y']\n[c]\ns = \"1\\n2\"\n"
    yield Case(("paths", "--toml"), table, "/a/at\t1979-05-27\n/a/b/0\t1.0\n/a/b/1\t'x\"y'\n/c/s\t\"1\\n2\"\n")
    yield Case(("get", "--toml", "/a/b/1"), table, "'x\"y'\n")
    nodes = "\t{}\n/a\t[]\n/a/0\t{}\n/a/0/b\t-inf\n"
    yield Case(("paths", "--toml", "--all"), "[[a]]\nb = -inf\n", nodes)
    yield Case(("paths", "--toml"), "", "\t{}\n")
    message = "invalid value, expected a string, number, boolean, date-time, array or inline table"
    yield Case(("paths", "--toml"), "b = 1\na = ", "", f"jptr: standard input: text is not TOML: {message} at line 2 column 5\na = \n    ^\n", 3)
    commented = "# c\na = 1 # one\n"
    yield Case(("set", "--toml", "/a", "2"), commented, "# c\na = 2 # one\n")
    yield Case(("set", "--toml", "/b/c", "[1]"), commented, commented + "\n[b]\nc = [1]\n")
    yield Case(("delete", "--toml", "/a"), commented + "b = 2\n", "# c\nb = 2\n")
    anew = "jptr: standard input: printed anew, without its comments and layout\n"
    yield Case(("set", "--toml", "/a/b", "2"), commented, "[a]\nb = 2\n", anew)
    yield Case(("patch", "/dev/null", "x.toml"), "", "", "jptr: patch: takes JSON, not TOML: use set and delete\n", 2)


# Texts that are not JSON, what is said of each, and where.
SYNTAX = [
    ("[1,]", "text is not JSON: expected a value, found `]`", 1, 4, "; with --comments, trailing commas are read"),
    ('{"a": 1,}', "text is not JSON: expected a key, found `}`", 1, 9, "; with --comments, trailing commas are read"),
    ("[1 2]", "text is not JSON: expected `,` or `]`, found `2`", 1, 4),
    ('{\n  "é": 1\n  "b": 2\n}', "text is not JSON: expected `,` or `}`, found `\"`", 3, 3),
    ('{"a" 1}', "text is not JSON: expected `:`, found `1`", 1, 6),
    ("{a: 1}", "text is not JSON: expected a key or `}`, found `a`", 1, 2),
    ("[", "text is not JSON: expected a value or `]`, found the end", 1, 2),
    ('["a', "text is not JSON: expected the end of the string, found the end", 1, 4),
    ('["\\x"]', "text is not JSON: no escape of a string: `x`", 1, 4),
    ('["\\u12g4"]', "text is not JSON: expected a hexadecimal digit, found `g`", 1, 7),
    ("[01]", "text is not JSON: expected `,` or `]`, found `1`", 1, 3),
    ("[-]", "text is not JSON: expected a digit, found `]`", 1, 3),
    ("[1.]", "text is not JSON: expected a digit, found `]`", 1, 4),
    ("[1e+]", "text is not JSON: expected a digit, found `]`", 1, 5),
    ("nul", "text is not JSON: expected a value, found `n`", 1, 1),
    ("[" * 128 + "]" * 128, "JSON, but nested deeper than 127", 1, 128),
]
def guesses():
    """Lines that guess the type of a container, and lines of arrays whose elements are missing."""
    guess = "jptr: standard input: line {}: no element is before {} in an array{}; lines of paths --all tell an object\n".format
    yield Case(("from-paths",), '/menu/items/1/name\t"cake"\n', "", guess(1, 1, " at /menu/items"), 6)
    yield Case(("from-paths",), "/2\t1\n", "", guess(1, 2, ""), 6)
    yield Case(("from-paths",), "/b\t0\n/a/0/1\t1\n", "", guess(2, 1, " at /a/0"), 6)
    yield Case(("from-paths",), "/a/x\t1\n/b/c/1\t1\n/b/d\t1\n", "", guess(2, 1, " at /b/c"), 6)
    missing = "jptr: standard input: line {}: assign failed: json pointer token at offset {} is out of bounds\n".format
    yield Case(("from-paths",), "\t[]\n/1\t1\n", "", missing(2, 0), 6)
    yield Case(("from-paths",), "/0\t1\n/2\t1\n", "", missing(2, 0), 6)
    yield Case(("from-paths",), "/a/0\t1\n/a/2\t2\n", "", missing(2, 2), 6)
    yield Case(("from-paths",), "/a/0\t1\n/a/1/0\t2\n/a/1/3/b\t2\n", "", missing(3, 4), 6)
    yield Case(("from-paths",), "/a/0\t1\n/b\t1\n/a/2\t2\n", "", missing(3, 2), 6)
    yield Case(("from-paths",), "/a/x\t1\n/a/1\t2\n/b\t3\n/a/2\t4\n", '{"a":{"1":2,"2":4,"x":1},"b":3}\n')
    yield Case(("from-paths",), '/a\t{"b":{}}\n/c\t1\n/a/b/1\t2\n', '{"a":{"b":{"1":2}},"c":1}\n')
    yield Case(("from-paths",), "/a/01\t1\n", '{"a":{"01":1}}\n')
    yield Case(("from-paths",), "", "null\n")


def failing():
    """Errors: a line that names the input, and the pointer with carets below the token at fault."""
    missing = f"jptr: standard input: {NOT_FOUND}\n/c\n ^ not found in value\n"
    yield Case(("get", "/c"), TEXT, "", missing, 1)
    yield Case(("delete", "/c"), TEXT, "", "jptr: standard input: delete failed: json pointer does not resolve\n/c\n ^ not found in value\n", 1)
    not_json = f"jptr: standard input: {OPEN}"
    for words in [("get", "/a"), ("set", "/a", "1"), ("delete", "/a")]:
        yield Case(words, "{", "", not_json, 3)
    value = "jptr: JSON: text is not JSON: expected a value, found `{}` at line 1 column 1"
    yield Case(("set", "/a", "x"), TEXT, "", value.format("x") + "; a string needs quotes, or --string\nx\n^\n", 3)
    yield Case(("set", "/a", "'x'"), TEXT, "", value.format("'") + "\n'x'\n^\n", 3)
    for text, why, line, column, *hint in SYNTAX:
        row = text.split("\n")[line - 1]
        drawn = f"{row[max(0, column - 61) : column + 59]}\n{' ' * min(column - 1, 60)}^\n"
        yield Case(("get", "/a"), text, "", f"jptr: standard input: {why} at line {line} column {column}{''.join(hint)}\n{drawn}", 3)
    yield Case(("set", "/a", "@-"), TEXT, "", "jptr: JSON: standard input cannot be the value and the document\n", 2)
    yield Case(("set", "/a", "@/dev/null"), TEXT, "", f"jptr: /dev/null: {EMPTY}", 3)


def usage():
    """Command lines that are wrong: status 2, nothing on standard output, and the usage on standard error."""
    yield ()
    yield ("find",)
    yield ("get",)
    yield ("get", "--raw", "--pretty", "/a")
    yield ("get", "--raw", "--sort-keys", "/a")
    yield ("get", "--raw", "--indent", "2", "/a")
    yield ("get", "--compact", "--indent", "2", "/a")
    yield ("get", "--lines", "--indent", "2", "/a")
    yield ("get", "--lines", "--pretty", "/a")
    yield ("get", "--pretty", "--compact", "/a")
    for indent in ["0", "17", "-1", "x", "", "Tab"]:
        yield ("format", "--indent", indent)
    yield ("format", "f", "g")
    yield ("get", "--strict", "/a")
    yield ("get", "--in-place", "/a", "f")
    yield ("set", "/a")
    yield ("set", "/a", "1", "-i")
    yield ("set", "/a", "1", "-i", "-")
    yield ("set", "/a", "1", "/b", "2", "-i")
    yield ("get", "--object", "--raw", "/a")
    yield ("get", "--object", "--toml", "/a")
    yield ("get", "--lines", "--raw", "--default", '"a\\tb"', "/a", "/b", "-")
    yield ("delete", "--if-present", "--lines", "/a")
    yield ("set", "--if-present", "/a", "1")
    yield ("format", "--check", "--lines")
    yield ("format", "--check", "-i", "f")
    yield ("set", "/a", "1", "f", "-i", "--lines")
    yield ("set", "/a", "1", "--lines", "--reformat")
    yield ("get", "--lines", "--raw", "--default", '"a\\nb"', "/a")
    yield ("set", "/a", "1", "--lines", "--no-expand")
    yield ("set", "/a", "1", "--lines", "--create")
    yield ("delete", "/a", "--no-expand")
    yield ("delete", "/a", "--unknown")
    yield ("keys",)
    yield ("keys", "/a", "f", "g")
    yield ("length", "--raw", "/a")
    yield ("type", "/a", "f", "-i")
    yield ("test",)
    yield ("test", "/a", "1", "f", "g")
    yield ("test", "--string", "/a")
    yield ("patch", "-", "-")
    yield ("relayout",)
    yield ("relayout", "-", "f", "-i")
    yield ("relayout", "f", "g", "--lines")
    yield ("get", "/a", "--lines", "--comments")
    yield ("get", "/a", "--toml", "--comments")
    yield ("paths", "--toml", "--comments")
    yield ("diff", "f", "g", "--color", "always")
    yield ("merge-patch",)
    yield ("merge-patch", "-", "-")
    yield ("merge-patch", "-", "-", "--lines")
    yield ("merge-patch", "f", "-i")
    yield ("merge", "f", "g")
    yield ("merge", "-", "f", "-")
    yield ("merge", "f", "-", "g", "-i")
    yield ("merge", "f", "g", "h", "--ours", "--theirs")
    yield ("merge", "f", "g", "h.toml")
    yield ("paths", "/a", "f")
    yield ("paths", "--pretty")
    yield ("from-paths", "--all")
    yield ("from-paths", "--fill")
    yield ("patch", "x", "y", "--check", "-i")
    yield ("patch", "x", "y", "--check", "--lines")
    yield ("diff", "x", "y", "--text", "--pretty")
    yield ("diff", "x", "y", "--text", "--compact")
    yield ("patch", "x", "y", "--inverse", "u", "--check")
    yield ("patch", "x", "y", "--inverse", "u", "--lines")
    yield ("patch", "x", "y", "--inverse")
    yield ("--generate",)
    yield ("--generate", "html")
    yield ("--generate", "man", "get", "/a")
    yield ("get", "/a", "--generate", "man")


def run(words, text="", **options):
    """Runs the program on a text."""
    given = text.encode(errors="surrogateescape")
    words = [word.encode(errors="surrogateescape") for word in words]
    return subprocess.run([PROGRAM, *words], input=given, capture_output=True, timeout=SECONDS, **options)


def check_result(case, given):
    """Checks that a run has the result of its case."""
    wanted = (case.output.encode(), case.errors.encode(), case.status)
    if (given.stdout, given.stderr, given.returncode) != wanted:
        found = f"status {given.returncode}, {given.stdout[:300]!r}, {given.stderr[:300]!r}"
        expected = f"status {case.status}, {case.output[:300]!r}, {case.errors[:300]!r}"
        raise CheckFailed(f"{case.words} on {case.input[:80]!r}: {found}, and not {expected}")


def check_usage():
    """Checks wrong command lines, `--help` of each command and `--version`, and returns the number of runs."""
    runs = 0
    for words in usage():
        given = run(words)
        if given.returncode != 2 or given.stdout or not given.stderr:
            raise CheckFailed(f"{words}: status {given.returncode}, {given.stdout!r}, {given.stderr!r}")
        runs += 1
    for command in [(), *((name,) for name in commands())]:
        given = run((*command, "--help"))
        if given.returncode or given.stderr or b"Usage: jptr" not in given.stdout:
            raise CheckFailed(f"{command} --help: status {given.returncode}, {given.stdout!r}, {given.stderr!r}")
        runs += 1
    for c, shown in MOVING:
        given = run(("get", f"--{c}", "/a")).stderr.decode()
        if c in given or f"'--{shown}'" not in given:
            raise CheckFailed(f"a flag with {c!r}: {given!r}")
        runs += 1
    version = run(("--version",)).stdout.decode()
    with open(f"{TOP}/crates/jsonptr/VERSION", encoding="utf-8") as file:
        if version != f"jptr {file.readline()}":
            raise CheckFailed(f"--version prints {version!r}")
    return runs + 1


def commands():
    """Returns the commands that `--help` lists."""
    text = run(("--help",)).stdout.decode()
    listed = text.partition("\n\n")[2].partition("\nOptions:\n")[0]
    return re.findall(r"^  ([a-z-]+)  ", listed, re.MULTILINE)


# Files that the examples of the help and of the exit statuses name.
EXAMPLE_FILES = {
    "app.json": '{\n  "name": "app",\n  "sizes": [1.0, 5]\n}\n',
    "old.json": '{"name": "old"}\n',
    "new.json": '{"name": "new"}\n',
    "patch.json": '[{"op": "test", "path": "/sizes/1", "value": 5}]\n',
    "overlay.json": '{"name": "site"}\n',
    "base.json": '{"a": 1}\n',
    "ours.json": '{"a": 1, "b": 2}\n',
    "theirs.json": '{"a": 3}\n',
}
DEEP = "[" * 126 + "]" * 126
# The sentences of the table of exit statuses, each with runs that end so: arguments, and the input. One that is to run out of
# memory has none.
STATUSES = [
    (0, "Done, also if nobody reads the output any more, as after | head -1", [(("get", "/a"), '{"a": 1}')]),
    (1, "No: test finds another value or none, the documents of diff differ, those of merge have a conflict, or a patch does not apply", [
        (("test", "/a", "2"), '{"a": 1}'), (("test", "/b"), '{"a": 1}'), (("diff", "old.json", "new.json"), ""),
        (("merge", "app.json", "old.json", "new.json"), ""), (("patch", "patch.json"), '{"sizes": []}'), (("patch", "--check", "patch.json"), '{"sizes": [1, 2]}')]),
    (1, "A pointer leads to no value", [
        ((*words, "/b", *more), '{"a": 1}') for words, more in [
            (("get",), ()), (("delete",), ()), (("keys",), ()), (("length",), ()), (("type",), ()), (("locate",), ()), (("rename",), ("c",)),
            (("move",), ("/c",)), (("copy",), ("/c",)), (("get", "/a"), ("-",)), (("get", "--comments"), ()), (("delete", "--comments"), ())]]
        + [(("get", "--toml", "/b"), "a = 1\n"), (("delete", "--toml", "/b"), "a = 1\n"), (("insert", "/b/c", "1"), "{}")]),
    (1, "A value has no keys or no length", [(("keys", "/a"), '{"a": 1}'), (("length", "/a"), '{"a": 1}')]),
    (1, "A document is not laid out as format prints it", [(("format", "--check"), '{"a": 1}'), (("format", "--check", "--compact"), "{ }")]),
    (1, "No value is at a position", [(("locate", "--at", "1:9"), "[1, 2]"), (("locate", "--at", "9:1"), "[1, 2]")]),
    (2, "The command line is wrong", [(("get",), "1"), (("get", "--unknown", ""), "1"), (("rename", "", "a"), "1"), (("move", "/a", "/a/b"), '{"a": {}}')]),
    (2, "An argument is not a pointer or a token", [
        (words, '{"a": 1}') for words in [
            ("get", "a"), ("get", "/a", "a", "-"), ("set", "a", "1"), ("set", "/a", "1", "a", "1"), ("delete", "a"), ("insert", "a", "1"), ("move", "a", "/a"),
            ("copy", "/a", "a"), ("rename", "a", "b"), ("keys", "a"), ("length", "a"), ("type", "a"), ("test", "a"), ("locate", "/~2"), ("tokens", "a"),
            ("get", "#/%"), ("get", "#a"), ("unescape", "~2"), ("get", "--lines", "a"), ("get", "--toml", "a")]]),
    (3, "The input or an argument is not JSON or TOML", [
        (("get", "/a"), "{"), (("set", "/a", "x"), "{}"), (("get", "--toml", "/a"), "a"), (("set", "--toml", "/a", "x"), ""), (("test", "/a"), "{"),
        (("locate", "--at", "9:1"), "{"), (("diff", "-", "new.json"), ""), (("patch", "-", "new.json"), "{")]),
    (3, "A document is not a patch", [(("patch", "app.json"), "{}"), (("patch", "-", "app.json"), '[{"op": "remove", "path": "a"}]')]),
    (3, "A line is not a pointer, a tab and JSON", [(("from-paths",), "/a 1"), (("from-paths",), "a\t1"), (("from-paths",), "/a\tx")]),
    (3, "A number loses digits", [(("paths",), "1e-400"), (("format", "--sort-keys"), "1e-400"), (("set", "--toml", "/a", "1e-400"), "")]),
    (3, "A float of TOML is no number of JSON", [(("get", "--toml", "--json", "/a"), "a = nan"), (("type", "--toml", "/a"), "a = inf")]),
    (4, "Out of memory", []),
    (5, "A file could not be read or written", [(("get", "/a", "none.json"), ""), (("set", "/a", "1", "none.json", "-i"), "")]),
    (6, "An edit cannot be made: no value can be put at the pointer, or the text or its comments do not allow it", [
        (("set", "/a/5", "1"), '{"a": []}'), (("insert", "/a/5", "1"), '{"a": []}'), (("set", "--no-expand", "/a/b", "1"), '{"a": 1}'),
        (("set", "--no-expand", "/b/c", "1"), "{}"), (("set", "--toml", "--no-expand", "/b/c", "1"), ""), (("rename", "/a", "b"), '{"a": 1, "b": 2}'),
        (("rename", "/0", "b"), "[1]"), (("from-paths",), "/2\t1"), (("move", "--comments", "/0", "/1"), "[1, // one\n2]"),
        (("delete", "--comments", "/a"), '{"a": 1, /* x */ "a": 2}')]),
    (6, "A document cannot be laid out as wanted", [(("format", "--comments"), "[1] // one"), (("set", "--comments", "--pretty", "/0", "2"), "[1] // one")]),
    (6, "A document or a patch would nest too deep", [(("set", "/a/b", DEEP), "{}"), (("insert", "/a", DEEP), "{}")]),
    (7, "With --lines, some line is at fault", [(("get", "--lines", "/a"), '{"a": 1}\n{}\n'), (("get", "--lines", "--strict", "/a"), "{\n")]),
]


def write_example_files(folder):
    """Writes the files of examples, and a folder with the program."""
    for name, text in EXAMPLE_FILES.items():
        write(f"{folder}/{name}", text)
    os.mkdir(f"{folder}/bin")
    os.symlink(PROGRAM, f"{folder}/bin/jptr")


def check_statuses(folder, shim):
    """Checks that the tables of exit statuses in the guide and the man page are the sentences of `STATUSES`, and the status of
    each example. Returns the number of runs."""
    write_example_files(folder)
    wanted = {}
    for status, sentence, _ in STATUSES:
        wanted[status] = f"{wanted[status]}. {sentence}" if status in wanted else sentence
    rows = re.findall(r"^\| (\d) \| (.*) \|$", read(GUIDE), re.MULTILINE)
    tables = {"guide": {int(status): text.replace("`", "") for status, text in rows}, "man page": statuses_of_man_page()}
    for name, table in tables.items():
        if table != wanted:
            raise CheckFailed(f"the exit statuses of the {name} are {table}, and not {wanted}")
    runs = 0
    for status, sentence, examples_of_it in STATUSES:
        for words, text in examples_of_it:
            given = run(words, text, cwd=folder)
            if given.returncode != status or (status > 1 and not given.stderr):
                raise CheckFailed(f"{words} on {text[:60]!r}: status {given.returncode}, {given.stderr!r}, and not {status}: {sentence}")
            runs += 1
    given, _, _ = run_with_shim([PROGRAM, "get", "/a"], '{"a": 1}', shim, "all", count="run", may_keep=True)
    if given.returncode != 4:
        raise CheckFailed(f"without memory: status {given.returncode}")
    return runs + 1


def statuses_of_man_page():
    """Returns the sentences of each exit status of the man page."""
    rows = generated("man").partition(".Sh EXIT STATUS")[2].partition(".El")[0]
    table = {}
    for status, text in re.findall(r"^\.It (\d)\n((?:(?!\.It ).*\n)*)", rows, re.MULTILINE):
        text = re.sub(r"^\.Fl -(.*?)( [.,:;])?$", r"--\1\2", text, flags=re.MULTILINE)
        text = re.sub(r"^\.(?:Cm|Ql) ", "", text, flags=re.MULTILINE)
        table[int(status)] = re.sub(r" ([.,:;])", r"\1", " ".join(text.split())).removesuffix(".")
    return table


def check_help_examples(folder):
    """Runs the example in the help of the program and of each command. Returns the number of runs."""
    environment = {**os.environ, "PATH": f"{folder}/bin:{os.environ['PATH']}"}
    for command in [(), *((name,) for name in commands())]:
        lines = re.findall(r"^Example: (.*)$", run((*command, "--help")).stdout.decode(), re.MULTILINE)
        if len(lines) != 1 or f"jptr {' '.join(command)}".strip() not in lines[0]:
            raise CheckFailed(f"{command} --help has the examples {lines}")
        given = subprocess.run(["bash", "-c", lines[0]], cwd=folder, env=environment, capture_output=True, timeout=SECONDS)
        if given.returncode != (1 if command == ("diff",) else 0) or given.stderr:
            raise CheckFailed(f"{lines[0]}: status {given.returncode}, {given.stderr!r}")
        write(f"{folder}/app.json", EXAMPLE_FILES["app.json"])
    return len(commands()) + 1


@functools.cache
def generated(kind):
    """Returns what `jptr --generate` prints."""
    given = run(("--generate", kind))
    if given.returncode or given.stderr:
        raise CheckFailed(f"--generate {kind}: status {given.returncode}, {given.stderr!r}")
    return given.stdout.decode()


def flags(command):
    """Returns the flags that the help of a command lists."""
    return sorted(re.findall(r"^ +(?:-\w, +)?(--[a-z-]+)", run((command, "--help")).stdout.decode(), re.MULTILINE))


def flags_by_command(name, text):
    """Returns the flags of each command in the synopsis of the man page, or in the completions for bash."""
    if name == "man page":
        text = re.sub(r"Fl -(?=[a-z])", "--", text.partition(".Sh DESCRIPTION")[0])
        rows = re.findall(r"^\.Cm (.*)\n((?:(?!\.Nm$).*\n)*)", text, re.MULTILINE)
    else:
        rows = re.findall(r'^ +([a-z| -]+)\) .*words="(.*)"', text, re.MULTILINE)
    found = {}
    for names, row in rows:
        for command in names.split(" | "):
            found.setdefault(command, {"--help"}).update(re.findall(r"--[a-z-]+", row))
    return found


def check_documents():
    """Checks that the man page, the completions and the guide name each command and flag.

    The synopsis of the man page and the completions for bash give each command its flags, and no others.
    """
    texts = {name: generated(kind) for name, kind in GENERATED.items()}
    for name, text in [*texts.items(), ("guide", read(GUIDE))]:
        if name in ("man page", "completions for bash"):
            given = flags_by_command(name, text)
            wrong = [it for it in commands() if given.get(it, set()) != set(flags(it))]
            if wrong:
                raise CheckFailed(f"the {name} has other flags than `--help` for {wrong}")
        text = re.sub(r"Fl -(?=[a-z])| -l (?=[a-z])", " --", text)
        for command in commands():
            missing = [word for word in [command, *flags(command)] if word not in text]
            if missing:
                raise CheckFailed(f"the {name} lacks {missing} of `jptr {command}`")


# A command line, its last word to be completed, and the words that bash offers.
COMPLETIONS = [
    ("ge", "get"), ("help ge", "get"), ("get --ra", "--raw"), ("get /a --ra", "--raw"), ("get ", ""), ("get /a app", "app.json"),
    ("get --default app", ""), ("get --default 1 /a app", "app.json"), ("set --no", "--no-expand"), ("set /a app", ""),
    ("set /a --st", "--string --strict"), ("set /a 1 app", "app.json"), ("delete --indent t", "tab"), ("keys app", ""),
    ("keys /a app", "app.json"), ("test /a app", ""), ("test /a 1 app", "app.json"), ("patch app", "app.json"),
    ("patch --inverse app", "app.json"), ("format --in", "--indent --in-place"), ("tokens app", ""), ("escape app", ""),
    ("merge ap", "app.json"), ("merge a b ap", "app.json"), ("merge-patch ap", "app.json"), ("merge-patch a ap", "app.json"),
    ("locate app", ""), ("locate /a app", "app.json"), ("locate --at 1:1 app", "app.json"), ("--generate f", "fish"), ("set /a 1 app --color ne", "never"),
]


def check_completions(folder):
    """Checks what is generated for faults, and what bash offers for a word. Returns the number of checks."""
    write(f"{folder}/app.json", "{}")
    for kind in GENERATED.values():
        write(f"{folder}/{kind}", generated(kind))
    found = [(kind, words) for kind, words in LINTERS if shutil.which(words[0])]
    for kind, words in found:
        given = subprocess.run([*words, f"{folder}/{kind}"], stdout=subprocess.PIPE, stderr=subprocess.PIPE, text=True, timeout=SECONDS)
        said = given.stderr if words[0] == "man" else given.stdout + given.stderr
        if given.returncode or said:
            raise CheckFailed(f"{words[0]} on `jptr --generate {kind}`: status {given.returncode}, {said[:500]!r}")
    script = 'source "$1"; shift; COMP_WORDS=("$@"); COMP_CWORD=$(($# - 1)); _jptr; echo "${COMPREPLY[*]}"'
    for line, wanted in COMPLETIONS:
        words = ["bash", "-c", script, "", f"{folder}/bash", "jptr", *line.split(" ")]
        given = subprocess.run(words, cwd=folder, capture_output=True, text=True, timeout=SECONDS)
        if given.stdout != f"{wanted}\n" or given.stderr:
            raise CheckFailed(f"bash completes jptr {line!r} by {given.stdout!r}, {given.stderr!r}, and not {wanted!r}")
    return len(COMPLETIONS) + len(found)


def check_streams():
    """Runs commands on streams that fail, and returns the number of runs."""
    runs = 0
    for words in [("get", "/b"), ("set", "/b", "1"), ("get", "--lines", "/b"), ("paths",), ("tokens", "/b")]:
        text = '{"b":1}\n'
        with open("/dev/full", "wb") as full:
            given = subprocess.run([PROGRAM, *words], input=text.encode(), stdout=full, stderr=subprocess.PIPE)
        if (given.returncode, given.stderr) != (5, b"jptr: standard output: writing failed: No space left on device (os error 28)\n"):
            raise CheckFailed(f"{words} to a full device: status {given.returncode}, {given.stderr!r}")
        reading, writing = os.pipe()
        os.close(reading)
        given = subprocess.run([PROGRAM, *words], input=text.encode(), stdout=writing, stderr=subprocess.PIPE)
        os.close(writing)
        if (given.returncode, given.stderr) != (0, b""):
            raise CheckFailed(f"{words} to a closed pipe: status {given.returncode}, {given.stderr!r}")
        runs += 2
    script = f'seq 1 {LINES} | "$1" get --lines "" | head -1; echo "${{PIPESTATUS[*]}}"'
    given = subprocess.run(["bash", "-c", script, "", PROGRAM], capture_output=True, timeout=SECONDS)
    if (given.stdout.split(b"\n")[0], given.stderr) != (b"1", b"") or given.stdout.split()[2] != b"0":
        raise CheckFailed(f"| head -1: {given.stdout!r}, {given.stderr!r}")
    return runs + 1


def check_files(folder):
    """Runs the program on files that are missing, folders, or unreadable, and returns the number of runs."""
    path = f"{folder}/secret.json"
    with open(path, "w", encoding="utf-8") as file:
        file.write("{}")
    os.chmod(path, 0)
    user = {"user": "nobody"} if os.getuid() == 0 else {}
    wanted = [
        (f"{folder}/none.json", "No such file or directory (os error 2)"),
        (folder, "Is a directory (os error 21)"),
        (path, "Permission denied (os error 13)"),
    ]
    runs = 0
    for name, message in wanted:
        for words in [("get", "", name), ("get", "--lines", "", name), ("keys", "", name), ("delete", "/a", name, "-i")]:
            given = run(words, **user)
            expected = [f"jptr: {name}: {message}\n", f"jptr: {name}: reading failed: {message}\n"]
            if name == folder and "-i" in words:
                expected = [f"jptr: {name}: not a regular file\n"]
            if given.returncode != 5 or given.stdout or given.stderr.decode() not in expected:
                raise CheckFailed(f"{words}: status {given.returncode}, {given.stderr!r}")
            runs += 1
    return runs


def check_missing_value(folder):
    """Checks the error of a file where a value is wanted, and returns the number of runs."""
    message = "jptr: JSON: {} is a file, not JSON: the value is missing, or a string lacks quotes or --string\n".format
    word = "jptr: JSON: text is not JSON: expected a value, found `{0}` at line 1 column 1; a string needs quotes, or --string\n{1}\n^\n".format
    for name in ["app.json", "1", "é\n"]:
        write(f"{folder}/{name}", '{"a": 2}')
    os.mkdir(f"{folder}/sub")
    cases = [
        Case(("set", "/a", "app.json"), TEXT, "", message("app.json"), 2),
        Case(("set", "/a", "./app.json", "-i"), TEXT, "", "", 2),
        Case(("set", "/a", f"{folder}/app.json"), TEXT, "", message(f"{folder}/app.json"), 2),
        Case(("set", "/a", "é\n"), TEXT, "", message("é\\n"), 2),
        Case(("insert", "/a", "app.json"), TEXT, "", message("app.json"), 2),
        Case(("set", "--lines", "/a", "app.json"), TEXT, "", message("app.json"), 2),
        Case(("set", "/a", "1", "/b", "app.json"), TEXT, "", message("app.json"), 2),
        Case(("set", "/a", "app.json", "1"), TEXT, "", word("a", "app.json"), 3),
        Case(("set", "/a", "sub"), TEXT, "", word("s", "sub"), 3),
        Case(("set", "/a", "1"), "{}", '{"a":1}'),
        Case(("set", "/a", "--string", "app.json"), "{}", '{"a":"app.json"}'),
        Case(("test", "/a", "app.json"), "{}", ""),
    ]
    for case in cases:
        given = run(case.words, case.input, cwd=folder)
        if "-i" in case.words:
            case = case._replace(errors=given.stderr.decode())
        check_result(case, given)
    return len(cases)


def damaged_lines():
    """Returns 100,000 lines of which some are damaged, and what `get` and `set` print and report for them."""
    lines, found, changed, faults = [], [], [], []
    for number in range(1, LINES + 1):
        value = {"id": number, "name": "é" * (number % 7)}
        line = json.dumps(value, ensure_ascii=number % 2 == 0)
        if number % 997 == 0:
            line = line[: number % 13]
        elif number % 1009 == 0:
            line = '{"other": 1}'
        lines.append(line)
        if not line:
            continue
        try:
            value = json.loads(line)
        except ValueError:
            # Reading stops at the end, or at the quote of a string that is cut.
            column = line.rindex('"') + 1 if line.count('"') % 2 else len(line)
            faults.append((number, f"text is not JSON at column {column}"))
            continue
        if "id" in value:
            found.append(str(value["id"]))
        else:
            faults.append((number, NOT_FOUND))
        changed.append(line.replace(f'"id": {value.get("id")}', '"id": 0') if "id" in value else '{"other": 1, "id": 0}')
    return lines, found, changed, faults


def digits_of_lines():
    """Lines with numbers that lose digits. Such a line is at fault, and the run goes on."""
    lines = '{"a": [1.10, 3.14159265358979323846]}\n{"a": 1.10}\n'
    fault = "jptr: standard input:1: the number at /1 loses digits: use --lossy\n"
    yield Case(("get", "--lines", "--sort-keys", "/a"), lines, "1.1\n", fault, 7)
    yield Case(("get", "--lines", "--sort-keys", "--strict", "/a"), lines, "", fault, 7)
    yield Case(("get", "--lines", "--sort-keys", "--default", "0", "/a"), lines, "0\n1.1\n", fault, 7)
    yield Case(("get", "--lines", "--sort-keys", "--lossy", "/a"), lines, "[1.1,3.141592653589793]\n1.1\n")
    yield Case(("get", "--lines", "--sort-keys", "/a"), f"{{}}\n{lines}", "1.1\n",
               f"jptr: standard input:1: {NOT_FOUND}\n" + fault.replace("input:1", "input:2"), 7)
    yield Case(("format", "--lines", "--sort-keys"), lines, '{"a":1.1}\n', fault.replace("/1", "/a/1"), 7)
    yield Case(("delete", "--lines", "--sort-keys", "/a"), lines, "{}\n{}\n")
    yield Case(("set", "--lines", "--sort-keys", "/b", "1e-400"), '{"a": 1}', "", fault.replace("/1", "/b"), 7)
    yield Case(("set", "--lines", "--compact", "/b", "1e-400"), lines, lines.replace("}", ', "b": 1e-400}').replace(" ", ""))


def check_line_buffered():
    """Checks that with `--line-buffered` a result is there before the next line comes."""
    words = [PROGRAM, "get", "--lines", "--line-buffered", "/a"]
    with subprocess.Popen(words, stdin=subprocess.PIPE, stdout=subprocess.PIPE) as process:
        for value in ("1", "[2.0]"):
            process.stdin.write(f'\n{{"a": {value}}}\n'.encode())
            process.stdin.flush()
            if process.stdout.readline().decode() != f"{value}\n":
                raise CheckFailed(f"--line-buffered: {value} did not come")
        process.stdin.close()


def check_lines():
    """Checks runs over lines, and returns the number of runs."""
    lines, found, changed, faults = damaged_lines()
    check_line_buffered()
    text = "".join(f"{line}\n" for line in lines)
    report = "".join(f"jptr: standard input:{number}: {message}\n" for number, message in faults)
    damaged = "".join(f"jptr: standard input:{number}: {message}\n" for number, message in faults if message.startswith("text is not JSON"))
    each = "".join(f"{line}\n" for line in found)
    check_result(Case(("get", "--lines", "/id"), text, each, report, 7), run(("get", "--lines", "/id"), text))
    check_result(Case(("get", "--lines", "/id"), text[:-1], each, report, 7), run(("get", "--lines", "/id"), text[:-1]))
    each = "".join(f"{line}\n" for line in changed)
    check_result(Case(("set",), text, each, damaged, 7), run(("set", "--lines", "/id", "0"), text))
    given = run(("get", "--lines", "--default", "null", "/id"), text)
    if (given.stdout.count(b"\n"), given.stderr.decode(), given.returncode) != (LINES - lines.count(""), damaged, 7):
        raise CheckFailed(f"--default: {given.stdout.count(10)} lines, status {given.returncode}")
    first = faults[0][0]
    each = "".join(f"{line}\n" for line in found[: first - 1])
    words = ("get", "--lines", "--strict", "/id")
    check_result(Case(words, text, each, report.partition("\n")[0] + "\n", 7), run(words, text))
    words = ("get", "--lines", "--raw", "/s")
    check_result(Case(words, '{"s":"a"}\n{"s":"a\\nb"}\n', "a\n", "jptr: standard input:2: result contains a line break\n", 7),
                 run(words, '{"s":"a"}\n{"s":"a\\nb"}\n'))
    long = list(digits_of_lines())
    for case in long:
        check_result(case, run(case.words, case.input))
    return 6 + len(long)


def random_value(random, depth):
    """Returns a random JSON value."""
    kind = random.randrange(7 if depth else 5)
    if kind == 5:
        return [random_value(random, depth - 1) for _ in range(random.randrange(4))]
    if kind == 6:
        keys = ["", "0", "1", "-", "a", "a/b", "~", "~1", "t\tb", "n\nl", "é", '"', "\\"]
        return {random.choice(keys): random_value(random, depth - 1) for _ in range(random.randrange(5))}
    return [None, True, random.randrange(-9, 10**6), random.random(), "a\t\n/~é"][kind]


def resolve(value, pointer):
    """Returns the value that a pointer resolves to."""
    for token in pointer.split("/")[1:]:
        token = token.replace("~1", "/").replace("~0", "~")
        value = value[int(token)] if isinstance(value, list) else value[token]
    return value


def count_nodes(value):
    """Returns the number of nodes of a value."""
    below = value.values() if isinstance(value, dict) else value if isinstance(value, list) else []
    return 1 + sum(map(count_nodes, below))


def check_round_trips():
    """Checks on random documents that the lines of all nodes are those of the document and build it again."""
    random = Random(1)
    for _ in range(200):
        value = random_value(random, 5)
        listed = run(("paths", "--all"), json.dumps(value)).stdout.decode()
        rows = [line.split("\t") for line in listed.split("\n")[:-1]]
        pointers = [json.loads(field) if field.startswith('"') else field for field, _ in rows]
        if len(set(pointers)) != len(rows) or len(rows) != count_nodes(value):
            raise CheckFailed(f"paths --all of {value!r}: {listed!r}")
        for pointer, (_, text) in zip(pointers, rows):
            found = resolve(value, pointer)
            if json.loads(text) != (type(found)() if isinstance(found, (list, dict)) else found):
                raise CheckFailed(f"paths --all of {value!r}: {pointer!r} has {text}")
        given = run(("from-paths",), listed)
        if given.returncode or json.loads(given.stdout) != value:
            raise CheckFailed(f"from-paths of {listed!r}: status {given.returncode}, {given.stdout!r}")
    return 400


def random_text(random, depth):
    """Returns a random JSON text with numbers of every form, repeated members and white space."""
    gap = random.choice(["", " ", "\n\t"])
    kind = random.randrange(4 if depth else 2)
    if kind == 0:
        whole = random.choice(["0", "-0", "7", str(random.randrange(10**30)), f"-{random.randrange(10**25)}"])
        digits = random.choice(["", ".0", ".10", f".{random.randrange(10**20):020}"])
        return whole + digits + random.choice(["", "", "e5", "E-3", "e+10"])
    if kind == 1:
        return random.choice(["null", "true", '"x y"', '"é"', '""', '"[1, 2]"'])
    children = [random_text(random, depth - 1) for _ in range(random.randrange(4))]
    if kind == 2:
        return "[" + gap + f"{gap},{gap}".join(children) + gap + "]"
    members = [f'"{random.choice("zyxab")}"{gap}:{gap}{child}' for child in children]
    return "{" + gap + f"{gap},{gap}".join(members) + gap + "}"


def innermost(text, offset):
    """Returns the pointer of the innermost value with the character at an offset, or `None`. Of a repeated key the last one counts."""
    value, pointer = spans.read(text), ""
    if not value.start <= offset < value.end:
        return None
    while True:
        children = list(enumerate(value.children or []))
        names = {it.key: index for index, it in children} if value.is_object else {}
        inside = [
            (it, f"/{token(it.key)}" if value.is_object else f"/{index}") for index, it in children
            if it.value.start <= offset < it.value.end and names.get(it.key, index) == index
        ]
        if not inside:
            return pointer
        value, pointer = inside[0][0].value, pointer + inside[0][1]


def token(key):
    """Returns the token of a key."""
    return key.replace("~", "~0").replace("/", "~1")


def position_of(text, offset):
    """Returns the line and the column of a character."""
    before = text[:offset]
    return f"{before.count(chr(10)) + 1}:{offset - (before.rfind(chr(10)) + 1) + 1}"


def check_located(pool):
    """Checks which value is at each character of random texts, and where that value is. Returns the number of runs."""
    jobs = []
    for seed in range(40):
        text = random_text(Random(seed), 4)
        jobs += [(text, offset) for offset in range(min(len(text), 60))]
    for (text, offset), given in zip(jobs, pool.map(lambda job: run(("locate", "--at", position_of(*job)), job[0]), jobs)):
        pointer = innermost(text, offset)
        case = Case(("locate", "--at", position_of(text, offset)), text, f"{pointer}\n")
        if pointer is None:
            case = case._replace(output="", errors=f"jptr: standard input: no value at {position_of(text, offset)}\n", status=1)
        check_result(case, given)
    return len(jobs)


def check_raw_values():
    """Checks that a random text that is assigned, found and laid out stays as it is, except for white space between tokens."""
    seeds = range(300)
    for seed in seeds:
        given = random_text(Random(seed), 4)
        flat = compact(given)
        for words, text, wanted in [
            (("set", "/k", "--", given), '{"a": 1.0}', f'{{"a": 1.0, "k": {spaced(given)}}}'),
            (("set", "/k/0/k", "--", given), "{}", f'{{"k":[{{"k":{flat}}}]}}'),
            (("get", "/k/1"), f'{{"k":[0,{given}, 1]}}', f"{given}\n"),
            (("format", "--compact"), given, f"{flat}\n"),
        ]:
            result = run(words, text)
            if result.returncode or result.stdout.decode() != wanted:
                raise CheckFailed(f"{words} on {text!r}: status {result.returncode}, {result.stdout!r}, and not {wanted!r}")
        lines = run(("format", "--indent", "tab"), given).stdout.decode()
        if compact(lines) != flat:
            raise CheckFailed(f"format of {given!r}: {lines!r}")
    return 5 * len(seeds)


def compact(text):
    """Returns the JSON text without the white space between its tokens."""
    return "".join(re.findall(r'"[^"]*"|[^\s"]+', text))


def spaced(text):
    """Returns the JSON text with a space after each comma and colon, and no other white space between its tokens."""
    return "".join(it if it[0] == '"' else it.replace(",", ", ").replace(":", ": ") for it in re.findall(r'"[^"]*"|[^\s"]+', text))


def check_in_place(folder):
    """Checks `--in-place`, also where the program is killed before it renames, and returns the number of runs."""
    shim = f"{folder}/killed_rename.so"
    subprocess.run(["cc", "-O2", "-shared", "-fPIC", "-o", shim, f"{TOOLS}/killed_rename.c"], check=True)
    path, link = f"{folder}/data.json", f"{folder}/link.json"
    with open(path, "w", encoding="utf-8") as file:
        file.write(TEXT)
    os.chmod(path, 0o640)
    os.symlink("data.json", link)
    before = os.stat(path)
    given = run(("set", "/b", "1.0", link, "--in-place"))
    if given.returncode or given.stderr or os.stat(path).st_ino != before.st_ino:
        raise CheckFailed(f"a change of nothing wrote the file: {given.stderr!r}")
    given = run(("set", "/b", "2", link, "--in-place"), env={"LD_PRELOAD": shim})
    left = sorted(os.listdir(folder))
    if given.returncode != -9 or read(path) != TEXT or "data.json.jptr-0" not in left:
        raise CheckFailed(f"killed before the rename: status {given.returncode}, {left}, {read(path)!r}")
    given = run(("set", "/b", "2", link, "-i"))
    after = os.lstat(link)
    if given.returncode or given.stdout or given.stderr or read(path) != TEXT.replace("1.0", "2"):
        raise CheckFailed(f"in place: status {given.returncode}, {given.stderr!r}, {read(path)!r}")
    if not stat.S_ISLNK(after.st_mode) or stat.S_IMODE(os.stat(path).st_mode) != 0o640:
        raise CheckFailed("in place: the link or the permissions did not stay")
    for words in [("delete", "/none"), ("delete", "/b", "/none"), ("set", "/b", "3", "/a~1b/9", "1")]:
        given = run((*words, path, "-i"))
        if given.returncode != (6 if "9" in words[-2] else 1) or read(path) != TEXT.replace("1.0", "2"):
            raise CheckFailed(f"in place, with an error: status {given.returncode}, {read(path)!r}")
    given = run(("set", "/c", "3", "/b", "4", path, "-i"))
    given = run(("delete", "/c", "/a~1b/0", path, "-i"))
    if given.returncode or given.stdout or read(path) != TEXT.replace("1.0", "4").replace("1, 2", "2"):
        raise CheckFailed(f"several in place: status {given.returncode}, {read(path)!r}")
    write(path, TEXT)
    given = run(("delete", "/b", "/dev/null", "-i"))
    if given.returncode == 0:
        raise CheckFailed("in place: a device was replaced")
    return 9 + check_locked(folder, path) + check_reformat(folder)


def check_reformat(folder):
    """Checks an edit that is possible, but not in the text: a patch that nests deeper than 127 in between."""
    deepest, path = "/0" * 127, f"{folder}/deep.json"
    text = f"[ {'[' * 126}{']' * 126} ]\n"
    with open(path, "w", encoding="utf-8") as file:
        file.write(text)
    with open(f"{folder}/patch.json", "w", encoding="utf-8") as file:
        json.dump([{"op": "add", "path": deepest, "value": []}, {"op": "remove", "path": deepest}], file)
    words = ("patch", f"{folder}/patch.json")
    message = "document cannot be edited in place"
    error = f"{message}; --reformat prints the document anew\n"
    anew = text.replace(" ", "")
    for case in [
        Case(words, text, "", f"jptr: standard input: {error}", 6),
        Case((*words, path, "-i"), "", "", f"jptr: {path}: {error}", 6),
        Case((*words, "--lines"), text, "", f"jptr: standard input:1: {message}\n", 7),
        Case((*words, "--check"), text, ""),
        Case((*words, "--compact"), text, anew),
        Case((*words, "--compact", "--lines"), text, anew),
        Case((*words, "--reformat"), text, anew),
        Case(("set", "/a", "2", "--reformat"), '{ "a": 1 }', '{ "a": 2 }'),
        Case(("delete", "/a", "--reformat"), '{ "a": 1 }', "{}"),
    ]:
        check_result(case, run(case.words, case.input))
    if read(path) != text:
        raise CheckFailed("an edit that cannot be made in place wrote the file")
    check_result(Case((*words, path, "-i", "--reformat"), "", ""), run((*words, path, "-i", "--reformat")))
    if read(path) != anew:
        raise CheckFailed(f"--in-place --reformat left {read(path)!r}")
    return 10 + check_reformat_digits(path, words, text.replace(" ]", ", 1e-400 ]"))


def check_reformat_digits(path, words, text):
    """Checks such an edit of a document with a number that loses digits."""
    error = "the number at /1 loses digits: use --lossy\n"
    anew = text.replace(" ", "").replace("1e-400", "0.0")
    with open(path, "w", encoding="utf-8") as file:
        file.write(text)
    for case in [
        Case((*words, "--reformat"), text, "", f"jptr: standard input: {error}", 3),
        Case((*words, "--compact"), text, "", f"jptr: standard input: {error}", 3),
        Case((*words, "--sort-keys"), text, "", f"jptr: standard input: {error}", 3),
        Case((*words, path, "-i", "--reformat"), "", "", f"jptr: {path}: {error}", 3),
        Case((*words, "--compact", "--lines"), text, "", f"jptr: standard input:1: {error}", 7),
        Case((*words, "--reformat", "--lossy"), text, anew),
        Case((*words, "--compact", "--lossy"), text, anew),
        Case((*words, "--compact", "--lines", "--lossy"), text, anew),
        Case((*words, "--check"), text, ""),
    ]:
        check_result(case, run(case.words, case.input))
    if read(path) != text:
        raise CheckFailed("an edit that would lose digits wrote the file")
    return 9 + check_patch_digits(words, text.replace("1e-400", "2"))


def check_patch_digits(words, text):
    """Checks such an edit, and one that sorts the members, by a patch with a number that loses digits."""
    own = read(words[1])
    write(words[1], f'{own[:-1]}, {{"op": "add", "path": "/2", "value": {{"x": 1e-400}}}}]')
    error = "jptr: PATCHFILE: operation 2: the number at /x loses digits: use --lossy\n"
    anew = text.replace(" ", "").replace("]\n", ',{"x":0.0}]\n')
    shallow = f"{os.path.dirname(words[1])}/shallow.json"
    write(shallow, '[{"op": "add", "path": "/a", "value": {"x": 1e-400}}]')
    for case in [
        Case((*words, "--reformat"), text, "", error, 3),
        Case((*words, "--compact", "--lines"), text, "", error.replace("jptr:", "jptr: standard input:1:"), 7),
        Case((*words, "--reformat", "--lossy"), text, anew),
        Case(("patch", shallow), "{}", '{"a":{"x":1e-400}}'),
        Case(("patch", shallow, "--compact"), "{ }", '{"a":{"x":1e-400}}\n'),
        Case(("patch", shallow, "--sort-keys"), "{}", "", "jptr: standard input: the number at /a/x loses digits: use --lossy\n", 3),
        Case(("patch", shallow, "--sort-keys", "--lossy"), "{}", '{"a":{"x":0.0}}\n'),
    ]:
        check_result(case, run(case.words, case.input))
    return 7


# Operations on `BEFORE`, and the operations that take them back (RFC 6902, section 4).
BEFORE = '{ "a": {"b": [1, 2]}, "c": 1.50 }\n'
INVERSES = [
    ([], []),
    ([{"op": "test", "path": "/a/b/0", "value": 1}], []),
    ([{"op": "remove", "path": "/a/b/0"}], [{"op": "add", "path": "/a/b/0", "value": 1}]),
    ([{"op": "replace", "path": "/c", "value": 2}], [{"op": "replace", "path": "/c", "value": 1.5}]),
    ([{"op": "add", "path": "/a/b/-", "value": 3}], [{"op": "remove", "path": "/a/b/2"}]),
    ([{"op": "move", "from": "/a", "path": "/d"}], [{"op": "move", "from": "/d", "path": "/a"}]),
    ([{"op": "copy", "from": "/c", "path": "/~1"}, {"op": "remove", "path": "/c"}],
     [{"op": "add", "path": "/c", "value": 1.5}, {"op": "remove", "path": "/~1"}]),
]


def patched():
    """Patches whose values keep their texts, as `own_texts`: a patch, a document, flags, and the new document."""
    given = '{ "z": 1.10, "a": [1e5, 123456789012345678901234], "z": -0 }'
    flat = '{"z":1.10,"a":[1e5,123456789012345678901234],"z":-0}'
    lines = '{\n    "z": 1.10,\n    "a": [\n      1e5,\n      123456789012345678901234\n    ],\n    "z": -0\n  }'
    add = '[{{"op": "add", "path": "{}", "value": {}}}]'.format
    wide = spaced(given)
    yield add("/b", given), '{"b":1}', (), f'{{"b":{flat}}}'
    yield add("/b", given), '{"b": 1}', (), f'{{"b": {wide}}}'
    yield add("/-", given), "[0, 1]\n", (), f"[0, 1, {wide}]\n"
    yield add("/0", given), "[0, 1]\n", (), f"[{wide}, 0, 1]\n"
    yield add("", given), "[0, 1]\n", (), f"{wide}\n"
    yield add("/c", given), TEXT, (), TEXT.replace("2]", f'2],\n  "c": {lines}')
    yield f'[\n {{"value" : {given} ,\n "path": "/b" , "op": "replace" }} ]\n', '{"b": 1}', (), f'{{"b": {wide}}}'
    yield '[{"value": 2.0, "op": "replace", "path": "/b", "\\u0076alue": 1.10}]', '{"b": 2}', (), '{"b": 1.10}'
    yield add("/b", '"\\u00e9\\/"'), '{"b": 1}', (), '{"b": "\\u00e9\\/"}'
    yield add("/c", '[ "\\u00E9" ]'), '{\n  "b": [\n    1\n  ]\n}\n', (), '{\n  "b": [\n    1\n  ],\n  "c": [\n    "\\u00E9"\n  ]\n}\n'
    yield '[{"op": "test", "path": "/b", "value": 1.10}, {"op": "replace", "path": "/b", "value": 1.100}]', '{"b":1.1}', (), '{"b":1.100}'
    yield add("/c", "1.10"), '{"b": 1.0}\n{}\n', ("--lines",), '{"b": 1.0, "c": 1.10}\n{"c":1.10}\n'
    yield add("/c", "1.10"), '{"b": 1.0}', ("--compact",), '{"b":1.0,"c":1.10}\n'
    yield add("/c", "1.10"), '{"b": 1.0}', ("--indent", "tab"), '{\n\t"b": 1.0,\n\t"c": 1.10\n}\n'
    yield add("/c", "1.10"), '{"b": 1.0}', ("--sort-keys",), '{"b":1.0,"c":1.1}\n'
    many = ", ".join(f'{{"op": "add", "path": "/-", "value": {i}.0}}' for i in range(300))
    yield f"[{many}]", "[0]", (), f"[0,{','.join(f'{i}.0' for i in range(300))}]"


def check_patched(folder):
    """Checks `patched`, also in place and with `--inverse`. Returns the number of runs."""
    patch, path, undo = f"{folder}/p.json", f"{folder}/d.json", f"{folder}/u.json"
    runs = 0
    for operations, text, words, new in patched():
        write(patch, operations)
        check_result(Case(words, text, new), run(("patch", patch, *words), text))
        runs += 1
        if words:
            continue
        for flags in ((), ("--inverse", undo)):
            write(path, text)
            check_result(Case(flags, "", ""), run(("patch", patch, path, "-i", *flags)))
            if read(path) != new:
                raise CheckFailed(f"patch -i {flags} left {read(path)[:300]!r}, and not {new[:300]!r}")
            runs += 1
    seeds = range(200)
    for seed in seeds:
        random = Random(seed)
        given = [random_text(random, 3) for _ in range(4)]
        operations = [f'{{"op":"add", "path":"/-", "value": {value}}}' for value in given]
        write(patch, "[\n" + " ,\n".join(operations) + "]\n")
        check_result(Case((), "[0]", f"[0,{','.join(map(compact, given))}]"), run(("patch", patch), "[0]"))
    return runs + len(seeds)


# So many operations before those of a case that the patch is applied to the document, which is then laid out as the text
# is: a document, further operations as JSON, flags, and the new document.
TESTS = 16
LONG = [
    ('{ "a": 1.0, "b": [1, 2] }', '{"op": "add", "path": "/c", "value": 1.10}', (), '{ "a": 1.0, "b": [1, 2], "c": 1.10 }'),
    ('{"a": 1.0}', '{"op": "add", "path": "/c", "value": {"z": 1.10, "y": 1e5}}', (), '{"a": 1.0, "c": {"z": 1.10, "y": 1e5}}'),
    ('{"a": 1.0, "b": 2}', '{"op": "move", "from": "/a", "path": "/c"}', (), '{"b": 2, "c": 1.0}'),
    ('{"a": 1.0,\n  "b": 2}\n', '{"op": "remove", "path": "/b"}', (), '{"a": 1.0}\n'),
    ('{"a": 1.0}', '{"op": "test", "path": "/a", "value": 1.00}', (), '{"a": 1.0}'),
    ('{"a": 1.0}', '{"op": "add", "path": "/b", "value": 1.10}', ("--compact",), '{"a":1.0,"b":1.10}\n'),
    ('{"a": 1.0}', '{"op": "add", "path": "/b", "value": [1.10]}', ("--indent", "tab"), '{\n\t"a": 1.0,\n\t"b": [\n\t\t1.10\n\t]\n}\n'),
    ('{"b": 1.50, "a": 1}', '{"op": "add", "path": "/c", "value": 1.10}', ("--sort-keys",), '{"a":1,"b":1.5,"c":1.1}\n'),
    ('{"a": 1.0}', '{"op": "add", "path": "/b", "value": 1.10}', ("--check",), ""),
    # With a number that loses digits, one operation after the other changes the text.
    ('{"a": 12345678901234567890123}', '{"op": "replace", "path": "/a", "value": 12345678901234567890124}', (), '{"a": 12345678901234567890124}'),
    ('{"a": 12345678901234567890123}', '{"op": "add", "path": "/b", "value": 1}', ("--check",), ""),
    ("[1.0]\n", '{"op": "add", "path": "/-", "value": 12345678901234567890123}', (), "[1.0,12345678901234567890123]\n"),
]


def check_drawings(folder):
    """Checks `FAILING`: what an operation has at fault is drawn, however the patch is applied. Returns the number of runs."""
    patch, path, undo = f"{folder}/p.json", f"{folder}/d.json", f"{folder}/u.json"
    missing = f"jptr: standard input: {NOT_FOUND}\n/c\n ^ not found in value\n"
    for words in [("move", "/c", "/d"), ("copy", "/c", "/b"), ("rename", "/c", "d")]:
        check_result(Case(words, TEXT, "", missing, 1), run(words, TEXT))
    check_result(Case((), TEXT, "", missing.replace("/c", "/c/d"), 1), run(("copy", "/b", "/c/d"), TEXT))
    runs = 4
    for operation, error in FAILING:
        for many, flags in [(1, ()), (1, ("--check",)), (1, ("-i",)), (1, ("--compact",)), (1, ("--inverse", undo)), (20, ()), (20, ("--check",))]:
            write(patch, f"[{', '.join([FIRST] * many)}, {operation}]")
            write(path, TEXT)
            text = f"jptr: {path}: patch failed at operation {many}: {error}"
            check_result(Case((), "", "", text, 1), run(("patch", patch, path, *flags)))
            expect_files(folder, {patch: read(patch), path: TEXT})
            runs += 1
    return runs


# Two documents, and the changes from one to the other.
CHANGES = [
    ("1", "2", '~ "": 1 -> 2\n'),
    ('{"a": 1, "b/c": [1, 2, 3], "d": null}', '{"a": {"x": "y"}, "b/c": [1, 3], "e": []}', '~ /a: 1 -> {"x":"y"}\n- /b~1c/1: 2\n- /d: null\n+ /e: []\n'),
    ('{"a\\nb": 1}', '{"a\\nb": true}', '~ "/a\\nb": 1 -> true\n'),
    ('{"\\u001b": "\x7f\x9b"}', '{"\\u001b": 1}', '~ "/\\u001b": "\\u007f\\u009b" -> 1\n'),
    ("[1]", "[1]", ""),
]


def check_commented(folder):
    """Checks files with comments, which are changed in place, and a byte order mark. Returns the number of runs."""
    path, marked = f"{folder}/x.jsonc", f"{folder}/m.json"
    write(path, COMMENTED)
    write(marked, '\ufeff{"a": 1}\n')
    check_result(Case((), "", "1.0\n"), run(("get", "/a", path)))
    check_result(Case((), "", ""), run(("test", "/a", path)))
    check_result(Case((), "", "", "", 1), run(("test", "/c", path)))
    check_result(Case((), "", ""), run(("set", "/a", "2", path, "-i")))
    check_result(Case((), "", ""), run(("set", "/a", "2", marked, "-i")))
    check_result(Case((), "", ""), run(("format", marked, "-i")))
    error = f"jptr: {path}: the document has comments or trailing commas, which another layout would lose\n"
    check_result(Case((), "", "", error, 6), run(("format", path, "-i")))
    check_result(Case((), "", "", error, 6), run(("relayout", path, marked)))
    check_result(Case((), "", "- /b: [1,2]\n", "", 1), run(("diff", "--text", path, marked)))
    check_result(Case((), "", ""), run(("insert", "/b/0", "0", path, "-i")))
    patch, undo = f"{folder}/patch.json", f"{folder}/undo.json"
    operations = [{"op": "replace", "path": "/b/0", "value": k} for k in range(17)]
    write(patch, json.dumps([*operations, {"op": "remove", "path": "/a"}]))
    check_result(Case((), "", ""), run(("patch", patch, path, "-i", "--inverse", undo)))
    os.remove(patch)
    os.remove(undo)
    expect_files(folder, {path: COMMENTED.replace("[1", "[16, 1").replace('  "a": 1.0, // one\n', ""), marked: '\ufeff{\n  "a": 2\n}\n'})
    return 11


def check_changes(folder):
    """Checks `diff --text`, and `set --create`. Returns the number of runs."""
    old, new, path = f"{folder}/old.json", f"{folder}/new.json", f"{folder}/made.json"
    for before, after, changes in CHANGES:
        write(old, before)
        write(new, after)
        check_result(Case((), "", changes, "", 1 if changes else 0), run(("diff", "--text", old, new)))
    write(old, '{"a": 1, "b": 2}')
    write(new, '{"b": 3, "c": 4}')
    colors = "\x1b[31m- /a: 1\x1b[0m\n\x1b[33m~ /b: 2 -> 3\x1b[0m\n\x1b[32m+ /c: 4\x1b[0m\n"
    for when, changes in [("always", colors), ("never", re.sub("\x1b.{1,3}m", "", colors)), ("auto", re.sub("\x1b.{1,3}m", "", colors))]:
        check_result(Case((), "", changes, "", 1), run(("diff", "--text", "--color", when, old, new)))
    error = "jptr: --color: needs always, never or auto\n"
    check_result(Case((), "", "", error, 2), run(("diff", "--text", "--color", "x", old, new)))
    before, after = read(old), read(new)
    pretty = '{\n  "a": {\n    "b": 1.10\n  },\n  "c": []\n}\n'
    words = ("set", "--create", "/a/b", "1.10", "/c", "[]", path)
    check_result(Case((), "", pretty), run(words))
    expect_files(folder, {old: before, new: after})
    check_result(Case((), "", ""), run((*words, "-i")))
    check_result(Case((), "", ""), run(("set", "--create", "/c/-", "2", path, "-i")))
    added = pretty.replace("[]", "[\n    2\n  ]")
    expect_files(folder, {old: before, new: after, path: added})
    check_result(Case((), "", '{"x":1}\n'), run(("set", "--create", "--compact", "/x", "1", f"{folder}/none.json")))
    check_result(Case((), "", ""), run(("set", "--create", "/x/y", "1", f"{folder}/t.toml", "-i")))
    if read(f"{folder}/t.toml") not in ("x.y = 1\n", "[x]\ny = 1\n"):
        raise CheckFailed(f"--create made {read(f'{folder}/t.toml')!r}")
    missing = f"{folder}/no/made.json"
    error = f"jptr: {missing}: No such file or directory (os error 2)\n"
    check_result(Case((), "", "", error, 5), run(("set", "--create", "/x", "1", missing, "-i")))
    os.remove(f"{folder}/t.toml")
    expect_files(folder, {old: before, new: after, path: added})
    return len(CHANGES) + 10


def check_long(folder, shim):
    """Checks patches of many operations, also where a memory request fails. Returns the number of runs."""
    patch, path = f"{folder}/p.json", f"{folder}/d.json"
    runs = 0
    for text, operation, words, new in LONG:
        test = '{"op": "test", "path": "", "value": ' + text + "}"
        write(patch, "[" + ", ".join([test] * TESTS + [operation]) + "]")
        runs += check_memory(Case(("patch", patch, *words), text, new), shim)
        if words:
            continue
        write(path, text)
        check_result(Case((), "", ""), run(("patch", patch, path, "-i")))
        expect_files(folder, {patch: read(patch), path: new})
        os.remove(path)
        runs += 1
    write(patch, "[" + ", ".join(['{"op": "test", "path": "/a", "value": 1}'] * TESTS + ['{"op": "remove", "path": "/b"}']) + "]")
    errors = run(("patch", patch), '{"a": 1}').stderr.decode()
    write(patch, '[{"op": "remove", "path": "/b"}]')
    wanted = run(("patch", patch), '{"a": 1}').stderr.decode().replace("operation 0", f"operation {TESTS}")
    if errors != wanted:
        raise CheckFailed(f"a long patch fails with {errors!r}, and not {wanted!r}")
    return runs + 2


def check_inverse(folder, shim):
    """Checks `--inverse`: the file that it writes, and what is left after an error. Returns the number of runs."""
    patch, path, undo = f"{folder}/p.json", f"{folder}/d.json", f"{folder}/u.json"
    runs = 0
    for operations, back in INVERSES:
        write(patch, json.dumps(operations))
        new = run(("patch", patch), BEFORE).stdout.decode()
        written = json.dumps(back, sort_keys=True, separators=(",", ":")) + "\n"
        for old in (None, "{}"):
            leave(undo, old)
            check_result(Case((), "", new), run(("patch", patch, "--inverse", undo), BEFORE))
            expect_files(folder, {patch: json.dumps(operations), undo: written})
            check_result(Case((), "", BEFORE.replace("1.50", "1.5").replace(" ", "")), run(("patch", undo, "--sort-keys"), new))
            leave(undo, old)
            write(path, BEFORE)
            check_result(Case((), "", ""), run(("patch", patch, path, "-i", "--inverse", undo)))
            expect_files(folder, {patch: json.dumps(operations), undo: written, path: new})
            os.remove(path)
            runs += 4
    runs += check_inverse_digits(folder, patch, undo)
    return runs + check_inverse_fails(folder, patch, path, undo) + check_inverse_memory(folder, patch, path, undo, shim)


# Operations with a number that loses digits, a document, flags, the new document, and the inverse.
LOST = '[{"op": "add", "path": "/b", "value": 1e-400}]'
LOST_AGAIN = f'{LOST[:-1]}, {{"op": "remove", "path": "/b"}}]'
INVERSE_DIGITS = [
    (LOST, "{}", (), '{"b":1e-400}', '[{"op":"remove","path":"/b"}]'),
    (LOST, "{}", ("--sort-keys", "--lossy"), '{"b":0.0}\n', '[{"op":"remove","path":"/b"}]'),
    (LOST_AGAIN, "{}", ("--lossy",), "{}", '[{"op":"add","path":"/b","value":0.0},{"op":"remove","path":"/b"}]'),
    ('[{"op": "remove", "path": "/a"}]', '{"a": 1e-400}', ("--lossy",), "{}", '[{"op":"add","path":"/a","value":0.0}]'),
]


def check_inverse_digits(folder, patch, undo):
    """Checks inverses where a number loses digits, and is not in the inverse or may be. Returns the number of runs."""
    for operations, text, words, new, back in INVERSE_DIGITS:
        write(patch, operations)
        leave(undo, None)
        check_result(Case(words, text, new), run(("patch", patch, "--inverse", undo, *words), text))
        expect_files(folder, {patch: operations, undo: f"{back}\n"})
    return len(INVERSE_DIGITS)


def check_inverse_fails(folder, patch, path, undo):
    """Checks that an error leaves the document and the file of the inverse as they were, and returns the number of runs."""
    write(patch, '[{"op": "remove", "path": ""}]')
    deep, deepest = f"{'[' * 125}{']' * 125}", f"{'[' * 126}{']' * 126}"
    runs = 0
    for old in (None, "{}"):
        for text, operations, words, errors, status in [
            (deepest, '[{"op": "remove", "path": ""}]', (), f"jptr: {undo}: patch would nest deeper than 127\n", 6),
            (BEFORE, '[{"op": "remove", "path": "/x"}]', (), f"jptr: {path}: patch failed at operation 0: {NOT_FOUND}\n/x\n ^ not found in value\n", 1),
            ("{", "[]", (), f"jptr: {path}: {OPEN}", 3),
            ('{"a": 1e-400}', "[]", (), f"jptr: {path}: the number at /a loses digits: use --lossy\n", 3),
            ("{}", LOST_AGAIN, (), "jptr: PATCHFILE: operation 0: the number loses digits: use --lossy\n", 3),
            ("{}", LOST, ("--inverse", undo, "--sort-keys"), f"jptr: {path}: the number at /b loses digits: use --lossy\n", 3),
            (BEFORE, "[]", ("--inverse", path), "jptr: --inverse: names the document\n", 2),
            (BEFORE, "[]", ("--inverse", "-"), "jptr: --inverse: needs a file\n", 2),
            (BEFORE, "[]", ("--inverse", folder), f"jptr: {folder}: not a regular file\n", 5),
            (BEFORE, "[]", ("--inverse", f"{folder}/x/u"), f"jptr: {folder}/x/u: No such file or directory (os error 2)\n", 5),
        ]:
            leave(undo, old)
            write(path, text)
            write(patch, operations)
            for in_place in ((), ("-i",)):
                check_result(Case((), "", "", errors, status), run(("patch", patch, path, *(words or ("--inverse", undo)), *in_place)))
                expect_files(folder, {patch: operations, path: text, **({undo: old} if old else {})})
                runs += 1
    write(patch, '[{"op": "remove", "path": ""}]')
    check_result(Case((), "", "null"), run(("patch", patch, "--inverse", undo), deep))
    with open("/dev/full", "wb") as full:
        leave(undo, None)
        given = subprocess.run([PROGRAM, "patch", patch, path, "--inverse", undo], stdout=full, stderr=subprocess.PIPE)
    if given.returncode != 5 or os.path.exists(undo):
        raise CheckFailed(f"--inverse, to a full device: status {given.returncode}, {os.listdir(folder)}")
    return runs + 2


def check_inverse_memory(folder, patch, path, undo, shim):
    """Runs a patch in place with each memory request failing in turn: both files are old, or both are new."""
    operations = '[{"op": "move", "from": "/c", "path": "/d"}, {"op": "remove", "path": "/a"}]'
    words = [PROGRAM, "patch", patch, path, "-i", "--inverse", undo]
    before = {patch: operations, path: BEFORE, undo: "{}"}
    for name, text in before.items():
        write(name, text)
    _, requests, _ = run_with_shim(words, "", shim, 0, count="run", may_keep=True)
    after = {name: read(name) for name in before}
    for fail in range(1, requests + 1):
        for name, text in before.items():
            write(name, text)
        given, _, _ = run_with_shim(words, "", shim, fail, count="run", may_keep=True)
        if given.returncode not in (0, 4):
            raise CheckFailed(f"--inverse, without request {fail}: status {given.returncode}, {given.stderr!r}")
        expect_files(folder, before if given.returncode else after)
    return requests + 1


def expect_files(folder, wanted):
    """Fails if the files of a folder are not these texts by their paths."""
    found = {f"{folder}/{name}": read(f"{folder}/{name}") for name in os.listdir(folder)}
    if found != wanted:
        raise CheckFailed(f"--inverse left {found}, and not {wanted}")


def leave(path, text):
    """Writes the text to a file, or removes the file."""
    if text is not None:
        write(path, text)
    elif os.path.exists(path):
        os.remove(path)


def write(path, text):
    """Writes a text to a file."""
    with open(path, "w", encoding="utf-8") as file:
        file.write(text)


# A file, a new document, flags, and what `relayout` prints.
RELAID = [
    (TEXT, '{"a/b":[1,2,3.10],"b":1.0}', (), TEXT.replace("2]", "2, 3.10]")),
    (TEXT, '{"a/b":[2],"b":1.0}', (), TEXT.replace("1, 2", "2")),
    (TEXT, '{"a/b":[1,2],"c":{"z":1e5,"y":[]},"b":1.0}', (), TEXT.replace("]\n", '],\n  "c": {\n    "z": 1e5,\n    "y": []\n  }\n')),
    (TEXT, '{"a/b":[1,2],"b":1.0}', (), TEXT),
    (TEXT, "null", (), "null\n"),
    ('{"a": 12345678901234567890123}', '{"a": 12345678901234567890124}', ("--lossy",), '{"a": 12345678901234567890123}'),
]


def check_relayout(folder, shim):
    """Checks `relayout`, also where a memory request fails, and returns the number of runs."""
    path = f"{folder}/layout.json"
    runs = 0
    for old, new, words, wanted in RELAID:
        write(path, old)
        case = Case(("relayout", path, *words), new, wanted)
        runs += check_memory(case, shim)
        expect_files(folder, {path: old})
        check_result(Case((), "", ""), run((*case.words, "-i"), new))
        expect_files(folder, {path: wanted})
        runs += 2
    write(path, TEXT)
    words = [PROGRAM, "relayout", path, "-i"]
    _, requests, _ = run_with_shim(words, "[1]", shim, 0, count="run", may_keep=True)
    for fail in range(1, requests + 1):
        write(path, TEXT)
        given, _, _ = run_with_shim(words, "[1]", shim, fail, count="run", may_keep=True)
        expect_files(folder, {path: TEXT if given.returncode else "[\n  1\n]\n"})
    for new, words, errors, status in [
        ("{", (), f"jptr: standard input: {OPEN}", 3),
        ('{"a": 1e400}', (), "jptr: standard input: text is not JSON: number out of range at line 1 column 12\n", 3),
        ('{"a": 1e-400}', (), "jptr: standard input: the number at /a loses digits: use --lossy\n", 3),
    ]:
        write(path, TEXT)
        for in_place in ((), ("-i",)):
            check_result(Case((), "", "", errors, status), run(("relayout", path, *words, *in_place), new))
        expect_files(folder, {path: TEXT})
        runs += 2
    return runs + requests + 1


CONFLICT = """jptr: FILE1: 2 conflicts: --ours and --theirs decide them
/a
  base    1
  ours    1.5
  theirs  (none)
/b~1c/d
  base    (none)
  ours    "x\\u001b"
  theirs  [1,null]
"""
MERGE_BASE, MERGE_THEIRS = '{"a": 1, "b/c": {}, "e": [1.0]}', '{"b/c": {"d": [1,  null]}, "e": [1.00, 2.50]}'
MERGE_OURS = '{\n  "e": [1.0], "a": 1.50,\n  "b/c": {"d": "x\\u001b"}\n}\n'
# Merges: flags, the texts of the documents, and what is printed. Merge patches have two documents.
MERGES = [
    (("--ours",), (MERGE_BASE, MERGE_OURS, MERGE_THEIRS), MERGE_OURS.replace("[1.0]", "[1.0, 2.50]")),
    (("--theirs",), (MERGE_BASE, MERGE_OURS, MERGE_THEIRS), '{\n  "e": [1.0, 2.50],\n  "b/c": {"d": [1, null]}\n}\n'),
    (("--ours", "--comments"), ("[1]", "[1, // one\n2]\n", "[1,]"), "[1, // one\n2]\n"),
    ((), ("{}", '{"a": 1}', '{"b": 0.10}'), '{"a": 1, "b": 0.10}'),
    ((), ("", '{"a": 1, "c": 2}', '{"b": 0.10, "c": 2}'), '{"a": 1, "c": 2, "b": 0.10}'),
    ((), ('{"a": {"b": 1.10, "c": null}, "d": null}', '{"d": 1, "e": [1.0]}'), '{"e": [1.0], "a": {"b": 1.1}}'),
    ((), ('{"d": 1.00}', '{"d": 1.0}'), '{"d": 1.0}'),
    ((), ("7e0", "{}\n"), "7e0\n"),
    ((), ('{"id": 2, "b": 1e22}', '{"id": 10000000000000000000001, "c": 10000000000000000000001}'),
     '{"id": 2, "c": 10000000000000000000001, "b": 1e22}'),
    ((), ('{"id": 1e22}', '{"id": 10000000000000000000000}'), '{"id": 10000000000000000000000}'),
    (("--lossy",), ('{"id": 1e22}', '{"id": 10000000000000000000001}'), '{"id": 10000000000000000000001}'),
]
# Merges that fail: flags, the texts of the documents, the error and the status.
NOT_MERGED = [
    ((), (MERGE_BASE, MERGE_OURS, MERGE_THEIRS), CONFLICT, 1),
    ((), ("1e-400", "2", "2"), "jptr: FILE0: the number loses digits: use --lossy\n", 3),
    ((), ("1e-400", "2"), "jptr: FILE0: the number loses digits: use --lossy\n", 3),
    ((), ('{"id": [1e22]}', '{"id": [10000000000000000000001]}'), "jptr: FILE1: the number at /id/0 loses digits: use --lossy\n", 3),
    ((), ("{", "2", "2"), "jptr: FILE0: " + OPEN, 3),
    ((), ("{}", "", "{}"), "jptr: FILE1: the input is empty\n", 3),
    ((), ("2", "{"), "jptr: FILE1: " + OPEN, 3),
]


def check_merges(folder, shim):
    """Checks `merge-patch` and `merge`, also where a memory request fails, and returns the number of runs."""
    runs = 0
    for flags_, texts, wanted in MERGES:
        paths, files = merge_files(folder, texts)
        merged_files = {**files, paths[1]: wanted}
        command = "merge" if len(texts) == 3 else "merge-patch"
        runs += check_memory(Case((command, *flags_, *paths), "", wanted), shim)
        words = [PROGRAM, command, *flags_, *paths, "-i"]
        _, requests, _ = run_with_shim(words, "", shim, 0, count="run", may_keep=True)
        expect_files(folder, merged_files)
        for fail in range(1, requests + 1):
            merge_files(folder, texts)
            given, _, _ = run_with_shim(words, "", shim, fail, count="run", may_keep=True)
            expect_files(folder, files if given.returncode else merged_files)
        runs += requests + 1
    for flags_, texts, errors, status in NOT_MERGED:
        paths, files = merge_files(folder, texts)
        for number, path in enumerate(paths):
            errors = errors.replace(f"FILE{number}", path)
        for more in ((), ("-i",), *([("--git",)] if len(texts) == 3 else [])):
            words = ("merge" if len(texts) == 3 else "merge-patch", *flags_, *paths, *more)
            check_result(Case(words, "", "", errors, status), run(words))
            expect_files(folder, files)
            runs += 1
    return runs


def merge_files(folder, texts):
    """Writes the files of a merge, of which the second one is changed in place. Returns their paths, and their texts by these."""
    for name in os.listdir(folder):
        os.unlink(f"{folder}/{name}")
    files = {f"{folder}/{number}.json": text for number, text in enumerate(texts)}
    for path, text in files.items():
        write(path, text)
    return list(files), files


def check_locked(folder, path):
    """Checks that a file in a folder that cannot be written stays as it is."""
    if os.getuid() != 0:
        return 0
    locked = f"{folder}/locked"
    os.mkdir(locked, 0o755)
    shutil.copy(path, f"{locked}/data.json")
    os.chmod(f"{locked}/data.json", 0o644)
    given = run(("delete", "/b", f"{locked}/data.json", "-i"), user="nobody")
    if given.returncode != 5 or read(f"{locked}/data.json") != read(path) or os.listdir(locked) != ["data.json"]:
        raise CheckFailed(f"in a locked folder: status {given.returncode}, {given.stderr!r}")
    return 1


def read(path):
    """Returns the text of a file."""
    with open(path, encoding="utf-8") as file:
        return file.read()


def check_memory(case, shim):
    """Runs a case once for each memory request, with that one failing, and returns the number of requests.

    With `--lines`, the results of the lines before are already written.
    """
    words = [PROGRAM, *case.words]
    usual, requests, _ = run_with_shim(words, case.input, shim, 0, count="run", may_keep=True)
    check_result(case, usual)
    for fail in [*range(1, requests + 1), "all"]:
        given, _, _ = run_with_shim(words, case.input, shim, fail, count="run", may_keep=True)
        if (given.stdout, given.returncode) == (case.output.encode(), case.status):
            continue
        written = given.stdout.decode()
        before = written if "--lines" in case.words and is_lines_of(case.output, written) else ""
        check_result(Case(case.words, case.input, before, "jptr: out of memory\n", 4), given)
    return requests


def is_lines_of(text, start):
    """Returns whether `start` is some of the first lines of `text`."""
    return text.startswith(start) and (not start or start.endswith("\n"))


def examples():
    """Yields the commands and outputs of each console block of the guide."""
    for block in CONSOLE.findall(read(GUIDE)):
        commands, outputs = [], []
        for line in block.splitlines():
            if line.startswith("$ "):
                commands.append(line[2:])
                outputs.append("")
            else:
                outputs[-1] += line + "\n"
        yield commands, outputs


def check_examples(folder):
    """Runs the examples of the guide, in order, in one folder, and returns the number of commands.

    `cat FILE` of a file that is not there makes the file.
    """
    binaries = f"{folder}/bin"
    os.mkdir(binaries)
    os.symlink(PROGRAM, f"{binaries}/jptr")
    environment = {**os.environ, "PATH": f"{binaries}:{os.environ['PATH']}", "LC_ALL": "C.UTF-8"}
    count = 0
    for commands, outputs in examples():
        if any("parallel " in command for command in commands) and not shutil.which("parallel"):
            print("cli: GNU parallel is not on this machine, so its example is left out")
            continue
        for command, output in zip(commands, outputs):
            name = command.removeprefix("cat ")
            if command.startswith("cat ") and not os.path.exists(f"{folder}/{name}"):
                with open(f"{folder}/{name}", "w", encoding="utf-8") as file:
                    file.write(output)
        script = "".join(f"{command}\ns=$?; echo '{MARK}'; (exit $s)\n" for command in commands)
        given = subprocess.run(["bash", "-c", script], cwd=folder, env=environment, stdout=subprocess.PIPE,
                               stderr=subprocess.STDOUT, timeout=SECONDS)
        found = given.stdout.decode().split(f"{MARK}\n")[:-1]
        if found != outputs:
            wrong = next((it for it in zip(commands, outputs, found) if it[1] != it[2]), (commands, outputs, found))
            raise CheckFailed(f"the guide's example {wrong[0]}: {wrong[2]!r}, and not {wrong[1]!r}")
        count += len(commands)
    return count


def main():
    with tempfile.TemporaryDirectory() as folder, ThreadPoolExecutor(os.cpu_count()) as pool:
        # The user `nobody` runs the program on files below.
        os.chmod(folder, 0o755)
        shim = build_shim(folder)
        # First, and alone: a process that another thread starts can hold the end of a pipe that is closed here.
        runs = check_streams() + check_usage()
        for name in ["files", "in_place", "inverse", "drawings", "changes", "commented", "layouts", "long", "merges", "guide", "completions", "missing", "statuses"]:
            os.mkdir(f"{folder}/{name}")
        runs += check_completions(f"{folder}/completions")
        runs += check_statuses(f"{folder}/statuses", shim) + check_help_examples(f"{folder}/statuses")
        runs += check_missing_value(f"{folder}/missing")
        runs += check_files(f"{folder}/files") + check_in_place(f"{folder}/in_place") + check_lines()
        runs += check_inverse(f"{folder}/inverse", shim) + check_relayout(f"{folder}/layouts", shim)
        runs += check_merges(f"{folder}/merges", shim)
        runs += check_patched(f"{folder}/inverse") + check_drawings(f"{folder}/drawings") + check_changes(f"{folder}/changes")
        runs += check_commented(f"{folder}/commented")
        runs += check_long(f"{folder}/long", shim)
        runs += check_round_trips() + check_raw_values() + check_located(pool)
        all_cases = list(cases())
        for case, given in zip(all_cases, pool.map(lambda case: run(case.words, case.input), all_cases)):
            check_result(case, given)
        requests = sum(pool.map(lambda case: check_memory(case, shim), all_cases))
        check_documents()
        count = check_examples(f"{folder}/guide")
    runs += len(all_cases)
    print(f"cli: {runs} runs, {requests} memory requests made to fail, {count} commands of the guide")


if __name__ == "__main__":
    try:
        main()
    except CheckFailed as error:
        sys.exit(f"cli: {error}")
