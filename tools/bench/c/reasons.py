#!/usr/bin/env python3
"""Prints where the time goes in the rows of speed.py in which the library for C may take longer than another one.

    tools/bench/c/reasons.py FOLDER

FOLDER is one that tools/c/build made. In C, `perf` samples times.c in one case, less the samples of reading the documents
before; a part is a group of functions, without what they call. In Python the parts are timed by themselves. Needs what
speed.py needs, and `perf` (Debian: linux-perf). Prints tables in Markdown.
"""
import argparse
import collections
import ctypes
import json
import os
import re
import resource
import subprocess
import sys
import tempfile
import time

from speed import compile_c, document, least, shown

# The cases in C: how many rounds of times.c are sampled, and the parts. The first part that matches a function has it.
MEMORY = ("`malloc` and `free`", r"malloc|free|realloc|calloc|rattle_alloc|_int_|unlink_chunk|sbrk|brk|trim")
KERNEL = ("pages from the system", r"^\[k\]")
READING = ("reading the text, in the kit's `serde_json` and `json`",
           r"serde_json::|json::|fast_float|utf8|btree|read::read|insert_reserved|memmove|memcpy")
DROPPING = ("dropping the values", r"drop|destroy|Destruct")
PATCHING = [KERNEL, MEMORY, ("clearing the reader's index, at each text", r"memset"), DROPPING,
            ("the operations: members, pointers, copies of values",
             r"jsonptr_patch_document|value::Value::get|Index|jsonptr_syntax|memchr|memrchr|serde_json::clone|bcmp|memcmp|strlen"),
            ("applying them, and the journal", r"jsonptr_walk|jsonptr_patch_journal|jsonptr_patch|jsonptr_document|jsonptr_base|jsonptr::"),
            ("the call: handle, depth, record", r"jsonptr_c_calls|jsonptrcore|jsonptr_document_patch"), READING]
ROWS = [
    ("find a member", 1500, [KERNEL, MEMORY,
                             ("testing that the pointer is UTF-8 and a JSON Pointer", r"jsonptr_syntax|memchr|utf8|pointers::parse"),
                             ("decoding its tokens and finding the members", r"jsonptr::|jsonptr_base|jsonptr_walk|jsonptr_document::|"
                              r"BTreeMap|btree|serde_json|memcmp|bcmp|memmove|memcpy"),
                             ("the call: handle, record, type of the value", r"jsonptr_c_calls|jsonptrcore|"
                              r"jsonptr_document_node|ours_node|strlen|memset")]),
    ("read, find and print", 60, [KERNEL, MEMORY, DROPPING,
                                  ("putting members into sorted maps", r"BTreeMap|btree"), READING]),
    ("a patch of 1 operation", 15000, PATCHING),
    ("a patch of 10 operations", 6000, PATCHING),
]


def samples(program, file, rounds, case, work):
    """Returns how many samples perf finds in each function."""
    data = os.path.join(work, "perf.data")
    subprocess.run(["perf", "record", "-q", "-e", "cpu-clock", "-F", "4000", "-o", data, program, file, str(rounds), case,
                    "jsonptr"], check=True, stdout=subprocess.DEVNULL, stderr=subprocess.DEVNULL)
    report = subprocess.run(["perf", "report", "-q", "-i", data, "--no-children", "--stdio", "-F", "sample,symbol"],
                            check=True, capture_output=True, encoding="utf-8")
    found = collections.Counter()
    for line in report.stdout.splitlines():
        match = re.match(r"\s*(\d+)\s+(\[.\] .*)", line)
        if match:
            name = match[2].strip()
            found[name if name.startswith("[k]") else name[4:]] += int(match[1])
    return found


def parts_in_c(built, text, is_verbose):
    """Prints the parts of each case in C."""
    with tempfile.TemporaryDirectory() as work:
        program, file = compile_c(built, text, work)
        for case, rounds, parts in ROWS:
            counted = samples(program, file, rounds, case, work)
            counted.subtract(samples(program, file, 0, case, work))
            shares = collections.Counter()
            for name, count in counted.items():
                if count > 0:
                    title = next((title for title, pattern in parts if re.search(pattern, name)), "the rest")
                    shares[title] += count
                    if is_verbose and count > 0.005 * sum(counted.values()):
                        print(f"    {count:6} {title}: {name}", file=sys.stderr)
            print(f"\n| {case}, in C | part |\n|---|---|")
            for title, count in shares.most_common():
                print(f"| {title} | {100 * count / sum(shares.values()):.0f} % |")


def timed(call, repeats=15):
    """Returns the least time of a call in nanoseconds, and the least part of it that the system takes."""
    best, system = float("inf"), float("inf")
    for _ in range(repeats):
        before, start = resource.getrusage(resource.RUSAGE_SELF).ru_stime, time.process_time_ns()
        call()
        best = min(best, time.process_time_ns() - start)
        system = min(system, (resource.getrusage(resource.RUSAGE_SELF).ru_stime - before) * 1e9)
    return best, system


def parts_in_python(built, text):
    """Prints the parts of reading and resolving in Python."""
    os.environ["JSONPTR_LIBRARY"] = f"{built}/lib/libjsonptr.so"
    sys.path.insert(0, f"{built}/python")
    import jsonptr

    deep, read = "/items/9999/deep/y/2", jsonptr.Document(text)
    bytes_of, handle, error = text.encode(), jsonptr._Handle(), jsonptr._Error()
    at, size, at_error = ctypes.byref(handle), ctypes.c_size_t(len(bytes_of)), ctypes.byref(error)

    def parse_and_free():
        jsonptr._parse(at, bytes_of, size, jsonptr._ANY_NUMBERS, at_error)
        jsonptr._free(at)

    rows = [
        ("the whole: `Document(text).resolve(pointer)`", lambda: jsonptr.Document(text).resolve(deep)),
        ("the text as UTF-8", text.encode),
        ("`jsonptr_document_parse` and `jsonptr_document_free`", parse_and_free),
        ("`resolve` in a document that is read", lambda: read.resolve(deep)),
        ("beside it: `json.loads(text)`, and freeing its values", lambda: json.loads(text)),
    ]
    print("\n| read and resolve, in Python | time | of it in the system |\n|---|---|---|")
    for name, call in rows:
        best, system = timed(call)
        print(f"| {name} | {shown(best)} | {shown(system) if system >= 1000 else '0'} |")


def parts_of_a_call(built, text):
    """Prints the parts of resolving a member in Python. `parts_in_python` has imported the module."""
    import jsonptr

    read, pointer = jsonptr.Document(text), b"/size/a~1b"
    buffer, size = read._buffer, ctypes.c_size_t(len(pointer))
    declared = ctypes.CDLL(f"{built}/lib/libjsonptr.so").jsonptr_document_get
    declared.argtypes = [ctypes.POINTER(jsonptr._Handle), ctypes.c_char_p, ctypes.c_size_t, ctypes.c_uint32, ctypes.c_void_p,
                         ctypes.c_size_t, ctypes.POINTER(ctypes.c_size_t), ctypes.POINTER(jsonptr._Error)]
    declared.restype, address = ctypes.c_uint32, ctypes.addressof(buffer.bytes)

    def locked():
        with read._lock:
            pass

    rows = [
        ("the whole: `document.resolve(pointer)`", lambda: read.resolve("/size/a~1b")),
        ("the call of the library", lambda: jsonptr._get(read._at, pointer, size, jsonptr._COMPACT, buffer.at_bytes,
                                                         buffer.size, buffer.at_length, buffer.at_error)),
        ("the lock", locked),
        ("copying the text of the value out of the buffer", lambda: buffer.bytes[:buffer.length.value]),
        ("its value", lambda: jsonptr._scan(b"3".decode(), 0)[0]),
        ("beside it: the call, if `ctypes` converts to declared types", lambda: declared(
            read._at, pointer, len(pointer), 0, address, len(buffer.bytes), buffer.at_length, buffer.at_error)),
    ]
    print("\n| resolve a member, in Python | time |\n|---|---|")
    for name, call in rows:
        print(f"| {name} | {shown(least(call, 2000, 25))} |")


def main():
    parser = argparse.ArgumentParser(description=__doc__, formatter_class=argparse.RawDescriptionHelpFormatter)
    parser.add_argument("folder")
    parser.add_argument("--verbose", action="store_true", help="also show to which part each function belongs")
    arguments = parser.parse_args()
    built, text = os.path.abspath(arguments.folder), json.dumps(document(), separators=(",", ":"))
    parts_in_c(built, text, arguments.verbose)
    parts_in_python(built, text)
    parts_of_a_call(built, text)


if __name__ == "__main__":
    main()
