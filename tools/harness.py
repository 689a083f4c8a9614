"""Runs a built program with a shim that counts its memory requests and can make them fail.

The shim is failing_malloc.c, which needs the C library of Linux (glibc) and a C compiler, `cc`.
"""
import os
import re
import subprocess
import sys

TOOLS = os.path.dirname(os.path.abspath(__file__))
TOP = os.path.dirname(TOOLS)
SECONDS = 20


class CheckFailed(Exception):
    """A run whose result is not the expected one."""


def program(name):
    """Returns the path of a program that `rt ci`, or `rt run` in its crate, built."""
    path = f"{TOP}/crates/{name}/out/{name}"
    if not os.path.exists(path):
        sys.exit(f"{name} is not built: (cd crates/{name} && rt run < stdin)")
    return path


def line_of(*words):
    """Returns the line of words that `jsonptr_tool_calls` reads."""
    escapes = str.maketrans({"\\": "\\\\", "\t": "\\t", "\n": "\\n", "\r": "\\r"})
    return "\t".join(word.translate(escapes) for word in words) + "\n"


def fields_of(line):
    """Returns the fields of a line that `jsonptr_tool_calls` writes, without escapes."""
    named = (field.partition("=") for field in line.split("\t"))
    letters = {"t": "\t", "n": "\n", "r": "\r"}
    return {name: re.sub(r"\\(.)", lambda it: letters.get(it[1], it[1]), text) for name, _, text in named}


def build_shim(folder):
    """Compiles the shim into a folder, and returns its path."""
    shim = f"{folder}/failing_malloc.so"
    subprocess.run(["cc", "-O2", "-shared", "-fPIC", "-o", shim, f"{TOOLS}/failing_malloc.c"], check=True)
    return shim


def run_with_shim(words, text, shim, fail, count="", may_keep=False):
    """Runs a program with one memory request failing, all of them ("all"), or none (0).

    Returns the completed process, the number of requests, and the size of the greatest one in bytes. Requests are counted
    between the marks that the program writes, or in the whole run where `count` is "run". Fails if a block was not freed,
    unless the program `may_keep` blocks to its end.
    """
    reading, writing = os.pipe()
    environment = {"LD_PRELOAD": shim, "FAIL_REQUEST": str(fail), "COUNT": count, "REPORT_TO": str(writing)}
    options = {"capture_output": True, "env": environment, "pass_fds": [writing], "timeout": SECONDS}
    try:
        completed = subprocess.run(words, input=text.encode(), **options)
    finally:
        os.close(writing)
    with os.fdopen(reading, "rb") as report:
        numbers = report.read().split()
    if len(numbers) != 4:
        raise CheckFailed(f"ended with status {completed.returncode}: {completed.stderr.decode()[-300:]}")
    requests, allocated, freed, greatest = map(int, numbers)
    if allocated < freed or (allocated > freed and not may_keep):
        raise CheckFailed(f"allocated {allocated} blocks and freed {freed}")
    return completed, requests, greatest


def parts_of(completed):
    """Returns what `jsonptr_tool_calls` wrote before its call, as the result, and as the state after it."""
    if completed.returncode or completed.stderr:
        raise CheckFailed(f"status {completed.returncode}: {completed.stderr.decode()[-300:]}")
    before, *calls = completed.stdout.decode().split("-- call\n")
    if not calls or any("-- answer\n" not in it for it in calls):
        raise CheckFailed("no call was made")
    results, _, after = "".join(calls).replace("-- answer\n", "").partition("-- state\n")
    return before, results, after
