#!/usr/bin/env python3
"""Checks `tools/release` itself: tools/check_release.py RELEASE LIBRARY

RELEASE is a release of this tree that it made for a trial, with the library in LIBRARY. Made again it has the same bytes; the
check passes over it, and notices each change; and the output of a gate that did not pass on these sources makes no release.
"""
import glob
import hashlib
import os
import shutil
import subprocess
import sys
import tempfile

TOOLS = os.path.dirname(os.path.abspath(__file__))
PASSED = "701 passed, 0 failed\n612 passed, 0 failed\n"
OTHERS = f"release: sources {'0' * 64}, not compared\n"
# Outputs of gates, and what is said of them.
LOGS = [
    ("701 passed, 0 failed\n611 passed, 1 failed\n" + OTHERS, "not the output of a gate that passed"),
    ("701 passed, 0 failed\n" + OTHERS, "not the output of a gate that passed"),
    (PASSED, "of other sources, or its runtime checks did not pass"),
    (PASSED + OTHERS, "of other sources, or its runtime checks did not pass"),
]


def release(*words, status=0):
    """Runs `tools/release`, and returns what it prints. Fails if its status is another one."""
    run = subprocess.run([f"{TOOLS}/release", *words], capture_output=True, encoding="utf-8")
    if run.returncode != status:
        sys.exit(f"check_release: release {words} ended with status {run.returncode}:\n{run.stdout}{run.stderr}")
    return run.stdout + run.stderr


def expect(holds, what):
    """Fails if something does not hold."""
    if not holds:
        sys.exit(f"check_release: {what}")


def read(path):
    """Returns the bytes of a file."""
    with open(path, "rb") as file:
        return file.read()


def write(path, data):
    """Writes the bytes of a file."""
    with open(path, "wb") as file:
        file.write(data)


def with_sums(folder):
    """Writes the sums of the files of a release anew."""
    names = sorted(name for name in os.listdir(folder) if name != "SHA256SUMS")
    lines = [f"{hashlib.sha256(read(f'{folder}/{name}')).hexdigest()}  {name}\n" for name in names]
    write(f"{folder}/SHA256SUMS", "".join(lines).encode())


def changed_wheel(folder):
    """Changes a byte of the module in the wheel."""
    path = glob.glob(f"{folder}/*.whl")[0]
    write(path, read(path).replace(b"JSON", b"Json", 1))


def other_sources(folder):
    """Changes the page as if the release was built from other sources."""
    page = read(f"{folder}/README.md")
    at = page.index(b"| sources | `") + len(b"| sources | `")
    write(f"{folder}/README.md", page[:at] + b"0" * 64 + page[at + 64 :])


def another_file(folder):
    """Adds a file that no sum is for."""
    write(f"{folder}/other", b"")


# What is changed, whether it gets new sums, the status of the check, and what it says.
CHANGES = [
    (changed_wheel, False, 1, "is not what its SHA256SUMS lists"),
    (changed_wheel, True, 1, ".whl is not what was built here"),
    (another_file, False, 1, "is not what its SHA256SUMS lists"),
    (other_sources, True, 0, "not compared: sources of"),
]


def check_changes(made, library):
    """Checks a copy of a release after each of the changes. Returns their number."""
    for change, has_sums, status, says in CHANGES:
        with tempfile.TemporaryDirectory() as folder:
            copy = shutil.copytree(made, f"{folder}/release")
            change(copy)
            if has_sums:
                with_sums(copy)
            said = release("--library", library, "--check", copy, status=status)
            expect(says in said, f"{change.__name__}: the check says {said!r}")
    return len(CHANGES)


def check_logs(library):
    """Checks that outputs of gates that did not pass on these sources make no release. Returns their number."""
    with tempfile.TemporaryDirectory() as folder:
        for log, says in LOGS:
            write(f"{folder}/log", log.encode())
            said = release("--library", library, f"{folder}/made", f"{folder}/log", status=1)
            expect(says in said and not os.path.exists(f"{folder}/made"), f"of the output {log!r} it says {said!r}")
    return len(LOGS)


def main():
    made, library = map(os.path.abspath, sys.argv[1:])
    with tempfile.TemporaryDirectory() as folder:
        release("--library", library, f"{folder}/again")
        expect(read(f"{made}/SHA256SUMS") == read(f"{folder}/again/SHA256SUMS"), "made again, the release has other bytes")
    said = release("--library", library, "--check", made)
    expect("each byte is that of" in said, f"the check says {said!r}")
    changes, logs = check_changes(made, library), check_logs(library)
    print(f"check_release: made again with the same bytes; {changes} changes noticed, {logs} outputs of gates rejected")


if __name__ == "__main__":
    main()
