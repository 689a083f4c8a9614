#!/usr/bin/env python3
"""Times the program at great depths: tools/bench/depth.py [ROUNDS]

Runs `assign POINTER 1` on `null` with pointers of 10,000, 100,000 and 1,000,000 tokens, on a stack of 256 KiB, and prints
rows in Markdown: the least processor time of some rounds, and the peak memory. A word of a process cannot be so
long, so jsonptr_tool_calls passes the words to `run_program`. Build it first: (cd crates/jsonptr_tool_calls && rt run < stdin)
"""
import os
import subprocess
import sys
import tempfile

sys.path.insert(0, os.path.dirname(os.path.dirname(os.path.abspath(__file__))))
from harness import line_of, program  # noqa: E402

COUNTS = [10_000, 100_000, 1_000_000]
STACK_KIBIBYTES = 256
NESTED = {"/0": ("[", "]"), "/a": ('{"a":', "}")}


def run(token, count):
    """Returns the processor seconds of a run, and its peak memory in bytes."""
    begin, end = NESTED[token]
    with tempfile.TemporaryFile() as words, tempfile.TemporaryFile() as printed:
        words.write(line_of("case", "program", "assign", token * count, "1", "null").encode())
        words.seek(0)
        script = f'ulimit -s {STACK_KIBIBYTES}; exec "$0"'
        process = subprocess.Popen(["sh", "-c", script, program("jsonptr_tool_calls")], stdin=words, stdout=printed)
        _, status, used = os.wait4(process.pid, 0)
        printed.seek(0)
        if status or begin * count + "1" + end * count not in printed.read().decode():
            sys.exit(f"depth: {count} tokens {token}: status {status}")
    return used.ru_utime + used.ru_stime, used.ru_maxrss * 1024


def main():
    rounds = int(sys.argv[1]) if len(sys.argv) > 1 else 5
    print("| Tokens | `/0`: time | memory | `/a`: time | memory |\n|---|---|---|---|---|")
    for count in COUNTS:
        cells = [f"{count:,}"]
        for token in NESTED:
            runs = [run(token, count) for _ in range(rounds)]
            seconds, peak = min(it[0] for it in runs), max(it[1] for it in runs)
            cells += [f"{seconds * 1000:.0f} ms", f"{peak / 2**20:.0f} MiB"]
        print(f"| {' | '.join(cells)} |")


if __name__ == "__main__":
    main()
