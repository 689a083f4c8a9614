#!/usr/bin/env python3
"""Runs the steps of the merge gate one after another, and ends with what they cost: tools/timed.py COMMAND..

Each COMMAND is one word of the shell, as './test' or 'rt ci'. The first that fails ends the run with its status. At the end
each step has a line with its processor seconds and minutes, and the ten crates that the prover worked longest on have a
line each. These are read from Linux' /proc once a second, so other provers of the machine count too. The time of a Python
loop tells how fast the machine is.
"""
import collections
import os
import re
import resource
import shlex
import subprocess
import sys
import threading
import time

TICKS = os.sysconf("SC_CLK_TCK")
# A proof of this repository needs at most so much memory, in kB.
GREATEST_PROOF = 5_000_000


def spent():
    """Returns the processor seconds, user and system, of all commands that have ended."""
    used = resource.getrusage(resource.RUSAGE_CHILDREN)
    return used.ru_utime + used.ru_stime


def available():
    """Returns the available memory in kB."""
    with open("/proc/meminfo", encoding="ascii") as file:
        return int(re.search(r"MemAvailable:\s+(\d+)", file.read())[1])


def jobs():
    """Returns how many proofs can run side by side: one a processor, as many as the memory holds."""
    return max(1, min(len(os.sched_getaffinity(0)), available() // GREATEST_PROOF))


# Five million turns, with global variables.
LOOP = "x = 0\nfor i in range(5_000_000):\n    x += i * i\n"


def loop_seconds():
    """Returns the time of a Python loop, by which machines are compared."""
    start = time.monotonic()
    exec(LOOP, {})
    return time.monotonic() - start


def crate_of(words):
    """Returns the crate that a prover's command line works on, or `None` if it is another process."""
    if not words or os.path.basename(words[0]) != "rattle" or "--crate-name" not in words or "--start" in words:
        return None
    return words[words.index("--crate-name") + 1]


def processor_seconds(process):
    """Returns the processor seconds of a process and of its ended children."""
    with open(f"/proc/{process}/stat", encoding="utf-8") as file:
        fields = file.read().rpartition(") ")[2].split()
    return sum(map(int, fields[11:15])) / TICKS


class Watch(threading.Thread):
    """Reads once a second what each prover has used, and how much memory is left."""

    def __init__(self):
        super().__init__(daemon=True)
        self.seconds, self.least, self.is_over = {}, available(), threading.Event()

    def run(self):
        while not self.is_over.wait(1):
            self.least = min(self.least, available())
            for process in filter(str.isdigit, os.listdir("/proc")):
                try:
                    self.read(process)
                except (OSError, ValueError, IndexError):
                    pass  # The process has ended.

    def read(self, process):
        """Notes the time of a process if it is a prover."""
        with open(f"/proc/{process}/cmdline", encoding="utf-8", errors="replace") as file:
            crate = crate_of(file.read().split("\0"))
        if crate:
            self.seconds[process, crate] = processor_seconds(process)

    def slowest(self):
        """Returns the ten crates with the most processor seconds, the greatest first."""
        sums = collections.Counter()
        for (_, crate), seconds in self.seconds.items():
            sums[crate] += seconds
        return sums.most_common(10)


def main(commands):
    before, watch, rows = loop_seconds(), Watch(), []
    environment = {**os.environ, "RT_JOBS": os.environ.get("RT_JOBS") or str(jobs())}
    watch.start()
    status = 0
    for command in commands:
        used, start = spent(), time.monotonic()
        status = subprocess.run(shlex.split(command), env=environment, check=False).returncode
        rows.append((command, spent() - used, (time.monotonic() - start) / 60))
        if status:
            break
    watch.is_over.set()
    print("\nProcessor seconds and minutes of each step:")
    rows.append(("all", sum(row[1] for row in rows), sum(row[2] for row in rows)))
    for command, seconds, minutes in rows:
        print(f"  {seconds:8.0f} s {minutes:6.1f} min  {command}")
    print("Processor seconds of the prover, the ten greatest:")
    for crate, seconds in watch.slowest():
        print(f"  {seconds:8.0f} s  {crate}")
    print(f"{len(os.sched_getaffinity(0))} processors, {environment['RT_JOBS']} jobs, least memory available {watch.least / 1e6:.1f} GB,")
    print(f"five million turns of a Python loop: {before:.2f} s before, {loop_seconds():.2f} s after", flush=True)
    return status


if __name__ == "__main__":
    sys.exit(main(sys.argv[1:]))
