"""Runs each case of call_cases.py once with enough memory, and once for each memory request with that request failing.

With a failing request the run returns the usual result, or the error of a failed allocation with its arguments unchanged. The same holds
with all requests failing. A case with `no_alloc` makes no request. No request is greater than in proportion to the case. Every run frees
what it allocated.
"""
import os
import subprocess
import sys
import tempfile
from concurrent.futures import ThreadPoolExecutor
from typing import NamedTuple

from call_cases import CASES
from harness import CheckFailed, build_shim, line_of, parts_of, program, run_with_shim

PROGRAM = program("jsonptr_tool_calls")
OUT_OF_MEMORY = ("out of memory\n", "memory allocation failed\n")


class Run(NamedTuple):
    """What a run wrote, how many memory requests its call made, and the size of the greatest one."""

    before: str
    answer: str
    after: str
    requests: int
    greatest: int


def run(lines, shim, fail):
    """Runs a case with the numbered request failing, or all of them, or none."""
    completed, requests, greatest = run_with_shim([PROGRAM], line_of("case", *lines), shim, fail)
    return Run(*parts_of(completed), requests, greatest)


# An edit in a text prints its value over lines too, and indents up to 127 levels by two spaces more each.
GREATEST_OVER_LINES = 65_536


def greatest_for(case):
    """Returns the size in bytes that a request of a case may have: in proportion to its lines and its texts."""
    texts = (*case.lines, case.answer, case.after)
    greatest = 2048 + 160 * len(case.lines) + 20 * sum(len(text.encode()) for text in texts)
    return max(greatest, GREATEST_OVER_LINES) if case.lines[0] in ("assign in text", "assign in text with", "apply in text") else greatest


def described(result):
    """Returns the result and the state of a run or of a case, for a message."""
    return f"result {result.answer[:200]!r} and state {result.after[:200]!r}"


def without_call(case, position):
    """Returns the lines of a session with the call at this position left out."""
    start = len(case.lines) - len(case.calls)
    return case.lines[: start + position] + case.lines[start + position + 1 :]


def with_call_left_out(case, result, shim):
    """Returns what a session writes when the one call that ran out of memory is left out."""
    replies = result.answer.splitlines(keepends=True)
    if replies.count("memory\n") != 1:
        raise CheckFailed(f"replies {result.answer}")
    position = replies.index("memory\n")
    fewer = run(without_call(case, position), shim, 0)
    replies = fewer.answer.splitlines(keepends=True)
    return "".join([*replies[:position], "memory\n", *replies[position:]]), fewer.after


def check_failing(case, usual, shim, fail):
    """Runs a case with a failing request, and checks that nothing but the error of a failed allocation came of it."""
    result = run(case.lines, shim, fail)
    found = (result.answer, result.after)
    allowed = [(text, usual.before) for text in OUT_OF_MEMORY]
    # A session first allocates the list of its replies. Without that list it makes no call.
    if not case.calls or fail != 1:
        allowed.append((usual.answer, usual.after))
        if case.calls and found not in allowed:
            allowed.append(with_call_left_out(case, result, shim))
    if found not in allowed:
        raise CheckFailed(f"{described(result)}, from {usual.before[:200]!r}")


def check(case, shim):
    """Makes all runs of a case. Returns how many requests were made to fail, and an error message or None."""
    fail = 0
    try:
        usual = run(case.lines, shim, fail)
        if (usual.answer, usual.after) != (case.answer, case.after):
            raise CheckFailed(f"{described(usual)}, expected {described(case)}")
        if case.no_alloc and usual.requests:
            raise CheckFailed(f"{usual.requests} memory requests, expected none")
        if case.most is not None and usual.requests > case.most:
            raise CheckFailed(f"{usual.requests} memory requests, expected at most {case.most}")
        if usual.greatest > greatest_for(case):
            raise CheckFailed(f"a request of {usual.greatest} bytes, expected at most {greatest_for(case)}")
        for fail in [*range(1, usual.requests + 1), "all"]:
            check_failing(case, usual, shim, fail)
    except (CheckFailed, subprocess.TimeoutExpired) as error:
        return 0, f"{[line[:60] for line in case.lines]}, with request {fail} failing: {error}"
    return usual.requests, None


def main():
    with tempfile.TemporaryDirectory() as folder, ThreadPoolExecutor(os.cpu_count()) as pool:
        shim = build_shim(folder)
        checked = list(pool.map(lambda case: check(case, shim), CASES))
    errors = [f"memory: {error}" for _, error in checked if error]
    if errors:
        sys.exit("\n".join(errors[:20]))
    failed = sum(requests for requests, _ in checked)
    if not failed:
        sys.exit("memory: no request was seen")
    print(f"memory: {len(CASES)} cases, {failed} memory requests made to fail, {failed + 2 * len(CASES)} runs")


if __name__ == "__main__":
    main()
