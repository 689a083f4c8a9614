"""Runs very long inputs, each once, on a small stack and within a time limit that only linear work meets."""
import json
import os
import subprocess
import sys
import tempfile
from concurrent.futures import ThreadPoolExecutor

from call_cases import KINDS, PARSE_MALFORMED, RESOLVE_BAD_INDEX, RESOLVE_NOT_FOUND, RESOLVE_OUT_OF_BOUNDS
from call_cases import Case, allocates, edit, no_alloc, session
from harness import CheckFailed, build_shim, line_of, parts_of, program, run_with_shim

PROGRAM = program("jsonptr_tool_calls")
STACK_KIBIBYTES = 256
SECONDS = 20
COUNT = 1_000_000
REFUSED = [10, 500_000, 1_000_000]
PATCH_TEST_FAILED = "patch failed at operation {}: test failed"
ROUNDS = 12_500
MEMBERS = 2_500
TOKENS = "/a" * COUNT
PLAIN = "a" * (16 << 20)
ESCAPED = "~1" * (8 << 20)


def read(text, first, last, count):
    """Cases that parse a pointer, count its tokens, and split it."""
    back, rest = text[: -len(last) - 1], text[len(first) + 1 :]
    yield no_alloc("text", "Pointer::parse", text, answer=text)
    yield no_alloc("text kept", "PointerBuf::parse", text, answer=text)
    yield allocates("text kept", "TabledPointer::parse", text, answer=text)
    yield no_alloc("text", "Pointer::parse", text + "~", answer=PARSE_MALFORMED.format(len(back)))
    yield no_alloc("pointer", "count", text, answer=count)
    yield no_alloc("pointer", "tokens", text, answer=last)
    yield no_alloc("pointer", "components", text, answer=last)
    yield no_alloc("pointer", "split_front", text, answer=f"{first} and {rest}")
    yield no_alloc("pointer", "split_back", text, answer=f"{back} and {last}")
    yield allocates("pointer", "PointerBuf::from_tokens", text, answer=text)
    for group in ["range", "tabled"]:
        yield no_alloc(group, "at", text, count - 1, 0, answer=last)
        yield no_alloc(group, "range", text, 0, count, answer=text)
        yield no_alloc(group, "to inclusive", text, count, 0, answer="none")
    yield no_alloc("pointers", "intersection", text, text + "/b", answer=text)
    yield no_alloc("show", "token", first, answer=first.replace("~1", "/"))


def edited(text, first, last):
    """Cases that push, pop and replace tokens, on plain and on tabled pointers."""
    for kind in KINDS:
        yield edit(kind, "push_front", text, "x/", after=f"/x~1{text}")
        yield edit(kind, "push_back", text, "x/", after=f"{text}/x~1")
        yield edit(kind, "pop_front", text, answer=first, after=text[len(first) + 1 :])
        yield edit(kind, "pop_back", text, answer=last, after=text[: -len(last) - 1])
        yield edit(kind, "replace", text, "b", 0, answer=first, after="/b" + text[len(first) + 1 :])
        yield edit(kind, "append", text, text, after=text + text)


def deep(kind, pointer, offset):
    """A case that expands a scalar along a pointer, then finds, replaces and removes the value there."""
    is_index = pointer.endswith("/0")
    fault = (RESOLVE_OUT_OF_BOUNDS if is_index else RESOLVE_NOT_FOUND).format(offset)
    lines = ("deep", kind, pointer, "assign", "resolve", "write", "delete", "resolve")
    return Case(lines, f"0\n1\n1\n1\n{fault}\n")


def followed():
    """Cases that evaluate a pointer in a document."""
    for kind in ["json", "toml"]:
        for token in ["x", "0", "~1"]:
            pointer = f"/{token}" * COUNT
            yield deep(kind, pointer, len(pointer) - len(token) - 1)
    yield Case(("document", "json", "[[0]]", "resolve", "/0" + TOKENS), RESOLVE_BAD_INDEX.format(2) + "\n", "[[0]]\n")


def called():
    """A session that repeatedly appends two numbers to an array, and removes the first."""
    steps = []
    for i in range(ROUNDS):
        steps += [("push_back -", "done"), (f"assign {2 * i}", "assigned"), (f"assign {2 * i + 1}", "assigned")]
        steps += [("replace 0 0", "token -"), ("delete", f"deleted {i}"), ("resolve", f"value {i + 1}")]
        steps += [("pop_front", "token 0"), ("clear", "done")]
    left = ",".join(map(str, range(ROUNDS, 2 * ROUNDS)))
    yield from session("json", "[]", "", steps, f" [{left}]")


def run(*words, result):
    """A run of the program `jsonptr_run`: its words and its input, and the line that it prints, or its error."""
    return Case(("program", *words), result + "\n", "")


def programs():
    """Runs of the program that nest a document as deep as their pointers lead."""
    for token, begin, end in [("/x", '{"x":', "}"), ("/0", "[", "]"), ("/-", "[", "]")]:
        yield run("assign", token * COUNT, "1", "null", result=begin * COUNT + "1" + end * COUNT)
    patch, depth, line = ["patch"], 64, "[" * 64 + "1" + "]" * 64
    start = line
    while depth < COUNT:
        patch += ["copy", "", "/0" * depth]
        depth, line = 2 * depth, "[" * depth + line + "," + line[depth:]
    deepest, count = "/0" * (depth - 1), len(patch) // 3
    yield run(*patch, start, result=line)
    yield run(*patch, "test", deepest, "[1]", start, result=line)
    yield run(*patch, "test", deepest, "[2]", start, result=PATCH_TEST_FAILED.format(count))
    yield run(*patch, "remove", deepest, start, result=line.replace("[1]", "", 1))
    yield run(*patch, "move", "/0", "", start, result=line[1:-1])
    yield run(*patch, "remove", "", start, result="null")
    yield run(*patch, "replace", "", "2", start, result="2")


def waiting():
    """Patches that remove or move more members of one object than may wait until their last operation."""
    names = [f"k{number:04}" for number in range(MEMBERS)]
    document = json.dumps({**{name: 1 for name in names}, "last": 2}, separators=(",", ":"))
    removals = [word for name in names for word in ("remove", f"/{name}")]
    moves = [word for name in names for word in ("move", f"/{name}", f"/{name}x")]
    for operations, result in [(removals, '{"last":2}'), (moves, document.replace('":1', 'x":1'))]:
        yield run("patch", *operations, document, result=sorted_members(result))
        yield run("patch", *operations, "test", "/last", "3", document, result=PATCH_TEST_FAILED.format(MEMBERS))


def sorted_members(text):
    """Returns the JSON text of an object with its keys in order."""
    return json.dumps(json.loads(text), sort_keys=True, separators=(",", ":"))


def tables():
    """The cases, one table at a time, since they are large."""
    yield list(programs())
    yield list(waiting())
    for text, first, last, count in [
        (TOKENS, "a", "a", COUNT),
        ("/" + PLAIN, PLAIN, PLAIN, 1),
        ("/" + ESCAPED, ESCAPED, ESCAPED, 1),
    ]:
        yield list(read(text, first, last, count))
        yield list(edited(text, first, last))
    yield list(followed())
    yield list(called())


def check(case):
    """Runs a case, and returns an error message or None."""
    script = ["sh", "-c", f'ulimit -s {STACK_KIBIBYTES}; exec "$0"', PROGRAM]
    try:
        completed = subprocess.run(script, input=line_of("case", *case.lines).encode(), capture_output=True, timeout=SECONDS)
        _, answer, after = parts_of(completed)
    except (CheckFailed, subprocess.TimeoutExpired) as error:
        return f"long: {[line[:60] for line in case.lines]}: {error}"
    if (answer, after) != (case.answer, case.after):
        return f"long: {[line[:60] for line in case.lines]}: result {answer[:200]!r} and state {after[:200]!r}"
    return None


def check_refused(shim, number):
    """Runs the program on long pointers with this memory request refused, and returns an error message or None."""
    script = ["sh", "-c", f'ulimit -s {STACK_KIBIBYTES}; exec "$0"', PROGRAM]
    for token in ["/a", "/0"]:
        line = line_of("case", "program", "assign", token * COUNT, "1", "null")
        try:
            completed, requests, _ = run_with_shim(script, line, shim, number)
        except CheckFailed as error:
            return f"long: {token}, request {number}: {error}"
        if completed.returncode or not completed.stdout.endswith(b"\nout of memory\n") or requests < number:
            return f"long: {token}, request {number} of {requests}: {completed.returncode}, {completed.stdout[-60:]!r}"
    return None


def main():
    count, errors = 0, []
    with ThreadPoolExecutor(os.cpu_count()) as pool:
        for table in tables():
            count += len(table)
            errors += [error for error in pool.map(check, table) if error]
        with tempfile.TemporaryDirectory() as folder:
            shim = build_shim(folder)
            errors += [error for error in pool.map(lambda number: check_refused(shim, number), REFUSED) if error]
    if errors:
        sys.exit("\n".join(errors[:20]))
    print(f"long: {count} cases, and {2 * len(REFUSED)} runs with a memory request refused, each on a stack of {STACK_KIBIBYTES} KiB")


if __name__ == "__main__":
    main()
