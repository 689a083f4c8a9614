"""Runs the built program as a process, and checks both outputs, the exit status and how much of the input it reads."""
import os
import subprocess
import sys
import tempfile
from concurrent.futures import ThreadPoolExecutor
from typing import NamedTuple

from call_cases import ASSIGN_BAD_INDEX, ASSIGN_OUT_OF_BOUNDS, PARSE_MALFORMED, PARSE_NO_SLASH
from call_cases import RESOLVE_BAD_INDEX, RESOLVE_NOT_FOUND, RESOLVE_OUT_OF_BOUNDS, RESOLVE_UNREACHABLE
from call_cases import SECTION_5, VECTORS
from harness import CheckFailed, build_shim, program, run_with_shim

SECONDS = 60
USAGE = (
    "usage: jsonptr_run resolve POINTER, delete POINTER, tokens POINTER, assign POINTER VALUE, split POINTER POSITION, "
    "patch OPERATIONS"
)
SPLIT_OUT_OF_BOUNDS = "split failed: position {} is above the token count {}"
DELETE_NOT_FOUND = "delete failed: json pointer does not resolve"
PATCH_FAILED = "patch failed at operation {}: {}"
MOVE_INTO_ITSELF = "from is a proper prefix of path"
TEST_FLOAT = "a float cannot be tested"
BAD_VALUE = "VALUE is not JSON"
BAD_INPUT = "input is not JSON"
OUT_OF_MEMORY = "out of memory"
READ_FAILED = "reading failed"
WRITE_FAILED = "writing failed"
TEST_FAILED = "test failed"
GREATEST = (1 << 64) - 1
MIB_64 = 64 << 20
UNREAD = "{"  # not JSON, so a run that read it would fail

READS_INPUT = [("resolve", "/a"), ("delete", "/a"), ("assign", "/a", "1"), ("patch", "add", "/a", "1")]
IGNORES_INPUT = [("tokens", "/a"), ("split", "/a", "1")]


class Case(NamedTuple):
    """Arguments and input of a run, its output, error output and exit status, and whether it reads its input.

    A run reads all of its input or nothing. One with `most` makes at most so many memory requests.
    """

    words: tuple
    input: str
    output: str
    message: str
    status: int
    is_read: bool = True
    most: int | None = None


def succeeds(*words, input, line):
    """A run that reads its input and writes one line."""
    return Case(words, input, f"{line}\n", "", 0)


def lists(*words, line):
    """A run that writes one line and does not read its input."""
    return Case(words, UNREAD, f"{line}\n", "", 0, is_read=False)


def fails_with(message, *words, input, status=1):
    """A run that reads its input and writes only an error message."""
    return Case(words, input, "", f"{message}\n", status)


def rejects(status, message, *words):
    """A run that fails because of its arguments, and does not read its input."""
    return Case(words, UNREAD, "", f"{message}\n", status, is_read=False)


def nested(depth):
    """A number nested in this many arrays."""
    return "[" * depth + "1" + "]" * depth


def resolving():
    """`resolve`."""
    for pointer, value in VECTORS:
        yield succeeds("resolve", pointer, input=SECTION_5, line=value)
    yield succeeds("resolve", "/a~1b", input='{"a/b":1}', line="1")
    yield succeeds("resolve", "/~01", input='{"~1":"é"}', line='"é"')
    yield succeeds("resolve", "/", input='{"":true}', line="true")
    yield succeeds("resolve", "/1/x", input='[1,{"x":null}]', line="null")
    yield succeeds("resolve", "", input=' [1, {"x" : null}] ', line='[1,{"x":null}]')
    yield succeeds("resolve", "/0" * 127, input=nested(127), line="1")
    yield fails_with(RESOLVE_OUT_OF_BOUNDS.format(4), "resolve", "/foo/-", input='{"foo":["bar"]}')
    yield fails_with(RESOLVE_BAD_INDEX.format(4), "resolve", "/foo/01", input='{"foo":["bar"]}')
    yield fails_with(RESOLVE_NOT_FOUND.format(2), "resolve", "/a/", input='{"a":{}}')
    yield fails_with(RESOLVE_UNREACHABLE.format(2), "resolve", "/a/b", input='{"a":1}')
    yield succeeds("resolve", "/a\n", input='{"a\\n":1,"a":2}', line="1")
    deep = '{"a":' * 11 + "{}" + "}" * 11
    yield fails_with(RESOLVE_NOT_FOUND.format(22), "resolve", "/a" * 12, input=deep)


def listing():
    """`tokens` and `split`."""
    yield lists("tokens", "/a~1b/", line='["a/b",""]')
    yield lists("tokens", "", line="[]")
    yield lists("tokens", '/~01/é"', line='["~1","é\\""]')
    yield lists("tokens", "/0" * 100, line="[" + ",".join(['"0"'] * 100) + "]")
    yield lists("split", "/foo/bar", "1", line='["/foo","/bar"]')
    yield lists("split", "/foo/bar", "0", line='["","/foo/bar"]')
    yield lists("split", "/foo/bar", "2", line='["/foo/bar",""]')
    yield lists("split", "/a~1b", "0", line='["","/a~1b"]')
    yield lists("split", '/a~1b/é"', "1", line='["/a~1b","/é\\""]')
    yield lists("split", "", "0", line='["",""]')
    yield rejects(1, SPLIT_OUT_OF_BOUNDS.format(3, 2), "split", "/foo/bar", "3")
    yield rejects(1, SPLIT_OUT_OF_BOUNDS.format(1, 0), "split", "", "1")
    yield rejects(1, SPLIT_OUT_OF_BOUNDS.format(GREATEST, 1), "split", "/a", f"{GREATEST}")


def many_words():
    """Many arguments, and a long one."""
    yield lists("tokens", "/0" * 50_000, line="[" + ",".join(['"0"'] * 50_000) + "]")
    for count in (40, 166):
        line = "[" + ",".join(["1"] * count) + "]"
        yield succeeds("patch", *["add", "/-", "1"] * count, input="[]", line=line)


def writing():
    """`assign` and `delete`."""
    yield succeeds("assign", "/1", '"x"', input="null", line='{"1":"x"}')
    yield succeeds("assign", "/foo/-", '"baz"', input='{"foo":["bar"]}', line='{"foo":["bar","baz"]}')
    yield succeeds("assign", "/a/b", "1", input="{}", line='{"a":{"b":1}}')
    yield succeeds("assign", "/a/0/b", "1", input="{}", line='{"a":[{"b":1}]}')
    yield succeeds("assign", "/a~1b", ' { "x" : [] } ', input='{"a/b":1,"c":2}', line='{"a/b":{"x":[]},"c":2}')
    yield succeeds("assign", "/0", "null", input=" [ true ] ", line="[null]")
    yield succeeds("assign", "", "[1, 2]", input='{"a":1}', line="[1,2]")
    yield succeeds("assign", "/0" * 127, "1", input="null", line=nested(127))
    yield fails_with(ASSIGN_OUT_OF_BOUNDS.format(0), "assign", "/1", '"x"', input="[]")
    yield fails_with(ASSIGN_BAD_INDEX.format(2), "assign", "/a/b", "2", input='{"a":[1]}')
    yield succeeds("delete", "/0", input="[1,2,3]", line="[2,3]")
    yield succeeds("delete", "/foo/0", input='{"foo":["bar","baz"],"a/b":1}', line='{"a/b":1,"foo":["baz"]}')
    yield succeeds("delete", "/foo/0", input='{"foo":["bar"]}', line='{"foo":[]}')
    yield succeeds("delete", "/a/0", input='{"a":[1]}', line='{"a":[]}')
    yield succeeds("delete", "/a~1b", input='{"a/b":1, "c" : 2}', line='{"c":2}')
    yield succeeds("delete", "/", input='{"":{}}', line="{}")
    yield succeeds("delete", "", input="[1]", line="null")
    yield fails_with(DELETE_NOT_FOUND, "delete", "/x", input="{}")
    yield fails_with(DELETE_NOT_FOUND, "delete", "/b", input='{"a":[1]}')
    yield fails_with(DELETE_NOT_FOUND, "delete", "/-", input="[1]")


def examples():
    """`patch`: the examples of RFC 6902, appendix A, that arguments can express."""
    two, waldo = '{"baz":"qux","foo":"bar"}', '{"foo":{"bar":"baz","waldo":"fred"},"qux":{"corge":"grault"}}'
    tested, tildes = '{"baz":"qux","foo":["a",2,"c"]}', '{"/":9,"~1":10}'
    yield succeeds("patch", "add", "/baz", '"qux"', input='{"foo":"bar"}', line=two)
    yield succeeds("patch", "add", "/foo/1", '"qux"', input='{"foo":["bar","baz"]}', line='{"foo":["bar","qux","baz"]}')
    yield succeeds("patch", "remove", "/baz", input=two, line='{"foo":"bar"}')
    yield succeeds("patch", "remove", "/foo/1", input='{"foo":["bar","qux","baz"]}', line='{"foo":["bar","baz"]}')
    yield succeeds("patch", "replace", "/baz", '"boo"', input=two, line='{"baz":"boo","foo":"bar"}')
    moved = '{"foo":{"bar":"baz"},"qux":{"corge":"grault","thud":"fred"}}'
    yield succeeds("patch", "move", "/foo/waldo", "/qux/thud", input=waldo, line=moved)
    cows, grass = '{"foo":["all","grass","cows","eat"]}', '{"foo":["all","cows","eat","grass"]}'
    yield succeeds("patch", "move", "/foo/1", "/foo/3", input=cows, line=grass)
    yield succeeds("patch", "test", "/baz", '"qux"', "test", "/foo/1", "2", input=tested, line=tested)
    yield fails_with(PATCH_FAILED.format(0, TEST_FAILED), "patch", "test", "/baz", '"bar"', input='{"baz":"qux"}')
    child = '{"child":{"grandchild":{}},"foo":"bar"}'
    yield succeeds("patch", "add", "/child", '{"grandchild":{}}', input='{"foo":"bar"}', line=child)
    no_target = PATCH_FAILED.format(0, RESOLVE_NOT_FOUND.format(0))
    yield fails_with(no_target, "patch", "add", "/baz/bat", '"qux"', input='{"foo":"bar"}')
    yield succeeds("patch", "test", "/~01", "10", input=tildes, line=tildes)
    yield fails_with(PATCH_FAILED.format(0, TEST_FAILED), "patch", "test", "/~01", '"10"', input=tildes)
    line = '{"foo":["bar",["abc","def"]]}'
    yield succeeds("patch", "add", "/foo/-", '["abc","def"]', input='{"foo":["bar"]}', line=line)


def patching():
    """`patch`: each operation, and lists of operations."""
    yield succeeds("patch", input='{"a":[1]}', line='{"a":[1]}')
    yield succeeds("patch", input=" [ 1, 2 ] ", line="[1,2]")
    yield succeeds("patch", "add", "/a/-", " { } ", input='{"a":[1]}', line='{"a":[1,{}]}')
    yield succeeds("patch", "add", "", "[1]", input="null", line="[1]")
    yield succeeds("patch", "add", "/add", "1", input="{}", line='{"add":1}')
    yield succeeds("patch", "remove", "/a~1b", input='{"a/b":1}', line="{}")
    yield succeeds("patch", "replace", "/a", '"x"', input='{"a":[1]}', line='{"a":"x"}')
    yield succeeds("patch", "move", "/a", "/b", input='{"a":[1]}', line='{"b":[1]}')
    yield succeeds("patch", "move", "/0", "/1", input='["x","y"]', line='["y","x"]')
    yield succeeds("patch", "copy", "/a", "/b", input='{"a":[1]}', line='{"a":[1],"b":[1]}')
    yield succeeds("patch", "test", "/a/0", "1", input='{"a":[1]}', line='{"a":[1]}')
    yield succeeds("patch", "test", "", '{"b":2,"a":1}', input='{"a":1,"b":2}', line='{"a":1,"b":2}')
    yield succeeds("patch", "add", "/a/0", "0", "remove", "/a/1", input='{"a":[1]}', line='{"a":[0]}')
    yield succeeds("patch", "add", "/z", "1", "add", "/b", "2", input='{"c":3}', line='{"b":2,"c":3,"z":1}')
    tests = ["test", "/a", "1", "add", "/a", "2", "test", "/a", "2"]
    yield succeeds("patch", *tests, input='{"a":1}', line='{"a":2}')


def failing_patches():
    """`patch`: each error, also of a later operation."""
    failed = PATCH_FAILED.format(1, TEST_FAILED)
    yield fails_with(failed, "patch", "add", "/b", "1", "test", "/b", "2", input='{"a":[1]}')
    yield fails_with(PATCH_FAILED.format(0, TEST_FLOAT), "patch", "test", "/a", "1.5", input='{"a":1}')
    yield fails_with(PATCH_FAILED.format(0, MOVE_INTO_ITSELF), "patch", "move", "/a", "/a/b", input='{"a":1}')
    yield fails_with(PATCH_FAILED.format(0, MOVE_INTO_ITSELF), "patch", "move", "/a", "/a/0", input='{"a":[1]}')
    failed = PATCH_FAILED.format(1, RESOLVE_OUT_OF_BOUNDS.format(2))
    yield fails_with(failed, "patch", "remove", "/a/0", "remove", "/a/0", input='{"a":[1]}')
    failed = PATCH_FAILED.format(0, ASSIGN_OUT_OF_BOUNDS.format(2))
    yield fails_with(failed, "patch", "add", "/a/2", "1", input='{"a":[1]}')
    failed = PATCH_FAILED.format(0, RESOLVE_NOT_FOUND.format(0))
    yield fails_with(failed, "patch", "replace", "/b", "1", input='{"a":[1]}')


BAD_COMMANDS = [
    (),
    ("",),
    ("--help",),
    ("resolve",),
    ("resolve", "/a", "/b"),
    ("resolve ", "/a"),
    ("Resolve", "/a"),
    ("find", "/a"),
    ("tokens",),
    ("tokens", "/a", "1"),
    ("delete",),
    ("delete", "/a", "1"),
    ("assign", "/a"),
    ("assign", "/a", "1", "2"),
    ("assigns", "/a", "1"),
    ("patches",),
    ("resolve", "/\udcff"),
    ("\udcff", "/a"),
]

BAD_SPLITS = [
    ("split",),
    ("split", "/a"),
    ("split", "/a", "1", "2"),
    ("splits", "/a", "1"),
    ("split", "/a", "x"),
    ("split", "foo", "x"),
    ("split", "/a", "-"),
    ("split", "/a", "01"),
    ("split", "foo", "01"),
    ("split", "/a", ""),
    ("split", "/a", f"{GREATEST + 1}"),
]

BAD_OPERATIONS = [
    ("add",),
    ("add", "/b"),
    ("remove",),
    ("replace", "/b"),
    ("move", "/b"),
    ("copy", "/b"),
    ("test", "/b"),
    ("/b",),
    ("delete", "/b"),
    ("Remove", "/b"),
    ("remove", "/b", ""),
    ("remove", "/b", "1"),
    ("remove", "/b", "/c"),
    ("remove", "b", "add", "c"),
    ("add", "/b", "x", "add", "/c"),
]

BAD_POINTERS = [("resolve",), ("tokens",), ("delete",), ("assign", "x"), ("split", "1")]

BAD_OPERATION_POINTERS = [
    (PARSE_NO_SLASH, "add", "/b", "x", "remove", "c"),
    (PARSE_NO_SLASH, "add", "b", "x"),
    (PARSE_NO_SLASH, "replace", "b", "1"),
    (PARSE_NO_SLASH, "test", "b", "1"),
    (PARSE_NO_SLASH, "move", "/b", "c"),
    (PARSE_NO_SLASH, "copy", "c", "/a/~2"),
    (PARSE_MALFORMED.format(2), "move", "/a/~2", "c"),
]


def bad_arguments():
    """Arguments, pointers and VALUEs that are errors."""
    for words in [*BAD_COMMANDS, *BAD_SPLITS, *(("patch", *it) for it in BAD_OPERATIONS)]:
        yield rejects(2, USAGE, *words)
    for command, *rest in BAD_POINTERS:
        yield rejects(1, PARSE_NO_SLASH, command, "foo", *rest)
        yield rejects(1, PARSE_MALFORMED.format(2), command, "/a/~2", *rest)
    for message, *operations in BAD_OPERATION_POINTERS:
        yield rejects(1, message, "patch", *operations)
    for value in ["x", "", "1 2", nested(128)]:
        yield rejects(3, BAD_VALUE, "assign", "/a", value)
        for operation in ["add", "replace", "test"]:
            yield rejects(3, BAD_VALUE, "patch", "remove", "/a", operation, "/a", value)
    yield rejects(3, BAD_VALUE, "patch", "test", "/b", "", "add", "/c", "1")


def bad_inputs():
    """Inputs that are not JSON."""
    text = '{"a/b":1}'
    fronts = [text[:end] for end in range(len(text))]
    others = ['"\udcff"', "1 1", "\0", text + text, text + "\udcff", "01", "[1,]", "\ufeff" + text, nested(128)]
    for words in [*READS_INPUT, ("patch",)]:
        for given in fronts + others:
            yield fails_with(BAD_INPUT, *words, input=given, status=3)


def deep():
    """Documents that nest far deeper than the input, as deep as the words of a process lead."""
    for token, begin, end in [("/x", '{"x":', "}"), ("/0", "[", "]")]:
        for count in (10_000, 65_535):
            yield succeeds("assign", token * count, "1", input="null", line=begin * count + "1" + end * count)
    patch, depth, line = ["patch"], 127, nested(127)
    for _ in range(9):
        patch += ["copy", "", "/0" * depth]
        depth, line = 2 * depth, "[" * depth + line + "," + line[depth:]
    yield succeeds(*patch, input=nested(127), line=line)
    yield succeeds(*patch, "remove", "", input=nested(127), line="null")
    yield fails_with(PATCH_FAILED.format(9, TEST_FAILED), *patch, "test", "", "1", input=nested(127))
    yield fails_with(BAD_INPUT, "assign", "/x" * 10_001, "1", input="[", status=3)
    yield fails_with(ASSIGN_BAD_INDEX.format(0), "assign", "/x" * 10_001, "1", input="[]")
    moves = ["move", "/a", "/b/a", "move", "/b/a", "/a"] * 5_000 + ["move", "/a", "/b/a"]
    yield succeeds("patch", *moves, input='{"a":1,"b":{}}', line='{"b":{"a":1}}')


def large():
    """A pointer of 32,768 tokens, and inputs of 64 MiB."""
    yield lists("tokens", "/0" * (32 << 10), line="[" + ",".join(['"0"'] * (32 << 10)) + "]")
    text = "x" * MIB_64
    yield succeeds("delete", "/a", input=f'{{"a":"{text}"}}', line="{}")
    yield succeeds("resolve", "/a", input=f'{{"a":"{text}"}}', line=f'"{text}"')
    yield succeeds("assign", "", "1", input=" " * MIB_64 + "2", line="1")
    yield fails_with(BAD_INPUT, "resolve", "", input=f'"{text}', status=3)
    yield fails_with(BAD_INPUT, "resolve", "", input="[" * MIB_64, status=3)


def jsonptr_run():
    """Returns the path of the built program. The cases alone need none."""
    return program("jsonptr_run")


def run_program(words, **streams):
    """Runs the program."""
    return subprocess.run([jsonptr_run(), *words], timeout=SECONDS, **streams)


def bytes_of(text):
    """Returns the bytes of a text in which Python escapes bytes that are not UTF-8."""
    return text.encode(errors="surrogateescape")


def shortened(text):
    """Returns a text short enough for a message."""
    return repr(text if len(text) < 200 else text[:99] + ".." + text[-99:])


def check_result(case, given):
    """Checks that a run has the result of its case."""
    expected = (bytes_of(case.output), case.message.encode(), case.status)
    if (given.stdout, given.stderr, given.returncode) != expected:
        run = f"{[shortened(it) for it in case.words]}, input {shortened(case.input)}"
        message = given.stderr.decode(errors="replace")
        raise CheckFailed(f"{run}: status {given.returncode}, {shortened(given.stdout)}, {message!r}")


def check(case):
    """Runs a case on a file as input, whose position afterwards is how much was read."""
    words = [bytes_of(it) for it in case.words]
    with tempfile.TemporaryFile(buffering=0) as file:
        file.write(bytes_of(case.input))
        file.seek(0)
        check_result(case, run_program(words, stdin=file, capture_output=True))
        read = file.tell()
        if read != (file.seek(0, os.SEEK_END) if case.is_read else 0):
            words = [shortened(it) for it in case.words]
            raise CheckFailed(f"{words}: {read} bytes of {shortened(case.input)} were read")


def check_streams():
    """Runs each command with streams that fail, and returns the number of runs."""
    for words in READS_INPUT + IGNORES_INPUT:
        text = '{"a":[1]}'
        status, message = (0, "") if words in IGNORES_INPUT else (5, READ_FAILED)
        check_outcome(words, 5, WRITE_FAILED, to_full_device(words, text))
        check_outcome(words, 5, WRITE_FAILED, to_nobody(words, text))
        check_outcome(words, 5, WRITE_FAILED, by_shell(words, ">&-", text))
        check_outcome(words, status, message, by_shell(words, "<&-", ""))
        check_outcome(words, status, message, by_shell(words, "</", ""))
        check_outcome(words, status, "", by_shell(words, "<&- 2>&-", ""))
    return 6 * len(READS_INPUT + IGNORES_INPUT)


def to_full_device(words, text):
    """Runs the program with a full device as output."""
    with open("/dev/full", "wb") as full:
        return run_program(words, input=text.encode(), stdout=full, stderr=subprocess.PIPE)


def to_nobody(words, text):
    """Runs the program with a closed pipe as output."""
    reading, writing = os.pipe()
    os.close(reading)
    try:
        return run_program(words, input=text.encode(), stdout=writing, stderr=subprocess.PIPE)
    finally:
        os.close(writing)


def by_shell(words, streams, text):
    """Runs the program with its streams set by the shell."""
    script = ["sh", "-c", f'"$@" {streams}', "", jsonptr_run(), *words]
    return subprocess.run(script, input=text.encode(), capture_output=True, timeout=SECONDS)


def check_outcome(words, status, message, given):
    """Checks the exit status and the error message of a run."""
    line = f"{message}\n" if message else ""
    if (given.returncode, given.stderr.decode()) != (status, line):
        raise CheckFailed(f"{words}, expected {message!r}: status {given.returncode}, {given.stderr.decode()!r}")


def check_memory(case, shim):
    """Runs a case once for each memory request, with that one failing, and returns the number of requests."""
    words = [jsonptr_run(), *case.words]
    # A run that reads a document keeps it to the end of the process.
    options = {"count": "run", "may_keep": case.is_read}
    usual, requests, _ = run_with_shim(words, case.input, shim, 0, **options)
    check_result(case, usual)
    if case.most is not None and requests > case.most:
        raise CheckFailed(f"{words[1:]}: {requests} memory requests, expected at most {case.most}")
    without_memory = Case(case.words, case.input, "", f"{OUT_OF_MEMORY}\n", 4)
    for fail in [*range(1, requests + 1), "all"]:
        given, _, _ = run_with_shim(words, case.input, shim, fail, **options)
        check_result(case if given.returncode == case.status else without_memory, given)
    return requests


SMALL_TABLES = [resolving, listing, writing, examples, patching, failing_patches]
TABLES = [*SMALL_TABLES, many_words, bad_arguments, bad_inputs, deep, large]


def small():
    """The cases that run with failing memory requests: each command, succeeding and failing."""
    for table in SMALL_TABLES:
        yield from table()
    yield rejects(2, USAGE)
    yield rejects(2, USAGE, "patch", "add", "/a", "1", "add", "/a")
    yield rejects(1, PARSE_NO_SLASH, "resolve", "foo")
    yield rejects(1, PARSE_NO_SLASH, "patch", "add", "/a", "1", "add", "a", "1")
    yield rejects(3, BAD_VALUE, "assign", "/a", "x")
    yield rejects(3, BAD_VALUE, "patch", "add", "/a", "1", "add", "/a", "x")
    yield fails_with(BAD_INPUT, "resolve", "/a", input='{"a":[1,2', status=3)
    yield succeeds("resolve", "", input="1", line="1")._replace(most=9)


def main():
    cases = [case for table in TABLES for case in table()]
    with tempfile.TemporaryDirectory() as folder, ThreadPoolExecutor(os.cpu_count()) as pool:
        shim = build_shim(folder)
        # First, and alone: a process that another thread starts can hold the end of a pipe that is closed here.
        streams = check_streams()
        requests_each = list(pool.map(lambda case: check_memory(case, shim), small()))
        for _ in pool.map(check, cases):
            pass
    requests = sum(requests_each)
    if not requests:
        raise CheckFailed("no request was seen")
    runs = len(cases) + streams + requests + 2 * len(requests_each)
    failing = f"{streams} runs on streams that fail"
    print(f"process: {len(cases)} cases, {failing}, {requests} memory requests made to fail, {runs} runs in all")


if __name__ == "__main__":
    try:
        main()
    except CheckFailed as error:
        sys.exit(f"process: {error}")
