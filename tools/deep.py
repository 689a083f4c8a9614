"""Runs both programs on pointers of up to 65,000 tokens and on documents as deep as they read.

No run ends by a signal, also with little memory, and each has the result that the rules give. What `jptr` prints can be read again, at the depths around its limits.
"""
import os
import subprocess
import sys
import tempfile
from concurrent.futures import ThreadPoolExecutor
from typing import NamedTuple

from call_cases import ASSIGN_BAD_INDEX, RESOLVE_BAD_INDEX, RESOLVE_NOT_FOUND, RESOLVE_OUT_OF_BOUNDS, RESOLVE_UNREACHABLE
from harness import CheckFailed, program

SECONDS = 60
COUNTS = (1_000, 10_000, 32_200, 65_000)
TOKENS = ("0", "-", "a")
LIMITS = (*range(4, 40, 2), *range(40, 161, 10), 320, 640, 1_024)  # of memory, in MiB
MAX_DEPTH = 127  # of a JSON text that is read
MAX_TOML_DEPTH = 80  # of the values of a TOML text that is printed
JPTR, RUN = program("jptr"), program("jsonptr_run")
# Statuses of jptr.
NOT_MADE, LINE_AT_FAULT = 6, 7
NOT_DELETED = "delete failed: json pointer does not resolve"
TOO_DEEP = f"document would nest deeper than {MAX_DEPTH}"
LINE_TOO_DEEP = f"line 1: document would nest deeper than {MAX_DEPTH}"
PATCH_TOO_DEEP = f"patch would nest deeper than {MAX_DEPTH}"
TOML_DOCUMENT_TOO_DEEP = f"values of the document nest deeper than {MAX_TOML_DEPTH}"
TOML_TOO_DEEP = f"values of the document would nest deeper than {MAX_TOML_DEPTH}"
NOT_TOML = "text is not TOML"
PATCH_FAILED = "patch failed at operation 0: {}"
BELOW_ITSELF = PATCH_FAILED.format("from is a proper prefix of path")


def nested(depth, value="1"):
    """Returns a value in this many arrays."""
    return "[" * depth + value + "]" * depth


DOCUMENTS = ("{}", "[]", "1", nested(MAX_DEPTH))


class Case(NamedTuple):
    """Words and input of a run, its status, its output, and the first line of its errors."""

    words: tuple
    input: str
    status: int
    output: str = ""
    error: str = ""


def not_resolved(document, token):
    """Returns why a pointer of many such tokens resolves to nothing in one of `DOCUMENTS`."""
    if document == "{}":
        return RESOLVE_NOT_FOUND.format(0)
    if document == "1":
        return RESOLVE_UNREACHABLE.format(0)
    if token == "a":
        return RESOLVE_BAD_INDEX.format(0)
    if token == "0" and document != "[]":
        return RESOLVE_UNREACHABLE.format(2 * MAX_DEPTH)
    return RESOLVE_OUT_OF_BOUNDS.format(0)


def is_refused(document, token):
    """Returns whether nothing can be assigned at such a pointer: the token is no index of an array."""
    return token == "a" and document.startswith("[")


def expanded(token, count):
    """Returns 1, expanded by so many tokens."""
    begin, end = ('{"a":', "}") if token == "a" else ("[", "]")
    return begin * count + "1" + end * count


def assigned(document, token, count):
    """Returns the document after 1 is assigned at such a pointer."""
    if document == "{}":
        return f'{{"{token}":{expanded(token, count - 1)}}}'
    if document == "[]":
        return f"[{expanded(token, count - 1)}]"
    if document == "1":
        return expanded(token, count)
    if token == "0":
        return nested(MAX_DEPTH, expanded(token, count - MAX_DEPTH))
    return f"{document[:-1]},{expanded(token, count - 1)}]"


def json_object(**members):
    """Returns the text of an object with these members, whose values are texts without characters to escape."""
    return "{" + ",".join(f'"{name}":"{text}"' for name, text in members.items()) + "}"


def operations(pointer, document, token):
    """Patches with such a pointer: the words of `jsonptr_run`, the members of the patch document, and the error."""
    missing = PATCH_FAILED.format(not_resolved(document, token))
    for op in ("add", "replace", "test"):
        yield (op, pointer, '"x"'), {"op": op, "path": pointer, "value": "x"}, missing
    yield ("remove", pointer), {"op": "remove", "path": pointer}, missing
    for op in ("move", "copy"):
        yield (op, pointer, "/x"), {"op": op, "from": pointer, "path": "/x"}, missing
    yield ("copy", "", pointer), {"op": "copy", "from": "", "path": pointer}, missing
    yield ("move", "", pointer), {"op": "move", "from": "", "path": pointer}, BELOW_ITSELF


def of_run():
    """Each command of `jsonptr_run`. It prints a document of any depth."""
    for token in TOKENS:
        for count in COUNTS:
            pointer = f"/{token}" * count
            listed = "[" + ",".join([f'"{token}"'] * count) + "]\n"
            yield Case((RUN, "tokens", pointer), "", 0, listed)
            yield Case((RUN, "split", pointer, str(count)), "", 0, f'["{pointer}",""]\n')
            for document in DOCUMENTS:
                missing = not_resolved(document, token)
                yield Case((RUN, "resolve", pointer), document, 1, error=missing)
                yield Case((RUN, "delete", pointer), document, 1, error=NOT_DELETED)
                if is_refused(document, token):
                    yield Case((RUN, "assign", pointer, "1"), document, 1, error=ASSIGN_BAD_INDEX.format(0))
                else:
                    made = assigned(document, token, count)
                    yield Case((RUN, "assign", pointer, "1"), document, 0, f"{made}\n")
                for words, _, error in operations(pointer, document, token):
                    yield Case((RUN, "patch", *words), document, 1, error=error)


def of_jptr():
    """Each command of `jptr` that takes a pointer, on one document and on lines."""
    lines = "".join(f"{document}\n" for document in DOCUMENTS)
    for token in TOKENS:
        for count in COUNTS:
            pointer = f"/{token}" * count
            yield Case((JPTR, "tokens", pointer), "", 0, "[" + ",".join([f'"{token}"'] * count) + "]\n")
            yield Case((JPTR, "tokens", "--raw", pointer), "", 0, f"{token}\n" * count)
            yield Case((JPTR, "escape", pointer), "", 0, pointer.replace("/", "~1") + "\n")
            yield Case((JPTR, "unescape", "~1" * count), "", 0, "/" * count + "\n")
            for field in (pointer, f'"{pointer}"'):
                yield Case((JPTR, "from-paths"), f"{field}\t1\n", NOT_MADE, error=named(LINE_TOO_DEEP))
            for layout in ((), ("--compact",), ("--pretty",)):
                for document in DOCUMENTS:
                    yield from on_document(layout, pointer, token, document)
            yield Case((JPTR, "get", "--lines", pointer), lines, LINE_AT_FAULT, error=numbered(not_resolved(DOCUMENTS[0], token)))
            yield Case((JPTR, "get", "--lines", "--default", "7", pointer), lines, 0, "7\n" * len(DOCUMENTS))
            yield Case((JPTR, "set", "--lines", pointer, "1"), lines, LINE_AT_FAULT, error=numbered(TOO_DEEP))
            yield Case((JPTR, "set", "--lines", "--strict", pointer, "1"), lines, LINE_AT_FAULT, error=numbered(TOO_DEEP))
            yield Case((JPTR, "delete", "--lines", pointer), lines, LINE_AT_FAULT, error=numbered(NOT_DELETED))


def on_document(layout, pointer, token, document):
    """`get`, `set` and `delete` on one document."""
    yield Case((JPTR, "get", *layout, pointer), document, 1, error=named(not_resolved(document, token)))
    error = ASSIGN_BAD_INDEX.format(0) if is_refused(document, token) else TOO_DEEP
    yield Case((JPTR, "set", *layout, pointer, "1"), document, NOT_MADE, error=named(error))
    yield Case((JPTR, "delete", *layout, pointer), document, 1, error=named(NOT_DELETED))


def of_toml():
    """Each command of `jptr` on TOML."""
    text = "x = 1\n"
    for token in TOKENS:
        for count in COUNTS:
            pointer = f"/{token}" * count
            yield Case((JPTR, "get", "--toml", pointer), text, 1, error=named(RESOLVE_NOT_FOUND.format(0)))
            yield Case((JPTR, "set", "--toml", pointer, "1"), text, NOT_MADE, error=named(TOML_TOO_DEEP))
            yield Case((JPTR, "delete", "--toml", pointer), text, 1, error=named(NOT_DELETED))


def deep_toml():
    """TOML texts that nest as deep as the reader of the kit takes: by headers, dotted keys, arrays and inline tables."""
    keys = ".".join("a" * MAX_TOML_DEPTH)
    value = "1"
    for _ in range(MAX_TOML_DEPTH):
        value = f"{{{keys}={value}}}"
    deep = [f"[{keys}]\nx = {value}\n", f"[[{keys}]]\n{keys} = {nested(MAX_TOML_DEPTH)}\n", f"[[{keys}]]\n"]
    damaged = [f"x = {nested(60_000)}\n", f"[{'.'.join('a' * 60_000)}]\n", "x = " + "{a=" * 60_000]
    for text, error in [(text, TOML_DOCUMENT_TOO_DEEP) for text in deep] + [(text, NOT_TOML) for text in damaged]:
        for words in (("get", "/x"), ("set", "/x", "1"), ("delete", "/x"), ("paths",), ("paths", "--all")):
            yield Case((JPTR, words[0], "--toml", *words[1:]), text, 3, error=named(error))
    yield Case((JPTR, "get", "--toml", "/a"), f"a = {nested(MAX_TOML_DEPTH)}\n", 0, nested(MAX_TOML_DEPTH) + "\n")


def named(error):
    """Returns the line of `jptr` for an error on its input."""
    return f"jptr: standard input: {error}"


def numbered(error):
    """Returns the line of `jptr` for an error on the first line of its input."""
    return f"jptr: standard input:1: {error}"


def start(words, text):
    """Runs a program, and fails if a signal ends it."""
    given = subprocess.run(words, input=text.encode(), capture_output=True, timeout=SECONDS)
    if given.returncode < 0:
        raise CheckFailed(f"{short(words)} on {text[:40]!r}: ended by signal {-given.returncode}")
    return given


def short(words):
    """Returns the words of a run, each cut to its beginning."""
    return [os.path.basename(word)[:30] for word in words]


def check(case):
    """Runs a case, and returns an error message or None."""
    try:
        given = start(case.words, case.input)
    except (CheckFailed, subprocess.TimeoutExpired) as error:
        return f"deep: {error}"
    output, error = given.stdout.decode(), given.stderr.decode().partition("\n")[0]
    if case.error == named(NOT_TOML) and error.startswith(f"{case.error}: "):
        # The kit's reader says why, and where.
        error = case.error
    if (given.returncode, output, error) != (case.status, case.output, case.error):
        found = f"status {given.returncode}, {output[:80]!r} of {len(output)} characters, {error[:200]!r}"
        return f"deep: {short(case.words)} on {case.input[:40]!r}: {found}, and not {case.status}, {case.error!r}"
    return None


def patches(folder):
    """Cases of `jptr patch`, whose patch is a file."""
    number = 0
    for token in TOKENS:
        for count in COUNTS:
            for document in DOCUMENTS:
                for _, members, error in operations(f"/{token}" * count, document, token):
                    number += 1
                    path = written(f"{folder}/{number}.json", f"[{json_object(**members)}]")
                    yield Case((JPTR, "patch", path), document, 1, error=named(error))
                    yield Case((JPTR, "patch", "--lines", path), f"{document}\n", LINE_AT_FAULT, error=numbered(error))


def doubled():
    """Returns a patch that copies a document into its deepest array, so that each operation doubles its depth."""
    depth, copies = MAX_DEPTH, []
    for _ in range(9):
        copies.append(json_object(op="copy", **{"from": ""}, path="/0" * depth))
        depth *= 2
    return "[" + ",".join(copies) + "]"


def written(path, text):
    """Writes a file, and returns its path."""
    with open(path, "w", encoding="utf-8") as file:
        file.write(text)
    return path


def check_equal(found, wanted, about):
    """Fails unless the two are equal."""
    if found != wanted:
        raise CheckFailed(f"{about}: {str(found)[:200]}, and not {str(wanted)[:200]}")


def check_read_again(folder):
    """Checks around the limits that what is printed is read as the document, or that an error names the limit."""
    patch, old, new = (f"{folder}/{name}.json" for name in ("patch", "old", "new"))
    runs = 0
    for depth in range(MAX_DEPTH - 4, MAX_DEPTH + 1):
        for before, after in (("1", nested(depth)), ("[[1]]", f"[[{nested(depth - 2)}]]"), ('{"a":1}', f'{{"a":{nested(depth - 1)}}}')):
            written(old, before)
            written(new, after)
            given = start((JPTR, "diff", old, new), "")
            below = 0 if before == "1" else 2 if before == "[[1]]" else 1
            if depth - below + 2 > MAX_DEPTH:
                check_equal((given.returncode, given.stdout, given.stderr.decode()), (NOT_MADE, b"", f"jptr: {new}: {PATCH_TOO_DEEP}\n"), "diff")
            else:
                check_equal(given.returncode, 1, "diff")
                written(patch, given.stdout.decode())
                check_equal(start((JPTR, "patch", patch, old), "").stdout.decode(), after, "patch after diff")
            runs += 2
    for count in (0, 1, 60, MAX_DEPTH - 1, MAX_DEPTH, MAX_DEPTH + 1):
        for depth in (MAX_DEPTH - count - 1, MAX_DEPTH - count, MAX_DEPTH - count + 1):
            if not 0 <= depth <= MAX_DEPTH:
                continue
            given = start((JPTR, "from-paths"), "/a" * count + f"\t{nested(depth)}\n")
            wanted = '{"a":' * count + nested(depth) + "}" * count + "\n"
            if count + depth > MAX_DEPTH:
                wanted = ""
                check_equal((given.returncode, given.stderr.decode()), (NOT_MADE, f"{named(LINE_TOO_DEEP)}\n"), "from-paths")
            else:
                check_equal(start((JPTR, "get", ""), wanted).stdout.decode(), wanted, "get after from-paths")
            check_equal(given.stdout.decode(), wanted, "from-paths")
            runs += 2
    return runs + check_toml_read_again()


def check_toml_read_again():
    """Checks the same of TOML."""
    runs = 0
    for count in (1, 2, 40, MAX_TOML_DEPTH, MAX_TOML_DEPTH + 1, MAX_TOML_DEPTH + 2):
        for depth in (MAX_TOML_DEPTH - count, MAX_TOML_DEPTH - count + 1, MAX_TOML_DEPTH - count + 2):
            for token in ("-", "a"):
                if not 0 <= depth <= MAX_TOML_DEPTH:
                    continue
                pointer = "/a" + f"/{token}" * (count - 1)
                given = start((JPTR, "set", "--toml", pointer, nested(depth)), "x = 1\n")
                if count - 1 + depth > MAX_TOML_DEPTH:
                    check_equal((given.returncode, given.stderr.decode()), (NOT_MADE, f"{named(TOML_TOO_DEEP)}\n"), "set --toml")
                else:
                    pointer = pointer.replace("-", "0")
                    found = start((JPTR, "get", "--toml", pointer), given.stdout.decode())
                    check_equal(found.stdout.decode(), f"{nested(depth)}\n", f"get --toml after set --toml, {count} tokens, {depth} levels")
                runs += 2
    return runs


def check_in_place(folder):
    """Checks that a file stays as it is if its new document would be too deep."""
    runs = 0
    for document, words in (("[]", ()), ("x = 1\n", ("--toml", "--reformat"))):
        path = written(f"{folder}/kept", document)
        for token in TOKENS[:2] if document == "[]" else TOKENS:
            given = start((JPTR, "set", "-i", *words, f"/{token}" * COUNTS[-1], "1", path), "")
            with open(path, encoding="utf-8") as file:
                check_equal((given.returncode, file.read()), (NOT_MADE, document), "set -i")
            runs += 1
    patch = written(f"{folder}/doubled.json", doubled())
    given = start((JPTR, "patch", patch), nested(MAX_DEPTH))
    check_equal((given.returncode, given.stderr.decode()), (NOT_MADE, f"{named(TOO_DEEP)}\n"), "patch that doubles the depth")
    return runs + 1


def check_limited():
    """Checks that no limit on memory ends `jsonptr_run` by a signal: it prints the whole line, or nothing."""
    for token in TOKENS:
        wanted = f"{expanded(token, COUNTS[-1])}\n".encode()
        for limit in LIMITS:
            script = f'ulimit -v {limit * 1024}; exec "$@"'
            given = start(("sh", "-c", script, "sh", RUN, "assign", f"/{token}" * COUNTS[-1], "1"), "null")
            found = given.returncode, given.stdout, given.stderr
            if found not in ((0, wanted, b""), (4, b"", b"out of memory\n")):
                raise CheckFailed(f"{token}, {limit} MiB of memory: status {given.returncode}, {given.stderr[:100]!r}")
    return len(TOKENS) * len(LIMITS)


def main():
    count, errors = 0, []
    with tempfile.TemporaryDirectory() as folder, ThreadPoolExecutor(os.cpu_count()) as pool:
        try:
            count += check_read_again(folder) + check_in_place(folder) + check_limited()
        except CheckFailed as error:
            sys.exit(f"deep: {error}")
        for table in (of_run, of_jptr, of_toml, deep_toml, lambda: patches(folder)):
            cases = list(table())
            count += len(cases)
            errors += [error for error in pool.map(check, cases) if error]
    if errors:
        sys.exit("\n".join(errors[:20]))
    print(f"deep: {count} runs, pointers of up to {COUNTS[-1]} tokens")


if __name__ == "__main__":
    main()
