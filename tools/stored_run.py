#!/usr/bin/env python3
"""Makes the run of `jsonptr_tool_calls` that `rt ci` repeats, and checks that it is up to date.

    tools/stored_run.py            checks
    tools/stored_run.py --write    writes crates/jsonptr_tool_calls/stdin and stdout anew

The input is a few requests, the cases of call_cases.py of at most 600 characters, and those of process.py as calls of
`run_program`. The output is put together from the results that they state, and never from a run. So `rt ci` fails if a call has
another result, also one that its contract allows, as a failed allocation.
"""
import sys

import process
import repository
from call_cases import CASES
from harness import line_of

CRATE = f"{repository.CRATES}/jsonptr_tool_calls"
MOST_CHARACTERS = 600
NO_SLASH = "json pointer failed to parse; does not start with a slash ('/') and is not empty"
PAST_THE_END = (
    r"assign failed: json pointer token at offset 0 is out of bounds\nOutOfBounds { position: 0, offset: 0, "
    "source: OutOfBoundsError { length: 1, index: 2 } }"
)
# The words of a request of each kind, and the fields of its result.
REQUESTS = [
    (("parse", "/foo/bar"), ("text=/foo/bar", "count=2", r"tokens=foo\;bar\;")),
    (("parse", "foo"), (
        "offset=0", "pointer_offset=0", "source_offset=0", "complete_offset=0", "is_no_leading_slash=true",
        "is_invalid_encoding=false", f"display={NO_SLASH}", "len=0", "subject=foo", f"report={NO_SLASH}",
        r"label=0+0 must start with a slash ('/')\;",
    )),
    (("token", "a/b~"), ("encoded=a~1b~0", "decoded=a/b~", "display=a/b~", "is_next=false", "index=InvalidCharacter(0)")),
    (("index", "18446744073709551616"), ("index=Overflow", "display=failed to parse token as an integer", "label=None")),
    (("get", "/a/b/c", "range", "1", "3"), ("got==/b/c",)),
    (("two pointers", "/a/b", "/a"), (
        "starts_with=true", "ends_with=false", "strip_prefix==/b", "strip_suffix=None", "intersection=/a", "concat=/a/b/a",
        "eq=false", "cmp=Greater", "owned_eq=false", "owned_cmp=Greater",
    )),
    (("edit", "/a", "push_back x/y", "pop_front", "replace 3 z"), (
        "push_back=done", "text=/a/x~1y", "pop_front==a", "text=/x~1y", "replace=3,1 index 3 is out of bounds (1)", "text=/x~1y",
    )),
    (("resolve", "json", '{"a":[1,{"b":null}]}', "/a/1/b"), ("value=null",)),
    (("resolve", "toml", "{ a = [1] }", "/a/-"), (
        "error=OutOfBounds", "position=1", "offset=2", "cause=1,1 index 1 out of bounds (len: 1)",
        "is_failed_to_parse_index=false", "is_out_of_bounds=true", "is_not_found=false", "is_unreachable=false",
        "display=resolve failed: json pointer token at offset 2 is out of bounds", r"label=3+1 index 1 out of bounds (len: 1)\;",
    )),
    (("assign", "json", '{"a":{}}', "/a/0/x", "7"), ("old=None", 'document={"a":{"0":{"x":7}}}')),
    (("delete", "toml", "{ a = [1, 2] }", "/a/0"), ("old==1", "document={a: [2]}")),
    (("find", "/a", '{"a":1}'.encode().hex()), ("text=1", "exists=true", "slice=1", "read=1")),
    (("find", "/a", "ff"), ("text=not UTF-8", "exists=not UTF-8", "slice=not JSON", "read=not JSON")),
    (("change", "assign", '{"a":1.0}', "/b", "[]"), (
        "kind=in place", 'detail={"a":1.0,"b":[]}', 'read={"a":1.0,"b":[]}', "call=done", 'printed={"a":1.0,"b":[]}',
    )),
    (("change", "assign", "[1]", "/2", "1"), (
        "kind=refused", f"detail={PAST_THE_END}", "call=refused", f"printed={PAST_THE_END}",
    )),
    (("change", "apply", "[1\n]", "", '[{"op":"copy","from":"/0","path":"/-"}]'), (
        "kind=in place", r"detail=[1,1\n]", "read=[1,1]", "call=done", "printed=[1,1]",
    )),
]
# Which word of a case is the pointer or the document that its call changes, by the group of the call.
CHANGED = {"edit": 2, "document": 2, "patch": 1, "patch inverse": 1, "patch back": 1, "change": 1}
ASSIGNED = {case.lines: case for case in CASES if "assign_with_undo" in case.lines}
MARKS = "-- call\n-- answer\n"


def before_undo(case):
    """Returns the document and the undo that a case of undoing starts with."""
    group, kind, document, call, pointer, value = case.lines
    if call == "Put":
        return f"{document}\nput {value} at {pointer}\n"
    if call == "Remove":
        return f"{document}\nremove at {pointer}\n"
    if call == "undo":
        assigned = ASSIGNED[group, kind, document, "assign_with_undo", pointer, value]
        return assigned.after + assigned.answer
    return f"{document}\n"


def before(case):
    """Returns what is written before the call of a case: what the call can change. It is the state after most calls."""
    group = case.lines[0]
    if group == "undo":
        return before_undo(case)
    if group == "session":
        return f"{case.lines[4]} {case.lines[2]}\n"
    return f"{case.lines[CHANGED[group]]}\n" if group in CHANGED else case.after


def between_marks(case):
    """Returns the marks of a case, with its result. What is displayed comes between them, and a hash is two calls."""
    group, call = case.lines[:2]
    if group == "show" or (group in ("report", "fields") and call == "display"):
        return f"-- call\n{case.answer}-- answer\n"
    return MARKS * (2 if group == "hash" else 1) + case.answer


def written(case):
    """Returns what is written for a case."""
    has_state = case.after or case.lines[0] == "patch labels"
    return before(case) + between_marks(case) + (f"-- state\n{case.after}" if has_state else "")


def calls():
    """Yields the words of each case, and what is written for it."""
    for case in CASES:
        if sum(map(len, (*case.lines, case.answer, case.after))) <= MOST_CHARACTERS:
            yield ("case", *case.lines), written(case)


def is_text(words):
    """Returns whether words are UTF-8, as a line has to be."""
    return not any("\ud800" <= c <= "\udfff" for word in words for c in word)


def runs():
    """Yields the words of each run of the program, the last of which is its input, and what is written for it."""
    for table in (*process.SMALL_TABLES, process.bad_arguments, process.bad_inputs):
        for case in table():
            words = (*case.words, case.input)
            if is_text(words) and sum(map(len, (*words, case.output))) <= MOST_CHARACTERS:
                yield ("case", "program", *words), MARKS + (case.output or case.message)


def requests():
    """Yields the words of each request, and what is written for it."""
    for words, fields in REQUESTS:
        yield words, "\t".join(fields) + "\n"


def main():
    rows = [*requests(), *calls(), *runs()]
    made = {"stdin": "".join(line_of(*words) for words, _ in rows), "stdout": "".join(text for _, text in rows)}
    for name, text in made.items():
        path = f"{CRATE}/{name}"
        if "--write" in sys.argv[1:]:
            repository.write(path, text)
        elif repository.read(path) != text:
            sys.exit(f"stored_run: {name} of jsonptr_tool_calls is not what the cases state: run tools/stored_run.py --write")
    print(f"stored_run: {len(rows)} lines for jsonptr_tool_calls")


if __name__ == "__main__":
    main()
