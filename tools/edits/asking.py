"""Asks the built program of crates/jsonptr_tool_calls for edits."""
import subprocess
from typing import NamedTuple

from harness import fields_of, line_of


class Request(NamedTuple):
    """An edit: `assign` or `delete` at a pointer, or `apply` of a patch document, with its argument as JSON."""

    command: str
    text: str
    pointer: str
    argument: str


class Outcome(NamedTuple):
    """What an edit in a text returned, and what the call on the document returned.

    `kind` is `in place` or `rewritten` with the new text as `detail`, or `refused` with the error, or `none`, `not JSON` or
    `too deep`. `call` is `done` with the printed document as `printed`, or an error. `read` is the document that the new
    text reads as, printed.
    """

    kind: str
    detail: str
    call: str
    printed: str
    read: str


def outcome_of(line):
    """Returns the outcome of a line, which has no field for a text that is not there."""
    fields = {"detail": "", "printed": "", "read": "", **fields_of(line)}
    return Outcome(*(fields[it] for it in Outcome._fields))


def ask(path, requests):
    """Returns the outcome of each request."""
    given = "".join(line_of("change", *it) for it in requests).encode()
    completed = subprocess.run([path], input=given, stdout=subprocess.PIPE, check=True)
    lines = completed.stdout.decode().split("\n")[:-1]
    if len(lines) != len(requests):
        raise ValueError(f"{len(lines)} lines for {len(requests)} requests")
    return [outcome_of(it) for it in lines]
