"""Worked examples of `assign`, `delete` and `apply` in texts: each on one line without spaces, and with a line for each child.

An example has a command, a document, a pointer, an argument, and the new document or the error. Errors are the displayed
text and, after it, the fields. Where the new text on lines is not simply spread, it is given.
"""
from typing import NamedTuple

from . import spans
from .asking import Request


class Row(NamedTuple):
    """An example. `want` is the new text on one line, and `lines` the one on lines. Without them, the edit comes to `kind`."""

    command: str
    text: str
    pointer: str
    argument: str
    want: str | None = None
    lines: str | None = None
    kind: str = "refused"
    error: str = ""


def assigns(text, pointer, value, want, lines=None):
    """An assignment."""
    return Row("assign", text, pointer, value, want, lines)


def refuses(text, pointer, value, error):
    """An assignment that fails."""
    return Row("assign", text, pointer, value, error=error)


def deletes(text, pointer, want, lines=None):
    """A deletion. Without a new text there is nothing to delete."""
    return Row("delete", text, pointer, "", want, lines, kind="none")


def applies(text, patch, want, lines=None):
    """A patch."""
    return Row("apply", text, "", patch, want, lines)


def fails(text, patch, error):
    """A patch that fails."""
    return Row("apply", text, "", patch, error=error)


def comes_to(kind, command, text, pointer="", argument=""):
    """An edit of another kind of outcome."""
    return Row(command, text, pointer, argument, kind=kind)


def out_of_bounds(position, offset, length, index):
    """The error of an index that is past the end, in an assignment."""
    text = f"assign failed: json pointer token at offset {offset} is out of bounds"
    source = f"OutOfBoundsError {{ length: {length}, index: {index} }}"
    return f"{text}\nOutOfBounds {{ position: {position}, offset: {offset}, source: {source} }}"


def no_index(position, offset, source):
    """The error of a token that is not an index, in an assignment."""
    text = f"assign failed: json pointer token at offset {offset} failed to parse as an array index"
    return f"{text}\nFailedToParseIndex {{ position: {position}, offset: {offset}, source: {source} }}"


def not_found(operation, position, offset):
    """The error of an operation whose pointer does not resolve."""
    text = f"patch failed at operation {operation}: resolve failed: json pointer token at {offset} was not found in value"
    cause = f"NotFound {{ position: {position}, offset: {offset} }}"
    return f"{text}\nNoTarget {{ operation: {operation}, cause: {cause} }}"


ASSIGNED = [
    assigns('{"foo":"bar"}', "/foo/bar/-/baz", '"qux"', '{"foo":{"bar":[{"baz":"qux"}]}}'),
    assigns("null", "/1", '"x"', '{"1":"x"}', '{"1":"x"}'),
    assigns('["a"]', "/-", '"b"', '["a","b"]'),
    assigns('["a"]', "/1", '"b"', '["a","b"]'),
    assigns('{"a":[1]}', "/a/-", "true", '{"a":[1,true]}'),
    assigns('{"a":[1]}', "/b/0", "true", '{"a":[1],"b":[true]}'),
    assigns('{"a":[1]}', "/a/0", "2", '{"a":[2]}'),
    assigns('{"a":[1],"c":2}', "/a", '{"z":1,"y":2}', '{"a":{"y":2,"z":1},"c":2}'),
    assigns('{"a":1.0,"b":1e5}', "/a/0/0", "null", '{"a":[[null]],"b":1e5}'),
    assigns('{"m~n":0,"a/b":1.50}', "/m~0n", "-0.0", '{"m~n":-0.0,"a/b":1.50}'),
    assigns('{"":1}', "/", "2", '{"":2}'),
    assigns('{"a":1}', "", "[1]", "[1]", "[\n  1\n]"),
    assigns("[]", "/0", "1", "[1]", "[1]"),
    assigns('{"z":1,"a":{}}', "/a/b", "1", '{"z":1,"a":{"b":1}}'),
    refuses("[]", "/1", '"x"', out_of_bounds(0, 0, 0, 1)),
    refuses('["a"]', "/18446744073709551615", "true", out_of_bounds(0, 0, 1, 18446744073709551615)),
    refuses('{"a/b":[[],1]}', "/a~1b/0/10/-", "true", out_of_bounds(2, 7, 0, 10)),
    refuses("[1]", "/01", "true", no_index(0, 0, "LeadingZeros")),
    refuses('{"é":[[]]}', "/é/0/18446744073709551616/-", "true", no_index(2, 5, "InvalidInteger(Overflow)")),
    refuses('{"a":[1]}', "/a/2", "true", out_of_bounds(1, 2, 1, 2)),
]

DELETED = [
    deletes("[1,2,3]", "/0", "[2,3]"),
    deletes("[2,3]", "/1", "[2]"),
    deletes("[1]", "", "null"),
    deletes("{}", "/x", None),
    deletes("[1]", "/-", None),
    deletes("[1]", "/1", None),
    deletes("1", "/a", None),
    deletes('{"a":[1],"b":2}', "/a/0", '{"a":[],"b":2}'),
    deletes('{"a":[],"b":2}', "/b", '{"a":[]}'),
    deletes('{"z":1.0,"a":1e5,"m":[{}]}', "/a", '{"z":1.0,"m":[{}]}'),
    deletes('{"a":{"b":1}}', "/a/b", '{"a":{}}'),
]

# RFC 6902, appendix A. The new members are after the old ones.
APPENDIX = [
    applies('{"foo":"bar"}', '[{"op":"add","path":"/baz","value":"qux"}]', '{"foo":"bar","baz":"qux"}'),
    applies('{"foo":["bar","baz"]}', '[{"op":"add","path":"/foo/1","value":"qux"}]', '{"foo":["bar","qux","baz"]}'),
    applies('{"baz":"qux","foo":"bar"}', '[{"op":"remove","path":"/baz"}]', '{"foo":"bar"}'),
    applies('{"foo":["bar","qux","baz"]}', '[{"op":"remove","path":"/foo/1"}]', '{"foo":["bar","baz"]}'),
    applies('{"baz":"qux","foo":"bar"}', '[{"op":"replace","path":"/baz","value":"boo"}]', '{"baz":"boo","foo":"bar"}'),
    applies(
        '{"foo":{"bar":"baz","waldo":"fred"},"qux":{"corge":"grault"}}',
        '[{"op":"move","from":"/foo/waldo","path":"/qux/thud"}]',
        '{"foo":{"bar":"baz"},"qux":{"corge":"grault","thud":"fred"}}',
    ),
    applies(
        '{"foo":["all","grass","cows","eat"]}', '[{"op":"move","from":"/foo/1","path":"/foo/3"}]',
        '{"foo":["all","cows","eat","grass"]}',
    ),
    applies(
        '{"baz":"qux","foo":["a",2,"c"]}',
        '[{"op":"test","path":"/baz","value":"qux"},{"op":"test","path":"/foo/1","value":2}]',
        '{"baz":"qux","foo":["a",2,"c"]}',
    ),
    fails('{"baz":"qux"}', '[{"op":"test","path":"/baz","value":"bar"}]', "patch failed at operation 0: test failed\nTestFailed { operation: 0 }"),
    applies(
        '{"foo":"bar"}', '[{"op":"add","path":"/child","value":{"grandchild":{}}}]', '{"foo":"bar","child":{"grandchild":{}}}'
    ),
    applies('{"foo":"bar"}', '[{"op":"add","path":"/baz","value":"qux","xyz":123}]', '{"foo":"bar","baz":"qux"}'),
    fails('{"foo":"bar"}', '[{"op":"add","path":"/baz/bat","value":"qux"}]', not_found(0, 0, 0)),
    applies('{"/":9,"~1":10}', '[{"op":"test","path":"/~01","value":10}]', '{"/":9,"~1":10}'),
    fails('{"/":9,"~1":10}', '[{"op":"test","path":"/~01","value":"10"}]', "patch failed at operation 0: test failed\nTestFailed { operation: 0 }"),
    applies('{"foo":["bar"]}', '[{"op":"add","path":"/foo/-","value":["abc","def"]}]', '{"foo":["bar",["abc","def"]]}'),
]

APPLIED = [
    applies('{"a":[1]}', "[]", '{"a":[1]}'),
    applies('{"a":[1]}', '[{"op":"add","path":"/a/0","value":0},{"op":"remove","path":"/a/1"}]', '{"a":[0]}'),
    applies(
        '{"c":3}', '[{"op":"add","path":"/z","value":1},{"op":"add","path":"/b","value":2}]', '{"c":3,"z":1,"b":2}'
    ),
    applies('["x","y"]', '[{"op":"move","from":"/0","path":"/1"}]', '["y","x"]'),
    applies('{"a":[1.0]}', '[{"op":"copy","from":"/a","path":"/b"}]', '{"a":[1.0],"b":[1.0]}'),
    applies('{"a":{"b":{}}}', '[{"value":"foo","path":"/a/b/c","op":"add"}]', '{"a":{"b":{"c":"foo"}}}'),
    applies('[1,2]', '[{"op":"remove","path":""}]', "null"),
    applies('[1,2]', '[{"op":"add","path":"","value":{"a":1}}]', '{"a":1}'),
    fails(
        '{"a":[1]}', '[{"op":"add","path":"/b","value":1},{"op":"test","path":"/b","value":2}]',
        "patch failed at operation 1: test failed\nTestFailed { operation: 1 }",
    ),
    fails('{"a":1}', '[{"op":"move","from":"/a","path":"/a/b"}]',
          "patch failed at operation 0: from is a proper prefix of path\nMoveIntoSelf { operation: 0 }"),
    fails('{"a":1}', '[{"op":"test","path":"/a","value":1.5}]',
          "patch failed at operation 0: test failed\nTestFailed { operation: 0 }"),
    applies('{"a":1}', '[{"op":"test","path":"/a","value":1.0},{"op":"add","path":"/b","value":2}]', '{"a":1,"b":2}'),
    fails(
        '{"a":[{"b":1}]}',
        '[{"op":"add","path":"/a/0/c","value":2},{"op":"remove","path":"/a/0/c"},{"op":"replace","path":"/a/0/c","value":3}]',
        not_found(2, 2, 4),
    ),
    fails(
        "[1,2]", '[{"op":"move","from":"/0","path":"/2"}]',
        "patch failed at operation 0: " + out_of_bounds(0, 0, 1, 2).replace("\n", "\nBadPlace { operation: 0, cause: ") + " }",
    ),
]

NOT_JSON = [
    comes_to("not JSON", *words)
    for text in ("", " ", "{", "[1 2]", "1 2", "[1,]", '{"a":1}}', "[1e999]", '"\\ud800"', "\ufeff1", "01", "'a'", "// a\n1", "[" * 128 + "]" * 128)
    for words in (("assign", text, "", "1"), ("delete", text), ("apply", text, "", "[]"))
]


def nested(depth, inner):
    """Returns a text that nests so deep around an inner one."""
    return "[" * depth + inner + "]" * depth


DEEP = [
    assigns(nested(127, "1.0"), "/0" * 127, "2", nested(127, "2")),
    assigns(nested(126, "1"), "/0" * 126, "[]", nested(126, "[]")),
    assigns("[]", "/0" * 127, "1", nested(127, "1"), nested(127, "1")),
    assigns("null", "/a" * 127, "1", '{"a":' * 127 + "1" + "}" * 127, '{"a":' * 127 + "1" + "}" * 127),
    deletes(nested(127, "1"), "/0" * 127, nested(127, "")),
    comes_to("too deep", "assign", "[]", "/0" * 128, "1"),
    comes_to("too deep", "assign", nested(127, "1"), "/0" * 127, "[]"),
    comes_to("too deep", "assign", nested(126, "1"), "/0" * 126, "[[]]"),
    comes_to("too deep", "apply", nested(127, "1"), "", '[{"op":"add","path":"/-","value":[]},{"op":"copy","from":"/0","path":"/1/0"}]'),
]

ROWS = ASSIGNED + DELETED + APPENDIX + APPLIED + NOT_JSON + DEEP


def on_lines(text):
    """Returns a text with a line for each child."""
    return spans.spread(text, spans.read(text), "\n")


def requests_of(row):
    """Returns the requests of an example, and the text that each makes, or None."""
    yield Request(row.command, row.text, row.pointer, row.argument), row.want
    if row.kind != "not JSON":
        lines = row.lines or (row.want and on_lines(row.want))
        yield Request(row.command, on_lines(row.text), row.pointer, row.argument), lines


def faults(row, outcomes):
    """Yields what is wrong with the outcomes of an example."""
    for (request, want), outcome in zip(requests_of(row), outcomes):
        wanted = (row.kind, row.error) if want is None else ("in place", want)
        if (outcome.kind, outcome.detail) != wanted:
            yield f"{request} becomes {outcome[:2]}, expected {wanted}"
        if outcome.kind == "refused" and (outcome.call, outcome.printed) != wanted:
            yield f"{request} is refused by the call with {outcome.printed!r}"
