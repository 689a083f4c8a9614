"""Runs the Python wrapper and the modules `jsonpointer` and `jsonpatch` on the same calls.

Both have to return the same, except for the differences that are named here, which are the rows of the table of docs/FROM_JSONPATCH.md.
Those are checked as well: a difference that is gone is reported. A result of theirs is put into the order of its keys, in which
ours has to be already.
"""
import functools
import itertools
import json
import math
import os
import re
import sys
import threading
from collections import OrderedDict
from decimal import Decimal
from random import Random
from typing import NamedTuple

import jsonpatch
import jsonpointer
import jsonptr

DOCUMENTS = [
    {"foo": ["bar", "baz"], "": 0, "a/b": 1, "c%d": 2, "e^f": 3, "g|h": 4, "i\\j": 5, "k\"l": 6, " ": 7, "m~n": 8},
    {"sizes": [3, 5], "deep": {"x": [{"y": None}, True, -7, "gr\u00fc\u00df"]}, "0": {"1": 2}},
    [[], {}, "text", 18446744073709551615, -9223372036854775808, False, 0.30000000000000004, 1e-07, 1e22, 5e-324],
    [], {}, 5, None, "x",
]
TOKENS = ["foo", "", "a~1b", "m~0n", "sizes", "deep", "x", "0", "1", "2", "5", "-", "01", "y", "c%d", " "]
POINTERS = ["", *("/" + "/".join(tokens) for n in (1, 2, 3) for tokens in itertools.product(TOKENS, repeat=n))]
TEXTS = ["a", "/~", "/~2", "/a/~~1", "~0"]

PATCHES = [
    [{"op": "add", "path": "/new", "value": [1]}],
    [{"op": "add", "path": "/sizes/-", "value": 8}, {"op": "remove", "path": "/sizes/0"}],
    [{"op": "add", "path": "/0", "value": {}}, {"op": "add", "path": "/0/k", "value": None}],
    [{"op": "replace", "path": "/foo/0", "value": "new"}, {"op": "copy", "from": "/foo", "path": "/again"}],
    [{"op": "move", "from": "/deep/x/0", "path": "/moved"}, {"op": "test", "path": "/moved", "value": {"y": None}}],
    [{"op": "test", "path": "/0", "value": []}, {"op": "remove", "path": "/2"}, {"op": "remove", "path": "/9"}],
    [{"op": "remove", "path": "/missing"}],
    [{"op": "test", "path": "", "value": 5}],
    [{"op": "test", "path": "", "value": 5.0}],
    [{"op": "add", "path": "/new", "value": 1.5}, {"op": "test", "path": "/new", "value": 1.50}],
    [{"op": "test", "path": "/sizes", "value": [3.0, 5.5]}],
    [{"op": "replace", "path": "", "value": {"all": "new"}}],
    [{"op": "move", "from": "/deep", "path": "/deep/x"}],
    [{"op": "add", "path": "/a~1b~", "value": 1}],
    [{"op": "spam", "path": "/a"}],
    [{"op": "add", "path": "/a"}],
    [],
]

PAGE = f"{os.path.dirname(os.path.abspath(__file__))}/../../../docs/FROM_JSONPATCH.md"
DEEP = functools.reduce(lambda inner, _: [inner], range(200), 1)
LEADING_ZERO = int(jsonpointer.__version__.split(".")[0]) < 3  # jsonpointer ignores it, which RFC 6901 does not allow


class Difference(NamedTuple):
    """A row of the table of docs/FROM_JSONPATCH.md: its cells, and calls of ours and of theirs, each with what it returns."""

    what: str
    here: str
    there: str
    cases: tuple


class Raised(NamedTuple):
    """A call raised an exception of this name."""

    name: str


def applied(operations, value):
    """Returns two calls that apply a patch to a value: ours and theirs."""
    return lambda: jsonptr.Patch(operations).apply(value), lambda: jsonpatch.JsonPatch(operations).apply(value)


def resolved(value, pointer):
    """Returns two calls that resolve a pointer in a value: ours and theirs."""
    return lambda: jsonptr.resolve(value, pointer), lambda: jsonpointer.resolve_pointer(value, pointer)


def is_same_object(call, value):
    """Returns a call that says whether a call returns this very object."""
    return lambda: call(value, "/a") is value["a"]


NOT_PATCHED, NOT_READ, LOSES = Raised("JsonPatchError"), Raised("NotJson"), Raised("NotExact")
SHARED = {"a": [1]}
DIFFERENCES = [
    Difference("the members of objects after a patch, and in a `Document`", "in the order of their keys", "as in the value", (
        (*applied([], {"b": 1, "a": {"d": 1, "c": 2}}), {"a": {"c": 2, "d": 1}, "b": 1}, {"b": 1, "a": {"d": 1, "c": 2}}),
        (lambda: jsonptr.Document.of([{"\U0001f600": 1, "\ufb01": 2, "z": 3}]).resolve("/0"),
         lambda: jsonpointer.resolve_pointer([{"\U0001f600": 1, "\ufb01": 2, "z": 3}], "/0"),
         {"z": 3, "\ufb01": 2, "\U0001f600": 1}, {"\U0001f600": 1, "\ufb01": 2, "z": 3}))),
    Difference("what `resolve` returns, and `resolve_pointer` of a `Document`", "a copy", "the object in the value", (
        (is_same_object(jsonptr.resolve, SHARED), is_same_object(jsonpointer.resolve_pointer, SHARED), False, True),)),
    Difference("a value that nests deeper than 127", "an error", "works", (
        (*resolved(DEEP, "/0" * 200), NOT_READ, 1), (*applied([], DEEP), NOT_READ, DEEP))),
    Difference("keys that are not strings, as in `{1: 2, \"1\": 3}`", "become strings; a member is lost if two become one", "stay", (
        (*applied([], {1: 2}), {"1": 2}, {1: 2}), (*applied([], {1: 2, "1": 3}), {"1": 3}, {1: 2, "1": 3}),
        (*applied([], {None: 1}), {"null": 1}, {None: 1}))),
    Difference("tuples, `OrderedDict` and other subclasses", "become lists, dicts and plain values", "stay", (
        (*applied([], {"a": (1, 2)}), {"a": [1, 2]}, {"a": (1, 2)}),
        (*applied([], OrderedDict(a=1)), {"a": 1}, OrderedDict(a=1)))),
    Difference("NaN, infinities and lone surrogates", "an error", "stay", (
        (*resolved([math.inf], "/0"), NOT_READ, math.inf), (*resolved([math.nan], "/0"), NOT_READ, math.nan),
        (*resolved(["\ud800"], "/0"), Raised("JsonptrError"), "\ud800"))),
    Difference("`Decimal`, and other types that `json` does not write", "`TypeError`", "stay", (
        (*resolved([Decimal("1.10")], "/0"), Raised("TypeError"), Decimal("1.10")),)),
    Difference("an integer above 2^64 - 1 or below -2^63 in a patch, or in the value of one", "`NotExact`, or a float if `lossy`", "stays", (
        (*applied([], [2 ** 70 + 1]), LOSES, [2 ** 70 + 1]), (*applied([], [-2 ** 63 - 1]), LOSES, [-2 ** 63 - 1]),
        (*applied([{"op": "add", "path": "/-", "value": 2 ** 70}], []), LOSES, [2 ** 70]),
        (*applied([{"op": "test", "path": "/0", "value": 2 ** 70}], [1]), LOSES, Raised("JsonPatchTestFailed")),
        (lambda: jsonptr.Patch([]).apply([2 ** 70], lossy=True), lambda: jsonpatch.JsonPatch([]).apply([2 ** 70]),
         [float(2 ** 70)], [2 ** 70]))),
    Difference("`make_patch` of 2^64 and 2^64 + 1", "`NotExact`, or no operation if `lossy`: both become one float", "an operation", (
        (lambda: len(jsonptr.make_patch([2 ** 64], [2 ** 64 + 1])), lambda: len(list(jsonpatch.make_patch([2 ** 64], [2 ** 64 + 1]))),
         LOSES, 1),
        (lambda: len(jsonptr.make_patch([2 ** 64], [2 ** 64 + 1], lossy=True)), lambda: 1, 0, 1))),
    Difference("resolve `/-` in an array", "not found", "an object `EndOfList`", (
        (*resolved([1], "/-"), Raised("NotFound"), "EndOfList"),)),
    Difference("resolve `/01` in an array", "not found", "the element at 1, before version 3", (
        (*resolved([1, 2], "/01"), Raised("NotFound"), 2 if LEADING_ZERO else Raised("JsonPointerException")),)),
    Difference("resolve a child of a string", "not found", "a character", ((*resolved("text", "/0"), Raised("NotFound"), "t"),)),
    Difference("`test` of `true` with 1", "fails", "succeeds", (
        (*applied([{"op": "test", "path": "", "value": 1}], True), NOT_PATCHED, True),
        (*applied([{"op": "test", "path": "/a", "value": [0]}], {"a": [False]}), NOT_PATCHED, {"a": [False]}))),
    Difference("`remove` of the whole document", "leaves `null`", "an error", (
        (*applied([{"op": "remove", "path": ""}], {"a": 1}), None, Raised("JsonPatchConflict")),)),
    Difference("`add`, `copy` or `move` to `\"\"` if the document is not an object", "replaces it", "an error", (
        (*applied([{"op": "add", "path": "", "value": 1}], [2]), 1, Raised("TypeError")),
        (*applied([{"op": "copy", "from": "/0", "path": ""}], [2]), 2, Raised("TypeError")))),
    Difference("`copy` from `\"\"`, as to `/a/b`, or `move` from `\"\"` to `\"\"`", "works", "an error", (
        (*applied([{"op": "copy", "from": "", "path": "/a/b"}], {"a": {}}), {"a": {"b": {"a": {}}}}, Raised("JsonPatchConflict")),
        (*applied([{"op": "move", "from": "", "path": ""}], [1]), [1], Raised("TypeError")))),
    Difference("`move` of an element into itself, as `/0` to `/0/x`", "an error", "it goes into the element after it", (
        (*applied([{"op": "move", "from": "/0", "path": "/0/x"}], [1, {}]), NOT_PATCHED, [{"x": 1}]),)),
    Difference("`replace` of a member whose key is `-`", "works", "an error", (
        (*applied([{"op": "replace", "path": "/-", "value": 1}], {"-": 0}), {"-": 1}, Raised("InvalidJsonPatch")),)),
]

failures = 0


def outcome(call):
    """Returns the result of a call, or the name of its exception."""
    try:
        result = call()
    except Exception as error:  # the name is compared
        return Raised(type(error).__name__)
    return type(result).__name__ if type(result).__name__ == "EndOfList" else result


def outcome_error(call):
    """Returns the `JsonPatchError` of a call."""
    try:
        call()
    except jsonptr.JsonPatchError as error:
        return error
    raise AssertionError("no exception")


def in_order(value):
    """Returns a value with the members of each object in the order of their keys."""
    if isinstance(value, dict):
        return {key: in_order(value[key]) for key in sorted(value)}
    return [in_order(it) for it in value] if isinstance(value, list) else value


def same(ours, theirs):
    """Returns whether our result is theirs: equal, of the same types, and in the order of its keys."""
    return repr(ours) == repr(in_order(theirs))


def report(*words):
    global failures
    failures += 1
    print(*words)


def child(value, token):
    """Returns the child of a value that a token of a pointer names by RFC 6901, or None."""
    name = token.replace("~1", "/").replace("~0", "~")
    if isinstance(value, dict):
        return value.get(name)
    is_index = isinstance(value, list) and re.fullmatch("0|[1-9][0-9]*", name)
    return value[int(name)] if is_index and int(name) < len(value) else None


def is_named(value, pointer, is_resolved=True):
    """Returns whether a pointer leads to a named difference: a child of a string, `01` at an array, or `-` if it is resolved."""
    for token in pointer.split("/")[1:]:
        leading_zero = LEADING_ZERO and token.startswith("0") and token != "0"
        if isinstance(value, str) or isinstance(value, list) and (leading_zero or is_resolved and token == "-"):
            return True
        value = child(value, token)
    return False


def check_pointers():
    """Compares resolving, in documents and in text."""
    count = 0
    for value in DOCUMENTS:
        document, text = jsonptr.Document.of(value), json.dumps(value)
        for pointer in POINTERS:
            if is_named(value, pointer):
                continue
            count += 1
            theirs = outcome(lambda: jsonpointer.resolve_pointer(value, pointer))
            wanted = Raised("NotFound") if theirs == Raised("JsonPointerException") else theirs
            for ours in (outcome(lambda: document.resolve(pointer)),
                         outcome(lambda: json.loads(jsonptr.resolve_in_text(text, pointer)))):
                if not same(ours, wanted):
                    report("resolve", value, pointer, "ours:", ours, "theirs:", theirs)
            if repr(outcome(lambda: jsonptr.resolve(value, pointer))) != repr(wanted):
                report("resolve in a value", value, pointer, "theirs:", theirs)
    for text in TEXTS:
        ours, theirs = outcome(lambda: jsonptr.tokens(text)), outcome(lambda: jsonpointer.JsonPointer(text))
        if (ours, theirs) != (Raised("NotPointer"), Raised("JsonPointerException")):
            report("not a pointer", text, "ours:", ours, "theirs:", theirs)
    for pointer in POINTERS:
        if jsonptr.tokens(pointer) != jsonpointer.JsonPointer(pointer).parts:
            report("tokens", pointer, jsonptr.tokens(pointer), jsonpointer.JsonPointer(pointer).parts)
        if "".join("/" + jsonptr.escape(token) for token in jsonptr.tokens(pointer)) != pointer:
            report("escape", pointer)
    return count


def random_value(random, depth=3):
    """Returns a random value. Its objects have keys that read as indices, and keys that are escaped."""
    kind = random.random() if depth else 1
    if kind < 0.35:
        keys = random.sample(["b", "a", "", "0", "1", "-", "a/b", "m~n", "\u00e9"], random.randrange(4))
        return {key: random_value(random, depth - 1) for key in keys}
    if kind < 0.65:
        return [random_value(random, depth - 1) for _ in range(random.randrange(4))]
    return random.choice([None, True, False, 0, 1, -1, 1.0, 1.5, "", "a", 2 ** 53, 2 ** 64 - 1])


def pointers_of(value, pointer=""):
    """Yields the pointers of all values of a value."""
    yield pointer
    items = value.items() if isinstance(value, dict) else enumerate(value) if isinstance(value, list) else ()
    for token, inner in items:
        yield from pointers_of(inner, f"{pointer}/{jsonptr.escape(str(token))}")


def random_operation(random, value):
    """Returns a random operation on a value. Its pointers mostly lead to values of it, or just beside them."""
    def pointer():
        beside = random.choice(["", "", "/a", "/b", "/0", "/1", "/2", "/-", "/", "/01", "/+1", "/x~"])
        return random.choice(list(pointers_of(value))) + beside

    operation = {"op": random.choice(["add", "remove", "replace", "move", "copy", "test"]), "path": pointer(), "from": pointer()}
    operation["value"] = random_value(random, 2)
    if operation["op"] == "test" and random.random() < 0.5:
        found = outcome(lambda: jsonpointer.resolve_pointer(value, operation["path"]))
        operation["value"] = 0 if isinstance(found, Raised) or found == "EndOfList" else found
    if random.random() < 0.05:
        del operation[random.choice(list(operation))]
    return operation


def leads_to_named(value, operation):
    """Returns whether an operation on a value shows a named difference."""
    name, path, start = (operation.get(member, "") for member in ("op", "path", "from"))
    used = [path, start] if name in ("copy", "move") else [path]
    found = outcome(lambda: jsonpointer.resolve_pointer(value, path))
    return (any(is_named(value, pointer, False) for pointer in used)
            or name in ("copy", "move") and start == ""
            or path == "" and (name == "remove" or name in ("add", "copy", "move") and not isinstance(value, dict))
            or name == "move" and path.startswith(start + "/")
            or name == "replace" and path.endswith("/-")
            or name == "test" and found == operation.get("value") and repr(found) != repr(operation.get("value")))


def random_patches(count):
    """Yields random values, each with a patch of one operation that shows no named difference."""
    random = Random(1)
    while count:
        value = random_value(random)
        operation = random_operation(random, value)
        if not leads_to_named(value, operation):
            yield value, [operation]
            count -= 1


def check_patches():
    """Compares applying patches: both fail, or both return the same. Ours leaves the document after an error."""
    cases = [*itertools.product(DOCUMENTS, PATCHES), *random_patches(5_000)]
    for value, patch in cases:
        ours, theirs = map(outcome, applied(patch, value))
        if ours != NOT_PATCHED if isinstance(theirs, Raised) else not same(ours, theirs):
            report("patch", value, patch, "ours:", ours, "theirs:", theirs)
    for value in DOCUMENTS:
        document = jsonptr.Document.of(value)
        before = document.text()
        outcome(lambda: document.apply([{"op": "add", "path": "/x", "value": 1}, {"op": "remove", "path": "/none"}]))
        if document.text() != before:
            report("a failed patch changed", before, "to", document.text())
    return len(cases)


def check_inverses():
    """Checks that each patch that applies is taken back by its inverse, and that one that fails changes nothing."""
    count = 0
    for value, patch in itertools.product(DOCUMENTS, PATCHES):
        count += 1
        document = jsonptr.Document.of(value)
        before = document.text()
        after = outcome(lambda: jsonptr.Patch(patch).apply(value))
        back = outcome(lambda: jsonptr.Patch(patch).apply_with_inverse(document))
        if not isinstance(back, jsonptr.Patch):
            if (back, document.text()) != (after, before):
                report("a patch with an inverse failed", value, patch, back, document)
            continue
        if not same(document.value(), after):
            report("apply_with_inverse", value, patch, "made", document)
        document.apply(back)
        if document.text() != before:
            report("the inverse", value, patch, back, "made", document, "of", before)
    return count


def check_differences_of_documents():
    """Compares patches that turn one document into another: each library applies both."""
    count = 0
    for old, new in itertools.product(DOCUMENTS, repeat=2):
        if not isinstance(old, (list, dict)) or not isinstance(new, (list, dict)):
            continue
        count += 1
        ours = jsonptr.make_patch(old, new)
        if not same(ours.apply(old), new):
            report("make_patch, applied by us", old, new, ours)
        if not same(in_order(jsonpatch.JsonPatch(ours.operations).apply(old)), new):
            report("make_patch, applied by them", old, new, ours)
        if type(old) is type(new):
            theirs = jsonpatch.make_patch(old, new)
            if not same(jsonptr.Patch(theirs.to_string()).apply(old), new):
                report("their make_patch, applied by us", old, new, theirs)
    return count


def check_named():
    """Checks that each named difference is one, and that they are the rows of the table of docs/FROM_JSONPATCH.md."""
    with open(PAGE, encoding="utf-8") as file:
        table = re.search(r"^\| What \| here \| there \|\n\|[-|]+\n((?:\|.*\n)+)", file.read(), re.M)[1]
    rows = [f"| {it.what} | {it.here} | {it.there} |" for it in DIFFERENCES]
    for row in sorted(set(rows) ^ set(table.splitlines())):
        report("docs/FROM_JSONPATCH.md and the differences here:", row)
    for difference in DIFFERENCES:
        for ours, theirs, our_result, their_result in difference.cases:
            if repr(outcome(ours)) != repr(our_result) or repr(outcome(theirs)) != repr(their_result):
                report("difference:", difference.what, "ours:", outcome(ours), "theirs:", outcome(theirs))


def check_errors():
    """Checks the fields of exceptions."""
    try:
        jsonptr.Document('{"sizes": [3, 5]}').resolve("/sizes/2/unit")
    except jsonptr.NotFound as error:
        fields = (error.position, error.slash, error.offset, error.length, error.operation, error.member)
        if fields != (1, 6, 7, 1, None, None):
            report("fields", fields)
        if str(error) != "resolve failed: json pointer token at offset 6 is out of bounds":
            report("message", error)
    else:
        report("no exception")
    try:
        jsonptr.Document("{}").apply([{"op": "add", "path": "", "value": 1}, {"op": "copy", "path": "/b"}])
    except jsonptr.JsonPatchError as error:
        if (error.operation, error.member) != (1, "from"):
            report("fields", error.operation, error.member)
    else:
        report("no exception")
    for patch, member in (
        ([{"op": "move", "from": "/a", "path": "/b/x"}], "from"),
        ([{"op": "add", "path": "/a", "value": 1}, {"op": "move", "from": "/a", "path": "/b/x"}], "path"),
        ([{"op": "test", "path": "", "value": 1}], None),
    ):
        error = outcome_error(lambda: jsonptr.Document("{}").apply(patch))
        if (error.operation, error.member) != (len(patch) - 1, member):
            report("fields", error.operation, error.member)


def check_depth():
    """Checks that a document that would nest too deep is an exception, and that it is unchanged."""
    document = jsonptr.Document("[]")
    for call in (lambda: document.assign("/0" * 100_000, 1),
                 lambda: document.apply([{"op": "add", "path": "/0" * 10_001, "value": 1}])):
        if outcome(call) != Raised("TooDeep"):
            report("too deep", outcome(call))
    if document.text() != "[]":
        report("too deep", document.text()[:100])


def check_arguments():
    """Checks that an argument of another type is an exception, and never reaches the library."""

    class Text(str):
        pass

    document = jsonptr.Document(Text('{"a": [7]}'))
    if document.resolve(Text("/a/0")) != 7 or document.resolve(b"/a/0") != 7:
        report("a text of a class of its own")
    for text in (bytearray(b"/a/0"), memoryview(b"/a/0")):
        if document.resolve(text) != 7 or jsonptr.tokens(text) != ["a", "0"]:
            report("a text of another type of bytes")
    for wrong in (None, 5, ["/a"]):
        for call in (document.get, document.resolve, document.delete, jsonptr.tokens, jsonptr.escape, jsonptr.Document,
                     lambda text: document.assign(text, 1), lambda text: jsonptr.resolve_in_text("{}", text)):
            if outcome(lambda: call(wrong)) != Raised("TypeError"):
                report("argument", wrong, outcome(lambda: call(wrong)))


def check_threads():
    """Checks that threads may share a document: each reads its own member while others write theirs."""
    document = jsonptr.Document.of({str(number): "x" * (100 * number) for number in range(8)})

    def run(number):
        for length in range(200):
            document.assign(f"/{number}", "x" * (number * length))
            if document.resolve(f"/{number}") != "x" * (number * length):
                report("thread", number, "read another text")

    threads = [threading.Thread(target=run, args=[number]) for number in range(8)]
    for thread in threads:
        thread.start()
    for thread in threads:
        thread.join()


print("jsonpointer", jsonpointer.__version__, "and jsonpatch", jsonpatch.__version__)
print(check_pointers(), "pointers and documents compared")
print(check_patches(), "patches and documents compared")
print(check_inverses(), "patches and documents taken back")
print(check_differences_of_documents(), "pairs of documents compared")
check_named()
check_errors()
check_depth()
check_arguments()
check_threads()
sys.exit(failures > 0)
