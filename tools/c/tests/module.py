"""Tests of the Python module alone: what pickles, copies, subclasses, processes and wrong arguments do."""
import ast
import concurrent.futures
import copy
import json
import math
import multiprocessing
import os
import pickle
import random
import re
import struct
import subprocess
import sys
import tempfile
import threading
import time
import urllib.parse

import jsonptr

TOP = f"{os.path.dirname(os.path.abspath(__file__))}/../../.."
PAGE = f"{TOP}/docs/C.md"
FIELDS = ("status", "kind", "position", "slash", "offset", "length", "operation", "member")


def caught(call, *arguments):
    """Returns the exception that a call raises."""
    try:
        value = call(*arguments)
    except Exception as error:
        return error
    raise AssertionError(f"{call} returned {value!r}")


def failing(pointer):
    """Raises `NotFound`, in a process of a pool."""
    return jsonptr.resolve({"a": 1}, pointer)


def errors():
    """Returns an exception of each class and shape."""
    deep = jsonptr.Document("[]")
    return [
        caught(failing, "/b"),
        caught(jsonptr.tokens, "a"),
        caught(jsonptr.tokens, "/\ud800"),
        caught(jsonptr.tokens, b"/\xff"),
        caught(jsonptr.Document, "[1"),
        caught(jsonptr.Patch([{"op": "remove", "path": "/x"}]).apply, {}),
        caught(jsonptr.Patch([{"op": "add", "path": "/x"}]).apply, {}),
        caught(deep.assign, "/-" * 10_001, 1),
        caught(jsonptr.resolve, [float("nan")], ""),
        caught(jsonptr.resolve, {"a": "\ud800"}, ""),
        caught(jsonptr.Document, '{"id": 12345678901234567890123}'),
        caught(deep.assign, "/7", 1),
        caught(jsonptr.from_fragment, "#/%20/~2"),
        caught(deep.keys),
    ]


# The class of each of these errors.
CLASSES = ("NotFound", "NotPointer", "JsonptrError", "JsonptrError", "NotJson", "JsonPatchError", "JsonPatchError", "TooDeep", "NotJson",
           "JsonptrError", "NotExact", "NotAssigned", "NotFragment", "JsonptrError")


def check_errors():
    """Checks that each error survives a copy and a pickle, with all its fields."""
    assert tuple(type(error).__name__ for error in errors()) == CLASSES and jsonptr.JsonPointerError is jsonptr.JsonptrError
    for error in errors():
        assert isinstance(error, jsonptr.JsonptrError), repr(error)
        for again in (copy.copy(error), copy.deepcopy(error), pickle.loads(pickle.dumps(error))):
            assert type(again) is type(error) and str(again) == str(error)
            assert all(getattr(again, name) == getattr(error, name) for name in FIELDS)
    assert errors()[0].length == 1 and errors()[5].operation == 0 and errors()[6].member == "value"


def check_processes():
    """Checks that an error of a worker reaches the parent, and that the pool goes on."""
    context = multiprocessing.get_context("spawn")
    with concurrent.futures.ProcessPoolExecutor(2, mp_context=context) as pool:
        error = caught(pool.submit(failing, "/b").result, 30)
        assert isinstance(error, jsonptr.NotFound) and error.offset == 1
        assert pool.submit(failing, "/a").result(30) == 1
    with context.Pool(1) as pool:
        assert isinstance(caught(pool.apply_async(failing, ("/b",)).get, 30), jsonptr.NotFound)


def check_documents():
    """Checks copies and pickles of documents and patches."""
    document = jsonptr.Document('{"a": [1.5, -0.0, 18446744073709551615]}')
    for again in (copy.copy(document), copy.deepcopy(document), pickle.loads(pickle.dumps(document))):
        again.assign("/b", 1)
        assert document.text() == '{"a":[1.5,-0.0,18446744073709551615]}' and again.resolve("/b") == 1
    patch = jsonptr.make_patch({"a": 1}, {"a": 2})
    assert patch and len(patch) == 1 and [it["op"] for it in patch] == ["replace"]
    assert patch == jsonptr.Patch(b' [ {"path": "/a", "value": 2, "op": "replace"} ]') == copy.copy(patch)
    assert patch != jsonptr.Patch([]) and not jsonptr.Patch([]) and not jsonptr.make_patch({}, {})
    assert jsonptr.Patch('[{"op":"test","path":"","value":1}]') != jsonptr.Patch('[{"op":"test","path":"","value":true}]')
    assert len({patch, pickle.loads(pickle.dumps(patch)), jsonptr.Patch([])}) == 2
    undo = jsonptr.Patch([{"op": "remove", "path": "/a"}]).apply_with_inverse(document)
    assert document.text() == "{}" and undo.operations == [{"op": "add", "path": "/a", "value": [1.5, -0.0, 2 ** 64 - 1]}]
    long = jsonptr.Patch([{"op": "replace", "path": "", "value": "x" * 10_000}])
    assert long.apply_with_inverse(document) == jsonptr.Patch([{"op": "replace", "path": "", "value": {}}])
    assert len(jsonptr.Patch([{"op": "remove", "path": ""}]).apply_with_inverse(document).text) > 10_000
    assert document.text() == "null"
    assert isinstance(caught(long.apply_with_inverse, {"a": 1}), TypeError)
    for text, kind, applied in (("garbage", "NotJson", "NotJson"), ("[NaN]", "NotJson", "NotJson"), ("{}", "JsonPatchError", "JsonPatchError"),
                                ("[]".encode("utf-16"), "NotJson", "JsonptrError")):
        assert type(caught(len, jsonptr.Patch(text))).__name__ == kind, text
        assert type(caught(jsonptr.Document("[]").apply, text)).__name__ == applied, text
    assert "has a method apply" in str(caught(patch.apply, document))


class Named(jsonptr.Document):
    """A document with a name, whose constructor takes other arguments."""

    def __init__(self, name, number):
        super().__init__(f"[{number}]")
        self.name = name


def check_copies():
    """Checks copies and pickles of a subclass, and a document that is made anew."""
    document = Named("a name", 1)
    document.assign("/-", 2)
    for again in (copy.copy(document), copy.deepcopy(document), pickle.loads(pickle.dumps(document))):
        assert type(again) is Named and (again.name, again.text()) == ("a name", "[1,2]")
        again.assign("/-", 3)
    assert document.text() == "[1,2]"
    # A pickle of the module's own classes has no name that version 0.2 did not have, and one of 0.2 is read.
    assert b"_remade" not in pickle.dumps(jsonptr.Document("[1]")) and pickle.dumps(jsonptr.Patch([])).count(b"jsonptr") == 1
    older = jsonptr.Patch.__new__(jsonptr.Patch)
    older.__dict__["text"] = b'[{"op": "add", "path": "", "value": 1e-400}]'
    assert type(caught(older.apply, 1)) is jsonptr.NotExact and older.apply(1, lossy=True) == 0.0
    made = jsonptr.Document("[1e-400]", lossy=True)
    assert copy.copy(made).text() == pickle.loads(pickle.dumps(made)).text() == made.text()
    handle = document._at
    jsonptr.Document.__init__(document, "{}")
    assert document._at is handle and document.text() == "{}"
    caught(jsonptr.Document.__init__, document, "[")
    assert document.text() == "{}"


def check_buffers():
    """Checks that results of any length are whole, that each is made once or twice, and that no long buffer is kept."""
    calls = []
    counted = jsonptr._get

    def count(*arguments):
        calls.append(arguments)
        return counted(*arguments)

    jsonptr._get = count
    try:
        for size in (0, 1, 500, 510, 511, 512, 513, 5_000, 65_000, 65_536, 70_000, 1_000_000):
            text = '{"a":"' + "x" * size + '","b":[1]}'
            document = jsonptr.Document(text)
            for call, wanted, most in ((document.text, text, 1), (document.value, {"a": "x" * size, "b": [1]}, 1),
                                       (lambda: document.resolve("/a"), "x" * size, 1 if size < 65_000 else 2)):
                calls.clear()
                assert call() == wanted and len(calls) <= most, (size, len(calls))
            calls.clear()
            assert isinstance(caught(document.get, "/c"), jsonptr.NotFound) and len(calls) == 1
            assert document._buffer.size.value <= 65_536
            document.assign("", 1)
            assert document.text() == "1"
    finally:
        jsonptr._get = counted


def check_fork():
    """Checks that no call waits for ever after a fork: a call on a document that another thread held raises an error."""
    if not hasattr(os, "fork"):
        return
    held, free = jsonptr.Document("[1]"), jsonptr.Document("[2]")
    with held._lock:
        child = os.fork()
        if child == 0:
            good = free.text() == "[2]"
            for call in (held.text, lambda: held.assign("/0", 1), lambda: jsonptr.make_patch(held, free), lambda: held.get("/0")):
                good = good and isinstance(caught(call), RuntimeError)
            del held
            os._exit(0 if good else 1)
    deadline = time.monotonic() + 20
    while (ended := os.waitpid(child, os.WNOHANG)) == (0, 0) and time.monotonic() < deadline:
        time.sleep(0.01)
    if ended == (0, 0):
        os.kill(child, 9)
    assert ended == (child, 0), ended
    assert held.text() == "[1]"


def check_later_library():
    """Checks an error with numbers that this module does not know, as a later library may have."""
    error = jsonptr._Error()
    error.status, error.member, error.kind = 99, 8, 77
    raised = caught(jsonptr._fail, 99, error)
    assert type(raised) is jsonptr.JsonptrError and (raised.status, raised.member, raised.kind) == (99, None, 77)


class Long(bytes):
    """Bytes that claim to be many."""

    def __len__(self):
        return 10**9

    def __bytes__(self):
        return Long(self)


class Text(str):
    """A text that encodes itself otherwise."""

    def encode(self, *_):
        return b"\xff"

    def __len__(self):
        return 10**9


def check_arguments():
    """Checks subclasses of `str` and `bytes`, and arguments of other types."""
    assert jsonptr.resolve_in_text(Long(b"[1]"), Text("/0")) == b"1"
    assert jsonptr.tokens(Long(b"/a")) == ["a"] and jsonptr.escape(Text("a/b")) == "a~1b"
    assert jsonptr.Document(Long(b"[1]")).resolve(Text("/0")) == 1
    for call in (jsonptr.tokens, jsonptr.escape, jsonptr.Document):
        assert isinstance(caught(call, 5), TypeError)
    assert isinstance(caught(jsonptr.resolve, {1, 2}, ""), TypeError)
    circle = []
    circle.append(circle)
    assert isinstance(caught(jsonptr.Document.of, circle), jsonptr.NotJson)
    for given in (bytearray(b"[1]"), memoryview(b"[1]")):
        assert jsonptr.Document(given).text() == "[1]" and jsonptr.resolve_in_text(given, bytearray(b"/0")) == b"1"
        assert jsonptr.locate(given, "/0") == (1, 2) and jsonptr.Patch(bytearray(b"[]")).apply([1]) == [1]


def check_exact():
    """Checks that a text whose numbers lose digits is an error, unless the caller allows it."""
    kept = "[0.1, 1.10, 1e5, -0, 18446744073709551615, 0.30000000000000004, 1234567890.12345, 9007199254740993]"
    assert jsonptr.Document(kept, lossy=True) == jsonptr.Document(kept) and jsonptr.lost_number(kept) is None
    for text, pointer, message, offset in (
            ('{"id": 12345678901234567890123}', "/id", "the number at /id loses digits", 7),
            (b'[1, {"a/b": 1e-400}]', "/1/a~1b", "the number at /1/a~1b loses digits", 12),
            ("18446744073709551616", "", "the number loses digits", 0),
            ('{"a": 1e-400, "a": 1}', None, "the number at offset 6 loses digits", 6)):
        error = caught(jsonptr.Document, text)
        assert type(error) is jsonptr.NotExact and str(error) == message and error.pointer == pointer, repr(error)
        assert (error.status, error.offset) == (15, offset) and error.length > 5
        assert copy.copy(error).pointer == pickle.loads(pickle.dumps(error)).pointer == pointer
        assert isinstance(jsonptr.Document(text, lossy=True), jsonptr.Document)
        if pointer is None:
            assert type(caught(jsonptr.lost_number, text)) is jsonptr.NotExact
        else:
            assert jsonptr.lost_number(text) == pointer
    assert caught(jsonptr.Document, "[1e-400, x]").status == 6 and caught(jsonptr.lost_number, "[x]").status == 6
    long = "k" * 10_000
    assert jsonptr.lost_number(f'{{"{long}": 1e-400}}') == f"/{long}"
    # What the module looks for in a text is in each number that loses digits.
    chance = random.Random(7)
    for _ in range(20_000):
        digits = "".join(chance.choices("0123456789", k=chance.randrange(1, 19)))
        point = chance.randrange(len(digits) + 1)
        number = f"{int(digits[:point] or 0)}.{digits[point:]}" if digits[point:] else str(int(digits))
        number = chance.choice(("", "-")) + number + chance.choice(("", "", "e5", "E-9", "e-330"))
        assert jsonptr._may_lose(number.encode()) or jsonptr.lost_number(number) is None, number
        value = chance.choice((chance.random(), chance.getrandbits(64), -chance.getrandbits(63), chance.uniform(-1e300, 1e300),
                               struct.unpack("d", bytes(chance.choices(range(256), k=8)))[0]))
        assert not math.isfinite(value) or jsonptr.lost_number(json.dumps(value)) is None, value


def check_doors():
    """Checks that each call with a value that would lose digits is an error, unless the caller allows it."""
    long, near = 12345678901234567890123, 1.2345678901234568e+22
    document = jsonptr.Document("{}")
    patch = jsonptr.Patch([{"op": "add", "path": "/id", "value": long}])
    text = '[{"op": "add", "path": "/id", "value": 1e-400}]'
    for call, pointer in (
            (lambda **lossy: jsonptr.Document.of({"id": long}, **lossy).value(), "/id"),
            (lambda **lossy: jsonptr.Document(f'{{"id": {long}}}', **lossy).value(), "/id"),
            (lambda **lossy: document.assign("/id", [long], **lossy) or {"id": document.resolve("/id/0")}, "/0"),
            (lambda **lossy: document.apply(patch, **lossy) or document.value(), "/0/value"),
            (lambda **lossy: document.apply(patch.operations, **lossy) or document.value(), "/0/value"),
            (lambda **lossy: document.apply(patch.text, **lossy) or document.value(), "/0/value"),
            (lambda **lossy: patch.apply_with_inverse(document, **lossy) and document.value(), "/0/value"),
            (lambda **lossy: patch.apply({}, **lossy), "/0/value"),
            (lambda **lossy: jsonptr.Patch([]).apply({"id": long}, **lossy), "/id"),
            (lambda **lossy: {"id": jsonptr.make_patch({"id": 1}, {"id": long}, **lossy).operations[0]["value"]}, "/id"),
            (lambda **lossy: {"id": jsonptr.make_patch({"id": long}, jsonptr.Document("{}"), **lossy) and near}, "/id"),
            (lambda **lossy: {"id": json.loads(jsonptr.resolve_in_text(f'{{"id": {long}}}', "/id", **lossy))}, "")):
        document = jsonptr.Document("{}")
        error = caught(call)
        assert type(error) is jsonptr.NotExact and error.pointer == pointer and error.length > 0, (pointer, repr(error))
        assert document.text() == "{}"
        assert call(lossy=True) == {"id": near}, pointer
    assert type(caught(document.apply, text)) is type(caught(document.apply, jsonptr.Patch(text))) is jsonptr.NotExact
    assert jsonptr.Patch(text).apply({}, lossy=True) == {"id": 0.0}
    # What is not lost is no error.
    assert jsonptr.resolve({"b": long, "a": {"d": 1, "c": long}}, "/b") == long
    assert repr(jsonptr.resolve({"b": {"d": 1, "c": long}}, "/b")) == repr({"d": 1, "c": long})
    assert jsonptr.resolve_in_text(f'{{"id": {long}, "a": 1}}', "/a") == b"1"
    assert jsonptr.Document.of([2**64 - 1, -2**63, 0.1]).value() == [2**64 - 1, -2**63, 0.1]
    assert type(caught(jsonptr.Document.of, [-2**63 - 1])) is type(caught(jsonptr.Document.of, [2**64])) is jsonptr.NotExact
    assert patch.operations[0]["value"] == long and pickle.loads(pickle.dumps(patch)) == patch
    assert type(caught(pickle.loads(pickle.dumps(patch)).apply, {})) is jsonptr.NotExact


def check_locations():
    """Checks where values are, and the pointers at offsets: in characters of a `str`, and in bytes."""
    text = '[1.0, {"~/": "\u00e9\\n"}]'
    data = text.encode()
    for pointer, start, end in (("", 0, 21), ("/0", 1, 4), ("/1", 6, 20), ("/1/~0~1", 13, 19)):
        for given in (data, Long(data)):
            span = jsonptr.locate(given, pointer)
            assert span == jsonptr.Span(start, end) == (start, end) and (span.start, span.end) == span, span
        span = jsonptr.locate(text, pointer)
        assert (text[:span.start].encode(), text[span.start:span.end].encode()) == (data[:start], data[start:end]), span
        assert jsonptr.locate(Text(text), pointer) == span
    wanted = {0: "", 1: "/0", 3: "/0", 4: "", 6: "/1", 8: "/1", 12: "/1", 13: "/1/~0~1", 18: "/1/~0~1", 19: "/1", 20: ""}
    assert all(jsonptr.pointer_at(data, at) == wanted[at] for at in wanted)
    for at in range(len(text)):
        assert jsonptr.pointer_at(text, at) == jsonptr.pointer_at(data, len(text[:at].encode())), at
    assert jsonptr.pointer_at(text, True) == "/0" and text.index("n") == 16 and jsonptr.pointer_at(text, 16) == "/1/~0~1"
    for offset in (20, 21, 2**64):
        error = caught(jsonptr.pointer_at, text, offset)
        assert (type(error), error.offset, str(error)) == (jsonptr.NotFound, offset, f"no value is at offset {offset}")
    text = text.replace("\u00e9", "ee")
    long = "k" * 10_000
    assert jsonptr.pointer_at(f'{{"{long}": 1}}', 10_005) == f"/{long}"
    for offset in (21, -1, 2**63, 2**64, 10**30):
        error = caught(jsonptr.pointer_at, text, offset)
        assert type(error) is jsonptr.NotFound and (error.status, error.offset, error.kind) == (17, offset, 0), repr(error)
        assert str(error) == f"no value is at offset {offset}" and isinstance(error, LookupError)
    error = caught(jsonptr.locate, text, "/1/x")
    assert type(error) is jsonptr.NotFound and (error.position, error.slash, error.offset, error.length) == (1, 2, 3, 1)
    for call, argument in ((jsonptr.locate, ""), (jsonptr.pointer_at, 0)):
        assert caught(call, "[1,", argument).status == 6 and caught(call, "[1,", argument).offset == 3
        assert caught(call, b'"\xff"', argument).status == 5 and caught(call, b'"\xff"', argument).member == "text"
        assert isinstance(caught(call, [1], argument), TypeError)
    assert caught(jsonptr.locate, "[", "x").status == 7 and isinstance(caught(jsonptr.locate, "1", 0), TypeError)
    assert isinstance(caught(jsonptr.pointer_at, "1", "0"), TypeError)


def check_tokens():
    """Checks the tokens of pointers, and that those of a long one take linear time."""
    assert jsonptr.tokens("") == [] and jsonptr.tokens("//~01/\u00e9~1") == ["", "~1", "\u00e9/"]
    start = time.process_time()
    assert jsonptr.tokens("/~0" * 400_000) == ["~"] * 400_000
    assert time.process_time() - start < 2


# What a fragment has unencoded besides letters and digits (RFC 3986, section 3.5).
OF_FRAGMENTS = "-._~!$&'()*+,;=:@/?"


def random_text(chance, most):
    """Returns a text of fewer characters than so many, of ASCII and of all planes."""
    ranges = (range(128), range(0xd800), range(0xe000, 0x110000))
    return "".join(chr(chance.choice(chance.choice(ranges))) for _ in range(chance.randrange(most)))


def check_fragments():
    """Checks fragments beside `urllib.parse`, of pointers of random characters, and the errors of those that are none."""
    chance = random.Random(11)
    for _ in range(3_000):
        parts = [random_text(chance, 4), random_text(chance, 8), ""][:chance.randrange(4)]
        pointer = "".join("/" + jsonptr.escape(part) for part in parts)
        fragment = "#" + urllib.parse.quote(pointer, safe=OF_FRAGMENTS)
        assert jsonptr.to_fragment(pointer) == fragment == jsonptr.to_fragment(pointer.encode()), pointer
        assert jsonptr.from_fragment(fragment) == pointer == jsonptr.from_fragment(fragment.encode()), fragment
        other = "#" + "".join(chr(byte) if chr(byte) in OF_FRAGMENTS and chance.random() < 0.5 else chance.choice(("%%%02X", "%%%02x")) % byte
                              for byte in pointer.encode())
        assert jsonptr.from_fragment(other) == jsonptr.from_fragment(other.encode()) == pointer == urllib.parse.unquote(other[1:]), other
    for byte in range(1, 128):
        text = f"#/{chr(byte)}"
        if chr(byte).isalnum() or chr(byte) in OF_FRAGMENTS.replace("~", ""):
            assert jsonptr.from_fragment(text) == text[1:] == jsonptr.from_fragment(jsonptr.to_fragment(text[1:])), text
        else:
            error = caught(jsonptr.from_fragment, text)
            assert type(error) is jsonptr.NotFragment and (error.status, error.offset) == (23, 2), text
    for text, kind, offset, slash in (("", 25, 0, 0), ("/a", 25, 0, 0), ("#/%20\u00e9 ", 26, 5, 0), ("##", 26, 1, 0), ("#/100%", 27, 5, 0),
                                      ("#/%e9", 28, 2, 0), ("#a", 1, 1, 0), ("#/%20/~2", 2, 6, 2)):
        error = caught(jsonptr.from_fragment, text)
        assert type(error) is jsonptr.NotFragment and isinstance(error, ValueError), repr(error)
        fields = (error.status, error.kind, error.offset, error.slash, error.position, error.length)
        assert fields == (23, kind, offset, slash, 0, 0), repr(error)
        assert str(error).startswith("not a URI fragment of a JSON Pointer: "), error
    error = caught(jsonptr.from_fragment, b"#/\xff")
    assert (type(error), error.status, error.offset, error.member) == (jsonptr.JsonptrError, 5, 2, "text"), repr(error)
    error = caught(jsonptr.from_fragment, "#\u00e9\ud800")
    assert (type(error), error.status, error.offset) == (jsonptr.JsonptrError, 5, 3), repr(error)
    assert type(caught(jsonptr.to_fragment, "a")) is jsonptr.NotPointer and caught(jsonptr.to_fragment, b"/\xff").member == "pointer"
    assert isinstance(caught(jsonptr.to_fragment, 1), TypeError) and isinstance(caught(jsonptr.from_fragment, None), TypeError)
    long = "/" + "\u00e9" * 100_000
    assert jsonptr.from_fragment(jsonptr.to_fragment(long)) == long and jsonptr.to_fragment(long) == "#/" + "%C3%A9" * 100_000
    assert jsonptr.from_fragment(Long(b"#/a")) == "/a" and jsonptr.to_fragment(Text("/a")) == "#/a"


def check_keys():
    """Checks the keys of objects: their order, an object that changes on the way, long keys, and errors."""
    chance = random.Random(12)
    for size in (0, 1, 2, 12, 200):
        value = {random_text(chance, 4): 1 for _ in range(size)}
        assert list(jsonptr.Document.of(value).keys()) == sorted(value) == list(jsonptr.Document.of([{"a/b": value}]).keys(b"/0/a~1b"))
    document = jsonptr.Document('{"a": 1, "b": {"x": 2}, "c": [3], "d": "\u00e9"}')
    assert [key for key in document.keys() if document.delete("/" + key)] == ["a", "b", "c", "d"] and document.text() == "{}"
    document = jsonptr.Document('{"b": 1, "d": 2}')
    keys = document.keys()
    document.apply([{"op": "add", "path": "/a", "value": 0}, {"op": "add", "path": "/c", "value": 0}, {"op": "remove", "path": "/d"}])
    assert list(keys) == ["b", "c"] and list(document.keys()) == ["a", "b", "c"] and list(keys) == []
    keys = document.keys()
    document.assign("", [])
    assert next(keys) == "a" and caught(next, keys).status == jsonptr.OTHER_TYPE
    long = jsonptr.Document.of({"k" * 1_000: 1, "k" * 100_000: 2, "": 3, "\0": 4})
    assert list(long.keys()) == ["", "\0", "k" * 1_000, "k" * 100_000] and long._buffer.size.value <= 65_536
    for text in ("[]", "1", '"a"', "null", "true", "1.5"):
        error = caught(jsonptr.Document(text).keys)
        assert (type(error), error.status, str(error)) == (jsonptr.JsonptrError, jsonptr.OTHER_TYPE, "the value is of another type")
    error = caught(long.keys, "/none")
    assert type(error) is jsonptr.NotFound and (error.position, error.slash, error.offset, error.length) == (0, 0, 1, 4)
    assert type(caught(long.keys, "none")) is jsonptr.NotPointer and caught(long.keys, b"/\xff").member == "pointer"
    assert isinstance(caught(long.keys, 1), TypeError)
    # Threads that read and one that writes: each key is one that the object has had.
    document, seen = jsonptr.Document.of({str(number): 1 for number in range(100, 200)}), []
    readers = [threading.Thread(target=lambda: seen.extend(document.keys())) for _ in range(4)]
    for reader in readers:
        reader.start()
    for number in range(100, 200):
        document.delete(f"/{number}")
        document.assign(f"/{number + 100}", 1)
    for reader in readers:
        reader.join()
    assert set(seen) <= {str(number) for number in range(100, 300)}
    assert list(document.keys()) == [str(number) for number in range(200, 300)]


def check_page():
    """Checks the first Python code of docs/C.md: it runs, and each expression has the value that is beside it."""
    with open(PAGE, encoding="utf-8") as file:
        code = re.search(r"^```python\n(.*?)^```$", file.read(), re.M | re.S)[1]
    rows, names, values = code.splitlines(), {"print": lambda *_: None}, 0
    for item in ast.parse(code).body:
        wanted = rows[item.end_lineno - 1].partition("  # ")[2]
        source = "\n".join(rows[item.lineno - 1:item.end_lineno])
        if isinstance(item, ast.Expr) and wanted:
            assert repr(eval(source, names)) == wanted, source
            values += 1
        else:
            exec(source, names)
    assert values == 7, values


def functions():
    """Returns the names of the functions of the header."""
    with open(f"{TOP}/tools/c/jsonptr.h", encoding="utf-8") as file:
        return sorted(set(re.findall(r"\b(jsonptr_\w+)\(", file.read())) - {"jsonptr_version"})


def stub(folder, version, names):
    """Compiles a library that has functions of these names, and says that it is of a version. Returns its path."""
    path = f"{folder}/{version}-{len(names)}"
    with open(f"{path}.c", "w", encoding="utf-8") as file:
        file.writelines(f"unsigned {name}(void) {{ return 1; }}\n" for name in names)
        file.write(f'const char *jsonptr_version(void) {{ return "{version}"; }}\n')
    compiler = os.environ.get("CC", "cc").split()
    subprocess.run([*compiler, "-shared", "-fPIC", f"{path}.c", "-o", f"{path}.so"], check=True)
    return f"{path}.so"


def imported(name):
    """Returns what an import of the module over a library of this path prints: its error, or that there is none."""
    code = "try:\n    import jsonptr\n    print('imported')\nexcept ImportError as error:\n    print(error.path, error)"
    run = subprocess.run([sys.executable, "-c", code], env={**os.environ, "JSONPTR_LIBRARY": name}, stdout=subprocess.PIPE)
    return run.stdout.decode()


def check_library():
    """Checks the errors of an import that finds no library, one of another version, or one that lacks a function."""
    for name in ("/no/such/file", __file__):
        assert imported(name).startswith(f"{name} JSONPTR_LIBRARY names no library"), imported(name)
    every, version = functions(), jsonptr.__version__
    with tempfile.TemporaryDirectory() as folder:
        for other in ("0.2.0", "0.3.1", "1.0.0"):
            name = stub(folder, other, every)
            assert imported(name) == f"{name} the library {name} is version {other}, and the module jsonptr is version {version}\n"
        assert imported(stub(folder, version, every)) == "imported\n"
        for lacking in ("jsonptr_document_get", "jsonptr_pointer_at_in_text"):
            name = stub(f"{folder}", version, [it for it in every if it != lacking])
            assert imported(name).startswith(f"{name} the library {name} lacks {lacking}. It says that it is version {version}")
        name = stub(folder, "0.2.0", ["jsonptr_document_parse"])
        assert "is version 0.2.0, and the module jsonptr is version" in imported(name)


def check_version():
    """Checks that the version is that of `crates/jsonptr/VERSION`."""
    with open(f"{TOP}/crates/jsonptr/VERSION", encoding="utf-8") as file:
        assert jsonptr.version() == jsonptr.__version__ == file.read().split()[0], jsonptr.version()
    with open(jsonptr.__file__, encoding="utf-8") as file:
        ast.parse(file.read(), feature_version=(3, 8))  # the least version that the page names


def main():
    for check in (check_errors, check_processes, check_documents, check_copies, check_buffers, check_fork, check_later_library,
                  check_arguments, check_exact, check_doors, check_locations, check_tokens, check_fragments, check_keys, check_page,
              check_library, check_version):
        check()
    print("the module jsonptr: errors, documents, copies, buffers, forks, arguments, exact numbers, locations, tokens, "
          "fragments, keys, the page, library")


if __name__ == "__main__":
    main()
