"""The cases to time: a name, and the call with its arguments, as both programs read them."""
import json


def letters(number, length):
    """Returns a word of small letters, another for each number."""
    return "".join("abcdefghijklmnopqrstuvwxyz"[(7 * number + 3 * at) % 26] for at in range(length))


def plain(count, length=7):
    return "".join("/" + letters(number, length) for number in range(count))


def escaped(count):
    return "".join(f"/a~0b~1c{number}" for number in range(count))


SHORT, LONG, ESCAPED = plain(8), plain(1000), escaped(1000)
MIXED = "a/b~" * 1024


def nested(depth, kind):
    """Returns objects and arrays around a number, with the pointer to it."""
    value, pointer = 1, ""
    for level in range(depth):
        value, pointer = ([0, value], "/1" + pointer) if kind == "arrays" else ({"k": value, "l": 0}, "/k" + pointer)
    return value, pointer


def text_of(value, kind):
    """Returns a document as JSON, or as a value of TOML."""
    if kind == "json":
        return json.dumps(value, separators=(",", ":"))
    if isinstance(value, dict):
        return "{" + ", ".join(f"{json.dumps(key)} = {text_of(it, kind)}" for key, it in value.items()) + "}"
    if isinstance(value, list):
        return "[" + ", ".join(text_of(it, kind) for it in value) + "]"
    return json.dumps(value)


def texts():
    yield "parse, 3 tokens", "parse", "/foo/bar/0"
    yield "parse, 8 tokens", "parse", SHORT
    yield "parse, 1000 tokens", "parse", LONG
    yield "parse, 1000 tokens with escapes", "parse", ESCAPED
    yield "parse, an error at the end", "parse", LONG + "~"
    yield "parse, an error at the start", "parse", "a" + LONG
    for name, text in (("8 bytes", letters(0, 8)), ("4096 bytes", letters(0, 4096)), ("escapes alone", "~0~1" * 1024)):
        yield f"Token::from_encoded, {name}", "from_encoded", text
    for name, text in (("8 bytes", letters(0, 8)), ("4096 bytes", letters(0, 4096)), ("8 bytes, 4 escapes", MIXED[:8]), ("4096 bytes, half escapes", MIXED)):
        yield f"Token::new, {name}", "new", text
        yield f"decoded, {name}", "decoded", text
    for text in ("0", "123456", "18446744073709551615", "-", "00", "123456a"):
        yield f"index {text}", "index", text


def reads():
    for name, pointer in (("8 tokens", SHORT), ("1000 tokens", LONG), ("1000 tokens with escapes", ESCAPED)):
        for call in ("tokens", "decoded tokens", "split_front", "split_back"):
            yield f"{call}, a token of {name}", call, pointer
        for call in ("count", "front", "back", "parent", "to_buf"):
            yield f"{call}, {name}", call, pointer
        count, middle = pointer.count("/"), len(pointer) // 2
        slash = pointer.rindex("/", 0, middle)
        yield f"get, the middle of {name}", "get", pointer, str(count // 2)
        yield f"get, past {name}", "get", pointer, str(count)
        yield f"get of a range, {name}", "range", pointer, str(count // 4), str(count // 2)
        yield f"split_at_offset, {name}", "split_at_offset", pointer, str(slash)
        yield f"starts_with half, {name}", "starts_with", pointer, pointer[:slash]
        yield f"ends_with half, {name}", "ends_with", pointer, pointer[slash:]
        yield f"strip_prefix of half, {name}", "strip_prefix", pointer, pointer[:slash]
        yield f"strip_suffix of half, {name}", "strip_suffix", pointer, pointer[slash:]
        yield f"intersection with half, {name}", "intersection", pointer, pointer[:slash] + "/x"
        yield f"concat with half, {name}", "concat", pointer, pointer[:slash]
        yield f"==, {name}", "eq", pointer, pointer
        yield f"cmp with half, {name}", "cmp", pointer, pointer[:slash] + "/x"


def edits():
    for name, start in (("root", ""), ("8 tokens", SHORT)):
        yield f"push_back, 64 times, {name}", "edit", "push_back", start, "abcdefg", "64"
        yield f"push_back of an escape, 64 times, {name}", "edit", "push_back", start, "a/b~c", "64"
        yield f"push_front, 64 times, {name}", "edit", "push_front", start, "abcdefg", "64"
        yield f"append of 8 tokens, 16 times, {name}", "edit", "append", start, SHORT, "16"
    for name, start, times in (("8 tokens", SHORT, "8"), ("64 tokens", plain(64), "64"), ("64 tokens with escapes", escaped(64), "64")):
        yield f"pop_back of all, {name}", "edit", "pop_back", start, "", times
        yield f"pop_front of all, {name}", "edit", "pop_front", start, "", times
        yield f"replace in the middle, 64 times, {name}", "edit", "replace", start, "abcdefg", "64"


def documents():
    wide = {f"key{number}": number for number in range(10_000)}
    records = [{"id": number, "tags": ["x", "y"], "a/b": {"m~n": number}} for number in range(100)]
    for kind in ("json", "toml"):
        yield from at(kind, "a member of 4", {"a": 1, "b": [1, 2], "c": "x", "d": {}}, "/c", 64)
        yield from at(kind, "a member of 10000", wide, "/key7654", 1)
        yield from at(kind, "an element of 1000", [*range(1000)], "/500", 16)
        yield from at(kind, "a record with escapes", records, "/50/a~1b/m~0n", 1)
        for shape in ("objects", "arrays"):
            yield from at(kind, f"depth 32, {shape}", *nested(32, shape), 16)
        yield f"{kind}: resolve, not found among 10000", "resolve", kind, text_of(wide, kind), "/nothing", "1", "1"
        yield f"{kind}: resolve, past an array", "resolve", kind, text_of({"a": [1]}, kind), "/a/1", "1", "1"
        yield f"{kind}: resolve, below a scalar", "resolve", kind, text_of({"a": 1}, kind), "/a/b", "1", "1"
        small = text_of({"a": {}, "b": []}, kind)
        yield f"{kind}: assign, a new member", "assign", kind, small, "/a/b", "1", "64"
        yield f"{kind}: assign, a pushed element", "assign", kind, small, "/b/-", "1", "64"
        yield f"{kind}: assign, 8 objects expanded", "assign", kind, small, "/a" + SHORT, "1", "64"
        yield f"{kind}: assign, 8 arrays expanded", "assign", kind, small, "/a/x" + "/0" * 8, "1", "64"
        yield f"{kind}: assign, an error", "assign", kind, small, "/b/1", "1", "64"


def at(kind, name, document, pointer, copies):
    """Yields the calls on a node that exists."""
    text = text_of(document, kind)
    for call in ("resolve", "resolve_mut", "assign", "delete"):
        yield f"{kind}: {call}, {name}", call, kind, text, pointer, "1", str(copies)


def cases():
    for part in (texts, reads, edits, documents):
        yield from part()
