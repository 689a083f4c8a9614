"""Test cases of single calls: the words that `jsonptr_tool_calls` reads, and what it must write.

memory.py runs each of them. Add a case to the table of its call: with `no_alloc` if the call must not allocate, else
with `allocates`, or with the helper of its table (`edit`, `on`, `undoing`, `patched`, `session`).
"""
import json
from typing import NamedTuple


class Case(NamedTuple):
    """The input words, the result of the call, the state of the borrowed arguments after it, and a session's calls.

    A case with `no_alloc` makes no memory request, and one with `most` makes at most so many.
    """

    lines: tuple
    answer: str
    after: str = ""
    no_alloc: bool = False
    calls: tuple = ()
    most: int | None = None


USIZE_MAX = 18446744073709551615
PARSE_NO_SLASH = "json pointer failed to parse; does not start with a slash ('/') and is not empty"
PARSE_MALFORMED = (
    "json pointer failed to parse; the first token in the partial-pointer starting at offset {} is malformed"
)
TOKEN_BAD_ENCODING = "token contains invalid encoding at offset {}"
INDEX_BAD_INTEGER = "failed to parse token as an integer"
INDEX_LEADING_ZEROS = "token contained leading zeros, which are disallowed by RFC 6901"
INDEX_BAD_CHARACTER = "failed to parse token as an index"
REPLACE_OUT_OF_BOUNDS = "index {} is out of bounds ({})"
RESOLVE_BAD_INDEX = "resolve failed: json pointer token at offset {} failed to parse as an index"
RESOLVE_OUT_OF_BOUNDS = "resolve failed: json pointer token at offset {} is out of bounds"
RESOLVE_NOT_FOUND = "resolve failed: json pointer token at {} was not found in value"
RESOLVE_UNREACHABLE = (
    "resolve failed: json pointer token at {} is unreachable (previous token resolved to a scalar or null value)"
)
ASSIGN_BAD_INDEX = "assign failed: json pointer token at offset {} failed to parse as an array index"
ASSIGN_OUT_OF_BOUNDS = "assign failed: json pointer token at offset {} is out of bounds"

LONG = "a" * 100_000
SLASHES = "/" * 100_000
ENCODED = "~1" * 50_000
DECODED = "/" * 50_000
MANY = "/a" * 50_000
KINDS = ("plain", "tabled")
ORDERS = {"<": "Less", "=": "Equal", ">": "Greater"}


def allocates(*lines, answer):
    """A call that may allocate, and changes none of its arguments."""
    return Case(tuple(map(str, lines)), f"{answer}\n")


def no_alloc(*lines, answer):
    """A call that does not allocate, and changes none of its arguments."""
    return allocates(*lines, answer=answer)._replace(no_alloc=True)


def texts():
    """`Token::new` and `Token::from_encoded`."""
    for text, token in [
        ("/foo/~bar", "~1foo~1~0bar"),
        ("~1", "~01"),
        ("~bar", "~0bar"),
        ("a/b", "a~1b"),
        ("a~b", "a~0b"),
        (SLASHES, "~1" * 100_000),
        (LONG + "~", LONG + "~0"),
    ]:
        yield allocates("text", "Token::new", text, answer=token)
        yield allocates("text kept", "Token::new", text, answer=token)
    for text in ["abc", "", "-", "é", "plain é", LONG]:
        for call in ["Token::new", "Token::from_encoded"]:
            yield no_alloc("text", call, text, answer=text)
            yield no_alloc("text kept", call, text, answer=text)
    wrong = [
        ("foo/oops~bar", 3),
        ("a~/b", 2),
        ("~~0", 1),
        ("~", 1),
        ("é~x", 3),
        (LONG + "~", 100_001),
        (LONG + "/", 100_000),
    ]
    for text, offset in wrong:
        yield no_alloc("text", "Token::from_encoded", text, answer=TOKEN_BAD_ENCODING.format(offset))
        yield no_alloc("text kept", "Token::from_encoded", text, answer=TOKEN_BAD_ENCODING.format(offset))


def pointers_of_texts():
    """Parsing a text as a pointer, borrowed, owned and tabled."""
    for text in ["", "/", "//", "/foo", "/a~1b", "/a~1b/~0/é", "/foo/bar", "/é", MANY, SLASHES, "/" + ENCODED]:
        yield no_alloc("text", "Pointer::parse", text, answer=text)
        yield no_alloc("text kept", "PointerBuf::parse", text, answer=text)
        yield no_alloc("text kept", "PointerBuf::try_from", text, answer=text)
        yield allocates("text", "PointerBuf::from_text", text, answer=text)
        yield allocates("text kept", "TabledPointer::parse", text, answer=text)
    wrong = [
        ("foo", PARSE_NO_SLASH),
        ("~/", PARSE_NO_SLASH),
        ("é/a", PARSE_NO_SLASH),
        ("/~0/~~0", PARSE_MALFORMED.format(3)),
        ("/~1/~/x", PARSE_MALFORMED.format(3)),
        ("/foo/invalid~tilde", PARSE_MALFORMED.format(4)),
        ("/foo/invalid~tilde/invalid", PARSE_MALFORMED.format(4)),
        ("/a~2", PARSE_MALFORMED.format(0)),
        ("/foo~", PARSE_MALFORMED.format(0)),
        ("/é~", PARSE_MALFORMED.format(0)),
        (MANY + "~", PARSE_MALFORMED.format(99_998)),
        (LONG, PARSE_NO_SLASH),
    ]
    for text, fault in wrong:
        yield no_alloc("text", "Pointer::parse", text, answer=fault)
        yield no_alloc("text", "PointerBuf::from_text", text, answer=fault)
        yield no_alloc("text kept", "PointerBuf::try_from", text, answer=fault)
        for call in ["PointerBuf::parse", "TabledPointer::parse"]:
            yield no_alloc("text kept", call, text, answer=f"{fault}: {text}")


def cut():
    """Splitting off the first token, and counting tokens."""
    rows = [
        ("is_root", "//", "false"), ("is_root", "/a~1b/~0/é", "false"),
        ("split_front", "//", " and /"), ("split_front", "/a~1b/~0/é", "a~1b and /~0/é"),
        ("split_front", "/~0/é", "~0 and /é"), ("split_front", "/é", "é and "),
        ("front", "/a~1b/c", "a~1b"), ("split_front", "/a~1b/c", "a~1b and /c"),
        ("count", "/a~1b//~0", 3),
    ]
    for call, text, answer in rows:
        yield no_alloc("pointer", call, text, answer=answer)


def indices():
    """Parsing an index."""
    rows = [
        ("0", "0"), ("-", "-"), ("10", "10"), (str(USIZE_MAX), str(USIZE_MAX)),
        ("00", INDEX_LEADING_ZEROS), ("0a", INDEX_LEADING_ZEROS), ("0" * 100_000, INDEX_LEADING_ZEROS),
        ("+1", INDEX_BAD_CHARACTER), ("1a", INDEX_BAD_CHARACTER), ("1" * 99_999 + "a", INDEX_BAD_CHARACTER),
        *((text, INDEX_BAD_CHARACTER) for text in ["-1", "x", "é", "éé", "1é2", "12é"]),
        ("", INDEX_BAD_INTEGER), (str(USIZE_MAX + 1), INDEX_BAD_INTEGER), ("1" * 100_000, INDEX_BAD_INTEGER),
    ]
    for text, answer in rows:
        yield no_alloc("text", "Index::from_str", text, answer=answer)
        yield no_alloc("text", "Index::try_from", text, answer=answer)
        yield no_alloc("text kept", "Index::try_from", text, answer=answer)
        yield no_alloc("text kept", "Index::try_from lent", text, answer=answer)
        yield no_alloc("token", "to_index", text, "", answer=answer)
        yield no_alloc("token", "Index::try_from", text, "", answer=answer)
        yield no_alloc("token kept", "Index::try_from", text, answer=answer)


def tokens():
    """The methods of a token."""
    for token, text in [
        ("a~1b", "a/b"),
        ("~01", "~1"),
        ("m~0n", "m~n"),
        ("~0bar", "~bar"),
        ("~1foo~1~0bar", "/foo/~bar"),
        (ENCODED, DECODED),
        (LONG + "~0", LONG + "~"),
    ]:
        yield allocates("token", "decoded", token, "", answer=text)
    for token in ["abc", "", "é", LONG]:
        yield no_alloc("token", "decoded", token, "", answer=token)
    for token in ["abc", "a~1b", "", "é", "~01", "~0bar", "~1foo~1~0bar", LONG, ENCODED]:
        yield no_alloc("token", "encoded", token, "", answer=token)
        yield no_alloc("token kept", "into_encoded", token, answer=token)
        yield allocates("token", "to_owned", token, "", answer=token)
        yield allocates("token kept", "into_owned", token, answer=token)
        yield allocates("token kept", "clone", token, answer=token)
        yield allocates("token owned", "clone", token, answer=token)
        for call in ["into_owned", "into_encoded"]:
            yield no_alloc("token owned", call, token, answer=token)
        yield allocates("token kept", "PointerBuf::from_token", token, answer="/" + token)
        yield no_alloc("token", "==", token, token, answer="true")
        yield no_alloc("token", "cmp", token, token + "0", answer="Less")
        yield no_alloc("token", "is_next", token, "", answer="false")
    yield no_alloc("token", "is_next", "-", "", answer="true")
    for token in ["--", "0"]:
        yield no_alloc("token", "is_next", token, "", answer="false")


def numbers():
    """Tokens of numbers: the maximum of each unsigned type, and the minimum of each signed one."""
    for bits in [8, 16, 32, 64, 128]:
        greatest, least = 2**bits - 1, -(2 ** (bits - 1))
        yield allocates("number", f"u{bits}:{greatest}", answer=greatest)
        yield allocates("number", f"i{bits}:{least}", answer=least)
    yield allocates("number", f"usize:{USIZE_MAX}", answer=USIZE_MAX)
    yield allocates("number", f"isize:{-(2**63)}", answer=-(2**63))
    yield allocates("number", f"PointerBuf from:{USIZE_MAX}", answer=f"/{USIZE_MAX}")


def measures():
    """The methods that read one pointer: as a whole, its first and its last token."""
    pointers = ["", "/", "/foo", "/foo/bar/qux", "//a", "/a~1b/~0", "/foo/~0~1//", "/foo/b~1r", "/foo/b~1r/"]
    for text in [*pointers, MANY, SLASHES, "/" + LONG, "/x/" + ENCODED]:
        parts = text.split("/")[1:]
        front, last = text.rpartition("/")[::2]
        first, rest = parts[0] if parts else "none", text[len(parts[0]) + 1 :] if parts else ""
        back = last if parts else "none"
        rows = [
            ("as_str", text), ("len", len(text)), ("count", len(parts)),
            ("is_empty", str(not text).lower()), ("is_root", str(not text).lower()),
            ("tokens", back), ("components", back if parts else "root"),
            ("front", first), ("first", first), ("back", back), ("last", back),
            ("parent", front if parts else "none"),
            ("split_front", f"{first} and {rest}" if parts else "none"),
            ("split_back", f"{front} and {back}" if parts else "none"),
        ]
        for call, answer in rows:
            yield no_alloc("pointer", call, text, answer=answer)
        table = "".join(f"{at} " for at, it in enumerate(text) if it == "/")
        rows = [("as_ptr", text), ("offsets", table), ("count", len(parts)), ("front", first), ("back", back)]
        for call, answer in [*rows, ("parent", front if parts else "none")]:
            yield no_alloc("tabled", call, text, 0, 0, answer=answer)
        for call in ["to_buf", "PointerBuf::from_tokens"]:
            yield allocates("pointer", call, text, answer=text)
        yield allocates("pointer", "to_json_value", text, answer=f'"{text}"')
    for text, length in [("/foo/bar", 8), ("/foo/bar/~0", 11)]:
        yield no_alloc("pointer", "len", text, answer=length)
    tables = [("/a", "0 "), ("//", "0 1 "), ("/foo/bar/baz", "0 4 8 "), ("/é~0/~1/日本/", "0 5 8 15 ")]
    for text, table in tables:
        yield no_alloc("tabled", "offsets", text, 0, 0, answer=table)


def pairs():
    """The methods that take two pointers."""
    rows = [
        ("starts_with", "/foobar", "/foo", "false"), ("strip_prefix", "/foobar", "/foo", "none"),
        ("starts_with", "/foo/bar", "/foo", "true"), ("strip_prefix", "/foo/bar", "/foo", "/bar"),
        ("ends_with", "/foo", "", "false"), ("strip_suffix", "/foo", "", "/foo"),
        ("ends_with", "/foo/bar", "/bar", "true"), ("strip_suffix", "/foo/bar", "/bar", "/foo"),
        ("intersection", "/foo", "/fob", ""), ("intersection", "/a/b/c", "/a/b/d", "/a/b"),
        ("starts_with", MANY + "/b", MANY, "true"), ("strip_prefix", MANY + "/b", MANY, "/b"),
        ("ends_with", "/b" + MANY, MANY, "true"), ("strip_suffix", "/b" + MANY, MANY, "/b"),
        ("intersection", MANY + "/b", MANY + "/c", MANY),
    ]
    for call, one, other, answer in rows:
        yield no_alloc("pointers", call, one, other, answer=answer)
    prefixes = [
        ("/foo/bar", "", "/foo/bar"),
        ("/foo", "/foo", ""),
        ("/foo", "/foo/", "none"),
        ("//a", "/", "/a"),
        ("", "/", "none"),
    ]
    for one, other, left in prefixes:
        yield no_alloc("pointers", "strip_prefix", one, other, answer=left)
        yield no_alloc("pointers", "starts_with", one, other, answer=str(left != "none").lower())
    suffixes = [
        ("", "", ""),
        ("/foo/bar", "/foo/bar", ""),
        ("/foo/bar", "/foo", "none"),
        ("/a//", "/", "/a/"),
    ]
    for one, other, left in suffixes:
        yield no_alloc("pointers", "strip_suffix", one, other, answer=left)
        yield no_alloc("pointers", "ends_with", one, other, answer=str(left != "none").lower())
    common = [
        ("/foo", "/foobar", ""),
        ("/foo/bar", "/foo/baz", "/foo"),
        ("/foo/bar", "/foo", "/foo"),
        ("/foo//a", "/foo//b", "/foo/"),
        ("", "/a", ""),
    ]
    for one, other, front in common:
        yield no_alloc("pointers", "intersection", one, other, answer=front)
        yield no_alloc("pointers", "intersection", other, one, answer=front)
    yield no_alloc("pointers", "intersection", "/fob", "/foo", answer="")
    yield no_alloc("pointers", "intersection", "/foo/bar", "/foo/bar", answer="/foo/bar")
    orders = [
        ("/a", "/a", "="),
        ("/a", "/b", "<"),
        ("/a/b", "/a", ">"),
        ("/a~1b", "/a~0", ">"),
        (MANY, MANY + "/", "<"),
        (MANY, MANY, "="),
    ]
    for one, other, order in orders:
        equal = str(order == "=").lower()
        for group in ["pointers", "tabled two"]:
            yield no_alloc(group, "==", one, other, answer=equal)
            yield no_alloc(group, "cmp", one, other, answer=ORDERS[order])
        for kind in ["pointer", *KINDS]:
            yield no_alloc("hash", kind, one, other, answer=equal)
    yield no_alloc("hash", "token", LONG, LONG, answer="true")
    for one, other in [
        ("/a", "/b"),
        ("", "/"),
        ("/a", ""),
        ("", ""),
        ("/a", "/b/~0"),
        ("/a~1b", "/~0"),
        (MANY, MANY),
        ("/" + LONG, "/" + ENCODED),
    ]:
        yield allocates("pointers", "concat", one, other, answer=one + other)
    for token in ["x", "", "~0~1", LONG, ENCODED]:
        yield allocates("pointer with", "with_leading_token", "/a/b", token, answer=f"/{token}/a/b")
        yield allocates("pointer with", "with_trailing_token", "/a/b", token, answer=f"/a/b/{token}")
    yield allocates("pointer with", "with_leading_token", "/a", "~0", answer="/~0/a")
    yield allocates("pointer with", "with_trailing_token", "/a", "~1", answer="/a/~1")


def ranges():
    """`get` with each kind of range, and both splits, on plain and on tabled pointers."""
    three = "/foo/bar/qux"
    rows = [
        ("at", three, 0, 0, "foo"),
        ("at", three, 3, 0, "none"),
        ("at", three, 2, 0, "qux"),
        ("at", three, USIZE_MAX, 0, "none"),
        ("at", "/a~1b", 0, 0, "a~1b"),
        ("at", "/foo/b~1r/", 0, 0, "foo"),
        ("at", "/foo/b~1r/", 1, 0, "b~1r"),
        ("at", "/foo/b~1r/", 2, 0, ""),
        ("at", "/foo/b~1r/", 3, 0, "none"),
        ("at", "/foo/b~1r/", USIZE_MAX, 0, "none"),
        ("to", three, 1, 0, "/foo"),
        ("range", three, 1, 3, "/bar/qux"),
        ("inclusive", three, 1, 2, "/bar/qux"),
        ("from", three, 2, 0, "/qux"),
        ("to inclusive", three, 1, 0, "/foo/bar"),
        ("all", three, 0, 0, three),
        ("to", three, 4, 0, "none"),
        ("range", three, 1, 1, ""),
        ("range", three, 1, 4, "none"),
        ("range", three, 2, 1, "none"),
        ("range", three, 3, 3, "none"),
        ("from", three, 1, 0, "/bar/qux"),
        ("from", three, 3, 0, "none"),
        ("inclusive", three, 2, 1, "none"),
        ("inclusive", three, 0, USIZE_MAX, "none"),
        ("to inclusive", three, 3, 0, "none"),
        ("range", "/foo", 0, 0, ""),
        ("range", "/foo", 1, 1, "none"),
        ("range", "/foo", USIZE_MAX, USIZE_MAX, "none"),
        ("to", "/foo", USIZE_MAX, 0, "none"),
        ("to inclusive", "/foo", USIZE_MAX, 0, "none"),
        ("inclusive", "/foo", 0, USIZE_MAX, "none"),
        ("from", "", 0, 0, "none"),
        ("to", "", 0, 0, ""),
        ("all", "", 0, 0, ""),
        ("range", "/a", USIZE_MAX, USIZE_MAX, "none"),
        ("to", "/a", USIZE_MAX, 0, "none"),
        ("to inclusive", "/a", USIZE_MAX, 0, "none"),
        ("inclusive", "/a", 0, USIZE_MAX, "none"),
        ("at", "/a", USIZE_MAX, 0, "none"),
        ("from", "/a", USIZE_MAX, 0, "none"),
        ("inclusive", "/a", USIZE_MAX, USIZE_MAX, "none"),
        ("excluded", "/a/b", 0, 1, ""),
        ("excluded", "/a", 0, 1, "none"),
        ("excluded", "/a", USIZE_MAX, USIZE_MAX, "none"),
        ("excluded", "/a", USIZE_MAX, 0, "none"),
        ("excluded", "/a/b/c", 0, 2, "/b"),
        ("split_at_offset", "/foo/bar/baz", 0, 0, " and /foo/bar/baz"),
        ("split_at_offset", "/foo/bar/baz", 4, 0, "/foo and /bar/baz"),
        ("split_at_offset", "/foo/bar/baz", 8, 0, "/foo/bar and /baz"),
        ("split_at_offset", "/foo/bar/baz", 3, 0, "none"),
        ("split_at_offset", "/foo/bar/baz", 12, 0, "none"),
        ("split_at_offset", "/foo/bar/baz", USIZE_MAX, 0, "none"),
        ("split_at_offset", "/a", USIZE_MAX, 0, "none"),
        ("split_at", "/foo/bar/baz", 0, 0, " and /foo/bar/baz"),
        ("split_at", "/foo/bar/baz", 1, 0, "/foo and /bar/baz"),
        ("split_at", "/foo/bar/baz", 2, 0, "/foo/bar and /baz"),
        ("split_at", "/foo/bar/baz", 3, 0, "/foo/bar/baz and "),
        ("split_at", "/foo/bar/baz", 4, 0, "none"),
        ("split_at", "", 0, 0, " and "),
        ("split_at", "", 1, 0, "none"),
        ("split_at", "/a", USIZE_MAX, 0, "none"),
        ("split_at", "//~1/", 2, 0, "//~1 and /"),
        ("at", MANY, 49_999, 0, "a"),
        ("at", MANY, 50_000, 0, "none"),
        ("range", MANY, 1, 49_999, "/a" * 49_998),
        ("from", MANY, 49_999, 0, "/a"),
        ("to inclusive", MANY, 49_999, 0, MANY),
        ("split_at_offset", MANY, 99_998, 0, MANY[2:] + " and /a"),
        ("split_at", MANY, 49_999, 0, MANY[2:] + " and /a"),
    ]
    for call, pointer, first, second, answer in rows:
        for group in ["range", "tabled"]:
            yield no_alloc(group, call, pointer, first, second, answer=answer)


def copies():
    """Clones of owned pointers, and conversions between plain and tabled ones."""
    texts = ["", "/", "/a", "//", "/a/b", "/a~1b", "/foo/bar/baz", "/é~0/~1/日本/", MANY, "/" + ENCODED]
    for text in texts:
        for call in ["PointerBuf::clone", "from_plain"]:
            yield allocates("kept", call, text, answer=text)
        yield allocates("tabled kept", "TabledPointer::clone", text, answer=text)
        yield no_alloc("tabled kept", "into_plain", text, answer=text)
    for call in ["PointerBuf::new", "PointerBuf::root", "TabledPointer::new"]:
        yield no_alloc("kept", call, "/a", answer="")


def edit(kind, call, pointer, text="", place=0, *, answer="done", after):
    """A call that changes a pointer."""
    lines = ("edit", call, pointer, kind, text, str(place))
    return Case(lines, f"{answer}\n", f"{after}\n")


def edits():
    """The calls that change a pointer, plain and tabled."""
    tokens = [("a", "a"), ("", ""), ("~/", "~0~1"), (LONG, LONG), (DECODED, ENCODED)]
    for kind in KINDS:
        for text, token in tokens:
            for pointer in ["", "/", "/foo/bar", MANY]:
                yield edit(kind, "push_back", pointer, text, after=f"{pointer}/{token}")
                yield edit(kind, "push_front", pointer, text, after=f"/{token}{pointer}")
            yield edit(kind, "pop_back", f"/x/{token}", answer=token, after="/x")
            yield edit(kind, "pop_front", f"/{token}/x", answer=token, after="/x")
            yield edit(kind, "replace", "/a/b", text, 1, answer="b", after=f"/a/{token}")
            yield edit(kind, "replace", f"/a/{token}/c", "b", 1, answer=token, after="/a/b/c")
            yield edit(kind, "append", "/x", f"/{token}/y", after=f"/x/{token}/y")
            yield edit(kind, "append", "", f"/{token}", after=f"/{token}")
            yield edit(kind, "set_text", "/x", f"/{token}/y", after=f"/{token}/y")
            yield edit(kind, "clear", f"/{token}", after="")._replace(no_alloc=True)
        yield edit(kind, "pop_front", "//a", answer="", after="/a")
        yield edit(kind, "push_back", "/foo/bar", "~", after="/foo/bar/~0")
        yield edit(kind, "push_front", "/", "x", after="/x/")
        yield edit(kind, "append", "/a", "", after="/a")
        yield edit(kind, "append", "", "", after="")
        yield edit(kind, "append", "", "/a//c", after="/a//c")
        yield edit(kind, "append", "/a", "/b/~0", after="/a/b/~0")
        yield edit(kind, "append", "/a/b", "/c", after="/a/b/c")
        yield edit(kind, "pop_front", "/a", answer="a", after="")
        yield edit(kind, "pop_back", "/foo/bar/~0", answer="~0", after="/foo/bar")
        yield edit(kind, "push_front", "/foo/bar/~0", "a/b", after="/a~1b/foo/bar/~0")
        yield edit(kind, "pop_back", "/a~1b/foo/bar/~0", answer="~0", after="/a~1b/foo/bar")
        yield edit(kind, "replace", "/a/~0~1", "é", 0, answer="a", after="/é/~0~1")
        yield edit(kind, "replace", "/a//c", "~/~", 1, answer="", after="/a/~0~1~0/c")
        yield edit(kind, "replace", "/a/~0~1~0/c", "", 0, answer="a", after="//~0~1~0/c")
        yield edit(kind, "set_text", "/x", "/a/b", after="/a/b")
        yield edit(kind, "append", MANY, MANY, after=MANY + MANY)
        yield edit(kind, "pop_back", MANY, answer="a", after=MANY[2:])
        yield edit(kind, "pop_front", MANY, answer="a", after=MANY[2:])
        yield edit(kind, "replace", MANY, LONG, 25_000, answer="a", after="/a" * 25_000 + f"/{LONG}" + "/a" * 24_999)
        unchanged = [
            edit(kind, "pop_front", "", answer="none", after=""),
            edit(kind, "pop_back", "", answer="none", after=""),
            edit(kind, "replace", "", "b", 0, answer=REPLACE_OUT_OF_BOUNDS.format(0, 0), after=""),
            edit(kind, "replace", "/a/b", "b", 2, answer=REPLACE_OUT_OF_BOUNDS.format(2, 2), after="/a/b"),
            edit(kind, "replace", "/a/b", "b", 3, answer=REPLACE_OUT_OF_BOUNDS.format(3, 2), after="/a/b"),
            edit(kind, "replace", "//", "b", USIZE_MAX, answer=REPLACE_OUT_OF_BOUNDS.format(USIZE_MAX, 2), after="//"),
            edit(kind, "replace", "/a", "x", USIZE_MAX, answer=REPLACE_OUT_OF_BOUNDS.format(USIZE_MAX, 1), after="/a"),
            edit(kind, "replace", MANY, "x", 50_000, answer=REPLACE_OUT_OF_BOUNDS.format(50_000, 50_000), after=MANY),
            edit(kind, "set_text", "/a", "foo", answer=f"{PARSE_NO_SLASH}: foo", after="/a"),
            edit(kind, "set_text", "/a/b", "foo", answer=f"{PARSE_NO_SLASH}: foo", after="/a/b"),
            edit(kind, "clear", "/a~1b/foo/bar", after=""),
            edit(kind, "set_text", "/a", "/b~", answer=f"{PARSE_MALFORMED.format(0)}: /b~", after="/a"),
            edit(kind, "set_text", "/a", LONG, answer=f"{PARSE_NO_SLASH}: {LONG}", after="/a"),
        ]
        for case in unchanged:
            yield case._replace(no_alloc=True)


def owned():
    """Owned pointers parsed from a text, and the labels of their errors on any subject."""
    yield allocates("text", "PointerBuf::from_text", "/a~1b/", answer="/a~1b/")
    yield no_alloc("text kept", "PointerBuf::parse", "/a~1b/", answer="/a~1b/")
    yield no_alloc("text kept", "PointerBuf::try_from", "/a~1b/", answer="/a~1b/")
    yield no_alloc("show", "pointer", "/a~1b/~0", answer="/a~1b/~0")
    tilde = "'~' must be followed by '0' or '1'"
    for text, offset, length in [("/foo~", 4, 1), ("/é~", 3, 1), ("/a~2", 2, 2)]:
        yield allocates("report", "labels", "pointer", text, answer=f"{offset}+{length} {tilde}")
    for subject, length in [("", 1), ("abc", 1), ("/foo", 2)]:
        yield allocates("fields", "labels", *of_pointer(0, 2), subject, answer=f"2+{length} {tilde}")
    yield no_alloc("fields", "labels", *of_pointer(USIZE_MAX, 1), "/a~2", answer="none")
    yield allocates("fields", "render", *of_pointer(USIZE_MAX, 1), "/a~2", answer="/a~2")


def on(kind, document, call, pointer, value="1", *, answer, after, no_alloc=False):
    """A call on a document at a pointer."""
    lines = ("document", kind, document, call, pointer, *([] if call == "resolve" else [value]))
    return Case(lines, f"{answer}\n", f"{after}\n", no_alloc)


SECTION_5 = r'{"":0," ":7,"a/b":1,"c%d":2,"e^f":3,"foo":["bar","baz"],"g|h":4,"i\\j":5,"k\"l":6,"m~n":8}'
VECTORS = [
    ("", SECTION_5), ("/foo", '["bar","baz"]'), ("/foo/0", '"bar"'), ("/", "0"), ("/a~1b", "1"), ("/c%d", "2"),
    ("/e^f", "3"), ("/g|h", "4"), ("/i\\j", "5"), ('/k"l', "6"), ("/ ", "7"), ("/m~0n", "8"),
]


def in_text():
    """Resolving in text."""
    calls = ("resolve_in_text", "resolve_in_text_with", "resolve_in_slice")
    for pointer, value in VECTORS:
        for call in calls:
            yield allocates("in text", call, SECTION_5, pointer, answer=value)
        yield allocates("in text", "exists_in_text", SECTION_5, pointer, answer="true")
    errors = [
        ('{"foo":["bar"]}', "/foo/-", RESOLVE_OUT_OF_BOUNDS.format(4)), ('{"a":{}}', "/a/", RESOLVE_NOT_FOUND.format(2)),
        ('{"foo":["bar"]}', "/foo/01", RESOLVE_BAD_INDEX.format(4)), ('{"a":1}', "/a/b", RESOLVE_UNREACHABLE.format(2)),
        ("{}", "/" + LONG, RESOLVE_NOT_FOUND.format(0)), ("{}", "/a" * 50, RESOLVE_NOT_FOUND.format(0)),
    ]
    for text, pointer, error in errors:
        for call in calls:
            yield allocates("in text", call, text, pointer, answer=error)
        yield allocates("in text", "exists_in_text", text, pointer, answer="false")
    for text in ["", "{", '{"a":1', '{"a":1}}', '{"b":1e309,"a":1}', '{"a":1,"b":"\\ud800"}', "[" * 128 + "]" * 128]:
        for call in (*calls, "exists_in_text"):
            yield allocates("in text", call, text, "/a", answer="text is not JSON")
    found = [
        ('{"a":1,"a":[{"b":2,"b":3}],"c":[]}', "/a/0/b", "3"), ('{"a":[1, "x\\n", {"b" : null}], "c":2}', "/a", '[1,"x\\n",{"b":null}]'),
        (f'{{"a":"{LONG}","b":[1]}}', "/b/0", "1"), (f'{{"a":"{LONG}","b":[1]}}', "/a", f'"{LONG}"'), ("[1,2]", "", "[1,2]"),
    ]
    for text, pointer, value in found:
        for call in calls:
            yield allocates("in text", call, text, pointer, answer=value)
        yield allocates("in text", "exists_in_text", text, pointer, answer="true")


def patch_of(words):
    """Returns the patch document of operations, each of which is its name and its two arguments, or one."""
    words, operations = iter(words), []
    for name in words:
        pointer = json.dumps(next(words), ensure_ascii=False)
        if name == "remove":
            rest = f'"path":{pointer}'
        elif name in ("move", "copy"):
            rest = f'"from":{pointer},"path":{json.dumps(next(words), ensure_ascii=False)}'
        else:
            rest = f'"path":{pointer},"value":{next(words)}'
        operations.append(f'{{"op":"{name}",{rest}}}')
    return f"[{','.join(operations)}]"


def edited(*lines, answer):
    """An edit in a text, which is borrowed: the command and its arguments. The text is the second line."""
    if lines[0] == "apply in text":
        lines = (*lines[:2], patch_of(lines[2:]))
    return Case(lines, f"{answer}\n", f"{lines[1]}\n")


def edits_in_text():
    """Edits in a text."""
    pretty = '{ "b" : 1.50, "a" : [ 2 ,\t{"c":"\\u0041"} ] }'
    assigned = [
        ("/b", "2", '{ "b" : 2, "a" : [ 2 ,\t{"c":"\\u0041"} ] }'),
        ("/a/1/c", '{"y":1,"x":[]}', '{ "b" : 1.50, "a" : [ 2 ,\t{"c":{"x":[],\t"y":1}} ] }'),
        ("/a/1/c/-/e", "null", '{ "b" : 1.50, "a" : [ 2 ,\t{"c":[ {"e":null} ]} ] }'),
        ("/a/-", '"x"', '{ "b" : 1.50, "a" : [ 2 ,\t{"c":"\\u0041"},\t"x" ] }'),
        ("/a/1/d~1/0", "0", '{ "b" : 1.50, "a" : [ 2 ,\t{"c":"\\u0041","d/":[ 0 ]} ] }'),
        ("", "[]", "[]"),
    ]
    for pointer, value, text in assigned:
        for call in ("assign in text", "assign in text with"):
            yield edited(call, pretty, pointer, value, answer=f"in place {text}")
    yield edited("assign in text", pretty, "/a/3", "0", answer=ASSIGN_OUT_OF_BOUNDS.format(2))
    yield edited("assign in text", pretty, "/a/x", "0", answer=ASSIGN_BAD_INDEX.format(2))
    yield edited("assign in text", "{}", "/0" * 128, "0", answer="document would nest deeper than 127")
    deepest = "in place " + '{"a":' + "[" * 126 + "null" + "]" * 126 + "}"
    yield edited("assign in text", "{}", "/a" + "/0" * 126, "null", answer=deepest)
    yield edited("assign in text", "{}", "/a" + "/0" * 127, "null", answer="document would nest deeper than 127")
    yield edited("assign in text", f'{{"a":"{LONG}","b":[1]}}', "/b/-", "2", answer=f'in place {{"a":"{LONG}","b":[1,2]}}')
    deleted = [
        ("/b", '{ "a" : [ 2 ,\t{"c":"\\u0041"} ] }'), ("/a/0", '{ "b" : 1.50, "a" : [ {"c":"\\u0041"} ] }'),
        ("/a/1/c", '{ "b" : 1.50, "a" : [ 2 ,\t{} ] }'), ("/a", '{ "b" : 1.50 }'), ("", "null"),
    ]
    for pointer, text in deleted:
        yield edited("delete in text", pretty, pointer, answer=f"in place {text}")
    for pointer in ("/c", "/a/-", "/b/b"):
        yield edited("delete in text", pretty, pointer, answer="none")
    yield edited("delete in text", '{"a":1}', "/b", answer="none")
    for text in ("", "{", '{"a":1}}', '{"b":1e309,"a":1}', "\ufeff1", "[" * 128 + "]" * 128):
        for call in ("assign in text", "assign in text with"):
            yield edited(call, text, "/a", "1", answer="text is not JSON")
        yield edited("delete in text", text, "/a", answer="text is not JSON")
        yield edited("apply in text", text, "remove", "/a", answer="text is not JSON")
        yield edited("apply in text", text, answer="text is not JSON")
    yield from patches_in_text(pretty)


def edits_in_toml():
    """Edits in a TOML text."""
    text = "# c\na = 1 # one\n\n[t]\n\"b\" = [\n  1, # x\n  2\n]\n"
    assigned = [
        ("/a", "[2]", text.replace("= 1", "= [2]")),
        ("/t/b/1", "'y'", text.replace("2\n", '"y"\n')),
        ("/t/b/-", "3", text.replace("2\n", "2,\n  3\n")),
        ("/t/c", "true", text + "c = true\n"),
        ("/d", "1.5", text.replace("# one\n", "# one\nd = 1.5\n")),
        ("/e/f", "1", text + "\n[e]\nf = 1\n"),
        ("/t", "{ b = 0 }", text[: text.index('"b"')] + "b = 0\n"),
    ]
    for pointer, value, new in assigned:
        yield edited("assign in toml", text, pointer, value, answer=f"in place {new}")
    yield edited("assign in toml", text, "/t/b/3", "0", answer=ASSIGN_OUT_OF_BOUNDS.format(4))
    yield edited("assign in toml", text, "/a/b", "0", answer='rewritten [a]\nb = 0\n\n[t]\nb = [1, 2]\n')
    yield edited("assign in toml", "", "/a" * 82, "0", answer="values of the document would nest deeper than 80")
    deleted = [
        ("/a", text[text.index("\n[t]") :]), ("/t/b/0", text.replace("  1, # x\n", "")), ("/t", "# c\na = 1 # one\n"),
    ]
    for pointer, new in deleted:
        yield edited("delete in toml", text, pointer, answer=f"in place {new}")
    yield edited("delete in toml", "[a.b]\nc = 1\n", "/a/b", answer="in place [a]\n")
    yield edited("delete in toml", text, "/x", answer="none")
    for call in ("assign in toml", "delete in toml"):
        yield edited(call, "a = ", "/a", "1", answer="text is not TOML")
        deep = "a = " + "[" * 80 + "]" * 80 + "\nb = 1\n"
        yield edited(call, f"[c]\n{deep}", "/b", "1", answer="values of the document nest deeper than 80")


def patches_in_text(pretty):
    """Patches in a text."""
    added = '{ "b" : 1.50, "a" : [ 2 ,\t"x",\t{"c":"\\u0041"} ] }'
    yield edited("apply in text", pretty, answer=f"in place {pretty}")
    yield edited("apply in text", pretty, "add", "/a/1", '"x"', answer=f"in place {added}")
    moved = '{ "a" : [ 2 ,\t{"c":"\\u0041","d":1.50} ] }'
    yield edited("apply in text", pretty, "move", "/b", "/a/1/d", answer=f"in place {moved}")
    copied = '{ "b" : 1.50, "a" : [ 2 ,\t{"c":"\\u0041"} ], "e" : [ 2 ,\t{"c":"\\u0041"} ] }'
    yield edited("apply in text", pretty, "copy", "/a", "/e", answer=f"in place {copied}")
    several = ["remove", "/a/0", "replace", "/b", "null", "test", "/b", "null"]
    yield edited("apply in text", pretty, *several, answer='in place { "b" : null, "a" : [ {"c":"\\u0041"} ] }')
    yield edited("apply in text", pretty, "remove", "", answer="in place null")
    failed = "patch failed at operation {}: {}"
    missing = failed.format(0, RESOLVE_NOT_FOUND.format(0))
    yield edited("apply in text", pretty, "remove", "/q", answer=missing)
    yield edited("apply in text", pretty, "add", "/x", "1", "test", "/x", "2", answer=failed.format(1, "test failed"))
    yield edited("apply in text", pretty, "add", "/a/9", "1", answer=failed.format(0, ASSIGN_OUT_OF_BOUNDS.format(2)))
    below = failed.format(0, "from is a proper prefix of path")
    yield edited("apply in text", pretty, "move", "/a", "/a/0", answer=below)
    deep = ["add", "", "[" * 125 + "]" * 125, "copy", "", "/" + "0/" * 123 + "0"]
    yield edited("apply in text", "1", *deep, answer="document would nest deeper than 127")


def found():
    """`resolve` and `resolve_mut` in a JSON document."""
    for pointer, value in VECTORS:
        yield on("json", SECTION_5, "resolve", pointer, answer=value, after=SECTION_5, no_alloc="~" not in pointer)
    rows = [
        ('{"foo":["bar"]}', "/foo/-", RESOLVE_OUT_OF_BOUNDS.format(4)),
        ('{"foo":["bar"]}', "/foo/01", RESOLVE_BAD_INDEX.format(4)),
        ('{"a":{}}', "/a/", RESOLVE_NOT_FOUND.format(2)), ('{"a":1}', "/a/b", RESOLVE_UNREACHABLE.format(2)),
        ("[]", "/" + LONG, RESOLVE_BAD_INDEX.format(0)),
        ("{}", "/" + LONG, RESOLVE_NOT_FOUND.format(0)),
        ("{}", MANY, RESOLVE_NOT_FOUND.format(0)),
        ('{"foo":["bar"]}', "/foo/1", RESOLVE_OUT_OF_BOUNDS.format(4)),
        ('{"foo":["bar"]}', "/foo/00", RESOLVE_BAD_INDEX.format(4)),
        ("[1,2]", "/", RESOLVE_BAD_INDEX.format(0)),
        ("[2,3]", "/2", RESOLVE_OUT_OF_BOUNDS.format(0)),
        ("[[],{},1]", "/0/a", RESOLVE_BAD_INDEX.format(2)),
        ("[[],{},1]", "/10/0", RESOLVE_OUT_OF_BOUNDS.format(0)),
        ("[[],{},1]", "/1/a", RESOLVE_NOT_FOUND.format(2)),
        ("[[],{},1]", "/2/a", RESOLVE_UNREACHABLE.format(2)),
    ]
    for document, pointer, fault in rows:
        for call in ["resolve", "write"]:
            yield on("json", document, call, pointer, answer=fault, after=document, no_alloc=True)
    escaped = [
        ("{}", "/" + ENCODED, RESOLVE_NOT_FOUND.format(0)),
        ('{"~":[0]}', "/~0/", RESOLVE_BAD_INDEX.format(3)),
        ('{"a~1b":1}', "/a~1b", RESOLVE_NOT_FOUND.format(0)),
    ]
    for document, pointer, fault in escaped:
        for call in ["resolve", "write"]:
            yield on("json", document, call, pointer, answer=fault, after=document)
    yield on("json", "[2,3]", "resolve", "/1", answer="3", after="[2,3]", no_alloc=True)
    written = [
        ('{"foo":["bar","baz"]}', "/foo/1", '"baz"', '{"foo":["bar",true]}'),
        ('{"a/b":1,"m~n":2}', "/a~1b", "1", '{"a/b":true,"m~n":2}'),
        ('{"a/b":1,"m~n":2}', "/m~0n", "2", '{"a/b":1,"m~n":true}'),
        ('{"a":{"":[{"b":null}]}}', "/a//0/b", "null", '{"a":{"":[{"b":true}]}}'),
        ("[1,2]", "", "[1,2]", "true"),
    ]
    for document, pointer, answer, after in written:
        yield on(
            "json", document, "write", pointer, "true", answer=answer, after=after, no_alloc="~" not in pointer
        )
    for key, token in [("a", "a"), (LONG, LONG), ("a/b", "a~1b"), (DECODED, ENCODED)]:
        document, no_alloc = f'{{"{key}":[1]}}', "~" not in token
        yield on("json", document, "resolve", f"/{token}/0", answer="1", after=document, no_alloc=no_alloc)
        yield on(
            "json", document, "write", f"/{token}/0", '"x"', answer="1", after=f'{{"{key}":["x"]}}', no_alloc=no_alloc
        )
        yield on("json", document, "delete", f"/{token}/0", answer="1", after=f'{{"{key}":[]}}', no_alloc=no_alloc)
        yield on("json", document, "delete", f"/{token}", answer="[1]", after="{}", no_alloc=no_alloc)
        yield on(
            "json", document, "assign", f"/{token}/0", "2", answer="1", after=f'{{"{key}":[2]}}', no_alloc=no_alloc
        )
        yield on("json", document, "assign", f"/{token}/-", "2", answer="none", after=f'{{"{key}":[1,2]}}')
        yield on("json", "{}", "assign", f"/{token}", "2", answer="none", after=f'{{"{key}":2}}')
        yield on("json", "null", "assign", f"/{token}/0", "2", answer="null", after=f'{{"{key}":[2]}}')
        yield on("json", "[]", "assign", f"/-/{token}", "2", answer="none", after=f'[{{"{key}":2}}]')


def assigned():
    """`assign` and `delete` in a JSON document."""
    nested = "[" * 127 + "1" + "]" * 127
    yield on("json", nested, "resolve", "/0" * 127, answer="1", after=nested, no_alloc=True)
    yield on("json", "null", "assign", "/0" * 127, answer="null", after=nested)
    rows = [
        ('{"foo":"bar"}', "/foo/bar/-/baz", '"qux"', '"bar"', '{"foo":{"bar":[{"baz":"qux"}]}}'),
        ("null", "/1", '"x"', "null", '{"1":"x"}'), ('["a"]', "/-", '"b"', "none", '["a","b"]'),
        ("[1]", "/-/x", "7", "none", '[1,{"x":7}]'),
        ("{}", "/a/-", "7", "none", '{"a":[7]}'),
        ("[1]", "/1", "7", "none", "[1,7]"),
        ('{"a":{}}', "/a/~1~0/0", "7", "none", '{"a":{"/~":[7]}}'),
        ("[]", "/0/0/0", "1", "none", "[[[1]]]"),
        ("null", "/x" * 100, "1", "null", '{"x":' * 100 + "1" + "}" * 100),
        ('{"a/b":{"m~n":1}}', "/a~1b/m~0n", "2", "1", '{"a/b":{"m~n":2}}'),
        ("null", "/0", "1", "null", "[1]"), ("null", "/-", "1", "null", "[1]"),
        ("null", "/", "1", "null", '{"":1}'), ("null", "/00", "1", "null", '{"00":1}'),
        ("true", "/a~1b/0", "1", "true", '{"a/b":[1]}'),
        ('{"a":[1]}', "/a/0/b/-", "2", "1", '{"a":[{"b":[2]}]}'),
        ('{"a":"b"}', "/a/0/1", "2", '"b"', '{"a":[{"1":2}]}'),
        ("{}", "/", "1", "none", '{"":1}'), ('{"a":1}', "/b", "2", "none", '{"a":1,"b":2}'),
        ('{"b":1}', "/a~1~0/x/0", "2", "none", '{"a/~":{"x":[2]},"b":1}'),
        ('{"a":{}}', "/a/0", "1", "none", '{"a":{"0":1}}'), ('{"a":{}}', "/a/-/-", "1", "none", '{"a":{"-":[1]}}'),
        ('["a"]', "/1", '"b"', "none", '["a","b"]'), ("[]", "/0", "1", "none", "[1]"),
        ("[[1,2]]", "/0/2/a/-", "3", "none", '[[1,2,{"a":[3]}]]'),
        ('{"a":[1]}', "/a/-/0", "2", "none", '{"a":[1,[2]]}'),
    ]
    for document, pointer, value, answer, after in rows:
        yield on("json", document, "assign", pointer, value, answer=answer, after=after)
    unchanged = [
        ("[]", "/1", '"x"', ASSIGN_OUT_OF_BOUNDS.format(0), "[]"),
        ('{"a":[1]}', "/a/b", "2", ASSIGN_BAD_INDEX.format(2), '{"a":[1]}'),
        ("[1]", "/0", "7", "1", "[7]"),
        ('{"a":3}', "", "7", '{"a":3}', "7"),
        ("[1]", f"/{USIZE_MAX}", "2", ASSIGN_OUT_OF_BOUNDS.format(0), "[1]"),
        ('{"a":[1]}', "", "2", '{"a":[1]}', "2"), ("null", "", '{"a":1}', "null", '{"a":1}'),
        ('{"a":[1,2]}', "/a", "3", "[1,2]", '{"a":3}'),
        ('{"a":[1,2]}', "/a/1", "3", "2", '{"a":[1,3]}'),
        ('{"a":[1,2]}', "/a/0", "[]", "1", '{"a":[[],2]}'),
        ('{"":{"b":1}}', "/", "2", '{"b":1}', '{"":2}'),
        ('["a"]', "/2", "true", ASSIGN_OUT_OF_BOUNDS.format(0), '["a"]'),
        ("[1]", "/", "true", ASSIGN_BAD_INDEX.format(0), "[1]"),
        ("[[],{},1]", "/0/a", "true", ASSIGN_BAD_INDEX.format(2), "[[],{},1]"),
        ("[[],{},1]", "/10/0", "true", ASSIGN_OUT_OF_BOUNDS.format(0), "[[],{},1]"),
    ]
    for document, pointer, value, answer, after in unchanged:
        yield on("json", document, "assign", pointer, value, answer=answer, after=after, no_alloc=True)
    deleted = [
        ("[1,2,3]", "/0", "1", "[2,3]"),
        ("{}", "/x", "none", "{}"),
        ("[1]", "", "[1]", "null"),
        ("[1]", "/-", "none", "[1]"),
        ("null", "", "null", "null"),
        ("[1,2,3]", "/2", "3", "[1,2]"),
        ('{"foo":["bar","baz"]}', "/foo/1", '"baz"', '{"foo":["bar"]}'),
        ('{"a/b":1,"m~n":2}', "/a~1b", "1", '{"m~n":2}'),
        ('{"a/b":1,"m~n":2}', "/m~0n", "2", '{"a/b":1}'),
        ('{"a":[{"b":[true]},0]}', "/a/0/b", "[true]", '{"a":[{},0]}'),
        ('{"":1}', "/", "1", "{}"),
        ('{"é":{"":{"":2}}}', "/é//", "2", '{"é":{"":{}}}'),
    ]
    for document, pointer, answer, after in deleted:
        yield on("json", document, "delete", pointer, answer=answer, after=after, no_alloc="~" not in pointer)
    two = '{"foo":["bar","baz"]}'
    kept = [
        ("{}", "/"), ("[]", "/0"), ("1", "/0"), ('{"y":1}', "/x/y"), ('{"a~1b":1}', "/a~1b"),
        (two, "/foo/-"), (two, "/foo/2"), (two, "/foo/00"), (two, "/foo/x"), (two, "/foo/1/x"),
    ]
    for document, pointer in kept:
        yield on("json", document, "delete", pointer, answer="none", after=document, no_alloc="~" not in pointer)
    yield on("json", '{"a/b":{"~":1}}', "delete", "/a~1b/~0", answer="1", after='{"a/b":{}}')


def in_tables():
    """The calls on a TOML document."""
    table = "{ a = [1, 2] }"
    for call, pointer, answer, after in [
        ("resolve", "/a/1", "2", table),
        ("resolve", "/a/-", RESOLVE_OUT_OF_BOUNDS.format(2), table),
        ("resolve", "/a/0/x", RESOLVE_UNREACHABLE.format(4), table),
        ("resolve", "/" + LONG, RESOLVE_NOT_FOUND.format(0), table),
        ("delete", "/a/0", "1", "{ a = [2] }"),
        ("delete", "", table, "{}"),
        ("delete", "/b", "none", table),
        ("write", "/a/0", "1", "{ a = [3, 2] }"),
        ("write", "/a/2", RESOLVE_OUT_OF_BOUNDS.format(2), table),
        ("assign", "/a/0", "1", "{ a = [3, 2] }"),
        ("assign", "/a/3", ASSIGN_OUT_OF_BOUNDS.format(2), table),
        ("assign", "/a/x", ASSIGN_BAD_INDEX.format(2), table),
    ]:
        yield on("toml", table, call, pointer, "3", answer=answer, after=after, no_alloc=True)
    yield on("toml", "{ a = [2] }", "assign", "/b/-", "3", answer="none", after="{ a = [2], b = [3] }")
    yield on("toml", "{ d = 1979-05-27 }", "assign", "/d/x", "1", answer="1979-05-27", after="{ d = { x = 1 } }")
    yield on(
        "toml",
        "{ d = 1979-05-27 }",
        "resolve",
        "/d/x",
        answer=RESOLVE_UNREACHABLE.format(2),
        after="{ d = 1979-05-27 }",
        no_alloc=True,
    )
    yield on(
        "toml", "{ d = { x = 1 } }", "resolve", "/d/x", answer="1", after="{ d = { x = 1 } }", no_alloc=True
    )
    for whole in ["1", "{ a = 1, b = [true] }", "[]", "{}"]:
        yield on("toml", whole, "delete", "", answer=whole, after="{}", no_alloc=True)
    whole = '{ "" = 07:32, "a/b" = [1, { "m~n" = "x" }], t = { f = 1.5 } }'
    for pointer, answer in [
        ("", whole), ("/a~1b", '[1, { "m~n" = "x" }]'), ("/a~1b/0", "1"), ("/a~1b/1/m~0n", '"x"'),
        ("/", "07:32"), ("/t", "{ f = 1.5 }"), ("/t/f", "1.5"),
    ]:
        yield on("toml", whole, "resolve", pointer, answer=answer, after=whole, no_alloc="~" not in pointer)
    written = '{ "a/b" = [1, true], c = 3 }'
    yield on("toml", '{ "a/b" = [1, 2], c = 3 }', "write", "/a~1b/1", "true", answer="2", after=written)
    yield on(
        "toml", written, "write", "/c", "1.5", answer="3", after='{ "a/b" = [1, true], c = 1.5 }', no_alloc=True
    )
    for document, pointer, answer, after, no_alloc in [
        ("{ a = 1 }", "", "{ a = 1 }", "true", True),
        ("{ a = 1 }", "/a", "1", "{ a = true }", True),
        ("{ a = [1, 2] }", "/a/1", "2", "{ a = [1, true] }", True),
        ("{ a = [1] }", "/a/1", "none", "{ a = [1, true] }", False),
        ("{ a = [1] }", "/b~1", "none", '{ a = [1], "b/" = true }', False),
        ("{ a = [] }", "/a/-/x", "none", "{ a = [{ x = true }] }", False),
        ("{}", "/m~0n/0", "none", '{ "m~n" = [true] }', False),
        ("1.5", "/a/00", "1.5", "{ a = { 00 = true } }", False),
    ]:
        yield on("toml", document, "assign", pointer, "true", answer=answer, after=after, no_alloc=no_alloc)
    yield on("toml", "{ a = [1, true] }", "delete", "/a/1", answer="true", after="{ a = [1] }", no_alloc=True)
    yield on("toml", '{ a = [1], "b/" = true }', "delete", "/b~1", answer="true", after="{ a = [1] }")
    yield on("toml", '{ "a/b" = 1 }', "resolve", "/a~1b", answer="1", after='{ "a/b" = 1 }')
    yield on("toml", '{ "a/b" = 1 }', "write", "/a~1b", "2", answer="1", after='{ "a/b" = 2 }')
    yield on("toml", '{ "a/b" = 1 }', "assign", "/a~1b", "2", answer="1", after='{ "a/b" = 2 }')
    yield on("toml", '{ "a/b" = 1 }', "delete", "/a~1b", answer="1", after="{}")
    yield on("toml", "[]", "assign", "/-/" + LONG, "2", answer="none", after=f"[{{ {LONG} = 2 }}]")


def labelled():
    """The labels of document errors, on the pointer that caused them and on others."""
    rows = [
        ("resolve", "[]", "/é~1", "1+4 not an array index"),
        ("resolve", "7", "/é~1/x", "1+4 unreachable"),
        ("assign", '{"a":[1]}', "/a/b", "3+1 expected array index or '-'"),
    ]
    for kind, document, pointer, label in rows:
        yield allocates("report", "labels", kind, document, pointer, answer=label)
    others = [
        ("/a/bcd", 1, 0, 1, 3),
        ("/a/bcd", 0, 5, 5, 1),
        ("/a/bcd", 0, 4, 5, 1),
        ("/a/bcd", 0, USIZE_MAX - 1, USIZE_MAX - 1, 1),
        ("//", 1, 7, 7, 0),
    ]
    for pointer, position, offset, place, length in others:
        label = f"{place}+{length} not found in value"
        yield allocates("fields", "labels", *of_document(position, offset), pointer, answer=label)


def undoing(kind, document, call, pointer, value, *, answer, after):
    """A call that undoes an assignment, or returns what does."""
    return Case(("undo", kind, document, call, pointer, value), f"{answer}\n", f"{after}\n")


def undos():
    """Undoing assignments, in JSON and in TOML documents."""
    long = f"/{LONG}"
    rows = [
        ("json", '{"foo":"bar"}', "/foo/bar/-/baz", '"qux"', 'put "bar" at /foo', '{"foo":{"bar":[{"baz":"qux"}]}}'),
        ("json", '["a"]', "/-", '"b"', "remove at /1", '["a","b"]'),
        ("json", "[1]", "/-/x", "7", "remove at /1", '[1,{"x":7}]'),
        ("json", "{}", "/a/-", "7", "remove at /a", '{"a":[7]}'),
        ("json", "[1]", "/0", "7", "put 1 at /0", "[7]"),
        ("json", '{"a":3}', "", "7", 'put {"a":3} at ', "7"),
        ("json", "{}", "/a~1b", "7", "remove at /a~1b", '{"a/b":7}'),
        ("json", "{}", long, "7", f"remove at {long}", f'{{"{LONG}":7}}'),
        ("json", "1", long, "7", "put 1 at ", f'{{"{LONG}":7}}'),
        ("toml", "{ a = [1] }", "/a/-", "7", "remove at /a/1", "{ a = [1, 7] }"),
        ("toml", "{ a = 1 }", "/a", "7", "put 1 at /a", "{ a = 7 }"),
        ("toml", "{ a = 1 }", "/a/b", "7", "put 1 at /a", "{ a = { b = 7 } }"),
        ("toml", "{}", "/a~1b", "7", "remove at /a~1b", '{ "a/b" = 7 }'),
    ]
    for kind, document, pointer, value, answer, after in rows:
        yield undoing(kind, document, "assign_with_undo", pointer, value, answer=answer, after=after)
        yield undoing(kind, document, "undo", pointer, value, answer="done", after=document)
    yield undoing("json", "[]", "assign_with_undo", "/1", "7", answer=ASSIGN_OUT_OF_BOUNDS.format(0), after="[]")
    fault = ASSIGN_BAD_INDEX.format(2)
    yield undoing("json", '{"a":[1]}', "assign_with_undo", "/a/b", "2", answer=fault, after='{"a":[1]}')
    fault = RESOLVE_OUT_OF_BOUNDS.format(0)
    yield undoing("json", "[1]", "Remove", "/1", "null", answer=fault, after="[1]\nremove at /1")
    yield undoing(
        "json", '{"a":1}', "Put", "/a/b", "[7]", answer=RESOLVE_UNREACHABLE.format(2), after='{"a":1}\nput [7] at /a/b'
    )
    yield undoing("json", '{"a/b":1}', "Put", "/a~1b", "7", answer="done", after='{"a/b":7}')
    yield undoing("json", '{"a/b":1}', "Remove", "/a~1b", "null", answer="done", after="{}")
    yield undoing("toml", '{ "a/b" = 1 }', "Put", "/a~1b", "7", answer="done", after='{ "a/b" = 7 }')
    yield undoing(
        "toml", "{ a = 1 }", "Remove", "/b", "1", answer=RESOLVE_NOT_FOUND.format(0), after="{ a = 1 }\nremove at /b"
    )


def undos_told():
    """Undoing assignments: more documents, and the error in a TOML document."""
    rows = [
        ("json", "[1]", "/1", "7", "remove at /1", "[1,7]"),
        ("json", '{"a":{}}', "/a/~1~0/0", "7", "remove at /a/~1~0", '{"a":{"/~":[7]}}'),
        (
            "toml",
            '{ foo = "bar" }',
            "/foo/bar/-/baz",
            '"qux"',
            'put "bar" at /foo',
            '{ foo = { bar = [{ baz = "qux" }] } }',
        ),
        ("toml", "[1]", "/0", "7", "put 1 at /0", "[7]"),
        ("toml", "{ a = 3 }", "", "7", "put { a = 3 } at ", "7"),
        ("toml", '["a"]', "/-", '"b"', "remove at /1", '["a", "b"]'),
        ("toml", "[1]", "/-/x", "7", "remove at /1", "[1, { x = 7 }]"),
        ("toml", "{}", "/a/-", "7", "remove at /a", "{ a = [7] }"),
    ]
    for kind, document, pointer, value, answer, after in rows:
        yield undoing(kind, document, "assign_with_undo", pointer, value, answer=answer, after=after)
        yield undoing(kind, document, "undo", pointer, value, answer="done", after=document)
    one = "{ a = [1] }"
    yield undoing("toml", one, "assign_with_undo", "/a/2", "2", answer=ASSIGN_OUT_OF_BOUNDS.format(2), after=one)
    yield undoing("toml", "[1]", "Remove", "/1", "1", answer=RESOLVE_OUT_OF_BOUNDS.format(0), after="[1]\nremove at /1")
    yield undoing(
        "toml", "{ a = 1 }", "Put", "/b", "[7]", answer=RESOLVE_NOT_FOUND.format(0), after="{ a = 1 }\nput [7] at /b"
    )


def patched(document, *operations, answer="done", after=None):
    """A patch. If it fails, the document is unchanged."""
    patch = patch_of(word for operation in operations for word in operation)
    return Case(("patch", document, patch), f"{answer}\n", f"{document if after is None else after}\n")


def failed(operation, cause):
    """The result of a patch whose numbered operation fails."""
    return f"patch failed at operation {operation}: {cause}"


def removals_that_wait():
    """Removals and moves in an object, with an operation after them that is apart from them or is not."""
    three, other = '{"a":1,"b":2,"c":{"d":3}}', '{"b":2,"c":{"d":3}}'
    gone = ("remove", "/a")
    yield patched(three, gone, ("test", "/b", "2"), after=other)
    yield patched(three, gone, ("test", "/b", "3"), answer=failed(1, "test failed"))
    yield patched(three, gone, ("test", "", other), after=other)
    yield patched(three, gone, ("test", "/a", "null"), answer=failed(1, RESOLVE_NOT_FOUND.format(0)))
    yield patched(three, gone, ("remove", "/a"), answer=failed(1, RESOLVE_NOT_FOUND.format(0)))
    yield patched(three, gone, ("add", "/a", "4"), after='{"a":4,"b":2,"c":{"d":3}}')
    yield patched(three, gone, ("add", "/a", "4"), ("remove", "/a"), after=other)
    yield patched(three, gone, ("add", "/a/x", "4"), answer=failed(1, RESOLVE_NOT_FOUND.format(0)))
    yield patched(three, gone, ("copy", "/b", "/a"), ("remove", "/b"), after='{"a":2,"c":{"d":3}}')
    yield patched(three, gone, ("copy", "", "/a"), after='{"a":{"b":2,"c":{"d":3}},"b":2,"c":{"d":3}}')
    yield patched(three, gone, ("remove", "/c/d"), ("remove", "/b"), after='{"c":{}}')
    yield patched(three, ("remove", "/c/d"), ("remove", "/c"), ("remove", "/a"), after='{"b":2}')
    yield patched(three, ("move", "/a", "/z"), ("move", "/z", "/a"), after=three)
    yield patched(three, ("move", "/a", "/z"), ("move", "/z", "/a"), ("test", "/z", "1"), answer=failed(2, RESOLVE_NOT_FOUND.format(0)))
    yield patched(three, ("move", "/a", "/b"), ("move", "/b", "/a"), after='{"a":1,"c":{"d":3}}')
    yield patched(three, ("move", "/c/d", "/a"), ("move", "/c", "/b"), after='{"a":3,"b":{}}')
    yield patched(three, ("move", "/c/d", "/c"), ("remove", "/a"), after='{"b":2,"c":3}')
    yield patched(three, gone, ("move", "/c", "/c/d"), answer=failed(1, "from is a proper prefix of path"))
    yield patched('[{"a":1,"b":2},{"a":1}]', ("remove", "/0/a"), ("remove", "/1/a"), after='[{"b":2},{}]')
    yield patched('[{"a":1,"b":2},{"a":1}]', ("remove", "/0/a"), ("remove", "/0"), after='[{"a":1}]')
    yield patched('{"a/b":1,"c":2}', ("remove", "/a~1b"), ("add", "/a~1b", "3"), after='{"a/b":3,"c":2}')
    yield patched('{"a/b":1,"c":2}', ("remove", "/c~1d"), ("remove", "/c"), answer=failed(0, RESOLVE_NOT_FOUND.format(0)))
    yield patched('{"a/b":1,"c":2}', ("move", "/a~1b", "/d"), ("replace", "/c", "3"), after='{"c":3,"d":1}')
    yield patched('{"a/b":1,"c":2}', ("move", "/a~1b", "/d"), ("test", "/c", "3"), answer=failed(1, "test failed"))
    yield patched(three, gone, ("add", "/a", "4"), ("test", "/b", "3"), answer=failed(2, "test failed"))
    yield patched(three, ("remove", "/c/d"), ("copy", "/c", "/e"), ("remove", "/a"), after='{"b":2,"c":{},"e":{}}')


def taking_back(document, operations, back, after):
    """A patch, and the operations that take it back."""
    patch = patch_of(word for operation in operations for word in operation)
    return Case(("patch inverse", document, patch), "".join(f"{it}\n" for it in (*back, "done")), f"{after}\n")


def inverses():
    """Patches, and what takes them back."""
    two = '{"a":[1,2],"b":3}'
    yield taking_back(two, [], [], two)
    yield taking_back(two, [("test", "/b", "3")], [], two)
    yield taking_back(two, [("add", "/c", "4")], ["remove /c"], '{"a":[1,2],"b":3,"c":4}')
    yield taking_back(two, [("add", "/b", "4")], ["replace /b 3"], '{"a":[1,2],"b":4}')
    yield taking_back(two, [("add", "/a/-", "4")], ["remove /a/2"], '{"a":[1,2,4],"b":3}')
    yield taking_back(two, [("add", "", "4")], [f"replace  {two}"], "4")
    yield taking_back(two, [("remove", "/a")], ["add /a [1,2]"], '{"b":3}')
    yield taking_back(two, [("remove", "/a/0")], ["add /a/0 1"], '{"a":[2],"b":3}')
    yield taking_back(two, [("remove", "")], [f"add  {two}"], "null")
    yield taking_back(two, [("replace", "/a", "4")], ["replace /a [1,2]"], '{"a":4,"b":3}')
    yield taking_back(two, [("copy", "/b", "/a/0")], ["remove /a/0"], '{"a":[3,1,2],"b":3}')
    yield taking_back(two, [("copy", "/a", "/b")], ["replace /b 3"], '{"a":[1,2],"b":[1,2]}')
    yield taking_back(two, [("move", "/b", "/c")], ["move /c /b"], '{"a":[1,2],"c":3}')
    yield taking_back(two, [("move", "/b", "/a")], ["move /a /b", "add /a [1,2]"], '{"a":3}')
    yield taking_back(two, [("move", "/b", "/b")], ["move /b /b"], two)
    yield taking_back(two, [("move", "/a/0", "/a/-")], ["move /a/1 /a/0"], '{"a":[2,1],"b":3}')
    yield taking_back(two, [("move", "/a/1", "/b")], ["move /b /a/1", "add /b 3"], '{"a":[1],"b":2}')
    yield taking_back(two, [("move", "/a/0", "/a")], ["replace /a [2]", "add /a/0 1"], '{"a":1,"b":3}')
    yield taking_back("[[1],2]", [("move", "/0/0", "/0")], ["remove /0", "add /0/0 1"], "[1,[],2]")
    yield taking_back(two, [("remove", "/b"), ("remove", "/a/1")], ["add /a/1 2", "add /b 3"], '{"a":[1]}')
    yield taking_back(two, [("remove", "/b"), ("add", "/b", "4")], ["remove /b", "add /b 3"], '{"a":[1,2],"b":4}')
    patch = patch_of(("remove", "/b", "test", "/a/0", "5"))
    yield Case(("patch inverse", two, patch), f"{failed(1, 'test failed')}\n", f"{two}\n")


def patches():
    """Patches, and deletions that can be undone."""
    two = '{"a":[1,2]}'
    yield patched('{"a":1}', after='{"a":1}')
    yield patched(two, ("add", "/a/1", "9"), after='{"a":[1,9,2]}')
    yield patched(two, ("add", "/a/3", "9"), answer=failed(0, ASSIGN_OUT_OF_BOUNDS.format(2)))
    yield patched("{}", ("add", "/a/b", "1"), answer=failed(0, RESOLVE_NOT_FOUND.format(0)))
    yield patched('{"a":5}', ("add", "/a/b", "1"), answer=failed(0, RESOLVE_UNREACHABLE.format(2)))
    yield patched("[1,2]", ("move", "/0", "/1"), after="[2,1]")
    yield patched("[1,2]", ("move", "/0", "/2"), answer=failed(0, ASSIGN_OUT_OF_BOUNDS.format(0)))
    yield patched("[1,3]", ("add", "/1", "2"), after="[1,2,3]")
    yield patched('{"a":1}', ("move", "/a", "/a/b"), answer=failed(0, "from is a proper prefix of path"))
    yield patched('{"a":1}', ("move", "/a", "/ab"), after='{"ab":1}')
    yield patched('{"a":[1]}', ("copy", "/a", "/b"), after='{"a":[1],"b":[1]}')
    yield patched('{"a":1}', ("test", "/a", "1"), after='{"a":1}')
    yield patched('{"a":1}', ("test", "/a", '"1"'), answer=failed(0, "test failed"))
    yield patched('{"a":1}', ("test", "/a", "1.5"), answer=failed(0, "a float cannot be tested"))
    yield patched("{}", ("add", "/x", "1"), ("test", "/x", "2"), answer=failed(1, "test failed"))
    yield patched("[1]", ("remove", "/-"), answer=failed(0, RESOLVE_OUT_OF_BOUNDS.format(0)))
    yield patched("{}", ("add", "/a", "1"), ("remove", "/b"), answer=failed(1, RESOLVE_NOT_FOUND.format(0)))
    long = f"/{LONG}"
    for token, key in [("a", "a"), ("a~1b", "a/b"), (LONG, LONG), (ENCODED, DECODED)]:
        kept, patch = f'{{"{key}":[1]}}', [("add", f"/{token}/0", "0"), ("replace", f"/{token}/1", "[2]")]
        yield patched(kept, *patch, ("remove", f"/{token}/0"), after=f'{{"{key}":[[2]]}}')
        yield patched(kept, *patch, ("test", f"/{token}/1/0", "3"), answer=failed(2, "test failed"))
        copied = [("copy", f"/{token}", "/c"), ("move", f"/{token}", "/c/0")]
        yield patched(kept, *patch, *copied, after='{"c":[[0,[2]],0,[2]]}')
    yield patched("{}", ("add", long, "1"), ("remove", long), after="{}")
    yield from removals_that_wait()
    yield from inverses()
    yield Case(("patch back", "[1,2,3]", "/1"), "add /1 2\n", "[1,3]\n")
    yield Case(("patch back", '{"a/b":[1]}', "/a~1b"), "add /a~1b [1]\n", "{}\n")
    yield Case(("patch back", "{}", "/a"), "nothing\n", "{}\n")
    for document, pointer in [("{}", "/x"), ("[1]", "/-"), ("[1]", "/1"), ("1", "/0")]:
        yield Case(("patch back", document, pointer), "nothing\n", f"{document}\n")
    for document, pointer, value, left in [
        ("[1,2,3]", "/2", "3", "[1,2]"),
        ("[1]", "/0", "1", "[]"),
        ('{"a":{"b":[1]}}', "/a/b", "[1]", '{"a":{}}'),
        ('{"z":0,"~":{"/":null}}', "/~0/~1", "null", '{"z":0,"~":{}}'),
        ("[1]", "", "[1]", "null"),
        ("null", "", "null", "null"),
    ]:
        yield Case(("patch back", document, pointer), f"add {pointer} {value}\n", f"{left}\n")
        yield patched(left, ("add", pointer, value), after=document)


def applied():
    """Patches that succeed: first the examples of RFC 6902, appendix A."""
    three, nested = '{"baz":"qux","foo":["a",2,"c"]}', '{"a":{"b":1}}'
    grass = '{"foo":["all","grass","cows","eat"]}'
    waldo = '{"foo":{"bar":"baz","waldo":"fred"},"qux":{"corge":"grault"}}'
    thud = '{"foo":{"bar":"baz"},"qux":{"corge":"grault","thud":"fred"}}'
    rows = [
        ('{"foo":"bar"}', [("add", "/baz", '"qux"')], '{"baz":"qux","foo":"bar"}'),
        ('{"foo":["bar","baz"]}', [("add", "/foo/1", '"qux"')], '{"foo":["bar","qux","baz"]}'),
        ('{"baz":"qux","foo":"bar"}', [("remove", "/baz")], '{"foo":"bar"}'),
        ('{"foo":["bar","qux","baz"]}', [("remove", "/foo/1")], '{"foo":["bar","baz"]}'),
        ('{"baz":"qux","foo":"bar"}', [("replace", "/baz", '"boo"')], '{"baz":"boo","foo":"bar"}'),
        (waldo, [("move", "/foo/waldo", "/qux/thud")], thud),
        (grass, [("move", "/foo/1", "/foo/3")], '{"foo":["all","cows","eat","grass"]}'),
        (three, [("test", "/baz", '"qux"'), ("test", "/foo/1", "2")], three),
        ('{"foo":"bar"}', [("add", "/child", '{"grandchild":{}}')], '{"child":{"grandchild":{}},"foo":"bar"}'),
        ('{"/":9,"~1":10}', [("test", "/~01", "10")], '{"/":9,"~1":10}'),
        ('{"foo":["bar"]}', [("add", "/foo/-", '["abc","def"]')], '{"foo":["bar",["abc","def"]]}'),
        ('{"a":[1,2]}', [("add", "/a/2", "9")], '{"a":[1,2,9]}'),
        ("[]", [("add", "/0", "9")], "[9]"),
        ('{"a":1}', [("add", "/a", "[2]")], '{"a":[2]}'),
        ("[1]", [("add", "", "{}")], "{}"),
        ("[1,2]", [("remove", "")], "null"),
        ('{"a":[1,{"b":2}]}', [("replace", "/a/1/b", "3")], '{"a":[1,{"b":3}]}'),
        ("[1]", [("replace", "", "2")], "2"),
        ("[1,2]", [("move", "/0", "/0")], "[1,2]"),
        ("[1,2]", [("move", "", "")], "[1,2]"),
        (nested, [("move", "/a/b", "/a")], '{"a":1}'),
        (nested, [("move", "/a/b", "")], "1"),
        ("[1]", [("copy", "", "/0")], "[[1],1]"),
        ('{"a":[1,[2]]}', [("copy", "/a/1/0", "/a/1/-")], '{"a":[1,[2,2]]}'),
        ('{"~":{"/":1}}', [("add", "/~0/~1", "2"), ("test", "/~0/~1", "2")], '{"~":{"/":2}}'),
    ]
    for document, operations, after in rows:
        yield patched(document, *operations, after=after)
    added = [("add", "/x", "[]"), ("add", "/x/-", "1"), ("add", "/x/0", "0")]
    yield patched("{}", *added, ("move", "/x", "/y"), ("remove", "/y/1"), after='{"y":[0]}')
    unordered, ordered = '{"b":[1,2],"a":{"":{}}}', '{"a":{"":{}},"b":[1,2]}'
    values = ["null", "true", "false", "0", "-7", str(USIZE_MAX), str(-(2**63)), '"é"', "[]", "{}"]
    values += ['[[],[1,[null]],{"a":true}]', unordered]
    for value in values:
        after = f'{{"":{ordered if value == unordered else value}}}'
        yield patched('{"":null}', ("add", "/", value), ("test", "/", value), after=after)


def refused():
    """Patches that fail."""
    into_self, no_float = "from is a proper prefix of path", "a float cannot be tested"
    floats = ("test", "", '[{"a":[1.5]}]')
    rows = [
        ('{"foo":"bar"}', [("add", "/baz/bat", '"qux"')], 0, RESOLVE_NOT_FOUND.format(0)),
        ('{"a":1}', [("copy", "/a", "/b"), ("move", "/b", "/c"), ("move", "/b", "/d")], 2, RESOLVE_NOT_FOUND.format(0)),
        ('{"a":1}', [("move", "/a", "/b/c")], 0, RESOLVE_NOT_FOUND.format(0)),
        ("[[1]]", [("copy", "/0", "/1/0")], 0, RESOLVE_OUT_OF_BOUNDS.format(0)),
        ("{}", [("move", "/a", "/a/b")], 0, into_self),
        ("[1]", [("test", "/0", "1"), ("move", "", "/0")], 1, into_self),
        ('{"a":1}', [("test", "/a", "1.0")], 0, no_float),
        ('{"a":[1,{"b":[null]}]}', [("test", "/a/0", "1"), floats], 1, no_float),
        ("{}", [("add", "/a", '{"b":[0,1.5]}'), ("test", "/a", "true")], 1, no_float),
    ]
    for document, operations, operation, cause in rows:
        yield patched(document, *operations, answer=failed(operation, cause))
    tested = [
        ('{"baz":"qux"}', "/baz", '"bar"'), ('{"/":9,"~1":10}', "/~01", '"10"'),
        ("[]", "", "{}"), ("{}", "", "[]"), ("null", "", "false"), ("true", "", "false"), ("-1", "", "1"),
        ("[1]", "", "[1,1]"), ("[1,2]", "", "[2,1]"), ('{"a":1}', "", '{"b":1}'),
        ('{"a":1}', "", '{"a":1,"b":1}'), ('{"a":1,"b":1}', "", '{"a":1}'),
        ('{"a":[{"b":[]}]}', "", '{"a":[{"b":{}}]}'),
    ]
    for document, path, value in tested:
        yield patched(document, ("test", path, value), answer=failed(0, "test failed"))


def journaled():
    """Patches that change a document in several ways, whole and with an error after each operation."""
    small = '{"a/b":[1,2,3],"~":{"x":1,"y":2}}'
    changes = [
        ("add", "/a~1b/1", "9"), ("replace", "/a~1b/0", '["old"]'), ("remove", "/a~1b/3"), ("move", "/~0/x", "/~0/z"),
        ("copy", "/a~1b", "/~0/x"), ("remove", "/~0/y"), ("add", "/~0/z", '{"n":0}'), ("move", "/a~1b/0", "/a~1b/-"),
        ("move", "/~0/z", "/a~1b/1"), ("replace", "/~0/x/0/0", '"new"'),
    ]
    changed = '{"a/b":[9,{"n":0},2,["old"]],"~":{"x":[["new"],9,2]}}'
    below, parent = nested(12, '{"k":[0,1],"m":{"n":null,"o":true}}'), "/a" * 12
    deep = [
        ("add", f"{parent}/k/-", "2"), ("remove", f"{parent}/m/n"), ("remove", f"{parent}/m/o"),
        ("move", f"{parent}/k/0", f"{parent}/m/p"), ("copy", f"{parent}/m", f"{parent}/k/0"),
        ("replace", f"{parent}/k/1", "[]"), ("move", f"{parent}/k", f"{parent}/m/p"),
    ]
    deeper = nested(12, '{"m":{"p":[{"p":0},[],2]}}')
    root = [("replace", "", "[1]"), ("add", "/0", "0"), ("remove", ""), ("add", "", "{}"), ("move", "", "")]
    numbers = list(range(1100))
    within_array = [("move", "/0", "/1099"), ("remove", "/500"), ("add", "/1", "-1"), ("move", "/1099", "/0")]
    moved = [0, 1, -1, *numbers[2:501], *numbers[502:]]
    keys = [f"k{number:04}" for number in numbers]
    object_before = ",".join(f'"{key}":0' for key in keys)
    within_object = [
        ("remove", "/k0000"), ("remove", "/k0500"), ("remove", "/k1099"), ("move", "/k0001", "/k0500"),
        ("replace", "/k0002", "[1]"), ("remove", "/k0500"),
    ]
    left = [key for key in keys if key not in ("k0000", "k0001", "k0500", "k1099")]
    object_after = ",".join(f'"{key}":{"[1]" if key == "k0002" else 0}' for key in left)
    for document, operations, after in [
        (small, changes, changed), (below, deep, deeper), ("[[2]]", root, "{}"),
        (array_of(numbers), within_array, array_of(moved)),
        (f"{{{object_before}}}", within_object, f"{{{object_after}}}"),
    ]:
        yield patched(document, *operations, after=after)
        for count in range(1, len(operations) + 1):
            cause = failed(count, "a float cannot be tested")
            yield patched(document, *operations[:count], ("test", "", "0.5"), answer=cause)


def changed(old, new, *operations):
    """A difference, and a change by it. With a failed allocation the document is unchanged."""
    answer = "".join(f"{it}\n" for it in (*operations, "done"))
    yield Case(("diff", old, new), answer, f"{old}\n", no_alloc=not operations)
    yield Case(("change", old, new), "done\n", f"{new}\n", no_alloc=not operations)


def differences_of_objects():
    """Differences of objects and of scalars, of equal documents, and of floats, which are the same if their bits are."""
    minus, greatest = str(-(2**63)), str(USIZE_MAX)
    for document in ["true", "0", minus, greatest, '"text"', '{"a":[1,{"b":[null,"c"]},[]],"d":{}}', "[[1,2],[3,[4,5]],[[[]]]]"]:
        yield from changed(document, document)
    yield Case(("diff", '{"a":1,"b":2}', '{"b":2,"a":1}'), "done\n", '{"a":1,"b":2}\n', no_alloc=True)
    for old, new, *operations in [
        ("{}", '{"a":1}', "add /a 1"), ('{"a":1}', "{}", "remove /a"), ('{"a":1}', '{"a":2}', "replace /a 2"),
        ('{"a":1}', '{"b":1}', "remove /a", "add /b 1"),
        ('{"a":{"b":{"c":1,"d":2}}}', '{"a":{"b":{"c":1,"d":3}}}', "replace /a/b/d 3"),
        ('{"a":{}}', '{"a":[]}', "replace /a []"), ('{"a":[]}', '{"a":{}}', "replace /a {}"),
        ('{"a":1,"b":2,"c":3}', '{"b":2,"c":{"d":4},"e":5}', "remove /a", 'replace /c {"d":4}', "add /e 5"),
        ('{"a/b":1}', '{"a/b":2}', "replace /a~1b 2"), ('{"a~b":1}', "{}", "remove /a~0b"), ("{}", '{"~1":1}', "add /~01 1"),
        ('{"":{"":1}}', '{"":{"":2}}', "replace // 2"), ('{"/":[1]}', '{"/":[1,2]}', "add /~1/1 2"),
        ('{"é":1}', '{"é":null}', "replace /é null"), ('{"0":1}', '{"-":2,"0":1}', "add /- 2"),
        ("null", "{}", "replace  {}"), ("[]", "{}", "replace  {}"), ('"a"', '"b"', 'replace  "b"'),
        ("true", "false", "replace  false"), ("1", "true", "replace  true"), ("0", "false", "replace  false"),
        ("-1", "1", "replace  1"), ('"1"', "1", "replace  1"), (greatest, str(USIZE_MAX - 1), f"replace  {USIZE_MAX - 1}"),
        ("1.5", "1.5"), ("1.5", "1", "replace  1"), ("1", "1.5", "replace  1.5"), ("1", "1.0", "replace  1.0"),
        ("0.0", "-0.0", "replace  -0.0"), ("0.1", "0.30000000000000004", "replace  0.30000000000000004"),
        ('{"a":1.5,"b":1}', '{"a":1.5,"b":1}'), ('{"a":1.5,"b":1}', '{"a":1.25,"b":1}', "replace /a 1.25"),
        ("[1,2.5,3]", "[1,2.5,3]"), ("[1,2.5,3]", "[1,2.5,0.5,3]", "add /2 0.5"),
        ('[{"a":1,"x":0.5},{"a":2}]', '[{"a":1,"x":0.5},{"a":3}]', "replace /1/a 3"),
    ]:
        yield from changed(old, new, *operations)


def differences_of_arrays():
    """Differences of arrays, and the examples of RFC 6902, appendix A, reversed: of the documents before and after."""
    for old, new, *operations in [
        ("[]", "[1,2]", "add /0 1", "add /1 2"), ("[1,2]", "[]", "remove /0", "remove /0"),
        ("[1,2,3]", "[1,4,3]", "replace /1 4"), ("[1,2,3]", "[1,3]", "remove /1"), ("[1,3]", "[1,2,3]", "add /1 2"),
        ("[1,2,3]", "[0,1,2,3]", "add /0 0"), ("[1,2,3]", "[1,2,3,4]", "add /3 4"),
        ("[0,1,2,3,4]", "[1,2,3]", "remove /0", "remove /3"),
        ("[1,2,3,4,5]", "[1,9,3,8,5]", "replace /1 9", "replace /3 8"),
        ("[1,2,3,4,5]", "[2,3,7,4,6,5]", "remove /0", "add /2 7", "add /4 6"),
        ("[[1,2],[3,4]]", "[[1,2],[3,5]]", "replace /1/1 5"), ("[[1,2],[3,4]]", "[[0],[1,2],[3,4]]", "add /0 [0]"),
        ("[[[1]]]", "[[[1,2]]]", "add /0/0/1 2"), ('[{"a":1},{"a":2},{"a":3}]', '[{"a":1},{"a":9},{"a":3}]', "replace /1/a 9"),
        ('[{"a":[1,2]},{"a":[3]},5]', '[{"a":[2]},{"a":[3]},6,7]', "remove /0/a/0", "replace /2 6", "add /3 7"),
        ('{"a":[{"b":1},{"c":2}]}', '{"a":[{"c":2},{"b":1}]}', 'add /a/0 {"c":2}', "remove /a/2"),
        ('{"foo":"bar"}', '{"baz":"qux","foo":"bar"}', 'add /baz "qux"'),
        ('{"foo":["bar","baz"]}', '{"foo":["bar","qux","baz"]}', 'add /foo/1 "qux"'),
        ('{"baz":"qux","foo":"bar"}', '{"foo":"bar"}', "remove /baz"),
        ('{"foo":["bar","qux","baz"]}', '{"foo":["bar","baz"]}', "remove /foo/1"),
        ('{"baz":"qux","foo":"bar"}', '{"baz":"boo","foo":"bar"}', 'replace /baz "boo"'),
        ('{"foo":{"bar":"baz","waldo":"fred"},"qux":{"corge":"grault"}}',
         '{"foo":{"bar":"baz"},"qux":{"corge":"grault","thud":"fred"}}', "remove /foo/waldo", 'add /qux/thud "fred"'),
        ('{"foo":["all","grass","cows","eat"]}', '{"foo":["all","cows","eat","grass"]}', "remove /foo/1", 'add /foo/3 "grass"'),
        ('{"foo":"bar"}', '{"child":{"grandchild":{}},"foo":"bar"}', 'add /child {"grandchild":{}}'),
        ('{"foo":["bar"]}', '{"foo":["bar",["abc","def"]]}', 'add /foo/1 ["abc","def"]'),
    ]:
        yield from changed(old, new, *operations)


def differences():
    """Differences of two documents, and changes by them."""
    for document in ["null", "[]", "{}", "[1,[2,{}]]", '{"a":{"b":["c",null]}}']:
        yield from changed(document, document)
    yield from changed("1", "2", "replace  2")
    yield from changed("[1,2,3]", "[0,1,2,3,4]", "add /0 0", "add /4 4")
    yield from changed("[1,2,3,4]", "[4]", "remove /0", "remove /0", "remove /0")
    yield from changed('{"a":1,"b":2}', '{"b":3,"c":4}', "remove /a", "replace /b 3", "add /c 4")
    yield from changed('{"a":[{"b":1},{"c":2}]}', '{"a":[{"b":1},{"c":3}]}', "replace /a/1/c 3")
    yield from changed('{"a/b":{"~":1}}', '{"a/b":{"~":[1]}}', "replace /a~1b/~0 [1]")
    yield from changed("[1.5,2]", "[1.5,2]")
    yield from changed('{"a":[1,2,{"b":[3,4,5]}],"c":6}', '{"a":[2,{"b":[3,5]},7],"c":{}}',
                       "remove /a/0", "remove /a/1/b/1", "add /a/2 7", "replace /c {}")
    deep = '{"x":' * 20
    yield from changed(deep + "1" + "}" * 20, deep + "2" + "}" * 20, f"replace {'/x' * 20} 2")


def array_of(numbers):
    """The JSON text of an array of numbers."""
    return f"[{','.join(map(str, numbers))}]"


def session(kind, document, pointer, steps, after):
    """A session on a plain and on a tabled pointer: its calls with their replies, and the state after them."""
    calls, replies = zip(*steps)
    for pointers in KINDS:
        lines = ("session", kind, document, pointers, pointer, *calls)
        yield Case(lines, "".join(f"{it}\n" for it in replies), f"{after}\n", calls=calls)


EVERY_CALL = [
    ("parse /a", "done"), ("push_back ~", "done"), ("push_front b/c", "done"), ("pop_front", "token b~1c"),
    ("pop_back", "token ~0"), ("replace 0 x/y", "token a"), ("replace 0 a", "token x~1y"), ("append /0", "done"),
    ("resolve", "value 1"), ("write 3", "value 1"), ("append /x/-", "done"), ("assign 4", "assigned for 3"),
    ("delete", "not deleted"),
    ("pop_back", "token -"),
    ("delete", "deleted [4]"),
    ("clear", "done"),
    ("pop_back", "no token"),
    ("pop_front", "no token"),
    ("replace 0 a", REPLACE_OUT_OF_BOUNDS.format(0, 0)),
    ("parse foo", f"{PARSE_NO_SLASH}: foo"),
    ("parse /a/-", "done"),
    ("assign 5", "assigned"),
    ("resolve", RESOLVE_OUT_OF_BOUNDS.format(2)),
    ("write 6", RESOLVE_OUT_OF_BOUNDS.format(2)),
    ("push_back x", "done"),
    ("parse /a/x", "done"),
    ("assign 7", ASSIGN_BAD_INDEX.format(2)),
    ("parse /~0/~1", "done"),
    ("assign 8", "assigned"),
    ("resolve", "value 8"),
]


def sessions():
    """Sessions: the one of the documentation, and one with every call on each kind of document."""
    worked = [
        ("push_back a/b", "done"),
        ("assign 1", "assigned for null"),
        ("delete", "deleted 1"),
        ("resolve", RESOLVE_NOT_FOUND.format(0)),
    ]
    yield from session("json", "null", "", worked, "/a~1b {}")
    yield from session("json", "null", "/x", [("clear", "done"), *worked], "/a~1b {}")
    yield from session("json", '{"a":[1,2]}', "/x", EVERY_CALL, '/~0/~1 {"a":[{},2,5],"~":{"/":8}}')
    yield from session("toml", "{ a = [1, 2] }", "/x", EVERY_CALL, '/~0/~1 { a = [{}, 2, 5], "~" = { "/" = 8 } }')
    long = [
        (f"parse /{LONG}", "done"),
        (f"push_back {DECODED}", "done"),
        ("assign 1", "assigned"),
        ("resolve", "value 1"),
        ("pop_back", f"token {ENCODED}"),
        (f"append {MANY}", "done"),
        ("resolve", RESOLVE_NOT_FOUND.format(100_001)),
        ("clear", "done"),
        (f"push_front {LONG}", "done"),
        (f"replace 0 {DECODED}", f"token {LONG}"),
        ("delete", "not deleted"),
        ("pop_front", f"token {ENCODED}"),
    ]
    yield from session("json", "{}", "", long, f' {{"{LONG}":{{"{DECODED}":1}}}}')
    goes_on = [
        ("resolve", RESOLVE_BAD_INDEX.format(0)),
        ("assign null", ASSIGN_BAD_INDEX.format(0)),
        ("delete", "not deleted"),
        ("parse 0", f"{PARSE_NO_SLASH}: 0"),
        ("replace 1 0", REPLACE_OUT_OF_BOUNDS.format(1, 1)),
        ("replace 0 0", "token a"),
        ("delete", "deleted 7"),
    ]
    yield from session("json", "[7]", "/a", goes_on, "/0 []")


def stepwise(kind, pointer, document, steps):
    """Sessions of one call each: the call, its reply, and the pointer and document that the next one starts with."""
    for call, reply, next_pointer, next_document in steps:
        yield from session(kind, document, pointer, [(call, reply)], f"{next_pointer} {next_document}")
        pointer, document = next_pointer, next_document


def single_calls():
    """Sessions of one call each, and of none."""
    worked = [
        ("push_back a/b", "done", "/a~1b", "null"),
        ("assign 1", "assigned for null", "/a~1b", '{"a/b":1}'),
        ("delete", "deleted 1", "/a~1b", "{}"),
        ("resolve", RESOLVE_NOT_FOUND.format(0), "/a~1b", "{}"),
    ]
    yield from stepwise("json", "", "null", worked)
    for pointers in KINDS:
        yield Case(("session", "json", "{}", pointers, "/a~1b"), "", "/a~1b {}\n")
    for kind, two in [("json", '{"a":[1,2]}'), ("toml", "{ a = [1, 2] }")]:
        steps = [
            ("parse /a", "done", "/a", two),
            ("push_back ~", "done", "/a/~0", two),
            ("push_front b/c", "done", "/b~1c/a/~0", two),
            ("pop_front", "token b~1c", "/a/~0", two),
            ("replace 1 0", "token ~0", "/a/0", two),
            ("replace 1 c/d", "token 0", "/a/c~1d", two),
            ("replace 0 ", "token a", "//c~1d", two),
        ]
        yield from stepwise(kind, "/x", two, steps)
    two, kept, deep = '{"a":[1,2]}', '{"a":[{},2]}', '{"a":[{"x":[true]},2]}'
    steps = [
        ("resolve", "value 1", "/a/0", two),
        ("write {}", "value 1", "/a/0", kept),
        ("append /x/-", "done", "/a/0/x/-", kept),
        ("assign true", "assigned", "/a/0/x/-", deep),
        ("delete", "not deleted", "/a/0/x/-", deep),
        ("pop_back", "token -", "/a/0/x", deep),
        ("delete", "deleted [true]", "/a/0/x", kept),
        ("clear", "done", "", kept),
        ("pop_back", "no token", "", kept),
        ("pop_front", "no token", "", kept),
        ("assign []", f"assigned for {kept}", "", "[]"),
        ("resolve", "value []", "", "[]"),
        ("delete", "deleted []", "", "null"),
        ("write 5", "value null", "", "5"),
    ]
    yield from stepwise("json", "/a/0", two, steps)
    two, seven, deep, kept = "{ a = [1, 2] }", "{ a = [7] }", "{ a = [{ x = [true] }] }", "{ a = [{}] }"
    steps = [
        ("resolve", "value 1", "/a/0", two),
        ("delete", "deleted 1", "/a/0", "{ a = [2] }"),
        ("write 7", "value 2", "/a/0", seven),
        ("append /x/-", "done", "/a/0/x/-", seven),
        ("assign true", "assigned for 7", "/a/0/x/-", deep),
        ("delete", "not deleted", "/a/0/x/-", deep),
        ("pop_back", "token -", "/a/0/x", deep),
        ("delete", "deleted [true]", "/a/0/x", kept),
        ("clear", "done", "", kept),
        ("pop_back", "no token", "", kept),
        ("pop_front", "no token", "", kept),
        ("assign 1979-05-27", f"assigned for {kept}", "", "1979-05-27"),
        ("resolve", "value 1979-05-27", "", "1979-05-27"),
        ("delete", "deleted 1979-05-27", "", "{}"),
        ("push_back b", "done", "/b", "{}"),
        ("assign 3", "assigned", "/b", "{ b = 3 }"),
    ]
    yield from stepwise("toml", "/a/0", two, steps)


def refused_calls():
    """Sessions of one call that fails and leaves pointer and document unchanged."""
    date, one = "{ d = 1979-05-27 }", "{ a = [1] }"
    rows = [
        ("json", "/x", "[]", "parse foo", f"{PARSE_NO_SLASH}: foo"),
        ("json", "/a/", '{"a":{}}', "resolve", RESOLVE_NOT_FOUND.format(2)),
        ("json", "/a/", '{"a":{}}', "write null", RESOLVE_NOT_FOUND.format(2)),
        ("json", "/a/b", '{"a":1}', "resolve", RESOLVE_UNREACHABLE.format(2)),
        ("json", "/a/b", '{"a":1}', "write null", RESOLVE_UNREACHABLE.format(2)),
        ("json", "/a/b", '{"a":[1]}', "assign null", ASSIGN_BAD_INDEX.format(2)),
        ("json", "/a/b", "[]", "replace 2 x", REPLACE_OUT_OF_BOUNDS.format(2, 2)),
        ("json", "//", "[]", f"replace {USIZE_MAX} x", REPLACE_OUT_OF_BOUNDS.format(USIZE_MAX, 2)),
        ("toml", "/d/x", date, "replace 2 x", REPLACE_OUT_OF_BOUNDS.format(2, 2)),
        ("toml", "/d/x", date, "parse d", f"{PARSE_NO_SLASH}: d"),
        ("toml", "/a/2", one, "assign 1", ASSIGN_OUT_OF_BOUNDS.format(2)),
        ("toml", "/a/01", one, "assign 1", ASSIGN_BAD_INDEX.format(2)),
    ]
    for kind, pointer, document, call, reply in rows:
        yield from stepwise(kind, pointer, document, [(call, reply, pointer, document)])


def reports():
    """Error reports: labels, rendering and displayed text."""
    tilde = "'~' must be followed by '0' or '1'"
    rows = [
        (
            ("pointer", "foo"),
            PARSE_NO_SLASH,
            "0+0 must start with a slash ('/')",
            "foo\n^ must start with a slash ('/')",
        ),
        (
            ("pointer", "/foo/invalid~tilde/invalid"),
            PARSE_MALFORMED.format(4),
            f"12+2 {tilde}",
            f"/foo/invalid~tilde/invalid\n            ^^ {tilde}",
        ),
        (
            ("token", "~"),
            TOKEN_BAD_ENCODING.format(1),
            "0+1 incomplete escape sequence",
            "~\n^ incomplete escape sequence",
        ),
        (("token", "~~0"), TOKEN_BAD_ENCODING.format(1), "1+1 must be 0 or 1", "~~0\n ^ must be 0 or 1"),
        (
            ("token", "foo/oops~bar"),
            TOKEN_BAD_ENCODING.format(3),
            "3+1 invalid character",
            "foo/oops~bar\n   ^ invalid character",
        ),
        (("index", "00"), INDEX_LEADING_ZEROS, "0+2 leading zeros", "00\n^^ leading zeros"),
        (("index", "0a"), INDEX_LEADING_ZEROS, "0+1 leading zeros", "0a\n^ leading zeros"),
        (("index", "1a"), INDEX_BAD_CHARACTER, "1+1 invalid character(s)", "1a\n ^ invalid character(s)"),
        (("index", "00", "12"), INDEX_LEADING_ZEROS, "0+0 leading zeros", "12\n^ leading zeros"),
        (
            ("index", "123x", "abcdé1"),
            INDEX_BAD_CHARACTER,
            "3+3 invalid character(s)",
            "abcdé1\n   ^^ invalid character(s)",
        ),
        (
            ("index", "123x", "1"),
            INDEX_BAD_CHARACTER,
            "3+0 invalid character(s)",
            "1\n ^ invalid character(s)",
        ),
        (
            ("resolve", '{"foo":["bar"]}', "/foo/-"),
            RESOLVE_OUT_OF_BOUNDS.format(4),
            "5+1 index 1 out of bounds (len: 1)",
            "/foo/-\n     ^ index 1 out of bounds (len: 1)",
        ),
        (
            ("resolve", '{"a":{}}', "/a/"),
            RESOLVE_NOT_FOUND.format(2),
            "2+0 not found in value",
            "/a/\n  ^ not found in value",
        ),
        (
            ("resolve", "1", "/a~1b"),
            RESOLVE_UNREACHABLE.format(0),
            "1+4 unreachable",
            "/a~1b\n ^^^^ unreachable",
        ),
        (
            ("resolve", "[]", "/x"),
            RESOLVE_BAD_INDEX.format(0),
            "1+1 not an array index",
            "/x\n ^ not an array index",
        ),
        (
            ("assign", "[]", "/1"),
            ASSIGN_OUT_OF_BOUNDS.format(0),
            "1+1 1 is out of bounds (len: 0)",
            "/1\n ^ 1 is out of bounds (len: 0)",
        ),
        (
            ("assign", "[]", "/x"),
            ASSIGN_BAD_INDEX.format(0),
            "1+1 expected array index or '-'",
            "/x\n ^ expected array index or '-'",
        ),
        (
            ("index", "1" + LONG),
            INDEX_BAD_CHARACTER,
            "1+100000 invalid character(s)",
            f"1{LONG}\n {'^' * 100_000} invalid character(s)",
        ),
        (
            ("pointer", MANY + "~"),
            PARSE_MALFORMED.format(99_998),
            f"100000+1 {tilde}",
            f"{MANY}~\n{' ' * 100_000}^ {tilde}",
        ),
    ]
    for about, text, label, drawn in rows:
        yield no_alloc("report", "display", *about, answer=text)
        yield no_alloc("report", "display failing", *about, answer="true")
        yield allocates("report", "labels", *about, answer=label)
        yield allocates("report", "clone", *about, answer=label)
        yield allocates("report", "render", *about, answer=drawn)
    for text, fault in [("foo", PARSE_NO_SLASH), ("/~", PARSE_MALFORMED.format(0)), (LONG, PARSE_NO_SLASH)]:
        for call in ["diagnose", "diagnose_with"]:
            yield no_alloc("report joined", call, text, answer=f"{fault}: {text}")
            yield no_alloc("report joined", call, f"/{text.replace('~', 'x')}", answer=f"/{text.replace('~', 'x')}")
        yield no_alloc("text kept", "decompose", text, answer=text)
        yield no_alloc("text kept", "into_original", text, answer=fault)
    yield no_alloc("report", "labels", "index", "", answer="none")
    yield no_alloc("report", "labels", "index", "9" * 100_000, answer="none")
    yield no_alloc("report", "labels", "index", USIZE_MAX + 1, "00", answer="none")
    yield allocates("report", "labels", "index", "+1", answer="0+1 invalid character(s)")
    yield allocates("report", "labels", "token", "a~/b", answer="2+1 invalid character")
    yield allocates("report", "labels", "token", "é~x", answer="3+1 must be 0 or 1")
    rows = [
        (("pointer", "/é~"), f"/é~\n  ^ {tilde}"),
        (("token", "é~x"), "é~x\n  ^ must be 0 or 1"),
        (("index", "007"), "007\n^^ leading zeros"),
        (("index", ""), ""),
        (("index", USIZE_MAX + 1), USIZE_MAX + 1),
        (("assign", "[0]", "/3"), "/3\n ^ 3 is out of bounds (len: 1)"),
    ]
    for about, drawn in rows:
        yield allocates("report", "render", *about, answer=drawn)


def of_pointer(offset, source):
    """Returns the kind and the fields of the error of a pointer whose token at an offset is malformed."""
    return "parse error", offset, source, "Tilde"


def of_token(offset, source):
    """Returns the kind and the fields of the error of a token."""
    return "encoding error", offset, source


def of_document(position, offset):
    """Returns the kind and the fields of the error of a token that is not found in a document."""
    return "resolve error", "NotFound", position, offset, ""


def bounds():
    """Index bounds, and reports of errors whose fields no parser returned."""
    rows = [
        ("for_len", USIZE_MAX, USIZE_MAX, f"index {USIZE_MAX} out of bounds (len: {USIZE_MAX})"),
        ("for_len_incl", USIZE_MAX, USIZE_MAX, USIZE_MAX),
        ("for_len_unchecked", USIZE_MAX, 0, USIZE_MAX),
        ("for_len", 0, 1, 0),
        ("for_len", 0, 0, "index 0 out of bounds (len: 0)"),
        ("for_len", 1, 1, "index 1 out of bounds (len: 1)"),
        ("for_len", "-", 1, "index 1 out of bounds (len: 1)"),
        ("for_len_incl", 1, 1, 1),
        ("for_len_incl", "-", 1, 1),
        ("for_len_incl", 2, 1, "index 2 out of bounds (len: 1)"),
        ("for_len_incl", "-", USIZE_MAX, USIZE_MAX),
        ("for_len_unchecked", "-", 30, 30),
        ("for_len_unchecked", "-", 34, 34),
        ("for_len_unchecked", 42, 30, 42),
        ("for_len_unchecked", 34, 40, 34),
    ]
    for call, index, length, answer in rows:
        yield no_alloc("index", call, index, length, answer=answer)
    lengths = [
        (USIZE_MAX, 1, "", 1),
        (USIZE_MAX, 0, "/~", 1),
        (0, 0, "/~", 2),
        (0, 0, "~", 1),
        (1, 1, "/a~", 1),
        (1, 1, "/a~0", 2),
    ]
    for offset, source, subject, length in lengths:
        _, *fields = of_pointer(offset, source)
        yield no_alloc("fields", "len", "invalid_encoding_len", *fields, subject, answer=length)
    none = [
        (of_pointer(USIZE_MAX, 1), ""),
        (of_pointer(USIZE_MAX, USIZE_MAX), "/~"),
        (of_token(0, "Tilde"), ""),
        (of_document(0, USIZE_MAX), "/a"),
        (of_document(USIZE_MAX, 0), "/a"),
    ]
    for fields, subject in none:
        yield no_alloc("fields", "labels", *fields, subject, answer="none")
    labels = [
        (of_pointer(0, 0), "/~", "0+2 '~' must be followed by '0' or '1'"),
        (of_token(0, "Slash"), "", "0+1 invalid character"),
        (of_token(USIZE_MAX, "Slash"), "", f"{USIZE_MAX}+1 invalid character"),
        (of_token(0, "Tilde"), "a", "0+1 must be 0 or 1"),
        (of_token(3, "Tilde"), "é~", "2+1 incomplete escape sequence"),
        (of_token(USIZE_MAX, "Tilde"), "", f"{USIZE_MAX}+1 must be 0 or 1"),
        (of_pointer(USIZE_MAX, 0), "", f"{USIZE_MAX}+1 '~' must be followed by '0' or '1'"),
        (of_document(0, USIZE_MAX - 1), "/a", f"{USIZE_MAX - 1}+1 not found in value"),
    ]
    for fields, subject, label in labels:
        yield allocates("fields", "labels", *fields, subject, answer=label)
    drawings = [
        (of_token(9, "Slash"), "ab", "ab\n  ^ invalid character"),
        (of_token(USIZE_MAX, "Slash"), "ab", "ab\n  ^ invalid character"),
        (of_token(0, "Tilde"), "", ""),
        (of_document(1, 4), "/foo/bär/x", "/foo/bär/x\n     ^^^ not found in value"),
    ]
    for fields, subject, drawn in drawings:
        yield allocates("fields", "render", *fields, subject, answer=drawn)
    yield no_alloc("fields", "display", *of_token(USIZE_MAX, "Slash"), "", answer=TOKEN_BAD_ENCODING.format(USIZE_MAX))
    orders = [("index", "/1", "/2", "<"), ("index", "/-", f"/{USIZE_MAX}", ">"), ("index", "/-", "/-", "=")]
    orders += [("component", "", "/", "<"), ("component", "/a~1b", "/a~0", ">"), ("component", MANY, MANY, "=")]
    for kind, one, other, order in orders:
        yield no_alloc("order", kind, one, other, answer=ORDERS[order])
    yield no_alloc("known", "from_static", answer=8)
    yield no_alloc("known", "new_unchecked", answer=5)
    yield no_alloc("known", "complete_offset", answer=12)


def shown():
    """Displayed texts, also with writers that fail at each of their calls in turn."""
    for kind in ["pointer", *KINDS]:
        yield no_alloc("show failing", kind, "/a~1b", answer="true")
    invalid = ["InvalidEncoding::Tilde", "InvalidEncoding::Slash", "InvalidCharacterError"]
    for error in [*invalid, "OutOfBoundsError", "ReplaceError", "Fault::Refused", "Fault::Memory"]:
        yield no_alloc("show failing error", error, answer="true")
    for kind, text in [("token", "a~1b"), ("token", "abc"), ("index", "-"), ("index", "12")]:
        yield no_alloc("show failing", kind, text, answer="true")
    for kind in ["pointer", *KINDS]:
        for text in ["", "/a~1b", MANY, "/" + ENCODED]:
            yield no_alloc("show", kind, text, answer=text)
    tokens_shown = [("a~1b", "a/b"), ("", ""), ("é", "é"), ("~01", "~1"), ("~0bar", "~bar")]
    tokens_shown += [("~1foo~1~0bar", "/foo/~bar"), (ENCODED, DECODED), (LONG, LONG)]
    for token, text in tokens_shown:
        yield no_alloc("show", "token", token, answer=text)
    for text in ["-", "0", "10", str(USIZE_MAX)]:
        yield no_alloc("show", "index", text, answer=text)


def nested(depth, inner):
    """Objects in one another, each with the key `a`, around a value."""
    return '{"a":' * depth + inner + "}" * depth


def object_of(count, more=""):
    """A JSON object of so many members."""
    return "{" + ",".join(f'"k{number:05}":0' for number in range(count)) + more + "}"


def table_of(count, more=""):
    """A TOML table of so many members."""
    return "{ " + ", ".join(f"k{number:05} = 0" for number in range(count)) + more + " }"


def large_documents():
    """Writes into large arrays and objects, and deep pointers: a call that needs memory finds it at any size."""
    zeros = ",".join("0" * 100_000)
    yield on("json", object_of(1000), "assign", "/z", answer="none", after=object_of(1000, ',"z":1'))
    yield on("toml", table_of(1000), "assign", "/z", answer="none", after=table_of(1000, ", z = 1"))
    yield on("toml", f"[{', '.join('0' * 100)}]", "assign", "/-", answer="none", after=f"[{', '.join('0' * 100)}, 1]")
    yield on("json", f"[{zeros}]", "assign", "/-", answer="none", after=f"[{zeros},1]")
    yield on("toml", "1", "assign", "/", "2", answer="1", after='{ "" = 2 }')
    yield on("json", "{}", "assign", f"/{LONG * 3}", answer="none", after=f'{{"{LONG * 3}":1}}')
    yield on("json", "1", "assign", f"/{LONG * 3}", "2", answer="1", after=f'{{"{LONG * 3}":2}}')
    below, wall = nested(5, "1"), nested(5, "[]")
    error = RESOLVE_UNREACHABLE.format(10)
    yield on("json", below, "resolve", "/a" * 5 + "/b", answer=error, after=below, no_alloc=True)
    error = ASSIGN_BAD_INDEX.format(10)
    yield on("json", wall, "assign", "/a" * 5 + "/b", answer=error, after=wall, no_alloc=True)
    error = RESOLVE_OUT_OF_BOUNDS.format(10)
    yield on("json", wall, "resolve", "/a" * 5 + "/0", answer=error, after=wall, no_alloc=True)
    yield allocates("pointer with", "with_leading_token", MANY, "x", answer=f"/x{MANY}")
    yield allocates("pointer with", "with_trailing_token", MANY, "x", answer=f"{MANY}/x")
    label = "13+1 not found in value"
    yield allocates("fields", "labels", *of_document(6, 12), "/a" * 8, answer=label)


def large_undos_and_patches():
    """Undo and patches at deep pointers, and patches of many operations."""
    deep, written = nested(12, "{}"), nested(12, '{"b":7}')
    pointer = "/a" * 12 + "/b"
    yield undoing("json", deep, "assign_with_undo", pointer, "7", answer=f"remove at {pointer}", after=written)
    yield undoing("json", deep, "undo", pointer, "7", answer="done", after=deep)
    one, seven, pointer = nested(12, "1"), nested(12, "7"), "/a" * 12
    yield undoing("json", one, "assign_with_undo", pointer, "7", answer=f"put 1 at {pointer}", after=seven)
    yield undoing("json", one, "undo", pointer, "7", answer="done", after=one)
    deeper = "/a" * 1100
    yield undoing("json", "{}", "assign_with_undo", deeper, "7", answer="remove at /a", after=nested(1100, "7"))
    copied = '{"a":' + nested(11, "1") + ',"b":1}'
    yield patched(nested(12, "1"), ("copy", "/a" * 12, "/b"), after=copied)
    yield patched(nested(12, "1"), ("replace", "/a" * 12, "2"), after=nested(12, "2"))
    yield Case(("patch back", nested(12, "1"), "/a" * 12), f"add {'/a' * 12} 1\n", f"{nested(11, '{}')}\n")
    yield patched("[1]", *[("test", "/0", "1")] * 5, after="[1]")
    zeros = ",".join("0" * 100_001)
    yield patched(f"[{zeros}]", ("add", "/0", "1"), after=f"[1,{zeros}]")
    yield patched("[]", *[("add", "/-", "1")] * 2000, after=f"[{','.join('1' * 2000)}]")


def read_as(document, *operations, most=None):
    """A patch document that is read as these operations."""
    return Case(("patch read", document), "".join(f"{it}\n" for it in (*operations, "done")), f"{document}\n", most=most)


def unread(document, cause):
    """A document that is not a patch, which needs no memory to find out."""
    answer = f"not a JSON Patch document: {cause}\n"
    return Case(("patch read", document), answer, f"{document}\n", no_alloc=True)


def written_as(document, *operations):
    """Operations, each with the line that shows it, and their document."""
    shown = "".join(f"{line}\n" for line in (*(line for _, line in operations), "done"))
    patch = patch_of(word for words, _ in operations for word in words)
    return Case(("patch written", patch), f"{document}\n", shown)


def patch_documents():
    """Reading and writing patch documents."""
    add = '{"op":"add","path":"/a~1b","value":{"x":[1,null]}}'
    move = '{"from":"/a","op":"move","path":""}'
    yield read_as("[]", most=0)
    yield read_as(f"[{add}]", 'add /a~1b {"x":[1,null]}')
    yield read_as('[{"op":"remove","path":"/a"}]', "remove /a", most=2)
    yield read_as('[{"op":"replace","path":"/a","value":"text"}]', 'replace /a "text"', most=3)
    yield read_as(f"[{move}]", "move /a ")
    yield read_as('[{"from":"","op":"copy","path":"/~0/-"}]', "copy  /~0/-")
    yield read_as('[{"op":"test","path":"","value":-7,"x":1}]', "test  -7")
    yield read_as(f"[{','.join([add, move] * 20)}]", *['add /a~1b {"x":[1,null]}', "move /a "] * 20)
    for document, cause in [
        ("{}", "not an array"),
        ("[7]", "operation 0 is not an object"),
        (f'[{add},"{LONG}"]', "operation 1 is not an object"),
        ("[{}]", "operation 0 has no member `op`"),
        ('[{"op":"add","path":"/a"}]', "operation 0 has no member `value`"),
        ('[{"op":"remove","path":null}]', "member `path` of operation 0 is not a string"),
        ('[{"op":"remove","path":""},{"op":"spam"}]', "member `op` of operation 1 is not an operation"),
        ('[{"from":"a","op":"copy","path":""}]', f"member `from` of operation 0: {PARSE_NO_SLASH}"),
        (f'[{add},{move},{{"op":"test","path":"{MANY}"}}]', "operation 2 has no member `value`"),
        ('[{"op":["add"]}]', "member `op` of operation 0 is not a string"),
        (f'[{{"op":"{LONG}"}}]', "member `op` of operation 0 is not an operation"),
        (f'[{move},{{"op":"remove","path":"{LONG}"}}]', f"member `path` of operation 1: {PARSE_NO_SLASH}"),
        ('[{"from":"/a/~","op":"copy","path":""}]', f"member `from` of operation 0: {PARSE_MALFORMED.format(2)}"),
    ]:
        yield unread(document, cause)
    for document, *operations in [
        ('[{"path":"/a","op":"remove"}]', "remove /a"), ('[{"op":"remove","path":"/a","value":1}]', "remove /a"),
        ('[{"from":5,"op":"remove","path":"/a"}]', "remove /a"),
        ('[{"from":"a~","value":[],"op":"remove","path":"/a"}]', "remove /a"),
        ('[{"op":"add","path":"/a","value":1,"from":"b"}]', "add /a 1"),
        ('[{"op":"add","path":"/a","value":1,"from":null}]', "add /a 1"),
        ('[{"op":"copy","path":"/a","from":"/b","value":1}]', "copy /b /a"),
        # `serde_json` keeps the last of a repeated member when it reads a text.
        ('[{"op":"add","op":"remove","path":"/a"}]', "remove /a"), ('[{"op":7,"path":"/a","op":"remove"}]', "remove /a"),
        ('[{"path":"b","op":"remove","path":"/a"}]', "remove /a"),
        ('[{"value":1,"op":"add","path":"/a","value":2}]', "add /a 2"),
        ('[{"from":null,"from":"/c","op":"move","path":"/a"}]', "move /c /a"),
        ('[{"op":"test","path":"","value":null},{"op":"remove","path":"/a"}]', "test  null", "remove /a"),
        ('[{"op":"add","path":"/a","value":1.5}]', "add /a 1.5"),
        ('[{"op":"add","path":"","value":{"a":{"":[{"op":"add"}]},"b":false}}]', 'add  {"a":{"":[{"op":"add"}]},"b":false}'),
    ]:
        kept = json.dumps(json.loads(document), sort_keys=True, separators=(",", ":"))
        yield read_as(document, *operations)._replace(after=f"{kept}\n")
    yield written_as("[]")
    yield written_as(f"[{add}]", (("add", "/a~1b", '{"x":[1,null]}'), 'add /a~1b {"x":[1,null]}'))
    yield written_as(
        f'[{move},{{"op":"remove","path":"/~0"}},{{"op":"test","path":"/b","value":"text"}}]',
        (("move", "/a", ""), "move /a "),
        (("remove", "/~0"), "remove /~0"),
        (("test", "/b", '"text"'), 'test /b "text"'),
    )
    no_slash, no_escape = "must start with a slash ('/')", "'~' must be followed by '0' or '1'"
    yield allocates("patch labels", '[{"op":"remove","path":"a"}]', answer=f"0+0 {no_slash}")
    yield allocates("patch labels", '[{"op":"copy","path":"","from":"/b~"}]', answer=f"2+1 {no_escape}")
    yield no_alloc("patch labels", '[{"op":"remove"}]', answer="none")
    yield no_alloc("patch labels", "{}", answer="none")


def few_requests():
    """Calls that copy no more than they need: the number of memory requests is limited."""
    text = '"a text that takes memory"'
    texts_beside = ",".join([text] * 100)
    beside = f'{{"a":[0],"b":[{texts_beside}]}}'
    replaced = beside.replace("[0]", "[1]", 1)
    yield patched(beside, ("replace", "/a/0", "1"), after=replaced)._replace(most=2)
    yield patched(beside, ("test", "/a/0", "0"), after=beside)._replace(most=0)
    yield patched(beside, ("test", "/b/0", text), ("test", "/b/1", text), after=beside)._replace(most=0)
    yield Case(("patch back", beside, "/a/0"), "add /a/0 0\n", f"{beside.replace('[0]', '[]', 1)}\n", most=1)
    yield on("json", "1", "assign", "/a~1b", "2", answer="1", after='{"a/b":2}')._replace(most=2)
    for case in session("json", beside, "/a/0", [("write 1", "value 0")], f"/a/0 {replaced}"):
        yield case._replace(most=1)
    for call in ["push_back a", "append /a"]:
        for case in session("json", "{}", "/abc", [("clear", "done"), (call, "done")], "/a {}"):
            yield case._replace(most=1)
    for kind in KINDS:
        yield edit(kind, "pop_front", f"/a{MANY}", answer="a", after=MANY)._replace(most=1)
    rest = ", ".join([text] * 100)
    table = f"{{ a = 0, b = [{rest}] }}"
    for case in session("toml", table, "/a", [("delete", "deleted 0")], f"/a {{ b = [{rest}] }}"):
        yield case._replace(most=1)


def values_of_errors():
    """A call that fails drops the value that it was given."""
    yield from session("json", "[]", "/x", [("write [1]", RESOLVE_BAD_INDEX.format(0))], "/x []")
    yield from session("json", "[]", "/x", [("parse ", "done"), ("resolve", "value []")], " []")
    yield from session("json", "[]", "/x", [("append ", "done")], "/x []")


TABLES = [
    texts, pointers_of_texts, cut, indices, tokens, numbers, measures, pairs, ranges, copies, edits, owned,
    found, assigned, in_tables, labelled, undos, undos_told, patches, applied, refused, journaled, patch_documents,
    differences_of_objects, differences_of_arrays, differences, in_text, edits_in_text, edits_in_toml,
    sessions, single_calls, refused_calls, reports, bounds, shown,
    large_documents, large_undos_and_patches, few_requests, values_of_errors,
]
CASES = [case for table in TABLES for case in table()]
