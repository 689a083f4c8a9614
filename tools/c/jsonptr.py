"""JSON Pointers (RFC 6901) and JSON Patches (RFC 6902) by the proved library `libjsonptr.so`.

A module without dependencies. Documents cross to the library as JSON text:

    >>> import jsonptr
    >>> jsonptr.resolve({"sizes": [3, 5]}, "/sizes/1")
    5
    >>> document = jsonptr.Document('{"sizes": [3, 5]}')
    >>> document.resolve("/sizes/1")
    5
    >>> document.apply([{"op": "add", "path": "/sizes/-", "value": 8}])
    >>> document.text()
    '{"sizes":[3,5,8]}'
    >>> jsonptr.make_patch({"a": 1}, {"a": 2}).operations
    [{'op': 'replace', 'path': '/a', 'value': 2}]
    >>> undo = jsonptr.Patch([{"op": "remove", "path": "/sizes/0"}]).apply_with_inverse(document)
    >>> document.text(), undo.operations
    ('{"sizes":[5,8]}', [{'op': 'add', 'path': '/sizes/0', 'value': 3}])
    >>> document.apply(undo)
    >>> document.text()
    '{"sizes":[3,5,8]}'

In the library a number that is no integer of 64 bits is the nearest double. If a number would lose digits, in a text, in a
patch or in a Python value, the call raises `NotExact`. With `lossy=True` it takes the double:

    >>> text = '{"id": 12345678901234567890123}'
    >>> jsonptr.Document(text)
    Traceback (most recent call last):
        ...
    jsonptr.NotExact: the number at /id loses digits
    >>> jsonptr.Document(text, lossy=True).text()
    '{"id":1.2345678901234568e+22}'
    >>> jsonptr.lost_number(text)
    '/id'

Where a value is in a text, and which value is at an offset. Both count the characters of a `str`, and the bytes of `bytes`:

    >>> text = '["\u00e9", 1.00]'
    >>> start, end = jsonptr.locate(text, "/1")
    >>> start, end, text[start:end], jsonptr.pointer_at(text, start)
    (6, 10, '1.00', '/1')
    >>> jsonptr.locate(text.encode(), "/1")
    Span(start=7, end=11)

Each error that a call raises is a `JsonptrError`, or a `TypeError` or `MemoryError`. Errors, documents and patches can be
copied and pickled. The module needs Python 3.8 or later.

The library is searched for beside this file, in `../lib` and `../../lib`, and where the system has its libraries. The
environment variable JSONPTR_LIBRARY names another file. The import fails with `ImportError` if there is no library, or one
of another version. Threads may share a `Document`, which has a lock; the lock of Python is free while the library works. In
a process that was forked while another thread was in a call on a document, each call on it raises `RuntimeError`.
"""
import contextlib
import copy
import ctypes
import json
import operator
import os
import sys
import tempfile
import threading
from typing import (Any, AnyStr, Callable, Dict, Generic, Iterator, List, Mapping, NamedTuple, NoReturn, Optional, Sequence,
                    SupportsIndex, Tuple, Type, Union)

__all__ = ["Change", "Document", "Editor", "JsonPatchError", "JsonPointerError", "JsonptrError", "NotAssigned", "NotExact",
           "NotFound", "NotFragment", "NotInPlace", "NotJson", "NotPointer", "NotRenamed", "NotToml", "NotTomlValue", "OtherFormat",
           "Patch", "Raw", "Span", "TooDeep", "apply_patch", "edit", "escape", "from_fragment", "locate", "lost_number", "make_patch",
           "pointer_at", "resolve", "resolve_in_text", "resolve_pointer", "set_pointer", "to_fragment", "tokens", "version"]

__version__ = "0.4.0-dev"

Text = Union[str, bytes, bytearray, memoryview]
JSON = Union[None, bool, int, float, str, Sequence["JSON"], Mapping[str, "JSON"]]

OK, NO_MEMORY, NO_ROOM, BAD_ARGUMENT, NO_DOCUMENT, NOT_UTF8, NOT_JSON, NOT_POINTER, NO_TOKEN, NOT_FOUND, OTHER_TYPE, \
    NOT_ASSIGNED, NOT_PATCH, PATCH_FAILED, TOO_DEEP, NOT_EXACT, NOT_LOCATED, NO_VALUE, NOT_IN_PLACE, NOT_TOML, \
    NOT_TOML_VALUE, NOT_RENAMED, OTHER_FORMAT, NOT_FRAGMENT = range(24)
MEMBERS = [None, "op", "path", "from", "value", "pointer", "token", "text"]


def _library() -> ctypes.CDLL:
    """Loads the library."""
    here = os.path.dirname(os.path.abspath(__file__))
    named = os.environ.get("JSONPTR_LIBRARY")
    soname = "libjsonptr.so." + ".".join(__version__.split(".")[:2])
    beside = [os.path.join(here, *up, soname) for up in ((), ("..", "lib"), ("..", "..", "lib"))]
    name = named or next((it for it in beside if os.path.exists(it)), soname)
    try:
        library = ctypes.CDLL(name)
        said = library.jsonptr_version
    except (OSError, AttributeError) as error:
        where = "JSONPTR_LIBRARY names no library of jsonptr" if named else "there is no library of jsonptr"
        raise ImportError(f"{where}: {error}", name="jsonptr", path=name) from None
    # What the structs and the functions are depends on the version, so it is compared before any other call.
    said.restype = ctypes.c_char_p
    if said().decode(errors="replace") != __version__:
        raise ImportError(f"the library {name} is version {said().decode(errors='replace')}, and the module jsonptr is "
                          f"version {__version__}", name="jsonptr", path=name)
    return library


class _Handle(ctypes.Structure):
    _fields_ = [("address", ctypes.c_void_p), ("is_full", ctypes.c_bool)]


class _Change(ctypes.Structure):
    _fields_ = [("start", ctypes.c_size_t), ("old_end", ctypes.c_size_t), ("new_end", ctypes.c_size_t),
                ("is_reformatted", ctypes.c_bool), ("reserved", ctypes.c_uint64)]


class _Error(ctypes.Structure):
    _fields_ = [("status", ctypes.c_uint32), ("kind", ctypes.c_uint32), ("member", ctypes.c_uint32),
                ("reserved", ctypes.c_uint32), ("operation", ctypes.c_uint64), ("position", ctypes.c_uint64),
                ("slash", ctypes.c_uint64), ("offset", ctypes.c_uint64), ("length", ctypes.c_uint64),
                ("reserved_2", ctypes.c_uint64), ("reserved_3", ctypes.c_uint64)]


def _function(name: str, result: Any = ctypes.c_uint32) -> Any:
    """Returns a function of the library.

    It has no `argtypes`: to convert arguments to declared types takes longer than most calls. So each argument here is
    `bytes`, or an instance of `ctypes` that has the type of the parameter, and never an `int`.
    """
    try:
        function = getattr(_lib, "jsonptr_" + name)
    except AttributeError:
        raise ImportError(f"the library {_lib._name} lacks jsonptr_{name}. It says that it is version {__version__}, as the "
                          "module jsonptr does, but it is another one", name="jsonptr", path=_lib._name) from None
    function.restype = result
    return function


_lib = _library()
_get, _in_text, _parse = _function("document_get"), _function("resolve_in_text"), _function("document_parse_with")
_lost_number = _function("lost_number_in_text")
_locate, _pointer_at = _function("locate_in_text"), _function("pointer_at_in_text")
_assign, _delete, _patch = _function("document_assign"), _function("document_delete"), _function("document_patch")
_patch_with_inverse = _function("document_patch_with_inverse")
_diff, _free = _function("document_diff"), _function("document_free", None)
_text_open, _text_copy, _text_free = _function("text_open"), _function("text_copy"), _function("text_free", None)
_text_assign, _text_delete = _function("text_assign"), _function("text_delete")
_text_rename, _text_patch = _function("text_rename"), _function("text_patch")
_text_locate, _text_pointer_at = _function("text_locate"), _function("text_pointer_at")
_text_remove_comments, _text_relayout = _function("text_remove_comments"), _function("text_relayout")
_count, _escape = _function("pointer_count"), _function("pointer_escape")
_from_fragment, _to_fragment = _function("pointer_from_fragment"), _function("pointer_to_fragment")
_first_key, _next_key = _function("document_first_key"), _function("document_next_key")
_error_message, _version = _function("error_message"), _function("version", ctypes.c_char_p)
_size, _at = ctypes.c_size_t, ctypes.byref
_COMPACT, _PRETTY = ctypes.c_uint32(0), ctypes.c_uint32(1)
_ANY_NUMBERS, _EXACT_NUMBERS = ctypes.c_uint32(0), ctypes.c_uint32(2)
_encode = json.JSONEncoder(separators=(",", ":"), ensure_ascii=False, allow_nan=False).encode
_scan: Any = getattr(json.JSONDecoder(), "scan_once")  # reads a text that begins with its value, as those of the library do


class JsonptrError(ValueError):
    """An error of the library. Its message is that of the library for Rattle.

    `status` and `kind` are the numbers of jsonptr.h, which says in a table which error has which of the other fields.
    `position` is that of the token at fault, from 0, and `slash` the offset of the slash before it. `offset` and
    `length` are the bytes at fault, in UTF-8; of a text that is not JSON, `offset` is where reading stopped, and of
    a `NotFound` of `pointer_at` it is what was passed. A field that an error does not have is 0: a pointer in a
    patch has no `length`. `operation` and `member` are those of a
    patch, or None. Of bytes that are not UTF-8, `member` is "pointer", "token" or "text". A number that this module does
    not know, of a later library, is None in `member`.
    """

    status: int = 0
    kind: int = 0
    position: int = 0
    slash: int = 0
    offset: int = 0
    length: int = 0
    operation: Optional[int] = None
    member: Optional[str] = None

    def __init__(self, message: str = "", **fields: Any) -> None:
        super().__init__(message)
        self.__dict__.update(fields)

    def __str__(self) -> str:
        return Exception.__str__(self)  # and not that of KeyError, which quotes

    def __reduce__(self) -> Tuple[Any, ...]:
        return type(self), self.args, dict(self.__dict__)


JsonPointerError = JsonptrError  # its name in version 0.2


class NotPointer(JsonptrError):
    """A text is not a JSON Pointer."""


class NotFragment(JsonptrError):
    """A text is not the fragment of a JSON Pointer. `offset` is that of its fault, in characters as in bytes."""


class NotJson(JsonptrError):
    """A text is not JSON, or a Python value has no JSON text."""


class NotAssigned(JsonptrError):
    """The pointer leads to an array that has no such index."""


class NotFound(JsonptrError, KeyError):
    """The pointer does not resolve to a value, or no value is at the offset."""


class NotInPlace(JsonptrError):
    """An edit of a text is possible, but not in place."""


class NotRenamed(JsonptrError):
    """The pointer resolves to no member of an object, or another member has the key."""


class NotToml(JsonptrError):
    """A text is not TOML."""


class NotTomlValue(JsonptrError):
    """A value is None or an integer that TOML has not, or contains one, or a TOML document would not be a table."""


class OtherFormat(JsonptrError):
    """The call does not work on texts of this format."""


class JsonPatchError(JsonptrError):
    """A document is not a patch, or an operation of it fails."""


class TooDeep(JsonptrError):
    """The document could nest deeper than 10,127 levels, a text or the patch that takes a patch back deeper than 127, or the
    values of a TOML text deeper than 80."""


class NotExact(JsonptrError):
    """A number of a JSON text, of a patch or of a Python value would lose digits.

    `pointer` identifies the first one in that text, patch or value, and is None if the key of a member that it is in comes
    again. `offset` and `length` are its bytes in the text, or in the JSON text of the value.
    """

    pointer: Optional[str] = None


_CLASSES: Dict[int, Type[JsonptrError]] = {
    NOT_JSON: NotJson, NOT_POINTER: NotPointer, NOT_FOUND: NotFound, NO_VALUE: NotFound, NOT_ASSIGNED: NotAssigned,
    NOT_PATCH: JsonPatchError, PATCH_FAILED: JsonPatchError, TOO_DEEP: TooDeep, NOT_EXACT: NotExact,
    NOT_IN_PLACE: NotInPlace, NOT_RENAMED: NotRenamed, NOT_TOML: NotToml, NOT_TOML_VALUE: NotTomlValue,
    OTHER_FORMAT: OtherFormat, NOT_FRAGMENT: NotFragment}


def _fail(status: int, error: _Error) -> NoReturn:
    """Raises the exception of a status that is not OK."""
    if status == NO_MEMORY:
        raise MemoryError
    fields = {name: getattr(error, name) for name in ("status", "kind", "position", "slash", "offset", "length")}
    operation = error.operation if error.status in (NOT_PATCH, PATCH_FAILED) else None
    member = MEMBERS[error.member] if error.member < len(MEMBERS) else None
    raise _CLASSES.get(status, JsonptrError)(_message(error), operation=operation, member=member, **fields)


class _Buffer:
    """A buffer for results."""

    __slots__ = "bytes", "at_bytes", "size", "length", "at_length", "error", "at_error"

    def __init__(self, size: int) -> None:
        self.length, self.error = _size(), _Error()
        self.at_length, self.at_error = _at(self.length), _at(self.error)
        self.bytes: Any = ctypes.create_string_buffer(size)
        self.at_bytes, self.size = _at(self.bytes), _size(size)

    def fill(self, call: Any, *arguments: Any) -> bytes:
        """Calls a function that copies a result to the buffer, and returns the result.

        If the buffer is too short, the call is made again with one of the length that the first call told.
        """
        status = call(*arguments, self.at_bytes, self.size, self.at_length, self.at_error)
        if not status:
            return bytes(self.bytes[:self.length.value])
        if status == NO_ROOM:
            return _Buffer(self.length.value).fill(call, *arguments)
        _fail(status, self.error)


def _message(error: _Error) -> str:
    """Returns the message of an error."""
    length, out = _size(), ctypes.create_string_buffer(1024)
    _error_message(_at(error), out, _size(1024), _at(length))
    return out.raw[:length.value].decode()


def _bytes(text: Text) -> bytes:
    """Returns the UTF-8 of a string, and bytes as they are. The result is of the type `bytes` itself."""
    if type(text) is bytes:
        return text
    if isinstance(text, str):
        try:
            return str.encode(text)
        except UnicodeEncodeError as error:
            before = len(str.encode(str.__getitem__(text, slice(error.start))))
            raise JsonptrError(f"text is not UTF-8: {error}", status=NOT_UTF8, offset=before) from None
    if isinstance(text, (bytes, bytearray, memoryview)):
        return memoryview(text).tobytes()
    raise TypeError(f"a str or bytes is needed, not {type(text).__name__}")


def _text(text: Text) -> Tuple[bytes, ctypes.c_size_t]:
    """Returns the two arguments of a text: its bytes and their number."""
    text = _bytes(text)
    return text, _size(len(text))


def _kinds(digits: str) -> bytes:
    """Returns a table for `bytes.translate`: these bytes become "0", the letter of an exponent "e", and others a space."""
    return bytes(48 if chr(byte) in digits else 101 if byte in b"eE" else 32 for byte in range(256))


_DIGITS, _DIGITS_AND_POINTS = _kinds("0123456789"), _kinds("0123456789.")


def _may_lose(text: bytes) -> bool:
    """Returns whether a number of a JSON text can lose digits: one with an exponent, or with 17 digits and points in a row.

    Two decimals of 15 digits never have one double, and an integer of 16 digits is one of 64 bits.
    """
    kinds = text.translate(_DIGITS_AND_POINTS)
    return b"0" * 17 in kinds or b"0e" in kinds


def _may_be_long(text: bytes) -> bool:
    """Returns whether a number of a JSON text that Python wrote can lose digits: an integer of 19 digits, and never a float."""
    return b"0" * 19 in text.translate(_DIGITS)


def _exact(text: bytes, lossy: bool, is_suspect: Callable[[bytes], bool] = _may_lose) -> bytes:
    """Returns a JSON text. Raises `NotExact` if a number of it loses digits, unless `lossy`."""
    if not lossy and is_suspect(text):
        Document(text)
    return text


def _json(value: JSON, lossy: bool) -> bytes:
    """Returns the JSON text of a value. Raises `NotExact` if a number of it loses digits, unless `lossy`."""
    try:
        text = _bytes(_encode(value))
    except JsonptrError:
        raise
    except RecursionError:
        raise TooDeep("the value nests too deep for Python's json", status=TOO_DEEP) from None
    except ValueError as error:
        raise NotJson(f"the value is not JSON: {error}", status=NOT_JSON) from None
    return _exact(text, lossy, _may_be_long)


def _value(text: bytes) -> Any:
    """Returns the Python value of a text of the library."""
    try:
        return _scan(text.decode(), 0)[0]
    except RecursionError:
        raise TooDeep("the value nests too deep for Python's json", status=TOO_DEEP) from None


def version() -> str:
    """Returns the version of the library."""
    return str(_version().decode())


def tokens(pointer: Text) -> List[str]:
    """Returns the decoded tokens of a pointer, in time linear in its length.

        >>> tokens("/a~1b/0")
        ['a/b', '0']
    """
    text, count, error = _bytes(pointer), _size(), _Error()
    status = _count(text, _size(len(text)), _at(count), _at(error))
    if status:
        _fail(status, error)
    return [token.replace("~1", "/").replace("~0", "~") for token in text.decode().split("/")[1:]]


def escape(token: Text) -> str:
    """Returns a token as it is written in a pointer."""
    text = _text(token)
    return _Buffer(2 * len(text[0]) + 1).fill(_escape, *text).decode()


def from_fragment(fragment: Text) -> str:
    """Returns the pointer of a URI's fragment (RFC 6901, section 6): of a text that begins with "#", as in the `$ref` of a schema.

        >>> from_fragment("#/a%20b"), from_fragment("#")
        ('/a b', '')

    Any character may be percent-encoded. One that RFC 3986 does not allow in a fragment, as a space or "\u00fc", has to be: else the
    error is `NotFragment`, with the offset of the fault.
    """
    text = _text(fragment)
    return _Buffer(len(text[0]) + 1).fill(_from_fragment, *text).decode()


def to_fragment(pointer: Text) -> str:
    """Returns the fragment of a pointer, with its "#". Only what RFC 3986 does not allow in a fragment is percent-encoded.

        >>> to_fragment("/a b/\u00fc~1")
        '#/a%20b/%C3%BC~1'
    """
    text = _text(pointer)
    return _Buffer(3 * len(text[0]) + 2).fill(_to_fragment, *text).decode()


def resolve(document: Union["Document", JSON], pointer: Text) -> Any:
    """Returns the value that the pointer resolves to in a `Document` or in a Python value.

    A Python value crosses to the library as JSON text, whole. To resolve more than once, make a `Document`. Of a Python value
    the result is read from that text, so each number has all its digits, and members have their order.
    """
    if isinstance(document, Document):
        return document.resolve(pointer)
    text = _json(document, lossy=True)
    start, end = _located(text, pointer)
    return _value(text[start:end])


def resolve_in_text(text: Text, pointer: Text, *, lossy: bool = False) -> bytes:
    """Returns the JSON text of the value that the pointer resolves to in a JSON text, as bytes.

    Raises `NotExact` if a number of that value loses digits, with its pointer and bytes there, unless `lossy`. If both the text
    and the pointer are at fault, the error is the pointer's.
    """
    data = _bytes(text)
    if not lossy and _may_lose(data):
        start, end = _located(data, pointer)
        _exact(data[start:end], lossy)
    return _Buffer(len(data) + 32).fill(_in_text, *_text(data), *_text(pointer), _COMPACT)


def lost_number(text: Text) -> Optional[str]:
    """Returns the pointer of the first number of a JSON text that loses digits, or None if each number keeps them.

    A number loses digits if the library prints it with another decimal value: 1.10 and 1e5 lose none. The error is
    `NotExact` if the number has no pointer, since the key of a member that it is in comes again.
    """
    data, found = _text(text), ctypes.c_bool()
    pointer = _Buffer(min(len(data[0]) + 1, _MOST_KEPT)).fill(_lost_number, *data, _at(found))
    return pointer.decode() if found.value else None


class Span(NamedTuple):
    """Where a value is in a JSON text: where it begins, and where it ends, which is after its last character or byte."""

    start: int
    end: int


def _located(data: bytes, pointer: Text) -> Span:
    """Returns where the value that the pointer resolves to is in a JSON text, in bytes."""
    start, end, error = _size(), _size(), _Error()
    status = _locate(*_text(data), *_text(pointer), _at(start), _at(end), _at(error))
    if status:
        _fail(status, error)
    return Span(start.value, end.value)


def locate(text: Text, pointer: Text) -> Span:
    """Returns where the value that the pointer resolves to is in a JSON text: in characters of a `str`, in bytes of other texts.

    `text[start:end]` is the value as it is written, without white space around it:

        >>> text = '["\u00e9", 1.00]'
        >>> span = locate(text, "/1")
        >>> span, text[span.start:span.end]
        (Span(start=6, end=10), '1.00')

    Of a repeated key the last member counts. If both the text and the pointer are at fault, the error is the pointer's.
    The status of the error is NOT_LOCATED if the value is there but its bytes do not pass the check of the library, for
    which no text is known.
    """
    data = _bytes(text)
    start, end = _located(data, pointer)
    if isinstance(text, str) and not data.isascii():
        before = len(data[:start].decode())
        return Span(before, before + len(data[start:end].decode()))
    return Span(start, end)


def pointer_at(text: Text, offset: SupportsIndex) -> str:
    """Returns the pointer of the innermost value of a JSON text that contains the character or byte at the offset.

        >>> pointer_at('{"sizes": [3.0, 5]}', 12), pointer_at('{"sizes": [3.0, 5]}', 14)
        ('/sizes/0', '/sizes')

    A key, a comma and white space between two members are of their object. The offset counts characters of a `str`, and
    bytes of other texts. In a member whose key comes again, the result is the pointer of a value around it, which need not
    be the smallest. The error is `NotFound` if no value is there: the offset is before or after the document, or after the
    text.
    """
    data, at = _bytes(text), operator.index(offset)
    absent = NotFound(f"no value is at offset {at}", status=NO_VALUE, offset=at)
    if not 0 <= at <= sys.maxsize:
        raise absent
    if isinstance(text, str) and not data.isascii():
        at_byte = len(data.decode()[:at].encode())
    else:
        at_byte = min(at, len(data))
    try:
        return _Buffer(min(len(data) + 1, _MOST_KEPT)).fill(_pointer_at, *_text(data), _size(at_byte)).decode()
    except NotFound:
        raise absent from None


def _with_pointer(error: NotExact, text: bytes) -> NotExact:
    """Returns the error with the pointer of its number in the text."""
    try:
        pointer = lost_number(text)
    except NotExact:
        return error
    message = f"the number at {pointer} loses digits" if pointer else "the number loses digits"
    return NotExact(message, **{**error.__dict__, "pointer": pointer})


# The largest buffer that a document keeps.
_MOST_KEPT = 1 << 16

# How often this process was forked from one that had loaded the module, which is counted in the child.
_forks = 0


def _count_fork() -> None:
    """Counts a fork."""
    global _forks
    _forks += 1


if hasattr(os, "register_at_fork"):
    os.register_at_fork(after_in_child=_count_fork)


class _Locked:
    """What has a lock, which a fork may leave locked."""

    _lock: threading.Lock
    _forks: int

    def _held(self) -> threading.Lock:
        """Returns the lock. Raises `RuntimeError` if no thread of this process can release it."""
        if self._forks != _forks:
            if self._lock.locked():
                raise RuntimeError("another thread was in a call on this object when the process was forked")
            self._forks = _forks
        return self._lock

    def _is_lost(self) -> bool:
        """Returns whether another thread was changing what this owns when the process was forked, so that it cannot be freed."""
        return self._forks != _forks and self._lock.locked()


class Document(_Locked):
    """A JSON document in the memory of the library.

    It is made of JSON text, as `str` or bytes, and `Document.of` makes it of a Python value. A number that loses digits is
    the error `NotExact`, unless `lossy`. A copy, and a document that was pickled, is made of the text again, so a document that
    nests deeper than 127 levels has none.
    """

    def __init__(self, text: Text, *, lossy: bool = False) -> None:
        data = _bytes(text)
        buffer = _Buffer(min(max(len(data), 512), _MOST_KEPT))
        if not hasattr(self, "_at"):
            self._handle, self._lock, self._forks = _Handle(), threading.Lock(), _forks
            self._at = _at(self._handle)
            self._size = _size()  # of the pointer that is passed
        flags = _ANY_NUMBERS if lossy or not _may_lose(data) else _EXACT_NUMBERS
        with self._held():
            status = _parse(self._at, data, _size(len(data)), flags, buffer.at_error)
            if not status:
                self._buffer, self._length = buffer, len(data)  # the length is about that of the compact text
        try:
            if status:
                _fail(status, buffer.error)
        except NotExact as error:
            raise _with_pointer(error, data) from None

    @classmethod
    def of(cls, value: JSON, *, lossy: bool = False) -> "Document":
        """Returns the document of a Python value. A number that loses digits is the error `NotExact`, unless `lossy`."""
        return cls(_json(value, lossy), lossy=True)

    def _call(self, call: Any, *arguments: Any) -> None:
        """Calls a function on the document that returns no text."""
        with self._held():
            status = call(self._at, *arguments, self._buffer.at_error)
            if status:
                _fail(status, self._buffer.error)

    def _whole(self, flags: ctypes.c_uint32) -> bytes:
        """Returns the text of the whole document. Its buffer is kept only if it is short."""
        with self._held():
            is_long = self._length >= self._buffer.size.value
            buffer = _Buffer(self._length + self._length // 8) if is_long else self._buffer
            text = buffer.fill(_get, self._at, b"", _size(0), flags)
            self._length = len(text)
            return text

    def get(self, pointer: Text) -> bytes:
        """Returns the JSON text of the value that the pointer resolves to, as bytes."""
        pointer, size, buffer = _bytes(pointer), self._size, self._buffer
        if not pointer:
            return self._whole(_COMPACT)
        with self._held():
            size.value = len(pointer)
            if _get(self._at, pointer, size, _COMPACT, buffer.at_bytes, buffer.size, buffer.at_length, buffer.at_error):
                if buffer.error.status != NO_ROOM:
                    _fail(buffer.error.status, buffer.error)
                return _Buffer(buffer.length.value).fill(_get, self._at, pointer, size, _COMPACT)
            return bytes(buffer.bytes[:buffer.length.value])

    def resolve(self, pointer: Text) -> Any:
        """Returns the value that the pointer resolves to, as a Python value."""
        return _value(self.get(pointer))

    def _key(self, call: Any, *arguments: Any) -> Optional[bytes]:
        """Returns the key that a call copies, or None if it finds none."""
        found = ctypes.c_bool()
        with self._held():
            key = self._buffer.fill(call, self._at, *arguments, _at(found))
        return key if found.value else None

    def keys(self, pointer: Text = "") -> Iterator[str]:
        """Returns an iterator over the keys of the object that the pointer resolves to, in the order of their code points.

            >>> document = Document('{"sizes": {"s": 3, "m": 5, "l": 8}}')
            >>> list(document.keys("/sizes"))
            ['l', 'm', 's']
            >>> for key in document.keys("/sizes"):
            ...     print(to_fragment("/sizes/" + escape(key)), document.resolve("/sizes/" + escape(key)))
            #/sizes/l 8
            #/sizes/m 5
            #/sizes/s 3

        The error is `NotFound` if nothing is there, and a `JsonptrError` of the status OTHER_TYPE if the value is no object. The
        document may change on the way: each key is the least one after the last, at that time.
        """
        at = _text(pointer)
        return self._keys_from(at, self._key(_first_key, *at))

    def _keys_from(self, at: Tuple[bytes, ctypes.c_size_t], key: Optional[bytes]) -> Iterator[str]:
        """Yields a key and those after it, of the object that a pointer resolves to."""
        while key is not None:
            yield key.decode()
            key = self._key(_next_key, *at, *_text(key))

    def assign(self, pointer: Text, value: JSON, *, lossy: bool = False) -> None:
        """Assigns a Python value at the pointer, and creates what is missing on the way.

        A string, number, boolean or null on the way is replaced by a new object or array. A number that loses digits is the
        error `NotExact`, unless `lossy`.
        """
        text = _json(value, lossy)
        self._call(_assign, *_text(pointer), *_text(text))
        self._length += len(text)

    def delete(self, pointer: Text) -> bool:
        """Deletes the value that the pointer resolves to, and returns whether there was one. "" leaves None."""
        found = ctypes.c_bool()
        self._call(_delete, *_text(pointer), _at(found))
        return bool(found.value)

    def apply(self, patch: Union["Patch", Text, Sequence[Mapping[str, JSON]]], *, lossy: bool = False) -> None:
        """Applies a patch, all of it or nothing: a `Patch`, JSON text, or a list of operations.

        A `test` compares numbers by their values: 1 equals 1.0, and nothing is rounded. `remove` of "" leaves None. A number
        of the patch that loses digits is the error `NotExact`, unless `lossy`.
        """
        text = (patch if isinstance(patch, Patch) else Patch(patch))._exact(lossy)
        self._call(_patch, *_text(text))
        self._length += len(text)

    def text(self, pretty: bool = False) -> str:
        """Returns the JSON text of the document. A pretty text has no newline at its end."""
        return self._whole(_PRETTY if pretty else _COMPACT).decode()

    def value(self) -> Any:
        """Returns the document as a Python value."""
        return self.resolve("")

    def __repr__(self) -> str:
        return f"Document({self.text()!r})"

    def __eq__(self, other: object) -> bool:
        if not isinstance(other, Document):
            return NotImplemented
        return self.text() == other.text()

    __hash__ = None  # type: ignore[assignment]

    def _others(self) -> Dict[str, Any]:
        """Returns the attributes that a subclass or a caller has set."""
        return {name: value for name, value in self.__dict__.items() if name not in _OWN}

    def __copy__(self) -> "Document":
        return _remade(type(self), self.text(), self._others())

    def __deepcopy__(self, memo: Any) -> "Document":
        return _remade(type(self), self.text(), copy.deepcopy(self._others(), memo))

    def __reduce__(self) -> Tuple[Any, ...]:
        if type(self) is Document and not self._others():
            return Document, (self.text(),)  # which each version of the module reads
        return _remade, (type(self), self.text(), self._others())

    def __del__(self, _free: Any = _free) -> None:
        if hasattr(self, "_at") and not self._is_lost():
            _free(self._at)


# The attributes of a document itself.
_OWN = {"_at", "_buffer", "_forks", "_handle", "_length", "_lock", "_size"}


def _remade(kind: Type[Document], text: str, others: Dict[str, Any]) -> Document:
    """Returns a document of this class, with its text and other attributes, as a copy or after a pickle."""
    document = kind.__new__(kind)
    Document.__init__(document, text, lossy=True)
    document.__dict__.update(others)
    return document


class Patch:
    """A JSON Patch: a list of operations, or the JSON text of one.

    It is false if it has no operations, and two patches are equal if their operations are the same JSON.
    """

    _is_of_python = False  # whether Python wrote the text, so that its floats lose no digits

    def __init__(self, operations: Union[Text, Sequence[Mapping[str, JSON]]]) -> None:
        is_text = isinstance(operations, (str, bytes, bytearray, memoryview))
        self.text = _bytes(operations) if is_text else _json(operations, lossy=True)  # type: ignore[arg-type]
        if not is_text:
            self._is_of_python = True

    def _exact(self, lossy: bool) -> bytes:
        """Returns the text. Raises `NotExact` if a number of it loses digits, unless `lossy`."""
        return _exact(self.text, lossy, _may_be_long if self._is_of_python else _may_lose)

    @property
    def operations(self) -> List[Any]:
        """The operations, as Python values, each number with all its digits. The text is read anew each time."""
        try:
            found = json.loads(self.text.decode(), parse_constant=_no_constant)
        except RecursionError:
            raise TooDeep("the patch nests too deep for Python's json", status=TOO_DEEP) from None
        except ValueError as error:
            raise NotJson(f"the patch is not JSON: {error}", status=NOT_JSON) from None
        if not isinstance(found, list):
            raise JsonPatchError("patch is not an array", status=NOT_PATCH)
        return found

    def apply(self, value: JSON, *, lossy: bool = False) -> Any:
        """Returns a Python value after the operations. The value itself is unchanged.

        A number of either that loses digits is the error `NotExact`, unless `lossy`.
        """
        if isinstance(value, Document):
            raise TypeError("a Python value is needed, not Document, which has a method apply")
        document = Document.of(value, lossy=lossy)
        document.apply(self, lossy=lossy)
        return document.value()

    def apply_with_inverse(self, document: Document, *, lossy: bool = False) -> "Patch":
        """Applies the patch to a `Document`, all of it or nothing, and returns the patch that takes it back.

        The document is copied on the way. A number of the patch that loses digits is the error `NotExact`, unless `lossy`.
        """
        if not isinstance(document, Document):
            raise TypeError(f"a Document is needed, not {type(document).__name__}")
        text = self._exact(lossy)
        with document._held():
            # The values that are taken back are of the document. What else is in the text is about as long as the patch.
            buffer = _Buffer(document._length + 2 * len(text) + 512)
            inverse = Patch(buffer.fill(_patch_with_inverse, document._at, *_text(text), _COMPACT))
            document._length += len(text)
        return inverse

    def _normal(self) -> str:
        """Returns one text for all patches with the same operations."""
        return json.dumps(self.operations, sort_keys=True)

    def __len__(self) -> int:
        return len(self.operations)

    def __iter__(self) -> Iterator[Any]:
        return iter(self.operations)

    def __eq__(self, other: object) -> bool:
        if not isinstance(other, Patch):
            return NotImplemented
        return self._normal() == other._normal()

    def __hash__(self) -> int:
        return hash(self._normal())

    def __repr__(self) -> str:
        return f"Patch({self.text.decode(errors='replace')!r})"


def _no_constant(name: str) -> NoReturn:
    """Raises an error for a word that Python's json reads and that is not JSON, as NaN."""
    raise ValueError(f"{name} is not JSON")


def make_patch(old: Union[Document, JSON], new: Union[Document, JSON], *, lossy: bool = False) -> Patch:
    """Returns a patch that turns one value into another. Each is a `Document` or a Python value.

    A number of a Python value that loses digits is the error `NotExact`, unless `lossy`.
    """
    old = old if isinstance(old, Document) else Document.of(old, lossy=lossy)
    new = new if isinstance(new, Document) else Document.of(new, lossy=lossy)
    if old is new:
        return Patch([])
    first, second = sorted((old, new), key=id)  # two threads take the two locks in one order
    with first._held(), second._held():
        buffer = _Buffer(old._length + new._length + 512)
        return Patch(buffer.fill(_diff, old._at, new._at, _COMPACT))


class Raw:
    """The JSON text of a value, which is put into a text as it is written: with its digits, its escapes and the order of members.

        >>> editor = Editor('{"price": 1.10}')
        >>> editor.assign("/price", Raw("2.50"))
        Change(start=10, old_end=13, new_end=13, reformatted=False)
        >>> editor.text
        '{"price": 2.50}'
    """

    __slots__ = ("text",)
    text: str

    def __init__(self, text: Text) -> None:
        data = _bytes(text)
        try:
            object.__setattr__(self, "text", data.decode())
        except UnicodeDecodeError as error:
            raise JsonptrError("text is not UTF-8", status=NOT_UTF8, offset=error.start, member="text") from None

    def __setattr__(self, name: str, value: object) -> NoReturn:
        raise AttributeError(f"a Raw has no other {name}")

    def __eq__(self, other: object) -> bool:
        if not isinstance(other, Raw):
            return NotImplemented
        return self.text == other.text

    def __hash__(self) -> int:
        return hash((Raw, self.text))

    def __repr__(self) -> str:
        return f"Raw({self.text!r})"

    def __reduce__(self) -> Tuple[Any, ...]:
        return Raw, (self.text,)


class Change(NamedTuple):
    """What an edit replaced: `old[start:old_end]` by `new[start:new_end]`, of a `str` in characters and of bytes in bytes.

    All else is the same in both texts. `reformatted` says that the document was printed anew.
    """

    start: int
    old_end: int
    new_end: int
    reformatted: bool


# The formats of a text, and their numbers in jsonptr.h.
_FORMATS = {"json": 0, "jsonc": 1, "toml": 2}
_SUFFIXES = {".jsonc": "jsonc", ".toml": "toml"}
_NO_FLAG, _REFORMAT = ctypes.c_uint32(0), ctypes.c_uint32(8)
_ALL = _size(2 ** 64 - 1)


def _given(value: Union[JSON, Raw]) -> bytes:
    """Returns the JSON text of a value that is put into a text."""
    return _bytes(value.text) if isinstance(value, Raw) else _json(value, lossy=True)


class Editor(_Locked, Generic[AnyStr]):
    """A text that is edited in place: JSON, with `format="jsonc"` JSON with comments and trailing commas, or with "toml" TOML.

        >>> editor = Editor('{\\n  "size": 3, // px\\n}\\n', "jsonc")
        >>> editor.assign("/size", 4)
        Change(start=12, old_end=13, new_end=13, reformatted=False)
        >>> editor["/name"] = "app"
        >>> print(editor.text, end="")
        {
          "size": 4, // px
          "name": "app",
        }
        >>> editor.get("/name"), editor["/size"], "/none" in editor
        ('"app"', 4, False)

    Of a `str` the text is a `str`, and offsets count characters; of `bytes` it is `bytes`, and they count bytes. Only the bytes
    of the value that changes are others afterwards: comments, white space, the order of members and the digits of all numbers
    stay. An edit that is possible, but not in place, is the error `NotInPlace`; with `reformat` it prints the document anew,
    without comments. An error leaves the text. A byte order mark is read past, and stays.

    In TOML a value is written as TOML writes it, in the form of its siblings:

        >>> editor = Editor('[project] # ours\\nname = "app"\\n', "toml")
        >>> editor["/project/version"] = "1.0"
        >>> editor.assign("/tool/app/sizes", [3, 5.5]).start
        46
        >>> print(editor.text, end="")
        [project] # ours
        name = "app"
        version = "1.0"
        <BLANKLINE>
        [tool.app]
        sizes = [3, 5.5]

    It has no None, integers from -2^63 to 2^63 - 1 alone, and dates and times that cannot be assigned: others are the error
    `NotTomlValue`. `value`, `editor[pointer]` and `in` need Python 3.11. `get`, `locate`, `pointer_at`, `apply`,
    `relayout` and `remove_comments` are the error `OtherFormat`.

    Threads may share an editor, as a `Document`. A copy, and one that was pickled, is made of the text.
    """

    def __init__(self, text: AnyStr, format: str = "json", *, reformat: bool = False) -> None:
        if format not in _FORMATS:
            raise ValueError(f"the format is one of {', '.join(_FORMATS)}, and not {format!r}")
        data, error = _bytes(text), _Error()
        if not hasattr(self, "_at"):
            self._handle, self._lock, self._forks = _Handle(), threading.Lock(), _forks
            self._at = _at(self._handle)
        with self._held():
            status = _text_open(self._at, ctypes.c_uint32(_FORMATS[format]), data, _size(len(data)), _at(error))
            if status:
                _fail(status, error)
            self._data, self._is_str, self._format, self.reformat = data, isinstance(text, str), format, reformat

    @property
    def format(self) -> str:
        """The format of the text."""
        return self._format

    @property
    def text(self) -> AnyStr:
        """The text."""
        return self._of_its_type(self._data)

    def _of_its_type(self, data: bytes) -> AnyStr:
        """Returns a part of the text in the type of the whole: a `str` or `bytes`."""
        return data.decode() if self._is_str else data  # type: ignore[return-value]

    def _count(self, data: bytes, offset: int) -> int:
        """Returns the offset in a text in characters, if these are counted."""
        return len(data[:offset].decode()) if self._is_str and not data.isascii() else offset

    def _edit(self, call: Any, *arguments: Any) -> Change:
        """Calls a function that edits the text, and returns what it changed."""
        change, error = _Change(), _Error()
        with self._held():
            old = self._data
            status = call(self._at, *arguments, _REFORMAT if self.reformat else _NO_FLAG, _at(change), _at(error))
            if status:
                _fail(status, error)
            self._replace(change)
            new = self._data
        return Change(self._count(old, change.start), self._count(old, change.old_end), self._count(new, change.new_end),
                      bool(change.is_reformatted))

    def _replace(self, change: _Change) -> None:
        """Makes the change of the library's text in this one."""
        length = change.new_end - change.start
        put = _Buffer(length + 1).fill(_text_copy, self._at, _size(change.start), _size(change.new_end)) if length else b""
        self._data = self._data[:change.start] + put + self._data[change.old_end:]

    def assign(self, pointer: Text, value: Union[JSON, Raw]) -> Change:
        """Assigns a Python value or a `Raw` at the pointer, and creates what is missing on the way."""
        return self._edit(_text_assign, *_text(pointer), *_text(_given(value)))

    def delete(self, pointer: Text) -> bool:
        """Deletes the value that the pointer resolves to, and returns whether there was one.

        Deleting "" leaves null, and of TOML an empty document.
        """
        found, change, error = ctypes.c_bool(), _Change(), _Error()
        with self._held():
            flags = _REFORMAT if self.reformat else _NO_FLAG
            status = _text_delete(self._at, *_text(pointer), flags, _at(found), _at(change), _at(error))
            if status:
                _fail(status, error)
            if found.value:
                self._replace(change)
        return bool(found.value)

    def rename(self, pointer: Text, key: Text) -> Change:
        """Renames the member of an object that the pointer resolves to: it keeps its place, its value and its white space."""
        return self._edit(_text_rename, *_text(pointer), *_text(key))

    def apply(self, patch: Union[Patch, Text, Sequence[Mapping[str, JSON]]]) -> Change:
        """Applies a patch, all of it or nothing: a `Patch`, JSON text, or a list of operations.

        A value of a patch that is a text keeps its digits, its escapes and the order of its members.
        """
        return self._edit(_text_patch, *_text((patch if isinstance(patch, Patch) else Patch(patch)).text))

    def relayout(self, new: Union[JSON, Raw]) -> Change:
        """Puts a whole document into the text, in the layout that it has: a Python value, or a `Raw` with its JSON text.

            >>> editor = Editor('{ "sizes": [1.00, 2] }')
            >>> editor.relayout({"sizes": [1.0, 2, 3]}).reformatted
            False
            >>> editor.text
            '{ "sizes": [1.00, 2, 3] }'

        A value that is the same keeps its bytes. Of the format "jsonc" or "toml" the error is `OtherFormat`.
        """
        return self._edit(_text_relayout, *_text(_given(new)))

    def remove_comments(self) -> None:
        """Replaces comments and trailing commas by spaces. The format is then "json"."""
        error = _Error()
        with self._held():
            status = _text_remove_comments(self._at, _at(error))
            if status:
                _fail(status, error)
            self._data = _Buffer(len(self._data) + 1).fill(_text_copy, self._at, _size(0), _ALL)
            self._format = "json"

    def _located(self, pointer: Text) -> Span:
        """Returns where the value that the pointer resolves to is, in bytes. The lock is held."""
        start, end, error = _size(), _size(), _Error()
        status = _text_locate(self._at, *_text(pointer), _at(start), _at(end), _at(error))
        if status:
            _fail(status, error)
        return Span(start.value, end.value)

    def locate(self, pointer: Text) -> Span:
        """Returns where the value that the pointer resolves to is: `text[start:end]` is the value as it is written."""
        with self._held():
            span, data = self._located(pointer), self._data
        return Span(self._count(data, span.start), self._count(data, span.end))

    def get(self, pointer: Text = "") -> AnyStr:
        """Returns the value that the pointer resolves to as it is written, with the comments in it."""
        with self._held():
            span, data = self._located(pointer), self._data
        return self._of_its_type(data[span.start:span.end])

    def value(self, pointer: Text = "") -> Any:
        """Returns the Python value that the pointer resolves to. An integer has all its digits, and a float is the nearest one."""
        if self._format == "toml":
            return _walk(self._toml(), tokens(pointer))
        text = _bytes(self.get(pointer))
        if self._format == "jsonc":
            bare = Editor(text, "jsonc")
            bare.remove_comments()
            text = bare.text
        return _value(text)

    def _toml(self) -> Dict[str, Any]:
        """Returns the document of a TOML text."""
        try:
            import tomllib
        except ImportError:
            raise OtherFormat("values of a TOML text are read from Python 3.11 on", status=OTHER_FORMAT) from None
        return tomllib.loads(str(self).lstrip("\ufeff"))

    def pointer_at(self, offset: SupportsIndex) -> str:
        """Returns the pointer of the innermost value that contains the character or byte at the offset."""
        at = operator.index(offset)
        absent = NotFound(f"no value is at offset {at}", status=NO_VALUE, offset=at)
        if not 0 <= at <= sys.maxsize:
            raise absent
        with self._held():
            data = self._data
            at_byte = len(data.decode()[:at].encode()) if self._is_str and not data.isascii() else min(at, len(data))
            try:
                return _Buffer(min(len(data) + 1, _MOST_KEPT)).fill(_text_pointer_at, self._at, _size(at_byte)).decode()
            except NotFound:
                raise absent from None

    def __getitem__(self, pointer: Text) -> Any:
        return self.value(pointer)

    def __setitem__(self, pointer: Text, value: Union[JSON, Raw]) -> None:
        self.assign(pointer, value)

    def __delitem__(self, pointer: Text) -> None:
        if not self.delete(pointer):
            if self._format == "toml":
                raise NotFound("delete failed: json pointer does not resolve", status=NOT_FOUND)
            self.locate(pointer)  # which raises NotFound

    def __contains__(self, pointer: Text) -> bool:
        try:
            self.value(pointer) if self._format == "toml" else self.locate(pointer)
        except NotFound:
            return False
        return True

    __iter__ = None  # pointers are no sequence

    def __str__(self) -> str:
        return self._data.decode()

    def __bytes__(self) -> bytes:
        return self._data

    def __repr__(self) -> str:
        return f"Editor({self.text!r}, {self._format!r})"

    def __eq__(self, other: object) -> bool:
        if not isinstance(other, Editor):
            return NotImplemented
        return (self._data, self._is_str, self._format) == (other._data, other._is_str, other._format)

    __hash__ = None  # type: ignore[assignment]

    def _others(self) -> Dict[str, Any]:
        """Returns the attributes that a subclass or a caller has set."""
        return {name: value for name, value in self.__dict__.items() if name not in _EDITORS_OWN}

    def __copy__(self) -> "Editor[AnyStr]":
        return _remade_editor(type(self), self.text, self._format, self._others())

    def __deepcopy__(self, memo: Any) -> "Editor[AnyStr]":
        return _remade_editor(type(self), self.text, self._format, copy.deepcopy(self._others(), memo))

    def __reduce__(self) -> Tuple[Any, ...]:
        return _remade_editor, (type(self), self.text, self._format, self._others())

    def __del__(self, _free: Any = _text_free) -> None:
        if hasattr(self, "_at") and not self._is_lost():
            _free(self._at)


# The attributes of an editor itself, except `reformat`.
_EDITORS_OWN = {"_at", "_data", "_forks", "_format", "_handle", "_is_str", "_lock", "__orig_class__"}


def _remade_editor(kind: Type[Editor[AnyStr]], text: AnyStr, format: str, others: Dict[str, Any]) -> Editor[AnyStr]:
    """Returns an editor of this class, with its text and other attributes, as a copy or after a pickle."""
    editor = kind.__new__(kind)
    Editor.__init__(editor, text, format)
    editor.__dict__.update(others)
    return editor


class _Seen(NamedTuple):
    """What a file was when it was read."""

    device: int
    inode: int
    size: int
    changed: int
    written: int


def _seen(status: os.stat_result) -> _Seen:
    """Returns what a file is."""
    return _Seen(status.st_dev, status.st_ino, status.st_size, status.st_ctime_ns, status.st_mtime_ns)


@contextlib.contextmanager
def edit(path: Union[str, "os.PathLike[str]"], format: Optional[str] = None, *, reformat: bool = False) -> Iterator[Editor[str]]:
    """Reads a file, lets its text be edited, and replaces the file if the text changed and no exception came.

        with jsonptr.edit("settings.jsonc") as settings:
            settings["/editor/fontSize"] = 14

    Without `format`, it is "jsonc" or "toml" for a name that ends in `.jsonc` or `.toml`, and else "json". The new text is written
    beside the file and renamed, so a crash leaves the old or the new one. The file keeps its mode, and its owner if that may be set. A symbolic link
    is followed and stays; a hard link becomes a file of its own. If another program changed the file meanwhile, it stays as that
    program left it, and the error is `FileExistsError`.
    """
    real = os.path.realpath(os.fspath(path))
    with open(real, "rb") as file:
        before = os.fstat(file.fileno())
        data = file.read()
    found = _SUFFIXES.get(os.path.splitext(real)[1], "json") if format is None else format
    try:
        text = data.decode()
    except UnicodeDecodeError as error:
        raise JsonptrError("text is not UTF-8", status=NOT_UTF8, offset=error.start, member="text") from None
    editor = Editor(text, found, reformat=reformat)
    yield editor
    new = bytes(editor)
    if new == data:
        return
    folder, name = os.path.split(real)
    handle, beside = tempfile.mkstemp(prefix=f".{name}.", dir=folder)
    try:
        with open(handle, "wb") as out:
            out.write(new)
            out.flush()
            with contextlib.suppress(PermissionError):
                os.fchown(handle, before.st_uid, before.st_gid)
            os.fchmod(handle, before.st_mode & 0o7777)
            os.fsync(handle)
        if _seen(os.stat(real)) != _seen(before):
            raise FileExistsError(f"{real} was changed by another program")
        os.replace(beside, real)
    except BaseException:
        with contextlib.suppress(FileNotFoundError):
            os.unlink(beside)
        raise
    handle = os.open(folder or ".", os.O_RDONLY)
    try:
        os.fsync(handle)
    finally:
        os.close(handle)


# ---- The names of jsonpointer and jsonpatch


class _Nothing:
    """No default."""


_NOTHING = _Nothing()


def _index(token: str, length: int) -> Optional[int]:
    """Returns the index that a token is (RFC 6901, section 4), if it is that of one of so many elements."""
    is_index = token.isascii() and token.isdigit() and (token == "0" or not token.startswith("0"))
    return int(token) if is_index and len(token) < 20 and int(token) < length else None


def _child(value: Any, token: str) -> Tuple[bool, Any]:
    """Returns whether a Python value has a child of this name, and the child."""
    if isinstance(value, Mapping):
        return (True, value[token]) if token in value else (False, None)
    if isinstance(value, Sequence) and not isinstance(value, (str, bytes, bytearray, memoryview)):
        at = _index(token, len(value))
        return (False, None) if at is None else (True, value[at])
    if hasattr(value, "__getitem__") and not isinstance(value, (str, bytes, bytearray, memoryview)):
        with contextlib.suppress(LookupError, TypeError):
            return True, value[token]
    return False, None


def _walk(document: Any, names: Sequence[str]) -> Any:
    """Returns the value to which the tokens lead. Raises `NotFound`."""
    value, slash = document, 0
    for position, token in enumerate(names):
        there, value = _child(value, token)
        if not there:
            raise NotFound(f"resolve failed: json pointer token {token!r} at position {position} was not found in value",
                           status=NOT_FOUND, position=position, slash=slash, offset=slash + 1, length=len(_bytes(escape(token))))
        slash += 1 + len(_bytes(escape(token)))
    return value


def resolve_pointer(doc: Any, pointer: str, default: Any = _NOTHING) -> Any:
    """Returns the object in `doc` that the pointer resolves to, as `jsonpointer.resolve_pointer` does. It is no copy.

        >>> doc = {"sizes": [3, {"unit": "px"}]}
        >>> resolve_pointer(doc, "/sizes/1") is doc["sizes"][1], resolve_pointer(doc, "/none", 7)
        (True, 7)

    Without a default, the error is `NotFound`. A token is the index of an element (RFC 6901, section 4), or else a key: of a
    mapping, or of another object with `__getitem__`.
    """
    if isinstance(doc, (Document, Editor)):
        try:
            return doc.resolve(pointer) if isinstance(doc, Document) else doc.value(pointer)
        except NotFound:
            if default is _NOTHING:
                raise
            return default
    try:
        return _walk(doc, tokens(pointer))
    except NotFound:
        if default is _NOTHING:
            raise
        return default


def set_pointer(doc: Any, pointer: str, value: Any, inplace: bool = True) -> Any:
    """Sets a member or an element of `doc`, as `jsonpointer.set_pointer` does, and returns `doc`, or a changed copy of it.

        >>> set_pointer({"sizes": [3, 5]}, "/sizes/-", 8)
        {'sizes': [3, 5, 8]}

    "-" appends to a list. What is missing on the way is not created: the error is then `NotFound`. That of an index without an
    element, and of "" in place, is `NotAssigned`.
    """
    names = tokens(pointer)
    if not names:
        if inplace:
            raise NotAssigned("the whole document cannot be set in place", status=NOT_ASSIGNED)
        return value
    changed = doc if inplace else copy.deepcopy(doc)
    parent, token = _walk(changed, names[:-1]), names[-1]
    if isinstance(parent, dict):
        parent[token] = value
    elif isinstance(parent, list) and token == "-":
        parent.append(value)
    elif isinstance(parent, list) and _index(token, len(parent)) is not None:
        parent[int(token)] = value
    elif hasattr(parent, "__setitem__") and not isinstance(parent, list):
        parent[token] = value
    else:
        raise NotAssigned(f"assign failed: json pointer token {token!r} is no place in the value", status=NOT_ASSIGNED,
                          position=len(names) - 1)
    return changed


def apply_patch(doc: JSON, patch: Union[Patch, Text, Sequence[Mapping[str, JSON]]], in_place: bool = False, *,
                lossy: bool = False) -> Any:
    """Returns `doc` after the operations of a patch, as `jsonpatch.apply_patch` does. Members come in the order of their keys.

        >>> apply_patch({"b": 1}, [{"op": "add", "path": "/a", "value": 2}])
        {'a': 2, 'b': 1}

    With `in_place`, a dict or a list gets the new members or elements, if the new document is one too. A number that loses digits
    is the error `NotExact`, unless `lossy`.
    """
    new = (patch if isinstance(patch, Patch) else Patch(patch)).apply(doc, lossy=lossy)
    if in_place and isinstance(doc, dict) and isinstance(new, dict):
        doc.clear()
        doc.update(new)
        return doc
    if in_place and isinstance(doc, list) and isinstance(new, list):
        doc[:] = new
        return doc
    return new
