"""Reads a JSON text into the spans of its values, on its own: which characters each value, key and white space has."""
import json
import re

SPACE = " \t\r\n"
MOST_DEEP = 127
TOKEN = re.compile(
    r'[ \t\r\n]*(?:([{}\[\],:])|("(?:[^"\\\x00-\x1f]|\\(?:["\\/bfnrt]|u[0-9a-fA-F]{4}))*")'
    r"|(-?(?:0|[1-9][0-9]*)(?:\.[0-9]+)?(?:[eE][+-]?[0-9]+)?)|(true|false|null))"
)
BLANK = re.compile(r"[ \t\r\n]*")


class NotJson(ValueError):
    """A text is not JSON, or `serde_json` reads no document from it."""


class Value:
    """A value in a text: from which character to which, and its children. `children` is None for a scalar."""

    __slots__ = ("start", "end", "children", "is_object")

    def __init__(self, start, end, children=None, is_object=False):
        self.start, self.end, self.children, self.is_object = start, end, children, is_object


class Child:
    """An element, or a member with its key. `start` is where the key begins, and `name_end` where it ends."""

    __slots__ = ("key", "start", "name_end", "value")

    def __init__(self, key, start, name_end, value):
        self.key, self.start, self.name_end, self.value = key, start, name_end, value

    @property
    def end(self):
        return self.value.end


class Reader:
    """Reads the tokens of a text."""

    def __init__(self, text):
        self.text, self.at, self.start = text, 0, 0

    def next(self):
        """Returns the next token. `start` is where it begins."""
        match = TOKEN.match(self.text, self.at)
        if not match:
            raise NotJson
        self.start, self.at = match.start(match.lastindex), match.end()
        return match[match.lastindex]

    def value(self, token, depth):
        """Reads the value that begins with a token."""
        start, first = self.start, token[0]
        if first in "[{":
            if depth == 0:
                raise NotJson
            children = self.members(depth - 1) if first == "{" else self.elements(depth - 1)
            return Value(start, self.at, children, first == "{")
        if first in "}],:":
            raise NotJson
        if first == '"':
            decoded(token)
        elif first in "-0123456789" and abs(float(token)) == float("inf"):
            raise NotJson
        return Value(start, self.at)

    def elements(self, depth):
        """Reads the elements of an array and its bracket."""
        children, token = [], self.next()
        if token == "]":
            return children
        while True:
            value = self.value(token, depth)
            children.append(Child(None, value.start, value.start, value))
            token = self.next()
            if token == "]":
                return children
            if token != ",":
                raise NotJson
            token = self.next()

    def members(self, depth):
        """Reads the members of an object and its brace."""
        children, token = [], self.next()
        if token == "}":
            return children
        while True:
            if token[0] != '"':
                raise NotJson
            key, start, end = decoded(token), self.start, self.at
            if self.next() != ":":
                raise NotJson
            children.append(Child(key, start, end, self.value(self.next(), depth)))
            token = self.next()
            if token == "}":
                return children
            if token != ",":
                raise NotJson
            token = self.next()


def decoded(token):
    """Returns the text of a string in JSON."""
    if "\\" not in token:
        return token[1:-1]
    text = json.loads(token)
    if any("\ud800" <= it <= "\udfff" for it in text):
        raise NotJson
    return text


def read(text):
    """Returns the value of a text."""
    reader = Reader(text)
    value = reader.value(reader.next(), MOST_DEEP)
    if BLANK.match(text, reader.at).end() != len(text):
        raise NotJson
    return value


def tokens_of(text):
    """Returns the tokens of the text of a value."""
    return [match[match.lastindex] for match in TOKEN.finditer(text)]


def spread(text, value, margin):
    """Returns the text of a value with a line for each child, after a margin and two spaces more."""
    if value.children is None:
        return text[value.start : value.end]
    if not value.children:
        return text[value.start] + text[value.end - 1]
    inner = margin + "  "
    children = (name_of(text, it) + spread(text, it.value, inner) for it in value.children)
    return text[value.start] + inner + ("," + inner).join(children) + margin + text[value.end - 1]


def name_of(text, child):
    """Returns the key of a member and its colon, or nothing for an element."""
    return "" if child.key is None else text[child.start : child.name_end] + ": "


def blank_before(text, at):
    """Returns the white space before a character."""
    return text[len(text[:at].rstrip(SPACE)) : at]


def indentation(text, at):
    """Returns the white space that begins the line of a character. The first line has none."""
    start = text.rfind("\n", 0, at) + 1
    return BLANK.match(text, start)[0] if start else ""


def own_space(text, value):
    """Returns the white space and the punctuation of an array or an object, without its children's keys and values."""
    parts, at = [], value.start
    for child in value.children:
        parts.append(text[at : child.start])
        parts.append(text[child.name_end : child.value.start])
        at = child.end
    return "".join(parts) + text[at : value.end]


def spans_lines(text, value):
    """Returns whether the white space of an array or an object has a line break."""
    return "\n" in own_space(text, value)


def index_of(token):
    """Returns the number that a reference token is as an index, or None."""
    is_index = token.isascii() and token.isdigit() and (token == "0" or token[0] != "0")
    return int(token) if is_index and int(token) < 1 << 64 else None


def child_of(value, token):
    """Returns the position of the child that a reference token refers to, or None. Of members with the same key it is the last."""
    if value.is_object:
        found = [position for position, child in enumerate(value.children) if child.key == token]
        return found[-1] if found else None
    index = index_of(token) if value.children is not None else None
    return index if index is not None and index < len(value.children) else None
