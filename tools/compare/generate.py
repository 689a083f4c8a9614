"""Requests of the line protocol (docs/COMPARING.md): texts and pointers of every shape, edits, documents, errors."""
import itertools
import random
import re

GREATEST = 2**64 - 1
ALPHABET = "/~012-aé"
NUMBER_TYPES = {f"{sign}{bits}": (sign, bits) for sign in "ui" for bits in (8, 16, 32, 64, 128)}
NUMBER_TYPES |= {"usize": ("u", 64), "isize": ("i", 64)}
TOKENS = ["", "a", "b", "foo", "bar", "0", "1", "2", "-", "00", "01", "10", "+1", "1a", "é", "~", "/", "~1", "a/b", "m~n", " ", "\t", "\\", "\"", "\n",
          "ab", "abc", "a0", str(GREATEST), str(GREATEST + 1), "x" * 30, "~/" * 9, "é" * 17]
KEYS = ["", "a", "b", "foo", "0", "1", "-", "a/b", "m~n", "é", "01", " "]
EDITS = ["push_front", "push_back", "pop_front", "pop_back", "append", "replace", "clear", "with_leading_token", "with_trailing_token"]


def word(text):
    """Returns a text as a word of a request."""
    return str(text).replace("\\", "\\\\").replace("\t", "\\t").replace("\n", "\\n").replace("\r", "\\r")


def request(*words):
    return "\t".join(map(word, words))


def escape(token):
    return token.replace("~", "~0").replace("/", "~1")


def pointer_of(tokens):
    return "".join("/" + escape(it) for it in tokens)


def is_pointer(text):
    return re.fullmatch("(/([^/~]|~[01])*)*", text) is not None


def short_texts(length):
    """Yields the calls that take any text, on every text of at most this many of the alphabet's characters."""
    for count in range(length + 1):
        for letters in itertools.product(ALPHABET, repeat=count):
            text = "".join(letters)
            for call in ("parse", "token", "encoded", "index"):
                yield request(call, text)
            if is_pointer(text):
                yield request("reads", text)


def numbers():
    """Yields numbers of each type: its minimum, its maximum, and some between."""
    for name, (sign, bits) in NUMBER_TYPES.items():
        least, greatest = (-(2 ** (bits - 1)), 2 ** (bits - 1) - 1) if sign == "i" else (0, 2**bits - 1)
        for number in {least, least + 1, -1, 0, 1, 9, 10, 99, 100, greatest - 1, greatest}:
            if least <= number <= greatest:
                yield request("number", f"{name}:{number}")


class Shapes:
    """Random texts, pointers and documents."""

    def __init__(self, seed):
        self.random = random.Random(seed)

    def one_of(self, *chances):
        return self.random.choice(chances)()

    def token(self):
        r = self.random
        if r.random() < 0.7:
            return r.choice(TOKENS)
        return "".join(r.choice(ALPHABET) for _ in range(r.randrange(8)))

    def tokens(self):
        return [self.token() for _ in range(self.random.choice((0, 1, 1, 2, 2, 3, 4, 7)))]

    def pointer(self):
        return pointer_of(self.tokens())

    def text(self):
        """A text about as long as a block of some power of two, mostly a pointer's, in which a character may be damaged."""
        r = self.random
        length = max(r.choice((0, 1, 7, 15, 16, 31, 32, 63, 64, 127, 128, 256)) + r.randrange(-2, 3), 0)
        letters = [r.choice(("a", "b", "é", "/", "~0", "~1", "0", "x")) for _ in range(length)]
        for _ in range(r.choice((0, 1, 1, 2))):
            if letters:
                letters[r.randrange(len(letters))] = r.choice(("~", "~2", "/", "é", "~~", "-", "0"))
        return "/" * (r.random() < 0.8) + "".join(letters)

    def place(self, near):
        return max(self.random.choice((near + self.random.randrange(-2, 3), self.random.randrange(4), GREATEST, GREATEST - 1, 0)), 0)

    def texts(self):
        call = self.random.choice(("parse", "token", "encoded", "index"))
        return request(call, self.text())

    def digits(self):
        r = self.random
        return r.choice(("", "0", "00", "+", "-", "é")) + str(r.choice((r.randrange(30), r.randrange(2**70), GREATEST, GREATEST + 1))) + r.choice(("", "", "x", "é", "0"))

    def index(self):
        return request("index", self.digits())

    def bounds(self):
        length = self.place(3)
        return request("bounds", self.random.choice(("-", str(self.place(length)), self.digits())), length)

    def two_tokens(self):
        return request("two tokens", self.token(), self.token())

    def two_indices(self):
        return request("two indices", self.random.choice(("-", self.place(1))), self.random.choice(("-", self.place(1))))

    def reads(self):
        return request("reads", self.pointer())

    def get(self):
        tokens = self.tokens()
        pointer, near = pointer_of(tokens), len(tokens)
        kind = self.random.choice(("at", "range", "from", "to", "all", "inclusive", "to inclusive", "bounds"))
        if kind == "bounds":
            return request("get", pointer, kind, self.bound(near), self.bound(near))
        count = {"all": 0, "range": 2, "inclusive": 2}.get(kind, 1)
        return request("get", pointer, kind, *(self.place(near) for _ in range(count)))

    def bound(self, near):
        kind = self.random.choice(("included", "excluded", "unbounded"))
        return kind if kind == "unbounded" else f"{kind} {self.place(near)}"

    def split(self):
        pointer = self.pointer()
        slashes = [len(pointer[:at].encode()) for at, it in enumerate(pointer) if it == "/"]
        return request("split at offset", pointer, self.random.choice([*slashes, self.place(len(pointer.encode()))]))

    def two_pointers(self):
        """Two pointers, of which one is often a part of the other, or of the other's text."""
        r, tokens = self.random, self.tokens()
        at = r.randrange(len(tokens) + 1)
        text = pointer_of(tokens)
        cut = text[: r.randrange(len(text) + 1)]
        other = r.choice((pointer_of(tokens[:at]), pointer_of(tokens[at:]), text, self.pointer(), cut if is_pointer(cut) else text, pointer_of([*tokens[:at], self.token()])))
        return request("two pointers", *((text, other) if r.random() < 0.8 else (other, text)))

    def from_tokens(self):
        return request("from tokens", *self.tokens())

    def edit(self):
        return request("edit", self.pointer(), *(self.one_edit() for _ in range(self.random.randrange(1, 9))))

    def one_edit(self):
        name = self.random.choice(EDITS)
        if name == "append":
            return f"{name} {self.pointer()}"
        if name == "replace":
            return f"{name} {self.place(2)} {self.token()}"
        return name if name in ("pop_front", "pop_back", "clear") else f"{name} {self.token()}"

    # documents: a value is a boolean, a number, a text, a date, None, a list or a dict

    def leaf(self, kind):
        r = self.random
        choices = [True, False, 0, 1, -7, 2**40, "", "text", "é\"\\", "a/b"]
        return r.choice(choices + ([None] if kind == "json" else [Date("1979-05-27"), Date("07:32:00")]))

    def value(self, kind, depth=3):
        r = self.random
        shape = r.random() if depth else 1
        if shape < 0.4:
            return [self.value(kind, depth - 1) for _ in range(r.choice((0, 1, 2, 3, 11 if depth == 1 else 2)))]
        if shape < 0.8:
            return {r.choice(KEYS): self.value(kind, depth - 1) for _ in range(r.randrange(4))}
        return self.leaf(kind)

    def way(self, value):
        """Returns tokens that lead into a value, and mostly to a node of it."""
        r, tokens = self.random, []
        while isinstance(value, (list, dict)) and value and r.random() < 0.85:
            if isinstance(value, list):
                at = r.randrange(len(value))
                tokens.append(str(at))
                value = value[at]
            else:
                key = r.choice([*value])
                tokens.append(key)
                value = value[key]
        length = len(value) if isinstance(value, list) else 0
        for _ in range(r.choice((0, 0, 0, 1, 1, 2, 3))):
            tokens.append(r.choice([self.token(), str(length), str(length + 1), "-", r.choice(KEYS)]))
        if tokens and r.random() < 0.1:
            tokens[r.randrange(len(tokens))] = self.token()
        return tokens

    def documents(self):
        kind = self.random.choice(("json", "toml"))
        call = self.random.choice(("resolve", "write", "assign", "assign", "delete"))
        document = self.value(kind)
        written = shown(document, kind), pointer_of(self.way(document))
        given = (shown(self.value(kind, 1), kind),) if call in ("write", "assign") else ()
        return request(call, kind, *written, *given)

    # errors with any fields, on any subject

    def parse_error(self):
        text = self.text()
        places = [self.place(len(text)), self.place(2)]
        if self.random.random() < 0.5:
            places = [self.random.randrange(len(text) + 2), self.random.randrange(4)]
        return request("parse error", *places, self.random.choice(("Tilde", "Slash")), text)

    def encoding_error(self):
        text = self.text()[: self.random.randrange(12)]
        return request("encoding error", self.place(len(text.encode())), self.random.choice(("Tilde", "Slash")), text)

    def index_error(self):
        text = self.random.choice(("", "00", "01", "0a", "1a", "123x", "é", str(GREATEST + 1), "ab12"))
        subject = self.random.choice((text, self.digits(), self.token(), "000", "abcdé1"))
        return request("index error", text, subject)

    def position_error(self):
        r, tokens = self.random, self.tokens()
        subject = pointer_of(tokens)
        name, kinds = r.choice((("resolve error", 4), ("assign error", 2)))
        kind = ("FailedToParseIndex", "OutOfBounds", "NotFound", "Unreachable")[r.randrange(kinds)]
        cause = {"FailedToParseIndex": r.choice(("", "00", "x1", str(GREATEST + 1))), "OutOfBounds": f"{self.place(1)},{self.place(1)}"}.get(kind, "")
        return request(name, kind, self.place(len(tokens)), self.place(len(subject.encode())), cause, subject)

    def any(self):
        return self.one_of(
            self.texts, self.texts, self.index, self.bounds, self.two_tokens, self.two_indices, self.reads, self.get, self.get, self.split, self.two_pointers,
            self.two_pointers, self.from_tokens, self.edit, self.edit, self.documents, self.documents, self.documents, self.documents, self.parse_error,
            self.encoding_error, self.index_error, self.position_error)


class Date(str):
    """A date or a time of TOML."""


def quoted(text):
    escapes = {'"': '\\"', "\\": "\\\\", "\t": "\\t", "\n": "\\n"}
    return '"' + "".join(escapes.get(it, it) for it in text) + '"'


def shown(value, kind):
    """Returns the text of a value, as JSON or as a value of TOML."""
    if isinstance(value, bool):
        return "true" if value else "false"
    if value is None:
        return "null"
    if isinstance(value, (int, Date)):
        return str(value)
    if isinstance(value, str):
        return quoted(value)
    if isinstance(value, list):
        return "[" + ", ".join(shown(it, kind) for it in value) + "]"
    between = ": " if kind == "json" else " = "
    return "{" + ", ".join(quoted(key) + between + shown(it, kind) for key, it in value.items()) + "}"


def requests(count, seed, length=5):
    """Yields this many requests: every call on all short texts, numbers, addresses, and then random ones."""
    fixed = itertools.chain([request("addresses")], numbers(), short_texts(length))
    shapes = Shapes(seed)
    return itertools.islice(itertools.chain(fixed, iter(shapes.any, None)), count)
