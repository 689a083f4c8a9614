"""Random texts with comments and trailing commas, and what is left of a text without them."""
import random
import re
from typing import NamedTuple

PIECE = re.compile(rb'"(?:\\.|[^"\\])*(?:"|\\?\Z)|//[^\n\r]*|/\*.*?\*/|/\*|.', re.DOTALL)
SCALARS = ("0", "-1.50", "1e5", "true", "null", '""', '"a"', '"// \\" /*"', '"*/"', '"\u00e9\\\\"', '", ]"')
SPACES = ("", "", "", " ", "\n", "\r\n", "\t", "  ")
INNER = ("", "a", " two words ", "\u00e9", "\u2028", '"', "\\", ", ]", "/*", "//", "*", "{", "\t")
WRONG = ("/", "*", "//", "/*", "*/", '"', "\\", ",", "]", "}", "[", "\n", "\r", " ", "a", "\u00e9")


class Case(NamedTuple):
    """A text, and what its parts leave: `None` for a damaged one."""

    text: str
    left: str


def blank(piece):
    """Returns a piece with a space instead of each byte that is no line break."""
    return re.sub(rb"[^\n\r]", b" ", piece)


def read_past(text):
    """Returns the kind of what is left of a text, and what is left, or the offset of a comment that is not closed."""
    pieces, offset = [], 0
    for found in PIECE.finditer(text.encode()):
        piece = found[0]
        if piece == b"/*":
            return "not closed", str(offset)
        pieces.append(blank(piece) if piece[:2] in (b"//", b"/*") else piece)
        offset += len(piece)
    for place in trailing(pieces):
        pieces[place] = b" "
    left = b"".join(pieces).decode()
    return ("same" if left == text else "copy"), left


def trailing(pieces):
    """Returns where the trailing commas are among pieces."""
    filled = [it for it in range(len(pieces)) if pieces[it].strip(b" \t\n\r")]
    for before, place, after in zip(filled, filled[1:], filled[2:]):
        if pieces[place] == b"," and pieces[before] not in b",:[{" and pieces[after] in (b"]", b"}"):
            yield place


class Texts:
    """Random texts."""

    def __init__(self, seed):
        self.random = random.Random(seed)

    def case(self):
        """Returns a case."""
        parts = [*self.gap(), *self.value(3), *self.gap()]
        if self.random.random() < 0.2:
            parts = [it for it in parts if it[0] == it[1]]
        text, left = ("".join(it[side] for it in parts) for side in (0, 1))
        return Case(text, left) if self.random.random() < 0.5 else Case(self.damaged(text), None)

    def value(self, depth):
        """Returns the parts of a value: what each is, and what is left of it."""
        if depth == 0 or self.random.random() < 0.3:
            scalar = self.random.choice(SCALARS)
            return [(scalar, scalar)]
        is_object = self.random.random() < 0.5
        parts, count = [("{["[not is_object],) * 2], self.random.randrange(4)
        for number in range(count):
            parts += self.gap()
            if is_object:
                parts += [('"k"',) * 2, *self.gap(), (":",) * 2, *self.gap()]
            parts += [*self.value(depth - 1), *self.gap()]
            if number + 1 < count:
                parts.append((",", ","))
            elif self.random.random() < 0.4:
                parts += [(",", " "), *self.gap()]
        if count == 0:
            parts += self.gap()
        return [*parts, ("}]"[not is_object],) * 2]

    def gap(self):
        """Returns white space and comments."""
        parts = []
        for _ in range(self.random.choice((0, 0, 0, 1, 1, 2))):
            space = self.random.choice(SPACES)
            parts += [(space, space), self.comment()]
        space = self.random.choice(SPACES)
        return [*parts, (space, space)]

    def comment(self):
        """Returns a comment. A line comment has its line break."""
        inner = "".join(self.random.choice(INNER) for _ in range(self.random.randrange(4)))
        if self.random.random() < 0.5:
            line = f"//{inner}"
            ends = self.random.choice(("\n", "\r\n", "\r"))
            return line + ends, " " * len(line.encode()) + ends
        inner = (inner + self.random.choice(("", "\n", "\r\n"))).replace("*/", "* /")
        block = f"/*{inner}*/"
        return block, blank(block.encode()).decode()

    def damaged(self, text):
        """Returns a text with some characters removed, replaced and inserted."""
        for _ in range(self.random.randrange(1, 4)):
            place = self.random.randrange(len(text) + 1)
            until = min(len(text), place + self.random.choice((0, 0, 1, 1, 2)))
            if self.random.random() < 0.1:
                until = len(text)
            text = text[:place] + self.random.choice(("", *WRONG)) + text[until:]
        return text
