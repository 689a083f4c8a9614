"""Random JSON texts in layouts of every kind, and random edits of them."""
import json
import random

from . import landing, spans

KEYS = ["a", "b", "c", "", "0", "1", "01", "-", "a/b", "m~n", "~1", "é", "k\n", 'q"', "😀", "long key", "\\"]
NUMBERS = [
    "0", "-0", "1", "7", "-1", "1.0", "1.50", "-0.0", "1e5", "1E+5", "2.5e-3", "0.1", "18446744073709551615",
    "18446744073709551616", "12345678901234567890", "-9223372036854775808", "-9223372036854775809", "1e308",
    "1.7976931348623157e308", "1e-400", "100000000000000000000000",
]
STRINGS = [
    '""', '"a"', '"\\u0041"', '"\\/"', '"/"', '"é"', '"\\u00e9"', '"\\n\\t\\"\\\\"', '"\\ud83d\\ude00"', '"😀"', '"\\u000a"', '" "',
    '"a, b: [c] {d}"', '"\\\\\\""', '"}"', '"\\u2028"', '"#//"',
]
WORDS = ["true", "false", "null"]
WILD = ["", "", " ", "\n", "\t", "  ", "\r\n", " \n ", "\n\n", "\r", "\n\t"]
WRONG = ["{", "}", "[", "]", ",", ":", '"', "\\", "0", "-", "e", ".", "t", "null", "\x00", "\x1f", "1e999", "é", "\u00a0", "\ufeff", "//", "'", '"\\ud83d"']
BAD_TOKENS = ["01", "x", "-1", "+1", "18446744073709551615", "18446744073709551616", "1e0", " 0", "٣"]
VALUES = ["null", "true", "0", "-7", "1.5", "12345678901234567890", '"s"', '"é\\n\\u0007/😀"', "[]", "{}", "[1]", '{"z":1}', '[{"y":[]},2]',
          '{"m":{"n":[1,2.0]},"k":"v"}', "[[],{}]", '{"b":1,"a":2}']


class Layout:
    """The white space of arrays and objects: `wild` picks each anew, and others are regular."""

    def __init__(self, kind, newline, step, closes):
        self.kind, self.newline, self.step, self.closes = kind, newline, step, closes


class Texts:
    """Random texts and edits."""

    def __init__(self, seed):
        self.random = random.Random(seed)

    def layout(self):
        """Returns the layout of a text."""
        kind = self.random.choice(["compact", "spaced", "pretty", "pretty", "padded", "loose", "wild", "mixed"])
        newline = self.random.choice(["\n", "\n", "\r\n"])
        return Layout(kind, newline, self.random.choice(["  ", "  ", "\t", "    ", " ", ""]), self.random.random() < 0.5)

    def blanks(self, layout, depth):
        """Returns the white space of a container: after its bracket, after a comma, before it, before the end, and of its colon."""
        kind, choice = layout.kind, self.random.choice
        if kind == "mixed":
            kind = choice(["compact", "spaced", "pretty", "pretty", "padded", "loose"])
        if kind == "compact":
            return "", "", "", "", ":"
        if kind == "spaced":
            return "", " ", "", "", ": "
        if kind == "padded":
            return " ", " ", " ", " ", " : "
        if kind == "loose":
            return "\t", "  ", " ", " ", ":\t"
        inner = layout.newline + layout.step * (depth + 1)
        return inner, inner, "", layout.newline + layout.step * depth, ": "

    def string(self):
        """Returns a string."""
        return self.random.choice(STRINGS)

    def key(self):
        """Returns a key as a JSON string, with escapes now and then."""
        text = self.random.choice(KEYS)
        if self.random.random() < 0.2:
            return '"' + "".join(f"\\u{ord(it):04x}" if ord(it) < 65536 else it for it in text) + '"'
        if self.random.random() < 0.1:
            return json.dumps(text).replace("/", "\\/")
        return json.dumps(text, ensure_ascii=False)

    def scalar(self):
        """Returns a scalar."""
        return self.random.choice(self.random.choice([NUMBERS, STRINGS, WORDS]))

    def value(self, layout, depth, most):
        """Returns the text of a value at a depth, which nests at most so deep."""
        if most == 0 or self.random.random() < 0.3:
            return self.scalar()
        return self.container(layout, depth, most)

    def container(self, layout, depth, most):
        """Returns the text of an array or an object at a depth, which nests at most so deep."""
        is_object = self.random.random() < 0.55
        count = self.random.choice([0, 1, 1, 2, 2, 3, 4])
        children = [self.child(layout, depth, most, is_object) for _ in range(count)]
        if layout.kind == "wild":
            return self.wild(children, is_object)
        first, gap, before, last, colon = self.blanks(layout, depth)
        front, back = "{}" if is_object else "[]"
        if not children:
            return front + (last if layout.closes else "") + back
        return front + first + (before + "," + gap).join(it.replace("\0", colon, 1) for it in children) + last + back

    def child(self, layout, depth, most, is_object):
        """Returns the text of a child. A member has a zero byte instead of a colon."""
        value = self.value(layout, depth + 1, most - 1)
        return f"{self.key()}\0{value}" if is_object else value

    def wild(self, children, is_object):
        """Returns the text of a container with random white space everywhere."""
        blank = lambda: self.random.choice(WILD)
        front, back = "{}" if is_object else "[]"
        if not children:
            return front + blank() + back
        parts = (blank() + it.replace("\0", blank() + ":" + blank(), 1) + blank() for it in children)
        return front + ",".join(parts) + back

    def deep(self):
        """Returns a text that nests some 127 deep."""
        count = self.random.randrange(124, 129)
        front, back = self.random.choice([("[", "]"), ('{"a":', "}"), ('{"b":1,"a":', "}"), ("[\n", "\n]"), ("[1, ", "]")])
        return front * count + self.random.choice(["1", "[]", "{}"]) + back * count

    def text(self):
        """Returns a text."""
        if self.random.random() < 0.01:
            return self.deep()
        layout = self.layout()
        around = self.random.choice([("", ""), ("", ""), ("", layout.newline), (" ", " "), ("\n", "\n")])
        if self.random.random() < 0.05:
            return around[0] + self.scalar() + around[1]
        return around[0] + self.container(layout, 0, self.random.choice([1, 2, 2, 3, 3, 4])) + around[1]

    def damaged(self, text):
        """Returns a text with some characters missing, repeated or wrong."""
        start = self.random.randrange(len(text) + 1)
        end = min(len(text), start + self.random.choice([0, 1, 1, 2, 5]))
        kind = self.random.randrange(8)
        if kind == 0:
            return text[:start]
        if kind == 1:
            return "\ufeff" + text
        if kind == 2:
            return text + self.random.choice(WRONG)
        if kind == 3:
            return text[:end] + text[start:]
        return text[:start] + self.random.choice(WRONG) + text[end:]

    def tokens(self, root):
        """Returns the tokens of an edit: of a value, of a child that is missing, of deeper ones, or wrong ones."""
        at, tokens, kind = root, [], self.random.random()
        if kind < 0.02:
            return tokens
        for _ in range(self.random.choice([1, 1, 2, 2, 3, 4, 130])):
            if at is None or not at.children:
                break
            position = self.random.choice([0, len(at.children) - 1, self.random.randrange(len(at.children))])
            child = at.children[position]
            tokens.append(child.key if at.is_object else str(position))
            at = child.value
        if kind < 0.5:
            return tokens
        return self.beyond(at, tokens)

    def beyond(self, at, tokens):
        """Returns tokens and those of a value below, which is missing."""
        if at.children is None:
            if self.random.random() < 0.7 and tokens:
                return self.beside(tokens)
        elif not at.is_object:
            length = len(at.children)
            near = ["-", "-", *[str(length)] * 4, str(length + 1), self.random.choice(BAD_TOKENS)]
            tokens.append(self.random.choice(near))
        if self.random.random() < 0.05:
            tokens.append(self.random.choice(BAD_TOKENS))
        if at.is_object or self.random.random() < 0.3:
            tokens.append(self.random.choice(KEYS))
        while self.random.random() < 0.3:
            tokens.append(self.random.choice(["-", "0", *KEYS]))
        if self.random.random() < 0.005:
            tokens += [self.random.choice(["0", "a"])] * self.random.randrange(118, 129)
        return tokens

    def beside(self, tokens):
        """Returns the tokens of a value beside another one, which mostly is missing."""
        last = tokens[-1]
        return [*tokens[:-1], self.random.choice(KEYS) if spans.index_of(last) is None else str(int(last) + 1)]

    def root_of(self, text):
        """Returns the value of a text, or an empty array if it is none."""
        try:
            return spans.read(text)
        except spans.NotJson:
            return spans.Value(0, 0, [], False)

    def operation(self, root):
        """Returns an operation of a patch."""
        name = self.random.choice(["add", "add", "add", "remove", "replace", "move", "copy", "test"])
        operation = {"op": name, "path": pointer(self.tokens(root))}
        if name == "add" and self.random.random() < 0.4:
            operation["path"] = pointer(self.inside(root))
        if name in ("move", "copy"):
            operation["from"] = pointer(self.tokens(root))
        if name in ("add", "replace", "test"):
            operation["value"] = json.loads(self.random.choice(VALUES))
        return operation

    def inside(self, root):
        """Returns the tokens of a position within an array, if there is one on a random way."""
        tokens = self.tokens(root)
        at, _, count = landing.follow(root, tokens)
        if at.children is not None and not at.is_object:
            return [*tokens[:count], str(self.random.randrange(len(at.children) + 1))]
        return tokens

    def case(self):
        """Returns the requests of a case: the command, the text, the tokens, and the argument as JSON."""
        text = self.text()
        root = self.root_of(text)
        if self.random.random() < 0.06:
            text = self.damaged(text)
        kind = self.random.random()
        if kind < 0.45:
            return "assign", text, self.tokens(root), self.random.choice(VALUES)
        if kind < 0.75:
            return "delete", text, self.tokens(root), ""
        count = self.random.choice([0, 1, 1, 1, 1, 2, 3])
        return "apply", text, [], json.dumps([self.operation(root) for _ in range(count)])


def pointer(tokens):
    """Returns the pointer of tokens."""
    return "".join("/" + it.replace("~", "~0").replace("/", "~1") for it in tokens)


def tokens_of(pointer_text):
    """Returns the tokens of a pointer."""
    return [it.replace("~1", "/").replace("~0", "~") for it in pointer_text.split("/")[1:]]
