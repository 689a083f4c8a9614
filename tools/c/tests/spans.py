"""Tests of `locate` and `pointer_at` on random texts, of which it is known where each value is."""
import json
import random

import jsonptr

TEXTS = 400
KEYS = "", "a", "b", "a/b", "m~n", "0", "\u00e9", "\n", "\U0001f600"
SCALARS = "0", "-1.50e+2", "1.0", "1.00", "12345678901234567890123", "1E-400", "true", "null", '""', '"\\u0041\\n"', '"\u00e9]"'
RANDOM = random.Random(6901)


class Writer:
    """A JSON text that is written: the bytes of each value that has a pointer, and the offsets in those that have none."""

    def __init__(self):
        self.text = b""
        self.spans = {}
        self.lost = set()
        self.space()
        self.value("", 4)
        self.space()

    def space(self):
        """Writes white space, or none."""
        self.text += bytes(RANDOM.choices(b" \t\r\n", k=RANDOM.choice((0, 0, 1, 2))))

    def value(self, pointer, depth):
        """Writes a value. It has no pointer if `pointer` is None."""
        start = len(self.text)
        kind = RANDOM.choice("sao") if depth else "s"
        if kind == "s":
            self.text += RANDOM.choice(SCALARS).encode()
        elif kind == "a":
            count = RANDOM.randrange(4)
            self.children("[]", [("", None if pointer is None else f"{pointer}/{i}") for i in range(count)], depth)
        else:
            keys = RANDOM.choices(KEYS, k=RANDOM.randrange(5))
            self.children("{}", [self.member(pointer, key, key in keys[i + 1:]) for i, key in enumerate(keys)], depth)
        if pointer is None:
            self.lost.update(range(start, len(self.text)))
        else:
            self.spans[pointer] = (start, len(self.text))

    def member(self, pointer, key, comes_again):
        """Returns the text of a key, and the pointer of its value: None if the key comes again."""
        text = json.dumps(key, ensure_ascii=RANDOM.random() < 0.5)
        return text, None if pointer is None or comes_again else f"{pointer}/{jsonptr.escape(key)}"

    def children(self, brackets, children, depth):
        """Writes the children of an array or an object: each is the text of its key, and its pointer."""
        self.text += brackets[:1].encode()
        self.space()
        for i, (key, pointer) in enumerate(children):
            self.text += b"," if i else b""
            self.space()
            if key:
                self.text += key.encode()
                self.space()
                self.text += b":"
                self.space()
            self.value(pointer, depth - 1)
            self.space()
        self.text += brackets[1:].encode()


def at(text, offset):
    """Returns the pointer at an offset, or None if no value is there."""
    try:
        return jsonptr.pointer_at(text, offset)
    except jsonptr.NotFound:
        return None


def main():
    values = offsets = 0
    for _ in range(TEXTS):
        written = Writer()
        text, owners = written.text, [None] * (len(written.text) + 1)
        for pointer, (start, end) in sorted(written.spans.items(), key=lambda span: span[1][0] - span[1][1]):
            assert jsonptr.locate(text, pointer) == (start, end), (text, pointer)
            span = jsonptr.locate(text.decode(), pointer)
            assert text.decode()[span.start:span.end].encode() == text[start:end] and len(text.decode()[:span.start].encode()) == start
            owners[start:end] = [pointer] * (end - start)
        for offset, owner in enumerate(owners):
            found = at(text, offset)
            if offset in written.lost:  # in a member whose key comes again: a value around it
                start, end = written.spans[found]
                assert start <= offset < end, (text, offset, found)
            else:
                assert found == owner, (text, offset, found)
        for offset in range(len(text.decode())):
            assert at(text.decode(), offset) == at(text, len(text.decode()[:offset].encode())), (text, offset)
        values, offsets = values + len(written.spans), offsets + len(owners)
    print(f"{values} values and {offsets} offsets of {TEXTS} texts")


if __name__ == "__main__":
    main()
