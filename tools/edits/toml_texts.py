"""Random TOML texts with comments, blank lines and every way to write a key, a table, an array and a string."""
import random

SCALARS = ("1", "-7", "0x1F", "3.5", "-0.0", "nan", "inf", "true", "1979-05-27", "07:32:00", "1979-05-27 07:32:00Z", '"a # b"')
SCALARS += ("'it # [is]'", '"a\\"b\\\\"', '"""\nlong # [x]\n "" ends\n"""', "'''\nraw = \\ [y]\n'''", '"""a\\\n  b"""', '""', "''", '"\\u00e9, }"')
KEYS = ("a", "b", "key", "long-key", "x_1", "7", '"a b"', '"c.d"', "'e # f'", '"\\u00e9"', '"a\\"q"')


class TomlTexts:
    """Random texts. Each is one that `tomllib` reads, if the caller drops the others."""

    def __init__(self, seed):
        self.random = random.Random(seed)
        self.newline = "\n"

    def comment(self, odds=0.2):
        """Returns a comment at the end of a line, or nothing."""
        return self.random.choice(("  # [note]", " # a = 'x'", "#c")) if self.random.random() < odds else ""

    def key(self):
        """Returns a key, mostly without dots."""
        spaced = self.random.choice((".", " . ")) if self.random.random() < 0.2 else "."
        return spaced.join(self.random.choice(KEYS) for _ in range(self.random.choice((1, 1, 1, 1, 2, 3))))

    def value(self, depth=0):
        """Returns a value."""
        kind = self.random.random()
        if depth > 2 or kind < 0.6:
            return self.random.choice(SCALARS)
        return self.array(depth) if kind < 0.85 else self.inline(depth)

    def array(self, depth):
        """Returns an array, on one line or over lines, with comments and with or without a trailing comma."""
        parts = [self.value(depth + 1) for _ in range(self.random.randrange(4))]
        comma = "," if parts and self.random.random() < 0.4 else ""
        if depth or self.random.random() < 0.5:
            return "[" + self.random.choice((", ", ",", " , ")).join(parts) + comma + "]"
        lines = ["["]
        for index, part in enumerate(parts):
            if self.random.random() < 0.2:
                lines.append("  # above, [it]")
            more = "," if index + 1 < len(parts) else comma
            lines.append("  " + part + more + self.comment(0.3))
        return "\n".join(lines + ["]"])

    def inline(self, depth):
        """Returns an inline table."""
        keys = self.random.sample(KEYS, self.random.randrange(4))
        pairs = [f"{key} = {self.value(depth + 2)}" for key in keys]
        return "{ " + ", ".join(pairs) + " }" if pairs else self.random.choice(("{}", "{ }"))

    def lines(self):
        """Returns pairs with the lines between them."""
        lines = []
        for _ in range(self.random.randrange(5)):
            if self.random.random() < 0.2:
                lines.append(self.random.choice(("", "# about the next one", "  # x = 1")))
            equals = self.random.choice((" = ", " = ", "=", "  = "))
            indent = self.random.choice(("", "", "", "  "))
            lines.append(indent + self.key() + equals + self.value() + self.comment())
        return lines

    def text(self):
        """Returns a text."""
        lines = ["# A licence", ""] if self.random.random() < 0.3 else []
        lines += self.lines()
        for _ in range(self.random.randrange(5)):
            lines += self.random.choice(([], [""], ["", "# about the table"], ["# about it"]))
            header = self.key()
            lines.append((f"[[{header}]]" if self.random.random() < 0.4 else f"[ {header} ]" if self.random.random() < 0.1 else f"[{header}]") + self.comment())
            lines += self.lines()
        text = "\n".join(lines) + self.random.choice(("\n", "\n", "\n\n", ""))
        if self.random.random() < 0.1:
            text = text.replace("\n", "\r\n")
        return "\ufeff" + text if self.random.random() < 0.02 else text
