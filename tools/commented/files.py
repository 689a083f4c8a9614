"""Random files with comments, and edits of them: each file is a tree that is edited and laid out again."""
import copy
import json
from dataclasses import dataclass, field
from typing import NamedTuple

NEW_KEYS = [f"new{number}" for number in range(9)]
RENAMED = ("new", "a/b", "~", "0", "// b", "/*", '"', "\u00e9", "")
SCALARS = ("0", "-1.5", "true", "null", '"a"', '"// b"', '"/*"')


@dataclass
class Child:
    """A value, with its key if it is a member, the comments on lines above it, and one after it on its line."""

    key: str
    value: object
    above: list = field(default_factory=list)
    own: str = ""
    is_before_comma: bool = False


@dataclass
class Container:
    """An array or an object over lines: its children, and whether there is a comma after the last one."""

    is_object: bool
    children: list
    is_trailing: bool
    opening: str = ""
    below: list = field(default_factory=list)


class Layout(NamedTuple):
    """How a file is laid out."""

    newline: str
    unit: str


class Case(NamedTuple):
    """An edit: what it is, the words that ask for it, and the text that is expected."""

    kind: str
    request: tuple
    wanted: str


class Operation(NamedTuple):
    """An operation of a patch, with the text of its value if it has one."""

    name: str
    path: str
    value: str


def lay_out(value, layout, level):
    """Returns the text of a value, which is at a level."""
    if isinstance(value, str):
        return value
    start, end = "{}" if value.is_object else "[]"
    rows = []
    for place, child in enumerate(value.children):
        rows += child.above
        has_comma = value.is_trailing or place + 1 < len(value.children)
        rows.append(row_of(child, has_comma, layout, level + 1))
    rows += value.below
    opening = f" {value.opening}" if value.opening else ""
    if not rows and not opening:
        return start + end
    lines = [start + opening, *(layout.unit * (level + 1) + row for row in rows), layout.unit * level + end]
    return layout.newline.join(lines)


def row_of(child, has_comma, layout, level):
    """Returns the text of a child, and of what is on its line."""
    name = f"{json.dumps(child.key, ensure_ascii=False)}: " if child.key is not None else ""
    comma = "," if has_comma else ""
    own = f" {child.own}" if child.own else ""
    after = own + comma if child.is_before_comma else comma + own
    return name + lay_out(child.value, layout, level) + after


class Files:
    """Random files."""

    def __init__(self, chance):
        self.random = chance
        self.layout = Layout(chance.choice(("\n", "\n", "\r\n")), chance.choice(("  ", "    ", "\t")))

    def comment(self, is_last):
        """Returns a comment. A line comment has to be the last of its line."""
        text = self.random.choice(("one", "\u00e9", '"a": 1', "[", ",", "* *"))
        return f"// {text}" if is_last and self.random.random() < 0.7 else f"/* {text} */"

    def comments(self):
        """Returns comments on lines of their own."""
        return [self.comment(True) for _ in range(self.random.choice((0, 0, 0, 1, 2)))]

    def value(self, depth):
        """Returns a value that nests at most so deep."""
        if depth == 0 or self.random.random() < 0.5:
            return self.random.choice(SCALARS)
        return self.container(depth, self.random.randrange(4))

    def container(self, depth, count):
        """Returns an array or an object with so many children."""
        is_object = self.random.random() < 0.5
        made = Container(is_object, [], self.random.random() < 0.5)
        if self.random.random() < 0.2:
            made.opening = self.comment(True)
        for place in range(count):
            child = Child(f"k{place}" if is_object else None, self.value(depth - 1), self.comments())
            if self.random.random() < 0.5:
                child.is_before_comma = self.random.random() < 0.2
                child.own = self.comment(not child.is_before_comma)
            made.children.append(child)
        if self.random.random() < 0.3:
            made.below = self.comments()
        return made

    def root(self):
        """Returns a document, which has a scalar first."""
        root = self.container(3, self.random.randrange(1, 4))
        root.is_object = True
        for place, child in enumerate(root.children):
            child.key = f"r{place}"
        root.children.insert(0, Child("first", "1"))
        return root


def containers_of(value, tokens):
    """Returns each array and object in a value, with the tokens that lead to it."""
    if isinstance(value, str):
        return
    yield tokens, value
    for place, child in enumerate(value.children):
        yield from containers_of(child.value, [*tokens, child.key if value.is_object else str(place)])


def pointer(tokens):
    """Returns the pointer of tokens without slashes and tildes."""
    return "".join(f"/{it}" for it in tokens)


def add(container, place, child):
    """Adds a child to a container. Comments above the one at the place stay there."""
    if not container.children:
        child.above, container.below, container.is_trailing = container.below, [], False
    elif place == len(container.children) and not container.is_trailing:
        container.children[-1].is_before_comma = False
    container.children.insert(place, child)


def remove(container, place):
    """Removes a child from a container. The comments above it stay."""
    above = container.children.pop(place).above
    if place < len(container.children):
        container.children[place].above = above + container.children[place].above
    else:
        container.below = above + container.below


def edit(chance, root):
    """Makes a random edit of a document: the operation of a patch, with the text of its value. Returns it."""
    tokens, container = chance.choice(list(containers_of(root, [])))
    count, fresh = len(container.children), chance.choice(SCALARS)
    kind = chance.choice(("add", "remove", "replace"))
    if kind in ("remove", "replace") and (not count or (not tokens and count < 2)):
        kind = "add"
    if kind == "add":
        keys = {child.key for child in container.children}
        key = next(it for it in NEW_KEYS if it not in keys) if container.is_object else None
        add(container, count, Child(key, fresh))
        return Operation(kind, pointer([*tokens, key or "-"]), fresh)
    place = chance.randrange(0 if tokens else 1, count)
    child = container.children[place]
    path = pointer([*tokens, child.key if container.is_object else str(place)])
    if kind == "remove":
        remove(container, place)
        return Operation(kind, path, "")
    child.value = fresh
    return Operation(kind, path, fresh)


def rename(chance, root):
    """Gives a random member of a document another key. Returns the pointer of the member, and the key."""
    tokens, container = chance.choice([it for it in containers_of(root, []) if it[1].is_object and it[1].children])
    child = chance.choice(container.children)
    path = pointer([*tokens, child.key])
    child.key = chance.choice(RENAMED)
    return path, child.key


def patch_of(operations):
    """Returns the text of the patch document (RFC 6902) with these operations."""
    made = []
    for operation in operations:
        value = f', "value": {operation.value}' if operation.value else ""
        made.append(f'{{"op": "{operation.name}", "path": {json.dumps(operation.path)}{value}}}')
    return f"[{', '.join(made)}]"


def case(chance):
    """Returns a random edit of a random file, or a patch of some edits, or the renaming of a member."""
    made = Files(chance)
    root = made.root()
    before, after = chance.choice(("", "// file" + made.layout.newline)), chance.choice(("", made.layout.newline))
    text = before + lay_out(root, made.layout, 0) + after
    new = copy.deepcopy(root)
    if chance.random() < 0.2:
        path, key = rename(chance, new)
        return Case("rename", ("rename", text, path, key), before + lay_out(new, made.layout, 0) + after)
    operations = [edit(chance, new) for _ in range(chance.choice((1, 1, 2, 3, 5)))]
    wanted = before + lay_out(new, made.layout, 0) + after
    first = operations[0]
    if len(operations) > 1 or chance.random() < 0.2:
        return Case("patch", ("patch", text, "", patch_of(operations)), wanted)
    return Case(first.name, ("delete" if first.name == "remove" else "assign", text, first.path, first.value), wanted)
