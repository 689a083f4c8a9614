"""Finds what callers of the libraries can import: the public items of each crate, read from its sources.

A module is named by its crate and its path below the crate, as `("jsonptr", ("pointer", "buf"))`.
"""
import functools
import glob
import re
from collections import Counter, namedtuple

import repository

ITEM = re.compile(r"^(pub )?(?:unsafe )?(?:const )?(fn|struct|enum|trait|type|const|mod) (\w+)", re.MULTILINE)
USE = re.compile(r"^(pub )?use ([^;]+);", re.MULTILINE)
METHOD = re.compile(r"^    (?:unsafe )?(?:const )?fn (\w+)", re.MULTILINE)
BODY = r"^(?:pub )?(?:unsafe )?trait {}\b.*?^\}}$"

# An item: where it is defined, its name and its kind there, as `trait`, `mod`, or `other` for one of another repository.
Item = namedtuple("Item", "crate module name kind")


def split_tree(tree):
    """Yields the path and the name of each thing that the tree of a `use` item imports."""
    head, brace, rest = re.sub(r"\s+", " ", tree).strip().partition("{")
    if not brace:
        path, _, name = head.partition(" as ")
        parts = tuple(part.strip() for part in path.split("::"))
        parts = parts[:-1] if parts[-1] == "self" else parts
        yield parts, name.strip() or parts[-1]
        return
    depth, start, inner = 0, 0, rest.rstrip()[:-1]
    for at, char in enumerate(inner + ","):
        depth += (char == "{") - (char == "}")
        if char == "," and not depth:
            if inner[start:at].strip():
                yield from split_tree(head.strip() + inner[start:at].strip())
            start = at + 1


@functools.cache
def listed():
    """Returns the lines of `crates.txt`, read once."""
    return repository.listed()


@functools.cache
def text_of(crate, module):
    """Returns the text of a module's file."""
    return repository.read(f"{repository.CRATES}/{crate}/src/{'/'.join(module) or 'lib'}.rt")


@functools.cache
def declared(crate, module):
    """Returns what the file of a module declares and imports: whether it is public, its kind and its path, by its name."""
    text = text_of(crate, module)
    found = {name: (bool(public), kind, ()) for public, kind, name in ITEM.findall(text)}
    for public, tree in USE.findall(text):
        found.update({name: (bool(public), "use", path) for path, name in split_tree(tree)})
    return found


@functools.cache
def item(crate, module, name):
    """Returns the item that a module has under a name, also where it only imports it, or None if there is none."""
    _, kind, path = declared(crate, module).get(name, (False, None, ()))
    if kind != "use":
        return kind and Item(crate, module, name, kind)
    if path[0] == "crate":
        path = (crate, *path[1:])
    elif path[0] in declared(crate, module) and path != (name,):
        path = (crate, *module, *path)
    return at_path(path)


def at_path(path):
    """Returns the item at a path that starts with the name of a crate, or None if there is none."""
    if path[0] not in listed():
        return Item(path[0], path[1:-1], path[-1], "other")
    found = Item(path[0], None, "", "mod")
    for part in path[1:-1]:
        found = found and found.kind == "mod" and inner_module(*module_of(found), part)
    for part in path[1:][-1:]:
        found = found and found.kind == "mod" and item(*module_of(found), part)
    return found or None


def inner_module(crate, module, name):
    """Returns the module that a module has under a name, also where it imports an item of the same name from it."""
    is_module = ("mod", name) in {(kind, found) for _, kind, found in ITEM.findall(text_of(crate, module))}
    return Item(crate, module, name, "mod") if is_module else item(crate, module, name)


def module_of(found):
    """Returns the module that an item of the kind `mod` is."""
    return found.crate, () if found.module is None else (*found.module, found.name)


@functools.cache
def public(crate):
    """Returns the public items of a crate: by its name, the paths to import an item by, the shortest first, with the item."""
    found, left, seen = {}, [(crate, (crate, ()))], set()
    while left:
        path, module = left.pop(0)
        if module in seen:
            continue
        seen.add(module)
        for name, (is_public, _, _) in declared(*module).items():
            it = item(*module, name) if is_public else None
            if it:
                found.setdefault(name, []).append((f"{path}::{name}", it))
                left += [(f"{path}::{name}", module_of(it))] if it.kind == "mod" else []
    return found


@functools.cache
def methods(trait):
    """Returns the names of the methods that a trait declares."""
    body = re.search(BODY.format(trait.name), text_of(trait.crate, trait.module), re.MULTILINE | re.DOTALL)
    return METHOD.findall(body[0]) if body else []


@functools.cache
def nearest(crate):
    """Returns the libraries in the order in which an example of a crate looks for a name.

    First the crate itself, then those that it uses, then those that use it, lowest first, and then the others.
    """
    libraries = repository.libraries()
    above = [name for name in libraries if crate in repository.below([name])]
    order = [*at_or_below(crate), *above, *libraries]
    return [name for name in dict.fromkeys(order) if name in libraries]


@functools.cache
def at_or_below(crate):
    """Returns a crate and those that it uses, the nearest first."""
    uses = listed()
    order = [crate, *uses.get(crate, ()), *repository.below([crate])]
    return [name for name in dict.fromkeys(order) if name in uses]


@functools.cache
def imports(path):
    """Returns the path of each name that a file imports, by the name."""
    return {name: "::".join(parts) for _, tree in USE.findall(repository.read(path)) for parts, name in split_tree(tree)}


@functools.cache
def imported(crate="*"):
    """Returns the path by which the files of a crate, or of all crates, most often import a name, by the name."""
    files = sorted(glob.glob(f"{repository.CRATES}/{crate}/src/**/*.rt", recursive=True))
    counted = Counter(pair for file in files for pair in imports(file).items())
    return {name: path for (name, path), _ in reversed(counted.most_common())}
