"""Where an edit lands in a text, and which characters it may change there."""
import itertools
import re
from typing import NamedTuple

from . import layouts, spans
from .layouts import Layout
from .spans import SPACE


class Replaced(NamedTuple):
    """A value is replaced. `parent` is its array or object, or None."""

    value: object
    parent: object


class Added(NamedTuple):
    """A child is added before the one at a position, or after the last one. A member has a key."""

    parent: object
    position: int
    key: str | None


class Removed(NamedTuple):
    """Children are removed."""

    parent: object
    positions: list


class Wrong(Exception):
    """A text that an edit may not make."""


def follow(root, tokens):
    """Returns the value that tokens lead to and its parent, as far as they do, and how many were followed."""
    at, parent = root, None
    for count, token in enumerate(tokens):
        position = spans.child_of(at, token)
        if position is None:
            return at, parent, count
        at, parent = at.children[position].value, at
    return at, parent, len(tokens)


def of_assign(root, tokens):
    """Returns where an assignment lands, or None if it is an error."""
    at, parent, count = follow(root, tokens)
    if count == len(tokens) or at.children is None:
        return Replaced(at, parent)
    return of_new(at, tokens[count], is_end=True)


def of_new(parent, token, is_end):
    """Returns where a new child of an array or object lands, or None. With `is_end` only an array's end will do."""
    length = len(parent.children)
    if parent.is_object:
        return Added(parent, length, token)
    index = length if token == "-" else spans.index_of(token)
    if index is None or index > length or (is_end and index != length):
        return None
    return Added(parent, index, None)


def of_removal(root, tokens):
    """Returns where a removal lands, or None if there is no such value."""
    at, parent, count = follow(root, tokens)
    if count < len(tokens):
        return None
    if not tokens:
        return Replaced(at, None)
    position = spans.child_of(parent, tokens[-1])
    if not parent.is_object:
        return Removed(parent, [position])
    return Removed(parent, [it for it, child in enumerate(parent.children) if child.key == tokens[-1]])


def of_add(root, tokens):
    """Returns where the operation `add` lands, or None if it is an error."""
    if not tokens:
        return Replaced(root, None)
    parent, above, count = follow(root, tokens[:-1])
    if count < len(tokens) - 1 or parent.children is None:
        return None
    position = spans.child_of(parent, tokens[-1]) if parent.is_object else None
    return of_new(parent, tokens[-1], is_end=False) if position is None else Replaced(parent.children[position].value, parent)


def of_replace(root, tokens):
    """Returns where the operation `replace` lands, or None if there is no such value."""
    at, parent, count = follow(root, tokens)
    return Replaced(at, parent) if count == len(tokens) else None


def piece(old, new, start, end):
    """Returns what the new text has instead of a span of the old one. All other characters must be the same."""
    left = len(old) - end
    if not new.startswith(old[:start]) or left > len(new) - start or new[len(new) - left :] != old[end:]:
        raise Wrong(f"more than the characters {start} to {end} changed")
    return new[start : len(new) - left]


def check(old, new, landing, moved=None):
    """Checks that a new text is an old one with an edit at its landing. Returns the text of the value that came, or None.

    A value that is printed is on one line, with the white space of the text, or has a line for each child, indented as the
    text is. One that was `moved` or copied, from a text and a value in it, may have other white space. If its last line had
    the indentation of its first one there, it has it here. A text that is in one layout as a whole stays in it.
    """
    check_newlines(old if moved is None else moved[0], new)
    if moved is None and not layouts.is_kept(old, new):
        raise Wrong("the layout of the text is not kept")
    if isinstance(landing, Replaced):
        came, margin = check_replaced(old, new, landing)
    elif isinstance(landing, Added):
        came, margin = check_added(old, new, landing)
    elif new in without(old, landing):
        return None
    else:
        raise Wrong("the removed child is not cut out with its comma and its white space")
    if moved is None and any(it in came for it in SPACE):
        check_printed(old, came, margin)
    if moved is not None and "\n" in came and is_even(*moved) and spans.indentation(came, len(came)) != margin:
        raise Wrong("the last line of the moved value has another indentation than its first one")
    return came


def is_even(text, value):
    """Returns whether the last line of a value has the indentation of its first one."""
    return spans.indentation(text, value.start) == spans.indentation(text, value.end)


def check_printed(old, came, margin):
    """Checks the white space of a new value: that of the text, or each child is on a line of its own."""
    value = spans.read(came)
    if "\n" in came:
        wanted = [Layout(newline=newline, unit=unit) for newline in ("\n", "\r\n") for unit in units_of(old)]
    else:
        wanted = flats_of(old, came)
    if not any(layouts.laid_out(came, value, it, margin) == came for it in wanted):
        raise Wrong(f"the new value has white space of its own: {came!r}")


def units_of(text):
    """Returns by what levels of a text may be indented: the white space of a line, or two spaces."""
    lines = [spans.indentation(text, at) for at, it in enumerate(text) if it not in SPACE]
    return {"  ", *(long[len(short) :] for long in set(lines) for short in {"", *lines} if long.startswith(short))} - {""}


def flats_of(old, came):
    """Returns the layout that a value on one line has, if each of its white spaces is one of the old text or usual."""
    first = [after(came, it) for it in (",", ":", "{", "[")]
    gaps = {"", " ", *(it.group() for it in spans.BLANK.finditer(old))}
    colons = {":", ": ", *COLON.findall(old)}
    comma, _, brace, bracket = [it or "" for it in first]
    colon = next(iter(COLON.findall(without_strings(came))), ":")
    return [Layout(comma, colon, brace, bracket)] if {comma, brace, bracket} <= gaps and colon in colons else []


COLON = re.compile(r"[ \t\r]*:[ \t\r]*")


def without_strings(text):
    """Returns a text with empty strings."""
    return "".join('""' if it[0] == '"' else it for it in re.findall(r'"(?:[^"\\]|\\.)*"|[^"]', text))


def after(text, mark):
    """Returns the white space after the first such token that has a child after it, or None."""
    found = re.search(re.escape(mark) + r"([ \t\r]*)(?=[^ \t\r}\]])", without_strings(text))
    return found and found[1]


def check_newlines(old, new):
    """Checks that line breaks keep their kind."""
    if "\r" not in old and "\r" in new:
        raise Wrong("a carriage return came")
    if "\n" not in old and "\n" in new:
        raise Wrong("a line break came")
    if "\n" in old and "\n" not in old.replace("\r\n", "") and "\n" in new.replace("\r\n", ""):
        raise Wrong("a line feed without a carriage return came")


def check_replaced(old, new, landing):
    """Checks a text in which a value is replaced. Returns the text of the new one, and its indentation."""
    value = landing.value
    came = piece(old, new, value.start, value.end)
    if not came or came != came.strip(SPACE):
        raise Wrong("there is white space around the new value")
    if "\n" in came:
        around = spans.blank_before(old, value.start) if landing.parent is None else spans.own_space(old, landing.parent)
        if "\n" not in old[value.start : value.end] + around:
            raise Wrong("the new value spans lines, and neither the old one nor its container does")
    return came, spans.indentation(old, value.start)


def check_added(old, new, landing):
    """Checks a text to which a child is added. Returns the text of its value, and its indentation."""
    parent, position = landing.parent, landing.position
    children = parent.children
    if not children:
        return check_first(old, new, landing)
    if position == len(children):
        came = piece(old, new, children[-1].end, children[-1].end)
        if came[:1] != ",":
            raise Wrong("no comma comes before the new child")
        gap, child = split_blank(came[1:])
    else:
        came = piece(old, new, children[position].start, children[position].start)
        child = came.rstrip(SPACE)
        gap, child = came[len(child) :], child[:-1].rstrip(SPACE) if child[-1:] == "," else "!"
    check_gap(old, parent, gap)
    return check_child(old, landing, gap, child, ("\n" in gap))


def split_blank(text):
    """Returns the white space at the start of a text, and the rest."""
    rest = text.lstrip(SPACE)
    return text[: len(text) - len(rest)], rest


def check_gap(old, parent, gap):
    """Checks the white space between the comma and a child, where an array or object had children."""
    leads = [spans.blank_before(old, child.start) for child in parent.children]
    if all("\n" in it for it in leads):
        if gap not in leads:
            raise Wrong(f"the new child is after {gap!r}, and not on a line of its own like its siblings")
    elif len(leads) > 1 and gap not in leads[1:]:
        raise Wrong(f"the new child is after {gap!r}, and its siblings are not")
    elif len(leads) == 1 and gap not in ("", " ", *(it.group() for it in spans.BLANK.finditer(old))):
        raise Wrong(f"the new child is after {gap!r}")


def check_first(old, new, landing):
    """Checks a text to which the only child of an array or object is added. Returns its value and its indentation."""
    parent = landing.parent
    inner = old[parent.start + 1 : parent.end - 1]
    lead, came = split_blank(piece(old, new, parent.start + 1, parent.end - 1))
    child = came.rstrip(SPACE)
    trail = came[len(child) :]
    own = spans.indentation(old, parent.start)
    lines = [(f"{newline}{own}{unit}", f"{newline}{own}") for newline in ("\n", "\r\n") for unit in units_of(old)]
    if "\n" in lead and ("\n" not in old or (lead, trail) not in lines):
        raise Wrong(f"the new child is between {lead!r} and {trail!r}")
    if "\n" not in lead and ("\n" in inner or lead != trail):
        raise Wrong(f"the new child is between {lead!r} and {trail!r}")
    return check_child(old, landing, lead, child, "\n" in lead)


def check_child(old, landing, lead, child, may_span):
    """Checks the text of a new child after white space. Returns the text of its value, and its indentation."""
    value = child if landing.key is None else value_of_member(old, landing, child)
    if not value or value != value.strip(SPACE):
        raise Wrong("there is white space around the new child")
    if "\n" in value and not may_span:
        raise Wrong("the new value spans lines, and its container does not")
    return value, lead[lead.rfind("\n") + 1 :]


def value_of_member(old, landing, child):
    """Checks the key of a new member and what is between it and its value. Returns the text of the value."""
    reader = spans.Reader(child)
    name = reader.next()
    if reader.start != 0 or name[0] != '"' or spans.decoded(name) != landing.key:
        raise Wrong(f"the new member has the key {name}")
    end = reader.at
    if reader.next() != ":":
        raise Wrong("the new key has no colon")
    blank, value = split_blank(child[reader.at :])
    colon = child[end : len(child) - len(value)]
    colons = [old[it.name_end : it.value.start] for it in landing.parent.children]
    if colons and colon not in colons:
        raise Wrong(f"the new member has {colon!r}, and its siblings do not")
    if not colons and colon not in (":", ": ", *COLON.findall(old)):
        raise Wrong(f"the new member has {colon!r}")
    return value


def without(old, landing):
    """Returns the texts that removing children can leave: one, or one for each order in which members with one key go."""
    parent = landing.parent
    parts = []
    for position, child in enumerate(parent.children):
        lead = spans.blank_before(old, child.start)
        trail = spans.BLANK.match(old, child.end)[0]
        parts.append((position, lead, old[child.start : child.end], trail))
    found = set()
    for order in itertools.permutations(landing.positions) if len(landing.positions) < 5 else [landing.positions]:
        left = list(parts)
        for position in order:
            left = cut(left, [it[0] for it in left].index(position))
        inner = ",".join(lead + text + trail for _, lead, text, trail in left)
        found.add(old[: parent.start + 1] + inner + old[parent.end - 1 :])
    return found


def cut(parts, at):
    """Returns the children without one. The next one takes its location. The last one, and the last one of a row, takes its
    comma along."""
    rest = parts[:at] + parts[at + 1 :]
    if 0 < at < len(rest) and "\n" in parts[at + 1][1] and "\n" not in parts[at][1]:
        position, lead, text, _ = rest[at - 1]
        rest[at - 1] = (position, lead, text, parts[at][3])
    elif at < len(rest):
        position, _, text, trail = rest[at]
        rest[at] = (position, parts[at][1], text, trail)
    elif rest:
        position, lead, text, _ = rest[-1]
        rest[-1] = (position, lead, text, parts[at][3])
    return rest
