"""Layouts in which a whole document can be, and in which it has to stay."""
from typing import NamedTuple

from . import spans
from .spans import SPACE


class Layout(NamedTuple):
    """On one line: what is after a comma, around a colon and inside brackets. On lines: the line break and the indentation."""

    comma: str = ""
    colon: str = ": "
    brace: str = ""
    bracket: str = ""
    newline: str = ""
    unit: str = ""


ON_LINE = [
    Layout("", ":"),
    Layout(" "),
    Layout(" ", brace=" "),
    Layout(" ", brace=" ", bracket=" "),
]
ON_LINES = [Layout(newline=newline, unit=unit) for newline in ("\n", "\r\n") for unit in ("  ", "    ", "\t", " ", "   ")]


def laid_out(text, value, layout, margin=""):
    """Returns the text of a value in a layout."""
    if value.children is None:
        return text[value.start : value.end]
    front, back = text[value.start], text[value.end - 1]
    if not value.children:
        return front + back
    inner = margin + layout.unit
    children = [name_of(text, it, layout) + laid_out(text, it.value, layout, inner) for it in value.children]
    if layout.newline:
        gap = layout.newline + inner
        return front + gap + f",{gap}".join(children) + layout.newline + margin + back
    pad = layout.brace if value.is_object else layout.bracket
    return front + pad + f",{layout.comma}".join(children) + pad + back


def name_of(text, child, layout):
    """Returns the key of a member and its colon, or nothing for an element."""
    return "" if child.key is None else text[child.start : child.name_end] + layout.colon


def layouts_of(text):
    """Returns the layouts in which the document of a text is as a whole."""
    value = spans.read(text)
    own = text[value.start : value.end]
    layouts = ON_LINES if "\n" in own else ON_LINE
    return [it for it in layouts if laid_out(text, value, it) == own]


def shows(text):
    """Returns whether a text on one line shows a layout: it has a comma or a colon between its tokens."""
    return any(it in (",", ":") for it in spans.tokens_of(text.strip(SPACE)))


def is_kept(old, new):
    """Returns whether a new text is in a layout of the old one, if that is in one as a whole."""
    layouts = layouts_of(old)
    if not layouts or ("\n" not in old.strip(SPACE) and not shows(old)):
        return True
    value = spans.read(new)
    return any(laid_out(new, value, it) == new[value.start : value.end] for it in layouts)
