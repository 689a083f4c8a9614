"""Judges what an edit in a text returned: by the call on the document, and by the characters of both texts."""
import json

from . import landing, spans
from .landing import Replaced, Wrong
from .texts import tokens_of

# Whether removing one of several members with the same key may print the document anew.
REPEATED_KEYS_MAY_BE_REWRITTEN = False


def whole(digits):
    """Returns a whole number as `serde_json` reads it: as a float if it does not fit 64 bits."""
    number = int(digits)
    return number if -(1 << 63) <= number < 1 << 64 else float(digits)


def is_same_value(text, other):
    """Returns whether two JSON texts are the same value."""
    return json.loads(text, parse_int=whole) == json.loads(other, parse_int=whole)


def depth_of(text):
    """Returns how deep a printed document nests."""
    deepest = depth = 0
    is_string = is_escaped = False
    for it in text:
        if is_string:
            is_string = is_escaped or it != '"'
            is_escaped = it == "\\" and not is_escaped
        elif it == '"':
            is_string = True
        elif it in "[{":
            depth += 1
            deepest = max(deepest, depth)
        elif it in "]}":
            depth -= 1
    return deepest


def is_too_deep(outcome):
    """Returns whether the changed document nests too deep to be read again."""
    return outcome.call == "done" and len(outcome.printed) > spans.MOST_DEEP and depth_of(outcome.printed) > spans.MOST_DEEP


def check_meaning(outcome):
    """Checks that an edit in a text says what the call on the document says."""
    if outcome.kind in ("in place", "rewritten"):
        if outcome.call != "done" or outcome.read != outcome.printed:
            raise Wrong(f"the new text reads as {outcome.read}, and the call makes {outcome.printed}")
    elif outcome.kind != "too deep":
        if (outcome.kind, outcome.detail) != (outcome.call, outcome.printed):
            raise Wrong(f"the call says {outcome.call} {outcome.printed!r}")


def check_call(text, tokens, outcome, land):
    """Checks one call whose landing a function finds. Returns the landing, if the text was changed in place."""
    try:
        root = spans.read(text)
    except spans.NotJson:
        root = None
    if (root is None) != (outcome.kind == "not JSON"):
        raise Wrong("Python says otherwise whether the text is JSON")
    if root is None:
        return None
    at = land(root, tokens)
    if (at is None) != (outcome.kind in ("refused", "none")):
        raise Wrong(f"Python finds the landing {at}")
    if at is None:
        return None
    if (outcome.kind == "too deep") != is_too_deep(outcome):
        raise Wrong("the new document does not nest too deep")
    if outcome.kind == "rewritten" and not may_be_rewritten(at):
        raise Wrong("the document is printed anew")
    return at if outcome.kind == "in place" else None


def may_be_rewritten(at):
    """Returns whether an edit that lands there may print the document anew."""
    return REPEATED_KEYS_MAY_BE_REWRITTEN and isinstance(at, landing.Removed) and len(at.positions) > 1


def judge_assign(text, tokens, argument, outcome):
    """Judges an assignment."""
    at = check_call(text, tokens, outcome, landing.of_assign)
    if at is not None:
        came = landing.check(text, outcome.detail, at)
        _, _, count = landing.follow(spans.read(text), tokens)
        if count == len(tokens) and not is_same_value(came, argument):
            raise Wrong(f"the new value is {came}")


def judge_delete(text, tokens, outcome):
    """Judges a deletion."""
    at = check_call(text, tokens, outcome, landing.of_removal)
    if at is not None:
        came = landing.check(text, outcome.detail, at)
        if isinstance(at, Replaced) and came != "null":
            raise Wrong(f"the root becomes {came}")


def judge_patch(text, operations, outcomes):
    """Judges a patch by the outcomes of its prefixes: that of no operation, of the first one, of the first two, and so on."""
    for position, outcome in enumerate(outcomes):
        check_meaning(outcome)
        before = outcomes[position - 1] if position else None
        if before is not None and before.kind == "in place" and not any(map(is_too_deep, outcomes[:position])):
            judge_operation(before.detail, operations[position - 1], outcome)
        elif position == 0:
            if check_call(text, [], outcome, lambda root, _: root) is not None and outcome.detail != text:
                raise Wrong("an empty patch changes the text")
        elif before.kind not in ("in place", "rewritten") and before.kind != "too deep" and before != outcome:
            raise Wrong("a patch goes on after an error")


def judge_operation(old, operation, outcome):
    """Judges the last operation of a patch, by the text before it."""
    root, path = spans.read(old), tokens_of(operation["path"])
    name = operation["op"]
    if outcome.kind == "refused":
        return
    if outcome.kind == "too deep" and is_too_deep(outcome):
        return
    if name == "test":
        if outcome.kind != "in place" or outcome.detail != old:
            raise Wrong("a test changes the text")
        return
    if name == "move":
        judge_move(old, root, tokens_of(operation["from"]), path, outcome)
        return
    land = {"add": landing.of_add, "copy": landing.of_add, "remove": landing.of_removal, "replace": landing.of_replace}[name]
    at = land(root, path)
    if at is None:
        raise Wrong("Python finds no landing")
    if outcome.kind == "rewritten":
        if may_be_rewritten(at):
            return
        raise Wrong("the document is printed anew")
    if name == "copy":
        check_moved(old, root, tokens_of(operation["from"]), old, outcome.detail, at)
        return
    came = landing.check(old, outcome.detail, at)
    if "value" in operation and not is_same_value(came, json.dumps(operation["value"])):
        raise Wrong(f"the new value is {came}")


def check_moved(old, root, source, middle, new, at):
    """Checks a text to which a value of an old text is added: it keeps its numbers, its strings and the order of its members."""
    value, _, _ = landing.follow(root, source)
    came = landing.check(middle, new, at, moved=(old, value))
    if spans.tokens_of(came) != spans.tokens_of(old[value.start : value.end]):
        raise Wrong(f"the value becomes {came}")


def judge_move(old, root, source, path, outcome):
    """Judges a move, which is a removal and an addition."""
    gone = landing.of_removal(root, source)
    if outcome.kind == "rewritten":
        if may_be_rewritten(gone):
            return
        raise Wrong("the document is printed anew")
    if isinstance(gone, Replaced):
        middles = [old[: root.start] + "null" + old[root.end :]]
    else:
        middles = landing.without(old, gone)
    faults = []
    for middle in middles:
        at = landing.of_add(spans.read(middle), path)
        try:
            if at is None:
                raise Wrong("Python finds no landing")
            check_moved(old, root, source, middle, outcome.detail, at)
            return
        except Wrong as fault:
            faults.append(fault)
    raise faults[0]
