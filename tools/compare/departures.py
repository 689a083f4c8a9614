"""The intended differences between the two crates (docs/DIFFERENCES.md), each as a narrow condition on one field."""
import re

GREATEST = 2**64 - 1


def plain(word):
    """Returns the text that a word represents."""
    return re.sub(r"\\(.)", lambda it: {"t": "\t", "n": "\n", "r": "\r"}.get(it[1], it[1]), word)


def bytes_of(word):
    """Returns the UTF-8 bytes of the text that a word represents."""
    return plain(word).encode()


def strip_prefix_cuts_between_tokens(words, field, ours, theirs, all_ours):
    """`None` if the prefix ends inside a token, where the Rust crate compares only the texts."""
    call, a, b = words[0], *(words[1:3] if len(words) > 2 else ("", ""))
    return call == "two pointers" and field == "strip_prefix" and ours == "None" and plain(a).startswith(plain(b)) and all_ours["starts_with"] == "false"


def fault_of(words, all_ours):
    """Returns the two offsets of a parse error and the subject's length in bytes, or None if this is no parse error."""
    if words[0] == "parse" and "pointer_offset" in all_ours:
        return int(all_ours["pointer_offset"]), int(all_ours["source_offset"]), len(bytes_of(words[1]))
    if words[0] == "parse error":
        return int(words[1]), int(words[2]), len(bytes_of(words[4]))
    return None


def length_of(fault):
    """Returns the length in bytes of a parse error's label."""
    pointer_offset, source_offset, length = fault
    return 2 if pointer_offset + source_offset + 1 < length else 1


def invalid_encoding_len_by_the_tilde(words, field, ours, theirs, all_ours):
    """Uses the offset of the tilde. The Rust crate uses that of the token's slash, and panics on an empty text."""
    fault = fault_of(words, all_ours)
    if not fault or field != "len":
        return False
    pointer_offset, _, length = fault
    said = "stops" if not length else "2" if pointer_offset < length - 1 else "1"
    return ours == str(length_of(fault)) and theirs == said


def label_of_a_parse_error(words, field, ours, theirs, all_ours):
    """A label at the offset of the tilde, and none if that exceeds `usize::MAX`, where the Rust crate panics."""
    fault = fault_of(words, all_ours)
    if not fault or field != "label":
        return False
    pointer_offset, source_offset, length = fault
    offset = pointer_offset + source_offset
    if offset > GREATEST:
        return ours == "None" and theirs == "stops"
    label = f"{offset}+%d '~' must be followed by '0' or '1'\\;"
    said = "stops" if not length else label % (2 if pointer_offset < length - 1 else 1)
    return ours == label % length_of(fault) and theirs == said


def subject_of(words, field):
    """Returns the text that this label of an index error is on, or None if it is no such label."""
    if words[0] not in ("index", "index error") or field not in ("label", "token_label"):
        return None
    text = plain(words[-1])
    return text.replace("~", "~0").replace("/", "~1") if field == "token_label" else text


def label_of_zeros_alone(words, field, ours, theirs, all_ours):
    """A label on all zeros, where the Rust crate panics."""
    subject = subject_of(words, field)
    return subject is not None and set(subject) <= {"0"} and ours == f"0+{len(subject)} leading zeros\\;" and theirs == "stops"


def label_of_no_digits_in_bytes(words, field, ours, theirs, all_ours):
    """In bytes, to the next digit or the end. The Rust crate counts characters, and can exceed the end."""
    subject, found = subject_of(words, field), re.fullmatch(r"(\d+)\+(\d+) invalid character\(s\)\\;", ours)
    if subject is None or not found:
        return False
    at, text = int(found[1]), subject.encode()
    end = next((it for it in range(at, len(text)) if text[it : it + 1].isdigit()), max(len(text), at))
    digits = (count for count, it in enumerate(subject[at:]) if it in "0123456789")
    return int(found[2]) == end - at and theirs == f"{at}+{next(digits, len(text))} invalid character(s)\\;"


def label_of_a_tilde_in_no_text(words, field, ours, theirs, all_ours):
    """No label on an empty subject, where the Rust crate panics."""
    return words[0] == "encoding error" and words[1:] == ["0", "Tilde", ""] and field == "label" and ours == "None" and theirs == "stops"


def label_past_the_greatest_offset(words, field, ours, theirs, all_ours):
    """No label past the greatest offset, where the Rust crate panics."""
    return words[0] in ("resolve error", "assign error") and int(words[3]) == GREATEST and field == "label" and ours == "None" and theirs == "stops"


def excluded_start_at_the_greatest_position(words, field, ours, theirs, all_ours):
    """`None` for an excluded start of `usize::MAX`, where the Rust crate panics."""
    return words[0] == "get" and words[2] == "bounds" and words[3] == f"excluded {GREATEST}" and ours == "None" and theirs == "stops"


def addresses_of_the_right_pages(words, field, ours, theirs, all_ours):
    """The URL of the error's own page."""
    pages = {"ParseError": "enum.ParseError", "ParseIndexError": "index/enum.ParseIndexError", "resolve::Error": "resolve/enum.Error"}
    return words[0] == "addresses" and field in pages and ours == f"https://docs.rs/jsonptr/0.8.2/jsonptr/{pages[field]}.html"


ALL = [
    strip_prefix_cuts_between_tokens,
    invalid_encoding_len_by_the_tilde,
    label_of_a_parse_error,
    label_of_zeros_alone,
    label_of_no_digits_in_bytes,
    label_of_a_tilde_in_no_text,
    label_past_the_greatest_offset,
    excluded_start_at_the_greatest_position,
    addresses_of_the_right_pages,
]


def fields_of(line):
    """Returns the fields of an answer, in order."""
    return [tuple(it.partition("=")[::2]) for it in line.split("\t")]


def excuses(request, ours, theirs, departures=ALL):
    """Returns the names of the departures that excuse the fields in which two answers differ, or None where a field has no excuse."""
    words = request.split("\t")
    our_fields, their_fields = fields_of(ours), fields_of(theirs)
    if [name for name, _ in our_fields] != [name for name, _ in their_fields]:
        return None
    all_ours, names = dict(our_fields), []
    for (field, our_value), (_, their_value) in zip(our_fields, their_fields):
        if our_value != their_value:
            found = next((it for it in departures if it(words, field, our_value, their_value, all_ours)), None)
            if not found:
                return None
            names.append(found.__name__)
    return names
