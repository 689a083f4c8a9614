"""The names of crates that users choose by `./vendor`, and what the last release called differently."""
import re

# What ./vendor copies by name: each crate without the prefix `jsonptr_`.
EXTRAS = [
    "value", "text_digits", "tabled", "fragment", "session", "patch", "patch_document", "patch_diff", "merge", "text_resolve",
    "text_value", "text_step", "text_edit", "text_relayout", "io", "text_paths", "jptr_tasks", "toml", "toml_edit", "comments",
    "comments_step", "comments_edit", "laws", "c_calls",
]
# The crates of the last release that have another name, and what each is now.
RENAMED = {
    "jsonptr_json_search": ["jsonptr_text_search"],
    "jsonptr_json_edits": ["jsonptr_text_piece", "jsonptr_text_check", "jsonptr_text_layout"],
    "jsonptr_in_text": ["jsonptr_text_resolve"],
    "jsonptr_edit_in_text": ["jsonptr_text_step"],
    "jsonptr_relayout": ["jsonptr_text_relayout"],
    "jsonptr_paths": ["jsonptr_text_paths"],
    "jsonptr_numbers": ["jsonptr_text_digits"],
    "jsonptr_edit_with_comments": ["jsonptr_comments_step"],
    "jsonptr_in_toml": ["jsonptr_toml"],
    "jsonptr_edit_in_toml": ["jsonptr_toml_edit"],
    "jsonptr_journal": ["jsonptr_patch_journal"],
    "jsonptr_diff": ["jsonptr_patch_diff"],
    "jsonptr_command": ["jsonptr_run_command"],
    "jsonptr_c_handle": ["jsonptr_c_calls"],
}
# What does the job of calls that the last release had: the new call and its crate, and the old names.
GONE = {
    ("edit_text", "jsonptr_text_edit"): r"(?:assign|delete|apply)(?:_raw)?_in_(?:text_with|place)|try_apply_raw_in_place|InPlaceError",
    ("edit_commented", "jsonptr_comments_edit"): r"(?:try_)?(?:assign|apply)_raw_with_comments|WithCommentsError",
    ("edit_toml", "jsonptr_toml_edit"): r"(?:assign|delete)_in_toml(?:_in_place)?",
    ("locate", "jsonptr_text_edit"): r"locate_in_text(?:_with)?",
}


def crate_of(extra):
    """Returns the crate of an extra, whose name lacks the prefix `jsonptr_`."""
    return extra if extra.startswith("jptr") else f"jsonptr_{extra}"


def extra_of(crate):
    """Returns what a crate is called as an extra."""
    return re.sub("^jsonptr_", "", crate)


def renamed(crates):
    """Returns the part of `RENAMED` that holds beside these crates: an old name that is a crate's is no old one."""
    return {old: new for old, new in RENAMED.items() if old not in crates}


def listed(names):
    """Returns names as people write them: `a`, `a and b`, `a, b and c`."""
    return " and ".join([*filter(None, [", ".join(names[:-1])]), *names[-1:]])
