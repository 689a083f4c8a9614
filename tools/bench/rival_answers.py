"""That the rivals and ours have the same results: those of the examples of the RFCs, and on each text before it is timed."""
import json
import math
import subprocess
import tempfile
import tomllib


class Differs(Exception):
    """A way has another result than it should."""


def output_of(command, path):
    """Returns what a command prints on a file."""
    with open(path, "rb") as given:
        return subprocess.run(command, stdin=given, stdout=subprocess.PIPE, check=True).stdout


def same(first, second):
    """Returns whether two JSON values are equal, with floats that may be rounded."""
    if isinstance(first, float) or isinstance(second, float):
        return isinstance(first, (int, float)) and isinstance(second, (int, float)) and math.isclose(first, second, rel_tol=1e-14)
    if isinstance(first, list):
        return isinstance(second, list) and len(first) == len(second) and all(map(same, first, second))
    if isinstance(first, dict):
        return isinstance(second, dict) and first.keys() == second.keys() and all(same(it, second[key]) for key, it in first.items())
    return type(first) is type(second) and first == second


def compare(ways, results, read=json.loads):
    """Raises `Differs` if the result of a way is not that of the first one."""
    first = read(results[0].decode())
    for way, result in zip(ways[1:], results[1:]):
        if not same(first, read(result.decode())):
            raise Differs(f"{way.name} has another result than {ways[0].name}: {result[:80]!r}, {results[0][:80]!r}")


def compare_toml(ways, results):
    """Raises `Differs` if two TOML texts differ in a byte, or are not TOML."""
    if len(set(results)) > 1:
        raise Differs(f"the TOML texts differ: {[way.name for way in ways]}")
    tomllib.loads(results[0].decode())


def changes_one_piece(old, new, value):
    """Returns whether a text is another one with a value in one place, and all else as it is there."""
    front = next((at for at, (one, other) in enumerate(zip(old, new)) if one != other), min(len(old), len(new)))
    back = next((at for at, (one, other) in enumerate(zip(reversed(old), reversed(new))) if one != other), 0)
    return len(new) - front - back <= len(value)


# ---- The examples of the RFCs ----

POINTERS = '{"foo": ["bar", "baz"], "": 0, "a/b": 1, "c%d": 2, "e^f": 3, "g|h": 4, "i\\\\j": 5, "k\\"l": 6, " ": 7, "m~n": 8}'

# RFC 6901, section 5.
FIND = [
    (POINTERS, "", POINTERS), (POINTERS, "/foo", '["bar", "baz"]'), (POINTERS, "/foo/0", '"bar"'), (POINTERS, "/", "0"),
    (POINTERS, "/a~1b", "1"), (POINTERS, "/c%d", "2"), (POINTERS, "/e^f", "3"), (POINTERS, "/g|h", "4"), (POINTERS, "/i\\j", "5"),
    (POINTERS, '/k"l', "6"), (POINTERS, "/ ", "7"), (POINTERS, "/m~0n", "8"),
]

# RFC 6902, appendix A: those that are no error.
PATCH = [
    ('{"foo": "bar"}', '[{"op": "add", "path": "/baz", "value": "qux"}]', '{"baz": "qux", "foo": "bar"}'),
    ('{"foo": ["bar", "baz"]}', '[{"op": "add", "path": "/foo/1", "value": "qux"}]', '{"foo": ["bar", "qux", "baz"]}'),
    ('{"baz": "qux", "foo": "bar"}', '[{"op": "remove", "path": "/baz"}]', '{"foo": "bar"}'),
    ('{"foo": ["bar", "qux", "baz"]}', '[{"op": "remove", "path": "/foo/1"}]', '{"foo": ["bar", "baz"]}'),
    ('{"baz": "qux", "foo": "bar"}', '[{"op": "replace", "path": "/baz", "value": "boo"}]', '{"baz": "boo", "foo": "bar"}'),
    ('{"foo": {"bar": "baz", "waldo": "fred"}, "qux": {"corge": "grault"}}', '[{"op": "move", "from": "/foo/waldo", "path": "/qux/thud"}]',
     '{"foo": {"bar": "baz"}, "qux": {"corge": "grault", "thud": "fred"}}'),
    ('{"foo": ["all", "grass", "cows", "eat"]}', '[{"op": "move", "from": "/foo/1", "path": "/foo/3"}]', '{"foo": ["all", "cows", "eat", "grass"]}'),
    ('{"baz": "qux", "foo": ["a", 2, "c"]}', '[{"op": "test", "path": "/baz", "value": "qux"}, {"op": "test", "path": "/foo/1", "value": 2}]',
     '{"baz": "qux", "foo": ["a", 2, "c"]}'),
    ('{"foo": "bar"}', '[{"op": "add", "path": "/child", "value": {"grandchild": {}}}]', '{"foo": "bar", "child": {"grandchild": {}}}'),
    ('{"foo": "bar"}', '[{"op": "add", "path": "/baz", "value": "qux", "xyz": 123}]', '{"foo": "bar", "baz": "qux"}'),
    ('{"/": 9, "~1": 10}', '[{"op": "test", "path": "/~01", "value": 10}]', '{"/": 9, "~1": 10}'),
    ('{"foo": ["bar"]}', '[{"op": "add", "path": "/foo/-", "value": ["abc", "def"]}]', '{"foo": ["bar", ["abc", "def"]]}'),
]

# RFC 7396, section 3 and appendix A.
MERGE = [
    ('{"title": "Goodbye!", "author": {"givenName": "John", "familyName": "Doe"}, "tags": ["example", "sample"], "content": "This will be unchanged"}',
     '{"title": "Hello!", "phoneNumber": "+01-123-456-7890", "author": {"familyName": null}, "tags": ["example"]}',
     '{"title": "Hello!", "author": {"givenName": "John"}, "tags": ["example"], "content": "This will be unchanged", "phoneNumber": "+01-123-456-7890"}'),
    ('{"a": "b"}', '{"a": "c"}', '{"a": "c"}'), ('{"a": "b"}', '{"b": "c"}', '{"a": "b", "b": "c"}'), ('{"a": "b"}', '{"a": null}', "{}"),
    ('{"a": "b", "b": "c"}', '{"a": null}', '{"b": "c"}'), ('{"a": ["b"]}', '{"a": "c"}', '{"a": "c"}'), ('{"a": "c"}', '{"a": ["b"]}', '{"a": ["b"]}'),
    ('{"a": {"b": "c"}}', '{"a": {"b": "d", "c": null}}', '{"a": {"b": "d"}}'), ('{"a": [{"b": "c"}]}', '{"a": [1]}', '{"a": [1]}'),
    ('["a", "b"]', '["c", "d"]', '["c", "d"]'), ('{"a": "b"}', '["c"]', '["c"]'), ('{"a": "foo"}', "null", "null"), ('{"a": "foo"}', '"bar"', '"bar"'),
    ('{"e": null}', '{"a": 1}', '{"e": null, "a": 1}'), ("[1, 2]", '{"a": "b", "c": null}', '{"a": "b"}'),
    ("{}", '{"a": {"bb": {"ccc": null}}}', '{"a": {"bb": {}}}'),
]

EXAMPLES = {"find": FIND, "patch": PATCH, "merge": MERGE}

# The examples for which a way has another result or an error: the job, the start of its name, and the texts of the examples.
DEPARTURES = {
    # It compares a key as it is written, with its escapes.
    ("find", "simdjson on demand"): {(POINTERS, "/i\\j"), (POINTERS, '/k"l')},
    # It takes no patch that is a scalar.
    ("merge", "evanphx"): {('{"a": "foo"}', "null"), ('{"a": "foo"}', '"bar"')},
}


def departs(way, job, example):
    """Returns whether a way is known to have another result of an example."""
    return any(it == job and way.name.startswith(name) and example[:2] in examples for (it, name), examples in DEPARTURES.items())


def agrees(way, job, example):
    """Returns whether a way has the result that the RFC states."""
    document, argument, expected = example
    with tempfile.NamedTemporaryFile("w", encoding="utf-8") as file, tempfile.NamedTemporaryFile("w", encoding="utf-8") as patch:
        for each, text in ((file, document), (patch, argument)):
            each.write(text)
            each.flush()
        command = [*way.command, job, file.name, "0", argument if job == "find" else patch.name]
        ran = subprocess.run(command, stdout=subprocess.PIPE, stderr=subprocess.DEVNULL)
    try:
        return ran.returncode == 0 and same(json.loads(expected), json.loads(ran.stdout))
    except ValueError:
        return False


def check_examples(ways, job):
    """Raises `Differs` if a way has another result of an example of the RFC, and is not known for it, or is wrongly."""
    for way in ways:
        for example in EXAMPLES[job]:
            if agrees(way, job, example) == departs(way, job, example):
                raise Differs(f"{way.name}, {job}: {example}")


def check_comparing():
    """Raises `Differs` if comparing takes a wrong result for a right one."""
    wrong = [("[1, 2]", "[1, 3]"), ('{"a": 1}', '{"a": 1, "b": 2}'), ("1", "true"), ("1", '"1"'), ("0.1", "0.2"), ("[]", "{}"), ("null", "false")]
    for first, second in wrong:
        if same(json.loads(first), json.loads(second)):
            raise Differs(f"{first} is taken for {second}")
    if changes_one_piece(b'{"a": 1, "b": 2}', b'{"a":7, "b": 3}', b"7"):
        raise Differs("two changes are taken for one")
