"""Tests of the Python module's editor: edits of texts and of files, and the names of jsonpointer and jsonpatch."""
import copy
import json
import os
import pickle
import random
import stat
import tempfile
import threading

import jsonptr

try:
    import tomllib  # noqa: F401
    HAS_TOML = True
except ImportError:
    HAS_TOML = False

SETTINGS = '{\n  // editor\n  "é": [1.00, 2], /* two */\n  "name": "app", // last\n}\n'


def caught(call, *arguments, **named):
    """Returns the exception that a call raises."""
    try:
        value = call(*arguments, **named)
    except Exception as error:
        return error
    raise AssertionError(f"{call} returned {value!r}")


def apply_change(old, new, change):
    """Checks that a change turns one text into the other."""
    assert old[:change.start] + new[change.start:change.new_end] + old[change.old_end:] == new, (old, new, change)


def check_edits():
    """Checks each call of a `str` and of bytes, and that a change says what differs."""
    for text in (SETTINGS, SETTINGS.encode()):
        editor = jsonptr.Editor(text, "jsonc")
        assert editor.text == text and type(editor.text) is type(text) and editor.format == "jsonc"
        steps = [
            (lambda: editor.assign("/é/0", jsonptr.Raw("2.50")), ("1.00", "2.50")),
            (lambda: editor.assign("/é/-", 3), ("2]", "2, 3]")),
            (lambda: editor.rename("/name", "title"), ('"name"', '"title"')),
            (lambda: editor.apply([{"op": "replace", "path": "/title", "value": "è"}]), ('"app"', '"è"')),
            (lambda: editor.assign("/title", "é"), ('"è"', '"é"')),
        ]
        now = SETTINGS
        for step, (old, new) in steps:
            before, after = now, now.replace(old, new)
            change = step()
            now = after
            wanted = after if isinstance(text, str) else after.encode()
            assert editor.text == wanted, (editor.text, wanted)
            apply_change(before if isinstance(text, str) else before.encode(), wanted, change)
            assert not change.reformatted
        assert editor.delete("/title") is True and editor.delete("/title") is False
        assert editor.value() == {"é": [2.5, 2, 3]} and editor["/é/1"] == 2
        get = editor.get("/é")
        assert (get if isinstance(text, str) else get.decode()) == "[2.50, 2, 3]"
        span = editor.locate("/é/0")
        assert editor.text[span.start:span.end] in ("2.50", b"2.50") and editor.pointer_at(span.end - 1) == "/é/0"
        assert "/é/2" in editor and "/é/3" not in editor and "/none" not in editor


def check_errors():
    """Checks that an error has its class, and leaves the text."""
    editor = jsonptr.Editor('{"a": 1, "a": 2, "b": [3]}')
    text = editor.text
    cases = [
        (jsonptr.NotPointer, editor.assign, "a", 1), (jsonptr.NotAssigned, editor.assign, "/b/7", 1),
        (jsonptr.NotJson, editor.assign, "/b", jsonptr.Raw("[1,]")), (jsonptr.NotInPlace, editor.rename, "/a", "c"),
        (jsonptr.NotRenamed, editor.rename, "/b/0", "c"),
        (jsonptr.JsonPatchError, editor.apply, [{"op": "test", "path": "/b", "value": 3}]), (jsonptr.NotFound, editor.get, "/c"),
        (jsonptr.NotFound, editor.value, "/c"), (KeyError, editor.__getitem__, "/c"), (LookupError, editor.__delitem__, "/c"),
        (jsonptr.NotFound, editor.pointer_at, 99), (jsonptr.NotFound, editor.pointer_at, -1), (ValueError, jsonptr.Editor, "1", "yaml"),
        (jsonptr.NotJson, jsonptr.Editor, "[1] // one"), (jsonptr.NotJson, jsonptr.Editor, "[1] /* one", "jsonc"), (TypeError, iter, editor),
        (TypeError, hash, editor), (jsonptr.TooDeep, editor.assign, "/b/0", jsonptr.Raw("[" * 127 + "]" * 127)),
        (jsonptr.NotJson, editor.assign, "/b", float("nan")), (jsonptr.JsonptrError, editor.rename, "/b", b"\xff"),
    ]
    for kind, call, *arguments in cases:
        error = caught(call, *arguments)
        assert isinstance(error, kind), (kind, error)
        assert editor.text == text
    assert str(caught(editor.get, "/c")).startswith("resolve failed")
    editor.reformat = True
    change = editor.rename("/a", "c")
    assert change.reformatted and editor.text == '{"b":[3],"c":2}'


TABLES = '# é\n[project] # ours\nname = "é"\nversion = "1.0"\n\n[tool.app]\nsizes = [3, 5]\n'


def check_toml():
    """Checks edits of TOML, of a `str` and of bytes."""
    for text in (TABLES, TABLES.encode()):
        editor = jsonptr.Editor(text, "toml")
        steps = [
            (lambda: editor.assign("/project/version", "1.1"), ('"1.0"', '"1.1"')),
            (lambda: editor.assign("/tool/app/sizes/-", 8.5), ("5]", "5, 8.5]")),
            (lambda: editor.assign("/project/urls/home", "x"), ('"1.1"\n', '"1.1"\nurls.home = "x"\n')),
            (lambda: editor.rename("/tool/app", "other app"), ("[tool.app]", '[tool."other app"]')),
            (lambda: editor.assign("/project/name", jsonptr.Raw('"è"')), ('"é"', '"è"')),
        ]
        now = TABLES
        for step, (old, new) in steps:
            before, now = now, now.replace(old, new)
            change = step()
            wanted = now if isinstance(text, str) else now.encode()
            assert editor.text == wanted, (editor.text, wanted)
            apply_change(before if isinstance(text, str) else before.encode(), wanted, change)
        assert editor.delete("/project/urls") is True and editor.delete("/project/urls") is False
        for again in (copy.copy(editor), pickle.loads(pickle.dumps(editor))):
            assert again == editor and again.format == "toml"
        cases = [
            (jsonptr.NotTomlValue, editor.assign, "/a", None), (jsonptr.NotTomlValue, editor.assign, "/a", [2 ** 63]),
            (jsonptr.NotTomlValue, editor.assign, "", 1), (jsonptr.NotAssigned, editor.assign, "/tool/other app/sizes/9", 1),
            (TypeError, editor.assign, "/a", object()), (jsonptr.NotRenamed, editor.rename, "/project/name", "version"),
            (jsonptr.OtherFormat, editor.apply, []), (jsonptr.OtherFormat, editor.get, "/project"), (KeyError, editor.__delitem__, "/a"),
            (jsonptr.OtherFormat, editor.pointer_at, 0), (jsonptr.OtherFormat, editor.remove_comments), (jsonptr.TooDeep, editor.assign, "/a/b", nested(80)),
            (jsonptr.NotToml, jsonptr.Editor, "a = ", "toml"), (jsonptr.NotFound if HAS_TOML else jsonptr.OtherFormat, editor.value, "/none"),
        ]
        text = editor.text
        for kind, call, *arguments in cases:
            error = caught(call, *arguments)
            assert isinstance(error, kind), (kind, error)
            assert editor.text == text
        if HAS_TOML:
            assert editor["/project/name"] == "è" and "/tool" in editor and "/none" not in editor
            assert jsonptr.Editor("\ufeffa = 1979-05-27", "toml").value("/a").year == 1979
    with tempfile.TemporaryDirectory() as folder:
        path = os.path.join(folder, "pyproject.toml")
        with open(path, "w", encoding="utf-8", newline="") as file:
            file.write(TABLES.replace("\n", "\r\n"))
        with jsonptr.edit(path) as project:
            project["/project/version"] = "2.0"
            del project["/tool"]
        with open(path, encoding="utf-8", newline="") as file:
            written = file.read()
        assert written == '# é\r\n[project] # ours\r\nname = "é"\r\nversion = "2.0"\r\n', written


def nested(levels):
    """Returns an empty list in so many lists."""
    value = []
    for _ in range(levels - 1):
        value = [value]
    return value


def check_copies():
    """Checks copies, pickles, comparisons and subclasses."""
    class Named(jsonptr.Editor):
        def __init__(self, name):
            super().__init__('{"name": 1}')
            self.name = name

    editor = jsonptr.Editor(SETTINGS, "jsonc", reformat=True)
    for again in (copy.copy(editor), copy.deepcopy(editor), pickle.loads(pickle.dumps(editor))):
        assert again == editor and again.reformat and type(again) is jsonptr.Editor
        again["/new"] = 1
        assert again != editor and editor.text == SETTINGS
    named = copy.copy(Named("x"))
    assert named.name == "x" and type(named) is Named and str(named) == '{"name": 1}'
    assert jsonptr.Editor("1") != jsonptr.Editor(b"1") and bytes(jsonptr.Editor("1")) == b"1"
    raw = jsonptr.Raw(b"1.10")
    assert raw == pickle.loads(pickle.dumps(raw)) == copy.copy(raw) and len({raw, jsonptr.Raw("1.10")}) == 1
    assert isinstance(caught(setattr, raw, "text", "2"), AttributeError) and isinstance(caught(jsonptr.Raw, 5), TypeError)
    assert jsonptr.Editor("\ufeff[1]").text == "\ufeff[1]" and jsonptr.Editor("\ufeff[1]").get("/0") == "1"
    bare = jsonptr.Editor("[1, /* one */ 2,]", "jsonc")
    bare.remove_comments()
    assert (bare.text, bare.format) == ("[1,           2 ]", "json")


def check_files():
    """Checks `edit`: what is written, when, and to which file."""
    with tempfile.TemporaryDirectory() as folder:
        path, link = os.path.join(folder, "settings.jsonc"), os.path.join(folder, "link.jsonc")
        with open(path, "w", encoding="utf-8", newline="") as file:
            file.write(SETTINGS.replace("\n", "\r\n"))
        os.chmod(path, 0o640)
        os.symlink(path, link)
        with jsonptr.edit(link) as settings:
            settings["/name"] = "other"
        with open(path, encoding="utf-8", newline="") as file:
            assert file.read() == SETTINGS.replace("\n", "\r\n").replace('"app"', '"other"')
        assert os.path.islink(link) and stat.S_IMODE(os.stat(path).st_mode) == 0o640 and len(os.listdir(folder)) == 2
        before = os.stat(path)
        with jsonptr.edit(path) as settings:
            assert settings["/name"] == "other"
        assert os.stat(path) == before or os.stat(path).st_mtime_ns == before.st_mtime_ns

        def edits(then):
            with jsonptr.edit(path) as settings:
                settings["/name"] = "third"
                then()

        def fail():
            raise ZeroDivisionError

        def touch():
            with open(path, "a", encoding="utf-8") as file:
                file.write("// another program\n")

        assert isinstance(caught(edits, fail), ZeroDivisionError) and isinstance(caught(edits, touch), FileExistsError)
        with open(path, encoding="utf-8") as file:
            assert "third" not in file.read() and len(os.listdir(folder)) == 2
        assert isinstance(caught(jsonptr.edit(os.path.join(folder, "none.json")).__enter__), FileNotFoundError)
        plain = os.path.join(folder, "a.json")
        with open(plain, "w", encoding="utf-8") as file:
            file.write("[1] // one")
        assert isinstance(caught(jsonptr.edit(plain).__enter__), jsonptr.NotJson)
        with jsonptr.edit(plain, "jsonc") as one:
            one["/-"] = 2
        with open(plain, encoding="utf-8") as file:
            assert file.read() == "[1,2] // one"


def check_names():
    """Checks the names of jsonpointer and jsonpatch."""
    document = {"a/b": [1, {"c": None}], "": 2, "~": {"": 3}}
    assert jsonptr.resolve_pointer(document, "") is document and jsonptr.resolve_pointer(document, "/a~1b/1") is document["a/b"][1]
    assert jsonptr.resolve_pointer(document, "/") == 2 and jsonptr.resolve_pointer(document, "/~0/") == 3
    for pointer in ("/x", "/a~1b/2", "/a~1b/01", "/a~1b/-", "/a~1b/0/0", "/a~1b/\u0661"):
        error = caught(jsonptr.resolve_pointer, document, pointer)
        assert isinstance(error, jsonptr.NotFound) and jsonptr.resolve_pointer(document, pointer, 7) == 7, pointer
        other = caught(jsonptr.resolve, document, pointer)
        assert [getattr(error, it) for it in ("position", "slash", "offset", "length")] == [
            getattr(other, it) for it in ("position", "slash", "offset", "length")], pointer
    assert jsonptr.resolve_pointer(jsonptr.Document("[1]"), "/0") == 1 and jsonptr.resolve_pointer(jsonptr.Editor("[1]"), "/1", 5) == 5
    assert isinstance(caught(jsonptr.resolve_pointer, document, "a"), jsonptr.NotPointer)
    value = [1, {"a": 2}]
    assert jsonptr.set_pointer(value, "/1/b", 3) is value and value == [1, {"a": 2, "b": 3}]
    assert jsonptr.set_pointer(value, "/0", 5, inplace=False) == [5, {"a": 2, "b": 3}] and value[0] == 1
    assert jsonptr.set_pointer(value, "/-", 5) == [1, {"a": 2, "b": 3}, 5]
    assert isinstance(caught(jsonptr.set_pointer, value, "/7", 5), jsonptr.NotAssigned)
    assert isinstance(caught(jsonptr.set_pointer, value, "", 5), jsonptr.NotAssigned)
    assert isinstance(caught(jsonptr.set_pointer, value, "/x/y", 5), jsonptr.NotFound)
    assert jsonptr.set_pointer(value, "", 5, inplace=False) == 5
    patch = [{"op": "add", "path": "/b", "value": 1}]
    old = {"c": 0}
    assert jsonptr.apply_patch(old, patch) == {"b": 1, "c": 0} and old == {"c": 0}
    assert jsonptr.apply_patch(old, json.dumps(patch), in_place=True) is old and old == {"b": 1, "c": 0}
    assert isinstance(caught(jsonptr.apply_patch, {"a": 2 ** 70}, patch), jsonptr.NotExact)
    assert jsonptr.make_patch({"a": 1}, {"a": 2}).apply({"a": 1}) == {"a": 2}


def check_random(rounds=400):
    """Checks random edits: the document is that of the same edits of a `Document`, and a change says what differs."""
    choose = random.Random(7)
    values = [None, True, 5, 1.5, "é\n", [], {}, [1, {"k": "v"}], {"z": 1, "a": [2]}]
    for _ in range(rounds):
        start = choose.choice(['{"a": {"b": [1, 2.50 ]}, "é": "x"}', "[1, [2, 3], {\n  \"k\": 1\n} ]", "{}", " [ ] "])
        editor, document = jsonptr.Editor(start, choose.choice(["json", "jsonc"]), reformat=True), jsonptr.Document(start)
        for _ in range(6):
            pointer = "".join(f"/{choose.choice(['a', 'b', 'é', 'k', '0', '1', '-', 'a~1b'])}" for _ in range(choose.randrange(4)))
            old = editor.text
            if choose.random() < 0.3:
                assert editor.delete(pointer) == document.delete(pointer)
            else:
                value = choose.choice(values)
                try:
                    change = editor.assign(pointer, value)
                except jsonptr.NotAssigned:
                    assert isinstance(caught(document.assign, pointer, value), jsonptr.NotAssigned)
                    continue
                document.assign(pointer, value)
                apply_change(old, editor.text, change)
            assert jsonptr.Document(editor.text) == document, (old, pointer, editor.text)


def check_threads():
    """Checks that threads may share an editor."""
    editor = jsonptr.Editor("[]")

    def work():
        for number in range(50):
            editor.assign("/-", number)
            assert len(editor.value()) > 0

    threads = [threading.Thread(target=work) for _ in range(4)]
    for it in threads:
        it.start()
    for it in threads:
        it.join()
    assert sorted(editor.value()) == sorted(list(range(50)) * 4)


if __name__ == "__main__":
    check_edits()
    check_errors()
    check_toml()
    check_copies()
    check_files()
    check_names()
    check_random()
    check_threads()
    print("editor: passed")
