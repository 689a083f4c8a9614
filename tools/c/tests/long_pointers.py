"""Tests of the Python module on pointers of up to 65,000 tokens: each call ends, and one that fails changes nothing."""
import jsonptr

TOKENS, COUNTS = ("0", "-", "a"), (1_000, 10_000, 32_200, 65_000)
DOCUMENTS = ("{}", "[]", "1", "[" * 127 + "1" + "]" * 127)


def fails(call, *arguments):
    """Returns whether a call raises an error of the library."""
    try:
        call(*arguments)
    except jsonptr.JsonPointerError:
        return True
    return False


def check(text, pointer):
    """Makes each call on a document. The pointer resolves to nothing in it."""
    document = jsonptr.Document(text)
    assert fails(document.resolve, pointer) and fails(jsonptr.resolve_in_text, text, pointer)
    assert not document.delete(pointer)
    for operation in (
        {"op": "add", "path": pointer, "value": 1},
        {"op": "replace", "path": pointer, "value": 1},
        {"op": "test", "path": pointer, "value": 1},
        {"op": "remove", "path": pointer},
        {"op": "move", "from": pointer, "path": "/x"},
        {"op": "copy", "from": pointer, "path": "/x"},
        {"op": "copy", "from": "", "path": pointer},
        {"op": "move", "from": "", "path": pointer},
    ):
        assert fails(document.apply, [operation]), operation["op"]
    assert document.text() == text
    if fails(document.assign, pointer, 1):
        assert document.text() == text
    else:
        document.text()


def main():
    for token in TOKENS:
        for count in COUNTS:
            pointer = f"/{token}" * count
            assert jsonptr.tokens(pointer) == [token] * count
            assert jsonptr.escape(pointer) == pointer.replace("/", "~1")
            for text in DOCUMENTS:
                check(text, pointer)


if __name__ == "__main__":
    main()
