#!/usr/bin/env python3
"""Compares random edits of texts from C and from Python with those of the library, byte for byte.

    tools/c/random_edits.py [--count N] [--seed N] [--batch N] FOLDER PROGRAM

FOLDER is one that tools/c/build made, and PROGRAM the built program of crates/jsonptr_tool_calls, which calls the library
without handles. Of N edits half are of JSON, by patches too, and a quarter each of JSON with comments and of TOML. The program runs
once for each batch of them. The compiler is $CC, or cc.
"""
import argparse
import json
import os
import random
import subprocess
import sys
import tempfile
import tomllib

HERE = os.path.dirname(os.path.abspath(__file__))
sys.path.insert(0, os.path.dirname(HERE))
from edits.texts import Texts, pointer  # noqa: E402
from edits.toml_texts import TomlTexts  # noqa: E402
from harness import fields_of, line_of  # noqa: E402

COMMANDS = {"json": "change", "jsonc": "comments", "toml": "toml"}
FORMATS = {"json": 0, "jsonc": 1, "toml": 2}
CALLS = {"assign": 0, "delete": 1, "apply": 2}
COMMENTS = ["/* one */", "// two\n", " /* , */ ", "\n// \"x\"\n"]
TOML_VALUES = ["42", "-7", "true", '"new text"', "3.5", "[1, 2]", "[]", '["a"]', "1e5", '"\\u00e9"']


def with_comments(text, choose):
    """Returns a JSON text with a comment at its start, at its end, or at both."""
    start, end = (choose.choice(["", *COMMENTS]) for _ in range(2))
    return start + text + end


def in_order(argument):
    """Returns a value or a patch with its keys in order, as the program prints values."""
    return json.dumps(json.loads(argument), sort_keys=True, ensure_ascii=False) if argument else ""


def json_case(texts, choose, format):
    """Returns a random edit of a JSON text: its format, call, text, pointer and argument."""
    call, text, tokens, argument = texts.case()
    # The program has no patches of texts with comments, and reads past no byte order mark.
    while (format == "jsonc" and call == "apply") or text.startswith("\ufeff"):
        call, text, tokens, argument = texts.case()
    old = with_comments(text, choose) if format == "jsonc" else text
    return format, call, old, "" if call == "apply" else pointer(tokens), in_order(argument)


def toml_case(texts, choose):
    """Returns a random edit of a TOML text."""
    text = texts.text().removeprefix("\ufeff")
    tokens, here = [], {}
    try:
        here = tomllib.loads(text)
    except tomllib.TOMLDecodeError:
        pass
    while isinstance(here, (dict, list)) and here and choose.random() < 0.8:
        at = choose.choice(list(here)) if isinstance(here, dict) else choose.randrange(len(here))
        tokens.append(str(at))
        here = here[at]
    if choose.random() < 0.4:
        tokens.append(choose.choice(["-", "new", "a b", "0"]))
    call = choose.choice(["assign", "assign", "delete"])
    return "toml", call, text, pointer(tokens), choose.choice(TOML_VALUES) if call == "assign" else "1"


def cases(count, seed):
    """Yields random edits."""
    choose, texts, tomls = random.Random(seed), Texts(seed), TomlTexts(seed)
    for number in range(count):
        if number % 4 == 0:
            yield toml_case(tomls, choose)
        else:
            yield json_case(texts, choose, "jsonc" if number % 4 == 1 else "json")


def of_library(program, given):
    """Returns the kind of each result of the library, and its text."""
    lines = "".join(line_of(COMMANDS[it[0]], *it[1:]) for it in given).encode()
    done = subprocess.run([program], input=lines, stdout=subprocess.PIPE, check=True)
    rows = [fields_of(it) for it in done.stdout.decode().split("\n")[:-1]]
    return [(it.get("kind", ""), it.get("detail", "")) for it in rows]


def of_c(path, given):
    """Returns the status of each call from C, whether it printed anew or found nothing, and the text."""
    asked = b""
    for format, call, *rest in given:
        texts = [it.encode() for it in rest]
        asked += f"{FORMATS[format]} {CALLS[call]} {' '.join(str(len(it)) for it in texts)}\n".encode() + b"".join(texts)
    said = subprocess.run([path], input=asked, stdout=subprocess.PIPE, check=True).stdout
    results, at = [], 0
    for _ in given:
        end = said.index(b"\n", at)
        status, how, length = map(int, said[at:end].split())
        results.append((status, how, said[end + 1:end + 1 + length].decode()))
        at = end + 1 + length
    return results


def of_python(jsonptr, case):
    """Returns the same of a call from Python."""
    format, call, text, at, argument = case
    try:
        editor = jsonptr.Editor(text, format, reformat=True)
    except jsonptr.JsonptrError as error:
        return error.status, 0, ""
    try:
        if call == "delete":
            return 0, 0 if editor.delete(at) else 2, editor.text
        change = editor.assign(at, jsonptr.Raw(argument)) if call == "assign" else editor.apply(argument)
        return 0, int(change.reformatted), editor.text
    except jsonptr.JsonptrError as error:
        return error.status, 0, editor.text


def wanted(case, library):
    """Returns whether the call succeeds, whether it prints anew or finds nothing, and the text after it, or None if any is right."""
    kind, detail = library
    if kind in ("in place", "rewritten"):
        return True, int(kind == "rewritten"), detail
    if kind == "not in place":
        return True, 1, None
    return kind == "none", 2 if kind == "none" else 0, case[2]


def judge(case, library, c, python):
    """Returns what is wrong with the results of a case, or None."""
    succeeds, how, text = wanted(case, library)
    text = c[2] if text is None else text
    if (c[0] == 0) != succeeds or c[0] != python[0]:
        return f"statuses {c[0]} and {python[0]}"
    if succeeds and (c[1:] != (how, text) or python[2] != text or (case[1] != "delete" and python[1] != how)):
        return "another text"
    if not succeeds and c[2] not in ("", text):
        return "the text changed"
    return None


def main():
    parser = argparse.ArgumentParser(description=__doc__, formatter_class=argparse.RawDescriptionHelpFormatter)
    parser.add_argument("--count", type=int, default=2000)
    parser.add_argument("--seed", type=int, default=1)
    parser.add_argument("--batch", type=int, default=2000)
    parser.add_argument("folder")
    parser.add_argument("program")
    words = parser.parse_args()
    folder = os.path.abspath(words.folder)
    os.environ["JSONPTR_LIBRARY"] = f"{folder}/lib/libjsonptr.so"
    sys.path.insert(0, f"{folder}/python")
    import jsonptr
    errors, kinds = 0, {}
    with tempfile.TemporaryDirectory() as work:
        path = f"{work}/edits"
        subprocess.run([os.environ.get("CC", "cc"), "-std=c11", "-O1", f"-I{folder}/include", f"{HERE}/tests/edits.c",
                        f"{folder}/lib/libjsonptr.a", "-o", path], check=True)
        for start in range(0, words.count, words.batch):
            given = list(cases(min(words.batch, words.count - start), words.seed * 1000003 + start))
            for case, library, c in zip(given, of_library(words.program, given), of_c(path, given)):
                kinds[library[0]] = kinds.get(library[0], 0) + 1
                fault = judge(case, library, c, of_python(jsonptr, case))
                if fault:
                    errors += 1
                    print(f"{fault}: {json.dumps(case)}: {library} and {c}")
    print(f"random edits: {words.count}, {errors} differ; {', '.join(f'{it} {n}' for it, n in sorted(kinds.items()))}")
    sys.exit(errors != 0)


if __name__ == "__main__":
    main()
