"""Merges JSON files with a real `git`, whose merge driver is `jptr merge --git` and whose textconv is `jptr paths`.

Each case makes a repository in a temporary folder: a base, a branch, a change on each side, and `git merge`.
"""
import os
import subprocess
import sys
import tempfile
from typing import NamedTuple, Optional

from harness import CheckFailed, program

PROGRAM = program("jptr")
SECONDS = 60
SETTINGS = {"merge.jptr.driver": f"'{PROGRAM}' merge --git %O %A %B", "diff.jptr.textconv": f"'{PROGRAM}' paths",
            "user.name": "a", "user.email": "a@b.example", "commit.gpgsign": "false", "init.defaultBranch": "main"}
BASE = '{\n  "name": "app",\n  "version": "1.0.0",\n  "dependencies": {\n    "a": "1.0"\n  },\n  "private": true\n}\n'
COMMENTED = '{\n  // of the site\n  "size": 12, // in points\n  "theme": "dark"\n}\n'


class Case(NamedTuple):
    """What a merge is of, and what comes of it. Without a base, both branches add the file."""

    name: str
    file: str
    base: Optional[str]
    ours: str
    theirs: str
    merged: str
    said: str = ""
    status: int = 0


def changed(text, *pairs):
    """Returns the text with each first text of a pair replaced by the second."""
    for old, new in pairs:
        if old not in text:
            raise CheckFailed(f"the case has no {old!r}")
        text = text.replace(old, new, 1)
    return text


A_LINE = '    "a": "1.0"\n'


def cases():
    """The cases. Git alone has a conflict in the first two."""
    yield Case("two members that are added at one line", "package.json", BASE,
               changed(BASE, (A_LINE, '    "a": "1.0",\n    "b": "2.0"\n')), changed(BASE, (A_LINE, '    "a": "1.0",\n    "c": "3.10"\n')),
               changed(BASE, (A_LINE, '    "a": "1.0",\n    "b": "2.0",\n    "c": "3.10"\n')))
    yield Case("a version beside another change of its neighbours", "package.json", BASE, changed(BASE, ("1.0.0", "1.1.0")),
               changed(BASE, ('"app"', '"App"'), ('  "private": true', '  "private": false')),
               changed(BASE, ("1.0.0", "1.1.0"), ('"app"', '"App"'), ('  "private": true', '  "private": false')))
    yield Case("a layout on one side, a value on the other", "package.json", BASE, changed(BASE, ("\n    \"a\": \"1.0\"\n  ", '"a": "1.0"')),
               changed(BASE, ('"a": "1.0"', '"a": "1.50"')),
               changed(BASE, ("\n    \"a\": \"1.0\"\n  ", '"a": "1.50"')))
    yield Case("comments", "settings.jsonc", COMMENTED, changed(COMMENTED, ("12,", "14.0,")), changed(COMMENTED, ('"dark"', '"light"')),
               changed(COMMENTED, ("12,", "14.0,"), ('"dark"', '"light"')))
    yield Case("a conflict", "package.json", BASE, changed(BASE, ("1.0.0", "1.1.0")), changed(BASE, ("1.0.0", "2.0.0")),
               changed(BASE, ("1.0.0", "1.1.0")), status=1,
               said='/version\n  base    "1.0.0"\n  ours    "1.1.0"\n  theirs  "2.0.0"\n')
    yield Case("a file that both branches add", "package.json", None, BASE, changed(BASE, ('  "private": true', '  "license": "MIT"')),
               changed(BASE, ('  "private": true\n', '  "private": true,\n  "license": "MIT"\n')))
    yield Case("a conflict in a file that both branches add", "package.json", None, BASE, changed(BASE, ("1.0.0", "2.0.0")), BASE, status=1,
               said='/version\n  base    (none)\n  ours    "1.0.0"\n  theirs  "2.0.0"\n')
    yield Case("a text that is not JSON", "package.json", BASE, changed(BASE, ("1.0.0", "1.1.0")), changed(BASE, ('"app",', '"app"')),
               changed(BASE, ("1.0.0", "1.1.0")), status=1, said="text is not JSON")


def git(folder, *words, status=0, settings=SETTINGS):
    """Runs git in a folder, and returns what it printed."""
    given = [word for name, value in settings.items() for word in ("-c", f"{name}={value}")]
    done = subprocess.run(["git", *given, *words], cwd=folder, capture_output=True, text=True, timeout=SECONDS,
                          env={**os.environ, "GIT_CONFIG_NOSYSTEM": "1", "HOME": folder})
    if done.returncode != status:
        raise CheckFailed(f"git {' '.join(words)}: status {done.returncode} instead of {status}\n{done.stdout}{done.stderr}")
    return done.stdout + done.stderr


def put(folder, case, text):
    """Writes the text of the case's file, if there is one, and commits it."""
    if text is not None:
        with open(os.path.join(folder, case.file), "w", encoding="utf-8") as file:
            file.write(text)
    git(folder, "add", ".")
    git(folder, "commit", "--quiet", "--message", case.name)


def repository(folder, case, attributes):
    """Makes a repository with the two branches of the case."""
    git(folder, "init", "--quiet")
    with open(os.path.join(folder, ".gitattributes"), "w", encoding="ascii") as file:
        file.write(attributes)
    put(folder, case, case.base)
    git(folder, "checkout", "--quiet", "-b", "theirs")
    put(folder, case, case.theirs)
    git(folder, "checkout", "--quiet", "main")
    put(folder, case, case.ours)


def check(case):
    """Merges the branches of the case with the driver, and looks at the file and at what was printed."""
    with tempfile.TemporaryDirectory() as folder:
        repository(folder, case, "*.json merge=jptr diff=jptr\n*.jsonc merge=jptr\n")
        said = git(folder, "merge", "--no-edit", "theirs", status=case.status)
        with open(os.path.join(folder, case.file), encoding="utf-8") as file:
            text = file.read()
        if text != case.merged:
            raise CheckFailed(f"{case.name}: the file has\n{text}instead of\n{case.merged}")
        if case.said not in said:
            raise CheckFailed(f"{case.name}: git printed\n{said}without\n{case.said}")
        unmerged = git(folder, "diff", "--name-only", "--diff-filter=U").split()
        if unmerged != [case.file] * case.status:
            raise CheckFailed(f"{case.name}: git has {unmerged} as unmerged")
        left = sorted(name for name in os.listdir(folder) if name not in (".git", ".gitattributes", case.file))
        if left:
            raise CheckFailed(f"{case.name}: {left} is left")


def check_textconv():
    """Git shows a change as a line of `jptr paths`."""
    with tempfile.TemporaryDirectory() as folder:
        case = next(cases())
        repository(folder, case, "*.json diff=jptr\n")
        shown = git(folder, "diff", "HEAD~1", "HEAD")
        if '+/dependencies/b\t"2.0"\n' not in shown:
            raise CheckFailed(f"git diff printed\n{shown}")


def check_without_driver():
    """The cases are worth a driver: git alone leaves conflicts in the first two."""
    for case in list(cases())[:2]:
        with tempfile.TemporaryDirectory() as folder:
            repository(folder, case, "")
            git(folder, "merge", "--no-edit", "theirs", status=1)


def main():
    """Runs the checks."""
    for case in cases():
        check(case)
    check_textconv()
    check_without_driver()
    print(f"git_merges: {len(list(cases()))} merges by git with `jptr merge --git`, and `jptr paths` as its textconv")


if __name__ == "__main__":
    try:
        main()
    except CheckFailed as error:
        sys.exit(f"git_merges: {error}")
