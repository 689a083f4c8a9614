"""Writes a repository of its own into a folder: crates of this one, and crates that a tool makes, to run them unproved.

`crates.txt` here says which crates and libraries a crate uses.
"""
import os
import shutil

TOP = os.path.dirname(os.path.dirname(os.path.abspath(__file__)))
CRATES = f"{TOP}/crates"
TESTS = f"{TOP}/tests"


def read(path):
    """Returns the text of a file, or an empty text if there is none."""
    if not os.path.exists(path):
        return ""
    with open(path, encoding="utf-8") as file:
        return file.read()


def listed(path=f"{TOP}/crates.txt"):
    """Returns the lines of `crates.txt`, in its order: the words that each crate has after its colon, by its name."""
    found = {}
    for row in read(path).splitlines():
        name, colon, words = row.partition("#")[0].partition(":")
        if colon:
            found[name.split()[0]] = words.split()
    return found


def tests():
    """Returns the groups of tests: the crates that each uses, by its name."""
    return listed(f"{TESTS}/uses.txt")


def libraries():
    """Returns the crates that another crate can use, lowest first: no program and no static library."""
    static = [row.split()[0] for row in read(f"{TOP}/crates.txt").splitlines() if " staticlib" in row.partition(":")[0]]
    is_library = lambda name: os.path.exists(f"{CRATES}/{name}/src/lib.rt") and name not in static
    return [name for name in listed() if is_library(name)]


def below(names):
    """Returns these crates of the repository and those that they use, each once."""
    uses, found, left = listed(), [], list(names)
    while left:
        name = left.pop()
        if name in uses and name not in found:
            found.append(name)
            left += uses[name]
    return found


def lowest_first(names):
    """Returns these crates of the repository and those that they use, each after what it uses."""
    found = below(names)
    return sorted(found, key=lambda name: (len(below([name])), name))


def make(folder, crates, parts=("src", "specs")):
    """Writes a repository into a folder: these crates, each with the libraries that it uses, and parts of what these use.

    The crates are given as their libraries and their files (text by path), by name.
    """
    uses = listed()
    copied = below(word for words, _ in crates.values() for word in words)
    for name in copied:
        for part in parts:
            if os.path.isdir(f"{CRATES}/{name}/{part}"):
                shutil.copytree(f"{CRATES}/{name}/{part}", f"{folder}/crates/{name}/{part}")
    for name, (_, files) in crates.items():
        for path, text in files.items():
            write(f"{folder}/crates/{name}/{path}", text)
    rows = [(name, uses[name]) for name in copied] + [(name, words) for name, (words, _) in crates.items()]
    write(f"{folder}/crates.txt", "".join(f"{name}: {' '.join(words)}\n" for name, words in rows))


def write(path, text):
    """Writes a file, and the folders above it."""
    os.makedirs(os.path.dirname(path), exist_ok=True)
    with open(path, "w", encoding="utf-8") as file:
        file.write(text)
