#!/usr/bin/env python3
"""Tries the mutants of a crate, many in one check.

  tools/mutants.py NAME [MUTANT..]         tries crates/NAME/mutants/*.edit: the prover has to refuse each
  tools/mutants.py --must-fail NAME ..     tries crates/NAME/must-fail/*.edit in the same way
  tools/mutants.py --twins NAME ..         tries crates/NAME/mutants/twins/*.edit: the prover has to prove each
  tools/mutants.py --list [NAME..]         prints the mutants of these crates, or of all, and tries none

A mutant is a file as `rt ci` reads it in must-fail/: a line 'file: PATH', and then pairs of lines 'old: TEXT' and 'new:
TEXT', in which each old text is in that file exactly once. A twin is a mutant of the same form that means the same as
the code it replaces. The mutant X has the twin X, or several: X.1, X.2.

The tool copies the crate and the libraries below it, with what earlier checks kept in out/, to a temporary repository.
It applies the mutants there, at most one a function, and runs `rt check --only FN --only FN ..`. Mutants whose functions
call one another in a cycle, mutants of clauses, of specs/ and of text outside functions have a check of their own.

A mutant passes only if its function fails at a goal of its own: because a goal is not proved, or because an answer of its
proof does not have the type of its goal. It is not enough that the function calls one that is not proved, or that a proof
file names what the mutant removed. A mutant that cannot be applied or read does not pass. The exit status is 1 if one of
the mutants does not pass.
"""
import argparse
import os
import re
import resource
import shutil
import subprocess
import sys
import tempfile
import time

import repository

TOP = repository.TOP
PARTS = ("src", "specs", "proofs")
NAMES_ALONE = re.compile(r"has no field|is not in scope|has no `|is no name|was not admitted|can be named from here")
UNREADABLE = re.compile(r"is not in scope|has no field|is no name|operand is missing|expected the end|cannot continue")
AT = re.compile(r"(?:\./)?(\S+?\.(?:antt|rt)):\d+:\d+: error: (.*)")


class Unusable(Exception):
    """A mutant that cannot be applied to the crate."""


def read(path):
    """Returns the text of a file."""
    with open(path, encoding="utf-8") as file:
        return file.read()


def blanked(text):
    """Returns the text with comments and the contents of string literals blanked, at the same offsets."""
    pattern = r'//[^\n]*|"(?:[^"\\]|\\.)*"|\'(?:[^\'\\\n]|\\.)\''
    return re.sub(pattern, lambda it: re.sub(r"[^\n]", " ", it[0]), text)


class Function:
    """The function that a part of a source file belongs to."""

    def __init__(self, path, text, offset):
        code = blanked(text)
        found = list(re.finditer(r"(?m)^( *)(?:(?:pub(?:\([^)]*\))?|const|unsafe|extern) )*fn (\w+)", code[:offset]))
        self.module = "::".join(it for it in path[len("src/") : -len(".rt")].split("/") if it not in ("lib", "main"))
        self.name, self.cycle, self.in_body = "", "", False
        if not found:
            return
        head, start = found[-1], found[-1].start()
        indent = head[1]
        # A body begins with a brace at the start of a line, or at the end of the line of a function without clauses.
        end = re.compile(rf"(?m)^{indent}(?:\{{\s*)?\}}$").search(code, head.end())
        body = re.compile(rf"(?m)^{indent}\{{|^{indent}\S.* \{{$").search(code, start)
        if not end or offset > end.end():
            return
        self.name = head[2]
        self.in_body = bool(body) and offset > body.end()
        attributes = re.search(r"(?:[ \t]*(?:#\[[^\n]*|//[^\n]*)\n)*\Z", text[:start])[0]
        cycle = re.search(r"#\[cycle\((\w+)\)\]", attributes)
        self.cycle = "+" + cycle[1] if cycle else ""
        self.type = self.type_at(code[:start]) if indent else ""

    @staticmethod
    def type_at(code):
        """Returns the prover's name of the impl whose head is last in the code: the type, and the trait if there is one."""
        heads = re.findall(r"(?ms)^(?:unsafe )?impl\b(.*?)\{", code)
        if not heads:
            return ""
        parameters = re.match(r"\s*<((?:[^<>]|<(?:[^<>]|<[^<>]*>)*>)*)>", heads[-1])
        head = heads[-1][parameters.end() :] if parameters else heads[-1]
        generic = {it.strip().split(":")[0] for it in re.split(r",(?![^<]*>)", parameters[1])} if parameters else set()
        while re.search(r"<[^<>]*>", head):
            head = re.sub(r"<[^<>]*>", "", head)
        head = re.sub(r"\bwhere\b.*", "", head, flags=re.S).strip()
        kind, _, of = head.rpartition(" for ")
        of = re.sub(r"&\s*(?:'\w+\s+)?(?:mut\s+)?", "", of).split("::")[-1].strip()
        of = "Any" if of in generic else of[:1].upper() + of[1:]
        return of + kind.split("::")[-1].strip()

    def paths(self):
        """Returns the paths to try with --only, the whole name first. The last one stands for a module and more."""
        owner = [it for it in (self.module, self.type) if it]
        whole = "::".join([*owner, self.name])
        paths = [whole, "::".join(it for it in (self.type, self.name) if it), self.name, self.module]
        return [it for it in dict.fromkeys(paths) if it]


class Mutant:
    """An edit of a crate, and the functions that it changes."""

    def __init__(self, file, folder):
        self.label = os.path.splitext(os.path.basename(file))[0]
        self.file = file
        self.problem, self.functions, self.files, self.is_alone, self.asks = "", [], set(), False, 0
        try:
            self.pairs = pairs_of(read(file))
            texts = {}
            for path, old, new in self.pairs:
                text = texts[path] if path in texts else self.source(folder, path)
                texts[path] = replaced(text, path, old, new)
                self.find(path, text, old)
        except (Unusable, OSError, UnicodeDecodeError) as error:
            self.problem = str(error)

    @staticmethod
    def source(folder, path):
        """Returns the text of a file of the crate."""
        if not os.path.isfile(f"{folder}/{path}"):
            raise Unusable(f"there is no file {path}")
        return read(f"{folder}/{path}")

    def find(self, path, text, old):
        """Notes the file and the function that a pair changes."""
        self.files.add(path)
        function = Function(path, text, text.find(old) + len(old)) if path.startswith("src/") else None
        if not function or not function.name or not function.in_body:
            self.is_alone = True
        if not function or not function.name:
            self.asks = None
        elif function.paths() not in [it.paths() for it in self.functions]:
            self.functions.append(function)

    def apply(self, folder):
        """Applies the mutant to a copy of the crate, or changes nothing there."""
        texts = {}
        for path, old, new in self.pairs:
            texts[path] = replaced(texts[path] if path in texts else read(f"{folder}/{path}"), path, old, new)
        for path, text in texts.items():
            with open(f"{folder}/{path}", "w", encoding="utf-8") as file:
                file.write(text)

    def keys(self):
        """Returns what no other mutant of one check may share: the functions, or the cycles of calls that they are in."""
        return {it.cycle or it.paths()[0] for it in self.functions}

    def only(self):
        """Returns the paths to check, or none for the whole crate."""
        if self.asks is None:
            return []
        return [it.paths()[min(self.asks, len(it.paths()) - 1)] for it in self.functions]

    def ask_wider(self):
        """Asks for a shorter path, a module or the whole crate, where the prover has no function of the last name."""
        self.asks = self.asks + 1 if self.asks + 1 < len(self.functions[0].paths()) else None
        self.is_alone = True


def pairs_of(text):
    """Returns the file, the old and the new text of each pair of an edit."""
    path, old, pairs = "", "", []
    for line in text.split("\n"):
        if line.startswith("file: "):
            path = line[len("file: ") :].strip()
            if os.path.normpath(path) != path or path.split("/")[0] not in PARTS:
                raise Unusable("a 'file:' line names no file below src/, specs/ or proofs/")
        elif line.startswith("old: "):
            old = line[len("old: ") :]
        elif line.startswith("new:"):
            if not path or not old:
                raise Unusable("a 'new:' line is before any 'file:' or 'old:' line")
            pairs.append((path, old, re.sub(r"\A ", "", line[len("new:") :])))
            old = ""
    if not pairs:
        raise Unusable("it has no 'old:' and 'new:' pair")
    return pairs


def replaced(text, path, old, new):
    """Returns a text with its only `old` replaced."""
    count = text.count(old)
    if count != 1:
        raise Unusable(f"an 'old:' text is in {path} {count} times, and not once")
    return text.replace(old, new)


class Check:
    """What `rt check` prints, and how long it takes."""

    def __init__(self, folder, only, jobs):
        words = ["rt", "check", "--jobs", str(jobs)]
        for path in only:
            words += ["--only", path]
        before, start = processor_seconds(), time.monotonic()
        run = subprocess.run(words, cwd=folder, stdin=subprocess.DEVNULL, stdout=subprocess.PIPE, stderr=subprocess.STDOUT, errors="replace")
        self.seconds, self.clock = processor_seconds() - before, time.monotonic() - start
        self.status, self.output = run.returncode, run.stdout
        self.errors = errors_in(self.output.splitlines())
        self.functions = dict(re.findall(r"(?m)^fn (\S+): (.*)", self.output))
        self.is_whole = not only
        if "the kept work of" in self.output and "cannot be used" in self.output:
            sys.exit(f"{os.path.basename(folder)}: the kept work of a library cannot be used: run rt check in its folder")
        self.last = re.search(r"(?m)^(?:only=\d+ proved=\d+|logic=(?:not-)?proved.*)$", self.output)

    def unknown(self):
        """Returns the names in the error of a path that fits no function, or several, if that is why nothing was checked."""
        lines = [] if self.last else re.findall(r"(?m)^rattle: error: .*", self.output)
        return {name for line in lines for name in re.findall(r"`([^`]*)`", line)}

    def first_lines(self):
        """Returns the lines that say why nothing was checked."""
        lines = [it for it in self.output.splitlines() if re.match(r"error|rattle|rt: (?!chose)|\S+: error", it)]
        return " / ".join(lines[:3] or self.output.splitlines()[-3:])[:300]

    def lines_of(self, function, name):
        """Returns the prover's verdicts on a function, by its whole name."""
        ends = ["::" + it for it in function.paths()[:2]]
        found = {it: line for it, line in self.functions.items() if it.startswith(f"{name}::") and it.endswith(tuple(ends))}
        if not found:
            start, end = f"{name}::{function.module}::" if function.module else f"{name}::", f"::{function.name}"
            found = {it: line for it, line in self.functions.items() if it.startswith(start) and it.endswith(end)}
        return found


def errors_in(lines):
    """Returns the file and the message of each error. A message may go on in the next line, which is then indented."""
    found = []
    for line, following in zip(lines, [*lines[1:], ""]):
        at = AT.match(line)
        if at:
            found.append((at[1], f"{at[2]} {following.strip()}" if following.startswith("  ") else at[2]))
    return found


def processor_seconds():
    """Returns the processor time of all commands that this program ran."""
    used = resource.getrusage(resource.RUSAGE_CHILDREN)
    return used.ru_utime + used.ru_stime


def unreadable(check, mutant):
    """Returns the error of a text that the prover could not read, if there is one."""
    for path, message in check.errors:
        named = re.match(r"`[^`]*`: ", message)
        if path in mutant.files or path.startswith(("src/", "specs/")):
            if not named or UNREADABLE.search(re.sub(r"`[^`]*`", "", message)):
                return f"{path}: {message}"
    return ""


def goals_of(check, function, name):
    """Returns the goals that a function fails at, and whether a proof file only names what is missing."""
    goals, names = [], []
    for whole, line in check.lines_of(function, name).items():
        folder = function.cycle or whole[len(name) + 2 :]
        owner = function.module.replace("::", "/") if function.cycle else ""
        start = "proofs/" + "/".join(it for it in (owner, folder.replace("::", "/")) if it) + "/"
        for path, message in check.errors:
            if path.startswith(start):
                (names if NAMES_ALONE.search(message) else goals).append(message)
        if not goals and not names and line.startswith(("not proved", "no proof")) and "did not prove" in line:
            goals.append(line)
    return goals, names


def judge(check, mutant, name):
    """Returns whether the prover refused a mutant at a goal of its own, and what it says."""
    said = unreadable(check, mutant)
    if said:
        return False, f"cannot be read: {said}"
    if not check.last:
        return False, f"nothing was checked: {check.first_lines()}"
    if not mutant.functions or mutant.asks is None:
        goals = [message for _path, message in check.errors if not NAMES_ALONE.search(message)]
        names = len(check.errors) - len(goals)
        goals += [line for line in check.functions.values() if not check.errors and "did not prove" in line]
    else:
        found = [goals_of(check, it, name) for it in mutant.functions]
        goals, names = [it for own, _ in found for it in own], [it for _, own in found for it in own]
        if not any(check.lines_of(it, name) for it in mutant.functions):
            return False, "the prover says nothing of its function"
    if goals:
        return True, goals[0]
    lines = [line for it in mutant.functions for line in check.lines_of(it, name).values()]
    if names:
        return False, "a proof file names what it removes, and nothing else fails"
    return False, "is proved" if all(it.startswith("proved") for it in lines) else f"no goal of its own: {'; '.join(lines)[:200]}"


def judge_twin(check, twin, name):
    """Returns whether the prover proved a twin, and what it says."""
    lines = [line for it in twin.functions for line in check.lines_of(it, name).values()]
    if check.last and (check.status == 0 or lines and all(it.startswith("proved") for it in lines)):
        return True, ""
    return False, judge(check, twin, name)[1]


class Room:
    """A temporary repository with a copy of a crate and of the libraries below it."""

    def __init__(self, name, jobs):
        self.name, self.jobs = name, jobs
        self.folder = tempfile.mkdtemp(prefix="mutants-")
        names = repository.below([name])
        with open(f"{self.folder}/crates.txt", "w", encoding="utf-8") as file:
            file.writelines(line + "\n" for line in read(f"{TOP}/crates.txt").splitlines() if re.split(r"[ :]", line)[0] in names)
        shutil.copyfile(f"{TOP}/HANDLES", f"{self.folder}/HANDLES")
        for it in names:
            self.copy(it)
        self.crate = f"{self.folder}/crates/{name}"
        missing = [it for it in names[1:] if not os.path.isfile(f"{self.folder}/crates/{it}/out/rlib/stamp")]
        if missing:
            print(f"note: no proof of {', '.join(missing)} is kept, so this run proves it first: run rt check in crates/{name} to keep it", flush=True)

    def copy(self, name):
        """Copies a crate: of the mutated one the files and what its checks kept, of a library the files and the built library."""
        here, there = f"{TOP}/crates/{name}", f"{self.folder}/crates/{name}"
        kept = ["out/incremental"] if name == self.name else ["out/rlib"]
        for part in [*PARTS, *kept]:
            if os.path.isdir(f"{here}/{part}"):
                shutil.copytree(f"{here}/{part}", f"{there}/{part}")

    def restore(self):
        """Copies the crate's own files again, without any mutant."""
        for part in PARTS:
            shutil.rmtree(f"{self.crate}/{part}", ignore_errors=True)
            if os.path.isdir(f"{TOP}/crates/{self.name}/{part}"):
                shutil.copytree(f"{TOP}/crates/{self.name}/{part}", f"{self.crate}/{part}")

    def check(self, mutants):
        """Applies mutants and checks what they change. Returns the check and the mutants that could be applied together."""
        self.restore()
        applied = []
        for it in mutants:
            try:
                it.apply(self.crate)
                applied.append(it)
            except Unusable:
                if not applied:
                    raise
        return Check(self.crate, [path for it in applied for path in it.only()], self.jobs), applied

    def close(self):
        """Removes the repository."""
        shutil.rmtree(self.folder, ignore_errors=True)


def next_round(pending):
    """Returns the mutants to try in one check: one that has to be alone, or as many as change different functions."""
    if pending[0].is_alone:
        return pending[:1]
    found, keys = [], set()
    for it in pending:
        if not it.is_alone and not keys & it.keys():
            found.append(it)
            keys |= it.keys()
    return found


def try_all(name, mutants, jobs, are_twins):
    """Tries the mutants of a crate, prints a line for each, and returns the number of those that ended as they have to."""
    word, good, seconds, clock = ("proved" if are_twins else "refused"), 0, 0.0, 0.0

    def say(mutant, well, said):
        print(f"{name}/{mutant.label}: {word if well else 'NOT ' + word.upper()}{': ' * bool(said)}{' '.join(said.split())[:160]}", flush=True)
        return int(well)

    for it in mutants:
        if it.problem:
            say(it, False, f"cannot be applied: {it.problem}")
    pending = [it for it in mutants if not it.problem]
    room = Room(name, jobs) if pending else None
    try:
        while pending:
            check, tried = room.check(next_round(pending))
            seconds, clock = seconds + check.seconds, clock + check.clock
            unknown = [it for it in tried if check.unknown() & set(it.only())]
            for it in unknown:
                it.ask_wider()
            if unknown:
                continue
            for it in tried:
                well, said = (judge_twin if are_twins else judge)(check, it, name)
                if well or len(tried) == 1:
                    good += say(it, well, said)
                    pending.remove(it)
                else:
                    # Another mutant of this check may be the reason, so this one is tried again alone.
                    it.is_alone = True
    finally:
        if room:
            room.close()
    print(f"{name}: {seconds:.0f} processor seconds, {clock:.0f} by the clock", flush=True)
    return good


def edits_in(folder):
    """Returns the paths of the mutants right in a folder."""
    names = sorted(os.listdir(folder)) if os.path.isdir(folder) else []
    return [f"{folder}/{it}" for it in names if it.endswith(".edit")]


def print_list(names):
    """Prints the mutants of these crates: their folder, functions, and whether they have a twin."""
    totals = {"must-fail": 0, "mutants": 0, "mutants/twins": 0}
    for name in names:
        folder = f"{TOP}/crates/{name}"
        twins = {os.path.basename(it).split(".")[0] for it in edits_in(f"{folder}/mutants/twins")}
        for part in totals:
            for file in edits_in(f"{folder}/{part}"):
                mutant = Mutant(file, folder)
                where = mutant.problem or ", ".join(it.paths()[0] for it in mutant.functions) or ", ".join(sorted(mutant.files))
                mark = "  (twin)" if part != "mutants/twins" and mutant.label in twins else ""
                print(f"{name}/{part}/{mutant.label}: {where}{mark}")
                totals[part] += 1
    print(", ".join(f"{count} in {part}/" for part, count in totals.items()))


def main():
    parser = argparse.ArgumentParser(description=__doc__.split("\n")[0])
    parser.add_argument("name", nargs="?", help="the crate")
    parser.add_argument("mutant", nargs="*", help="the mutants or twins to try, without `.edit`; none: all")
    parser.add_argument("--must-fail", action="store_true", help="try the edits of must-fail/")
    parser.add_argument("--twins", action="store_true", help="try the twins, which have to be proved")
    parser.add_argument("--jobs", type=int, default=1, help="jobs of each check (1)")
    parser.add_argument("--list", action="store_true", help="print the mutants, and try none")
    words = parser.parse_args()
    known = repository.listed()
    for name in [words.name] if words.name else []:
        if name not in known:
            parser.error(f"crates.txt lists no crate {name}")
    if words.list:
        print_list([words.name, *words.mutant] if words.name else [it for it in known if os.path.isdir(f"{TOP}/crates/{it}")])
        return 0
    if not words.name:
        parser.error("name a crate")
    folder = f"{TOP}/crates/{words.name}"
    parts = (["mutants/twins"] if words.twins else []) + (["must-fail"] if words.must_fail else [])
    files = [file for part in parts or ["mutants"] for file in edits_in(f"{folder}/{part}")]
    labels = [os.path.splitext(os.path.basename(it))[0] for it in files]
    for it in words.mutant:
        if it not in labels:
            parser.error(f"{words.name} has no such edit: {it}")
    mutants = [Mutant(file, folder) for file, label in zip(files, labels) if not words.mutant or label in words.mutant]
    if words.twins and words.must_fail:
        parser.error("--twins and --must-fail exclude each other")
    good = try_all(words.name, mutants, words.jobs, words.twins) if mutants else 0
    print(f"{good} {'proved' if words.twins else 'refused'}, {len(mutants) - good} not")
    return 1 if good < len(mutants) else 0


if __name__ == "__main__":
    sys.exit(main())
