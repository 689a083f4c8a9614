#!/usr/bin/env python3
"""Times this library and `jptr` beside the strongest other ones, and prints a table for each job in Markdown.

    tools/bench/rivals.py [--only JOB] [--text WORD] [--rounds N] [--save] [--work FOLDER] [--crates FOLDER] [--c FOLDER] [--cjson FOLDER]
                          [--jptr PROGRAM] [--timed PROGRAM] [--original PROGRAM]
    tools/bench/rivals.py --check    compares the results alone, on small texts and the examples of the RFCs, and times nothing

JOB is one of `find`, `change`, `patch`, `merge`, `document` and `read`, which libraries do on a text in memory, and `get`, `set`,
`toml` and `lines`, which are whole runs of programs on a file. A cell has the processor time of a call or a run, the least of all
rounds, in which all take turns; the peak memory of a process that does it once; and the time of ours divided by that time.
Before a row is timed, each result is compared with ours.

Ours are `crates/jptr/out/jptr` and `crates/jsonptr_c/out/libjsonptr_c.a`, as `rt ci` leaves them; with --crates, those in another
folder of crates, and with --c FOLDER the library that `tools/c/build FOLDER` made. The jobs `document` and `merge` also time what
`tools/bench/program.py` built, or --timed, and `document` tools/bench/original, or --original. What is not there has empty cells.

The rivals are packages of Debian, and those that are not installed are left out:

    apt-get install g++ libsimdjson-dev rapidjson-dev nlohmann-json3-dev librust-serde-json-dev librust-toml-edit-dev \\
        golang-go golang-1.19-src golang-github-evanphx-json-patch-dev python3-jsonpatch jq gojq iso-codes time

Those in Rust also need cargo. cJSON needs --cjson, with its sources, of which Debian's library leaves out cJSON_Utils:
`apt-get source cjson`. --work has a folder for what is compiled, which is kept. --scale makes the texts smaller, for a trial.
--save puts the rows into tools/bench/rivals.tsv, from which rival_pages.py makes the tables and the chart of docs/SPEED.md.
"""
import argparse
import csv
import json
import math
import os
import subprocess
import sys
import tempfile
from typing import NamedTuple

from cases import documents
from cli import make_lines, memory_of
from in_text import SHAPES, jq_path, make, run
from program import BUILT
from rival_answers import EXAMPLES, Differs, changes_one_piece, check_comparing, check_examples, compare, compare_toml, output_of, same
from rival_texts import files, in_process, merge_members, operations, size_of, toml_text
from rival_ways import HERE, TOP, Way, Ways, machine
from speed import least_of, times_of

RESULTS = f"{HERE}/rivals.tsv"
FIELDS = ["job", "row", "way", "nanoseconds", "bytes"]


class Result(NamedTuple):
    """The time of a way in a row of a job, and its memory, if it was measured."""

    job: str
    row: str
    way: str
    nanoseconds: float
    bytes: int


def read_results():
    """Returns the results that are saved, and the machine that they are of."""
    if not os.path.exists(RESULTS):
        return "", []
    with open(RESULTS, encoding="utf-8", newline="") as file:
        machine_line = file.readline().removeprefix("# ").strip()
        rows = list(csv.reader(file, delimiter="\t", quoting=csv.QUOTE_NONE))[1:]
    return machine_line, [Result(job, row, way, float(time), int(memory)) for job, row, way, time, memory in rows]


def save(results):
    """Saves results, instead of those of the same jobs."""
    jobs = {it.job for it in results}
    kept = [it for it in read_results()[1] if it.job not in jobs]
    order = list(JOBS)
    with open(RESULTS, "w", encoding="utf-8", newline="") as file:
        file.write(f"# {machine()}\n" + "\t".join(FIELDS) + "\n")
        for it in sorted([*kept, *results], key=lambda it: order.index(it.job)):
            file.write(f"{it.job}\t{it.row}\t{it.way}\t{it.nanoseconds:.1f}\t{it.bytes}\n")


# ---- Tables ----


def shown_time(nanoseconds):
    """Returns a time with its unit."""
    for unit, size in (("s", 1e9), ("ms", 1e6), ("µs", 1e3)):
        if nanoseconds >= size:
            return f"{nanoseconds / size:.3g} {unit}"
    return f"{nanoseconds:.3g} ns"


def cell(result, ours):
    """Returns the cell of a result: its time, its memory, and the part of its time that ours takes."""
    if result is None:
        return ""
    memory = f", {result.bytes / 2**20:.1f} MiB" if result.bytes else ""
    ratio = f", {ours.nanoseconds / result.nanoseconds:.2f}" if ours and result is not ours else ""
    return shown_time(result.nanoseconds) + memory + ratio


def header(names):
    """Returns the first two lines of a table."""
    return "| " + " | ".join(names) + " |\n" + "|---" * len(names) + "|"


def table_row(name, results):
    """Returns a row: of ours first, and of each rival."""
    return "| " + " | ".join([name, *(cell(it, results[0]) for it in results)]) + " |"


class Table:
    """The table of a job, whose rows are printed as they are measured. With --check there is none, and the ways are named."""

    def __init__(self, job, first, ways, words):
        self.job, self.names, self.results = job, [way.name for way in ways], []
        if words.check:
            print(f"{job}: " + ", ".join(f"{way.name}{'' if way.command else ' (not built)'}" for way in ways), flush=True)
        else:
            print(f"\n{JOBS[job].__doc__} `tools/bench/rivals.py --only {job}`\n\n{header([first, *self.names])}", flush=True)

    def add(self, row, measured):
        """Prints a row of times and memories, or `None` for what was not measured."""
        results = [it and Result(self.job, row, name, *it) for name, it in zip(self.names, measured)]
        print(table_row(row, results), flush=True)
        self.results += [it for it in results if it]


# ---- Measuring ----


def times_in_turn(commands, rounds, time_of):
    """Returns the least nanoseconds of each command, which take turns. One that is `None` has none."""
    least = [math.inf] * len(commands)
    for _ in range(rounds):
        for at, command in enumerate(commands):
            if command:
                least[at] = min(least[at], time_of(command))
    return least


def measured(commands, times, path):
    """Returns the time of each command and its memory on a file, or `None`."""
    return [command and (time, memory_of(command, path)) for time, command in zip(times, commands)]


def results_of(ways, commands, path):
    """Returns the ways that are there, and what each prints on a file."""
    there = [(way, output_of(command, path)) for way, command in zip(ways, commands) if command]
    return [way for way, _ in there], [result for _, result in there]


def compare_all(ways, commands, path, by=compare):
    """Raises `Differs` if a way that is there has another result than the first of them."""
    by(*results_of(ways, commands, path))


def libraries(table, ways, row, words, job):
    """Adds the row of a call of libraries: `job` has the name, the file and the arguments."""
    name, path, *arguments = job
    once = [way.command and [*way.command, name, path, "0", *arguments] for way in ways]
    compare_all(ways, once, path)
    if not words.check:
        turns = str(max(3, min(2000, 20_000_000 // os.path.getsize(path))))
        many = [way.command and [*way.command, name, path, turns, *arguments] for way in ways]
        table.add(row, measured(once, times_in_turn(many, words.rounds, lambda it: float(output_of(it, path))), path))


def programs(table, row, words, commands, path):
    """Adds the row of whole runs of programs on a file."""
    if not words.check:
        table.add(row, measured(commands, times_in_turn(commands, words.rounds, lambda it: 1e9 * run(it, path)[0]), path))


# ---- The jobs. Each returns its results. ----


def find(all_ways, words):
    """Finds a value in a text, by libraries."""
    ways = all_ways.of("ours", "dom", "dom_narrow", "on_demand", "rapidjson", "rapidjson_unchecked", "serde_json", "nlohmann")
    table = Table("find", "Text", ways, words)
    check_examples([way for way in ways if way.command], "find")
    for text, path in files(words):
        libraries(table, ways, f"{text.name}, {size_of(path)}", words, ("find", path, text.pointer))
    return table.results


def get(all_ways, words):
    """Finds a value in a text, by programs: a whole run."""
    ways = all_ways.of("jptr", "jq", "gojq")
    table = Table("get", "Text", ways, words)
    for text, path in files(words):
        filters = [["get", text.pointer]] + [[jq_path(text.pointer)]] * (len(ways) - 1)
        commands = [way.command and [*way.command, *it] for way, it in zip(ways, filters)]
        compare_all(ways, commands, path)
        programs(table, f"{text.name}, {size_of(path)}", words, commands, path)
    return table.results


def check_layout(command, path, value):
    """Raises `Differs` if a command changes more of a text than a value."""
    with open(path, "rb") as file:
        if not changes_one_piece(file.read(), output_of(command, path), value):
            raise Differs("more is changed than a value")


def change(all_ways, words):
    """Changes a value near the end of a text, by libraries: from the text to the new one. Only ours keeps the layout."""
    ways = all_ways.of("ours_in_text", "rapidjson", "serde_json", "nlohmann")
    table = Table("change", "Text", ways, words)
    for text, path in files(words):
        if ways[0].command:
            check_layout([*ways[0].command, "change", path, "0", text.pointer, "7"], path, b"7")
        libraries(table, ways, f"{text.name}, {size_of(path)}", words, ("change", path, text.pointer, "7"))
    return table.results


def set_value(all_ways, words):
    """Changes a value near the end of a text, by programs: a whole run. Only `jptr` keeps the layout."""
    ways = all_ways.of("jptr", "jq", "gojq")
    table = Table("set", "Text", ways, words)
    for text, path in files(words):
        filters = [["set", text.pointer, "7"]] + [[f"{jq_path(text.pointer)} = 7"]] * (len(ways) - 1)
        commands = [way.command and [*way.command, *it] for way, it in zip(ways, filters)]
        if commands[0]:
            check_layout(commands[0], path, b"7")
        compare_all(ways, commands, path)
        programs(table, f"{text.name}, {size_of(path)}", words, commands, path)
    return table.results


def toml(all_ways, words):
    """Changes a value in a TOML text, and keeps the rest: a whole run."""
    ways = all_ways.of("jptr", "toml_edit")
    table = Table("toml", "Text", ways, words)
    for count in (70, 700, 7_000 // words.scale):
        with tempfile.NamedTemporaryFile("w", suffix=".toml", encoding="utf-8") as file:
            file.write(toml_text(count))
            file.flush()
            edit = [f"/package/{count // 2}/version", '"2"']
            starts = [["set", "--toml"]] + [["change", "/dev/stdin", "0"]] * (len(ways) - 1)
            commands = [way.command and [*way.command, *start, *edit] for way, start in zip(ways, starts)]
            compare_all(ways, commands, file.name, compare_toml)
            programs(table, f"{count:,} tables, {size_of(file.name)}", words, commands, file.name)
    return table.results


def write_json(document, file):
    """Writes a document into an open file."""
    json.dump(document, file)
    file.flush()


def patch(all_ways, words):
    """Applies a patch, by libraries: reads the texts of the document and of the patch, and prints the new document."""
    ways = all_ways.of("ours", "ours_in_text", "nlohmann", "cjson", "evanphx", "jsonpatch")
    table = Table("patch", "An array of records, and the patch", ways, words)
    check_examples([way for way in ways if way.command], "patch")
    large = 100_000 // words.scale
    for records, count in ((10, 1), (10, 10), (large // 10, 1), (large // 10, 100), (large // 10, large // 10), (large, 1)):
        with tempfile.NamedTemporaryFile(suffix=".json") as file, tempfile.NamedTemporaryFile("w", suffix=".json") as patch_file:
            make(SHAPES["records"].document, records, file.name)
            write_json(operations(records, count), patch_file)
            # In the text each operation passes over all of it.
            there = [Way(it.name, None) if it.name == "ours, keeping the layout" and count > 100 else it for it in ways]
            name = f"{size_of(file.name)}, {count:,} operation{'s' * (count > 1)}"
            libraries(table, there, name, words, ("patch", file.name, patch_file.name))
    return table.results


def merge_ours(way, document, patch_text, case):
    """Writes the case of the program that program.py builds, and returns the document that it makes, if it is built."""
    with open(document, encoding="utf-8") as file:
        case.write(f"case\tmerged\t{file.read()}\t{patch_text}\n")
    case.flush()
    return way.command and output_of(way.command, case.name).split(b"\t", 1)[1]


def check_our_merges(way):
    """Raises `Differs` if ours has another result than the RFC states."""
    lines = "".join(f"{expected}\tmerged\t{text}\t{patch_text}\n" for text, patch_text, expected in EXAMPLES["merge"])
    ran = subprocess.run(way.command, input=lines, stdout=subprocess.PIPE, encoding="utf-8", check=True)
    for line in ran.stdout.splitlines():
        expected, made = map(json.loads, line.split("\t", 1))
        if not same(expected, made):
            raise Differs(f"ours, merge: {line}")


def merge(all_ways, words):
    """Applies a merge patch, by libraries: reads both texts, and prints the new document."""
    ways = all_ways.of("timed", "nlohmann", "cjson", "evanphx")
    ours, rivals = ways[0], ways[1:]
    table = Table("merge", "An object of records, and the patch", ways, words)
    check_examples(rivals, "merge")
    if ours.command:
        check_our_merges(ours)
    large = 100_000 // words.scale
    for records, count in ((10, 1), (10, 10), (large // 10, 1), (large // 10, large // 10), (large, 1)):
        with tempfile.NamedTemporaryFile(suffix=".json") as file, tempfile.NamedTemporaryFile("w") as patch_file, tempfile.NamedTemporaryFile("w") as case:
            make(SHAPES["object"].document, records, file.name)
            write_json(merge_members(records, count), patch_file)
            with open(patch_file.name, encoding="utf-8") as text:
                made = merge_ours(ours, file.name, text.read(), case)
            once = [[*way.command, "merge", file.name, "0", patch_file.name] for way in rivals]
            there, results = results_of(rivals, once, file.name)
            compare([ours] * bool(made) + there, [made] * bool(made) + results)
            if not words.check:
                turns = str(max(3, min(2000, 20_000_000 // os.path.getsize(file.name))))
                many = [[*way.command, "merge", file.name, turns, patch_file.name] for way in rivals]
                least = times_in_turn(many, words.rounds, lambda it: float(output_of(it, file.name)))
                row = [made and (time_of_case(ours, case.name, words.rounds), memory_of(ours.command, case.name))]
                table.add(f"{size_of(file.name)}, {count:,} member{'s' * (count > 1)}", row + measured(once, least, file.name))
    return table.results


def time_of_case(way, path, rounds):
    """Returns the least nanoseconds of the merge patch in a file, by the program that program.py builds."""
    with open(path, encoding="utf-8") as file:
        lines = file.read().replace("\tmerged\t", "\tmerge patch\t", 1)
    return min(times_of([*way.command, "0"], lines)["case"] for _ in range(rounds)) / 1000


def cases_in_documents():
    """Returns the lines of the cases that all libraries have, by their names."""
    calls = [it for it in documents() if it[2] == "json" and it[1] in ("resolve", "assign", "delete")]
    left_out = ("not found", "past an array", "below a scalar", "an error", "arrays expanded")
    return {it[0]: "\t".join(it) + "\n" for it in calls if not any(part in it[0] for part in left_out)}


def check_cases(ways, text):
    """Raises `Differs` if a library has another result of a case than the first one."""
    results = []
    for way in ways:
        ran = subprocess.run([*way.command, "cases", "-", "0"], input=text, stdout=subprocess.PIPE, encoding="utf-8", check=True)
        results.append(dict(it.split("\t", 1) for it in ran.stdout.splitlines()))
    for way, result in zip(ways[1:], results[1:]):
        for name, found in result.items():
            if not same(json.loads(results[0][name]), json.loads(found)):
                raise Differs(f"{way.name}, {name}: {found[:80]}, {results[0][name][:80]}")


def ways_of_cases(all_ways, words):
    """Returns the ways of the calls in a document: the name and the command that times the cases of its input."""
    timed, ours, *rivals = [*all_ways.of("timed"), *all_ways.of("ours", "rapidjson", "serde_json")]
    yield Way("ours", timed.command and [*timed.command, "0"])
    yield Way("ours, from C", ours.command and [*ours.command, "cases", "-", "1"])
    if os.path.exists(words.original):
        yield Way("the Rust crate jsonptr 0.8.2", [words.original])
    for way in rivals:
        yield Way(way.name, [*way.command, "cases", "-", "1"])


def document(all_ways, words):
    """Resolves, assigns and deletes in a document that is there. Pointers are parsed before, except of the library for C."""
    lines = cases_in_documents()
    check_cases([way for way in all_ways.of("ours", "rapidjson", "serde_json") if way.command], "".join(lines.values()))
    ways = list(ways_of_cases(all_ways, words))
    table = Table("document", "Call", ways, words)
    times = [{} for _ in ways]
    for _ in range(0 if words.check else words.rounds):
        for at, way in enumerate(ways):
            if way.command:
                times[at] = least_of(times[at], times_of(way.command, "".join(lines.values())))
    for case in () if words.check else lines:
        table.add(case.removeprefix("json: "), [(found[case] / 1000, 0) if case in found else None for found in times])
    return table.results


def read(all_ways, words):
    """Reads a document and frees it, by libraries: what the table of calls in a document leaves out."""
    ways = all_ways.of("ours", "dom", "dom_narrow", "rapidjson", "rapidjson_unchecked", "serde_json", "nlohmann")
    table = Table("read", "Text", ways, words)
    for text, path in files(words):
        libraries(table, ways, f"{text.name}, {size_of(path)}", words, ("read", path))
    return table.results


def lines(all_ways, words):
    """Finds a value in each line of a file: a whole run."""
    ways = all_ways.of("jptr", "dom", "rapidjson", "serde_json", "jq", "gojq")
    table = Table("lines", "Lines", ways, words)
    for count in (1_000, 200_000 // words.scale):
        with tempfile.NamedTemporaryFile(suffix=".jsonl") as file:
            in_process(make_lines, count, file.name)
            commands = [way.command and [*way.command, *line_words(way)] for way in ways]
            compare_all(ways, commands, file.name, compare_lines)
            programs(table, f"{count:,} lines, {size_of(file.name)}", words, commands, file.name)
    return table.results


def line_words(way):
    """Returns the words of a command that finds a value in each line."""
    if way.name == "`jptr`":
        return ["get", "--lines", "/user/age"]
    return [".user.age"] if "-c" in way.command else ["lines", "/dev/stdin", "0", "/user/age"]


def compare_lines(ways, results):
    """Raises `Differs` if the results are not the same lines."""
    if len(set(results)) > 1:
        raise Differs(f"the lines differ: {[way.name for way in ways]}")


JOBS = {
    "find": find, "get": get, "change": change, "set": set_value, "toml": toml, "patch": patch, "merge": merge, "document": document,
    "read": read, "lines": lines,
}


def run_jobs(all_ways, words):
    """Does the jobs that are asked for, and returns all results."""
    results = []
    for name, job in JOBS.items():
        if words.only in (None, name):
            results += job(all_ways, words)
    return results


def arguments():
    """Returns the words of the command."""
    parser = argparse.ArgumentParser(description=__doc__, formatter_class=argparse.RawDescriptionHelpFormatter)
    parser.add_argument("--only", choices=JOBS)
    parser.add_argument("--text", default="", help="only texts with this word in their name")
    parser.add_argument("--rounds", type=int, default=5)
    parser.add_argument("--scale", type=int, default=1, help="makes the texts smaller by this factor, for a trial")
    parser.add_argument("--check", action="store_true")
    parser.add_argument("--save", action="store_true")
    parser.add_argument("--c", metavar="FOLDER")
    parser.add_argument("--cjson", metavar="FOLDER")
    parser.add_argument("--crates", metavar="FOLDER", default=f"{TOP}/crates")
    parser.add_argument("--jptr", metavar="PROGRAM")
    parser.add_argument("--timed", metavar="PROGRAM", default=BUILT)
    parser.add_argument("--original", metavar="PROGRAM", default=f"{HERE}/original/target/release/times")
    parser.add_argument("--work", metavar="FOLDER")
    words = parser.parse_args()
    if words.check:
        words.scale = max(words.scale, 100)
    return words


def main():
    words = arguments()
    with tempfile.TemporaryDirectory() as temporary:
        work = os.path.abspath(words.work or temporary)
        os.makedirs(work, exist_ok=True)
        try:
            check_comparing()
            results = run_jobs(Ways(words, work), words)
        except Differs as differs:
            sys.exit(f"rivals: {differs}")
    if words.save and not words.check:
        save(results)
    if words.check:
        examples = sum(len(it) for job, it in EXAMPLES.items() if words.only in (None, job))
        print(f"rivals: all results are the same; {examples} examples of the RFCs")


if __name__ == "__main__":
    main()
