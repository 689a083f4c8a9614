#!/usr/bin/env python3
"""Makes the tables and the chart of docs/SPEED.md that are of rivals.py, from tools/bench/rivals.tsv.

    tools/bench/rival_pages.py            prints which rivals are faster, by how much, and in which rows
    tools/bench/rival_pages.py --write    writes docs/rivals.svg, and the tables into docs/SPEED.md

A table is between the lines `<!-- rivals: JOB -->` and `<!-- end -->`, and that of `behind` has the rivals that are faster. It fails
if one is faster that REASONS leaves out, or slower in each row that REASONS has. In the chart a bar is a rival in a job. It spans the
ratios of all rows, our time divided by the rival's, and has a mark at their geometric mean. The scale is logarithmic.
"""
import argparse
import math
import os
import re
import sys

from rivals import JOBS, header, read_results, table_row
from rival_ways import TOP

PAGE, CHART = f"{TOP}/docs/SPEED.md", f"{TOP}/docs/rivals.svg"

# What is a table of one ratio: the first cell of its head, and the word for the job in the table of what is behind.
HEADS = {
    "find": ("Text", "find a value"), "get": ("Text", "find a value, a whole run"), "change": ("Text", "change a value"),
    "set": ("Text", "change a value, a whole run"), "toml": ("Text", "change a value in TOML, a whole run"),
    "patch": ("An array of records, and the patch", "apply a patch"), "merge": ("An object of records, and the patch", "apply a merge patch"),
    "document": ("Call", "calls in a document"), "read": ("Text", "read a document"), "lines": ("Lines", "find in each line, a whole run"),
}

# Ways of ours: the first one that a job has is compared with the rivals.
OURS = ["ours", "`jptr`", "ours, keeping the layout", "ours, from C"]

# Above this ratio a rival is faster: the machine is shared, so less means nothing.
FASTER = 1.05

READING = "vectors of 64 bytes, and [what ours does more](#finding-and-reading)"
POOL = "its memory is one pool, of which it frees nothing before the document"

# Why a rival is faster: by the job and the start of its name.
REASONS = {
    ("find", "simdjson 3"): READING,
    ("find", "simdjson DOM"): "[what ours does more](#finding-and-reading)",
    ("find", "simdjson on demand"): "it does not check what it skips",
    ("find", "RapidJSON by default"): "it rounds floats less exactly, and checks no UTF-8",
    ("change", "RapidJSON"): "[ours reads the text several times](#change-a-value-in-a-text)",
    ("change", "serde_json"): "[ours reads the text several times](#change-a-value-in-a-text)",
    ("change", "nlohmann"): "[ours reads the text several times](#change-a-value-in-a-text)",
    ("toml", "toml_edit"): "[ours reads the new text again](#change-a-value-in-a-text)",
    ("merge", "nlohmann"): "[ours copies the document](#apply-a-patch)",
    ("merge", "cJSON"): "[ours copies the document](#apply-a-patch), and sorts members, which cJSON appends to a list",
    ("document", "the Rust crate"): "[the map and the vector of the kit](LIMITS.md#collections-that-move-one-value-at-a-time)",
    ("document", "RapidJSON"): f"a pointer has its indices as numbers, from when it was parsed; {POOL}",
}


def rows_of(results, job):
    """Returns the names of the ways of a job, and of each row its results by the way, all in the order of the results."""
    names, rows = [], {}
    for it in results:
        if it.job == job:
            names += [] if it.way in names else [it.way]
            rows.setdefault(it.row, {})[it.way] = it
    # Ours is the first way, also if the first row has none.
    return sorted(names, key=lambda name: OURS.index(name) if name in OURS else len(OURS)), rows


def table_of(results, job):
    """Returns the table of a job, or nothing if it has no results."""
    names, rows = rows_of(results, job)
    if not rows:
        return ""
    lines = [table_row(row, [found.get(name) for name in names]) for row, found in rows.items()]
    return "\n".join([header([HEADS[job][0], *names]), *lines]) + "\n"


def ratios_of(results, job):
    """Yields each rival of a job, with the ratios of its rows by their names."""
    names, rows = rows_of(results, job)
    ours = next((name for name in names if name in OURS), None)
    for rival in (name for name in names if ours and name not in OURS):
        ratios = {row: found[ours].nanoseconds / found[rival].nanoseconds for row, found in rows.items() if ours in found and rival in found}
        if ratios:
            yield rival, ratios


def reason_of(job, rival):
    """Returns why a rival is faster in a job, or `None`."""
    return next((why for (it, start), why in REASONS.items() if it == job and rival.startswith(start)), None)


def faster(results):
    """Yields the job, the name and the rows of each rival that is faster, and all its rows."""
    for job in JOBS:
        for rival, ratios in ratios_of(results, job):
            rows = {row: ratio for row, ratio in ratios.items() if ratio > FASTER}
            if rows:
                yield job, rival, rows, ratios


def span(ratios):
    """Returns the least and the greatest ratio in words."""
    low, high = min(ratios.values()), max(ratios.values())
    return f"{low:.2f}" if f"{low:.2f}" == f"{high:.2f}" else f"{low:.2f} to {high:.2f}"


def behind(results):
    """Returns the table of the rivals that are faster, with the reasons."""
    lines = [header(["Job", "Faster is", "in", "Ratio", "Why"])]
    for job, rival, rows, ratios in faster(results):
        count = "each row" if len(rows) == len(ratios) else f"{len(rows)} of {len(ratios)} rows"
        lines.append(f"| {HEADS[job][1]} | {rival} | {count} | {span(rows)} | {reason_of(job, rival) or ''} |")
    return "\n".join(lines) + "\n"


def unexplained(results):
    """Yields what is wrong with REASONS, for the jobs that have results."""
    found, jobs = list(faster(results)), {it.job for it in results}
    yield from (f"no reason: {job}, {rival}" for job, rival, _, _ in found if not reason_of(job, rival))
    for job, start in REASONS:
        if job in jobs and not any(it == job and rival.startswith(start) for it, rival, _, _ in found):
            yield f"a reason, and it is not faster: {job}, {start}"


# ---- The chart ----

LEFT, RIGHT, LINE, HEAD, LOW, HIGH = 400, 820, 20, 34, 1 / 64, 16


def x_of(ratio):
    """Returns where a ratio is on the scale."""
    return LEFT + math.log(min(max(ratio, LOW), HIGH) / LOW) / math.log(HIGH / LOW) * (RIGHT - LEFT)


def text_of(words):
    """Returns words as text of an SVG."""
    return words.replace("`", "").replace("&", "&amp;").replace("<", "&lt;")


def bar(y, name, ratios):
    """Returns the drawing of a rival."""
    values = list(ratios.values())
    mean = math.exp(sum(map(math.log, values)) / len(values))
    low, high = x_of(min(values)), x_of(max(values))
    return (
        f'<text x="{LEFT - 10}" y="{y + 12}" text-anchor="end">{text_of(name)}</text>'
        f'<rect class="bar" x="{low:.1f}" y="{y + 3}" width="{max(high - low, 2):.1f}" height="11" rx="2"/>'
        f'<rect class="mean" x="{x_of(mean) - 1.5:.1f}" y="{y}" width="3" height="16"/>'
        f'<text x="{RIGHT + 14}" y="{y + 12}">{mean:.2f}</text>'
    )


def scale(bottom):
    """Returns the drawing of the scale."""
    drawn = []
    for ratio, label in ((1 / 64, "1/64"), (1 / 16, "1/16"), (1 / 4, "1/4"), (1, "1"), (4, "4"), (16, "16")):
        kind = "one" if ratio == 1 else "grid"
        drawn.append(f'<line class="{kind}" x1="{x_of(ratio):.1f}" y1="{HEAD - 6}" x2="{x_of(ratio):.1f}" y2="{bottom}"/>')
        drawn.append(f'<text x="{x_of(ratio):.1f}" y="{HEAD - 12}" text-anchor="middle">{label}</text>')
    return "".join(drawn)


def chart(results):
    """Returns the chart. Its colours fit a light and a dark background."""
    y, drawn = HEAD, []
    for job in JOBS:
        bars = list(ratios_of(results, job))
        if bars:
            drawn.append(f'<text class="job" x="14" y="{y + 13}">{text_of(HEADS[job][1])}</text>')
            y += LINE
            for rival, ratios in bars:
                drawn.append(bar(y, rival, ratios))
                y += LINE
    return (
        f'<svg xmlns="http://www.w3.org/2000/svg" viewBox="0 0 {RIGHT + 60} {y + 34}" font-family="sans-serif" font-size="12.5" role="img" '
        'aria-label="Our time in each job, divided by the time of each rival">'
        "<style>text{fill:#444}.job{font-weight:bold}.bar{fill:#4a90d9;opacity:.65}.mean{fill:#d9534f}.grid{stroke:#8888;stroke-width:.7}"
        ".one{stroke:#888;stroke-width:1.6}@media(prefers-color-scheme:dark){text{fill:#ccc}}</style>"
        f"{scale(y + 4)}{''.join(drawn)}"
        f'<text x="{LEFT - 10}" y="{y + 24}">our time / time of the rival (left of 1: ours is faster), and the mean</text></svg>\n'
    )


# ---- The page ----

BLOCK = re.compile(r"(<!-- rivals: (\w+) -->\n).*?(<!-- end -->\n)", re.DOTALL)


def page(text, machine, results):
    """Returns the page with these tables."""

    def block(found):
        name = found[2]
        if name == "chart":
            made = "![Our time in each job, divided by the time of each rival](rivals.svg)\n" if results else ""
        elif name == "machine":
            made = f"The tables of rivals are of {machine}.\n" if results else ""
        else:
            made = behind(results) if name == "behind" and results else table_of(results, name)
        return found[1] + (made and f"\n{made}\n") + found[3]

    return BLOCK.sub(block, text)


def main():
    parser = argparse.ArgumentParser(description=__doc__, formatter_class=argparse.RawDescriptionHelpFormatter)
    parser.add_argument("--write", action="store_true")
    words = parser.parse_args()
    machine, results = read_results()
    if words.write:
        with open(PAGE, encoding="utf-8") as file:
            text = file.read()
        with open(PAGE, "w", encoding="utf-8") as file:
            file.write(page(text, machine, results))
        with open(CHART, "w", encoding="utf-8") as file:
            file.write(chart(results))
    else:
        for job, rival, rows, ratios in faster(results):
            print(f"{job}, {rival}: {len(rows)} of {len(ratios)} rows, {span(rows)}")
            print("".join(f"  {ratio:.2f}  {row}\n" for row, ratio in rows.items()), end="")
    if wrong := list(unexplained(results)):
        sys.exit("rival_pages: " + "; ".join(wrong))


if __name__ == "__main__":
    main()
