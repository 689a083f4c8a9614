#!/usr/bin/env python3
"""Draws docs/speed.svg from measured times, and prints the rows of docs/SPEED.md.

    tools/bench/chart.py             from tools/bench/results.tsv, which speed.py --save writes

A bar is a group of calls. It spans the ratios of the group's cases, this library's time divided by the Rust crate's, and
has a mark at their geometric mean. The scale is logarithmic.
"""
import math
import os

from speed import read_results, shown

TOP = os.path.dirname(os.path.dirname(os.path.dirname(os.path.abspath(__file__))))

# The groups, by words that the name of a case begins with. The first group that fits has the case.
GROUPS = (
    ("parse a pointer", ("parse",)),
    ("tokens: parse, encode, decode", ("Token::", "decoded,")),
    ("read an index", ("index",)),
    ("iterate, split at an end", ("tokens", "decoded tokens", "split_front", "split_back")),
    ("count, front, back, parent, to_buf", ("count", "front", "back", "parent", "to_buf")),
    ("get, split_at_offset", ("get", "split_at")),
    ("==, cmp", ("==", "cmp")),
    ("prefixes and suffixes", ("starts_with", "ends_with", "strip", "intersection", "concat")),
    ("push, pop, append, replace", ("push", "pop", "append", "replace")),
    ("resolve", ("json: resolve,", "toml: resolve,")),
    ("resolve_mut", ("json: resolve_mut", "toml: resolve_mut")),
    ("assign", ("json: assign", "toml: assign")),
    ("delete", ("json: delete", "toml: delete")),
    ("the whole program", ("the whole program",)),
)

ROWS = (
    "parse, 3 tokens",
    "parse, 1000 tokens with escapes",
    "decoded, 8 bytes, 4 escapes",
    "tokens, a token of 8 tokens",
    "get, the middle of 8 tokens",
    "==, 8 tokens",
    "push_back, 64 times, root",
    "json: resolve, a member of 4",
    "json: assign, 8 objects expanded",
    "json: delete, an element of 1000",
)

LEFT, RIGHT, ROW, HEAD, LOW, HIGH = 250, 640, 26, 34, 1 / 64, 4


def ratios(results):
    """Returns the ratios of each group, by its name."""
    found = {name: [] for name, _ in GROUPS}
    for case, (ours, theirs) in results.items():
        name = next(name for name, starts in GROUPS if case.startswith(starts))
        found[name].append(ours / theirs)
    return found


def x_of(ratio):
    """Returns where a ratio is on the scale."""
    share = math.log(min(max(ratio, LOW), HIGH) / LOW) / math.log(HIGH / LOW)
    return LEFT + share * (RIGHT - LEFT)


def bar(number, name, values):
    """Returns the drawing of a group."""
    y = HEAD + number * ROW
    mean = math.exp(sum(map(math.log, values)) / len(values))
    low, high = x_of(min(values)), x_of(max(values))
    return (
        f'<text x="{LEFT - 10}" y="{y + 14}" text-anchor="end">{name}</text>'
        f'<rect class="bar" x="{low:.1f}" y="{y + 4}" width="{max(high - low, 2):.1f}" height="13" rx="2"/>'
        f'<rect class="mean" x="{x_of(mean) - 1.5:.1f}" y="{y + 1}" width="3" height="19"/>'
        f'<text x="{RIGHT + 14}" y="{y + 14}">{mean:.2f}</text>'
    )


def scale(bottom):
    """Returns the drawing of the scale."""
    drawn = []
    for ratio, label in ((1 / 64, "1/64"), (1 / 16, "1/16"), (1 / 4, "1/4"), (1, "1"), (4, "4")):
        x = x_of(ratio)
        kind = "one" if ratio == 1 else "grid"
        drawn.append(f'<line class="{kind}" x1="{x:.1f}" y1="{HEAD - 6}" x2="{x:.1f}" y2="{bottom}"/>')
        drawn.append(f'<text x="{x:.1f}" y="{HEAD - 12}" text-anchor="middle">{label}</text>')
    return "".join(drawn)


def chart(found):
    """Returns the chart. Its colours fit a light and a dark background."""
    bottom = HEAD + len(found) * ROW + 4
    bars = "".join(bar(number, name, values) for number, (name, values) in enumerate(found.items()))
    return (
        f'<svg xmlns="http://www.w3.org/2000/svg" viewBox="0 0 {RIGHT + 60} {bottom + 30}" '
        f'font-family="sans-serif" font-size="13" role="img" '
        f'aria-label="Time of each group of calls, divided by the time of the Rust crate">'
        "<style>text{fill:#444}.bar{fill:#4a90d9;opacity:.65}.mean{fill:#d9534f}.grid{stroke:#8888;stroke-width:.7}"
        ".one{stroke:#888;stroke-width:1.6}@media(prefers-color-scheme:dark){text{fill:#ccc}}</style>"
        f"{scale(bottom)}{bars}"
        f'<text x="{LEFT - 110}" y="{bottom + 20}">time here / time of the Rust crate (left of 1: faster here), '
        "and the mean</text></svg>\n"
    )


def main():
    results = read_results()
    with open(f"{TOP}/docs/speed.svg", "w", encoding="utf-8") as file:
        file.write(chart(ratios(results)))
    print("| Call | here | the Rust crate | ratio |\n|---|---|---|---|")
    for case in ROWS:
        ours, theirs = results[case]
        print(f"| {case} | {shown(ours)} | {shown(theirs)} | {ours / theirs:.2f} |")
    ratio = {case: ours / theirs for case, (ours, theirs) in results.items()}
    least, slower = sum(it <= 1 for it in ratio.values()), [case for case in ratio if ratio[case] > 1.05]
    print(f"\n{least} of the {len(ratio)} cases take at most as long as in the Rust crate, and {len(slower)} more than 1.05 times as long:\n")
    for case in slower:
        print(f"- {case}: {ratio[case]:.2f}")


if __name__ == "__main__":
    main()
