"""Edits of files of the kinds that people keep by hand or in version control: `diff` shows only the lines of the change.

The files are in the folder files/. An example has a file, a command, a pointer, an argument, and the lines that `diff`
shows: those that go, each after `-`, and those that come, each after `+`.
"""
import difflib
import os
from typing import NamedTuple

from .asking import Request

FOLDER = os.path.join(os.path.dirname(os.path.abspath(__file__)), "files")


class Change(NamedTuple):
    """An edit of a file, and the lines that it changes."""

    file: str
    command: str
    pointer: str
    argument: str
    lines: list


def assigns(file, pointer, value, *lines):
    """An assignment."""
    return Change(file, "assign", pointer, value, list(lines))


def deletes(file, pointer, *lines):
    """A deletion."""
    return Change(file, "delete", pointer, "", list(lines))


def applies(file, patch, *lines):
    """A patch."""
    return Change(file, "apply", "", patch, list(lines))


PACKAGE = [
    assigns("package.json", "/version", '"1.4.0"', '-  "version": "1.3.2",', '+  "version": "1.4.0",'),
    assigns(
        "package.json", "/dependencies/pino", '"^9.1.0"',
        '-    "zod": "^3.23.8"', '+    "zod": "^3.23.8",', '+    "pino": "^9.1.0"',
    ),
    assigns(
        "package.json", "/optionalDependencies/fsevents", '"2.3.3"',
        '-  "optionalDependencies": {},', '+  "optionalDependencies": {', '+    "fsevents": "2.3.3"', "+  },",
    ),
    assigns(
        "package.json", "/files/-", '"README.md"',
        '-  "files": ["dist", "data/*.json"],', '+  "files": ["dist", "data/*.json", "README.md"],',
    ),
    assigns(
        "package.json", "/engines/npm", '">=10"',
        '-  "engines": { "node": ">=18.0.0" },', '+  "engines": { "node": ">=18.0.0", "npm": ">=10" },',
    ),
    assigns("package.json", "/c8/exclude/-", '"dist/**"', '-      "test/**"', '+      "test/**",', '+      "dist/**"'),
    assigns("package.json", "/c8/lines", "95", '-    "lines": 92.50,', '+    "lines": 95,'),
    assigns(
        "package.json", "/repository/url", '"https://git.example/tide-table"',
        "+  },", '+  "repository": {', '+    "url": "https://git.example/tide-table"',
    ),
    deletes("package.json", "/private", '-  "private": false,'),
    deletes("package.json", "/scripts/lint", '-    "test": "node --test \\"test/**/*.test.js\\"",',
            '-    "lint": "eslint ."', '+    "test": "node --test \\"test/**/*.test.js\\""'),
    deletes("package.json", "/devDependencies", '-  "devDependencies": {', '-    "eslint": "^9.4.0",', '-    "typescript": "~5.4.5"', "-  },"),
    applies(
        "package.json",
        '[{"op":"test","path":"/version","value":"1.3.2"},{"op":"replace","path":"/version","value":"1.4.0"},'
        '{"op":"add","path":"/files/1","value":"bin"}]',
        '-  "version": "1.3.2",', '+  "version": "1.4.0",',
        '-  "files": ["dist", "data/*.json"],', '+  "files": ["dist", "bin", "data/*.json"],',
    ),
]

LOCK = [
    assigns("package-lock.json", "/packages/node_modules~1zod/version", '"3.23.9"', '-      "version": "3.23.8",', '+      "version": "3.23.9",'),
    assigns(
        "package-lock.json", "/packages/node_modules~1zod/dev", "true",
        '-      "integrity": "sha512-XBx9AXhXktjUqnepgTiE5flcKIYWi/rme0Eaj+5Y0lftuGBq+jyRu/md4WnuxqgP1ubdpNCsYEYPxrzVHD8d6g=="',
        '+      "integrity": "sha512-XBx9AXhXktjUqnepgTiE5flcKIYWi/rme0Eaj+5Y0lftuGBq+jyRu/md4WnuxqgP1ubdpNCsYEYPxrzVHD8d6g==",',
        '+      "dev": true',
    ),
    deletes(
        "package-lock.json", "/packages/node_modules~1@types~1node/dependencies/undici-types",
        '-      "dependencies": {', '-        "undici-types": "~5.26.4"', "-      }", '+      "dependencies": {}',
    ),
    deletes(
        "package-lock.json", "/packages/node_modules~1date-fns/funding",
        '-      "integrity": "sha512-fRHTG8g/Gif+kSh50gaGEdToemgfj74aRX3swtiouboip5JDLAyDE9F11nHMIcvOaXeOC6D7SpNhi7uFyB7Uww==",',
        '-      "funding": {', '-        "type": "github",', '-        "url": "https://github.example/sponsors/harbour"', "-      }",
        '+      "integrity": "sha512-fRHTG8g/Gif+kSh50gaGEdToemgfj74aRX3swtiouboip5JDLAyDE9F11nHMIcvOaXeOC6D7SpNhi7uFyB7Uww=="',
    ),
    assigns(
        "package-lock.json", "/packages/node_modules~1pino", '{"version":"9.1.0","dev":true}',
        "+    },", '+    "node_modules/pino": {', '+      "dev": true,', '+      "version": "9.1.0"',
    ),
]

GEOJSON = [
    assigns(
        "harbours.geojson", "/features/0/properties/depth", "5.5",
        '-      "properties": { "name": "Falmouth", "depth": 6.0, "lit": true }', '+      "properties": { "name": "Falmouth", "depth": 5.5, "lit": true }',
    ),
    assigns(
        "harbours.geojson", "/features/0/geometry/coordinates/-", "12.5",
        '-      "geometry": { "type": "Point", "coordinates": [-5.0527, 50.1526] },',
        '+      "geometry": { "type": "Point", "coordinates": [-5.0527, 50.1526, 12.5] },',
    ),
    assigns(
        "harbours.geojson", "/features/1/properties/lit", "true",
        '-      "properties": { "name": "Charlestown \\u2013 pier", "depth": 2.5e0, "lit": false }',
        '+      "properties": { "name": "Charlestown \\u2013 pier", "depth": 2.5e0, "lit": true }',
    ),
    assigns(
        "harbours.geojson", "/features/2/properties/name", '"Plymouth"',
        '-      "properties": null', '+      "properties": {', '+        "name": "Plymouth"', "+      }",
    ),
    deletes(
        "harbours.geojson", "/features/1/geometry/coordinates/2",
        "-          [-4.7810, 50.3350], [-4.7790, 50.3361],", "-          [-4.7755, 50.3372]", "+          [-4.7810, 50.3350], [-4.7790, 50.3361]",
    ),
    deletes("harbours.geojson", "/bbox", '-  "bbox": [-5.10, 49.95, -4.00, 50.40],'),
]

NOTEBOOK = [
    assigns("tides.ipynb", "/cells/1/execution_count", "null", '-   "execution_count": 3,', '+   "execution_count": null,'),
    assigns("tides.ipynb", "/cells/1/outputs", "[]", '-   "outputs": [', "-    {", '-     "data": {', '-      "text/plain": [',
            '-       "[5.10, 1.0, 4.70]"', "-      ]", "-     },", '-     "execution_count": 3,', '-     "metadata": {},',
            '-     "output_type": "execute_result"', "-    }", "-   ],", '+   "outputs": [],'),
    assigns("tides.ipynb", "/cells/0/source/-", '"More."', '-    "Heights in metres above chart datum."',
            '+    "Heights in metres above chart datum.",', '+    "More."'),
    assigns("tides.ipynb", "/cells/1/metadata/tags/-", '"hide"', '-    "tags": []', '+    "tags": [', '+     "hide"', "+    ]"),
    assigns("tides.ipynb", "/metadata/language_info/version", '"3.12.1"', '-   "version": "3.11.7"', '+   "version": "3.12.1"'),
    deletes("tides.ipynb", "/cells/1/metadata/scrolled", '-    "scrolled": true,'),
]

TABBED = [
    assigns("tsconfig.json", "/compilerOptions/strict", "false", '-\t\t"strict": true,', '+\t\t"strict": false,'),
    assigns("tsconfig.json", "/compilerOptions/lib/-", '"WebWorker"', '-\t\t"lib": ["ES2022", "DOM"],', '+\t\t"lib": ["ES2022", "DOM", "WebWorker"],'),
    assigns("tsconfig.json", "/compilerOptions/paths/~0test~1*/-", '"./spec/*"', '-\t\t\t\t"./test/*"', '+\t\t\t\t"./test/*",', '+\t\t\t\t"./spec/*"'),
    assigns("tsconfig.json", "/compilerOptions/plugins/-", '"a"', '+\t\t\t"a"'),
    assigns("tsconfig.json", "/references/0/path", '"../lib"', '-\t"references": []', '+\t"references": [{"path": "../lib"}]'),
    deletes("tsconfig.json", "/extends", '-\t"extends": "./base.json",'),
]

CARRIAGE_RETURNS = [
    assigns("settings.json", "/window/left", "120", '-        "left": 100,', '+        "left": 120,'),
    assigns("settings.json", "/recent/-", '"D:\\\\new.chart"', '-        "C:\\\\charts\\\\east.chart"', '+        "C:\\\\charts\\\\east.chart",',
            '+        "D:\\\\new.chart"'),
    assigns("settings.json", "/colours/water", '"#036"', '+        "water": "#036"'),
    assigns("settings.json", "/window/size", "[800,600]", '-        "zoom": 1.0', '+        "zoom": 1.0,', '+        "size": [', "+            800,", "+            600", "+        ]"),
    deletes("settings.json", "/recent/0", '-        "C:\\\\charts\\\\west.chart",'),
]

ONE_LINE = [
    assigns(
        "measurements.json", "/readings/1/h", "4.95",
        '-{"station":"FAL","unit":"m","readings":[{"t":1717200000,"h":5.10},{"t":1717203600,"h":4.9},{"t":1717207200,"h":1.0e0}],"ok":true}',
        '+{"station":"FAL","unit":"m","readings":[{"t":1717200000,"h":5.10},{"t":1717203600,"h":4.95},{"t":1717207200,"h":1.0e0}],"ok":true}',
    ),
]

CHANGES = PACKAGE + LOCK + GEOJSON + NOTEBOOK + TABBED + CARRIAGE_RETURNS + ONE_LINE


def text_of(file):
    """Returns the text of a file, with its line breaks."""
    with open(os.path.join(FOLDER, file), encoding="utf-8", newline="") as given:
        return given.read()


def request_of(change):
    """Returns the request of an example."""
    return Request(change.command, text_of(change.file), change.pointer, change.argument)


def shown_by_diff(old, new):
    """Returns the lines that `diff` shows, each after `-` or `+`, without their line breaks."""
    shown = list(difflib.unified_diff(old.splitlines(keepends=True), new.splitlines(keepends=True), n=0))
    return [line.rstrip("\r\n") for line in shown[2:] if not line.startswith("@@")]


def fault_of(change, outcome):
    """Returns what is wrong with the outcome of an example, or None."""
    name = f"{change.command} {change.pointer or change.argument} in {change.file}"
    if outcome.kind != "in place":
        return f"{name}: {outcome.kind} {outcome.detail}"
    old, new = text_of(change.file), outcome.detail
    if shown_by_diff(old, new) != change.lines:
        return f"{name} shows " + "\n".join(["", *shown_by_diff(old, new)])
    return None
