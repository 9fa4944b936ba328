#!/usr/bin/env python3
"""Checks that what docs/TESTS.md names is there.

    tools/tests_page.py

Of the words in backticks on the page it takes

- test functions, as `graphql_text_tests::errors::what_errors_say`, and laws, as `graphql_text::laws::one_token_list`;
- edits, as `graphql_text/planted/tab_escaped` and `graphql_text/must-fail/level_wraps`;
- beginnings of names of cases of the program golden, as `string/line-feed`, whose first part is a group.

A word of these forms that names nothing is printed, and so is each rule of docs/LAYOUT.md (a list item with a name in bold) that has no row. The exit
status is 1 if there is one.
"""
import json
import re
import sys
from pathlib import Path

TOP = Path(__file__).resolve().parent.parent
CRATES = TOP / "crates"
PAGE = (TOP / "docs/TESTS.md").read_text(encoding="utf-8")
LAYOUT = (TOP / "docs/LAYOUT.md").read_text(encoding="utf-8")
TEST = re.compile(r"#\[test\]\n\s*fn (\w+)\(")
LAW = re.compile(r"^pub fn (\w+)", re.M)


def functions():
    """The paths of all tests, and of all laws, each without the modules in `laws`."""
    for file in CRATES.glob("*/src/**/*.rt"):
        crate, _, *modules = file.relative_to(CRATES).with_suffix("").parts
        text = file.read_text(encoding="utf-8")
        if modules[0] == "laws":
            yield from (f"{crate}::laws::{name}" for name in LAW.findall(text))
        yield from ("::".join([crate, *modules, name]) for name in TEST.findall(text))


def edits():
    return {"/".join(file.relative_to(CRATES).with_suffix("").parts) for file in CRATES.glob("*/*/*.edit")}


def names():
    for file in (CRATES / "golden/data").glob("*.jsonl"):
        yield from (json.loads(line)["name"] for line in file.read_text(encoding="utf-8").splitlines())


def main():
    there, cases = set(functions()) | edits(), list(names())
    groups = {name.split("/")[0] for name in cases}
    missing = []
    for word in re.findall(r"`([a-z][\w-]*(?:::|/)[\w:/-]*)`", PAGE):
        is_there = word in there or word.split("/")[0] in groups and any(name.startswith(word) for name in cases)
        missing += [] if is_there else [word]
    rules = re.findall(r"\*\*([\w ]+)\.\*\*", LAYOUT)
    missing += [f"a row of {rule}" for rule in rules if f"| {rule}" not in PAGE and f"## {rule}" not in PAGE]
    for word in missing:
        print(word)
    return 1 if missing else 0


sys.exit(main())
