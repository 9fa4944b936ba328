#!/usr/bin/env python3
"""Makes cases of random documents and of what the program graphql_print does with each, for the tests of bindings/.

    tools/printed_cases.py SEED COUNT >CASES

The output has a case a line, in the form of crates/golden/data: a random document, or one of those of its definitions that are well formed by themselves, in
one of LAYOUTS. The text that is wanted is what the program wrote on standard output with the words of the layout, less the line feed that it puts behind a
text on one line; where it ended with status 1 the case is of an ill-formed document, and the member `message` is the first line of standard error.

It needs the program, which `rt run` builds in crates/graphql_print, and node for tools/random_documents.js. On standard error it says how many cases there
are. The exit status is 0 unless the program ended otherwise than with 0 and nothing on standard error, or with 1 and nothing on standard output.
"""
import json
import os
import subprocess
import sys
from concurrent.futures import ThreadPoolExecutor
from pathlib import Path

TOOLS = Path(__file__).resolve().parent
PROGRAM = TOOLS.parent / "crates/graphql_print/out/graphql_print"
FRONT = "graphql_print: standard input: "
# of each the words, the prefix (none: one line) and the level
LAYOUTS = [
    ("", "  ", 0),
    ("--indent 0", "", 0),
    ("--indent 4", "    ", 0),
    ("--tabs", "\t", 0),
    ("--one-line", None, 0),
    ("--level 3", "  ", 3),
    ("--tabs --level 2", "\t", 2),
    ("--one-line --level 7", None, 7),
]
GENERATE = 'for (const it of require(process.argv[1]).documents(...process.argv.slice(2))) console.log(JSON.stringify(it))'


def documents(seed, count):
    made = subprocess.run(["node", "-e", GENERATE, TOOLS / "random_documents.js", seed, count], stdout=subprocess.PIPE, check=True)
    return [json.loads(line) for line in made.stdout.decode().splitlines()]


def run(document, words):
    ended = subprocess.run([PROGRAM, *words.split()], input=json.dumps(document).encode(), capture_output=True)
    if (ended.returncode, bool(ended.stderr)) != (0, False) and (ended.returncode, bool(ended.stdout)) != (1, False):
        raise ValueError(f"status {ended.returncode} of <{words}>, {ended.stderr!r}: {json.dumps(document)}")
    return ended.returncode, ended.stdout.decode(), ended.stderr.decode()


def case(name, document, layout):
    words, prefix, level = layout
    status, text, message = run(document, words)
    told = {"tree": document, "prefix": prefix, "level": level, "well_formed": status == 0, "text": None}
    if status == 1:
        told["message"] = message.split("\n")[0][len(FRONT) :]
    else:
        told["text"] = text if prefix is not None else text[:-1]
    return {"name": f"printed/{name}/{words or 'default'}", "kind": "Document", "print": told}


def cases_of(numbered):
    """A document in each layout, and then what is well formed in it, unless that is nothing or all of it."""
    number, document = numbered
    parts = {number: document}
    kept = [it for it in document["definitions"] if run({"kind": "Document", "definitions": [it]}, "--check")[0] == 0]
    if kept and len(kept) < len(document["definitions"]):
        parts[f"{number}-well-formed"] = {"kind": "Document", "definitions": kept}
    return [case(name, part, layout) for name, part in parts.items() for layout in LAYOUTS]


def main():
    found = documents(*sys.argv[1:3])
    with ThreadPoolExecutor(os.cpu_count()) as pool:
        cases = [it for some in pool.map(cases_of, enumerate(found)) for it in some]
    for it in cases:
        print(json.dumps(it, ensure_ascii=False))
    refused = sum(not it["print"]["well_formed"] for it in cases)
    print(f"{len(found)} random documents: {len(cases) - refused} texts, {refused} refusals", file=sys.stderr)


main()
