#!/usr/bin/env python3
"""Counts what prints and other calls cost, by valgrind, over the programs print_speed and op_speed as `rt run` or `rt ci` leave them.

    tools/costs.py [--jobs JOBS] [prints] [misses] [trees] [calls DOCUMENT.json]

Without a word it counts prints and misses. Each number is that of one round: of a run with four rounds, less that of a run with two, by two.

- prints: instructions a byte that is printed to a text, of each tree of docs/COST.md in the default layout and on one line, with names by `Name::compact`
  and, in brackets, with names that have memory of their own;
- misses: last-level read misses for 1,000 bytes of a document or a list of 1,000, with a cache of 1 MiB, by cachegrind;
- trees: the memory of 200 objects, types and queries, in KiB, with what its allocator takes besides: a hundredth of what a program that builds 40,000 holds, less
  what one holds that builds 20,000, neither of which prints;
- calls: of each operation of op_speed over that document in AST JSON the instructions, in millions and a byte, and the memory that it asks for, a byte: of
  the GraphQL that is printed of the tree, or of the AST JSON where that is read or written. Of a look-up the instructions an item of its list. The bytes
  that a call asks for are those that dhat counts, also where they are given back within it.

It needs valgrind (`apt-get install valgrind` on Debian). The counts of one program don't depend on what else the machine does.
"""
import argparse
import os
import re
import subprocess
import sys
from concurrent.futures import ThreadPoolExecutor
from pathlib import Path

CRATES = Path(__file__).resolve().parent.parent / "crates"
PRINTS = [("objects", 200), ("texts", 1000), ("escapes", 1000), ("operations", 200), ("queries", 200), ("types", 500), ("schema", 500), ("document", 440)]
TREES = [("objects", 200), ("schema", 200), ("queries", 200)]
MISSES = [("objects", 1000), ("schema", 1000), ("queries", 1000)]
CALLS = ["equal", "well_formed", "clone", "look_up", "print", "walk", "rebuild", "build", "build_drop", "build_print", "read", "write", "write_text"]
FINDS = ["find_directive", "find_argument", "find_field", "find_enum_value", "find_variable", "find_type"]
ITEMS = 10000
INSTRUCTIONS = (["--tool=callgrind", "--callgrind-out-file=/dev/null"], re.compile(r"Collected : (\d+)"))
MEMORY = (["--tool=dhat", "--dhat-out-file=/dev/null"], re.compile(r"Total: +([\d,]+) bytes"))
READ_MISSES = (
    ["--tool=cachegrind", "--cache-sim=yes", "--LL=1048576,16,64", "--cachegrind-out-file=/dev/null"],
    re.compile(r"LLd misses: +[\d,]+ +\( *([\d,]+) rd"),
)


def program(name):
    return CRATES / name / "out" / name


def run(counter, words, stdin=None):
    """What the counter counts of a run, and what the run prints."""
    options, pattern = counter
    with open(stdin or "/dev/null", "rb") as given:
        done = subprocess.run(["valgrind", *options, *map(str, words)], stdin=given, capture_output=True, text=True)
    found = pattern.search(done.stderr)
    if done.returncode != 0 or not found:
        sys.exit(f"{' '.join(map(str, words))} ended with status {done.returncode}:\n{done.stderr[-800:]}")
    return int(found[1].replace(",", "")), int(done.stdout.split()[0])


def round_of(counter, words_of, stdin=None):
    """The count of one round, and the number that it prints."""
    two, number = run(counter, words_of(2), stdin)
    four, _ = run(counter, words_of(4), stdin)
    return (four - two) / 2, number


def print_words(tree, count, layout, names):
    return lambda rounds: [program("print_speed"), tree, count, rounds, layout, "text", names, "exact"]


def of_prints(pool):
    asked = {}
    for tree, count in PRINTS:
        for layout in ["default", "one_line"]:
            for names in ["compact", "own"]:
                asked[tree, layout, names] = pool.submit(round_of, INSTRUCTIONS, print_words(tree, count, layout, names))
    print("instructions a byte: default layout, on one line (names of their own)")
    for tree, count in PRINTS:
        told = []
        for layout in ["default", "one_line"]:
            compact, own = ([asked[tree, layout, names].result() for names in ["compact", "own"]])
            told.append(f"{compact[0] / compact[1]:.1f} ({own[0] / own[1]:.1f})")
        print(f"{tree} {count}: {', '.join(told)}", flush=True)


def of_misses(pool):
    asked = {}
    for tree, count in MISSES:
        for names in ["compact", "own"]:
            asked[tree, names] = pool.submit(round_of, READ_MISSES, print_words(tree, count, "default", names))
    print("last-level read misses for 1,000 bytes (names of their own)")
    for tree, count in MISSES:
        compact, own = ([asked[tree, names].result() for names in ["compact", "own"]])
        print(f"{tree} {count}: {1000 * compact[0] / compact[1]:.0f} ({1000 * own[0] / own[1]:.0f})", flush=True)


def resident(tree, count, names):
    """The most memory, in KiB, that a program holds which builds so many, and prints none of them."""
    words = [program("print_speed"), tree, count, 0, "default", "sink", names, "exact"]
    child = subprocess.Popen(list(map(str, words)), stdout=subprocess.DEVNULL)
    _, status, usage = os.wait4(child.pid, 0)
    if status:
        sys.exit(f"{' '.join(map(str, words))} ended with status {status}")
    return usage.ru_maxrss


def of_trees():
    print("memory of a tree, KiB (names of their own)")
    for tree, count in TREES:
        compact, own = ((resident(tree, 200 * count, names) - resident(tree, 100 * count, names)) / 100 for names in ["compact", "own"])
        print(f"{tree} {count}: {compact:.0f} ({own:.0f})", flush=True)


def of_calls(pool, document):
    def ask(counter, operation):
        return pool.submit(round_of, counter, lambda rounds: [program("op_speed"), operation, rounds], document)

    counts = {it: ask(INSTRUCTIONS, it) for it in CALLS + FINDS}
    memory = {it: ask(MEMORY, it) for it in CALLS}
    found = {it: (counts[it].result()[0], memory[it].result()[0]) for it in CALLS}
    found["drop"] = (found["build_drop"][0] - found["build"][0], 0)
    text, json = counts["print"].result()[1], Path(document).stat().st_size
    bytes_of = {"read": json, "write": json, "write_text": json} | {it: counts["build_print"].result()[1] for it in ["build", "build_drop", "drop", "build_print"]}
    print(f"{json} bytes of AST JSON, {text} of GraphQL, {bytes_of['build']} of what is built: millions of instructions, instructions a byte, bytes of memory a byte")
    for operation, (instructions, asked) in found.items():
        size = bytes_of.get(operation, text)
        print(f"{operation}: {instructions / 1e6:.3f}, {instructions / size:.2f}, {asked / size:.2f}", flush=True)
    for operation in FINDS:
        print(f"{operation}: {counts[operation].result()[0] / ITEMS:.1f} instructions an item", flush=True)


def main():
    words = argparse.ArgumentParser(description=__doc__, formatter_class=argparse.RawDescriptionHelpFormatter)
    words.add_argument("--jobs", type=int, default=2)
    words.add_argument("what", nargs="*", default=["prints", "misses"])
    given = words.parse_args()
    with ThreadPoolExecutor(given.jobs) as pool:
        what = iter(given.what)
        for word in what:
            if word == "prints":
                of_prints(pool)
            elif word == "misses":
                of_misses(pool)
            elif word == "trees":
                of_trees()
            elif word == "calls" and (document := next(what, None)):
                of_calls(pool, document)
            else:
                words.error(f"what is {word}?")


if __name__ == "__main__":
    main()
