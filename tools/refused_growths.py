#!/usr/bin/env python3
"""Runs the tests of refused memory with each of their growths refused in turn: such a test passes where the call that met the refusal
answered it, and left what it promises to leave.

    tools/refused_growths.py [--jobs JOBS] [--count] [--calls] [CRATE..]

A growth is a request for memory. The tests are those whose name has `refused_memory`, or `refusals::` before it; without a name it goes over
all crates that have some, JOBS at once. `rt try --test --fail-alloc N` builds the tests of a crate, which takes a minute, and refuses the Nth
growth of each. So it is run twice, over copies of the crate. In the first each of these tests goes on with growths that have to be granted, a late
one of which is refused: the test tells which, so its own are counted. In the second there is a test for each growth of each test, which begins with
growths that are granted, as many as leave that one to be refused. With --count it only counts.

How often a test asks stands above it: a line `Allocations: COUNT.` of its docstring. It says how often a loop over all of its growths goes round, so a
test that has come to ask more often, or less, is looked at again.

It also compares how often calls ask for memory, by the tests below `growths`, where NAME_built makes what calls are given. What a test
NAME_then_CALL_takes_COUNT asks for has to be COUNT more than what NAME_built asks for, and it fails where one of its growths is refused. A test
NAME_called makes several calls, and fails where a growth of one of them is refused: it says then a message of the form `CALL takes COUNT`, which
has to come as often as it says, over all growths (one of 0 never comes); and it has to ask as much more often than NAME_built.

Without a name, or with --calls, it also looks for calls of the libraries that may be refused memory and that no test of refused memory calls, as
tools/refused_calls.py finds them.

It prints the count of each test, and fails where a test fails, where one has no growth (one whose name begins with `no_memory`: where it has
some), where a count isn't as is said of it, where a call is in no such test, and where a crate that is named has no such test.
"""
import argparse
import collections
import re
import shutil
import subprocess
import sys
import tempfile
from concurrent.futures import ThreadPoolExecutor
from pathlib import Path

import refused_calls

CRATES = Path(__file__).resolve().parent.parent / "crates"
LATE = 4000
SAID = re.compile(r"/// Allocations: ([0-9]+)\.\n(?:///[^\n]*\n)*#\[test\]\nfn (\w+)\(")
MESSAGE = re.compile(r'"([^"\n]* takes ([0-9]+))"')
TEST = re.compile(r"#\[test\]\nfn (\w+)\(rt: HostRuntime\) \{(.*?)\n\}", re.S)
failures = []


def fail(text):
    print(text, flush=True)
    failures.append(text)


def is_of_refusals(name):
    return "refusals::" in name or "refused_memory" in name.split("::")[-1]


def is_of_growths(name):
    return "growths::" in name


def tried(folder, refused):
    """Of each test of a crate whether it passes with this growth refused, and what it says."""
    command = ["rt", "try", "--test", "--fail-alloc", str(refused)]
    run = subprocess.run(command, cwd=folder, stdout=subprocess.PIPE, stderr=subprocess.STDOUT, text=True, check=False)
    found = {}
    for line in run.stdout.split("\n"):
        test = re.match(r"test (\S+) \.\.\. (\w+)$", line)
        if test:
            found[test[1]] = [test[2] == "ok", ""]
            last = test[1]
        elif found and line.startswith("    "):
            found[last][1] += line[4:] + " "
    if not found:
        fail(f"{folder.name}: rt try has no answer: {run.stdout[-300:]}")
    return found


def tried_copy(crate, tests_of, refused):
    """The same of a copy of the crate, in whose files each test of refused memory, and each below `growths`, is a function, with these tests of it."""
    with tempfile.TemporaryDirectory() as top:
        copy = Path(top) / "crates"
        shutil.copytree(CRATES, copy, ignore=shutil.ignore_patterns("out", "data", "proofs", "must-fail", "planted", "stdout"))
        for name in ["crates.txt", "HANDLES"]:
            shutil.copy(CRATES.parent / name, top)
        source = copy / crate / "src"
        for file in source.rglob("*.rt"):
            is_whole = {"refusals", "growths"} & {file.stem, *file.parent.parts}
            room = "::".join(file.relative_to(source).with_suffix("").parts)

            def changed(test, is_whole=is_whole, room=room):
                name, body = test[1], test[2].replace("&rt", "rt").replace("rt.alloc()", "alloc")
                if not (is_whole or "refused_memory" in name):
                    return test[0]
                inner = f"fn {name}_itself(rt: &impl std::process::Abort, alloc: std::alloc::Global) {{{body}\n}}\n"
                return inner + "".join(tests_of(f"{room}::{name}", name))

            old = file.read_text(encoding="utf-8")
            text = TEST.sub(changed, old)
            if text != old:
                file.write_text(text + GRANTED, encoding="utf-8")
        return tried(copy / crate, refused)


def growths(crate):
    """How many growths each test of refused memory has, and each below `growths`."""
    def goes_on(_, name):
        yield f"\n#[test]\nfn {name}(rt: HostRuntime) {{\n    {name}_itself(&rt, rt.alloc());\n    requests_are_granted(&rt, rt.alloc(), {2 * LATE});\n}}\n"

    found = {}
    for name, (_, said) in tried_copy(crate, goes_on, LATE).items():
        last = re.search(r"granted ([0-9]+)", said)
        if last:
            found[name] = LATE - 1 - int(last[1])
        elif is_of_refusals(name) or is_of_growths(name):
            fail(f"{crate}, {name}: its growths aren't counted: {said}")
    return found


GRANTED = """
/// Asks for memory so many times, and says which request was refused.
fn requests_are_granted(rt: &impl std::process::Abort, alloc: std::alloc::Global, count: usize) {
    for index in 0..count {
        let text = std::string::String::from_str(alloc, "a text of its own");
        assert!(rt; text.is_ok(), "granted {index}");
    }
}
"""


def said_counts(crate):
    """What is said above each test of how often it asks for memory."""
    source, found = CRATES / crate / "src", {}
    for file in source.rglob("*.rt"):
        room = "::".join(file.relative_to(source).with_suffix("").parts)
        for count, name in SAID.findall(file.read_text(encoding="utf-8")):
            found[f"{room}::{name}"] = int(count)
    return found


def check_counts(crate, counts):
    said = said_counts(crate)
    for name, count in counts.items():
        print(f"{crate}, {name}: {count}", flush=True)
        last = name.split("::")[-1]
        if is_of_refusals(name) and not last.startswith("no_memory") and said.get(name) != count:
            fail(f"{crate}, {name}: asks {count} times, and not {said.get(name, 'as often as is said above it')}")
        if is_of_growths(name):
            takes = re.match(r"(.+)_then_.+_takes_([0-9]+)$", name)
            if takes and count - counts.get(takes[1] + "_built", LATE) != int(takes[2]):
                fail(f"{crate}, {name}: not what its name says")
            told = sum(int(it) for _, it in messages_of(crate))
            if name.endswith("_called") and count - counts.get(name.removesuffix("called") + "built", LATE) != told:
                fail(f"{crate}, {name}: its calls don't ask as often as its messages say, {told} times")
        elif (count == 0) != last.startswith("no_memory"):
            fail(f"{crate}, {name}: asks for memory, or doesn't")


def check_refused(crate, counts):
    """Whether each test of refused memory passes with each of its growths refused, and fails where it is one below `growths`."""
    refused = max(counts.values())

    def one_by_one(path, name):
        for growth in range(1, counts.get(path, 0) + 1):
            head = f"\n#[test]\nfn {name}_without_{growth}(rt: HostRuntime) {{"
            yield head + f"\n    requests_are_granted(&rt, rt.alloc(), {refused - growth});\n    {name}_itself(&rt, rt.alloc());\n}}\n"

    found = tried_copy(crate, one_by_one, refused)
    messages = collections.Counter()
    for name, count in counts.items():
        for growth in range(1, count + 1):
            passes, said = found.get(f"{name}_without_{growth}", (None, "not run"))
            calls = [message for message, _ in messages_of(crate) if re.search(rf"(^|: ){message}( |$)", said)]
            messages.update(calls)
            if is_of_growths(name):
                is_as_wanted = passes is False if "_takes_" in name else passes or calls or name.endswith("_built")
            else:
                is_as_wanted = passes
            if passes is None or "granted" in said or not is_as_wanted:
                fail(f"{crate}, {name}, growth {growth}: {said or 'passes'}")
    for message, count in sorted(messages_of(crate)):
        print(f"{crate}, {message}: {messages[message]}", flush=True)
        if messages[message] != int(count):
            fail(f"{crate}, {message}: asks {messages[message]} times")
    for name, count in counts.items():
        if name.endswith("_called") and count - counts.get(name.removesuffix("called") + "built", LATE) != messages.total():
            fail(f"{crate}, {name}: its calls ask more often than is said where one is refused")


def messages_of(crate):
    """The messages of the tests below `growths`, each with its count."""
    texts = [file.read_text(encoding="utf-8") for file in (CRATES / crate / "src").rglob("growths.rt")]
    return {found for text in texts for found in MESSAGE.findall(text)}


def crates_with_some():
    for folder in sorted(CRATES.iterdir()):
        texts = [file.read_text(encoding="utf-8") for file in folder.glob("src/**/*.rt")]
        if any(re.search(r"fn [a-z0-9_]*refused_memory|mod refusals", text) for text in texts):
            yield folder.name


def check_crate(crate, is_counted):
    """Checks a crate, and gives the counts of its tests of refused memory."""
    counts = growths(crate)
    check_counts(crate, counts)
    own = [count for name, count in counts.items() if is_of_refusals(name)]
    if not own:
        fail(f"{crate}: no test of refused memory")
    elif not is_counted:
        check_refused(crate, counts)
    return own


def main():
    arguments = argparse.ArgumentParser(description=__doc__, formatter_class=argparse.RawDescriptionHelpFormatter)
    arguments.add_argument("--jobs", type=int, default=1)
    arguments.add_argument("--count", action="store_true")
    arguments.add_argument("--calls", action="store_true")
    arguments.add_argument("crates", nargs="*")
    given = arguments.parse_args()
    if given.calls or not given.crates:
        calls, missing = refused_calls.calls_and_missing()
        for call in missing:
            fail(f"{call}: no test of refused memory calls it")
        print(f"calls that may be refused memory: {len(calls)}, in tests {len(calls) - len(missing)}", flush=True)
    with ThreadPoolExecutor(given.jobs) as pool:
        counts = [count for own in pool.map(lambda crate: check_crate(crate, given.count), given.crates or crates_with_some()) for count in own]
    print(f"tests of refused memory: {len(counts)}, growths {'counted' if given.count else 'refused'}: {sum(counts)}")
    sys.exit(1 if failures else 0)


main()
