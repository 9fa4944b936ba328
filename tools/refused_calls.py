#!/usr/bin/env python3
"""Lists the public calls of the libraries that may be refused memory, and those that no test of refused memory calls.

    tools/refused_calls.py [--list]

The calls are the public functions and methods that docs/API.md names and those of graphql_ast_calls, of which the signature takes an allocator and returns a
`Result` or a status, or returns an error of memory; and the `clone` of each public type that isn't `Copy`.

A call is in a test where a file calls it that a test of refused memory (its name has `refused_memory`, or `refusals` before it) stands in, or that such a file
uses: a file of the crate of tests, of `worked_trees` or of `graphql_checks`. Text alone is looked at, as `.make_mut(`, `Node::new(` or `concat(`; a type is cloned where such a file
has a function that returns it, or names it as `check_clone::<NodeStr>`.
"""
import re
import sys
from pathlib import Path

import api

CRATES = Path(__file__).resolve().parent.parent / "crates"
# the libraries for the crates of tests
SHARED = ("worked_trees", "graphql_checks")
OF_MEMORY = re.compile(r"\b(AllocError|NameError|LiteralError|PrintError|SpecifiedArgumentError|AstJsonError|WellFormedError|WordsError|SinkFault|Rebuilt)\b")
CLONE = re.compile(r"#\[derive\(([^)]*)\)\]\n(?:#\[[^\n]*\n)*pub (?:struct|enum) (\w+)|^impl(?:<[^{\n]*?>)? Clone for (\w+)", re.M)

# of what a call alone tells too little, how the tests call it
CALLED = {
    "Document::push": r"\bdocument\.push\(",
    "DirectiveList::push": r"\blist\.push\(",
    "NodeStr::same_location": r"\btext\.same_location\(",
    "Node::same_location": r"\bnode\.same_location\(",
    "Type::list": r"\.list\(|\bty!\(in\b",
    "Syntax::write": r"\.print_to\(",
    "FindFlaws::push_flaws": r"\.flaws\(",
    **{f"Rewriter::{name}": r"\.rebuild\(" for name in ["value", "arguments", "directives", "field", "selections"]},
}
# what the macro `value!` calls
OF_VALUE_MACRO = r"\bvalue!\(in\b"


def signature_takes_memory(code):
    head, _, returned = code.partition(") -> ")
    takes = re.search(r"\balloc: Global\b", head) is not None
    return bool(OF_MEMORY.search(returned)) or takes and bool(re.match(r"Result<|Status\b|\(?Outcome\b", returned)) or returned.startswith("Result<(), Node<")


def functions_of_calls():
    """The public functions of graphql_ast_calls."""
    for path in sorted((CRATES / "graphql_ast_calls/src").rglob("*.rt")):
        lines = path.read_text(encoding="utf-8").split("\n")
        for number, line in enumerate(lines):
            if found := re.match(r"pub fn (\w+)", line):
                yield f"graphql_ast_calls::{found[1]}", api.signature(lines, number)


def calls():
    """The path of each call, and its signature."""
    items = [(item.path, item.code) for item in api.all_items() if re.match(r"(\w+::)?\w+(<.*?>)?\(", item.code)]
    found = {path: code for path, code in [*items, *functions_of_calls()] if signature_takes_memory(code)}
    return found


def cloned_types():
    """The public types that are cloned by a call that may be refused memory: those that aren't `Copy`."""
    names = {item.path.split("::")[-1] for item in api.all_items() if re.match(r"(struct|enum) ", item.code)}
    found = set()
    for path in CRATES.glob("graphql_*/src/**/*.rt"):
        for derived, name, implied in CLONE.findall(path.read_text(encoding="utf-8")):
            if implied or "Clone" in derived and "Copy" not in derived:
                found.add(name or implied)
    return found & names


def has_refusals(path, text):
    return re.search(r"fn \w*refused_memory\w*\(rt: HostRuntime", text) or "refusals" in (path.stem, *path.parts) and "#[test]" in text


def used_by(path, root):
    """The files of a crate of tests, or of a library for these, that a file uses."""
    text = path.read_text(encoding="utf-8")
    for base, rest in re.findall(rf"^use (crate|{'|'.join(SHARED)})((?:::\w+)+)", text, re.M):
        top = root if base == "crate" else CRATES / base / "src"
        parts = rest.strip(":").split("::")
        for end in range(len(parts), 0, -1):
            file = top.joinpath(*parts[:end]).with_suffix(".rt")
            if file.exists():
                yield file
                break


def texts_of_tests():
    """The text of each file that a test of refused memory stands in or uses."""
    found = {}
    for crate in CRATES.glob("*_tests"):
        root = crate / "src"
        waiting = [path for path in root.rglob("*.rt") if has_refusals(path.relative_to(root), path.read_text(encoding="utf-8"))]
        while waiting:
            path = waiting.pop()
            if path not in found:
                found[path] = path.read_text(encoding="utf-8")
                inner = path.relative_to(CRATES).parts[0]
                waiting += used_by(path, CRATES / inner / "src")
    return "\n".join(found.values())


def pattern(path, code):
    """How a call looks in a test."""
    owner, name = path.split("::")[-2:]
    if f"{owner}::{name}" in CALLED:
        return CALLED[f"{owner}::{name}"]
    if "value_macro" in path:
        return OF_VALUE_MACRO
    if re.search(r"\((&(mut )?)?self\b|\(&'\w+ (mut )?self\b", code):
        return rf"\.{name}(::<[^(]*>)?\("
    if owner[0].isupper():
        return rf"\b\w+(<[^(]*>)?::{name}(::<[^(]*>)?\(" if owner in ("AstJson", "AstNode", "Located") else rf"\b{owner}(::<[^(]*>)?::{name}\("
    return rf"(?<!fn )\b{name}(::<[^(]*>)?\("


def calls_and_missing():
    """All calls, and those that no test of refused memory calls."""
    text = texts_of_tests()
    found = dict(sorted(calls().items()))
    missing = [path for path, code in found.items() if not re.search(pattern(path, code), text)]
    types = sorted(cloned_types())
    clones = {f"{name}::clone" for name in types}
    missing += [f"{name}::clone" for name in types if not re.search(rf"-> Result<{name}, |check_clone::<{name}\b", text)]
    return [*found, *clones], missing


def main():
    found, missing = calls_and_missing()
    for call in sorted(found) if sys.argv[1:] == ["--list"] else missing:
        print(call)
    print(f"{len(found)} calls, {len(missing)} in no test")
    return 1 if missing else 0


if __name__ == "__main__":
    sys.exit(main())
