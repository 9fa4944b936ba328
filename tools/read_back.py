#!/usr/bin/env python3
"""Reads what the printer prints with the parser of the public package graphql-core, and compares trees.

    tools/read_back.py [GROUP..]

The program `golden` prints the tree of each print of the groups (all in crates/golden/data, if none is named), and says that the
text is that of the case. graphql-core reads the text, and its tree, written as AST JSON, has to be that of the case.
Locations and `block` are left out of the comparison, and so are cases that no reader can read: of trees that are not
well formed, under a prefix of other characters than spaces and tabs, of trees that are deeper than JSON is read, and of
operations, fragments and variables with descriptions, which graphql-core 3.2 doesn't know. What is neither a document,
nor a definition, nor a value is read inside one: a directive behind a field, an input value definition as a field of an
input object, a selection in a query.

It needs Python 3.8, `pip install graphql-core==3.2.*`, and the program, which `rt run` builds in crates/golden. It says
how many texts were read, and how many of the trees differ; the exit status is 0 if none does.
"""
import json
import os
import subprocess
import sys

import graphql
from graphql.language import ast, parse, parse_value

sys.setrecursionlimit(20000)
ROOT = os.path.join(os.path.dirname(os.path.abspath(__file__)), "..", "crates", "golden")
DATA = os.path.join(ROOT, "data")
PROGRAM = os.path.join(ROOT, "out", "golden")
LISTS = {
    "Directive": ["arguments"],
    "InputValueDefinition": ["directives"],
    "DirectiveDefinition": ["arguments"],
}
EXECUTABLE = ("OperationDefinition", "FragmentDefinition", "VariableDefinition")
# what is no definition is read inside of one: the text around it, and the way from the definition to it
INSIDE = {
    "InputValueDefinition": ("input Input { %s }", lambda definition: definition.fields[0]),
    "FieldDefinition": ("type Type { %s }", lambda definition: definition.fields[0]),
    "EnumValueDefinition": ("enum Enum { %s }", lambda definition: definition.values[0]),
    "VariableDefinition": ("query (%s) { field }", lambda definition: definition.variable_definitions[0]),
    "Directive": ("{ field %s }", lambda definition: definition.selection_set.selections[0].directives[0]),
    "Field": ("{ %s }", lambda definition: definition.selection_set.selections[0]),
    "FragmentSpread": ("{ %s }", lambda definition: definition.selection_set.selections[0]),
    "InlineFragment": ("{ %s }", lambda definition: definition.selection_set.selections[0]),
}


def normal(tree):
    """AST JSON without locations, `block` and null members, and with the lists that may be left out."""
    if isinstance(tree, list):
        return [normal(item) for item in tree]
    if not isinstance(tree, dict):
        return tree
    kept = {name: member for name, member in tree.items() if name not in ("loc", "block") and member is not None}
    members = {name: normal(member) for name, member in kept.items()}
    for name in LISTS.get(tree["kind"], []):
        members.setdefault(name, [])
    return members


def camel(words):
    first, *more = words.split("_")
    return first + "".join(word.capitalize() for word in more)


def told(node):
    """A tree of graphql-core as AST JSON."""
    if isinstance(node, (list, tuple)):
        return [told(item) for item in node]
    if isinstance(node, graphql.OperationType):
        return node.value
    if not isinstance(node, ast.Node):
        return node
    members = {camel(key): told(getattr(node, key)) for key in node.keys if key != "loc"}
    kind = type(node).__name__[: -len("Node")]
    if kind == "FragmentDefinition":
        del members["variableDefinitions"]
    return normal({"kind": kind, **members})


def has_new_description(tree):
    """Whether an operation, a fragment definition or a variable definition of the tree has a description."""
    if isinstance(tree, list):
        return any(has_new_description(item) for item in tree)
    if not isinstance(tree, dict):
        return False
    if tree.get("kind") in EXECUTABLE and tree.get("description") is not None:
        return True
    return any(has_new_description(member) for member in tree.values())


def is_told(tree):
    """Whether the tree stands in the case, not only a number that tells it."""
    return is_list(tree) or "kind" in tree


def is_readable(case):
    is_read_back = case["text"] is not None and case["well_formed"] and set(case["prefix"] or "") <= {" ", "\t"}
    return is_read_back and is_told(case["tree"]) and not has_new_description(case["tree"])


def is_list(tree):
    return isinstance(tree, list)


def read(tree, text):
    """The tree that graphql-core reads in the text of a tree."""
    if is_list(tree):
        return told(parse("{ field %s }" % text).definitions[0].selection_set.selections[0].directives)
    if tree["kind"] in INSIDE:
        around, way = INSIDE[tree["kind"]]
        return told(way(parse(around % text).definitions[0]))
    if tree["kind"] == "Document":
        return told(parse(text))
    if tree["kind"].endswith(("Definition", "Extension")):
        return told(parse(text).definitions[0])
    return told(parse_value(text))


def groups_of(words):
    """The files of the groups that are named, or of all."""
    with open(os.path.join(ROOT, "args"), encoding="utf-8") as source:
        files = source.read().split()
    return [file for file in files if not words or file.removesuffix(".jsonl") in words]


def cases_of(file):
    with open(os.path.join(DATA, file), encoding="utf-8") as source:
        return [json.loads(line) for line in source]


def main(words):
    files = groups_of(words)
    if subprocess.run([PROGRAM, *files], cwd=DATA).returncode != 0:
        print("the program prints another text than that of a case")
        return 1
    count = different = 0
    for case in (case for file in files for case in cases_of(file)):
        wanted = case.get("print")
        if wanted is None or not is_readable(wanted):
            continue
        count += 1
        try:
            found = read(wanted["tree"], wanted["text"])
        except graphql.GraphQLError as error:
            found = str(error)
        if found != normal(wanted["tree"]):
            different += 1
            print(f"{case['name']}: {found}")
    print(f"{count} texts read with graphql-core {graphql.version}, {different} trees differ")
    return 0 if different == 0 else 1


sys.exit(main(sys.argv[1:]))
