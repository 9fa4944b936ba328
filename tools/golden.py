#!/usr/bin/env python3
"""Makes cases of the program `golden` of cases that an independent model of the layout rules made.

    tools/golden.py FILE.. > NEW && mv NEW crates/golden/data/GROUP.jsonl

A FILE whose name ends in `.json` is an array of cases. Any other is a group that stands, whose lines stay: give it first, and then the
new cases. The output has a case a line, as the types of crates/golden/src/case.rt read it: a print has its tree in AST JSON, the form of
graphql-js 16. A name that two cases have is refused, and so are names of two groups.

The model knows the rules of docs/LAYOUT.md and nothing of this printer; the texts in the cases are its own. A case is an object with the
members `name`, `kind` (those of other kinds than those of KINDS are passed over), `tree`, `prefix` (null: on one line), `level` (a text
where the number is great), `well_formed`, `flaw` if it isn't well formed, and `text`, or `refusal` where the level overflows. A tree is
`{"node": CLASS, FIELD: ..}`; one that is deeper than JSON is read is told by its number: `{"built": "N lists, each the one item .."}` or
`{"built": "anonymous query, N selection sets .."}`. A flaw is the first in the order of print: `{"condition": WORDS, "name": ..}`, the
words as a `SideCondition` is displayed, and the name that breaks it, or else that of what breaks it, or null where that has no name.

A name is the group, the rule in plain words, and the layout, if it isn't the default: `string/line-feed/one-line`. A group is a file of
crates/golden/data. All texts are the model's but for those of `read` and `refused`, which are written by hand:

- `value`, `string`, `description` (at each kind that has one, or has a member that has one), `directive` (with directive definitions and
  input values), `type-system`, `executable`, `document`: the rules of docs/LAYOUT.md, a case or a few each;
- `layout`: prefixes, levels, and what needs a level at the greatest one;
- `side-condition`: what is well formed and what isn't, and why, in one layout, since no side condition depends on it;
- `size`: pieces longer than the buffer of a print (1,024 bytes), and names about its length and twice its length; `nested`: 5,000 lists on
  one line and under an empty prefix, 200 under two spaces and under a tab, whose text grows with the square of the number, and 1,000
  selection sets. As `rt run` builds the program its stack carries 5,000; the checked build of `rt try` runs out of stack between 2,500
  and 3,000;
- `read`: JSON that is written as it was read, with its locations and with `block`, and prints of trees with locations, with `block`, and with members that
  are null or left out; `refused`: JSON that is of no tree, and the error that the words of crates/ast_json_nodes/src/error.rt say of it;
- `random-value`, `random-directive`, `random-type-system`, `random-executable`, `random-document`: random trees, some of them ill formed,
  each in one or several layouts and at levels near the greatest; the number in a name counts the trees of its kind.
"""
import json
import re
import sys
from collections import Counter

LEAVES = {"Enum": "name", "String": "value", "Float": "text", "Int": "text", "Boolean": "value"}


def name(text):
    return {"kind": "Name", "value": text}


def named_value(kind, text, inner):
    return {"kind": kind, "name": name(text), "value": value(inner)}


def value(tree):
    if "built" in tree:
        return {"nested_lists": int(re.match(r"([0-9]+) lists, each the one item", tree["built"])[1])}
    node = tree["node"]
    if node == "Null":
        return {"kind": "NullValue"}
    if node == "Variable":
        return {"kind": "Variable", "name": name(tree["name"])}
    if node == "List":
        return {"kind": "ListValue", "values": [value(item) for item in tree["items"]]}
    if node == "Object":
        return {"kind": "ObjectValue", "fields": [named_value("ObjectField", text, field) for text, field in tree["items"]]}
    return {"kind": node + "Value", "value": tree[LEAVES[node]]}


def type_reference(tree):
    node = tree["node"]
    if node == "Named":
        return {"kind": "NamedType", "name": name(tree["name"])}
    if node == "ListT":
        return {"kind": "ListType", "type": type_reference(tree["inner"])}
    inner = {**tree, "node": {"NonNullNamed": "Named", "NonNullList": "ListT"}[node]}
    return {"kind": "NonNullType", "type": type_reference(inner)}


def directive(tree):
    arguments = [named_value("Argument", argument["name"], argument["value"]) for argument in tree["arguments"]]
    return {"kind": "Directive", "name": name(tree["name"]), "arguments": arguments}


def directive_list(tree):
    return [directive(item) for item in tree["items"]]


def described(tree, body):
    if tree.get("description") is None:
        return body
    return {"kind": body["kind"], "description": {"kind": "StringValue", "value": tree["description"]}, **body}


def input_value_definition(tree):
    body = {"kind": "InputValueDefinition", "name": name(tree["name"]), "type": type_reference(tree["ty"])}
    if tree["default_value"] is not None:
        body["defaultValue"] = value(tree["default_value"])
    body["directives"] = directive_list(tree["directives"])
    return described(tree, body)


def directive_definition(tree):
    body = {
        "kind": "DirectiveDefinition",
        "name": name(tree["name"]),
        "arguments": [input_value_definition(argument) for argument in tree["arguments"]],
        "repeatable": tree["repeatable"],
        "locations": [name(location) for location in tree["locations"]],
    }
    return described(tree, body)


def named_type(text):
    return {"kind": "NamedType", "name": name(text)}


def field_definition(tree):
    body = {
        "kind": "FieldDefinition",
        "name": name(tree["name"]),
        "arguments": [input_value_definition(argument) for argument in tree["arguments"]],
        "type": type_reference(tree["ty"]),
        "directives": directive_list(tree["directives"]),
    }
    return described(tree, body)


def enum_value_definition(tree):
    body = {"kind": "EnumValueDefinition", "name": name(tree["value"]), "directives": directive_list(tree["directives"])}
    return described(tree, body)


def root_operation(pair):
    return {"kind": "OperationTypeDefinition", "operation": pair[0], "type": named_type(pair[1])}


# what definitions and extensions of the type system have besides a description: of each member its name in AST JSON, and its form
MEMBERS = {
    "name": ("name", name),
    "implements_interfaces": ("interfaces", lambda names: [named_type(text) for text in names]),
    "directives": ("directives", directive_list),
    "members": ("types", lambda names: [named_type(text) for text in names]),
    "values": ("values", lambda values: [enum_value_definition(item) for item in values]),
    "root_operations": ("operationTypes", lambda pairs: [root_operation(pair) for pair in pairs]),
}


def fields(tree):
    form = input_value_definition if tree["node"].startswith("InputObject") else field_definition
    return [form(field) for field in tree["fields"]]


def type_system(tree):
    body = {"kind": tree["node"]}
    for field, (member, form) in MEMBERS.items():
        if field in tree:
            body[member] = form(tree[field])
    if "fields" in tree:
        body["fields"] = fields(tree)
    return described(tree, body)


def with_members(kind, **members):
    """A node of this kind. A member that is None is left out."""
    return {"kind": kind, **{member: form for member, form in members.items() if form is not None}}


def optional(form, tree):
    return None if tree is None else form(tree)


def variable_definition(tree):
    body = with_members(
        "VariableDefinition",
        variable={"kind": "Variable", "name": name(tree["name"])},
        type=type_reference(tree["ty"]),
        defaultValue=optional(value, tree["default_value"]),
        directives=directive_list(tree["directives"]),
    )
    return described(tree, body)


def selection_set(trees):
    return {"kind": "SelectionSet", "selections": [selection(tree) for tree in trees]}


def field(tree):
    return with_members(
        "Field",
        alias=optional(name, tree["alias"]),
        name=name(tree["name"]),
        arguments=[named_value("Argument", argument["name"], argument["value"]) for argument in tree["arguments"]],
        directives=directive_list(tree["directives"]),
        selectionSet=selection_set(tree["selection_set"]) if tree["selection_set"] else None,
    )


def fragment_spread(tree):
    return with_members("FragmentSpread", name=name(tree["fragment_name"]), directives=directive_list(tree["directives"]))


def inline_fragment(tree):
    return with_members(
        "InlineFragment",
        typeCondition=optional(named_type, tree["type_condition"]),
        directives=directive_list(tree["directives"]),
        selectionSet=selection_set(tree["selection_set"]),
    )


SELECTIONS = {"Field": field, "FragmentSpread": fragment_spread, "InlineFragment": inline_fragment}


def selection(tree):
    return SELECTIONS[tree["node"]](tree)


def operation_definition(tree):
    if "built" in tree:
        return {"nested_fields": int(re.match(r"anonymous query, ([0-9]+) selection sets each in the field a", tree["built"])[1])}
    body = with_members(
        "OperationDefinition",
        operation=tree["operation_type"],
        name=optional(name, tree["name"]),
        variableDefinitions=[variable_definition(variable) for variable in tree["variables"]],
        directives=directive_list(tree["directives"]),
        selectionSet=selection_set(tree["selection_set"]),
    )
    return described(tree, body)


def fragment_definition(tree):
    body = with_members(
        "FragmentDefinition",
        name=name(tree["name"]),
        typeCondition=named_type(tree["type_condition"]),
        directives=directive_list(tree["directives"]),
        selectionSet=selection_set(tree["selection_set"]),
    )
    return described(tree, body)


DEFINITIONS = {
    **{kind + end: type_system for kind in ("Schema", "ScalarType", "ObjectType", "InterfaceType", "UnionType", "EnumType",
        "InputObjectType") for end in ("Definition", "Extension")},
    "DirectiveDefinition": directive_definition,
    "OperationDefinition": operation_definition,
    "FragmentDefinition": fragment_definition,
}


def definition(tree):
    return DEFINITIONS[tree["node"]](tree)


def document(tree):
    return {"kind": "Document", "definitions": [definition(item) for item in tree["definitions"]]}


KINDS = {
    "Value": value,
    "Directive": directive,
    "DirectiveList": directive_list,
    "InputValueDefinition": input_value_definition,
    "FieldDefinition": field_definition,
    "EnumValueDefinition": enum_value_definition,
    "VariableDefinition": variable_definition,
    "Selection": selection,
    **SELECTIONS,
    **DEFINITIONS,
    "Definition": definition,
    "Document": document,
}


def kind(entry):
    """The kind in the table of crates/golden/src/kinds.rt. A selection and a definition are of the kind of their node."""
    if "built" in entry["tree"]:
        return "NestedLists" if entry["kind"] == "Value" else "NestedFields"
    return entry["tree"]["node"] if entry["kind"] in ("Selection", "Definition") else entry["kind"]


def case(entry):
    assert ("refusal" in entry) != ("text" in entry)
    assert ("flaw" in entry) != entry["well_formed"]
    return {
        "name": entry["name"],
        "kind": kind(entry),
        "print": {
            "tree": KINDS[entry["kind"]](entry["tree"]),
            "prefix": entry["prefix"],
            "level": int(entry["level"]),
            "well_formed": entry["well_formed"],
            **({"flaw": entry["flaw"]} if "flaw" in entry else {}),
            "text": entry.get("text"),
        },
    }


def cases(path):
    with open(path, encoding="utf-8") as source:
        if not path.endswith(".json"):
            return source.read().splitlines()
        entries = json.load(source)
    return [json.dumps(case(entry), separators=(",", ":")) for entry in entries if entry["kind"] in KINDS]


def main(paths):
    lines = [line for path in paths for line in cases(path)]
    names = [json.loads(line)["name"] for line in lines]
    repeated = sorted(name for name, count in Counter(names).items() if count > 1)
    groups = sorted({name.split("/")[0] for name in names})
    if repeated or len(groups) > 1:
        sys.exit(f"names of several cases: {repeated}; groups: {groups}")
    for line in lines:
        print(line)


main(sys.argv[1:])
