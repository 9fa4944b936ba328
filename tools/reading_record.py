#!/usr/bin/env python3
"""Makes the texts that the program `reading_record` reads.

    tools/reading_record.py > NEW && mv NEW crates/reading_record/data/made.txt
    tools/reading_record.py SEED COUNT > FILE

The first makes the texts of the record, the same ones each time: first those that follow the table of node kinds (members that are left
out or of another type, wrong kinds, members that no node has, locations, texts outside the syntax, excerpts, side conditions, trees of other
kinds than documents, two faults in one text, and what is JSON and what isn't, as bytes too), and then RANDOM ones from a seed. The second
makes COUNT random ones from another seed, with which two builds are compared: both programs have to print the same of FILE.

The 805 texts of crates/reading_record/data/texts.jsonl are of an earlier maker, and stay as they are.

A text is a line. A byte of it that is a control character, `%`, or no UTF-8 stands as `%` and its two digits, so that a text can have
any bytes.
"""
import copy
import json
import random
import re
import sys

SEED, RANDOM = 20261128, 50

# A line is a kind, and its members. Behind a name: `!` a node, `?` a node or none, `+` an array of nodes, `*` one or none, `=` a text,
# `^` a boolean, `~` a boolean or none.
KINDS = """
Document definitions+Definition
OperationDefinition description?StringValue operation=operation name?Name variableDefinitions*VariableDefinition directives*Directive \
    selectionSet!SelectionSet
FragmentDefinition description?StringValue name!Name typeCondition!NamedType directives*Directive selectionSet!SelectionSet
VariableDefinition description?StringValue variable!Variable type!Type defaultValue?Value directives*Directive
SelectionSet selections+Selection
Field alias?Name name!Name arguments*Argument directives*Directive selectionSet?SelectionSet
FragmentSpread name!Name directives*Directive
InlineFragment typeCondition?NamedType directives*Directive selectionSet!SelectionSet
Argument name!Name value!Value
Directive name!Name arguments*Argument
Name value=name
Variable name!Name
IntValue value=int
FloatValue value=float
StringValue value=string block~
BooleanValue value^
NullValue
EnumValue value=name
ListValue values+Value
ObjectValue fields+ObjectField
ObjectField name!Name value!Value
NamedType name!Name
ListType type!Type
NonNullType type!Nullable
SchemaDefinition description?StringValue directives*Directive operationTypes*OperationTypeDefinition
OperationTypeDefinition operation=operation type!NamedType
ScalarTypeDefinition description?StringValue name!Name directives*Directive
ObjectTypeDefinition description?StringValue name!Name interfaces*NamedType directives*Directive fields*FieldDefinition
FieldDefinition description?StringValue name!Name arguments*InputValueDefinition type!Type directives*Directive
InputValueDefinition description?StringValue name!Name type!Type defaultValue?Value directives*Directive
InterfaceTypeDefinition description?StringValue name!Name interfaces*NamedType directives*Directive fields*FieldDefinition
UnionTypeDefinition description?StringValue name!Name directives*Directive types*NamedType
EnumTypeDefinition description?StringValue name!Name directives*Directive values*EnumValueDefinition
EnumValueDefinition description?StringValue name!Name directives*Directive
InputObjectTypeDefinition description?StringValue name!Name directives*Directive fields*InputValueDefinition
DirectiveDefinition description?StringValue name!Name arguments*InputValueDefinition repeatable~ locations+DirectiveLocation
SchemaExtension directives*Directive operationTypes*OperationTypeDefinition
ScalarTypeExtension name!Name directives*Directive
ObjectTypeExtension name!Name interfaces*NamedType directives*Directive fields*FieldDefinition
InterfaceTypeExtension name!Name interfaces*NamedType directives*Directive fields*FieldDefinition
UnionTypeExtension name!Name directives*Directive types*NamedType
EnumTypeExtension name!Name directives*Directive values*EnumValueDefinition
InputObjectTypeExtension name!Name directives*Directive fields*InputValueDefinition
"""
NULLABLE = ["NamedType", "ListType"]
VALUES = ["IntValue", "FloatValue", "StringValue", "BooleanValue", "NullValue", "EnumValue", "ListValue", "ObjectValue", "Variable"]
GROUPS = {
    "Selection": ["Field", "FragmentSpread", "InlineFragment"],
    "Value": VALUES,
    "Type": [*NULLABLE, "NonNullType"],
    "Nullable": NULLABLE,
}
WORDS = {
    "operation": ["query", "mutation", "subscription"],
    "name": ["a", "b", "T", "on", "true", "_", "name_that_is_longer"],
    "int": ["1", "0", "-7", "12345678901234567890123456789012345"],
    "float": ["1.5", "-0.0e1", "1e9", "1.00000000000000000000000000000000001"],
    "string": ["x", "", "two\nlines", "quo\"te", "é€😀", "\u0000", " y ", "\r\n"],
    "DirectiveLocation": ["FIELD", "SCHEMA", "QUERY", "ENUM_VALUE", "VARIABLE_DEFINITION", "INPUT_FIELD_DEFINITION"],
}
TYPES = {"null": None, "boolean": True, "number": 7, "string": "x", "array": [], "object": {}}
JUNK = [None, True, False, 0, -1, 1.5, 4294967295, 4294967296, 18446744073709551616, -0.0, "", "a", "1", "null", "on", "é", "\n", [], {}, [{}]]
JUNK += [{"kind": "Name", "value": "x"}, {"kind": "NullValue"}, {"kind": "IntValue", "value": "1"}, {"start": 1, "end": 2}]
JUNK += [{"end": 2, "start": 1}, {"start": 3, "end": 2}, {"start": 1}, {"start": 1, "end": 2, "line": 3}]
NAMES = ["kind", "loc", "name", "value", "start", "end", "zz", "aa", "Kind", "", "description", "directives", "arguments", "type", "fields"]
NAMES += ["values", "block", "é", "a\nb", "x" * 61, "€" * 60]
PIECES = ['"', "{", "}", "[", "]", ",", ":", "\\", "0", "1", "-", ".", "e", "null", "true", " ", "\t", "\n", "\r", "é", "x", '"kind"', ',"a":1', "/"]
PIECES += ["\\u0000", "\\ud800", "1e999"]
NO_TEXT = [b"\xff", b"\x80", b"\xc3", b"\xe2\x82", b"\xf0\x9f\x98", b"\xed\xa0\x80", b"\xc0\x80", b"\xf4\x90\x80\x80"]


def members_of_kinds():
    """Of each kind its members: the name, the sign behind it, and what it is of."""
    found = {}
    for line in KINDS.strip().split("\n"):
        kind, *members = line.split()
        found[kind] = [re.match(r"(\w+)(\W)(\w*)", member).groups() for member in members]
    return found


MEMBERS = members_of_kinds()
GROUPS["Definition"] = [kind for kind in MEMBERS if kind.endswith(("Definition", "Extension")) and kind not in (
    "VariableDefinition", "OperationTypeDefinition", "FieldDefinition", "InputValueDefinition", "EnumValueDefinition")]
TYPE_OF_SIGN = {"!": "object", "?": "object", "+": "array", "*": "array", "=": "string", "^": "boolean", "~": "boolean"}


# Trees by the table


def named(text):
    return {"kind": "Name", "value": text}


def leaf(of):
    """The least tree of a kind, of a group, or the first word of a syntax."""
    if of == "DirectiveLocation":
        return named("FIELD")
    if of in WORDS:
        return WORDS[of][0]
    kind = GROUPS[of][0] if of in GROUPS else of
    return node(kind, lambda sign, of: leaf(of) if sign in "!=" else {"+": [], "^": True}.get(sign))


def node(kind, member):
    """A node, each of whose members is what is made of its sign and what it is of, or left out where that is none."""
    made = {"kind": kind}
    for name, sign, of in MEMBERS[kind]:
        value = member(sign, of)
        if value is not None:
            made[name] = value
    return made


def whole(kind):
    """A node with each of its members, and with an item in each of its lists."""
    return node(kind, lambda sign, of: sign == "^" if sign in "^~" else [leaf(of)] if sign in "+*" else leaf(of))


def document(*definitions):
    return {"kind": "Document", "definitions": list(definitions)}


def ways():
    """For each kind a shortest way to it from a document: the kinds and their members, the outermost first."""
    found, kinds = {"Document": []}, ["Document"]
    for outer in kinds:
        for name, sign, of in MEMBERS[outer]:
            for kind in GROUPS.get(of, [of]):
                if sign in "!?+*" and kind in MEMBERS and kind not in found:
                    found[kind] = [*found[outer], (outer, name, sign)]
                    kinds.append(kind)
    return found


WAYS = ways()


def around(kind, inner, before=0):
    """A document around a node of this kind, with so many items before it in each list on the way."""
    for outer, name, sign in reversed(WAYS[kind]):
        made = leaf(outer)
        of = next(of for member, _, of in MEMBERS[outer] if member == name)
        made[name] = [leaf(of) for _ in range(before)] + [inner] if sign in "+*" else inner
        inner = made
    return inner


def locate_all(tree, share=1.0, rand=random):
    """The tree, with a location in nodes that have none, each with this probability."""
    if isinstance(tree, list):
        return [locate_all(item, share, rand) for item in tree]
    if not isinstance(tree, dict):
        return tree
    made = {name: locate_all(value, share, rand) for name, value in tree.items()}
    if "kind" in tree and "loc" not in tree and rand.random() < share:
        start = rand.randint(0, 50)
        made["loc"] = {"start": start, "end": start + rand.randint(0, 9)}
    return made


def locate_outer(tree, chosen, depth=0):
    """The tree, with a location in the nodes of these depths below one another."""
    if isinstance(tree, list):
        return [locate_outer(item, chosen, depth) for item in tree]
    if not isinstance(tree, dict):
        return tree
    made = {name: locate_outer(value, chosen, depth + 1) for name, value in tree.items()}
    if "kind" in tree and "loc" not in tree and depth in chosen:
        made["loc"] = {"start": depth, "end": depth + 10}
    return made


def compact(tree):
    return json.dumps(tree, ensure_ascii=False, separators=(",", ":"))


def told(tree, turn):
    """The JSON of a tree with no location, with one in each node, or with one in some, by turns."""
    return compact(locate_outer(tree, [(), range(99), (0,), (1, 2)][turn % 4]))


# The texts that follow the table


def each_member():
    """Each member of each kind left out or null, and of two types of JSON that it isn't of, by turns."""
    turn = 0
    for kind in MEMBERS:
        for name, sign, _ in MEMBERS[kind]:
            wrong = [found for found in TYPES if found not in ("null", TYPE_OF_SIGN[sign])]
            for found in [[None, "null"][turn % 2], wrong[turn % 4], wrong[(turn + 1) % 4]]:
                inner = whole(kind)
                del inner[name]
                if found:
                    inner[name] = turn % 8 < 4 if found == "boolean" else TYPES[found]
                yield told(around(kind, inner, turn % 5 // 4), turn)
                turn += 1


def each_kind():
    """The kind of each node another one, left out or of another type; in its place another type, or in it a member too many."""
    kinds = [*MEMBERS, "", "Nme", "é€😀", "x" * 60, "y" * 61]
    for turn, kind in enumerate(MEMBERS):
        yield told(around(kind, {**whole(kind), "kind": kinds[(turn * 7 + 3) % len(kinds)]}), turn)
        wrong = [found for found in TYPES if found != "string"][turn % 5]
        inner = {**whole(kind), "kind": TYPES[wrong]}
        if turn % 3 == 0:
            del inner["kind"]
        yield told(around(kind, inner), turn + 1)
        wrong = [found for found in TYPES if found != "object"][turn % 5]
        inner = {**leaf(kind), NAMES[4 + turn % (len(NAMES) - 4)]: JUNK[turn % len(JUNK)]} if turn % 2 else TYPES[wrong]
        yield told(around(kind, inner, turn % 3 // 2), turn + 2)


TYPED = """
BooleanValue.value StringValue.block DirectiveDefinition.repeatable DirectiveDefinition.locations SelectionSet.selections ListValue.values
ObjectValue.fields Field.directives OperationDefinition.operation IntValue.value Field.selectionSet InlineFragment.selectionSet
""".split()


def each_type():
    """Each type of JSON for a node, at the root, in a member and in a list, for its kind, and for members of each sort."""
    for kind in ["Document", "Name", "IntValue", "ListType", "Field"]:
        for found, value in TYPES.items():
            yield told(around(kind, {**leaf(kind), "kind": value}), len(found))
            yield told(around(kind, value, 1), len(found))
    for turn, (kind, name) in enumerate(member.split(".") for member in TYPED):
        for found, value in TYPES.items():
            yield told(around(kind, {**whole(kind), name: value}), turn + len(found))


UNKNOWN = [["zz", "aa"], ["aa", "zz"], ["Kind"], ["a", "", "b"], ["b\nc", "b"], ["é", "z"], ["€", "é"], ["😀", "\uffff"], ["kind ", " kind"]]
OF_OTHERS = [("Field", "fields", []), ("NullValue", "value", None), ("IntValue", "block", True), ("Variable", "value", "a")]
OF_OTHERS += [("ScalarTypeExtension", "description", None), ("SelectionSet", "selection", []), ("Name", "name", "a")]


def unknown_members():
    """Members that no node has: the first of them by the alphabet is told, wherever it stands."""
    for names in UNKNOWN:
        for kind in ["Document", "Directive", "Variable"]:
            yield told(around(kind, {**{name: 1 for name in names}, **leaf(kind)}), 0)
            yield told(around(kind, {**leaf(kind), **{name: {"kind": []} for name in names}}), 3)
    for kind, name, value in OF_OTHERS:
        yield told(around(kind, {**leaf(kind), name: value}), 0)


OFFSETS = """
0 1 4294967294 4294967295 4294967296 4294967297 9223372036854775807 9223372036854775808 18446744073709551615 18446744073709551616
-0 -1 -4294967296 -9223372036854775808 -9223372036854775809 1.0 0.0 1e0 1E+0 10e-1 0.5 1e308 1e309 -1e400 00 01 +1 .5 1. 0x1 null true
"1" [1] {}
""".split() + ["1" + "0" * 40, "9" * 309, "9" * 400]
LOCATIONS = """
{"start":2,"end":1} {"start":4294967295,"end":0} {"end":1,"start":2} {"start":1} {"end":1} {} {"start":1,"start":2,"end":3}
{"start":1,"end":2,"end":0} {"start":1,"end":2,"start":9} {"start":1,"end":2,"line":1} {"line":1,"start":1,"end":2}
{"start":1,"line":1,"end":2} {"Start":1,"end":2} {"start":1,"End":2} {"st\\u0061rt":1,"end":2} {"start":1,"\\u0065nd":2}
{"start":1,"end":2,"a":3,"b":4} {"start":-1,"end":2,"b":4} {"start":-1,"end":-1} {"start":null,"end":2} {"start":1,"end":null}
{"end":"2","start":[1]} [1,2] [] "1-2" 3 true false null {"start":{"start":1},"end":2} {"start":1,"end":2,"":0}
""".split()


def locations():
    for turn, offset in enumerate(OFFSETS):
        yield '{"kind":"Document","definitions":[],"loc":%s}' % ['{"start":%s,"end":4294967295}', '{"end":4294967295,"start":%s}'][turn % 2] % offset
        yield '{"kind":"Document","definitions":[],"loc":%s}' % ['{"end":%s,"start":0}', '{"start":0,"end":%s}'][turn // 2 % 2] % offset
    for turn, loc in enumerate(LOCATIONS):
        inner = '{"kind":"ScalarTypeDefinition","loc":{"start":8,"end":9},"name":{"loc":%s,"kind":"Name","value":"S"}}' % loc
        yield '{"kind":"Document","definitions":[%s],"loc":%s}' % ((inner, '{"start":7,"end":9}') if turn % 2 else ("", loc))
    for turn, kind in enumerate(MEMBERS):
        yield told(around(kind, {**leaf(kind), "loc": json.loads(LOCATIONS[turn * 3 % len(LOCATIONS)])}), turn)
    # beside other faults of the node and in its members
    for loc in ['{"start":3,"end":2}', '{"start":3}', "7"]:
        yield '{"kind":"Document","definitions":7,"loc":%s}' % loc
        yield '{"kind":"Nme","loc":%s}' % loc
        yield '{"loc":%s,"a":1}' % loc
        yield '{"kind":"Document","definitions":[{"kind":"SchemaDefinition","operationTypes":[{}],"loc":%s}]}' % loc


NO_NAMES = ["", "1", "1a", "a b", "a-b", "é", "a\n", "\na", "_é", "😀", "a\u0000", "$a", "x" * 59 + "-", "x" * 60 + "-", "true", "on"]
NO_NUMBERS = "- 01 -01 +1 1a 1. .5 1e 1e+ 0x1 1.5.5 é 1.5 1 -0 00.5 1e5 -1.5e-10".split() + ["", "1 ", " 1", "1\n", "1" * 60 + "x"]
NO_OPERATIONS = ["", "Query", "query ", "querry", "QUERY", "é" * 61, "subscription\n"]
NO_DIRECTIVE_LOCATIONS = ["", "field", "FIELD ", "FIELDS", "QUERY\r", "_", "1", "€" * 61, "INPUT_OBJECTS"]


def texts_outside_the_syntax():
    """Texts in place of names, numbers and words, most of them outside the syntax."""
    for turn, text in enumerate(NO_NAMES):
        for kind in [["Name", "EnumValue", "Field"], ["Variable", "Argument", "EnumValueDefinition"]][turn % 2]:
            inner = leaf(kind)
            inner.update({"name": named(text)} if "name" in inner else {"value": text})
            yield told(around(kind, inner), turn)
    for kind, name, texts in [("IntValue", "value", NO_NUMBERS), ("FloatValue", "value", NO_NUMBERS),
                              ("OperationDefinition", "operation", NO_OPERATIONS), ("OperationTypeDefinition", "operation", NO_OPERATIONS)]:
        for turn, text in enumerate(texts):
            yield told(around(kind, {**leaf(kind), name: text}), turn)
    for turn, text in enumerate(NO_DIRECTIVE_LOCATIONS):
        yield told(document({**leaf("DirectiveDefinition"), "locations": [named("FIELD"), named(text)]}), turn)


CUT = ["x" * 59 + "é", "x" * 60 + "é", "é" * 59 + "x", "€😀" * 30, "€😀" * 30 + "€", "\n" * 60]
CUT += [character * 61 for character in "\n\u0000\"\\`"]
ESCAPED = ["", "\r\n", "e\u0301", *" \t\r'\"`\\\u0000\u007f\u0080\u00a0\u0301\u200b\u2028\ufeff\uffff\U000e0001"]


def excerpts():
    """Texts of 59, 60, 61 and more characters of 1 to 4 bytes, which are cut behind 60, and some that are escaped where they are told."""
    for character in ["x", "é", "€", "😀"]:
        for text in [character * count for count in (59, 60, 61, 120)]:
            yield compact({"kind": text})
            yield compact(document({"kind": text}))
            yield compact(document(leaf("DirectiveDefinition"), {"kind": "ScalarTypeDefinition", "name": named(text + "-")}))
            yield compact({**document(), text: 1})
    for text in CUT:
        yield compact({"kind": text})
        yield compact({**document(), text: 1})
    for text in ESCAPED:
        yield compact(document({"kind": text}))
        yield compact({**document(), "b" + text: 1})


def variables():
    """Values with a variable in them."""
    variable = {"kind": "Variable", "name": named("v")}
    field = {"kind": "ObjectField", "name": named("f"), "value": variable}
    yield variable
    yield {"kind": "ListValue", "values": [{"kind": "NullValue"}, variable, {**variable, "name": named("w")}]}
    yield {"kind": "ObjectValue", "fields": [field]}
    yield {"kind": "ListValue", "values": [leaf("ListValue"), {"kind": "ObjectValue", "fields": [{**field, "value": leaf("IntValue")}, field]}]}


def flaws():
    """Trees that break side conditions, and some that keep them."""
    for kind in ["VariableDefinition", "InputValueDefinition"]:
        for value in variables():
            yield around(kind, {**leaf(kind), "defaultValue": value})
    for turn, kind in enumerate(kind for kind in MEMBERS if "directives" in whole(kind)):
        argument = {"kind": "Argument", "name": named("a"), "value": list(variables())[turn % 4]}
        directives = [leaf("Directive"), {"kind": "Directive", "name": named("d"), "arguments": [argument]}]
        yield around(kind, {**leaf(kind), "directives": directives}, turn % 2)
    for text in ["true", "false", "null", "True", "on"]:
        for kind in ["EnumValueDefinition", "FragmentDefinition", "FragmentSpread"]:
            yield around(kind, {**leaf(kind), "name": named(text)})
        yield around("EnumValue", {"kind": "EnumValue", "value": text})
    for kind in ["Document", "OperationDefinition", "FragmentDefinition", "InlineFragment", "Field", "DirectiveDefinition", "SchemaDefinition"]:
        yield around(kind, leaf(kind), 1)
    yield around("Field", {**leaf("Field"), "selectionSet": leaf("SelectionSet")})
    for kind in MEMBERS:
        if kind.endswith("Extension"):
            yield document(leaf("ScalarTypeDefinition"), leaf(kind))
            yield document(whole(kind), leaf(kind))


def side_conditions():
    for turn, tree in enumerate(flaws()):
        yield told(tree, turn)


def nested(depth):
    """A value and two types of so many lists in one another."""
    value, type_, bang = leaf("IntValue"), leaf("NamedType"), leaf("NamedType")
    for index in range(depth):
        value = {"kind": "ListValue", "values": [value]}
        type_ = {"kind": "ListType", "type": type_}
        bang = {"kind": "ListType" if index % 2 else "NonNullType", "type": bang}
    return value, type_, bang


def other_trees():
    """Values, types, lists of directives and nodes of other kinds, which are read as such too."""
    for kind in [*VALUES, *GROUPS["Type"], "Field", "ObjectField", "SchemaDefinition"]:
        yield told(whole(kind), 0)
        yield told(leaf(kind), 2)
    for value in variables():
        yield told(value, 0)
    for kind in ["IntValue", "FloatValue", "StringValue", "EnumValue", "BooleanValue"]:
        for turn, value in enumerate([*TYPES.values(), "true", "null", "é", ""]):
            yield told({"kind": kind, "value": value}, turn * 2)
    for value in [leaf("Field"), {"kind": "ListValue", "values": [1]}, {"kind": "Variable"}, {"kind": "IntValue", "value": "01"}, [], None]:
        yield compact({"kind": "ListValue", "values": [{"kind": "NullValue"}, value]})
        yield compact({"kind": "ObjectValue", "fields": [{"kind": "ObjectField", "name": named("a"), "value": value}]})
        yield compact({"kind": "ObjectValue", "fields": [value]})
        yield compact({"kind": "ListType", "type": value})
        yield compact({"kind": "NonNullType", "type": value})
    for found in [leaf("Directive"), whole("Directive"), leaf("Name"), {"kind": "Directive"}, {"kind": 7}, *TYPES.values()]:
        yield compact([leaf("Directive"), found])
    for depth in [1, 2, 61, 62, 63, 125, 126, 127, 128]:
        for made in nested(depth):
            yield compact(made)
    yield compact({"kind": "NonNullType", "type": {"kind": "NonNullType", "type": leaf("NamedType")}})


def two_faults():
    """Two faults in one tree, in nodes of any place: the first that the reader meets is told."""
    rand = random.Random(SEED)
    for _ in range(60):
        tree = document(*[whole(rand.choice(GROUPS["Definition"])) for _ in range(rand.randint(1, 2))])
        for _ in range(2):
            holder = rand.choice([value for _, value in walk(tree) if isinstance(value, dict) and "kind" in value])
            name = rand.choice([*holder, "loc", "zz"])
            holder[name] = copy.deepcopy(rand.choice([rand.choice(JUNK), TYPES[rand.choice(list(TYPES))], {"start": 9, "end": 1}]))
        yield compact(locate_all(tree, rand.choice([0, 0, 0.5]), rand))


# Texts by hand

SMALL = '{"kind":"Document","definitions":[{"kind":"ScalarTypeDefinition","name":{"kind":"Name","value":"S"}}]}'
BLANKS = [" ", "\t", "\n", "\r", "\r\n", "\n\n", " \r\t\n ", "\f", "\v", "\u00a0", "\u2028", "\ufeff", "/**/", "\u0000"]
ESCAPES = r"""
\n \r \r\n \t \b \f \/ \\ \" \u000a \u000D \u2028 \ud83d\ude00 \u0000 \ud83d \ude00 \ud83d\ud83d \ud83dx \u12 \u123g \x41 \' \ \U0041
""".split()
WRITTEN = r"""
{"k\u0069nd":"Document","definitions":[],"\u0061":1,"b":2}
{"kind":"Document","definitions":[],"\n":1,"\u0000":2}
{"kind":"Document","kind":"Name","definitions":[]}
{"kind":"Name","kind":"Document","definitions":[]}
{"kind":"Document","definitions":[],"definitions":1}
{"kind":"Document","definitions":[],"definitions":null}
{"kind":"Document","b":1,"definitions":[],"b":2,"a":3,"a":4}
{"kind":"Document","definitions":[{"kind":"DirectiveDefinition","name":{"kind":"Name","value":"d"},"repeatable":1,"locations":[]}]}
{"kind":7,
{"kind":"Nme"}x
{"kind":"Nme","a":[}
{"definitions":[],"kind":"Document"},
{"kind":"Document","definitions":[1e999]}
{"kind":"Document","definitions":[7],"a":1e400}
{"kind":"Document","definitions":[7],"a":-1e400}
{"kind":"Document","definitions":[7],"a":1e-400}
{"kind":"Document","definitions":[],"a":1e999,"b":"%FF"}
{"kind":"Document","definitions":[],"a":"%FF","b":1e999}
{"kind":"%F0%9F%98%80","a":"%F0%9F%98
{"kind":null}
{"loc":null}
{"loc":{"start":1,"end":2}}
 {"kind" : "NullValue"}%20
%20
%0A
{
}
[
]
"
{}
[]
[{}]
null
true
false
0
"x"
nul
nulll
True
NaN
-
-x
1 2
[] []
{}{}
[1,]
[,1]
[1 2]
[1}
{"a"}
{"a":}
{"a":1,}
{,}
{1:2}
{a:1}
{'a':1}
{"a":1 "b":2}
{"a"::1}
{"a":1]
#
\
[%0A1,%0A2%0A
%0A%0A}
%0D%0A{%0D%0A
%FF
"%FF
"""


def written():
    yield ""
    for text in WRITTEN[1:-1].split("\n"):
        yield re.sub(rb"%(..)", lambda byte: bytes([int(byte[1], 16)]), text.encode())
    for count in range(4, len(SMALL), 7):
        yield SMALL[:count]
        yield SMALL[:count] + ["x", "\n", "]", '"', "{", "\r\n"][count % 6] + SMALL[count:]


def spaces():
    """Blanks and line breaks between the tokens of JSON and in its strings, and escapes."""
    for blank in BLANKS:
        yield blank + SMALL
        yield SMALL + blank
        yield SMALL.replace(":", ":" + blank).replace("[{", "[" + blank + "{").replace("}]", "}" + blank + "]")
        yield SMALL.replace('"S"', '"S' + blank + '"')
    for escape in ESCAPES:
        yield SMALL.replace('"S"', '"S' + escape + '"')
        yield SMALL.replace('"name":', '"description":{"kind":"StringValue","value":"a' + escape + 'b"},"name":')


def depths():
    for depth in [126, 127, 128, 129]:
        for opening, closing in [("[", "]"), ('{"a":', "}")]:
            inner = opening * (depth - 1) + "1" + closing * (depth - 1)
            yield '{"kind":"Document","definitions":[],"a":%s}' % inner
            yield '{"kind":"Document","definitions":%s' % inner
    yield "[" * 128
    yield "\n[" * 127 + "\n]"
    yield '"' + "[" * 200 + '"'
    yield "[" * 100 + '"' + "[" * 100
    yield "]" + "[" * 200
    yield "[1x" + "[" * 200
    yield b"[" * 200 + b"\xff"


def no_texts():
    """Bytes that are no UTF-8: in strings and names, between tokens, before and behind the JSON, and behind faults."""
    small = SMALL.encode()
    yield b"\xef\xbb\xbf" + small
    for bad in NO_TEXT:
        yield small.replace(b'"S"', b'"S' + bad + b'"')
        yield small.replace(b'"name"', b'"na' + bad + b'me"')
        yield small.replace(b'"ScalarTypeDefinition"', b'"Scalar' + bad + b'"')
        yield bad + small
        yield small + bad
        yield small + b"\n" + bad
        yield small.replace(b"[", b"[" + bad)
        yield small.replace(b'"S"', b"7").replace(b"]}", b']}x' + bad)
        yield small.replace(b"Scalar", b"Sclar").replace(b"]}", b'],"\xc3\xa9":"' + bad + b'"}')


# Random texts


def walk(tree, way=()):
    yield way, tree
    if isinstance(tree, dict):
        for name, value in tree.items():
            yield from walk(value, (*way, name))
    elif isinstance(tree, list):
        for index, value in enumerate(tree):
            yield from walk(value, (*way, index))


class Maker:
    """Makes random texts from a seed."""

    def __init__(self, seed):
        self.rand = random.Random(seed)

    def tree(self, of, depth):
        """A random tree of a kind or of a group, or a word of a syntax."""
        rand = self.rand
        if of == "DirectiveLocation":
            return named(rand.choice(WORDS[of]))
        if of in WORDS:
            return rand.choice(WORDS[of]) if rand.random() < 0.5 else WORDS[of][0]
        if of in GROUPS:
            kinds = GROUPS[of] if depth < 9 else GROUPS[of][:1]
            if of == "Value" and len(kinds) > 1 and rand.random() < 0.8:
                kinds = kinds[:-1]
            return self.tree(rand.choice(kinds), depth)
        return node(of, lambda sign, inner: self.member(sign, inner, depth + 1))

    def member(self, sign, of, depth):
        rand = self.rand
        is_there = rand.random() < (0.4 if depth < 6 else 0)
        if sign in "^~":
            return rand.choice([True, False]) if sign == "^" or is_there else None
        if sign in "!=":
            return self.tree(of, depth)
        if sign == "?":
            return self.tree(of, depth) if is_there else None
        if sign == "+":
            return [self.tree(of, depth) for _ in range(rand.randint(0 if depth > 1 else 1, 2))]
        return [self.tree(of, depth) for _ in range(rand.randint(0, 2))] if is_there else None

    def pick(self, tree, wanted):
        """A random part of the tree that is wanted, with the way to it, if there is one."""
        found = [(way, value) for way, value in walk(tree) if wanted(way, value)]
        return self.rand.choice(found) if found else (None, None)

    def put(self, tree, way, value):
        for name in way[:-1]:
            tree = tree[name]
        tree[way[-1]] = copy.deepcopy(value)

    def change(self, tree):
        """Changes a random part of the tree."""
        rand = self.rand
        how = rand.randint(0, 9)
        if how == 0:
            way, _ = self.pick(tree, lambda way, value: way and isinstance(way[-1], str))
            if way:
                for name in way[:-1]:
                    tree = tree[name]
                del tree[way[-1]]
        elif how in (1, 4, 8, 9):
            _, node_ = self.pick(tree, lambda way, value: isinstance(value, dict) and value)
            if node_ is None:
                return
            if how == 1:
                node_[rand.choice(NAMES)] = copy.deepcopy(rand.choice(JUNK))
            elif how == 4:
                members = list(node_.items())
                rand.shuffle(members)
                node_.clear()
                node_.update(members)
            elif how == 8:
                start = rand.randint(0, 9)
                node_["loc"] = copy.deepcopy(rand.choice([*JUNK, *[{"start": start, "end": start + step} for step in (0, 1, 5, -1)]]))
            else:
                name = rand.choice(list(node_))
                _, other = self.pick(tree, lambda way, value: isinstance(value, (dict, list)) and len(compact(value)) < 1000)
                node_[name] = copy.deepcopy(other)
        elif how == 2:
            way, _ = self.pick(tree, lambda way, value: way)
            if way:
                self.put(tree, way, rand.choice(JUNK))
        elif how == 3:
            way, _ = self.pick(tree, lambda way, value: way and way[-1] == "kind")
            if way:
                self.put(tree, way, rand.choice(list(MEMBERS)))
        elif how == 5:
            way, _ = self.pick(tree, lambda way, value: way and isinstance(value, str) and way[-1] != "kind")
            if way:
                self.put(tree, way, rand.choice([*NO_NAMES, *NO_NUMBERS, "\\", "A" * 40]))
        else:
            _, items = self.pick(tree, lambda way, value: isinstance(value, list))
            if items is not None and how == 6:
                items.append(copy.deepcopy(rand.choice(JUNK)))
            elif items:
                items.clear()

    def string(self, text):
        rand = self.rand
        written = json.dumps(text, ensure_ascii=rand.random() < 0.5)
        if text and rand.random() < 0.03:
            at = rand.randrange(len(text))
            if ord(text[at]) < 0x10000:
                written = '"%s\\u%04x%s"' % (json.dumps(text[:at])[1:-1], ord(text[at]), json.dumps(text[at + 1:])[1:-1])
        return written

    def number(self, value):
        rand = self.rand
        if isinstance(value, int) and not isinstance(value, bool) and rand.random() < 0.03:
            return rand.choice([f"{value}.0", f"{value}e0", f"{value}0e-1", f"-{value}", "1e400", f"000{value}", f"{value}{'0' * 25}"])
        return json.dumps(value)

    def blank(self):
        return self.rand.choice([" ", "\t", "\n", "\r\n", "\r"]) if self.rand.random() < 0.02 else ""

    def written(self, tree, twice):
        """The JSON of a tree as a text, in which a member may come twice."""
        rand, blank = self.rand, self.blank
        if isinstance(tree, dict):
            members = list(tree.items())
            if members and rand.random() < twice:
                name, value = rand.choice(members)
                members.insert(rand.randint(0, len(members)), (name, copy.deepcopy(rand.choice([*JUNK, value, value]))))
            inner = ",".join(blank() + self.string(name) + blank() + ":" + blank() + self.written(value, twice) for name, value in members)
            return "{" + inner + blank() + "}"
        if isinstance(tree, list):
            return "[" + ",".join(blank() + self.written(item, twice) + blank() for item in tree) + "]"
        return self.string(tree) if isinstance(tree, str) else self.number(tree)

    def spoiled(self, text):
        """A text with some characters left out, put in or changed, or with its end cut off."""
        rand = self.rand
        for _ in range(rand.choice([1, 1, 2])):
            at, how = rand.randint(0, len(text)), rand.random()
            if how < 0.4:
                text = text[:at] + text[at + rand.randint(1, 3):]
            elif how < 0.9:
                text = text[:at] + rand.choice(PIECES) + text[at + (how > 0.7):]
            else:
                text = text[:at]
        return text

    def text(self):
        """A random text of at most 2,500 bytes."""
        rand = self.rand
        while True:
            root = rand.choice(["Value", "Type"]) if rand.random() < 0.1 else "Document"
            tree = self.tree(root, 0)
            if len(compact(tree)) > 2000:
                continue
            tree = locate_all(tree, rand.choice([0, 0, 0.2, 1]), rand)
            for _ in range(rand.choice([0, 0, 1, 1, 1, 2, 3])):
                self.change(tree)
            text = self.written(tree, rand.choice([0, 0, 0.02]))
            if rand.random() < 0.2:
                text = self.spoiled(text)
            made = text.encode()
            if rand.random() < 0.05:
                at = rand.randint(0, len(made))
                made = made[:at] + rand.choice(NO_TEXT) + made[at + rand.randint(0, 1):]
            if len(made) <= 2500:
                return made


def line(text):
    """The line that a text stands in."""
    if isinstance(text, str):
        text = text.encode()
    escaped = []
    for character in text.decode("utf-8", "surrogateescape"):
        code = ord(character)
        if 0xDC80 <= code <= 0xDCFF:
            escaped.append("%%%02X" % (code - 0xDC00))
        elif code < 0x20 or code == 0x7F or character == "%":
            escaped.append("%%%02X" % code)
        else:
            escaped.append(character)
    return "".join(escaped)


def record_texts():
    makers = [each_member, each_kind, each_type, unknown_members, locations, texts_outside_the_syntax, excerpts, side_conditions]
    for maker in [*makers, other_trees, two_faults, written, spaces, depths, no_texts]:
        yield from maker()


def main():
    if len(sys.argv) not in (1, 3):
        sys.exit(__doc__)
    is_record = len(sys.argv) == 1
    seed, count = (SEED, RANDOM) if is_record else map(int, sys.argv[1:])
    made = dict.fromkeys(line(text) for text in record_texts()) if is_record else {}
    count += len(made)
    maker = Maker(seed)
    while len(made) < count:
        made[line(maker.text())] = None
    sys.stdout.reconfigure(encoding="utf-8", newline="\n")
    for text in made:
        print(text)


main()
