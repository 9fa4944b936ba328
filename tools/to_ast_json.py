#!/usr/bin/env python3
"""Prints the AST JSON of a GraphQL text: tools/to_ast_json.py [FILE] (else of standard input), with `--locations` also where each node stands.

It needs graphql-core 3.2: `pip install graphql-core`. Offsets are code points, as that package counts them.
"""
import json
import sys

from graphql import Node, parse
from graphql.language import OperationType


def member(key):
    first, *others = key.split("_")
    return first + "".join(word.capitalize() for word in others)


def ast_json(node, locations):
    if isinstance(node, Node):
        found = {"kind": type(node).__name__.removesuffix("Node")}
        keys = [key for key in node.keys if key != "loc"]
        found.update((member(key), ast_json(getattr(node, key), locations)) for key in keys if getattr(node, key) is not None)
        if locations and node.loc:
            found["loc"] = {"start": node.loc.start, "end": node.loc.end}
        return found
    if isinstance(node, (list, tuple)):
        return [ast_json(it, locations) for it in node]
    return node.value if isinstance(node, OperationType) else node


def main():
    files = [word for word in sys.argv[1:] if not word.startswith("--")]
    locations = "--locations" in sys.argv
    text = open(files[0], encoding="utf-8").read() if files else sys.stdin.read()
    document = parse(text, no_location=not locations)
    json.dump(ast_json(document, locations), sys.stdout, separators=(",", ":"), ensure_ascii=False)


if __name__ == "__main__":
    main()
