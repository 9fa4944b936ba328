#!/usr/bin/env python3
"""Counts what one reads to believe the headline: that what is printed of a tree is read as that tree, and as no other.

    tools/definitions.py [--list] [--root WORD]..

From its roots it follows each word that a definition in crates/*/specs takes from there, and prints how many
definitions that makes, of how many lines, on how many pages. A type counts with its constructors, a record with its fields.
Not counted are imports, comments, empty lines and those that only open a block of definitions, and the words of std and of
what the compiler makes of the code (specs/declared, specs/contracts). `--list` prints each definition: its lines, its page.

The roots are the words of the headline (`read` of `Serialize::print_to`), and of each printed type the kind and the function
from its values to trees: those that the contract of the law `thirty_kinds_are_read_back` names. With `--root` they are other
words: `value_kind`, or `Values.value_kind` where more than one page defines the word.
"""
import argparse
import re
import sys
from pathlib import Path

TOP = Path(__file__).resolve().parent.parent
LAW = TOP / "crates/graphql_ast/src/laws/thirty_kinds.rt"
# folders of specs/ that hold no definitions of the product
OTHERS = {"lemmas", "declared", "contracts"}
HEADLINE = ["ReadsAlone", "print_bytes", "IsBlankMode"]

STRING = re.compile(r'"(?:\\.|[^"\\])*"')
WORD = re.compile(r"«[^»]+»|[A-Za-z_][\w'-]*(?:\.[\w'-]+)*|[^\s\w(){}\[\];,.:«»]+")
USE = re.compile(r"use Rattle\.(\w+)\.specs\.(?:(?!lemmas\.)[a-z]\w*\.)?(\w+)(?:\.\{(.*)\}| as (\w+))$")
OPENING = re.compile(r"(?:(?:abbrev|unfoldable) )?mutual$|module _ ")
HEAD = re.compile(r"(?:(?:abbrev|unfoldable|pub) )+(?:(?:record|data) )?([^\s(){}:]+)")
# what a definition names itself: (x y : ..), λ x y. .., let x = .., and the fields of a record
BINDER = re.compile(r"[({]([^(){}:]+) : |λ ([^.]+)\. |let ([\w']+) = |^ +pub (\S+) : |([\w']+) = ")


class Definition:
    """Its lines, the words in them, those on the left of its clauses, and those that it names itself."""

    def __init__(self, page, word):
        self.page, self.word, self.lines = page, word, []
        self.words, self.left, self.bound = [], [], set()

    def add(self, line):
        self.lines.append(line)
        self.words += WORD.findall(line)
        for groups in BINDER.findall(line):
            self.bound.update(" ".join(groups).split())


class Page:
    """The definitions of a file by their words and by their constructors, and what its words stand for on other pages."""

    def __init__(self, path):
        self.path, self.crate, self.name = path, path.relative_to(TOP).parts[1], path.stem
        self.definitions, self.constructors, self.taken, self.aliases = {}, {}, {}, {}
        depth = 0
        for line in path.read_text().splitlines():
            line = STRING.sub("", line).split("--")[0].rstrip()
            code, indent = line.strip(), len(line) - len(line.lstrip())
            if use := USE.match(code):
                self.take(*use.groups())
            if not code or re.match("((pub )?(use|mod)|infix[lr]?) ", code):
                continue
            depth = depth if indent else 0
            if OPENING.match(code):
                depth = 2
            elif indent == depth and (head := HEAD.match(code)):
                definition = self.definitions[head[1].strip("◌")] = Definition(self, head[1])
                definition.add(line)
            else:
                definition.add(line)
                if indent == depth:
                    definition.left += WORD.findall(line.split(" = ")[0])
                elif indent == depth + 2 and " : " in line and not code.startswith("pub "):
                    self.constructors.update((word, definition) for word in line.split(" : ")[0].split())

    def take(self, crate, page, words, alias):
        if alias:
            self.aliases[alias] = crate, page
        for word in (words or "").split(", "):
            there, _, here = word.partition(" as ")
            self.taken[(here or there).strip("◌")] = crate, page, there.strip("◌")


class Pages:
    def __init__(self):
        self.all = [Page(path) for path in sorted(TOP.glob("crates/*/specs/**/*.antt")) if not OTHERS & set(path.parts)]
        self.at = {(page.crate, page.name): page for page in self.all}

    def meaning(self, page, word):
        """The definition that a word of a page stands for, if it has one here, and whether it is one of its constructors."""
        word, _, rest = word.partition(".")
        if rest and word in page.aliases:
            page, word = self.at.get(page.aliases[word]), rest.partition(".")[0]
        elif word in page.taken and word not in page.definitions:
            crate, name, word = page.taken[word]
            page = self.at.get((crate, name))
        if page is None:
            return None, False
        return page.definitions.get(word) or page.constructors.get(word), word in page.constructors

    def used_by(self, definition):
        """The definitions whose words a definition uses."""
        page = definition.page
        bound = definition.bound | {word for word in definition.left if not self.meaning(page, word)[1]}
        used = (self.meaning(page, word)[0] for word in definition.words if word.partition(".")[0] not in bound)
        return [each for each in used if each]

    def named(self, word):
        """The definitions of a word, which may have a page before it."""
        name, _, word = word.rpartition(".")
        return [page.definitions[word] for page in self.all if word in page.definitions and name in ("", page.name)]

    def reached_from(self, roots):
        """The definitions that are reached from some, page by page."""
        reached, waiting = set(), list(roots)
        while waiting:
            definition = waiting.pop()
            if definition not in reached:
                reached.add(definition)
                waiting += self.used_by(definition)
        return [each for page in self.all for each in page.definitions.values() if each in reached]


def printed_kinds():
    """The kinds and the functions to trees that the law names."""
    contract = LAW.read_text().split("fn thirty_kinds_are_read_back")[1].split("\n{")[0]
    return sorted(set(re.findall(r"(?<![\w.])\w+_(?:kind|trees?)\b", contract)))


def main():
    parser = argparse.ArgumentParser(description=__doc__, formatter_class=argparse.RawDescriptionHelpFormatter)
    parser.add_argument("--list", action="store_true", help="each definition with its lines and its page")
    parser.add_argument("--root", action="append", metavar="WORD", help="in the place of the headline of all printed types")
    arguments = parser.parse_args()

    pages = Pages()
    roots = []
    for word in arguments.root or HEADLINE + printed_kinds():
        roots += pages.named(word) or sys.exit(f"no page defines `{word}`")
    reached = pages.reached_from(roots)
    if arguments.list:
        for each in reached:
            print(f"{len(each.lines):4}  {each.word}  {each.page.path.relative_to(TOP)}")
    lines = sum(len(each.lines) for each in reached)
    print(f"{len(reached)} definitions, {lines} lines, {len({each.page for each in reached})} pages")


if __name__ == "__main__":
    main()
