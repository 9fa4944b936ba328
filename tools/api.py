#!/usr/bin/env python3
"""Checks that docs/API.md names what the libraries offer to programs, and nothing else.

    tools/api.py [--lines]

The modules are those that graphql_ast has or passes on, those of graphql_visit, graphql_rewrite, graphql_operations, graphql_locations, graphql_flaws, graphql_printing and ast_json_text, and those of graphql_ast_json, each but `laws`. A module that is
public only for the crates above (`writers`, `short_text`) isn't passed on. Of each module it takes the public structs, enums, traits,
macros and functions, also those that it passes on of private modules; the public functions and constants of inherent impls of
these types, in whichever file of the crate; and the functions of these traits. What is marked `#[doc(hidden)]` is left out.

In docs/API.md the section that is headed by the module has to have a line for each. It begins with the item as it stands in the
code, without contracts and private fields:

    - `enum NameError { Invalid(InvalidNameError), Memory }`: ..
    - `Name::len(&self) -> usize`: ..

Each item that has no such line is printed, as `graphql_base::name::Name::len`, and each such line that is of no item. The exit
status is 1 if there is one. With `--lines` the lines that are missing are printed, each with the first sentence of its docstring.
"""
import re
import sys
from pathlib import Path

TOP = Path(__file__).resolve().parent.parent
PAGE = TOP / "docs/API.md"

USE = re.compile(r"^pub use ([\w:]+)(?:::\{([^}]*)\})?(?: as \w+)?;", re.M)
ALIAS = re.compile(r"^pub type \w+ = (graphql_\w+)::(\w+)::\w+;", re.M)
MODULE = re.compile(r"^pub mod (\w+);", re.M)
ITEM = re.compile(r"pub (struct|enum|trait|fn) (\w+)|(macro_rules)! (\w+)")
IMPL = re.compile(r"impl(?:<[^{]*?>)? (\w+)(?:<[^{]*>)? \{$")
METHOD = re.compile(r"    (pub )?(?:final )?fn (\w+)")
CONSTANT = re.compile(r"    pub const (\w+: [^=]+) =")
# where a signature ends: at a clause, a body, or a semicolon
SIGNATURE_END = re.compile(r"\n\s*(?:requires|ensures)\b|\s*\{(?:\n|.*\}\n)|;\n")
FIELD = re.compile(r"    pub (\w+: .*?),$", re.M)
VARIANT = re.compile(r"    ([A-Z]\w*(?:\(.*?\))?(?: \{.*?\})?),$", re.M | re.S)


class Item:
    """Its path, the code that its line begins with, and the first sentence of its docstring."""

    def __init__(self, module, name, code, sentence):
        self.module, self.path, self.code, self.sentence = module, f"{module}::{name}", code, sentence

    def line(self):
        return f"- `{self.code}`: {self.sentence}"


def joined(text):
    """On one line, without the commas and spaces that lines begin and end with."""
    text = " ".join(text.split()).replace("( ", "(").removesuffix(",")
    return re.sub(r",? \)", ")", text).replace(", }", " }").replace("(pub ", "(")


def above(lines, number):
    """The docstring's first sentence above a line, and whether it is hidden."""
    doc, hidden = [], False
    for line in reversed(lines[:number]):
        line = line.strip()
        if line.startswith("///"):
            doc.append(line[3:].strip())
        elif line.startswith("#["):
            hidden = hidden or line == "#[doc(hidden)]"
        else:
            break
    text = " ".join(doc[::-1]).split("  ")[0]
    return re.split(r"(?<=\.) (?=[A-Z`])", text)[0], hidden


def signature(lines, number):
    text = "\n".join(lines[number:]) + "\n"
    return joined(text[: SIGNATURE_END.search(text).start()].strip().removeprefix("pub ").removeprefix("final ").removeprefix("fn "))


def declared(kind, lines, number):
    """A struct, an enum or a trait on one line: the public fields, or the variants."""
    head = lines[number].strip().removeprefix("pub ")
    if kind == "trait" or not head.endswith("{"):
        return joined(head.removesuffix("{").removesuffix(";"))
    end = lines.index("}", number)
    body = "\n".join(line for line in lines[number + 1 : end] if not re.match(r"\s*(///|#)", line))
    found = FIELD.findall(body) if kind == "struct" else VARIANT.findall(body)
    members = ", ".join(joined(member) for member in found)
    return f"{head} {members} }}" if members else head.removesuffix("{").strip()


def items_of(module, path, passed):
    """The items of a file but for methods; `passed` are the names of it that the module passes on, or None in the module's own."""
    lines = path.read_text().split("\n")
    for number, line in enumerate(lines):
        if not (item := ITEM.match(line)):
            continue
        kind, name = (item[1], item[2]) if item[1] else ("macro", item[4])
        sentence, hidden = above(lines, number)
        if hidden or not (passed is None or name in passed):
            continue
        if kind == "macro":
            yield Item(module, name + "!", name + "!", sentence)
        elif kind == "fn":
            yield Item(module, name, signature(lines, number), sentence)
        else:
            yield Item(module, name, declared(kind, lines, number), sentence)


def methods_of(path, modules):
    """The functions and constants of the inherent impls and the traits in a file; `modules` has that of each type and trait."""
    lines = path.read_text().split("\n")
    owner, is_trait = None, False
    for number, line in enumerate(lines):
        item, implied, method, constant = (form.match(line) for form in (ITEM, IMPL, METHOD, CONSTANT))
        if line == "}":
            owner = None
        elif implied:
            owner, is_trait = implied[1], False
        elif item and item[1] == "trait":
            owner, is_trait = item[2], True
        elif owner in modules and (constant or (method and (method[1] or is_trait))):
            sentence, hidden = above(lines, number)
            name = method[2] if method else constant[1].split(":")[0]
            code = signature(lines, number) if method else constant[1]
            if not hidden:
                yield Item(modules[owner], f"{owner}::{name}", f"{owner}::{code}", sentence)


def source(crate, module):
    return TOP / "crates" / crate / "src" / (module + ".rt")


def uses(path):
    """What a file passes on: pairs of a path and a name."""
    for whole, names in USE.findall(path.read_text()):
        if names:
            yield from ((whole, name.split(" as ")[0].strip()) for name in names.split(",") if name.strip())
        else:
            yield tuple(whole.rsplit("::", 1))


def items_of_module(crate, module):
    """The items of a module but for methods, with those of other files that it passes on."""
    root = source(crate, module)
    name = crate if module == "lib" else f"{crate}::{module}"
    public = MODULE.findall(source(crate, "lib").read_text())
    passed = {}
    for whole, word in uses(root):
        inner = whole.removeprefix("crate::")
        if whole.startswith("crate::") and inner not in public:
            passed.setdefault(source(crate, inner.replace("::", "/")), set()).add(word)
    yield from items_of(name, root, None)
    for path, words in sorted(passed.items()):
        yield from items_of(name, path, words)


def all_items():
    """The items of all modules, each type's with its methods, whichever file of its crate they stand in."""
    found = []
    for crate in sorted({crate for crate, _ in user_modules()}):
        items = [item for below, module in user_modules() if below == crate for item in items_of_module(crate, module)]
        modules = {item.path.rsplit("::", 1)[1]: item.module for item in items}
        found += items
        paths = (TOP / "crates" / crate / "src").rglob("*.rt")
        for path in sorted(paths, key=lambda path: path.with_suffix("").parts):
            found += methods_of(path, modules)
    return found


def user_modules():
    """Pairs of a crate and a module of it: those that users name."""
    found = []
    for crate in ["graphql_ast", "graphql_visit", "graphql_rewrite", "graphql_operations", "graphql_locations", "graphql_flaws", "graphql_printing", "graphql_ast_json", "ast_json_text"]:
        own = [module for module in MODULE.findall(source(crate, "lib").read_text()) if module != "laws"]
        found += [(crate, module) for module in ["lib", *own]]
        for module in ["lib", *own]:
            text = source(crate, module).read_text()
            found += ALIAS.findall(text)
            for whole, word in uses(source(crate, module)):
                crate_below, _, inner = whole.partition("::")
                if source(crate_below, "lib").exists():
                    module_below = inner or word
                    found.append((crate_below, module_below if source(crate_below, module_below).exists() else "lib"))
    return sorted(set(found))


def lines_of_page():
    """The code of each line of docs/API.md, with the module that its section is headed by."""
    module = None
    for line in PAGE.read_text().split("\n"):
        if heading := re.match(r"#+ `([\w:]+)`", line):
            module = heading[1]
        elif found := re.match(r"- `([^`]+)`:", line):
            yield module, found[1]


def main():
    items = all_items()
    written = list(lines_of_page()) if PAGE.exists() else []
    missing = [item for item in items if (item.module, item.code) not in written]
    if sys.argv[1:] == ["--lines"]:
        print("\n".join(f"{item.module}  {item.line()}" for item in missing))
        return 0
    known = {(item.module, item.code) for item in items}
    unknown = [f"{module}: {code}" for module, code in written if (module, code) not in known]
    for path in [item.path for item in missing]:
        print(f"not in docs/API.md: {path}")
    for line in unknown:
        print(f"of no item: {line}")
    print(f"{len(items)} items, {len(missing)} missing, {len(unknown)} lines of no item")
    return 1 if missing or unknown else 0


if __name__ == "__main__":
    sys.exit(main())
