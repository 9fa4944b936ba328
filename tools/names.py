#!/usr/bin/env python3
"""Checks that what README.md and docs/ name is there: links, files, functions, clauses, laws, edits and scripts.

    tools/names.py

Of each page it looks at the targets of links, and at words in backquotes: paths, names with `::`, and words with `_`. A path stands below the
top, docs/, crates/ or a crate's src/, specs/ or proofs/. A name is looked for where the page says that it is:

- `A::B::name` in the crate, the module, the file or the file of the type that is named before it;
- `name` of `crate`, and `crate`: `name`, in that crate; `name` (`file.rt`) in that file;
- each name in the row of a table whose first cell is a crate, in that crate or in one that it uses, and a path in the first cell of a row in the crate
  that a row above it has in bold;
- "clause `name` of `function`", in a contract of a function of that name;
- in docs/PROVED.md, in the files of the row's last cell, which stand in the crates that the row in bold names, or in all files of these if the cell
  ends in `..`. What stands behind a function and a colon is a clause of that function; behind a type, what the type's file declares.

There it is to be declared, and not only used. Another name stands in the sources anywhere, or is the name of an edit or a crate. The beginning of a
case's name of golden is there too. It prints what is missing, and fails if something is, also the version at the top of CHANGELOG.md in what
`graphql_print` tells. What belongs to other programs is listed in FOREIGN; in
docs/DIFFERENCES.md only links are looked at, since it names what isn't here, and of docs/CONTRIBUTING.md not what its two trials made.
"""
import re
import sys
from pathlib import Path

ROOT = Path(__file__).resolve().parent.parent
CRATES = ROOT / "crates"
# names of Rust, of its standard library here, of apollo-compiler and of tools outside
FOREIGN = {"malloc_usable_size", "to_string", "impl", "Vec", "Rc", "fmt", "usize", "map_over_more"}
TRIALS = re.compile(r"alias_type|AliasType|value_alias")
ENDINGS = ("rt", "antt")
SOURCES = {path.relative_to(CRATES): path.read_text(encoding="utf-8") for ending in ENDINGS for path in CRATES.glob(f"*/*/**/*.{ending}") if "/out/" not in str(path)}
TOOLS = "\n".join(path.read_text(encoding="utf-8") for path in (ROOT / "tools").iterdir() if path.is_file())
WORDS = set(re.findall(r"\w+", "\n".join(SOURCES.values()))) | set(re.findall(r"\w+", TOOLS))
EDITS = {path.relative_to(CRATES) for path in CRATES.glob("*/*/*.edit")}
EDIT_NAMES = {path.stem for path in EDITS}
CASES = "\n".join(path.read_text(encoding="utf-8") for path in (CRATES / "golden/data").iterdir())
NAMES = {path.name for path in CRATES.iterdir()}
USED = {name.split()[0]: uses.split() for name, _, uses in (it.partition(":") for it in (ROOT / "crates.txt").read_text(encoding="utf-8").split("\n") if it)}
OTHERS = {name for uses in USED.values() for name in uses} - NAMES
STEMS = {part for path in SOURCES for part in (path.stem, *path.parts)}

# what a file declares: items, fields and variants, clauses, ghost members; in .antt definitions and the members of records
DECLARED = {
    ".rt": re.compile(r"\b(?:fn|struct|enum|trait|mod|const|type|macro_rules!) (\w+)|^ +(?:pub )?(\w+): |^ +([A-Z]\w*)(?:,| = \d+,|\(| \{)|\b(?:ensures|requires)\*? (\w+) \{|\bghost (\w+)(?: =|:)", re.M),
    ".antt": re.compile(r"^ *(?:(?:pub|abbrev|data|record|def|private|mod|ruleset) +)+(\w+)|^ *(\w+) +:(?: |$)", re.M),
}
DECLARATIONS = {path: {name for found in DECLARED[path.suffix].findall(text) for name in found if name} for path, text in SOURCES.items()}
# which names a file passes on
PASSED = {path: set(re.findall(r"\w+", " ".join(re.findall(r"^pub use ([^;]+);", text, re.M)))) for path, text in SOURCES.items()}


def declares(path, name):
    return name in DECLARATIONS[path] or name in PASSED[path] or name in path.with_suffix("").parts


def crates_declare(crates, name):
    if name in NAMES or name in OTHERS or name in FOREIGN:
        return True
    return any((CRATES / crate / name).exists() for crate in crates) or any(
        path.parts[0] in crates and (path.stem == name or path.suffix != ".edit" and declares(path, name)) for path in (*SOURCES, *EDITS)
    )


def has_path(path, page):
    path = path.split("#")[0].rstrip("/")
    if not path or "://" in path or re.search(r"[A-Z]{4,}|\*|\.\.\.?$", path):
        return True
    rooms = [ROOT, page.parent, CRATES, ROOT / "docs", *CRATES.glob("*"), *CRATES.glob("*/*")]
    stem = path.split("/")[-1]
    return any((room / path).exists() or (room / f"{path}.antt").exists() for room in rooms) or stem in EDIT_NAMES or stem in STEMS and all(it in STEMS for it in path.split("/"))


def without_code(text):
    return re.sub(r"^```.*?^```", "", text, flags=re.M | re.S)


def words_of(text):
    """The words in backquotes."""
    return re.findall(r"(?<!`)(?<!There is no )`([^`\n]+)`(?!`)", text)


def is_declared_in(owners, name):
    """Whether a file declares the name that is, or stands in, or declares, each of these crates, modules and types."""
    owners = [re.sub(r"<.*", "", owner) for owner in owners if owner not in ("crate", "Rattle", "specs")]
    for path in SOURCES:
        parts = path.with_suffix("").parts
        if declares(path, name) and all(owner in parts or owner in DECLARATIONS[path] or re.search(rf"\bimpl\b[^\n{{]*\b{owner}\b", SOURCES[path]) for owner in owners):
            return True
    return False


def is_there(word, page):
    if page.name == "DIFFERENCES.md" or page.name == "CONTRIBUTING.md" and TRIALS.search(word):
        return True
    if re.fullmatch(r"[a-z0-9-]+/[a-z0-9/-]+", word) and f'"{word}' in CASES:
        return True
    if re.fullmatch(r"[\w.-]+(/[\w.*-]+)+/?", word):
        return has_path(word, page) or all(it in WORDS for it in word.split("/"))
    if re.fullmatch(r"\w+\.(rs|rt|antt|py|sh|md|txt|jsonl)", word):
        return any(path.name == word for path in ROOT.rglob(word))
    name = re.fullmatch(r"((?:[\w<>]+::)+)(\w+!?)(?:\(.*\))?", word)
    if name:
        owners = name[1].split("::")[:-1]
        return owners[0] in OTHERS or owners[0] in FOREIGN or name[2] in FOREIGN or is_declared_in(owners, name[2].rstrip("!"))
    if re.fullmatch(r"[a-z]\w*_\w+(\(\))?", word):
        word = word.removesuffix("()")
        return word in WORDS or word in EDIT_NAMES or word in NAMES or word in FOREIGN
    return True


LIST = r"`[\w:]+`(?:(?:,| and|, and) `[\w:]+`)*"


def named_of_crates(text):
    """Names that a line says to be of one of some crates: the crates, and the name."""
    for line in text.split("\n"):
        cells = [it.strip() for it in line.strip("|").split(" | ")]
        if line.startswith("|") and (row := re.fullmatch(r"`(\w+)`", cells[0])) and row[1] in NAMES:
            yield from (((row[1], *USED[row[1]]), it) for it in re.findall(r"`(\w+)`", " ".join(cells[1:])))
        pairs = re.findall(rf"({LIST}) of `(\w+)`", line) + [pair[::-1] for pair in re.findall(rf"(?:^|[|;] )`(\w+)`: ({LIST})", line)]
        yield from (((crate,), it.split("::")[-1]) for names, crate in pairs if crate in NAMES for it in words_of(names))


def named_of_files(text):
    """Pairs of a file and a name that stands before it."""
    return re.findall(r"`(?:\w+::)*(\w+)` \(`([\w/]+\.(?:rt|antt))`\)", text)


def named_clauses(text):
    """Pairs of a clause and the function that it is said to be of."""
    return re.findall(r"clause `(\w+)` of `(?:\w+::)*(\w+)`", text)


def file_declares(file, name):
    return any(f"/{path}".endswith(f"/{file}") and declares(path, name) for path in SOURCES)


def paths_of_crates(text):
    """Pairs of a crate and a path that stands in the first cell of a row below its name in bold."""
    crate = None
    for line in text.split("\n"):
        heading = re.match(r"\| \*\*(.*?)\*\* \|", line)
        if heading:
            named = re.fullmatch(r"`(\w+)`", heading[1])
            crate = named[1] if named else None
        elif not line.startswith("|"):
            crate = None
        elif crate in NAMES:
            cell = line.strip("|").split(" | ")[0]
            yield from ((crate, it) for it in words_of(cell) if re.match(r"(src|specs|proofs)/", it) and "new" not in cell and not TRIALS.search(it))


def contracts_of(text, name):
    """What stands from a function's name to the next function, for each function of the name."""
    return [it.split("\n}")[0] for it in re.findall(rf"\bfn {name}\b(.*?)(?=\n[^\n]*\bfn \w|\Z)", text, re.S)]


def is_clause(paths, owner, name):
    """Whether the name is a clause of this function, or, if it is none, a function, a clause or a member in the files."""
    contracts = [it for path in paths for it in contracts_of(SOURCES[path], owner)]
    if contracts:
        return any(re.search(rf"\b(?:ensures|requires)\*? {name} \{{", it) for it in contracts)
    return any(declares(path, name) for path in paths)


def claims(page):
    """Checks the rows of the table of claims against the files that they name, of the crates that the last heading names."""
    crates = []
    for line in page.read_text(encoding="utf-8").split("\n"):
        cells = [it.strip() for it in line.strip("|").split(" | ")]
        if re.match(r"\| \*\*`\w+`", line):
            crates = [it for it in words_of(line) if it in NAMES]
        elif crates and line.startswith("|") and len(cells) == 3:
            yield from missing_of_claim(crates, cells[1], cells[2])


def missing_of_claim(crates, named, files):
    paths = []
    for file in re.findall(r"`([\w/]+\.(?:rt|antt))`", files):
        found = [path for path in [Path(file), *(Path(crate, room, file) for crate in crates for room in ("src", "."))] if path in SOURCES]
        paths += found
        if not found:
            yield f"{crates[0]}: no file {file}"
    if ".." in words_without(files):
        paths = [path for path in SOURCES if path.parts[0] in crates]
    for group in named.split("; "):
        owners, _, clauses = group.replace("`: ", "`\0", 1).partition("\0")
        owners = [re.sub(r".*::", "", it) for it in words_of(owners)]
        for name in [it for it in owners if re.fullmatch(r"\w+", it)]:
            if not any(declares(path, name) for path in paths):
                yield f"{crates[0]}: {name} isn't in {files}"
        for name in re.findall(r"`(?:\w+::)*(\w+)`", clauses):
            if not any(is_clause(paths, owner, name) for owner in owners):
                yield f"{crates[0]}: {name} is no clause of {', '.join(owners)} in {files}"


def words_without(text):
    """The text without what stands in backquotes."""
    return re.sub(r"`[^`]*`", "", text)


def main():
    missing = []
    for page in [ROOT / "README.md", *sorted((ROOT / "docs").glob("*.md"))]:
        text = page.read_text(encoding="utf-8")
        short = page.relative_to(ROOT)
        for target in re.findall(r"\]\(([^)]+)\)", text):
            if "://" not in target and not (page.parent / target.split("#")[0]).exists():
                missing.append(f"{short}: no {target}")
        text = without_code(text)
        missing += [f"{short}: `{word}`" for word in sorted(set(words_of(text))) if not is_there(word, page)]
        missing += [f"{short}: {name} is no clause of {owner}" for name, owner in named_clauses(text) if not is_clause(SOURCES, owner, name)]
        if page.name != "DIFFERENCES.md":
            missing += [f"{short}: {name} isn't in {crates[0]}" for crates, name in sorted(set(named_of_crates(text))) if not crates_declare(crates, name)]
            missing += [f"{short}: {name} isn't in {file}" for name, file in named_of_files(text) if not file_declares(file, name)]
            missing += [f"{short}: no {path} in {crate}" for crate, path in paths_of_crates(text) if not (CRATES / crate / path).exists()]
    missing += [f"docs/PROVED.md: {it}" for it in claims(ROOT / "docs" / "PROVED.md")]
    version = re.search(r"^## ([\d.]+)", (ROOT / "CHANGELOG.md").read_text(encoding="utf-8"), re.M)[1]
    if f'.version("{version}")' not in SOURCES[Path("graphql_printing/src/command.rt")]:
        missing.append(f"CHANGELOG.md: graphql_print doesn't tell the version {version}")
    for it in missing:
        print(it)
    print(f"{len(missing)} missing")
    return 1 if missing else 0


if __name__ == "__main__":
    sys.exit(main())
