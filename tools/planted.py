#!/usr/bin/env python3
"""Tries the planted bugs of crates, crates/NAME/planted/*.edit: wrong bodies that no contract may let through.

    tools/planted.py [--only WORD] [--alone] [--told FILE] [NAME..]

They are written as the edits of must-fail/ are, which `rt ci` tries itself: a line `file: src/name.rt`, then pairs of a line `old: TEXT`, whose text
stands once in that file, and a line `new: TEXT`. Each is tried on a copy of the repository. Without a name it goes over all crates that have some. With
--only, those whose file name holds the word. It begins with what `rt check` kept of the crates, so check them first.

A function is proved by its own body and the contracts of what it calls, so wrong bodies of several functions are tried by one `rt check`: each of these
functions has to be one that isn't proved, for a reason of its own. Where one waits for the proof of another, it is tried again without that one. What
such a check doesn't settle is tried alone, by `rt must-fail`: edits outside of bodies, a function that is proved, and one whose proof files name what is
no more there. With --alone, each is tried so.

A check of several doesn't tell a clause that is refused from one at which the prover gave up at a limit of its search: both count as refused there. Who
wants to know tries the edit with --alone.

Of each edit it says what came of it, as soon as that is known, with the first line of why. A run that was cut off is gone on with by --told FILE, where
FILE has what it said: edits that are refused at the contract there aren't tried again, and count as refused.

    refused at the contract    as it must be: a clause is not proved
    refused only by a name     the check fails since a name that proof files cite is gone, which says nothing of the contract: mend the edit
    bad edit                   it can't be applied, or its text doesn't compile: mend the edit
    refused only by a limit    the prover gave no verdict: choose a change that it refuses sooner
    not tried                  run it again
    PROVED                     a hole: the crate is proved with this wrong body

Its last line counts the planted bugs, those that are refused at the contract, and the survivors, which are proved. The exit status is 0 if each is
refused at the contract, 1 if one is proved or a crate isn't proved without any edit, and else 2.
"""
import argparse
import re
import shutil
import subprocess
import sys
import tempfile
from dataclasses import dataclass
from pathlib import Path

ROOT = Path(__file__).resolve().parent.parent
REFUSED = "refused at the contract"
# how many wrong bodies one check is given
TOGETHER = 40
FUNCTION = re.compile(r"^( *)(?:pub(?:\([^)]*\))? )?(?:const |unsafe )*fn (\w+)")
CYCLE = re.compile(r"^ *#\[cycle\((\w+)\)\]")
# what `rt must-fail` says of an edit, by how it begins
VERDICTS = [
    ("NOT REFUSED", "PROVED"),
    ("BAD EDIT", "bad edit"),
    ("refused, as it must be (only because a proof file names", "refused only by a name"),
    ("refused, as it must be (only by a limit of the prover", "refused only by a limit"),
    ("refused, as it must be", REFUSED),
]


@dataclass(frozen=True)
class Body:
    """The body of a function: the file, from the crate's folder, its lines, from 1, and the name. Those of a cycle are proved as one."""

    file: str
    name: str
    first: int
    last: int
    cycle: str


@dataclass
class Edit:
    name: str
    file: str
    pairs: list
    body: Body | None


def body_lines(indent, lines):
    """How many lines behind the first the function ends that it begins: 0 where it has no body."""
    for at, line in enumerate(lines):
        if line == f"{indent}{{" or at == 0 and line.endswith(" {") or re.match(rf"{indent}[)].* {{$", line):
            return next((end for end in range(at, len(lines)) if lines[end] == f"{indent}}}"), 0)
        if at > 0 and (line == f"{indent[4:]}}}" or FUNCTION.match(line)) or line.endswith(";") and "{" not in line:
            return 0
    return 0


def bodies(file, lines):
    """The functions of a file, with their signatures and clauses."""
    cycle = ""
    for number, line in enumerate(lines):
        if found := CYCLE.match(line):
            cycle = found[1]
        if not (found := FUNCTION.match(line)):
            continue
        last = number + body_lines(found[1], lines[number:])
        if last > number:
            yield Body(file, found[2], number + 1, last + 1, cycle)
        cycle = ""


def parse_edit(folder, path):
    file, pairs, old = "", [], None
    for line in path.read_text(encoding="utf-8").split("\n"):
        if line.startswith("file: "):
            file = line[6:].strip()
        elif line.startswith("old: "):
            old = line[5:]
        elif line.startswith("new:") and old is not None:
            pairs.append((old, line[5:]))
    source = folder / file
    body = None
    if file.endswith(".rt") and source.is_file():
        text = source.read_text(encoding="utf-8")
        body = body_of(file, text, pairs)
    return Edit(path.stem, file, pairs, body)


def body_of(file, text, pairs):
    """The one body in which all of the texts stand, each once."""
    places = set()
    for old, _ in pairs:
        if text.count(old) != 1:
            return None
        number = text[: text.index(old)].count("\n") + 1
        places.add(next((body for body in bodies(file, text.split("\n")) if body.first <= number <= body.last), None))
    return places.pop() if len(places) == 1 else None


def unit(edit):
    """What is proved as one, and isn't told apart in what the check says: a cycle, or the functions of one name in a file. Of edits that put a function
    into a file, one is tried at a time, as two may give it the same name."""
    if any(" fn " in new for _, new in edit.pairs):
        return (edit.file, " fn ")
    return (edit.file, f"+{edit.body.cycle}" if edit.body.cycle else edit.body.name)


def below(names):
    """These crates, and those that they stand on."""
    uses = {}
    for line in (ROOT / "crates.txt").read_text(encoding="utf-8").splitlines():
        crate, _, used = line.partition(":")
        uses[crate.split(" ")[0]] = used.split()
    found, left = set(), list(names)
    while left:
        crate = left.pop()
        if crate in uses and crate not in found:
            found.add(crate)
            left += uses[crate]
    return found


class Copy:
    """A copy of the repository, with what `rt check` kept of these crates and of those below, in which edits are applied to one crate."""

    def __init__(self, root, names):
        self.root = Path(root)
        self.kept = below(names)
        for name in ["crates.txt", "HANDLES"]:
            shutil.copy(ROOT / name, self.root / name)
        for crate in sorted((ROOT / "crates").iterdir()):
            (self.root / "crates" / crate.name).mkdir(parents=True)
            self.restore(crate.name)

    def restore(self, crate):
        """The crate's files as they are, and what was kept of them, and nothing of others."""
        folder = self.root / "crates" / crate
        for part in ["src", "specs", "proofs", "out"]:
            shutil.rmtree(folder / part, ignore_errors=True)
            if (part != "out" or crate in self.kept) and (ROOT / "crates" / crate / part).is_dir():
                shutil.copytree(ROOT / "crates" / crate / part, folder / part, symlinks=True)

    def apply(self, crate, edits):
        """Applies these edits, each where its texts stand in the file as it is, and returns those that another one's text overlaps."""
        overlapping = []
        for file in {edit.file for edit in edits}:
            text = (ROOT / "crates" / crate / file).read_text(encoding="utf-8")
            changes = []
            for edit in edits:
                if edit.file == file:
                    mine = [(text.index(old), old, new) for old, new in edit.pairs]
                    if any(at < other + len(old) and other < at + len(text_of) for at, text_of, _ in mine for other, old, _ in changes):
                        overlapping.append(edit)
                    else:
                        changes += mine
            for at, old, new in sorted(changes, reverse=True):
                text = text[:at] + new + text[at + len(old) :]
            (self.root / "crates" / crate / file).write_text(text, encoding="utf-8")
        return overlapping

    def check(self, crate):
        """What `rt check` says of the crate."""
        run = subprocess.run(["rt", "check"], cwd=self.root / "crates" / crate, stdout=subprocess.PIPE, stderr=subprocess.STDOUT, text=True, errors="replace")
        return [line for line in run.stdout.split("\n") if not line.startswith("so far:")]

    def must_fail(self, crate, edits):
        """The verdict of each edit, and why, by `rt must-fail`."""
        folder = self.root / "crates" / crate / "must-fail"
        folder.mkdir()
        for edit in edits:
            shutil.copy(ROOT / "crates" / crate / "planted" / f"{edit.name}.edit", folder)
        told, last = {}, ""
        with subprocess.Popen(["rt", "must-fail", crate], cwd=self.root, stdout=subprocess.PIPE, stderr=subprocess.STDOUT, text=True, errors="replace") as run:
            for line in run.stdout:
                last = line.strip() or last
                if found := re.match(r"rt: must-fail (?:[^ /]+/)?([^ /]+)\.edit: (.*)$", line):
                    verdict = next((verdict for begin, verdict in VERDICTS if found[2].startswith(begin)), "not tried")
                    told[found[1]] = verdict
                    tell(crate, found[1], verdict, found[2].partition(": ")[2].removeprefix("note: "))
        shutil.rmtree(folder)
        for edit in edits:
            if edit.name not in told:
                tell(crate, edit.name, "not tried", last)
        return {edit.name: told.get(edit.name, "not tried") for edit in edits}


def tell(crate, name, verdict, why):
    print(f"{crate}/{name}: {verdict}: {why}", flush=True)


def module_of(file):
    """The path by which a check names what stands in a file."""
    return "::".join(part for part in Path(file).with_suffix("").parts[1:] if part not in ("lib", "main"))


def refused_bodies(crate, said, edits):
    """Those of the edits that were applied whose function is not proved for a reason of its own, of which no proof file names what is gone."""
    refused = []
    for edit in edits:
        prefix = "::".join(part for part in [crate, module_of(edit.file)] if part)
        line = re.compile(rf"fn {re.escape(prefix)}(?:::[^:]+)?::{edit.body.name}: (no proof|not proved)(.*)$")
        fails = [found for text in said if (found := line.match(text))]
        proofs = {path for found in fails for path in re.findall(r"expected answers in \./(proofs/\S+)/Answers\.antt", found[2])}
        folder = f"proofs/{module_of(edit.file).replace('::', '/')}/"
        name = f"+{edit.body.cycle}" if edit.body.cycle else edit.body.name
        at_proof = re.compile(rf"\./{re.escape(folder)}(?:[^/]+/)?(?:{re.escape(name)}|\+\w+)/\w+\.antt:\d+:\d+: error: (.*)$")
        errors = [found[1] for text in said if (found := at_proof.match(text))]
        at_source = re.compile(rf"note: {re.escape(edit.file)}:(\d+):\d+: it is not proved that")
        notes = [text for text in said if (found := at_source.match(text)) and edit.body.first <= int(found[1]) <= edit.body.last]
        names = [text for text in errors if re.search(r"has no |can be named|not in scope", text)]
        by_search = any("did not prove" in found[2] for found in fails)
        if fails and not names and (errors or by_search or notes and proofs):
            refused.append(edit)
    return refused


def faulty(said, edits):
    """Those of the edits at which the compiler found a fault."""
    at = {(found[1], int(found[2])) for text in said if (found := re.match(r"(src/\S+?\.rt):(\d+):\d+: error", text))}
    return [edit for edit in edits if any(file == edit.file and edit.body.first <= number <= edit.body.last for file, number in at)]


def try_together(copy, crate, edits):
    """The edits that checks of several refuse, and the others."""
    refused, alone, left = [], [edit for edit in edits if edit.body is None], [edit for edit in edits if edit.body is not None]
    while left:
        batch, units = [], set()
        for edit in left:
            if unit(edit) not in units and len(batch) < TOGETHER:
                batch.append(edit)
                units.add(unit(edit))
        copy.restore(crate)
        overlapping = copy.apply(crate, batch)
        batch = [edit for edit in batch if edit not in overlapping]
        said = copy.check(crate)
        held = refused_bodies(crate, said, batch)
        if any(text.startswith("logic=proved") for text in said):
            held = []
        wrong = faulty(said, batch)
        print(f"{crate}: {len(batch)} together, refused {len(held)}", flush=True)
        for edit in held:
            if edit not in wrong:
                tell(crate, edit.name, REFUSED, "together with others")
                refused.append(edit)
        if not held and not wrong:
            alone += batch
            left = [edit for edit in left if edit not in batch]
            continue
        alone += wrong
        # What waits for the proof of another is tried again, and what is proved, or named in proof files, alone.
        waits = [edit for edit in batch if edit not in held and edit not in wrong and (wrong or is_waiting(crate, said, edit))]
        alone += [edit for edit in batch if edit not in held and edit not in wrong and edit not in waits]
        left = [edit for edit in left if edit not in batch or edit in waits]
    return refused, alone


def is_waiting(crate, said, edit):
    prefix = "::".join(part for part in [crate, module_of(edit.file)] if part)
    line = re.compile(rf"fn {re.escape(prefix)}(?:::[^:]+)?::{edit.body.name}: .*it calls ")
    return any(line.match(text) for text in said)


def try_crate(copy, crate, word, is_alone, before):
    """How many bugs are planted, refused and proved, and whether the crate is proved without any."""
    folder = ROOT / "crates" / crate
    paths = [path for path in sorted((folder / "planted").glob("*.edit")) if word in path.stem]
    edits = [parse_edit(folder, path) for path in paths if f"{crate}/{path.stem}" not in before]
    earlier = len(paths) - len(edits)
    if not edits:
        return earlier, earlier, 0, True
    copy.restore(crate)
    if not any(text.startswith("logic=proved") for text in copy.check(crate)):
        print(f"{crate}: not proved as it stands, so nothing is known of its edits")
        return len(paths), earlier, 0, False
    refused, alone = ([], edits) if is_alone else try_together(copy, crate, edits)
    copy.restore(crate)
    verdicts = {edit.name: REFUSED for edit in refused}
    if alone:
        print(f"{crate}: {len(alone)} alone", flush=True)
        verdicts |= copy.must_fail(crate, alone)
    held = earlier + sum(verdict == REFUSED for verdict in verdicts.values())
    survivors = sum(verdict == "PROVED" for verdict in verdicts.values())
    print(f"{crate}: planted {len(paths)}, refused {held}", flush=True)
    return len(paths), held, survivors, True


def main():
    parser = argparse.ArgumentParser(description=__doc__.split("\n", maxsplit=1)[0])
    parser.add_argument("--only", default="", metavar="WORD")
    parser.add_argument("--alone", action="store_true")
    parser.add_argument("--told", type=Path, metavar="FILE")
    parser.add_argument("names", nargs="*", metavar="NAME")
    options = parser.parse_args()
    names = options.names or sorted(path.parent.name for path in (ROOT / "crates").glob("*/planted"))
    for name in names:
        if not (ROOT / "crates" / name).is_dir():
            sys.exit(f"{name}: no such crate")
    told = options.told.read_text(encoding="utf-8").split("\n") if options.told else []
    before = {line.partition(": ")[0] for line in told if f": {REFUSED}: " in line}
    with tempfile.TemporaryDirectory() as root:
        copy = Copy(root, names)
        tried = [try_crate(copy, name, options.only, options.alone, before) for name in names]
    planted, refused, survivors = (sum(column) for column in list(zip(*tried))[:3])
    print(f"planted {planted}, refused {refused}, survivors {survivors}")
    if survivors or not all(is_proved for *_, is_proved in tried):
        return 1
    return 0 if refused == planted else 2


if __name__ == "__main__":
    sys.exit(main())
