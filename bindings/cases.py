#!/usr/bin/env python3
"""Writes cases of documents and values, in the form of golden/data, in a form that C and Rust read without a reader of JSON.

    python3 cases.py FROM.. >CASES

FROM is a file, or a folder, whose files *.jsonl are read. Cases of other kinds are passed over.

A case is a line of seven numbers, then the bytes of the JSON, of the prefix and of the text that is wanted, and a line feed. The numbers: the call (0
print_json, 1 print_value_json), the status, whether there are several lines, whether what is unknown is passed over, and how many bytes the JSON, the
prefix and the text have. What a case of a status but 0 wants is a message, or none where its text is empty. All begin at level 0, but for those whose level
stands behind the others, as an eighth number.
"""
import json
import pathlib
import sys

CALLS = {"Document": 0, "Value": 1}
DONE, NO_TREE, ILL_FORMED, LEVEL_OVERFLOW, WRONG_PREFIX = 0, 3, 4, 5, 7


def print_case(case):
    prefix, level, text = case["prefix"], int(case["level"]), case["text"]
    status = DONE
    if prefix is not None and prefix.strip(" \t"):
        status, text = WRONG_PREFIX, ""
    elif not case["well_formed"]:
        status, text = ILL_FORMED, case.get("message", "")
    elif text is None:
        status, text = LEVEL_OVERFLOW, "indentation level overflow"
    return status, prefix, level, False, case["tree"], text


def put(out, call, status, prefix, level, pass_over, tree, text):
    parts = [it.encode("utf-8") for it in (json.dumps(tree, ensure_ascii=False), prefix or "", text)]
    numbers = [call, status, prefix is not None, pass_over, *map(len, parts), level]
    out.write(" ".join(str(int(it)) for it in numbers).encode() + b"\n" + b"".join(parts) + b"\n")


def files(words):
    for path in map(pathlib.Path, words):
        yield from sorted(path.glob("*.jsonl")) if path.is_dir() else [path]


def main():
    out = sys.stdout.buffer
    for path in files(sys.argv[1:]):
        for line in path.read_text(encoding="utf-8").splitlines():
            case = json.loads(line)
            call = CALLS.get(case["kind"])
            if call is None:
                continue
            if "print" in case:
                put(out, call, *print_case(case["print"]))
            elif case["json"]["error"] is not None:
                told = case["json"]
                put(out, call, NO_TREE, None, 0, told.get("pass_over", False), told["json"], told["error"])


main()
