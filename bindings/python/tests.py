"""Tests of the module, over cases in the form of golden/data. The shared object is where GRAPHQL_AST_SO says.

    python3 tests.py CASES VECTORS

CASES is a file, or a folder, whose files *.jsonl are read; VECTORS is ../vectors.jsonl.
"""
import ctypes
import json
import pathlib
import sys
import threading
import unittest

import graphql_ast

CASES, VECTORS = pathlib.Path(sys.argv.pop(1)), pathlib.Path(sys.argv.pop(1))
FIELD = {"kind": "Field", "name": {"kind": "Name", "value": "a"}}
QUERY = json.dumps(
    {
        "kind": "Document",
        "definitions": [
            {"kind": "OperationDefinition", "operation": "query", "selectionSet": {"kind": "SelectionSet", "selections": [FIELD]}},
        ],
    }
)
EMPTY = '{"kind":"Document","definitions":[]}'
PRINTS = {"Document": graphql_ast.print, "Value": graphql_ast.print_value}


def cases(source=CASES):
    for path in sorted(source.glob("*.jsonl")) if source.is_dir() else [source]:
        for line in path.read_text(encoding="utf-8").splitlines():
            case = json.loads(line)
            if case["kind"] in PRINTS:
                yield case


def answer(call, *arguments, **named):
    try:
        return call(*arguments, **named)
    except graphql_ast.Error as error:
        return error


class Calls(unittest.TestCase):
    def check_print(self, kind, case):
        prefix, tree = case["prefix"], json.dumps(case["tree"])
        found = answer(PRINTS[kind], tree, prefix=prefix, level=int(case["level"]))
        if prefix is not None and prefix.strip(" \t"):
            self.assertIsInstance(found, graphql_ast.WrongPrefix)
        elif not case["well_formed"]:
            self.assertIsInstance(found, graphql_ast.IllFormed)
            self.assertEqual(str(found), case.get("message", str(found)))
        elif case["text"] is None:
            self.assertIsInstance(found, graphql_ast.LevelOverflow)
        else:
            self.assertEqual(found, case["text"])
        if kind == "Document":
            checked = answer(graphql_ast.check, tree)
            self.assertIsInstance(checked, type(None) if case["well_formed"] else graphql_ast.IllFormed)

    def check_json(self, kind, case):
        text, pass_over = json.dumps(case["json"]), case.get("pass_over", False)
        found = answer(PRINTS[kind], text, pass_over=pass_over)
        if case["error"] is not None:
            self.assertIsInstance(found, graphql_ast.NoTree)
            self.assertEqual(str(found), case["error"])
        else:
            self.assertNotIsInstance(found, graphql_ast.NoTree)
            if kind == "Document":
                written = graphql_ast.normalize(text, pass_over=pass_over)
                self.assertEqual(json.loads(written), case.get("written", case["json"]))

    def check_cases(self, source):
        count = 0
        for case in cases(source):
            with self.subTest(case["name"]):
                if "print" in case:
                    self.check_print(case["kind"], case["print"])
                else:
                    self.check_json(case["kind"], case["json"])
            count += 1
        return count

    def test_stored_cases(self):
        self.assertGreater(self.check_cases(CASES), 800)

    def test_stored_vectors(self):
        self.assertEqual(self.check_cases(VECTORS), 12)

    def test_two_threads_share_nothing(self):
        failed = []

        def work():
            try:
                for case in cases():
                    if "print" in case:
                        self.check_print(case["kind"], case["print"])
            except BaseException as error:
                failed.append(error)

        threads = [threading.Thread(target=work) for _ in range(2)]
        for it in threads:
            it.start()
        for it in threads:
            it.join()
        self.assertEqual(failed, [])

    def test_each_status(self):
        self.assertEqual(graphql_ast.print(QUERY), "{\n  a\n}\n")
        self.assertEqual(graphql_ast.print(QUERY, prefix=None), "{ a }")
        self.assertIsInstance(answer(graphql_ast.print, ""), graphql_ast.NotJson)
        self.assertIsInstance(answer(graphql_ast.print, '"\ud800"'), graphql_ast.NotJson)
        self.assertEqual(str(answer(graphql_ast.print, "7")), "at the root: found a number where an object was wanted")
        self.assertIsInstance(answer(graphql_ast.print, EMPTY), graphql_ast.IllFormed)
        self.assertIsInstance(answer(graphql_ast.check, EMPTY), graphql_ast.IllFormed)
        self.assertIsInstance(answer(graphql_ast.print, QUERY, level=2**64 - 1, prefix=""), graphql_ast.LevelOverflow)
        self.assertIsInstance(answer(graphql_ast.print, QUERY, prefix="\xa0"), graphql_ast.WrongPrefix)
        self.assertRaises(OverflowError, graphql_ast.print, QUERY, level=2**64)
        normal = graphql_ast.normalize(QUERY)
        self.assertEqual(graphql_ast.normalize(normal), normal)

    def test_nul_ends_no_text(self):
        self.assertEqual(graphql_ast.print_value(r'{"kind":"StringValue","value":"a\u0000b"}', prefix=None), r'"a\u0000b"')
        self.assertIsInstance(answer(graphql_ast.print_value, r'{"kind":"EnumValue","value":"a\u0000b"}'), graphql_ast.NoTree)
        for text in ("\0", QUERY + "\0", QUERY.replace('"a"', '"a\0"')):
            self.assertIsInstance(answer(graphql_ast.print, text), graphql_ast.NotJson)
        self.assertIsInstance(answer(graphql_ast.print, QUERY, prefix=" \0"), graphql_ast.WrongPrefix)

    def check_each_length(self, text, status, wanted):
        """The call with a buffer of each length up to one byte more than it needs, and the module's function that begins with such a one."""
        given, wanted = text.encode(), wanted.encode()
        arguments = given, len(given), True, b"\t", 1, 0, False
        call = graphql_ast._library.graphql_ast_print_json
        for room in range(len(wanted) + 2):
            out, needed = ctypes.create_string_buffer(b"#" * (len(wanted) + 2)), ctypes.c_size_t(77)
            answered = call(*arguments, out, room, needed)
            self.assertEqual(needed.value, len(wanted))
            if status == 0 and room < len(wanted):
                self.assertEqual((answered, out.raw[room:-1].strip(b"#")), (1, b""))
            else:
                kept = wanted[:room].decode(errors="ignore").encode()
                self.assertEqual((answered, out.raw[:-1]), (status, kept.ljust(len(wanted) + 2, b"#")))
            found = answer(graphql_ast._text_of, call, room, *arguments)
            self.assertEqual((type(found), str(found)), (graphql_ast._ERRORS.get(status, str), wanted.decode()))

    def test_buffers_of_each_length(self):
        self.check_each_length(QUERY, 0, "{\n\ta\n}\n")
        self.check_each_length(EMPTY, 4, "at the root: a document without a definition")
        self.check_each_length('{"kind":"Dä𝄞"}', 3, "at `kind`: found the kind `Dä𝄞` where Document was wanted")

    def test_long_texts(self):
        prefix = "\t" * (1 << 20)
        self.assertEqual(graphql_ast.print(QUERY, prefix=prefix), "{\n" + prefix + "a\n}\n")
        item = {"kind": "ScalarTypeDefinition", "name": {"kind": "Name", "value": "Abcdefg"}}
        count = 10_000_000 // len(json.dumps(item)) + 1
        text = graphql_ast.print(json.dumps({"kind": "Document", "definitions": [item] * count}))
        self.assertEqual(text, "\n".join(["scalar Abcdefg\n"] * count))


unittest.main()
