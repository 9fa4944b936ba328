#!/usr/bin/env python3
"""Times calls of the C interface beside node and graphql-js, by turns, over the same document.

    tools/times_beside_graphql_js.py [print|write [SIZE [ROUNDS]]]

- print: graphql_ast_print_json beside `print(JSON.parse(text))`;
- write: graphql_ast_write_json, less graphql_ast_check_json, which reads the same text and writes nothing, beside `JSON.stringify` of the parsed text.

The document is of the definitions of random documents (tools/random_documents.js, seed 1) that graphql-js reads back from its own print, as many as make
SIZE bytes of AST JSON (1,600,000). After ten rounds of each to warm up come ROUNDS (51), in each of which both have one turn. It prints the median and the
least of each, in milliseconds of the clock and of the processor, and the ratios: processor time is that of all threads of the process, in node those too
that compile and collect. graphql-js has to read from the text of the call, or print of its JSON, what it reads or prints of its own.

It needs the shared object, which gcc makes as bindings/python/README.md tells, beside the module or where the variable GRAPHQL_AST_SO says; and node with
graphql-js 16: `npm install graphql`, or Debian's package node-graphql with NODE_PATH=/usr/share/nodejs.
"""
import ctypes
import json
import statistics
import subprocess
import sys
import time
from pathlib import Path

TOOLS = Path(__file__).resolve().parent
sys.path.insert(0, str(TOOLS.parent / "bindings/python"))
sys.dont_write_bytecode = True
import graphql_ast  # noqa: E402

DEFAULTS = ["print", "1600000", "51"]
WARM_UP = 10
# Writes the document's JSON and graphql-js' version, and then for each line that comes what a turn took; for a line with a text whether it is read alike.
NODE = r"""
const { parse, print, version } = require("graphql");
const { documents } = require(process.argv[1]);
const isRead = (it) => {
  try {
    const printed = print({ kind: "Document", definitions: [it] });
    return print(parse(printed, { noLocation: true })) === printed;
  } catch {
    return false;
  }
};
const definitions = [];
let size = 0;
for (const it of documents(1, 1e9)) {
  const kept = it.definitions.filter(isRead);
  definitions.push(...kept);
  size += JSON.stringify(kept).length - 1;
  if (size >= Number(process.argv[2])) break;
}
const withoutBlock = (document) => JSON.parse(JSON.stringify(document, (name, it) => (name === "block" ? undefined : it)));
const json = JSON.stringify({ kind: "Document", definitions });
console.log(JSON.stringify({ json, version, node: process.version }));
const document = JSON.parse(json);
const [turn, readBack] = {
  print: [() => print(JSON.parse(json)), parse],
  write: [() => JSON.stringify(document), JSON.parse],
}[process.argv[3]];
require("readline").createInterface({ input: process.stdin }).on("line", (line) => {
  if (line) return console.log(JSON.stringify(print(withoutBlock(readBack(JSON.parse(line)))) === print(withoutBlock(document))));
  const used = process.cpuUsage(), begun = process.hrtime.bigint();
  const { length } = turn();
  const ended = process.hrtime.bigint(), { user, system } = process.cpuUsage(used);
  console.log(JSON.stringify([Number(ended - begun) / 1e6, (user + system) / 1e3, length]));
});
"""


class GraphqlJs:
    """A process of node that has the document, and takes a turn for each line."""

    def __init__(self, operation, size):
        words = ["node", "-e", NODE, TOOLS / "random_documents.js", size, operation]
        self.node = subprocess.Popen(words, stdin=subprocess.PIPE, stdout=subprocess.PIPE, encoding="utf-8")
        self.told = json.loads(self.node.stdout.readline())

    def ask(self, line=""):
        self.node.stdin.write(line + "\n")
        self.node.stdin.flush()
        return json.loads(self.node.stdout.readline())

    def turn(self):
        return self.ask()[:2]


class Call:
    """The calls, with a buffer that is longer than the JSON."""

    def __init__(self, operation, text):
        self.json, self.turn = text.encode(), {"print": self.printed, "write": self.written}[operation]
        self.out, self.needed = ctypes.create_string_buffer(2 * len(self.json)), ctypes.c_size_t()

    def time(self, call, *layout):
        used, begun = time.process_time(), time.perf_counter()
        status = call(self.json, len(self.json), True, *layout, self.out, len(self.out), self.needed)
        ended, now_used = time.perf_counter(), time.process_time()
        if status:
            sys.exit(f"status {status}: {self.out.value.decode()}")
        return (ended - begun) * 1e3, (now_used - used) * 1e3

    def printed(self):
        return self.time(graphql_ast._library.graphql_ast_print_json, b"  ", 2, 0, False)

    def written(self):
        read = self.time(graphql_ast._library.graphql_ast_check_json)
        both = self.time(graphql_ast._library.graphql_ast_write_json)
        return both[0] - read[0], both[1] - read[1]


def main():
    operation, size, rounds = [*sys.argv[1:], *DEFAULTS[len(sys.argv) - 1 :]]
    other = GraphqlJs(operation, size)
    call = Call(operation, other.told["json"])
    times = {"the call": [], "node": []}
    for number in range(WARM_UP + int(rounds)):
        turns = call.turn(), other.turn()
        if number >= WARM_UP:
            for found, turn in zip(times.values(), turns):
                found.append(turn)
    text = call.out.raw[: call.needed.value].decode()
    if not other.ask(json.dumps(text)):
        sys.exit("graphql-js has another document by the text")
    print(f"{operation}: {len(call.json)} bytes of AST JSON, {len(text.encode())} written; graphql-js {other.told['version']}, node {other.told['node']}; {rounds} rounds")
    for which, clock in enumerate(("clock", "processor")):
        for name, of in (("median", statistics.median), ("least", min)):
            ours, theirs = (of(turn[which] for turn in found) for found in times.values())
            print(f"{name} of the {clock}: {ours:.1f} ms the call, {theirs:.1f} ms node, a ratio of {theirs / ours:.2f}")


main()
