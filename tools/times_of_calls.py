#!/usr/bin/env python3
"""Times operations of op_speed beside what node and graphql-js do with the same document, by turns.

    tools/times_of_calls.py DOCUMENT.json [TURNS]

The document is in AST JSON, as tools/large_document.js writes it. Of each operation come TURNS turns (7): of a run of op_speed with so many rounds, less one
with none, and of a tenth as many rounds of the peer in a process of node that has done some before. It prints the median and the least of each, in milliseconds of
processor time a round, and the ratio of the medians: of node that is the time of all threads, of those too that compile and collect.

The peers: JSON.parse and JSON.stringify; print of graphql-js; its visit with a function for each node that counts, and with one for each field that
changes nothing; isDeepStrictEqual of node's module util, over two documents that were parsed apart.

It needs the program op_speed as `rt run` or `rt ci` leaves it, and node with graphql-js 16: `npm install graphql`, or Debian's package node-graphql with
NODE_PATH=/usr/share/nodejs.
"""
import json
import os
import statistics
import subprocess
import sys
from pathlib import Path

PROGRAM = Path(__file__).resolve().parent.parent / "crates/op_speed/out/op_speed"
# An operation, and how many rounds a turn has.
OPERATIONS = {"read": 10, "write": 10, "write_text": 20, "print": 200, "walk": 1000, "rebuild": 200, "equal": 200}
NODE = r"""
const { parse, print, version, visit } = require("graphql");
const { isDeepStrictEqual } = require("util");
const text = require("fs").readFileSync(process.argv[1], "utf8");
const document = JSON.parse(text), other = JSON.parse(text);
let nodes = 0;
const peers = {
  read: () => JSON.parse(text).definitions.length,
  write: () => JSON.stringify(document).length,
  write_text: () => JSON.stringify(document).length,
  print: () => print(document).length,
  walk: () => visit(document, { enter() { nodes += 1; } }).definitions.length,
  rebuild: () => visit(document, { Field: { leave(node) { if (node.name.value === "no_such_field") return null; } } }).definitions.length,
  equal: () => isDeepStrictEqual(document, other),
};
console.log(JSON.stringify({ version, node: process.version }));
require("readline").createInterface({ input: process.stdin }).on("line", (line) => {
  const [operation, rounds] = JSON.parse(line);
  const used = process.cpuUsage();
  for (let round = 0; round < rounds; round++) peers[operation]();
  const { user, system } = process.cpuUsage(used);
  console.log(JSON.stringify((user + system) / 1e3));
});
"""


class Peer:
    """A process of node that has the document, and does so many rounds of an operation for each line."""

    def __init__(self, document):
        self.node = subprocess.Popen(["node", "-e", NODE, document], stdin=subprocess.PIPE, stdout=subprocess.PIPE, encoding="utf-8")
        self.told = json.loads(self.node.stdout.readline())

    def turn(self, operation, rounds):
        self.node.stdin.write(json.dumps([operation, rounds]) + "\n")
        self.node.stdin.flush()
        return json.loads(self.node.stdout.readline()) / rounds


def time_of(document, operation, rounds):
    """Milliseconds of processor time of a run."""
    with open(document, "rb") as given:
        child = subprocess.Popen([PROGRAM, operation, str(rounds)], stdin=given, stdout=subprocess.DEVNULL)
        _, status, usage = os.wait4(child.pid, 0)
    if status:
        sys.exit(f"{operation} ended with status {status}")
    return (usage.ru_utime + usage.ru_stime) * 1e3


def main():
    document, turns = sys.argv[1], int(sys.argv[2]) if len(sys.argv) > 2 else 7
    peer = Peer(document)
    print(f"graphql-js {peer.told['version']}, node {peer.told['node']}; {turns} turns; milliseconds a round")
    for operation, rounds in OPERATIONS.items():
        few = max(rounds // 10, 3)
        peer.turn(operation, few)
        ours, theirs = [], []
        for _ in range(turns):
            ours.append((time_of(document, operation, rounds) - time_of(document, operation, 0)) / rounds)
            theirs.append(peer.turn(operation, few))
        told = [f"{name} {of(ours):.3f} and {of(theirs):.3f}" for name, of in [("median", statistics.median), ("least", min)]]
        print(f"{operation}: {', '.join(told)}; of the medians {statistics.median(theirs) / statistics.median(ours):.2f}", flush=True)


main()
