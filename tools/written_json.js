#!/usr/bin/env node
// Makes cases of a group `written` of the program golden: random documents in AST JSON, so many of a seed, with strings of every escape, and locations at a
// part of the nodes. Golden compares the text of the AST JSON of each with that of the value of serde_json:
//
//   tools/written_json.js SEED COUNT > written.jsonl
//   crates/golden/out/golden written.jsonl
//
// Of texts that differ it says "AST JSON as text". It says "AST JSON" besides of documents that are written otherwise than they were read: with `block` of a
// string that the default layout prints as a block string, or without a location that has no place in the tree, as that of a type's name.
const { below, documents } = require("./random_documents.js");

const PARTS = ['"', "\\", "/", "\b", "\t", "\n", "\f", "\r", "\u007f", "\u0080", "\u2028", "\uffff", "\u{10ffff}", "é", "日", "🎉", " ", "a", "<"];
const character = () => (below(3) ? PARTS[below(PARTS.length)] : String.fromCharCode(below(0x20)));
const text = () => (below(4) ? Array.from({ length: below(30) }, character).join("") : "plain ".repeat(below(6)));
const OFFSETS = [0, 1, 9, 10, 99, 12345, 4294967294, 4294967295];

function location() {
  const [one, other] = [OFFSETS[below(OFFSETS.length)], OFFSETS[below(OFFSETS.length)]];
  return { start: Math.min(one, other), end: Math.max(one, other) };
}

// The kinds of nodes that have a location here: a name's and a directive location's has to be as long as their text.
const isLocated = (node) => node.kind && node.kind !== "Name" && node.kind !== "SelectionSet" && below(3) === 0;

function changed(node) {
  if (node.kind === "StringValue") node.value = text();
  if (isLocated(node)) node.loc = location();
  Object.values(node).forEach((it) => it && typeof it === "object" && changed(it));
  return node;
}

let count = 0;
for (const document of documents(process.argv[2], process.argv[3])) {
  count += 1;
  console.log(JSON.stringify({ name: `written/${count}`, kind: "Document", json: { json: changed(document), error: null } }));
}
