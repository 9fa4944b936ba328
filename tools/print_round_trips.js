#!/usr/bin/env node
// Prints random documents by the program graphql_print in each layout, and has graphql-js read what is printed: the same trees.
//
//   tools/print_round_trips.js SEED COUNT
//
// A definition counts as well formed if graphql-js reads it back from its own print. The document of all such definitions has to be printed, and
// the text read as it; a document with another definition, or without one, has to be refused with status 1, and what is printed of it where that is
// allowed is read as another tree or not at all. AST JSON that is written is that of the document, and graphql-js prints it with the block strings that
// the default layout has.
//
// It needs the program, which `rt run` builds in crates/graphql_print, and graphql-js 16: `npm install graphql`, or Debian's package node-graphql
// with NODE_PATH=/usr/share/nodejs. It says how many texts were read, and how many documents were refused; the exit status is 0 if all is as it should.
const { spawnSync } = require("child_process");
const path = require("path");
const { parse, print } = require("graphql");
const { documents } = require("./random_documents.js");

const PROGRAM = path.join(__dirname, "../crates/graphql_print/out/graphql_print");
const LAYOUTS = ["", "--indent 0", "--indent 4", "--indent 16", "--tabs", "--one-line", "--level 3", "--tabs --level 2", "--one-line --level 7"];
const [seed, count] = process.argv.slice(2);
const counts = { documents: 0, texts: 0, refused: 0, wrong: 0 };

// A node without its location and what is not there, whose members stand in order. A field's empty selection set is none.
function plain(node) {
  if (Array.isArray(node)) return node.map(plain);
  if (typeof node !== "object") return node;
  const members = {};
  for (const name of Object.keys(node).sort()) {
    const member = node[name];
    const isEmpty = (Array.isArray(member) && !member.length) || (node.kind === "Field" && name === "selectionSet" && !member?.selections.length);
    const isAbsent = isEmpty || member === undefined || member === null || member === false;
    if (!isAbsent && name !== "loc" && name !== "block") members[name] = plain(member);
  }
  return members;
}

const text = (node) => JSON.stringify(plain(node));

// Whether graphql-js reads the tree from the text.
function isReadFrom(document, printed) {
  try {
    return text(parse(printed, { noLocation: true })) === text(document);
  } catch {
    return false;
  }
}

// Whether graphql-js prints the AST JSON as what it reads of the text: a string that is a block string in the one is so in the other.
function hasBlocksOf(json, printed) {
  return print(JSON.parse(json)) === print(parse(printed));
}

function isWellFormed(definition) {
  const document = { kind: "Document", definitions: [definition] };
  return isReadFrom(document, print(document));
}

function run(document, words) {
  return spawnSync(PROGRAM, words.split(" ").filter((word) => word), { input: JSON.stringify(document), encoding: "utf8" });
}

function expect(is, what, document) {
  if (is) return;
  counts.wrong++;
  console.log(`${what}: ${JSON.stringify(document)}`);
}

function checkPrinted(document) {
  for (const layout of LAYOUTS) {
    const { status, stdout, stderr } = run(document, layout);
    expect(status === 0 && stderr === "" && isReadFrom(document, stdout), `<${layout}>`, document);
    counts.texts++;
  }
  expect(run(document, "--check").status === 0, "--check", document);
  expect(hasBlocksOf(run(document, "--json").stdout, run(document, "").stdout), "block strings", document);
}

function checkRefused(document) {
  for (const word of ["", "--check", "--json"]) {
    const { status, stdout } = run(document, word);
    expect(status === 1 && stdout === "", `<${word}> is not refused`, document);
  }
  expect(!isReadFrom(document, run(document, "--allow-ill-formed").stdout), "refused, and yet read", document);
  counts.refused++;
}

for (const document of documents(seed, count)) {
  counts.documents++;
  const definitions = document.definitions.filter(isWellFormed);
  if (definitions.length) checkPrinted({ kind: "Document", definitions });
  if (!definitions.length || definitions.length < document.definitions.length) checkRefused(document);
  const json = run(document, "--json --allow-ill-formed").stdout;
  expect(json !== "" && text(JSON.parse(json)) === text(document), "--json", document);
}
console.log(`${counts.documents} documents: ${counts.texts} texts read, ${counts.refused} documents refused, ${counts.wrong} wrong`);
process.exitCode = counts.wrong ? 1 : 0;
