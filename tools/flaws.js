#!/usr/bin/env node
// Compares what `graphql_print --check` tells of random documents that aren't well formed with an account of their flaws that is made here.
//
//   tools/flaws.js SEED COUNT
//
// The account goes over the AST JSON as graphql-js does, in the order of its QueryDocumentKeys, and knows the conditions of the grammar alone (section
// 2 and 3 of the specification). Some names of the documents are made `on`, some enum values `true`, `false` or `null`.
//
// It needs the program, which `rt run` builds in crates/graphql_print, and graphql-js 16: `npm install graphql`, or Debian's package node-graphql
// with NODE_PATH=/usr/share/nodejs. It says how many documents have flaws, and how many these are; the exit status is 0 if no account differs.
const { spawnSync } = require("child_process");
const path = require("path");
const { QueryDocumentKeys } = require("graphql/language/ast");
const { documents } = require("./random_documents.js");

const PROGRAM = path.join(__dirname, "../crates/graphql_print/out/graphql_print");
const RESERVED = ["true", "false", "null"];
const [seed, count] = process.argv.slice(2);

// Every seventh name that may be one is `on`, and every fifth enum value reserved.
let turn = 0;
function spoil(node) {
  if (Array.isArray(node)) return node.forEach(spoil);
  if (typeof node !== "object" || node === null) return;
  turn++;
  if ((node.kind === "FragmentSpread" || node.kind === "FragmentDefinition") && turn % 7 === 0) node.name = { kind: "Name", value: "on" };
  if (node.kind === "EnumValueDefinition" && turn % 5 === 0) node.name = { kind: "Name", value: RESERVED[turn % 3] };
  if (node.kind === "EnumValue" && turn % 5 === 0) node.value = RESERVED[turn % 3];
  Object.values(node).forEach(spoil);
}

const isEmpty = (list) => !list || !list.length;
const isSystem = (kind) => /(Definition|Extension)$/.test(kind) && !["OperationDefinition", "FragmentDefinition", "VariableDefinition"].includes(kind);
const addsNothing = (node) => ["interfaces", "directives", "fields", "types", "values", "operationTypes"].every((name) => isEmpty(node[name]));

// The flaws of a node before those of its members, between them, and behind them.
function flaws(node, at, isConstant, tell) {
  const { kind, name } = node;
  const told = (place, what, text) => tell([at, place].filter((part) => part).join("."), text === undefined ? what : `${what}: \`${text}\``);
  if (kind === "Document" && isEmpty(node.definitions)) told("", "a document without a definition");
  if ((kind === "FragmentDefinition" || kind === "FragmentSpread") && name.value === "on") told("name.value", "a fragment named `on`", "on");
  if (kind === "EnumValueDefinition" && RESERVED.includes(name.value)) told("name.value", "a reserved enum value", name.value);
  if (kind === "EnumValue" && RESERVED.includes(node.value)) told("value", "a reserved enum value", node.value);
  if (kind === "Variable" && isConstant) told("", "a variable where only constants may stand", name.value);
  if (kind.endsWith("Extension") && addsNothing(node)) told("", "an extension that adds nothing", name?.value);
  for (const member of QueryDocumentKeys[kind]) {
    if (kind === "VariableDefinition" && member === "variable") continue;
    const within = isConstant || isSystem(kind) || kind === "VariableDefinition";
    const place = at ? `${at}.${member}` : member;
    const part = node[member];
    if (member === "selectionSet" && kind !== "Field" && isEmpty(part.selections)) {
      told(member, "an empty selection set", (kind === "InlineFragment" ? node.typeCondition?.name : name)?.value);
    }
    if (Array.isArray(part)) part.forEach((item, index) => flaws(item, `${place}[${index}]`, within, tell));
    else if (part) flaws(part, place, within, tell);
  }
  if (kind === "DirectiveDefinition" && isEmpty(node.locations)) told("", "a directive definition without a location", name.value);
  if (kind === "SchemaDefinition" && isEmpty(node.operationTypes)) told("", "a schema definition without a root operation");
}

const counts = { documents: 0, ill: 0, flaws: 0, wrong: 0 };
for (const document of documents(seed, count)) {
  spoil(document);
  const lines = [];
  flaws(document, "", false, (place, what) => lines.push(`graphql_print: standard input: at ${place ? `\`${place}\`` : "the root"}: ${what}\n`));
  const { status, stderr } = spawnSync(PROGRAM, ["--check"], { input: JSON.stringify(document), encoding: "utf8" });
  counts.documents++;
  counts.ill += lines.length ? 1 : 0;
  counts.flaws += lines.length;
  if (status !== (lines.length ? 1 : 0) || stderr !== lines.join("")) {
    counts.wrong++;
    console.log(`wanted:\n${lines.join("")}found:\n${stderr}of: ${JSON.stringify(document)}`);
  }
}
console.log(`${counts.documents} documents: ${counts.ill} with flaws, ${counts.flaws} flaws, ${counts.wrong} accounts differ`);
process.exitCode = counts.wrong ? 1 : 0;
