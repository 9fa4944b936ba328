#!/usr/bin/env node
// Makes cases of the program rewrites: what the same rewriting over `visit` of graphql-js makes of documents.
//
//   tools/rewrites.js              of each line of standard input, a document in AST JSON
//   tools/rewrites.js SEED COUNT   of so many documents that are made at random
//
// It needs graphql-js 16: `npm install graphql`, or Debian's package node-graphql with NODE_PATH=/usr/share/nodejs.
const { concatAST, separateOperations, visit } = require("graphql");
const { documents } = require("./random_documents.js");

const named = (value) => ({ kind: "Name", value });

// each field `a` gets the name `z`
const renamed = (document) =>
  visit(document, {
    Field: { leave: (field) => (field.name.value === "a" ? { ...field, name: named("z") } : undefined) },
  });

// `__typename` at the end of each set that has a selection, unless the response speaks of one of its fields by that name
function added(document) {
  const isThere = (selection) => selection.kind === "Field" && (selection.alias ?? selection.name).value === "__typename";
  return visit(document, {
    SelectionSet: {
      leave: ({ selections }) =>
        selections.length && !selections.some(isThere)
          ? { kind: "SelectionSet", selections: [...selections, { kind: "Field", name: named("__typename"), arguments: [], directives: [] }] }
          : undefined,
    },
  });
}

// no directive `@a`
const removed = (document) => visit(document, { Directive: { leave: (directive) => (directive.name.value === "a" ? null : undefined) } });

// 1 in the place of `$a`, and `[$a]` in that of `$b`
function replaced(document) {
  const values = {
    a: { kind: "IntValue", value: "1" },
    b: { kind: "ListValue", values: [{ kind: "Variable", name: named("a") }] },
  };
  return visit(document, {
    Variable: { leave: (variable, key) => (key === "variable" ? undefined : values[variable.name.value]) },
  });
}

// by kind, and within a kind by name
const KINDS = ["OperationDefinition", "FragmentDefinition", "SchemaDefinition", "ScalarTypeDefinition", "ObjectTypeDefinition", "InterfaceTypeDefinition",
  "UnionTypeDefinition", "EnumTypeDefinition", "InputObjectTypeDefinition", "DirectiveDefinition", "SchemaExtension", "ScalarTypeExtension", "ObjectTypeExtension",
  "InterfaceTypeExtension", "UnionTypeExtension", "EnumTypeExtension", "InputObjectTypeExtension"];

function sorted(document) {
  const place = ({ kind }) => KINDS.indexOf(kind);
  const name = (definition) => definition.name?.value ?? "";
  const compare = (a, b) => place(a) - place(b) || (name(a) < name(b) ? -1 : Number(name(a) > name(b)));
  return { kind: "Document", definitions: [...document.definitions].sort(compare) };
}

// The executable definitions of the last documents, of fragments with one name the first.
const last = [];
function executable(document) {
  last.push(document);
  if (last.length > 8) last.shift();
  const names = new Set();
  const isNew = ({ name }) => !names.has(name.value) && names.add(name.value);
  const definitions = last.flatMap((one) => one.definitions);
  return {
    kind: "Document",
    definitions: definitions.filter((one) => one.kind === "OperationDefinition" || (one.kind === "FragmentDefinition" && isNew(one))),
  };
}

// a document for each operation: one after another, since graphql-js keeps the last of those with one name
function separated(document) {
  const isOperation = ({ kind }) => kind === "OperationDefinition";
  const alone = (operation) => ({ kind: "Document", definitions: document.definitions.filter((one) => !isOperation(one) || one === operation) });
  return document.definitions.filter(isOperation).flatMap((operation) => Object.values(separateOperations(alone(operation))));
}

// each node at a location, of the length of its text where it has one
function located(part) {
  if (Array.isArray(part)) return part.map(located);
  if (part === null || typeof part !== "object") return part;
  const inner = Object.fromEntries(Object.entries(part).map(([key, value]) => [key, located(value)]));
  const length = typeof part.value === "string" ? part.value.length : 3;
  return { ...inner, loc: { start: 7, end: 7 + length } };
}

function wanted(document) {
  const together = executable(document);
  return { ...rewritten(document), executable: together, separated: separated(together) };
}

const rewritten = (document) => ({
  document,
  renamed: renamed(document),
  added: added(document),
  removed: removed(document),
  replaced: replaced(document),
  sorted: sorted(document),
  joined: concatAST([document, sorted(document)]),
  located: located(document),
});

function main() {
  const [seed, count] = process.argv.slice(2);
  if (seed !== undefined) {
    for (const document of documents(seed, count)) console.log(JSON.stringify(wanted(document)));
    return;
  }
  for (const line of require("fs").readFileSync(0, "utf8").split("\n")) {
    if (line) console.log(JSON.stringify(wanted(JSON.parse(line))));
  }
}

main();
