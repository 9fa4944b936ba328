#!/usr/bin/env node
// Makes cases of the program walk_orders: what `visit` of graphql-js tells of documents.
//
//   tools/walk_orders.js              of each line of standard input, a document in AST JSON
//   tools/walk_orders.js SEED COUNT   of so many documents that are made at random
//
// It needs graphql-js 16: `npm install graphql`, or Debian's package node-graphql with NODE_PATH=/usr/share/nodejs.
//
// Nodes that the trees of this library don't have are left out: names, descriptions, selection sets, the variable of a
// variable definition, named types but where a type may stand, and the node of a non-null type, which is one with the type in it.
const { visit } = require("graphql");
const { documents } = require("./random_documents.js");

const HAS_TYPE = new Set(["VariableDefinition", "FieldDefinition", "InputValueDefinition", "ListType", "NonNullType"]);

// The name that this library has for the kind of a node, or null where it is no node of its own.
function kindName(node, key, parent) {
  switch (node.kind) {
    case "Name":
    case "SelectionSet":
    case "NonNullType":
      return null;
    case "NamedType":
      return HAS_TYPE.has(parent.kind) ? "Type" : null;
    case "ListType":
      return "Type";
    case "OperationTypeDefinition":
      return "RootOperation";
    case "Variable":
      return key === "variable" ? null : "Value";
    case "StringValue":
      return key === "description" ? null : "Value";
    default:
      return node.kind.endsWith("Value") ? "Value" : node.kind;
  }
}

// The calls of a walk, which passes over what is within nodes of this kind.
function calls(document, skipped) {
  const made = [];
  visit(document, {
    enter(node, key, parent) {
      const name = kindName(node, key, parent);
      if (name) made.push("+" + name);
      if (name === skipped) return false;
    },
    leave(node, key, parent) {
      const name = kindName(node, key, parent);
      if (name) made.push("-" + name);
    },
  });
  return made;
}

function variables(document) {
  const used = [];
  visit(document, {
    Variable(node, key) {
      if (key !== "variable") used.push(node.name.value);
    },
  });
  return used;
}

const text = (words) => words.map((word) => word + " ").join("");

function wanted(document) {
  const all = calls(document, undefined);
  return {
    document,
    nodes: text(all.filter((call) => call.startsWith("+")).map((call) => call.slice(1))),
    calls: text(all),
    skipped: text(calls(document, "Field")),
    variables: text(variables(document)),
  };
}

function main() {
  const [seed, count] = process.argv.slice(2);
  if (seed !== undefined) {
    for (const document of documents(seed, count)) console.log(JSON.stringify(wanted(document)));
    return;
  }
  for (const line of require("fs").readFileSync(0, "utf8").split("\n")) {
    if (line) console.log(JSON.stringify(wanted(JSON.parse(line))));
  }
}

main();
