#!/usr/bin/env node
// Writes a large document in AST JSON, as graphql-js parses it without locations: types of ten fields with descriptions, arguments, default values and
// directives, and queries of six levels, by turns, until they have so many bytes of GraphQL.
//
//     tools/large_document.js [BYTES] >DOCUMENT.json      (1,000,000)
//
// On standard error it says how many of each there are, and how many bytes graphql-js prints of them. It needs graphql-js 16: `npm install graphql`, or
// Debian's package node-graphql with NODE_PATH=/usr/share/nodejs.
"use strict";
const { parse, print } = require("graphql");

function typeOf(number) {
  const fields = [];
  for (let field = 0; field < 10; field++) {
    const filter = '{tags: ["a", "b"], min: 1.5, kind: BIG}';
    fields.push(
      `  "The field ${field}"`,
      `  field${field}(first: Int = ${field}, after: ID, filter: Filter = ${filter}): [Type${number + field}!]! @deprecated(reason: "no longer ${field}")`,
    );
  }
  const description = `"""A type that has number ${number}, and a description.\nOf two lines."""`;
  return `${description}\ntype Type${number} implements Node & Entity @key(fields: "id") {\n${fields.join("\n")}\n}\n`;
}

function queryOf(number) {
  const node = "id name price(currency: EUR) ... on Product { tags } ...Part";
  const items = `alias: items(first: $first, after: $after) @include(if: true) {\n      edges { node { ${node} } cursor }\n    }`;
  return `query Query${number}($first: Int = 10, $after: ID!) @cached(ttl: 60) {\n  node(id: $after) {\n    id\n    ${items}\n  }\n}\n`;
}

const wanted = Number(process.argv[2] ?? 1000000);
let text = "";
let count = 0;
while (text.length < wanted) {
  text += typeOf(count) + queryOf(count);
  count += 1;
}
const document = parse(text, { noLocation: true });
process.stdout.write(JSON.stringify(document));
console.error(`${count} types and as many queries, ${Buffer.byteLength(print(document))} bytes of GraphQL`);
