#!/usr/bin/env node
// Prints the AST JSON of a GraphQL text: tools/to_ast_json.js [FILE] (else of standard input), with `--locations` also where each node stands.
// It needs graphql-js 16: `npm install graphql`, or Debian's package node-graphql with NODE_PATH=/usr/share/nodejs.
const { parse } = require("graphql");
const words = process.argv.slice(2);
const file = words.find((word) => !word.startsWith("--"));
const text = require("fs").readFileSync(file ?? 0, "utf8");
process.stdout.write(JSON.stringify(parse(text, { noLocation: !words.includes("--locations") })));
