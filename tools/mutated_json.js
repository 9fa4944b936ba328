#!/usr/bin/env node
// Compares what both readings of AST JSON make of texts with faults put in with the account of a judge of its own.
//
//   tools/mutated_json.js SEED COUNT
//   tools/mutated_json.js --make SEED COUNT > FILE
//   tools/mutated_json.js --compare FILE ANSWERS
//
// The texts are made of random documents (mutations.js): members left out, twice, renamed, null and of another type, other kinds, lists, texts,
// numbers and locations, members in another order, about 127 levels of nesting, and faults of the text itself. The judge (ast_json_judge.js)
// says of each text whether it is read, with what is unknown refused and passed over: as what, by the digest of the AST JSON that is written
// of it, and with which flaw; or else the text of the error, but for the place of an error in what is no JSON. The program reading_record tells
// the same, and what the calls answer. The second command prints the texts, one a line, as that program reads them; the third compares what it
// told of such texts, as of those of its data.
//
// It needs the program, which `rt run` builds in crates/reading_record, and graphql-js 16: `npm install graphql`, or Debian's package node-graphql
// with NODE_PATH=/usr/share/nodejs. The last line counts; the exit status is 0 if no answer differs.
const { spawnSync } = require("child_process");
const fs = require("fs");
const os = require("os");
const path = require("path");
const { digest, parse, reading } = require("./ast_json_judge.js");
const { mutatedTexts } = require("./mutations.js");

const PROGRAM = path.join(__dirname, "../crates/reading_record/out/reading_record");

// The bytes of a line, in which `%` and two digits stand for a byte, and the other way round.
const bytesOf = (line) => Buffer.from(line.replace(/%(..)|([^%]+)/g, (_, digits, text) => digits ?? Buffer.from(text).toString("hex")), "hex");

const escapedByte = (byte) => `%${byte.toString(16).toUpperCase().padStart(2, "0")}`;

function lineOf(bytes) {
  const text = bytes.toString("utf8");
  if (Buffer.from(text).equals(bytes)) return text.replace(/[\u0000-\u001f%\u007f]/g, (character) => escapedByte(character.charCodeAt(0)));
  return Array.from(bytes, (byte) => (byte < 0x20 || byte > 0x7e || byte === 0x25 ? escapedByte(byte) : String.fromCharCode(byte))).join("");
}

const escapeForPattern = (text) => text.replace(/[.*+?^${}()|[\]\\]/g, "\\$&");

const STATUS = { done: 0, tooShort: 1, notJson: 2, noTree: 3, illFormed: 4, overflow: 5 };
const [ROOM, LITTLE] = [20000, 60];

const statusOf = ({ error, flaw }) => (error ? STATUS.noTree : flaw ? STATUS.illFormed : STATUS.done);

const fits = (length, room) => (length <= room ? STATUS.done : STATUS.tooShort);

// The statuses of a call, with what is unknown refused and passed over, and with little room.
function statuses(refused, passedOver, done, little = done) {
  return [[refused, done], [passedOver, done], [passedOver, little]].map(([found, ok]) => statusOf(found) || ok).join("");
}

// Those of AST JSON that is written, of a tree with flaws too.
function writeStatuses(refused, passedOver) {
  const rooms = [[refused, ROOM], [passedOver, ROOM], [passedOver, LITTLE]];
  return rooms.map(([{ error, length }, room]) => (error ? STATUS.noTree : fits(length, room))).join("");
}

// The statuses of all calls. Whether a print fits isn't known here, nor whether the greatest level overflows.
function allStatuses(refused, passedOver, values) {
  return [
    statuses(refused, passedOver, "[01]"),
    statuses(refused, passedOver, STATUS.done),
    writeStatuses(refused, passedOver),
    statuses(...values, "[01]"),
    statuses(refused, passedOver, "[015]"),
  ].join("");
}

function callAnswer(found) {
  const message = found.error ?? found.flaw;
  return message === undefined ? "[01] \\d+" : `${statusOf(found)} ${digest(message)}`;
}

const readings = (of, json) => [false, true].map((passOver) => reading(of, json, passOver));

// The lines that the program writes of some bytes, as patterns.
function wanted(bytes) {
  const { fault, text, json } = parse(bytes);
  if (fault !== undefined) return unread(fault);
  const [refused, passedOver] = readings("Document", json);
  const values = readings("value", json);
  const lines = [refused.told];
  if (passedOver.told !== refused.told) lines.push(`  passed over: ${passedOver.told}`);
  const others = [["a value", values[0]], ["a type", reading("type", json, false)], ["directives", reading("directives", json, false)]];
  for (const [name, { told }] of text.startsWith('{"kind":"Document"') ? [] : others) {
    if (told !== refused.told) lines.push(`  as ${name}: ${told}`);
  }
  return [
    ...lines.map((line) => `^${escapeForPattern(line)}$`),
    `^  calls: ${callAnswer(refused)}, ${callAnswer(passedOver)}$`,
    `^  all calls: ${allStatuses(refused, passedOver, values)} \\d+$`,
  ];
}

// What is told of bytes that are no JSON. The place of the error, and the text of a call, are those of the parser.
const FAULTS = {
  "no text": "no text",
  "not JSON": "not JSON: .+ at line \\d+ column \\d+",
  "too deep": "arrays and objects stand in one another more than 127 deep",
};

const unread = (fault) => [`^${FAULTS[fault]}$`, "^  calls: 2 \\d+, 2 \\d+$", "^  all calls: 2{15} \\d+$"];

// The lines of an answer, of each text.
function answers(output) {
  const found = [];
  for (const line of output.split("\n").slice(0, -1)) {
    if (line.startsWith("  ")) found[found.length - 1].push(line);
    else found.push([line]);
  }
  return found;
}

const counts = { texts: 0, read: 0, passed: 0, refused: 0, unread: 0, differ: 0 };
const SHOWN = 20;

function count([first, second]) {
  counts.texts++;
  if (first.startsWith("^read")) counts.read++;
  else if (second.startsWith("^  passed over: read")) counts.passed++;
  else if (first.startsWith("^at ")) counts.refused++;
  else counts.unread++;
}

function compare(line, found = []) {
  const lines = wanted(bytesOf(line));
  count(lines);
  if (lines.length === found.length && lines.every((pattern, index) => new RegExp(pattern, "u").test(found[index]))) return;
  counts.differ++;
  if (counts.differ <= SHOWN) console.log(`of: ${line}\nwanted:\n${lines.join("\n")}\nfound:\n${found.join("\n")}`);
}

function compareAll(lines, output) {
  const found = answers(output);
  if (found.length !== lines.length) throw new Error(`${found.length} answers of ${lines.length} texts`);
  lines.forEach((line, index) => compare(line, found[index]));
}

// What the program tells of the lines.
function run(lines) {
  const file = path.join(fs.mkdtempSync(path.join(os.tmpdir(), "mutated-")), "texts");
  fs.writeFileSync(file, lines.map((line) => `${line}\n`).join(""));
  const { status, stdout, stderr } = spawnSync(PROGRAM, [file], { encoding: "utf8", maxBuffer: 2 ** 30 });
  fs.rmSync(path.dirname(file), { recursive: true });
  if (status !== 0) throw new Error(`${PROGRAM}: ${status} ${stderr}`);
  return stdout;
}

const BATCH = 2000;

function compareMade(seed, count) {
  let lines = [];
  for (const bytes of mutatedTexts(seed, count)) {
    if (lines.push(lineOf(bytes)) < BATCH) continue;
    compareAll(lines, run(lines));
    lines = [];
  }
  if (lines.length) compareAll(lines, run(lines));
}

function main([first, second, third]) {
  if (first === "--make") {
    for (const bytes of mutatedTexts(second, third)) process.stdout.write(`${lineOf(bytes)}\n`);
    return;
  }
  if (first === "--compare") compareAll(fs.readFileSync(second, "utf8").split("\n").slice(0, -1), fs.readFileSync(third, "utf8"));
  else compareMade(first, second);
  const { texts, read, passed, refused, unread, differ } = counts;
  const told = `${read} read, ${passed} read where what is unknown is passed over, ${refused} of no document, ${unread} no JSON`;
  console.log(`${texts} texts: ${told}; ${differ} differ`);
  process.exitCode = differ ? 1 : 0;
}

main(process.argv.slice(2));
