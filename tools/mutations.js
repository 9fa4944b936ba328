// AST JSON with faults or harmless changes put in, as bytes, for the script mutated_json.js.
const { createHash } = require("crypto");
const { parse, print } = require("graphql");
const { GROUPS, KINDS } = require("./ast_json_judge.js");
const { below, documents } = require("./random_documents.js");

const pick = (list) => list[below(list.length)];
const one = (...makers) => pick(makers)();
const chance = (percent) => below(100) < percent;

// JSON that is changed: a list of names and values, an array, a text that is put in as it is, or a value.
class Members {
  constructor(members) {
    this.members = members;
  }
}
class Raw {
  constructor(text) {
    this.text = text;
  }
}

function changeable(json) {
  if (Array.isArray(json)) return json.map(changeable);
  if (typeof json !== "object" || json === null) return json;
  return new Members(Object.entries(json).filter(([, value]) => value !== undefined).map(([name, value]) => [name, changeable(value)]));
}

function copied(json) {
  if (Array.isArray(json)) return json.map(copied);
  return json instanceof Members ? new Members(json.members.map(([name, value]) => [name, copied(value)])) : json;
}

// What can be put in

const node = (json) => changeable(json);
const NUMBERS = "0 1 7 -1 -0 1.0 0.5 1e2 1E+2 10e-1 4294967295 4294967296 4294967297 9223372036854775808 18446744073709551615".split(" ");
NUMBERS.push("18446744073709551616", "-9223372036854775809", "1e308");
const NO_NUMBERS = ["01", "+1", ".5", "1.", "1e", "-", "0x1", "1e999", "9".repeat(400), "NaN", "00"];
const TEXTS = ["", "a", "a_b9", "_", "1", "1a", "a b", "a-b", "é", "a\n", "on", "true", "false", "null", "x".repeat(60), "é".repeat(61), "😀", "$a"];
TEXTS.push("01", "-7", "1.5", "1.5e+3", "1e", "-0.0", "query", "Query", "mutation", "FIELD", "ENUM_VALUE", "NOWHERE", "\u0000", "\\", "'\"");
const STRINGS = ["", "s", "two\nlines", "\nb", "a\n", " a\n  b", " a\nb", "\t\nb", "a\r\nb", "a\rb", "quo\"te\n", "\\"];
STRINGS.push('"""', "é€😀\n€", "\u0000", "a\n\n b");
const RAW_TEXTS = ['"\\ud800"', '"\\udc00x"', '"\\ud83d\\ude00"', '"\\ud800\\ud800"', '"\\u0061"', '"\\/"', '"\\x"', '"\\u12"', '"\t"', '"a\u0000"'];
const ODD_NAMES = ["Kind", "kind ", "", "é", "😀", "\uffff", "zz", "aa", "x".repeat(61), "a\nb", "__meta__", "tokenCount", "start", "end", "loc", "block"];
const MEMBER_NAMES = [...new Set(Object.values(KINDS).flatMap((members) => members.map(({ name }) => name)))];
const KIND_NAMES = Object.keys(KINDS);

const memberName = () => (chance(50) ? pick(ODD_NAMES) : pick(MEMBER_NAMES));
const offset = () => (chance(80) ? new Raw(String(below(60))) : junk());

function location(length = below(12)) {
  const start = below(90);
  const members = [["start", new Raw(String(start))], ["end", new Raw(String(start + length))]];
  const change = below(12);
  if (change === 0) members.reverse();
  if (change === 1) members[below(2)][1] = offset();
  if (change === 2) members.splice(below(2), 1);
  if (change === 3) members.push([pick(["line", "startToken", "source", "loc", "start", "end", ""]), chance(50) ? offset() : junk()]);
  if (change === 4 && length) [members[0][1], members[1][1]] = [members[1][1], members[0][1]];
  return new Members(members);
}

// A value of any type.
function junk() {
  return one(
    () => null,
    () => chance(50),
    () => new Raw(pick(NUMBERS)),
    () => new Raw(pick(NUMBERS)),
    () => (chance(10) ? new Raw(pick(NO_NUMBERS)) : pick(TEXTS)),
    () => (chance(10) ? new Raw(pick(RAW_TEXTS)) : pick(TEXTS)),
    () => [],
    () => [null],
    () => new Members([]),
    () => node({ kind: "Name", value: "n" }),
    () => node(pick([{ kind: "NullValue" }, { kind: "IntValue", value: "1" }, { kind: "EnumValue", value: "true" }])),
    () => location(),
  );
}

// A small tree of a kind, or of one of a group, by the table of kinds.

const SPELLED = { name: "n", integer: "1", float: "1.5", operation: "query", location: "FIELD" };

function part(sign, of) {
  if (sign === "^" || sign === "~") return chance(50);
  if (sign === "=") return SPELLED[of] ?? pick(STRINGS);
  if (sign === "+" || sign === "*") return chance(50) ? [] : [small(of)];
  return small(of);
}

function small(of) {
  const kind = pick((GROUPS[of] ?? [[of]])[0]);
  const members = KINDS[kind].filter(({ sign }) => !"?*~".includes(sign) || chance(20));
  return new Members([["kind", kind], ...members.map(({ name, sign, of: inner }) => [name, part(sign, of === "location" ? of : inner)])]);
}

// Where in it

const kindOf = (json) => json instanceof Members && json.members.find(([name, value]) => name === "kind" && typeof value === "string")?.[1];

// Each place that has a value: what it is in, at which index, and how deep.
function* places(json, depth = 0) {
  const isArray = Array.isArray(json);
  if (!isArray && !(json instanceof Members)) return;
  const parts = isArray ? json : json.members;
  for (const index of parts.keys()) {
    const [holder, at] = isArray ? [json, index] : [json.members[index], 1];
    yield { holder, at, depth: depth + 1, name: isArray ? undefined : holder[0], list: isArray ? json : undefined };
    yield* places(holder[at], depth + 1);
  }
}

// The tree stands in a list of its own.
const inTree = (root) => places(root, -1);
const objects = (root) => [...inTree(root)].map(({ holder, at }) => holder[at]).filter((json) => json instanceof Members);
const groupOf = (kind) => Object.values(GROUPS).find(([kinds]) => kinds.includes(kind))?.[0];

// The changes, each of a tree

function shuffle(members) {
  for (let last = members.length - 1; last > 0; last--) {
    const other = below(last + 1);
    [members[last], members[other]] = [members[other], members[last]];
  }
}

const inObject = (change) => (root) => {
  const all = objects(root);
  if (all.length) change(pick(all).members, root);
};
const inPlace = (isSuch, change) => (root) => {
  const all = [...inTree(root)].filter(({ holder, at, name, list }) => isSuch(holder[at], name, list === root ? undefined : list));
  if (all.length) change(pick(all), root);
};
const inMember = (change) => inObject((members) => members.length && change(members, below(members.length)));
const isNode = (json) => Boolean(kindOf(json));

function otherKind(kind) {
  const group = groupOf(kind) ?? KIND_NAMES;
  const at = below(kind.length + 1);
  return one(() => pick(group), () => pick(KIND_NAMES), () => kind.slice(0, at) + kind.slice(at + 1), () => pick(["", "Nme", "é".repeat(61), "name"]));
}

// Another node in place of one, mostly of a kind that may stand there.
function replaceNode(place, root) {
  const nodes = objects(root).filter(isNode);
  const kinds = groupOf(kindOf(place.holder[place.at])) ?? [kindOf(place.holder[place.at])];
  const fit = nodes.filter((found) => kinds.includes(kindOf(found)));
  place.holder[place.at] = one(
    () => copied(pick(fit.length ? fit : nodes)),
    () => copied(pick(nodes)),
    () => small(KINDS[kinds[0]] ? pick(kinds) : "value"),
    () => small(pick([...Object.keys(GROUPS), ...KIND_NAMES])),
  );
}

// A member that a node of its kind may have, put in where there is none or another.
function putMember(members) {
  const known = KINDS[kindOf(new Members(members))] ?? [];
  if (!known.length) return;
  const { name, sign, of } = pick(known);
  const at = members.findIndex((member) => member[0] === name);
  members.splice(at < 0 ? below(members.length + 1) : at, at < 0 ? 0 : 1, [name, part(sign, of)]);
}

const height = (json) =>
  Array.isArray(json) ? 1 + Math.max(0, ...json.map(height)) : json instanceof Members ? 1 + Math.max(0, ...json.members.map(([, value]) => height(value))) : 0;

const WRAPS = [
  ["value", 2, (inner) => new Members([["kind", "ListValue"], ["values", [inner]]])],
  ["type", 1, (inner) => new Members([["kind", "ListType"], ["type", inner]])],
  ["selection", 3, (inner) => new Members([["kind", "InlineFragment"], ["selectionSet", new Members([["kind", "SelectionSet"], ["selections", [inner]]])]])],
];

// Nests a node, or an array under a name that no node has, about 127 levels deep.
function nest(place) {
  let inner = place.holder[place.at];
  const [, levels, wrap] = WRAPS.find(([group]) => GROUPS[group][0].includes(kindOf(inner))) ?? [undefined, 1, (inner) => [inner]];
  const wanted = 124 + below(6);
  for (let depth = place.depth + height(inner); depth + levels <= wanted; depth += levels) inner = wrap(inner);
  place.holder[place.at] = inner;
}

const isText = (json, name) => typeof json === "string" && name !== "kind";
const CHANGES = [
  [8, inMember((members, at) => members.splice(at, 1))],
  [4, inMember((members, at) => members.splice(below(members.length + 1), 0, [members[at][0], chance(40) ? copied(members[at][1]) : junk()]))],
  [4, inMember((members, at) => { members[at] = [memberName(), members[at][1]]; })],
  [5, inMember((members, at) => { members[at] = [members[at][0], null]; })],
  [8, inMember((members, at) => { members[at] = [members[at][0], junk()]; })],
  [7, inObject((members) => members.splice(below(members.length + 1), 0, [memberName(), junk()]))],
  [12, inObject(putMember)],
  [5, inObject((members) => shuffle(members))],
  [3, (root) => objects(root).forEach(({ members }) => shuffle(members))],
  [8, inPlace((json, name) => name === "kind" && typeof json === "string", ({ holder, at }) => { holder[at] = otherKind(holder[at]); })],
  [8, inPlace(isNode, replaceNode)],
  [3, inPlace(Array.isArray, ({ holder, at }) => { holder[at] = chance(70) ? [] : [null]; })],
  [5, inPlace(Array.isArray, ({ holder, at }) => putItem(holder[at]))],
  [3, inPlace((json, name, list) => list !== undefined, ({ holder, at }) => { holder.splice(at, 1); })],
  [8, inPlace(isText, ({ holder, at }) => { holder[at] = pick(TEXTS); })],
  [1, inPlace(isText, ({ holder, at }) => { holder[at] = new Raw(pick(RAW_TEXTS)); })],
  [8, inObject((members) => members.splice(below(members.length + 1), 0, ["loc", chance(15) ? junk() : location()]))],
  [6, (root) => placeAll(root)],
  [4, inPlace((json, name) => name === "loc", ({ holder, at }) => { holder[at] = chance(15) ? junk() : location(); })],
  [5, inPlace((json, name) => name === "start" || name === "end", ({ holder, at }) => { holder[at] = new Raw(pick(NUMBERS)); })],
  [1, inPlace((json) => typeof json === "number" || json instanceof Raw, ({ holder, at }) => { holder[at] = new Raw(pick(NO_NUMBERS)); })],
  [2, inPlace(isNode, nest)],
  [1, inObject((members) => { members.push([pick(["zz", "loc", "directives"]), []]); nest({ holder: members[members.length - 1], at: 1, depth: 2 }); })],
];
const TURNS = CHANGES.flatMap(([times, change]) => Array(times).fill(change));

// An item put in, perhaps in the place of another.
function putItem(items) {
  const item = chance(50) ? junk() : copied(pick([null, ...items]));
  items.splice(below(items.length + 1), chance(40) ? 1 : 0, item);
}

// Other texts in each string, of which some are printed as block strings.
function changeStrings(root) {
  for (const { members } of objects(root)) {
    if (kindOf(new Members(members)) !== "StringValue") continue;
    for (const member of members) if (member[0] === "value") member[1] = pick(STRINGS);
  }
}

// A location in most nodes; a name's is mostly as long as it is.
function placeAll(root) {
  for (const object of objects(root)) {
    const value = object.members.find(([name]) => name === "value")?.[1];
    const isNamed = ["Name", "EnumValue"].includes(kindOf(object)) && typeof value === "string";
    const hasPlace = object.members.some(([name]) => name === "loc");
    if (kindOf(object) && !hasPlace && chance(80)) object.members.push(["loc", location(isNamed && chance(80) ? value.length : undefined)]);
  }
}

// Texts

const spaces = (style) => (chance(style.spaces) ? pick([" ", "\n", "\t", "\r\n", "  "]) : "");

function stringText(text, style) {
  const json = JSON.stringify(text);
  if (!chance(style.escapes)) return json;
  return json.replace(/[a-zA-Z/](?=[^"\\]*"$)/g, (letter) => (chance(20) ? `\\u00${letter.charCodeAt(0).toString(16)}` : letter));
}

function textOf(json, style) {
  const space = spaces(style);
  if (Array.isArray(json)) return `${space}[${json.map((item) => textOf(item, style)).join(",")}${spaces(style)}]`;
  if (json instanceof Raw) return space + json.text;
  if (typeof json === "string") return space + stringText(json, style);
  if (!(json instanceof Members)) return space + JSON.stringify(json);
  const members = json.members.map(([name, value]) => `${spaces(style)}${stringText(name, style)}${spaces(style)}:${textOf(value, style)}`);
  return `${space}{${members.join(",")}${spaces(style)}}`;
}

const PIECES = ['"', "{", "}", "[", "]", ",", ":", "\\", "0", "1", "-", ".", "e", "null", "true", " ", "\t", "\n", "é", "x", '"kind"', ',"a":1', "/"];
const BYTES = [[0xff], [0x80], [0xc3], [0xe2, 0x82], [0xf0, 0x9f, 0x98], [0xed, 0xa0, 0x80], [0xc0, 0x80], [0xef, 0xbb, 0xbf]];

// A byte or more put in, left out or changed; the text cut; something before it or behind it.
function spoilText(bytes) {
  const at = below(bytes.length + 1);
  const put = Buffer.from(chance(85) ? pick(PIECES) : pick(BYTES));
  const [front, back] = [bytes.subarray(0, at), bytes.subarray(at)];
  return one(
    () => Buffer.concat([front, put, back]),
    () => Buffer.concat([front, back.subarray(1 + below(3))]),
    () => Buffer.concat([front, put, back.subarray(1)]),
    () => front,
    () => Buffer.concat([bytes, put]),
    () => Buffer.concat([chance(50) ? Buffer.from("\ufeff") : put, bytes]),
  );
}

// Documents

// The definitions as graphql-js reads them from its own print, those that it reads, or else as they are.
function parsed(definitions) {
  const noLocation = chance(30);
  const read = definitions.flatMap((definition) => {
    try {
      return JSON.parse(JSON.stringify(parse(print({ kind: "Document", definitions: [definition] }), { noLocation }).definitions));
    } catch {
      return [];
    }
  });
  return read.length ? read : definitions;
}

function rootOf(document) {
  if (!chance(12)) return document;
  const wanted = pick(["value", "type", "directives"]);
  const isWanted = ({ holder, at, name }) => (wanted === "directives" ? name === wanted : GROUPS[wanted][0].includes(kindOf(holder[at])));
  const found = [...places(document)].filter(isWanted);
  if (!found.length) return document;
  const { holder, at } = pick(found);
  return copied(holder[at]);
}

// A text made of a document.
function mutated({ kind, definitions }) {
  const some = definitions.slice(0, 1 + below(3));
  const document = changeable({ kind, definitions: chance(50) ? parsed(some) : some });
  const root = [rootOf(document)];
  if (chance(30)) changeStrings(root);
  for (let left = 1 + below(3); left > 0; left--) pick(TURNS)(root);
  const style = { spaces: chance(15) ? 20 : 0, escapes: chance(10) ? 40 : 0 };
  const bytes = Buffer.from(textOf(root[0], style));
  return chance(8) ? spoilText(bytes) : bytes;
}

// So many texts, each another one, the same for the same seed. Few are made of a document without a definition.
exports.mutatedTexts = function* (seed, count) {
  const made = new Set();
  for (const document of documents(seed, Infinity)) {
    if (made.size === Number(count)) return;
    if (!document.definitions.length && chance(95)) continue;
    const bytes = mutated(document);
    const hash = createHash("md5").update(bytes).digest("latin1");
    if (made.has(hash)) continue;
    made.add(hash);
    yield bytes;
  }
};
