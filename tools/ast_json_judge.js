// Judges AST JSON, for the script mutated_json.js: whether a text is read, as what, and if not, with which error. It follows the definitions
// (specs/ of ast_json_nodes, specs/kinds and specs/code of graphql_ast_json), docs/DECISIONS.md, docs/LAYOUT.md (block strings) and docs/GRAMMAR.md alone.

// JSON

class Numeral {
  constructor(text) {
    this.text = text;
  }
}

class NotJson extends Error {}
class TooDeep extends Error {}

const DEEPEST = 127;
const ESCAPES = { '"': '"', "\\": "\\", "/": "/", b: "\b", f: "\f", n: "\n", r: "\r", t: "\t" };
const STRING = /"((?:[^"\\\u0000-\u001f]|\\["\\/bfnrt]|\\u[0-9a-fA-F]{4})*)"/;
const NUMBER = /(-?(?:0|[1-9][0-9]*)(?:\.[0-9]+)?(?:[eE][+-]?[0-9]+)?)/;
const TOKEN = new RegExp(`[ \\t\\n\\r]*(?:([{}[\\],:])|${STRING.source}|${NUMBER.source}|(null|true|false)|$)`, "y");
const WORDS = { null: null, true: true, false: false };

class Parser {
  constructor(text) {
    Object.assign(this, { text, at: 0, depth: 0 });
    this.step();
  }

  // The next token: a mark, a string, a number, a word, or none at the end.
  step() {
    TOKEN.lastIndex = this.at;
    const found = TOKEN.exec(this.text);
    if (!found) throw new NotJson();
    this.at = TOKEN.lastIndex;
    [, this.mark, this.string, this.number, this.word] = found;
  }

  take(mark) {
    if (this.mark !== mark) throw new NotJson();
    this.step();
  }

  value() {
    const { mark, string, number, word } = this;
    if (mark === "{" || mark === "[") return this.nested(mark === "{");
    this.step();
    if (string !== undefined) return unescaped(string);
    if (number !== undefined) return numeral(number);
    if (word === undefined) throw new NotJson();
    return WORDS[word];
  }

  // An array, or an object, whose last member of a name counts.
  nested(isObject) {
    if (++this.depth > DEEPEST) throw new TooDeep();
    const [made, close] = isObject ? [new Map(), "}"] : [[], "]"];
    this.step();
    if (this.mark !== close) {
      this.part(made);
      while (this.mark === ",") {
        this.step();
        this.part(made);
      }
    }
    this.take(close);
    this.depth--;
    return made;
  }

  part(made) {
    if (Array.isArray(made)) return made.push(this.value());
    const name = this.string;
    if (name === undefined) throw new NotJson();
    this.step();
    this.take(":");
    made.set(unescaped(name), this.value());
  }

  whole() {
    const value = this.value();
    if (this.at < this.text.length || [this.mark, this.string, this.number, this.word].some((token) => token !== undefined)) throw new NotJson();
    return value;
  }
}

// A text: escapes of halves of surrogate pairs stand in pairs.
function unescaped(string) {
  const text = string.replace(/\\(?:u(.{4})|(.))/g, (_, digits, letter) => (digits ? String.fromCharCode(parseInt(digits, 16)) : ESCAPES[letter]));
  if (/\p{Surrogate}/u.test(text)) throw new NotJson();
  return text;
}

// A number that a float can hold.
function numeral(text) {
  if (!Number.isFinite(Number(text))) throw new NotJson();
  return new Numeral(text);
}

function typeOf(json) {
  if (json === null) return "null";
  if (Array.isArray(json)) return "an array";
  if (json instanceof Map) return "an object";
  if (json instanceof Numeral) return "a number";
  return typeof json === "string" ? "a string" : "a boolean";
}

// The kinds, and of each its members. Behind a name: `!` a node, `?` a node or none, `+` a list of nodes, `*` one or none, `=` a text,
// `^` a boolean, `~` a boolean or none; and then of what.

const TYPE_MEMBERS = {
  ScalarType: "",
  ObjectType: "interfaces*NamedType directives*Directive fields*FieldDefinition",
  InterfaceType: "interfaces*NamedType directives*Directive fields*FieldDefinition",
  UnionType: "directives*Directive types*NamedType",
  EnumType: "directives*Directive values*EnumValueDefinition",
  InputObjectType: "directives*Directive fields*InputValueDefinition",
};
const ARGUMENTS = "arguments*Argument directives*Directive";
const LINES = {
  Document: "definitions+definition",
  OperationDefinition:
    "description?StringValue operation=operation name?Name variableDefinitions*VariableDefinition directives*Directive selectionSet!SelectionSet",
  FragmentDefinition: "description?StringValue name!Name typeCondition!NamedType directives*Directive selectionSet!SelectionSet",
  VariableDefinition: "description?StringValue variable!Variable type!type defaultValue?value directives*Directive",
  SelectionSet: "selections+selection",
  Field: `alias?Name name!Name ${ARGUMENTS} selectionSet?SelectionSet`,
  FragmentSpread: "name!Name directives*Directive",
  InlineFragment: "typeCondition?NamedType directives*Directive selectionSet!SelectionSet",
  Argument: "name!Name value!value",
  Directive: "name!Name arguments*Argument",
  Name: "value=name",
  Variable: "name!Name",
  IntValue: "value=integer",
  FloatValue: "value=float",
  StringValue: "value=string block~",
  BooleanValue: "value^",
  NullValue: "",
  EnumValue: "value=name",
  ListValue: "values+value",
  ObjectValue: "fields+ObjectField",
  ObjectField: "name!Name value!value",
  NamedType: "name!Name",
  ListType: "type!type",
  NonNullType: "type!nullable",
  SchemaDefinition: "description?StringValue directives*Directive operationTypes*OperationTypeDefinition",
  SchemaExtension: "directives*Directive operationTypes*OperationTypeDefinition",
  OperationTypeDefinition: "operation=operation type!NamedType",
  FieldDefinition: "description?StringValue name!Name arguments*InputValueDefinition type!type directives*Directive",
  InputValueDefinition: "description?StringValue name!Name type!type defaultValue?value directives*Directive",
  EnumValueDefinition: "description?StringValue name!Name directives*Directive",
  DirectiveDefinition: "description?StringValue name!Name arguments*InputValueDefinition repeatable~ locations+location",
};
for (const [name, members] of Object.entries(TYPE_MEMBERS)) {
  LINES[`${name}Definition`] = `description?StringValue name!Name ${members || "directives*Directive"}`;
  LINES[`${name}Extension`] = `name!Name ${members || "directives*Directive"}`;
}
const KINDS = {};
for (const [kind, line] of Object.entries(LINES)) {
  KINDS[kind] = line.split(" ").filter((word) => word).map((word) => {
    const [, name, sign, of] = /^(\w+)(\W)(\w*)$/.exec(word);
    return { name, sign, of };
  });
}

const PARTS = ["VariableDefinition", "OperationTypeDefinition", "FieldDefinition", "InputValueDefinition", "EnumValueDefinition"];
const VALUES = ["Variable", "IntValue", "FloatValue", "StringValue", "BooleanValue", "NullValue", "EnumValue", "ListValue", "ObjectValue"];
const GROUPS = {
  definition: [Object.keys(KINDS).filter((kind) => /(Definition|Extension)$/.test(kind) && !PARTS.includes(kind)), "a definition"],
  value: [VALUES, "a value"],
  type: [["NamedType", "ListType", "NonNullType"], "a type"],
  nullable: [["NamedType", "ListType"], "a named type or a list type"],
  selection: [["Field", "FragmentSpread", "InlineFragment"], "a selection"],
  location: [["Name"], "Name"],
};
const EXECUTABLE_LOCATIONS = "QUERY MUTATION SUBSCRIPTION FIELD FRAGMENT_DEFINITION FRAGMENT_SPREAD INLINE_FRAGMENT VARIABLE_DEFINITION";
const SYSTEM_LOCATIONS =
  "SCHEMA SCALAR OBJECT FIELD_DEFINITION ARGUMENT_DEFINITION INTERFACE UNION ENUM ENUM_VALUE INPUT_OBJECT INPUT_FIELD_DEFINITION";
const oneOf = (words) => (text) => words.split(" ").includes(text);
const matches = (pattern) => (text) => pattern.test(text);
const SYNTAX = {
  name: [matches(/^[A-Za-z_][A-Za-z_0-9]*$/), "a name"],
  integer: [matches(/^-?(0|[1-9][0-9]*)$/), "an integer"],
  float: [matches(/^-?(0|[1-9][0-9]*)(\.[0-9]+|(\.[0-9]+)?[eE][+-]?[0-9]+)$/), "a float"],
  operation: [oneOf("query mutation subscription"), "an operation type"],
  location: [oneOf(`${EXECUTABLE_LOCATIONS} ${SYSTEM_LOCATIONS}`), "a directive location"],
  string: [() => true],
};

// Reading

class Problem extends Error {
  constructor(what, node, path = "") {
    super(what);
    Object.assign(this, { what, path, place: toldStretch(node) });
  }

  toString() {
    return told(this.path, this.place, this.what);
  }
}

function told(path, place, what) {
  return `at ${path ? `\`${path}\`` : "the root"}${place ? `, in a node from ${place.start} to ${place.end}` : ""}: ${what}`;
}

const joined = (name, path) => (path === "" || path[0] === "[" ? name + path : `${name}.${path}`);

function memberOf(json, name) {
  const member = json instanceof Map ? json.get(name) : undefined;
  return member === null ? undefined : member;
}

function offsetOf(json) {
  if (!(json instanceof Numeral) || !/^[0-9]+$/.test(json.text)) return undefined;
  const offset = Number(json.text);
  return offset < 2 ** 32 ? offset : undefined;
}

function toldStretch(node) {
  const loc = memberOf(node, "loc");
  if (!(loc instanceof Map)) return undefined;
  const [start, end] = [offsetOf(loc.get("start")), offsetOf(loc.get("end"))];
  return start <= end ? { start, end } : undefined;
}

function escaped(character) {
  const short = { "\0": "\\0", "\t": "\\t", "\r": "\\r", "\n": "\\n", "'": "\\'", '"': '\\"', "\\": "\\\\" }[character];
  if (short) return short;
  const isShown = /^[\p{L}\p{M}\p{N}\p{P}\p{S} ]$/u.test(character) && !/\p{Grapheme_Extend}/u.test(character);
  return isShown ? character : `\\u{${character.codePointAt(0).toString(16)}}`;
}

function excerpt(text) {
  const characters = [...text];
  if (!characters.length) return "an empty text";
  return `\`${characters.slice(0, 60).map(escaped).join("")}${characters.length > 60 ? "..`" : "`"}`;
}

// What is read of a part of a node or of a list, whose problem is told from there.
function within(name, node, read) {
  try {
    return read();
  } catch (problem) {
    if (!(problem instanceof Problem)) throw problem;
    problem.path = joined(name, problem.path);
    problem.place ??= toldStretch(node);
    throw problem;
  }
}

const byBytes = (a, b) => Buffer.compare(Buffer.from(a), Buffer.from(b));

function checkNames(object, names, each, node) {
  const unknown = [...object.keys()].filter((name) => !names.includes(name)).sort(byBytes);
  if (unknown.length) throw new Problem(`found a member ${excerpt(unknown[0])}, which no ${each} has`, node);
}

function checkType(json, type, node, path) {
  if (typeOf(json) !== type) throw new Problem(`found ${typeOf(json)} where ${type} was wanted`, node, path);
}

class Reader {
  constructor(passOver) {
    this.passOver = passOver;
  }

  // `loc`: its names, and then its offsets, each of which is there. A member `loc` of it counts as its place.
  location(node) {
    const loc = memberOf(node, "loc");
    if (loc === undefined) return;
    within("loc", node, () => {
      checkType(loc, "an object", loc);
      if (!this.passOver) checkNames(loc, ["start", "end"], "location", loc);
      const [start, end] = ["start", "end"].map((name) => this.offset(loc, name));
      if (start > end) throw new Problem(`found a location from ${start} to ${end}, which starts after its end`, loc);
    });
  }

  offset(loc, name) {
    if (!loc.has(name)) throw new Problem(`found no member \`${name}\`, which each location has`, loc);
    const offset = offsetOf(loc.get(name));
    if (offset === undefined) throw new Problem("found a number that is no integer from 0 to 4294967295", loc, name);
    return offset;
  }

  required(node, name, type) {
    const member = memberOf(node, name);
    if (member !== undefined) {
      checkType(member, type, node, name);
      return member;
    }
    checkType(node, "an object", node);
    const kind = node.get("kind");
    throw new Problem(`found no member \`${name}\`, which each ${typeof kind === "string" ? kind : "node"} has`, node);
  }

  // A node of a kind, or of one of a group. Of a definition the kind is read before the location.
  node(of, node) {
    const [kinds, wanted] = GROUPS[of] ?? [[of], of];
    if (of !== "definition") this.location(node);
    const kind = this.required(node, "kind", "a string");
    if (!kinds.includes(kind)) throw new Problem(`found the kind ${excerpt(kind)} where ${wanted} was wanted`, node, "kind");
    if (of === "definition") this.location(node);
    if (!this.passOver) checkNames(node, ["kind", "loc", ...KINDS[kind].map(({ name }) => name)], kind, node);
    const tree = { kind, loc: toldStretch(node) };
    for (const { name, sign, of: part } of KINDS[kind]) tree[name] = this.member(node, name, sign, of === "location" ? "location" : part);
    return tree;
  }

  member(node, name, sign, of) {
    if ("?*~".includes(sign) && memberOf(node, name) === undefined) return sign === "*" ? [] : undefined;
    if (sign === "=") return this.text(node, name, of);
    if (sign === "^" || sign === "~") return this.required(node, name, "a boolean");
    if (sign === "+" || sign === "*") {
      const items = this.required(node, name, "an array");
      return within(name, node, () => this.list(of, items));
    }
    if (memberOf(node, name) === undefined) this.required(node, name, "an object");
    return within(name, node, () => this.node(of, memberOf(node, name)));
  }

  text(node, name, syntax) {
    const text = this.required(node, name, "a string");
    const [isSuch, wanted] = SYNTAX[syntax];
    if (!isSuch(text)) throw new Problem(`found ${excerpt(text)} where ${wanted} was wanted`, node, name);
    return text;
  }

  list(of, items) {
    return items.map((item, index) => within(`[${index}]`, undefined, () => this.node(of, item)));
  }

  root(of, json) {
    if (of !== "directives") return this.node(of, json);
    checkType(json, "an array", json);
    return this.list("Directive", json);
  }
}

// The flaws of a tree, in the order of print

const RESERVED = ["true", "false", "null"];
const EXTENDING = ["interfaces", "directives", "fields", "types", "values", "operationTypes"];
const isSystem = (kind) => GROUPS.definition[0].includes(kind) && kind !== "OperationDefinition" && kind !== "FragmentDefinition";

function* flaws(tree, at = "", outer = undefined, isConstant = false) {
  const { kind, name, loc: place = outer } = tree;
  const tell = (path, what, text, part) =>
    told(at && path ? `${at}.${path}` : at || path, part?.loc ?? place, text === undefined ? what : `${what}: \`${text}\``);
  if (kind === "Document" && !tree.definitions.length) yield tell("", "a document without a definition");
  if (kind.endsWith("Extension") && EXTENDING.every((name) => !tree[name]?.length)) yield tell("", "an extension that adds nothing", name?.value);
  if (/^Fragment(Definition|Spread)$/.test(kind) && name.value === "on") yield tell("name.value", "a fragment named `on`", "on", name);
  if (kind === "EnumValueDefinition" && RESERVED.includes(name.value)) yield tell("name.value", "a reserved enum value", name.value, name);
  if (kind === "EnumValue" && RESERVED.includes(tree.value)) yield tell("value", "a reserved enum value", tree.value);
  if (kind === "Variable" && isConstant) yield tell("", "a variable where only constants may stand", name.value);
  for (const { name: member, sign } of KINDS[kind]) {
    const part = tree[member];
    if (part === undefined || "=^~".includes(sign) || (kind === "VariableDefinition" && member === "variable")) continue;
    const path = at ? `${at}.${member}` : member;
    const inner = isConstant || isSystem(kind) || kind === "VariableDefinition";
    if (member === "selectionSet" && kind !== "Field" && !part.selections.length) {
      yield tell(member, "an empty selection set", (kind === "InlineFragment" ? tree.typeCondition?.name : name)?.value, part);
    }
    if (!Array.isArray(part)) yield* flaws(part, path, place, inner);
    else for (const [index, item] of part.entries()) yield* flaws(item, `${path}[${index}]`, place, inner);
  }
  if (kind === "DirectiveDefinition" && !tree.locations.length) yield tell("", "a directive definition without a location", name.value);
  if (kind === "SchemaDefinition" && !tree.operationTypes.length) yield tell("", "a schema definition without a root operation");
}

// The AST JSON of a tree

const isBlank = (line) => /^[ \t]*$/.test(line);

function canBeBlock(text) {
  const lines = text.split("\n");
  return !text.includes("\r") && !isBlank(lines[0]) && !isBlank(lines[lines.length - 1]) && lines.some((line) => /^[^ \t]/.test(line));
}

// Whether a part of a node stands over lines in the default layout.
function isBroken(tree, name, outer) {
  if (name === "variableDefinitions") return outer && tree[name].some((part) => part.description);
  if (name !== "arguments") return outer;
  return /Definition$/.test(tree.kind) && outer && tree[name].some((part) => part.description || part.directives.length);
}

// Whether a tree has a place for the location of this part.
function isPlaced(outer, name, kind) {
  if (kind === "SelectionSet" || kind === "ObjectField" || name === "variable" || name === "locations") return false;
  return !/Type$/.test(kind) || (name === "type" && (outer === "InputValueDefinition" || outer === "VariableDefinition"));
}

// A name has a location that is as long as it is.
function isLocated(tree, outer, name) {
  if (!tree.loc) return false;
  if (tree.kind === "Name" && name !== "locations") return tree.loc.end - tree.loc.start === tree.value.length;
  return outer !== undefined && isPlaced(outer, name, tree.kind);
}

function writtenPart(tree, name, sign, broken) {
  const part = tree[name];
  const inner = isBroken(tree, name, broken);
  if (sign === "=" || sign === "^") return part;
  if (sign === "+" || sign === "*") return part.map((item) => written(item, inner, tree.kind, name));
  if (name === "repeatable") return part ?? false;
  if (name === "block" || part === undefined || (tree.kind === "Field" && name === "selectionSet" && !part.selections.length)) return undefined;
  return written(part, inner, tree.kind, name);
}

function written(tree, broken = true, outer = undefined, name = undefined) {
  if (Array.isArray(tree)) return tree.map((item) => written(item, broken, "directives"));
  const made = { kind: tree.kind };
  if (isLocated(tree, outer, name)) made.loc = { end: tree.loc.end, start: tree.loc.start };
  for (const { name: member, sign } of KINDS[tree.kind]) made[member] = writtenPart(tree, member, sign, broken);
  const isText = tree.kind === "StringValue" && broken && (name === "description" || tree.value.includes("\n"));
  if (isText && canBeBlock(tree.value)) made.block = true;
  return Object.fromEntries(Object.entries(made).sort(([a], [b]) => byBytes(a, b)));
}

// FNV-1a of 64 bits, in two halves.
function digest(text) {
  let [high, low] = [0xcbf29ce4, 0x84222325];
  for (const byte of Buffer.from(text)) {
    low = (low ^ byte) >>> 0;
    const product = low * 0x1b3;
    high = (Math.imul(high, 0x1b3) + Math.floor(product / 2 ** 32) + (low << 8)) >>> 0;
    low = product >>> 0;
  }
  return ((BigInt(high) << 32n) | BigInt(low)).toString();
}

// What is told of a text

const utf8 = new TextDecoder("utf-8", { fatal: true, ignoreBOM: true });

// The JSON that bytes are, or what is told of them.
function parse(bytes) {
  let text;
  try {
    text = utf8.decode(bytes);
  } catch {
    return { fault: "no text" };
  }
  try {
    return { text, json: new Parser(text).whole() };
  } catch (error) {
    if (error instanceof NotJson) return { fault: "not JSON" };
    if (error instanceof TooDeep) return { fault: "too deep" };
    throw error;
  }
}

// What a reading tells of JSON: an error, or the digest of what is written of the tree, and its first flaw.
function reading(of, json, passOver) {
  let tree;
  try {
    tree = new Reader(passOver).root(of, json);
  } catch (problem) {
    if (!(problem instanceof Problem)) throw problem;
    return { told: `${problem}`, error: `${problem}` };
  }
  const made = JSON.stringify(written(tree));
  const flaw = of === "Document" || of === "value" ? flaws(tree).next().value : undefined;
  const read = `read ${digest(made)}`;
  return { told: flaw ? `${read}; ${flaw}` : read, flaw, length: Buffer.byteLength(made) };
}

module.exports = { GROUPS, KINDS, digest, parse, reading };
