// Documents in AST JSON that are made at random, for scripts that compare with graphql-js: of each kind of node, with few names, so that names meet.

let state = 0n;

// a number below the limit
function below(limit) {
  state = (state * 6364136223846793005n + 1442695040888963407n) & ((1n << 64n) - 1n);
  return Number((state >> 33n) % BigInt(limit));
}
exports.below = below;

const pick = (...choices) => choices[below(choices.length)];
const some = (most, make) => Array.from({ length: below(most + 1) }, make);
const maybe = (make) => (below(2) ? make() : undefined);

const name = () => ({ kind: "Name", value: pick("a", "b", "C", "d_1", "_") });
const variable = () => ({ kind: "Variable", name: name() });
const named = () => ({ kind: "NamedType", name: name() });

function type(depth = 3) {
  const inner = depth && below(2) ? { kind: "ListType", type: type(depth - 1) } : named();
  return below(3) ? inner : { kind: "NonNullType", type: inner };
}

function value(depth = 3) {
  switch (below(depth ? 9 : 7)) {
    case 0: return { kind: "NullValue" };
    case 1: return { kind: "EnumValue", value: "E" };
    case 2: return variable();
    case 3: return { kind: "StringValue", value: "s" };
    case 4: return { kind: "FloatValue", value: "1.5" };
    case 5: return { kind: "IntValue", value: "7" };
    case 6: return { kind: "BooleanValue", value: true };
    case 7: return { kind: "ListValue", values: some(3, () => value(depth - 1)) };
    default: return { kind: "ObjectValue", fields: some(3, () => ({ kind: "ObjectField", name: name(), value: value(depth - 1) })) };
  }
}

const argument = () => ({ kind: "Argument", name: name(), value: value() });
const directives = () => some(2, () => ({ kind: "Directive", name: name(), arguments: some(2, argument) }));
const description = () => maybe(() => ({ kind: "StringValue", value: "D" }));

function selection(depth) {
  const inner = () => ({ kind: "SelectionSet", selections: some(3, () => selection(depth - 1)) });
  switch (depth ? below(4) : below(2)) {
    case 0: return { kind: "Field", name: name(), arguments: some(2, argument), directives: directives() };
    case 1: return { kind: "FragmentSpread", name: name(), directives: directives() };
    case 2: return { kind: "Field", alias: name(), name: name(), arguments: some(2, argument), directives: directives(), selectionSet: inner() };
    default: return { kind: "InlineFragment", typeCondition: maybe(named), directives: directives(), selectionSet: inner() };
  }
}

const selectionSet = () => ({ kind: "SelectionSet", selections: some(3, () => selection(3)) });
const inputValue = () =>
  ({ kind: "InputValueDefinition", description: description(), name: name(), type: type(), defaultValue: maybe(value), directives: directives() });
const fieldDefinition = () =>
  ({ kind: "FieldDefinition", description: description(), name: name(), arguments: some(2, inputValue), type: type(), directives: directives() });
const enumValue = () => ({ kind: "EnumValueDefinition", description: description(), name: name(), directives: directives() });
const rootOperation = () => ({ kind: "OperationTypeDefinition", operation: pick("query", "mutation", "subscription"), type: named() });

// what a definition of a type and its extension have, behind the name
const TYPES = [
  ["ScalarType", () => ({})],
  ["ObjectType", () => ({ interfaces: some(2, named), fields: some(3, fieldDefinition) })],
  ["InterfaceType", () => ({ interfaces: some(2, named), fields: some(3, fieldDefinition) })],
  ["UnionType", () => ({ types: some(2, named) })],
  ["EnumType", () => ({ values: some(3, enumValue) })],
  ["InputObjectType", () => ({ fields: some(3, inputValue) })],
];

function definition() {
  switch (below(7)) {
    case 0:
      return {
        kind: "OperationDefinition",
        operation: pick("query", "mutation", "subscription"),
        name: maybe(name),
        variableDefinitions: some(2, () =>
          ({ kind: "VariableDefinition", variable: variable(), type: type(), defaultValue: maybe(value), directives: directives() })),
        directives: directives(),
        selectionSet: selectionSet(),
      };
    case 1:
      return { kind: "FragmentDefinition", name: name(), typeCondition: named(), directives: directives(), selectionSet: selectionSet() };
    case 2:
      return { kind: "DirectiveDefinition", description: description(), name: name(), arguments: some(3, inputValue), repeatable: false, locations: [{ kind: "Name", value: "FIELD" }] };
    case 3:
      return { kind: "SchemaDefinition", description: description(), directives: directives(), operationTypes: some(3, rootOperation) };
    case 4:
      return { kind: "SchemaExtension", directives: directives(), operationTypes: some(3, rootOperation) };
    case 5: {
      const [kind, more] = pick(...TYPES);
      return { kind: kind + "Definition", description: description(), name: name(), directives: directives(), ...more() };
    }
    default: {
      const [kind, more] = pick(...TYPES);
      return { kind: kind + "Extension", name: name(), directives: directives(), ...more() };
    }
  }
}

const document = () => ({ kind: "Document", definitions: some(5, definition) });

// so many documents, the same for the same seed
exports.documents = function* (seed, count) {
  state = BigInt(seed);
  for (let made = 0; made < Number(count); made++) yield document();
};
