// What a record says, for any kind of record.
import { fieldKindName, isNamed, kindName, shapeOf, SHAPE } from "./kinds.js";
import { Field, HAS, Row, u32 } from "./structures.js";

/** The names in pdb_container.h of the indexes to which a record of a shape refers. */
const REFERENCES = {
  [SHAPE.CLASS]: { secondIndex: "derived from", thirdIndex: "virtual table shape", listIndex: "fields" },
  [SHAPE.MEMBER_FUNCTION]: { typeIndex: "return type", secondIndex: "class", thirdIndex: "this pointer", listIndex: "arguments" },
  [SHAPE.PROCEDURE]: { typeIndex: "return type", listIndex: "arguments" },
  [SHAPE.POINTER]: { typeIndex: "underlying type", secondIndex: "containing class" },
  [SHAPE.MODIFIER]: { typeIndex: "underlying type" },
  [SHAPE.ENUMERATION]: { typeIndex: "underlying type", listIndex: "fields" },
  [SHAPE.ARRAY]: { typeIndex: "element type", secondIndex: "indexing type" },
  [SHAPE.UNION]: { listIndex: "fields" },
  [SHAPE.BITFIELD]: { typeIndex: "underlying type" },
  [SHAPE.FIELD_LIST]: { listIndex: "continuation" },
};

/** What the record of an index says, beside its layout and its entries. */
export function describe(types, index) {
  const { records } = types;
  if (!records.has(index)) throw new Error(`The table has no record of index 0x${index.toString(16)}.`);
  const code = records.code(index);
  const info = types.info(index);
  return {
    index,
    kind: kindName(code),
    title: types.label(index),
    size: types.size(index),
    uniqueName: types.uniqueName(index),
    definition: isNamed(code) ? types.definition(index) : undefined,
    references: referencesOf(types, info),
  };
}

function referencesOf(types, info) {
  return Object.entries(REFERENCES[info.shape] ?? {})
    .filter(([number]) => info.has & HAS[number])
    .map(([number, role]) => ({ role, index: info[number], text: types.anyLabel(info[number]) }));
}

/** The entries of a list, or of the list of an enumeration; undefined for another record. */
export function entriesOf(types, index) {
  const info = types.info(index);
  if (info.shape === SHAPE.ENUMERATION) return fieldsOf(types, info.listIndex, info.typeIndex);
  const rows = (type, call) => types.native.rows(type, call, types.handle, index).slice();
  const argument = (type) => ({ kind: "argument", type, text: types.anyLabel(type) });
  if (info.shape === SHAPE.FIELD_LIST) return fieldsOf(types, index);
  if (info.shape === SHAPE.METHOD_LIST) return rows(Row, "pdb_type_methods").map((row) => entryOf(types, row));
  if (info.shape === SHAPE.ARGUMENT_LIST) return rows(u32, "pdb_type_numbers").map(argument);
  return undefined;
}

/** The fields of a list, and of the lists in which it continues; of an enumeration also with the type under it. */
function fieldsOf(types, list, underlying) {
  const { native, records, handle } = types;
  if (!records.has(list) || shapeOf(records.code(list)) !== SHAPE.FIELD_LIST) return [];
  const words = ["pdb_type_fields", handle, list, 1];
  const fields = underlying === undefined ? native.named(Field, ...words) : native.enumerators(Field, underlying, ...words);
  return fields.map((field) => entryOf(types, field.info, field.name));
}

/** An entry: its kind, its name, the value of an enumerator or the offset of a member, and its type. */
function entryOf(types, row, name = "") {
  const entry = { kind: fieldKindName(row), name };
  if (row.shape === SHAPE.ENUMERATE) entry.value = row.kind ? BigInt.asIntN(64, row.number) : row.number;
  else if (row.has & HAS.number) entry.value = row.number;
  if (row.has & HAS.typeIndex) Object.assign(entry, { type: row.typeIndex, text: types.anyLabel(row.typeIndex) });
  return entry;
}
