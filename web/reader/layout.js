// The layout of a class, as the object that `pdbdump layout --json` prints.
import { classWord, isNamed, shapeOf, SHAPE } from "./kinds.js";
import { LayoutRow } from "./structures.js";

const KINDS = ["base", "vbptr", "vfptr", "member", "hole", "unused_bits", "virtual_bases", "padding"];
const [VBPTR, MEMBER, HOLE, PADDING] = [1, 3, 4, 7];
const [BYTES, BITS] = [0, 1];
/** How many types are followed from a member's to the class that it is made of. */
const MOST_STEPS = 16;

/** The layout of the class or union of an index, or undefined if the table doesn't define one. The `link` of a row leads
 * from a part of its declaration to a type, and is no part of the object. */
export function layoutOf(types, index) {
  const found = types.native.named(LayoutRow, "pdb_type_layout", types.handle, index);
  if (!found) return undefined;
  const definition = types.definition(index);
  const begin = (row) => row.offset * 8n + BigInt(row.bit);
  const rows = found.sort((one, other) => Number(begin(one) - begin(other)) || 0);
  const last = rows[rows.length - 1];
  if (last?.kind === HOLE) last.kind = PADDING;
  const gaps = (kind) => rows.filter((row) => KINDS[row.kind] === kind);
  const sum = (numbers) => numbers.reduce((total, number) => total + number, 0n);
  return {
    index: definition,
    kind: classWord(types.records.code(definition)),
    name: types.name(definition),
    size: types.size(definition),
    holes: gaps("hole").length,
    hole_bytes: sum(gaps("hole").map((row) => row.size)),
    padding_bytes: sum(gaps("padding").map((row) => row.size)),
    unused_bits: Number(sum(gaps("unused_bits").map((row) => BigInt(row.bits)))),
    cut: false,
    rows: rows.map((row) => rowOf(types, row)),
  };
}

function rowOf(types, row) {
  const field = row.kind >= HOLE ? {} : fieldOf(types, row);
  const { link, base, ...rest } = field;
  return {
    kind: KINDS[row.kind],
    depth: 0,
    ...rest,
    offset: row.offset,
    ...(row.extent === BYTES && { size: row.size }),
    ...(row.extent === BITS && { bit: row.bit, bits: row.bits }),
    ...(row.kind === VBPTR && { virtual_base: row.baseClass, direct: Boolean(row.isDirect), position: row.basePosition }),
    link,
    base,
  };
}

/** What the row of a field says of its type. */
function fieldOf(types, row) {
  const type = types.text(row.typeIndex);
  const declaration = row.kind === MEMBER ? types.text(row.typeIndex, row.name) : type;
  return {
    ...(row.kind === MEMBER && { name: row.name }),
    type_index: row.typeIndex,
    type,
    declaration,
    link: linkOf(types, row.typeIndex, declaration),
    ...(row.kind === VBPTR && { base: types.text(row.baseClass) }),
  };
}

/** The part of a declaration that names a type, and that type. */
function linkOf(types, index, declaration) {
  const { records } = types;
  let named = index;
  for (let step = 0; step < MOST_STEPS && records.has(named) && !isNamed(records.code(named)); step++) {
    const code = records.code(named);
    if (shapeOf(code) === SHAPE.UNREAD) break;
    named = types.info(named).typeIndex;
  }
  if (records.has(named) && isNamed(records.code(named))) {
    const text = types.text(named);
    if (declaration.includes(text)) return { index: types.definition(named) ?? named, text };
  }
  return { index, text: declaration };
}
