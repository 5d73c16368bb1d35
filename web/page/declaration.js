// A class as C++ declares it, with the places of its members in comments, as `pdbdump layout` prints it.
import { hexadecimal } from "./texts.js";

/** The columns of what stands before the place of a member and of a gap. */
const [MEMBERS, GAPS] = [40, 43];

const plural = (number, word) => `${number} ${word}${BigInt(number) === 1n ? "" : "s"}`;

const DECLARED = {
  member: (row) => [`${row.declaration};`, ""],
  base: (row) => [`${row.declaration};`, "  base"],
  vbptr: (row) => ["vbptr;", `  of virtual base ${row.base}`],
  vfptr: () => ["vfptr;", ""],
};

export const GAP_TEXTS = {
  hole: () => "// hole",
  padding: () => "// padding",
  unused_bits: (row) => `// ${plural(row.bits, "bit")} unused`,
  virtual_bases: () => "// virtual bases and padding",
};

export function offsetOf({ offset, bit }) {
  return hexadecimal(offset, 3) + (bit === undefined ? "" : `:${bit}`);
}

/** The line with which the declaration begins. */
export function head({ kind, name, rows }) {
  const bases = rows
    .map((row) => (row.kind === "base" ? row.declaration : row.direct ? `virtual ${row.base}` : undefined))
    .filter((base) => base !== undefined);
  return `${kind} ${name}${bases.length ? ` : ${bases.join(", ")}` : ""} {`;
}

/** The comment of its last line: how much of it no member takes. */
export function totals({ holes, hole_bytes, padding_bytes, unused_bits }) {
  const texts = [];
  if (holes) texts.push(`${plural(holes, "hole")} of ${plural(hole_bytes, "byte")}`);
  if (padding_bytes) texts.push(`${plural(padding_bytes, "byte")} of padding`);
  if (unused_bits) texts.push(`${plural(unused_bits, "bit")} unused`);
  return texts.length ? `// ${texts.join(", ")}` : "";
}

function place(row) {
  if (row.bits !== undefined) return offsetOf(row);
  return `${offsetOf(row)} ${row.size === undefined ? "?" : hexadecimal(row.size, 2)}`;
}

function line(row) {
  if (row.kind in GAP_TEXTS) return `${`    ${GAP_TEXTS[row.kind](row)}`.padEnd(GAPS)} ${place(row)}`;
  const [text, role] = DECLARED[row.kind](row);
  return `${`    ${text}`.padEnd(MEMBERS)} // ${place(row)}${role}`;
}

/** The whole declaration. */
export function declarationText(layout) {
  const first = `${head(layout).padEnd(MEMBERS)} // ${hexadecimal(layout.index)}, size ${hexadecimal(layout.size)}`;
  const remark = totals(layout);
  return [first, ...layout.rows.map(line), `};${remark && `  ${remark}`}`, ""].join("\n");
}
