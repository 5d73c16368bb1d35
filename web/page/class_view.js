// A class: its declaration with the places of its members, a drawing of its bytes, and its layout as JSON.
import { declarationText, GAP_TEXTS, head, offsetOf, totals } from "./declaration.js";
import { html } from "./dom.js";
import { drawing } from "./drawing.js";
import { linkedDeclaration, typeLink } from "./links.js";
import { hexadecimal, plural } from "./texts.js";
import { VirtualTable } from "./virtual_table.js";

const TEXTS = {
  ...GAP_TEXTS,
  member: (row) => [...linkedDeclaration(row), ";"],
  base: (row) => [...linkedDeclaration(row), ";  // base"],
  vbptr: (row) => ["vbptr;  // of virtual base ", typeLink(row.virtual_base, row.base)],
  vfptr: () => "vfptr;",
};

const COLUMNS = [
  { title: "Offset", width: "shorter", cell: offsetOf },
  { title: "Size", width: "shorter", cell: sizeOf },
  { title: "Member", width: "code", cell: (row) => TEXTS[row.kind](row) },
];

function sizeOf({ size, bits }) {
  if (bits !== undefined) return plural(bits, "bit");
  return size === undefined ? "?" : hexadecimal(size, 2);
}

const isGap = (row) => row.declaration === undefined;

export function classView(layout) {
  const table = new VirtualTable(`Members of ${layout.name}`, COLUMNS);
  table.show(layout.rows.map((row) => ({ ...row, class: isGap(row) ? "gap" : undefined })));
  const copied = html("span", { role: "status" });
  return html(
    "div",
    {},
    html("h4", {}, "Bytes"),
    drawing(layout) ?? html("p", {}, "There is no drawing of a class without bytes, or with more than 500 members."),
    html("h4", {}, "Declaration"),
    html("p", { class: "code" }, head(layout)),
    table.element,
    html("p", { class: "code" }, `};  ${totals(layout)}`),
    html("button", { type: "button", onclick: () => copy(declarationText(layout), copied) }, "Copy declaration"),
    " ",
    html("button", { type: "button", onclick: () => copy(jsonText(layout), copied) }, "Copy layout as JSON"),
    " ",
    copied,
  );
}

function jsonText(layout) {
  const rows = layout.rows.map(({ link, base, ...row }) => row);
  // A number of 64 bits may be too large for a number of JavaScript.
  const exact = (_, value) => (typeof value === "bigint" ? JSON.rawJSON(value) : value);
  return JSON.stringify({ ...layout, rows }, exact);
}

async function copy(text, copied) {
  try {
    await navigator.clipboard.writeText(text);
    copied.textContent = "Copied.";
  } catch {
    copied.textContent = "The browser doesn't allow copying.";
  }
}
