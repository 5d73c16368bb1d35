// One type: what its record says, its layout or its entries, and the types that use it.
import { classView } from "./class_view.js";
import { html } from "./dom.js";
import { failure } from "./failure.js";
import { typeLink } from "./links.js";
import { decimal, hexadecimal, plural } from "./texts.js";
import { typeColumns } from "./type_columns.js";
import { VirtualTable } from "./virtual_table.js";

const ENTRY_COLUMNS = [
  { title: "Kind", width: "medium", cell: (row) => row.kind },
  { title: "Name", width: "code", cell: (row) => row.name },
  { title: "Value or offset", width: "medium", cell: (row) => row.value ?? "" },
  { title: "Type", width: "code", cell: (row) => (row.type === undefined ? "" : typeLink(row.type, row.text)) },
];

/** Shows the type of an index in an element, part by part; a part that can't be read shows why. */
export async function showType(session, index, element) {
  const heading = html("h3", { tabindex: -1 }, hexadecimal(index));
  element.replaceChildren(heading);
  heading.focus();
  const parts = [["type", (type) => facts(type, heading)], ["layout", classView], ["entries", entriesView]];
  for (const [question, view] of parts) {
    const part = await session.ask(question, index).then((answer) => answer && view(answer), failure);
    if (part) element.append(part);
  }
  element.append(users(session, index));
  element.dataset.shown = hexadecimal(index);
}

function facts(type, heading) {
  heading.textContent = type.title || type.kind;
  const rows = [
    ["Record", `${hexadecimal(type.index)}, ${type.kind}`],
    ["Size", type.size === undefined ? undefined : plural(type.size, "byte")],
    ["Unique name", type.uniqueName],
    ["Definition", definitionOf(type)],
    ...type.references.map(({ role, index, text }) => [role, typeLink(index, text)]),
  ].filter(([, value]) => value !== undefined);
  return html("dl", {}, ...rows.flatMap(([name, value]) => [html("dt", {}, name), html("dd", {}, value)]));
}

/** The definition of a type that is only declared. */
function definitionOf({ definition, index }) {
  if (definition !== undefined && definition !== index) return typeLink(definition);
  return undefined;
}

function entriesView(entries) {
  const table = new VirtualTable("Entries", ENTRY_COLUMNS);
  table.show(entries);
  return html("div", {}, html("h4", {}, `${decimal(entries.length)} entries`), table.element);
}

/** A button that finds the types that use this one. */
function users(session, index) {
  const part = html("div", {});
  const find = async () => {
    const found = await session.ask("users", index).then(usersView, failure);
    part.replaceChildren(html("h4", { tabindex: -1 }, "Used by"), found);
    part.firstChild.focus();
  };
  part.append(html("button", { type: "button", onclick: find }, "Find the types that use it"));
  return part;
}

function usersView(users) {
  if (!users.length) return html("p", {}, "No class, union or enumeration uses it.");
  const table = new VirtualTable("Types that use it", typeColumns);
  table.show(users);
  return table.element;
}
