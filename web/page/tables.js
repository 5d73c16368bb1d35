// The other tables of a file, each with its columns.
import { html } from "./dom.js";
import { failure } from "./failure.js";
import { typeLink } from "./links.js";
import { hexadecimal, plural } from "./texts.js";
import { VirtualTable } from "./virtual_table.js";

const column = (title, width, cell) => ({ title, width, cell });
const hex = (title, field, width = "short") => column(title, width, (row) => hexadecimal(row[field]));
const text = (title, field, width) => column(title, width, (row) => row[field]);

/** What an id refers to: types as links, ids and lines as numbers. */
function referencesOf({ numbers = [] }) {
  return numbers.flatMap(({ role, index, number, isType }, place) => [
    `${place ? ", " : ""}${role} `,
    isType ? typeLink(index) : index === undefined ? String(number) : hexadecimal(index),
  ]);
}

const FLAGS = {
  hasStructuredEh: "SEH",
  hasCppEh: "C++ EH",
  isFunctionStart: "function start",
  usesBasePointer: "base pointer",
};

const flags = (row) =>
  Object.keys(FLAGS)
    .filter((name) => row[name])
    .map((name) => FLAGS[name])
    .join(", ");

const IDS = [
  hex("Index", "index"),
  text("Kind", "kind", "wide"),
  column("Name", "code", (row) => row.problem ?? row.name),
  column("Refers to", "code", referencesOf),
];

const SECTIONS = [
  text("Section", "number", "short number"),
  text("Name", "name", "medium"),
  hex("Address", "virtualAddress"),
  hex("Size", "virtualSize"),
  hex("File offset", "pointerToRawData", "medium"),
  hex("Size in file", "sizeOfRawData", "medium"),
  hex("Characteristics", "characteristics", "medium"),
];

const OMAP = [
  hex("From address", "source", "medium"),
  column("To address", "medium", (row) => (row.target ? hexadecimal(row.target) : "nowhere")),
];

const FRAMES = [
  hex("Start", "codeStart"),
  hex("Size", "codeSize"),
  text("Kind", "kind", "short"),
  hex("Locals", "localsSize"),
  hex("Params", "paramsSize"),
  hex("Prolog", "prologSize"),
  hex("Regs", "savedRegsSize"),
  column("Flags", "medium", flags),
  text("Program", "program", "code"),
];

/** Each view has a title and tables; each table has a label, the name by which the worker knows it, and its columns. */
export const TABLES = {
  ids: { title: "Ids", tables: [["Ids", "ids", IDS]] },
  names: { title: "Names", tables: [["Names", "names", [hex("Offset", "offset"), text("Name", "name", "code")]]] },
  sections: { title: "Sections", tables: [["Sections", "sections", SECTIONS]] },
  omap: {
    title: "OMAP",
    tables: [["To the original image", "omapToSource", OMAP], ["From the original image", "omapFromSource", OMAP]],
  },
  frames: { title: "Frames", tables: [["Frames", "frames", FRAMES]] },
};

/** The view of some of these tables. A table that the file lacks, or that is damaged, says so. */
export class TablesView {
  element;

  constructor(session, name) {
    const { title, tables } = TABLES[name];
    this.element = html("section", { "aria-labelledby": `${name}-heading` }, html("h2", { id: `${name}-heading` }, title));
    this.#open(session, tables);
  }

  async #open(session, tables) {
    for (const [label, table, columns] of tables) {
      this.element.append(...(await tableView(session, label, table, columns).catch((error) => [failure(error)])));
    }
  }
}

async function tableView(session, label, name, columns) {
  const { length, problem } = await session.ask("table", name);
  const table = new VirtualTable(label, columns);
  table.show({ length, slice: (from, to) => session.ask("rows", name, from, to) });
  const count = html("p", { role: "status" }, `${label}: ${plural(length, "row")}`);
  const stopped = problem ? [failure(new Error(`The table can't be read to its end: ${problem}`))] : [];
  return [...stopped, count, table.element];
}
