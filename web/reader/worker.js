// Reads a file in a worker. A message asks a question, and gets an answer or an error of the same number.
import { load } from "../../dist/wasm/lib/pdb_container.mjs";
import { Database } from "./database.js";
import { describe, entriesOf } from "./description.js";
import { NO_MEMORY, textOf } from "./errors.js";
import { layoutOf } from "./layout.js";
import { Native } from "./native.js";

const CHUNK = 16 << 20;

const loaded = fetch(new URL("../../dist/wasm/lib/pdb_container.wasm", import.meta.url)).then(load);
let database;

/** Copies a file into the module's memory. */
async function placed(library, file) {
  const at = roomFor(library, file.size);
  for (let start = 0; start < file.size; start += CHUNK) {
    const bytes = new Uint8Array(await file.slice(start, start + CHUNK).arrayBuffer());
    library.bytes(at + BigInt(start), bytes.length).set(bytes);
  }
  return at;
}

function roomFor(library, size) {
  try {
    return library.room(size);
  } catch {
    throw new Error(NO_MEMORY);
  }
}

const questions = {
  async open(file) {
    const library = await loaded;
    const at = await placed(library, file);
    database = new Database(new Native(library), at, BigInt(file.size));
    return database.format;
  },
  pageSize: () => database.pageSize(),
  identity: () => database.identity(),
  findings: () => database.findings(),
  table(name) {
    const { length, problem } = database.table(name);
    return { length, problem };
  },
  rows: (name, from, to) => database.table(name).slice(from, to),
  groups: () => database.table("types").groups(),
  choose(group, text) {
    database.table("types").choose(group, text);
    return database.table("types").length;
  },
  type: (index) => describe(database.table("types"), index),
  layout: (index) => layoutOf(database.table("types"), index),
  entries: (index) => entriesOf(database.table("types"), index),
  users(index) {
    const types = database.table("types");
    return database.table("references").users(index).map((user) => types.row(user));
  },
  translate: (form, section, offset) => database.translate(form, section, offset),
};

addEventListener("message", async ({ data: { number, question, words } }) => {
  try {
    postMessage({ number, answer: await questions[question](...words) });
  } catch (error) {
    postMessage({ number, error: textOf(error) });
  }
});
