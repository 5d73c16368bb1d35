// An open file: what identifies it, its streams, and its tables, each of which is opened when it is first asked for.
import { findingsOf } from "./findings.js";
import { Ids } from "./ids.js";
import { Names } from "./names.js";
import { References } from "./references.js";
import { Frame, Identity, NamedStream, OmapRecord, Roles, Section, Sizes, Translation, u32 } from "./structures.js";
import { Types } from "./types.js";

const FORMATS = ["unknown", "MSF 7.00", "MSF 2.00", "portable PDB (.NET)", "cabinet (a compressed file)", "PE image"];
const KEY_UPPER = 0, KEY_GUID = 2;
const NO_STREAM = 0xffff;
const TYPES = 2, IDS = 4;
const FIXED_ROLES = { 1: "pdb_information", [TYPES]: "types", 3: "debug_information", [IDS]: "ids" };
const FRAME_KINDS = { 0: "fpo", 1: "trap", 2: "tss", 3: "standard", 4: "fdata" };

export class Database {
  #native;
  #file;
  #opened;
  #tables = new Map();

  /** The file in the module's memory. */
  constructor(native, at, length) {
    this.#native = native;
    this.#file = { at, length };
    this.format = FORMATS[native.library.calls.pdb_format_of(at, length)];
  }

  /** The header and the directory, which are read when they are first needed. */
  get #handle() {
    this.#opened ??= this.#native.library.opened("pdb_file_open", this.#file.at, this.#file.length);
    return this.#opened;
  }

  #sizes() {
    return this.#native.value(Sizes, "pdb_file_sizes", this.#handle);
  }

  pageSize() {
    return this.#sizes().pageSize;
  }

  /** What identifies the file. */
  identity() {
    const { library } = this.#native;
    return library.with(Identity.size, (identity) => {
      library.call("pdb_file_identity", [this.#handle, identity]);
      const { age, machine, hasDebugHeader } = Identity.read(this.#native.view(), Number(identity));
      const key = (form) => this.#native.string("pdb_key", identity, form);
      return { key: key(KEY_UPPER), guid: key(KEY_GUID), age, machine: hasDebugHeader ? machine : undefined };
    });
  }

  findings() {
    return findingsOf(this.#native, this.#file);
  }

  /** A table by its name: its `length`, and `slice`, which gives some of its rows. */
  table(name) {
    if (!this.#tables.has(name)) this.#tables.set(name, this.#openers[name]());
    return this.#tables.get(name);
  }

  #openers = {
    streams: () => this.#streams(),
    types: () => new Types(this.#native, this.#tableOf("pdb_types_open", this.#numberOf(TYPES, "types"))),
    references: () => new References(this.table("types")),
    ids: () => new Ids(this.#native, this.#tableOf("pdb_types_open", this.#numberOf(IDS, "ids"))),
    names: () => this.#names(),
    sections: () => this.#sections(),
    omapToSource: () => this.#omap("omap_to_src"),
    omapFromSource: () => this.#omap("omap_from_src"),
    frames: () => this.#frames(),
    addresses: () => this.#tableOf("pdb_address_map_open"),
  };

  /** The handle of a table, which a call opens from the file. */
  #tableOf(name, ...words) {
    return this.#native.library.opened(name, this.#handle, ...words);
  }

  /** The number of a stream, if the file has it. */
  #numberOf(number = NO_STREAM, what) {
    if (number === NO_STREAM || this.#size(number) === undefined) throw new Error(`The file has no stream of ${what}.`);
    return number;
  }

  #size(number) {
    return this.#native.value(u32, "pdb_file_stream_size", this.#handle, number);
  }

  #namedStreams() {
    return this.#native.named(NamedStream, "pdb_file_stream_names", this.#handle);
  }

  #roles() {
    return this.#native.value(Roles, "pdb_file_roles", this.#handle) ?? {};
  }

  #streams() {
    const rows = Array.from({ length: this.#sizes().streamCount }, (_, number) => ({
      number,
      size: this.#size(number),
      role: FIXED_ROLES[number] ?? "",
      name: "",
    }));
    const roles = orEmpty(() => this.#roles(), {});
    for (const [role, number] of Object.entries(roles)) if (rows[number]) rows[number].role ||= role;
    const named = orEmpty(() => this.#namedStreams(), []);
    for (const { name, number } of named) if (rows[number]) rows[number].name ||= name;
    return rows;
  }

  #names() {
    this.#numberOf(this.#namedStreams().find(({ name }) => name === "/names")?.number, "names");
    return new Names(this.#native, this.#tableOf("pdb_names_open"));
  }

  #sections() {
    const number = this.#numberOf(this.#roles().section_headers, "section headers");
    const text = (bytes) => new TextDecoder().decode(bytes).replace(/\0+$/, "");
    const sections = this.#native.rows(Section, "pdb_file_sections", this.#handle, number).slice();
    return sections.map((section, place) => ({ ...section, number: place + 1, name: text(section.name) }));
  }

  #omap(role) {
    const number = this.#numberOf(this.#roles()[role], `moved addresses (${role})`);
    return this.#native.rows(OmapRecord, "pdb_omap_records", this.#tableOf("pdb_omap_open", number));
  }

  #frames() {
    const frames = this.#native.rows(Frame, "pdb_frames_list", this.#tableOf("pdb_frames_open"));
    const program = (frame) => (frame.hasProgram ? orEmpty(() => this.table("names").at(frame.program), "") : "");
    const row = (frame) => ({ ...frame, kind: FRAME_KINDS[frame.kind] ?? "unknown", program: program(frame) });
    return { length: frames.length, slice: (from, to) => frames.slice(from, to).map(row) };
  }

  /** The four forms of an address or a place, which is given in one of them. */
  translate(form, section, offset) {
    return this.#native.value(Translation, "pdb_translate", this.table("addresses"), form, section, offset);
  }
}

/** What a function gives, or something empty if that part of the file is damaged, of which the findings tell. */
function orEmpty(read, empty) {
  try {
    return read() ?? empty;
  } catch {
    return empty;
  }
}
