// The table of types: its records and their names, and what is chosen among them.
import { textOf } from "./errors.js";
import { GROUPS, isClass, isDeclaredOnly, isList, isNamed, kindName } from "./kinds.js";
import { Records } from "./records.js";
import { nameOf, NameIndex, patternOf } from "./search.js";
import { Row, u32, u64 } from "./structures.js";

export class Types {
  #names;
  #chosen = new Uint32Array();

  /** The table of a handle. */
  constructor(native, handle) {
    this.native = native;
    this.handle = handle;
    this.records = new Records(native, handle);
  }

  /** Why the table can't be read to its end, if it can't. */
  get problem() {
    return this.records.problem;
  }

  /** How many records each group has. */
  groups() {
    const counts = new Uint32Array(256);
    for (let place = 0; place < this.records.length; place++) counts[this.records.codeAt(place)]++;
    return Object.entries(GROUPS).map(([name, has]) => ({
      name,
      count: counts.reduce((sum, count, code) => (has(code) ? sum + count : sum), 0),
    }));
  }

  /** Chooses the records of a group whose names match a text, or all if it is empty. */
  choose(group, text) {
    const isIn = Uint8Array.from({ length: 256 }, (_, code) => GROUPS[group](code));
    const { length } = this.records;
    const chosen = new Uint32Array(length);
    let count = 0;
    const add = (place) => {
      if (isIn[this.records.codeAt(place)]) chosen[count++] = place;
    };
    if (text) this.#index().search(patternOf(text), add);
    else for (let place = 0; place < length; place++) add(place);
    this.#chosen = chosen.slice(0, count);
  }

  get length() {
    return this.#chosen.length;
  }

  slice(from, to) {
    return Array.from(this.#chosen.subarray(from, to), (place) => this.row(this.records.first + place));
  }

  row(index) {
    const code = this.records.code(index);
    const row = { index, kind: kindName(code), isDeclaredOnly: isDeclaredOnly(code) };
    try {
      return { ...row, name: this.label(index), size: this.size(index) };
    } catch (error) {
      return { ...row, problem: textOf(error) };
    }
  }

  /** The indexes of all records of the type of an index: its definition, and its declarations. */
  sameAs(index) {
    const { records } = this;
    const definition = isNamed(records.code(index)) ? this.definition(index) : undefined;
    if (definition === undefined) return [index];
    const found = new Set([index, definition]);
    this.#index().search(nameOf(this.name(index)), (place) => {
      if (this.definition(records.first + place) === definition) found.add(records.first + place);
    });
    return [...found];
  }

  #index() {
    if (this.#names) return this.#names;
    const { native, records } = this;
    native.library.with(8, (length) => {
      this.#names = new NameIndex(native.library, records.length, (place, at) => {
        if (!isNamed(records.codeAt(place))) return 0;
        const status = native.library.calls.pdb_type_name(this.handle, records.first + place, at, 0x10000n, length);
        return status ? 0 : Number(native.library.long(length));
      });
    });
    return this.#names;
  }

  /** What the record of an index says. */
  info(index) {
    return this.native.value(Row, "pdb_type_parse", this.handle, index);
  }

  name(index) {
    return this.native.string("pdb_type_name", this.handle, index);
  }

  uniqueName(index) {
    return this.native.string("pdb_type_unique_name", this.handle, index);
  }

  /** The declaration of a name that has a type, in C++, or the text of the type alone. */
  text(index, name = "") {
    return this.native.withText(name, (at, length) => this.native.string("pdb_type_text", this.handle, index, at, length));
  }

  definition(index) {
    return this.native.value(u32, "pdb_type_definition", this.handle, index);
  }

  /** The size of a type in bytes, which for a class is in its record. */
  size(index) {
    const code = this.records.code(index);
    if (isClass(code)) return isDeclaredOnly(code) ? undefined : this.info(index).number;
    return this.native.value(u64, "pdb_type_size", this.handle, index);
  }

  /** The name of a type, or its text in C++; empty for a list, which has neither. */
  label(index) {
    const code = this.records.code(index);
    if (isList(code)) return "";
    return isNamed(code) ? this.name(index) : this.text(index);
  }

  /** The same for an index that may be that of a primitive type, or of none. */
  anyLabel(index) {
    return this.records.has(index) ? this.label(index) : this.text(index);
  }
}
