// The table of ids.
import { textOf } from "./errors.js";
import { idKindName, ID } from "./kinds.js";
import { Records } from "./records.js";
import { HAS, Row, u32 } from "./structures.js";

/** What the numbers of an id of a shape are: an index of a table, or a number alone. */
const NUMBERS = {
  [ID.FUNCTION]: { typeIndex: "type", secondIndex: "scope" },
  [ID.MEMBER_FUNCTION]: { typeIndex: "type", thirdIndex: "parent type" },
  [ID.STRING]: { listIndex: "substrings" },
  [ID.TYPE_SOURCE]: { typeIndex: "type", secondIndex: "file", thirdIndex: "module" },
};
const IN_TYPES = ["type", "parent type"];

export class Ids {
  /** The table of a handle. */
  constructor(native, handle) {
    this.native = native;
    this.handle = handle;
    this.records = new Records(native, handle);
  }

  get length() {
    return this.records.length;
  }

  get problem() {
    return this.records.problem;
  }

  slice(from, to) {
    const count = Math.max(Math.min(to, this.length) - from, 0);
    return Array.from({ length: count }, (_, place) => this.#row(this.records.first + from + place));
  }

  #row(index) {
    try {
      const info = this.native.value(Row, "pdb_type_parse", this.handle, index);
      return {
        index,
        kind: idKindName(info),
        name: this.native.string("pdb_type_name", this.handle, index) ?? "",
        numbers: [...this.#numbers(info), ...this.#list(info, index)],
      };
    } catch (error) {
      return { index, kind: "not read", problem: textOf(error) };
    }
  }

  #numbers(info) {
    const found = Object.entries(NUMBERS[info.shape] ?? {})
      .filter(([number]) => info.has & HAS[number])
      .map(([number, role]) => ({ role, index: info[number], isType: IN_TYPES.includes(role) }));
    return info.shape === ID.TYPE_SOURCE ? [...found, { role: "line", number: info.extra }] : found;
  }

  #list(info, index) {
    if (info.shape !== ID.BUILD_INFO && info.shape !== ID.STRING_LIST) return [];
    const ids = this.native.rows(u32, "pdb_type_numbers", this.handle, index).slice();
    return ids.map((id, place) => ({ role: `part ${place + 1}`, index: id }));
  }
}
