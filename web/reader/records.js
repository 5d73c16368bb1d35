// The records of a table of types or of ids: what kind each is of.
import { textOf } from "./errors.js";
import { codeOf } from "./kinds.js";
import { IndexRange, Type } from "./structures.js";

const OK = 0, END = 105;
const BATCH = 4096;
/** The words of structure pdb_type: their number, and where those are of which a table keeps something. */
const WORDS = Type.size / 4;
const STATUS_WORD = 3, SHAPE_WORD = 6, KIND_WORD = 10, PROPERTIES_WORD = 12;

const grown = (array, length) => {
  if (length <= array.length) return array;
  const larger = new array.constructor(Math.max(length, 2 * array.length));
  larger.set(array);
  return larger;
};

export class Records {
  length = 0;
  /** Why the walk along the table stopped before its end, if it did. */
  problem;
  #codes = new Uint8Array(BATCH);

  /** The table of a handle. */
  constructor(native, handle) {
    this.native = native;
    this.handle = handle;
    this.first = native.value(IndexRange, "pdb_types_range", handle).first;
    this.#walk();
  }

  #walk() {
    this.problem = this.batches((words, count) => {
      this.#codes = grown(this.#codes, this.length + count);
      for (let at = 0; at < count * WORDS; at += WORDS) {
        const shape = words[at + SHAPE_WORD];
        this.#codes[this.length++] = codeOf(words[at + STATUS_WORD], shape, words[at + KIND_WORD], words[at + PROPERTIES_WORD]);
      }
    });
  }

  /** Walks along the table, and gives a function the structures pdb_type of a batch as words of 32 bits, and their number.
   * Returns the error at which the walk stops, if it does. */
  batches(use) {
    const { library } = this.native;
    const { calls } = library;
    library.call("pdb_types_rewind", [this.handle]);
    return library.with(BATCH * Type.size + 8, (rows) => {
      const count = rows + BigInt(BATCH * Type.size);
      let problem;
      for (let status = OK; status === OK; ) {
        status = calls.pdb_types_read(this.handle, rows, BigInt(BATCH), count);
        if (status !== OK && status !== END) problem = textOf(library.errorIn(this.handle));
        const read = Number(library.long(count));
        use(new Uint32Array(calls.memory.buffer, Number(rows), read * WORDS), read);
      }
      return problem;
    });
  }

  has(index) {
    return index >= this.first && index < this.first + this.length;
  }

  code(index) {
    return this.#codes[index - this.first];
  }

  codeAt(place) {
    return this.#codes[place];
  }
}
