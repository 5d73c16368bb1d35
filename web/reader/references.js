// Which types use a type, by the references from record to record.
import { isNamed, SHAPE } from "./kinds.js";
import { Field, Row, Type, u32 } from "./structures.js";

const OK = 0, TOO_SMALL = 102;
/** The calls that write the entries of lists, and the structures of these. */
const LISTS = {
  [SHAPE.FIELD_LIST]: ["pdb_type_fields", Field],
  [SHAPE.METHOD_LIST]: ["pdb_type_methods", Row],
  [SHAPE.ARGUMENT_LIST]: ["pdb_type_numbers", u32],
};
/** The bytes for the entries of a list and for their names, of which a longer list has more. */
const ENTRIES = 1 << 20, NAMES = 1 << 16;
const wordsOf = (type) => type.size / 4;
const INFO = wordsOf(Type) - wordsOf(Row);
/** Bits of `has` in structure pdb_row, each with the word that it announces. */
const INDEXES = [[16, 8], [32, 9], [64, 10], [128, 11]];

export class References {
  /** The references of the record at a place are those from starts[place] up to starts[place + 1]. */
  #starts;
  #targets = new Uint32Array(1 << 16);
  #count = 0;

  constructor(types) {
    this.types = types;
    this.#starts = new Uint32Array(types.records.length + 1);
    this.#withRoom(ENTRIES, NAMES, (room) => this.#read(room));
  }

  /** Gives a function room for the entries of a list and for their names, of so many bytes. */
  #withRoom(entriesMost, namesMost, use) {
    this.types.native.library.with(16 + entriesMost + namesMost, (count) => {
      const entries = count + 16n;
      use({ count, size: count + 8n, entries, entriesMost, names: entries + BigInt(entriesMost), namesMost });
    });
  }

  /** Reads the references of all records, with room for the entries of a list. */
  #read(room) {
    const { records } = this.types;
    let place = 0;
    records.batches((words, count) => {
      const batch = words.slice(); // The memory may grow while lists are read.
      for (let at = INFO; count-- > 0; at += wordsOf(Type), place++) {
        this.#starts[place] = this.#count;
        this.#addIndexes(batch, at);
        this.#addList(batch[at], records.first + place, room);
      }
    });
    this.#starts.fill(this.#count, place);
  }

  /** Adds the indexes in the structure pdb_row at a place of words. */
  #addIndexes(words, at) {
    for (const [bit, word] of INDEXES) if (words[at + 1] & bit) this.#add(words[at + word]);
  }

  #add(target) {
    if (this.#count === this.#targets.length) {
      const larger = new Uint32Array(2 * this.#count);
      larger.set(this.#targets);
      this.#targets = larger;
    }
    this.#targets[this.#count++] = target;
  }

  /** Adds the references of the entries of a record, if it is a list that can be read. */
  #addList(shape, index, room) {
    const { native, handle } = this.types;
    if (!(shape in LISTS)) return;
    const [name, type] = LISTS[shape];
    const most = Math.floor(room.entriesMost / type.size);
    // Of a list of fields those of its record alone: the lists in which it continues are records too.
    const words = [handle, index, ...(type === Field ? [0] : []), room.entries, BigInt(most), room.count];
    if (type === Field) words.push(room.names, BigInt(room.namesMost), room.size);
    const status = native.library.calls[name](...words);
    const [count, size] = [room.count, room.size].map((at) => Number(native.library.long(at)));
    if (status === OK) this.#addEntries(room.entries, count, type);
    if (status === TOO_SMALL) this.#withRoom(count * type.size, size, (larger) => this.#addList(shape, index, larger));
  }

  #addEntries(entries, count, type) {
    const length = count * wordsOf(type);
    const words = new Uint32Array(this.types.native.library.calls.memory.buffer, Number(entries), length);
    for (let at = 0; at < length; at += wordsOf(type)) {
      if (type === u32) this.#add(words[at]);
      else this.#addIndexes(words, at);
    }
  }

  /** The classes, unions and enumerations in which the type of an index is used, itself or through pointers, arrays,
   * functions and lists. A record refers to those before it, so one pass finds all. */
  users(index) {
    const { records } = this.types;
    const { first, length } = records;
    const reaches = new Uint8Array(length);
    const users = [];
    for (const same of this.types.sameAs(index)) reaches[same - first] = 1;
    for (let place = 0; place < length; place++) {
      if (reaches[place] || !this.#refersTo(place, reaches)) continue;
      if (isNamed(records.codeAt(place))) users.push(first + place);
      else reaches[place] = 1;
    }
    return users;
  }

  #refersTo(place, reaches) {
    const { first } = this.types.records;
    for (let at = this.#starts[place]; at < this.#starts[place + 1]; at++) {
      if (reaches[this.#targets[at] - first]) return true;
    }
    return false;
  }
}
