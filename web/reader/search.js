// Searches the names of records, of which there may be millions, as someone types.

const CAPACITY = 4 << 20;
const LONGEST = 0x10000;
const decoder = new TextDecoder("utf-8", { ignoreBOM: true });

const escaped = (text) => text.replace(/[\\^$.*+?()[\]{}|/]/g, "\\$&");
const whole = (signs) => `(?<![^\\0])${signs}(?![^\\0])`;

/** What finds a text in names that NULs separate: a part of a name, or a glob with * and ? that is all of it. Upper and
 * lower case are the same. */
export function patternOf(text) {
  const signs = escaped(text).replace(/\\\*/g, "[^\\0]*").replace(/\\\?/g, "[^\\0]");
  return new RegExp(/[*?]/.test(text) ? whole(signs) : signs, "giu");
}

/** What finds a whole name. */
export const nameOf = (text) => new RegExp(whole(escaped(text)), "gu");

/** Names one after another in the module's memory, cut into texts that a pattern runs through at once. */
export class NameIndex {
  #chunks = [];

  /** `write(record, at)` writes the name of a record to a place and returns its length, 0 if it has none. */
  constructor(library, count, write) {
    library.with(CAPACITY, (room) => {
      let record = 0;
      while (record < count) {
        const first = record;
        let used = 0;
        for (; record < count && used + LONGEST < CAPACITY; record++) {
          const length = write(record, room + BigInt(used));
          this.#end(library.bytes(room, CAPACITY), used, used + length);
          used += length + 1;
        }
        this.#add(first, decoder.decode(library.bytes(room, used)));
      }
    });
  }

  /** Ends a name by a NUL, and has no other in it. */
  #end(bytes, start, end) {
    bytes[end] = 0;
    for (let at = bytes.indexOf(0, start); at < end; at = bytes.indexOf(0, at)) bytes[at] = 0x20;
  }

  /** Adds a chunk. Its last start is its end, behind the last NUL. */
  #add(first, text) {
    const lengths = text.split("\0").map((name) => name.length + 1);
    const starts = new Uint32Array(lengths.length);
    for (let at = 1; at < lengths.length; at++) starts[at] = starts[at - 1] + lengths[at - 1];
    this.#chunks.push({ first, text, starts });
  }

  /** Calls `found` with each record whose name matches, in order. */
  search(pattern, found) {
    for (const chunk of this.#chunks) {
      let record = 0;
      pattern.lastIndex = 0;
      for (let match = pattern.exec(chunk.text); match; match = pattern.exec(chunk.text)) {
        record = lastAtOrBelow(chunk.starts, match.index, record);
        if (record === chunk.starts.length - 1) break;
        found(chunk.first + record);
        pattern.lastIndex = chunk.starts[record + 1];
      }
    }
  }
}

/** The last place from a first one on whose number is at most this one. */
function lastAtOrBelow(numbers, number, first) {
  let low = first;
  let high = numbers.length;
  while (high - low > 1) {
    const middle = (low + high) >> 1;
    if (numbers[middle] <= number) low = middle;
    else high = middle;
  }
  return low;
}
