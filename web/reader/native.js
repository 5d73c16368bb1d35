// The calls of pdb_container.h, with values in place of pointers. What a call writes is read from the module's memory.
const TOO_SMALL = 102;
/** A stream, a name or a value that is not there. */
const ABSENT = [4, 5, 106, 107];
/** The bytes for an array of unknown length, for which a call is made again if they are too few. */
const TRIED = 4096;
const decoder = new TextDecoder("utf-8", { ignoreBOM: true });

/** An array of structures, each read when it is asked for. */
class Rows {
  #type;
  #view;

  constructor(type, buffer) {
    this.#type = type;
    this.#view = new DataView(buffer);
    this.length = buffer.byteLength / type.size;
  }

  slice(from = 0, to = this.length) {
    return Array.from({ length: Math.max(Math.min(to, this.length) - from, 0) }, (_, place) => this.at(from + place));
  }

  at(place) {
    return this.#type.read(this.#view, place * this.#type.size);
  }
}

export class Native {
  constructor(library) {
    this.library = library;
  }

  view() {
    return new DataView(this.library.calls.memory.buffer);
  }

  text(at, length) {
    return decoder.decode(this.library.bytes(at, length));
  }

  /** The value that a call writes, or undefined if there is none. */
  value(type, name, ...words) {
    return this.library.with(type.size, (at) => {
      const status = this.library.call(name, [...words, at], ABSENT);
      return ABSENT.includes(status) ? undefined : type.read(this.view(), Number(at));
    });
  }

  /** Gives a function the array that a call writes: its place and its number of items of a size. Undefined if the call
   * has no answer. */
  #written(size, name, words, use, most = BigInt(Math.floor(TRIED / size))) {
    const { library } = this;
    return library.with(8n + most * BigInt(size), (count) => {
      const room = count + 8n;
      const status = library.call(name, [...words, room, most, count], [TOO_SMALL, ...ABSENT]);
      if (ABSENT.includes(status)) return undefined;
      const length = library.long(count);
      // One more, for the NUL of a text.
      return status === TOO_SMALL ? this.#written(size, name, words, use, length + 1n) : use(room, Number(length));
    });
  }

  #items(type, at, count) {
    return new Rows(type, this.library.bytes(at, count * type.size).slice().buffer);
  }

  /** The array that a call writes, or undefined. */
  rows(type, name, ...words) {
    return this.#written(type.size, name, words, (at, count) => this.#items(type, at, count));
  }

  /** The text that a call writes, or undefined. */
  string(name, ...words) {
    return this.#written(1, name, words, (at, length) => this.text(at, length));
  }

  /** The array that a call writes whose items have names, each with its `name`, or undefined. */
  named(type, name, ...words) {
    return this.#named(type, name, words, () => {});
  }

  /** The same of the fields of an enumeration, whose values are numbers of the type under it. */
  enumerators(type, underlying, name, ...words) {
    return this.#named(type, name, words, (row) => this.library.calls.pdb_enumerator_typed(row, underlying));
  }

  #named(type, name, words, change) {
    const { library } = this;
    return library.with(16, (lengths) => {
      const sizes = [lengths, lengths + 8n];
      const ask = (rows, count, names, size) =>
        library.call(name, [...words, rows, count, sizes[0], names, size, sizes[1]], [TOO_SMALL, ...ABSENT]);
      if (ABSENT.includes(ask(0n, 0n, 0n, 0n))) return undefined;
      const [count, size] = sizes.map((at) => library.long(at));
      return library.with(count * BigInt(type.size), (rows) =>
        library.with(size, (names) => {
          if (count) ask(rows, count, names, size);
          for (let place = 0n; place < count; place++) change(rows + place * BigInt(type.size));
          const items = this.#items(type, rows, Number(count)).slice();
          return items.map((item) => ({ ...item, name: this.text(names + item.nameOffset, item.nameLength) }));
        }),
      );
    });
  }

  /** Gives a function a text in the module's memory: its place and its length. */
  withText(text, use) {
    const bytes = new TextEncoder().encode(text);
    const at = this.library.place(bytes);
    try {
      return use(at, BigInt(bytes.length));
    } finally {
      this.library.free(at);
    }
  }
}
