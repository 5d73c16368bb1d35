// The string table.

const TOO_SMALL = 102;

export class Names {
  #offsets = [];

  /** The table of a handle. Each name begins behind the NUL of the one before it. */
  constructor(native, handle) {
    this.native = native;
    this.handle = handle;
    const { library } = native;
    library.with(8, (length) => {
      const isAt = (offset) => library.calls.pdb_names_get(handle, offset, 0n, 0n, length) === TOO_SMALL;
      for (let offset = 0; isAt(offset); offset += Number(library.long(length)) + 1) this.#offsets.push(offset);
    });
  }

  get length() {
    return this.#offsets.length;
  }

  slice(from, to) {
    return this.#offsets.slice(from, to).map((offset) => ({ offset, name: this.at(offset) }));
  }

  /** The name at an offset. */
  at(offset) {
    return this.native.string("pdb_names_get", this.handle, offset);
  }
}
