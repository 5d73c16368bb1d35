// Program databases (PDB) in a browser or in Node, by the library for C as a module of WebAssembly with a memory of 64
// bits.
//
//     import { load } from "./pdb_container.mjs";
//     const library = await load(await fetch("pdb_container.wasm"));
//     const file = library.open(bytes);       // a Uint8Array, which is copied into the module's memory
//     for (let number = 0; number < file.streamCount; number++) console.log(number, file.stream(number)?.length);
//     file.close();
//
// `library.calls` has the calls of pdb_container.h, which says what each does. Pointers and lengths are BigInt there,
// structures lie in the module's memory as in C, and `library.place`, `library.room`, `library.free` and `library.bytes`
// put bytes into that memory, and show it.

const OK = 0, TOO_SMALL = 102, NOT_THERE = [4, 5];
const ALL = 2n ** 64n - 1n;
/** The bytes of the largest handle, pdb_file, and those before the fault in any. */
const HANDLE_SIZE = 40, BEFORE_FAULT = 12n;
/** The calls that are given no handle. */
const WITHOUT_HANDLE = ["pdb_key", "pdb_validate"];

/** How a call failed: `status` of enum pdb_status, and the numbers that go with it. */
export class PdbError extends Error {
  constructor(text, status, first = 0, second = 0) {
    super(text);
    Object.assign(this, { name: "PdbError", status, first, second });
  }
}

/** Loads the module: its bytes, the Response that fetches them, or a WebAssembly.Module. */
export async function load(source) {
  const bytes = typeof Response !== "undefined" && source instanceof Response ? await source.arrayBuffer() : source;
  const made = await WebAssembly.instantiate(bytes);
  return new Library((made.instance ?? made).exports);
}

class Library {
  constructor(calls) {
    this.calls = calls;
  }

  /** Shows bytes of the module's memory, until it grows by the next call. */
  bytes(at, length) {
    return new Uint8Array(this.calls.memory.buffer, Number(at), Number(length));
  }

  /** Makes room for so many bytes, which are 0. */
  room(length) {
    const at = this.calls.malloc(BigInt(length));
    if (!at) throw new PdbError("out of memory", 28);
    this.bytes(at, length).fill(0);
    return at;
  }

  /** Copies bytes into the module's memory. */
  place(data) {
    const at = this.room(data.length);
    this.bytes(at, data.length).set(data);
    return at;
  }

  free(at) {
    this.calls.free(at);
  }

  /** Gives a function room for so many bytes while it runs. */
  with(length, use) {
    const at = this.room(length);
    try {
      return use(at);
    } finally {
      this.free(at);
    }
  }

  number(at) {
    return new DataView(this.calls.memory.buffer).getUint32(Number(at), true);
  }

  long(at) {
    return new DataView(this.calls.memory.buffer).getBigUint64(Number(at), true);
  }

  /** The error of a status and of the numbers that go with it. */
  error(status, first = 0, second = 0) {
    return this.with(24 + 1024, (fault) => {
      new Uint32Array(this.calls.memory.buffer, Number(fault), 3).set([status, first, second]);
      const length = fault + 16n, text = fault + 24n;
      this.calls.pdb_fault_text(fault, text, 1024n, length);
      return new PdbError(new TextDecoder().decode(this.bytes(text, this.long(length))), status, first, second);
    });
  }

  /** The error that a call left in a handle. */
  errorIn(handle) {
    return this.error(...[0n, 4n, 8n].map((offset) => this.number(handle + BEFORE_FAULT + offset)));
  }

  /** Makes a call, and throws its error. Returns its status where that is allowed. */
  call(name, words, allowed = []) {
    const status = this.calls[name](...words);
    if (status === OK || allowed.includes(status)) return status;
    if (WITHOUT_HANDLE.includes(name)) throw this.error(status);
    throw this.errorIn(name.endsWith("_open") ? words.at(-1) : words[0]);
  }

  /** The handle that a call opens. */
  opened(name, ...words) {
    const handle = this.room(HANDLE_SIZE);
    try {
      this.call(name, [...words, handle]);
      return handle;
    } catch (error) {
      this.free(handle);
      throw error;
    }
  }

  /** Closes a handle. */
  close(handle) {
    this.calls.pdb_handle_close(handle);
    this.free(handle);
  }

  /** Opens a file. */
  open(data) {
    return new File(this, data);
  }
}

/** A file, until it is closed. */
class File {
  #library;
  #bytes;
  #handle;

  constructor(library, data) {
    this.#library = library;
    this.#bytes = library.place(data);
    try {
      this.#handle = library.opened("pdb_file_open", this.#bytes, BigInt(data.length));
    } catch (error) {
      library.free(this.#bytes);
      throw error;
    }
  }

  /** A number of structure pdb_sizes. */
  #size(offset) {
    return this.#library.with(8, (sizes) => {
      this.#library.call("pdb_file_sizes", [this.#handle, sizes]);
      return this.#library.number(sizes + offset);
    });
  }

  get pageSize() {
    return this.#size(0n);
  }

  get streamCount() {
    return this.#size(4n);
  }

  /** The bytes that a call writes into an array; undefined where there is no such stream. */
  #array(name, ...words) {
    const library = this.#library;
    return library.with(8, (length) => {
      const ask = (room, size) => library.call(name, [...words, room, size, length], [TOO_SMALL, ...NOT_THERE]);
      const status = ask(0n, 0n);
      if (NOT_THERE.includes(status)) return undefined;
      if (status === OK) return new Uint8Array();
      const size = library.long(length);
      return library.with(size, (room) => {
        ask(room, size);
        return library.bytes(room, size).slice();
      });
    });
  }

  /** The bytes of a stream; undefined where there is no such stream. */
  stream(number) {
    return this.#array("pdb_file_stream", this.#handle, number, ALL);
  }

  /** The bytes of the stream of a name, such as "/names". */
  namedStream(name) {
    const library = this.#library;
    const encoded = new TextEncoder().encode(name);
    const at = library.place(encoded);
    try {
      return this.#array("pdb_file_named_stream", this.#handle, at, BigInt(encoded.length));
    } finally {
      library.free(at);
    }
  }

  close() {
    if (!this.#handle) return;
    this.#library.close(this.#handle);
    this.#library.free(this.#bytes);
    this.#handle = undefined;
  }
}
