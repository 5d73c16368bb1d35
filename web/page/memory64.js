// Whether the browser has 64-bit memories for WebAssembly, which the reader needs.

export const NO_MEMORY64 =
  "This browser has no 64-bit memories for WebAssembly, which the reader needs. " +
  "Chrome and Edge have them from version 133 on, Firefox from 134 on.";

/** A module that has such a memory of one page, and nothing else. */
const MODULE = Uint8Array.of(0, 0x61, 0x73, 0x6d, 1, 0, 0, 0, 5, 3, 1, 4, 1);

export const hasMemory64 = () => WebAssembly.validate(MODULE);
