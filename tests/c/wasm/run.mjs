// Runs a program in C for WebAssembly in Node, over the library of dist/wasm, whose memory it shares. This file has what
// the program calls of a C library.
//
// usage: node run.mjs LIBRARY PROGRAM WORD..
//
// COUNTED=1       says at the end, on standard error, how many requests for memory there were
// REFUSED=each    runs the program anew for each request, which is refused, and prints a line for each run: its status,
//                 whether it printed what the program prints otherwise, and what it said on standard error
import fs from "node:fs";

const [libraryPath, programPath, ...words] = process.argv.slice(2);
const compiled = await Promise.all([libraryPath, programPath].map((path) => WebAssembly.compile(fs.readFileSync(path))));

class Exit {
  constructor(status) {
    this.status = status;
  }
}

// Runs the program, with one request refused where a number is given. Returns its status, what it wrote, and how many
// requests there were.
function run(number = 0) {
  const library = new WebAssembly.Instance(compiled[0]).exports;
  const { memory, malloc, realloc, free } = library;
  const files = [null, { text: "" }, { text: "" }];

  // Memory moves when it grows, so a view of it is taken each time.
  const bytes = (at, length) => new Uint8Array(memory.buffer, Number(at), Number(length));
  const word = (global) => new BigUint64Array(memory.buffer, Number(global.value), 1);
  const length = (text) => new Uint8Array(memory.buffer).indexOf(0, Number(text)) - Number(text);
  const latin = (at, length) => Buffer.from(bytes(at, length)).toString("latin1");
  const string = (text) => latin(text, length(text));

  // What printf makes of a form: numbers, texts and bytes, with a width and a precision.
  const formatted = (form, from) => {
    let at = Number(from);
    const next = (size) => {
      at = Math.ceil(at / size) * size + size;
      const view = new DataView(memory.buffer);
      return size === 8 ? view.getBigUint64(at - 8, true) : view.getUint32(at - 4, true);
    };
    return string(form).replace(/%(0?)(\d*)(?:\.(\d+|\*))?([zl]?)([udxsc%])/g, (_, zero, width, precision, long, kind) => {
      const most = precision === "*" ? next(4) : precision && Number(precision);
      if (kind === "%") return "%";
      if (kind === "s") {
        const text = next(8);
        const end = most === undefined ? length(text) : bytes(text, most).indexOf(0);
        return latin(text, end < 0 ? most : end);
      }
      const value = next(long ? 8 : 4);
      if (kind === "c") return String.fromCharCode(value);
      const signed = kind === "d" ? (long ? BigInt.asIntN(64, value) : value | 0) : value;
      return signed.toString(kind === "x" ? 16 : 10).padStart(width, zero || " ");
    });
  };

  const put = (file, text) => {
    files[file].text += text;
    return text.length;
  };
  const stop = (status) => {
    throw new Exit(status);
  };

  const libc = {
    malloc,
    realloc,
    free,
    exit: stop,
    abort: () => stop(134),
    fopen: (path) => (fs.existsSync(string(path)) ? BigInt(files.push({ data: fs.readFileSync(string(path)), at: 0 }) - 1) : 0n),
    fclose: () => 0,
    fread(room, size, count, number) {
      const file = files[number];
      const got = file.data.subarray(file.at, file.at + Number(size * count));
      bytes(room, got.length).set(got);
      file.at += got.length;
      return BigInt(got.length) / size;
    },
    fseek(number, offset, whence) {
      files[number].at = Number(offset) + [0, files[number].at, files[number].data.length][whence];
      return 0;
    },
    ftell: (number) => BigInt(files[number].at),
    rewind(number) {
      files[number].at = 0;
    },
    printf: (form, from) => put(1, formatted(form, from)),
    fprintf: (file, form, from) => put(file, formatted(form, from)),
    fputs: (text, file) => put(file, string(text)),
    puts: (text) => put(1, string(text) + "\n"),
    snprintf(room, size, form, from) {
      const text = Buffer.from(formatted(form, from) + "\0", "latin1").subarray(0, Number(size));
      bytes(room, text.length).set(text);
      return text.length - 1;
    },
    calloc(count, size) {
      const block = malloc(count * size);
      if (block) bytes(block, count * size).fill(0);
      return block;
    },
    memcpy(to, from, length) {
      bytes(to, length).set(bytes(from, length));
      return to;
    },
    memset(to, byte, length) {
      bytes(to, length).fill(byte);
      return to;
    },
    memcmp: (one, other, length) => Buffer.compare(bytes(one, length), bytes(other, length)),
    strlen: (text) => BigInt(length(text)),
    strcmp: (one, other) => Buffer.compare(bytes(one, length(one)), bytes(other, length(other))),
    strtoul: (text) => BigInt(Number.parseInt(string(text), string(text).startsWith("0x") ? 16 : 10) || 0),
  };

  // The program was linked to stand above 16 MiB, with room for 80 MiB. The library takes only pages that it asked for.
  // Newer versions of Node take the number of pages as a BigInt.
  const pages = 96 << 4;
  try {
    memory.grow(BigInt(pages));
  } catch {
    memory.grow(pages);
  }
  const program = new WebAssembly.Instance(compiled[1], { env: { ...library, ...libc, memory } }).exports;

  // The words of the command, as main takes them, in memory of their own.
  const given = [programPath, ...words].map((text) => Buffer.from(text + "\0"));
  const table = malloc(BigInt(8 * given.length));
  given.forEach((text, number) => {
    const at = malloc(BigInt(text.length));
    bytes(at, text.length).set(text);
    new BigUint64Array(memory.buffer, Number(table), given.length)[number] = at;
  });
  const before = word(library.pdb_requests)[0];
  if (number) word(library.pdb_refused)[0] = before + BigInt(number);
  let status;
  try {
    status = (program.__main_argc_argv ?? program.main)(given.length, table);
  } catch (stopped) {
    if (!(stopped instanceof Exit)) throw stopped;
    status = stopped.status;
  }
  return { status, out: files[1].text, err: files[2].text, requests: Number(word(library.pdb_requests)[0] - before) };
}

const whole = run();
if (process.env.REFUSED) {
  for (let number = 1; number <= whole.requests; number++) {
    const { status, out, err } = run(number);
    console.log(`${status} ${out === whole.out} ${err.trim()}`);
  }
} else {
  fs.writeSync(1, Buffer.from(whole.out, "latin1"));
  fs.writeSync(2, Buffer.from(whole.err, "latin1"));
  if (process.env.COUNTED) fs.writeSync(2, `${whole.requests} requests\n`);
  process.exitCode = whole.status;
}
