// The file: what identifies it, whether it is whole, and its streams.
import { bar } from "./bar.js";
import { html } from "./dom.js";
import { failure } from "./failure.js";
import { decimal, hexadecimal, plural } from "./texts.js";
import { VirtualTable } from "./virtual_table.js";

const MACHINES = { 0x14c: "x86", 0x8664: "x86-64", 0xaa64: "ARM64", 0x1c0: "ARM", 0x1c4: "ARM" };

const STREAM_COLUMNS = [
  { title: "Stream", width: "short number", cell: (row) => row.number },
  { title: "Bytes", width: "short number", cell: (row) => (row.size === undefined ? "absent" : decimal(row.size)) },
  { title: "Role", width: "wide", cell: (row) => row.role },
  { title: "Name", width: "code", cell: (row) => row.name },
];

const FINDING_COLUMNS = [
  { title: "Severity", width: "short", cell: (row) => (row.isWarning ? "warning" : "error") },
  { title: "Part", width: "medium", cell: (row) => row.part },
  { title: "Problem", width: "code", cell: (row) => row.problem },
  { title: "Stream", width: "short number", cell: (row) => row.stream ?? "" },
  { title: "Record", width: "short", cell: (row) => (row.index === undefined ? "" : hexadecimal(row.index)) },
  { title: "Byte of file", width: "short", cell: (row) => (row.fileByte === undefined ? "" : hexadecimal(row.fileByte)) },
];

export class FileView {
  element = html("section", { "aria-labelledby": "file-heading" }, html("h2", { id: "file-heading" }));
  #session;

  /** Shows a file of a name, a size in bytes, and a format. */
  constructor(session, { name, size, format }) {
    this.#session = session;
    this.element.firstChild.textContent = name;
    this.#open(size, format);
  }

  async #open(size, format) {
    await this.#add(this.#identity(size, format));
    await this.#add(this.#streams(size));
    await this.#add(this.#findings());
  }

  async #add(part) {
    this.element.append(...(await part.catch((error) => [failure(error)])));
  }

  async #identity(size, format) {
    const pageSize = await this.#session.ask("pageSize").catch(() => undefined);
    const pages = pageSize && `${decimal(size / pageSize)} of ${decimal(pageSize)} bytes`;
    const rows = [["Format", format], ["Size", plural(size, "byte")], ["Pages", pages]];
    const identity = await this.#session.ask("identity").catch(() => ({}));
    rows.push(["Key", identity.key], ["GUID", identity.guid], ["Age", identity.age], ["Machine", machineOf(identity)]);
    const given = rows.filter(([, value]) => value !== undefined);
    return [html("dl", {}, ...given.flatMap(([name, value]) => [html("dt", {}, name), html("dd", {}, String(value))]))];
  }

  async #streams(size) {
    const { length } = await this.#session.ask("table", "streams");
    const streams = await this.#session.ask("rows", "streams", 0, length);
    const table = new VirtualTable("Streams", STREAM_COLUMNS);
    table.show(streams);
    return [html("h3", {}, "Where the bytes are"), bar(size, streams), html("h3", {}, plural(length, "stream")), table.element];
  }

  async #findings() {
    const findings = await this.#session.ask("findings");
    const isWhole = findings.every((finding) => finding.isWarning);
    const heading = html("h3", {}, isWhole ? "The file is whole" : "The file is damaged");
    this.element.dataset.whole = isWhole;
    if (!findings.length) return [heading, html("p", {}, "Every part that this page reads is consistent.")];
    const table = new VirtualTable("What is wrong in each part", FINDING_COLUMNS);
    table.show(findings);
    return [heading, table.element];
  }
}

function machineOf({ machine }) {
  return machine === undefined ? undefined : `${MACHINES[machine] ?? "unknown"} (${hexadecimal(machine)})`;
}
