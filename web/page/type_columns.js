// The columns of a list of types.
import { typeLink } from "./links.js";
import { decimal } from "./texts.js";

export const typeColumns = [
  { title: "Index", width: "short", cell: (row) => typeLink(row.index) },
  { title: "Name", width: "code", cell: (row) => row.problem ?? row.name },
  { title: "Kind", width: "medium", cell: (row) => row.kind + (row.isDeclaredOnly ? " (declared)" : "") },
  { title: "Bytes", width: "short number", cell: (row) => (row.size === undefined ? "" : decimal(row.size)) },
];
