// Draws the bytes of a class: lines of bytes, a box for each member, and hatched boxes where no member is.
import { svg } from "./dom.js";
import { hexadecimal } from "./texts.js";

const MARGIN = 52, WIDTH = 600;
const LINES_MOST = 12, LINE_LEAST = 8;
const LANE = 26, LANE_LEAST = 10, HEIGHT_MOST = 900;
const BOXES_MOST = 500;
const HUES = 6;
const CHARACTER = 7.5;

/** The drawing, or undefined if there are no bytes, or too many members. */
export function drawing(layout) {
  const size = Number(layout.size);
  const boxes = layout.rows.map(boxOf).filter((box) => box && box.start < size * 8);
  if (!size || boxes.length > BOXES_MOST) return undefined;
  const lanes = putInLanes(boxes);
  const grid = gridOf(size, lanes);
  return svg(
    "svg",
    {
      class: "bytes",
      viewBox: `0 0 ${MARGIN + WIDTH} ${grid.lines * grid.lineHeight}`,
      role: "img",
      "aria-label": `The bytes of ${layout.name}`,
    },
    hatch(),
    ...Array.from({ length: grid.lines }, (_, line) => offsetOf(grid, line)),
    ...boxes.map((box, place) => drawn(grid, box, place)),
  );
}

/** The bits of a row: of a field whose size is not known, the one byte at which it begins. */
function boxOf(row) {
  const start = Number(row.offset) * 8 + (row.bit ?? 0);
  const bits = row.bits ?? Number(row.size ?? 1n) * 8;
  const isGap = row.declaration === undefined;
  return bits > 0 && { start, end: start + bits, isGap, name: isGap ? "" : nameOf(row), text: textOf(row) };
}

const nameOf = (row) => (row.kind === "base" ? row.type : (row.name ?? row.kind));

function textOf(row) {
  const extent = row.bits === undefined ? `${row.size ?? "unknown"} bytes` : `${row.bits} bits from bit ${row.bit}`;
  return `${row.declaration ?? row.kind.replace("_", " ")}, offset ${hexadecimal(row.offset)}, ${extent}`;
}

/** Gives boxes that overlap, as those of a union do, a lane each. Returns the number of lanes. */
function putInLanes(boxes) {
  const ends = [];
  for (const box of boxes) {
    const free = ends.findIndex((end) => end <= box.start);
    box.lane = free < 0 ? ends.length : free;
    ends[box.lane] = box.end;
  }
  return ends.length;
}

/** How bytes are spread over lines. */
function gridOf(size, lanes) {
  let bytes = LINE_LEAST;
  while (size / bytes > LINES_MOST) bytes *= 2;
  const lines = Math.ceil(size / bytes);
  const lane = Math.max(Math.min(LANE, HEIGHT_MOST / (lines * lanes)), LANE_LEAST);
  return { size: size * 8, bits: bytes * 8, lines, lane, lineHeight: lane * lanes + 4 };
}

const hatch = () =>
  svg(
    "defs",
    {},
    svg(
      "pattern",
      { id: "hatch", width: 6, height: 6, patternUnits: "userSpaceOnUse", patternTransform: "rotate(45)" },
      svg("rect", { class: "hatch-ground", width: 6, height: 6 }),
      svg("rect", { class: "hatch-line", width: 2, height: 6 }),
    ),
  );

const offsetOf = (grid, line) =>
  svg("text", { class: "offset", x: 0, y: line * grid.lineHeight + 17 }, hexadecimal((line * grid.bits) / 8, 2));

/** A box, which may go over several lines. The first of its longest parts has the name, if that has room. */
function drawn(grid, box, place) {
  const parts = partsOf(grid, box);
  const longest = parts.reduce((best, part) => (part.width > best.width ? part : best));
  return svg(
    "g",
    { class: box.isGap ? "gap" : `box hue-${place % HUES}` },
    svg("title", {}, box.text),
    ...parts.map(({ x, y, width }) => svg("rect", { x, y, width, height: grid.lane - 1, rx: 2 })),
    nameIn(grid, longest, box.name),
  );
}

function partsOf(grid, box) {
  const parts = [];
  const end = Math.min(box.end, grid.size);
  for (let start = box.start; start < end; ) {
    const line = Math.floor(start / grid.bits);
    const stop = Math.min(end, (line + 1) * grid.bits);
    const scale = WIDTH / grid.bits;
    const x = MARGIN + (start - line * grid.bits) * scale;
    parts.push({ x, y: line * grid.lineHeight + box.lane * grid.lane, width: Math.max((stop - start) * scale - 1, 1) });
    start = stop;
  }
  return parts;
}

function nameIn(grid, { x, y, width }, name) {
  const most = Math.floor((width - 8) / CHARACTER);
  const text = name.length <= most ? name : most > 3 ? `${name.slice(0, most - 1)}…` : "";
  return svg("text", { x: x + width / 2, y: y + grid.lane / 2 + 4, "text-anchor": "middle" }, grid.lane >= 14 ? text : "");
}
