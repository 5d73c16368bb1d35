// A bar of where the bytes of a file are.
import { html, svg } from "./dom.js";
import { decimal } from "./texts.js";

const PARTS = 6;
const WIDTH = 1000, HEIGHT = 36;

/** The bar of a file of a size, and the list of its parts: the largest streams, the other ones, and the rest. */
export function bar(size, streams) {
  const parts = partsOf(size, streams);
  let used = 0;
  const boxes = parts.map(({ text, bytes }, place) => {
    const x = (used / size) * WIDTH;
    used += bytes;
    const rect = svg("rect", { x, width: (bytes / size) * WIDTH, height: HEIGHT });
    return svg("g", { class: `box hue-${place}` }, svg("title", {}, text), rect);
  });
  const view = { viewBox: `0 0 ${WIDTH} ${HEIGHT}`, preserveAspectRatio: "none" };
  const label = { role: "img", "aria-label": "Bytes of the largest streams, listed below" };
  return html(
    "div",
    {},
    svg("svg", { class: "bar", ...view, ...label }, ...boxes),
    html("ul", { class: "legend" }, ...parts.map((part, place) => legend(part, place, size))),
  );
}

function partsOf(size, streams) {
  const found = streams.filter((stream) => stream.size).sort((one, other) => other.size - one.size);
  const named = found.slice(0, PARTS).map((stream) => ({ text: textOf(stream), bytes: stream.size }));
  const others = sum(found.slice(PARTS));
  const rest = size - sum(found);
  const all = [...named, { text: "other streams", bytes: others }, { text: "directory and unused pages", bytes: rest }];
  return all.filter(({ bytes }) => bytes > 0);
}

const sum = (streams) => streams.reduce((total, stream) => total + stream.size, 0);

const textOf = ({ number, role, name }) => [`stream ${number}`, role || name].filter(Boolean).join(": ");

function legend({ text, bytes }, place, size) {
  const share = ((100 * bytes) / size).toFixed(1);
  const square = svg("g", { class: `box hue-${place}` }, svg("rect", { width: 10, height: 10 }));
  const swatch = svg("svg", { class: "swatch", viewBox: "0 0 10 10", "aria-hidden": "true" }, square);
  return html("li", {}, swatch, `${text}, ${decimal(bytes)} bytes (${share} %)`);
}
