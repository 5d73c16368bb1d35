// A table of any number of rows, of which only the visible ones exist. It scrolls by whole rows, so that the scroll bar of
// a browser, which caps the height of an element, is enough for all.
import { html } from "./dom.js";
import { latest } from "./latest.js";

const HEIGHT_MOST = 10_000_000;
const VISIBLE_MOST = 20;
/** The least width of a column, on average. */
const COLUMN_LEAST = 7.5;

let made = 0;

export class VirtualTable {
  #id = `table-${made++}`;
  #columns;
  #onOpen;
  #source = [];
  #rows = [];
  /** The row that keys move to and from, and the one that was opened. */
  #active = 0;
  #opened;
  /** The first visible row, and where that leaves the scroll bar. */
  #first = 0;
  #scrolledTo = 0;
  #head;
  #body = html("tbody", { role: "rowgroup" });
  #table;
  #sizer;
  #render = latest(() => this.#show());

  /** Each column has a `title`, a `width` (the name of a class), and `cell`, which gives the text or the node of a row.
   * `onOpen` is given a row that is clicked, or chosen with Enter. */
  constructor(label, columns, onOpen) {
    this.#columns = columns;
    this.#onOpen = onOpen;
    const heads = columns.map(({ title, width }) => html("th", { role: "columnheader", scope: "col", class: width }, title));
    this.#head = html("tr", { role: "row", "aria-rowindex": 1 }, ...heads);
    this.#table = html(
      "table",
      { role: "grid", tabindex: 0, "aria-label": label, onkeydown: (event) => this.#press(event) },
      html("thead", { role: "rowgroup" }, this.#head),
      this.#body,
    );
    this.#table.style.minWidth = `${COLUMN_LEAST * columns.length}rem`;
    this.#sizer = html("div", {}, this.#table);
    this.element = html("div", { class: "scroller", tabindex: -1, onscroll: () => this.#scrolled() }, this.#sizer);
    new ResizeObserver(() => this.#resized()).observe(this.element);
  }

  /** Shows the rows of a source, which has a `length` and a `slice` that may be a promise. Until its rows come, those
   * of the source before it stay, and the table is busy. */
  show(source) {
    this.#source = source;
    this.#table.ariaBusy = "true";
    this.#table.setAttribute("aria-rowcount", source.length + 1);
    this.#active = this.#first = 0;
    this.#opened = undefined;
    return this.#resized();
  }

  get #rowHeight() {
    return this.#head.offsetHeight || 1;
  }

  /** How many rows have room. */
  get #visible() {
    return Math.max(Math.floor(this.element.clientHeight / this.#rowHeight) - 1, 1);
  }

  get #lastFirst() {
    return Math.max(this.#source.length - this.#visible, 0);
  }

  #resized() {
    const rows = this.#rowHeight;
    const edges = this.element.offsetHeight - this.element.clientHeight;
    this.element.style.height = `${rows * (Math.min(this.#source.length, VISIBLE_MOST) + 1) + edges}px`;
    this.#sizer.style.height = `${Math.min(rows * (this.#source.length + 1), HEIGHT_MOST)}px`;
    this.#scrollTo(Math.min(this.#first, this.#lastFirst));
    return this.#render();
  }

  #scrolled() {
    const { scrollTop, scrollHeight, clientHeight } = this.element;
    if (Math.abs(scrollTop - this.#scrolledTo) < 1) return;
    this.#scrolledTo = scrollTop;
    this.#first = Math.round((scrollTop / (scrollHeight - clientHeight)) * this.#lastFirst);
    this.#render();
  }

  #scrollTo(first) {
    const { scrollHeight, clientHeight } = this.element;
    this.#first = first;
    this.element.scrollTop = (first / (this.#lastFirst || 1)) * (scrollHeight - clientHeight);
    this.#scrolledTo = this.element.scrollTop;
  }

  async #show() {
    const first = Math.min(this.#first, this.#lastFirst);
    const source = this.#source;
    const rows = await source.slice(first, first + this.#visible);
    if (source !== this.#source) return;
    if (this.#body.contains(document.activeElement)) this.#table.focus();
    this.#rows = rows.map((row, place) => [first + place, row]);
    this.#body.replaceChildren(...this.#rows.map(([place, row]) => this.#row(place, row)));
    this.#table.ariaBusy = "false";
    const isShown = this.#active >= first && this.#active < first + rows.length;
    this.#table.setAttribute("aria-activedescendant", isShown ? this.#rowId(this.#active) : "");
  }

  #rowId(place) {
    return `${this.#id}-${place}`;
  }

  #row(place, row) {
    const isActive = place === this.#active;
    const cells = this.#columns.map(({ cell, width }) => {
      const content = [cell(row) ?? ""].flat();
      const nodes = content.map((it) => (it instanceof Node ? it : String(it)));
      const made = html("td", { role: "gridcell", class: width }, ...nodes);
      made.title = made.textContent;
      for (const link of made.querySelectorAll("a")) link.tabIndex = isActive ? 0 : -1;
      return made;
    });
    const attributes = {
      role: "row",
      id: this.#rowId(place),
      "aria-rowindex": place + 2,
      "aria-selected": this.#onOpen && String(place === this.#opened),
      class: [row.class, isActive && "active"].filter(Boolean).join(" "),
    };
    return html("tr", { ...attributes, onclick: () => this.#open(place) }, ...cells);
  }

  #open(place) {
    this.#active = this.#opened = place;
    const [, row] = this.#rows.find(([shown]) => shown === place) ?? [];
    this.#render();
    if (row) this.#onOpen?.(row);
  }

  #press(event) {
    const last = this.#source.length - 1;
    const moves = {
      ArrowDown: this.#active + 1,
      ArrowUp: this.#active - 1,
      PageDown: this.#active + this.#visible,
      PageUp: this.#active - this.#visible,
      Home: 0,
      End: last,
    };
    if (event.key === "Enter" && event.target === this.#table) this.#open(this.#active);
    else if (event.key in moves) this.#moveTo(Math.max(Math.min(moves[event.key], last), 0));
    else return;
    event.preventDefault();
  }

  #moveTo(place) {
    this.#active = place;
    if (place < this.#first) this.#scrollTo(place);
    else if (place >= this.#first + this.#visible) this.#scrollTo(place - this.#visible + 1);
    this.#render();
  }
}
