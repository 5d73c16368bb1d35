// The types: a search, the list of what it finds, and the type that is chosen.
import { html } from "./dom.js";
import { failure } from "./failure.js";
import { latest } from "./latest.js";
import { typeAddress } from "./links.js";
import { showType } from "./type_view.js";
import { typeColumns } from "./type_columns.js";
import { decimal, numberOf, plural } from "./texts.js";
import { VirtualTable } from "./virtual_table.js";

export class TypesView {
  element = html("section", { "aria-labelledby": "types-heading" }, html("h2", { id: "types-heading" }, "Types"));
  #session;
  #text = html("input", { id: "type-name", type: "search", placeholder: "std::* or Point or 0x1026", autocomplete: "off" });
  #group = html("select", { id: "type-kind" });
  #count = html("p", { role: "status" });
  #type = html("article", { "aria-label": "Chosen type" }, html("p", {}, "Choose a type in the list."));
  #table = new VirtualTable("Types", typeColumns, (row) => location.assign(typeAddress(row.index)));
  #choose = latest(() => this.#show());
  #showType = latest((index) => showType(this.#session, index, this.#type));

  constructor(session) {
    this.#session = session;
    this.#open().catch((error) => this.element.append(failure(error)));
  }

  /** Shows the type whose index is behind the slash of the page's address. */
  select(address) {
    const index = numberOf(address);
    if (index !== undefined) this.#showType(index);
  }

  async #open() {
    const { problem } = await this.#session.ask("table", "types");
    const groups = await this.#session.ask("groups");
    this.#group.append(...groups.map(({ name, count }) => html("option", { value: name }, `${name} (${decimal(count)})`)));
    this.element.append(
      ...(problem ? [failure(new Error(`The table can't be read to its end: ${problem}`))] : []),
      html(
        "form",
        { role: "search", onsubmit: (event) => this.#submit(event), oninput: () => this.#choose() },
        html("p", {}, html("label", { for: "type-name" }, "Name, pattern or index"), this.#text),
        html("p", {}, html("label", { for: "type-kind" }, "Kind"), this.#group),
      ),
      html("p", {}, "A part of a name, or all of it with * and ?. Classes, unions and enumerations have names."),
      this.#count,
      html("div", { class: "panes" }, this.#table.element, this.#type),
    );
    await this.#choose();
  }

  async #show() {
    const length = await this.#session.ask("choose", this.#group.value, this.#text.value.trim());
    this.#count.textContent = plural(length, "record");
    await this.#table.show({ length, slice: (from, to) => this.#session.ask("rows", "types", from, to) });
  }

  /** Enter in the search goes to the type of an index. */
  #submit(event) {
    event.preventDefault();
    const index = numberOf(this.#text.value);
    if (index !== undefined) location.assign(typeAddress(index));
  }
}
