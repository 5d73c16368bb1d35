// An address, translated between the image as it is loaded and the original image.
import { html } from "./dom.js";
import { failure } from "./failure.js";
import { hexadecimal, numberOf } from "./texts.js";

const ABOUT =
  "Addresses are relative to the start of the image (RVA). " +
  "The original image is the one that was linked; a tool may have rearranged it since.";
/** The images, by the form of their addresses. The form after that is the one of a section and an offset. */
const IMAGES = { 0: "the image as it is loaded", 2: "the original image" };
/** The forms of an address, by their numbers in pdb_container.h. */
const FORMS = ["address", "section and offset", "address in the original image", "section and offset in the original image"];

export class AddressView {
  element;
  #session;
  #image = html(
    "select",
    { id: "address-image" },
    ...Object.entries(IMAGES).map(([value, text]) => html("option", { value }, text)),
  );
  #number = html("input", { id: "address", required: true, placeholder: "0x1008 or 1:0x8", autocomplete: "off" });
  #result = html("div", { role: "status" });

  constructor(session) {
    this.#session = session;
    this.element = html(
      "section",
      { "aria-labelledby": "address-heading" },
      html("h2", { id: "address-heading" }, "Address"),
      html("p", {}, ABOUT),
      html(
        "form",
        { onsubmit: (event) => this.#submit(event) },
        html("p", {}, html("label", { for: "address-image" }, "In"), this.#image),
        html("p", {}, html("label", { for: "address" }, "Address, or section:offset"), this.#number),
        html("p", {}, html("button", {}, "Translate")),
      ),
      this.#result,
    );
  }

  async #submit(event) {
    event.preventDefault();
    const parts = this.#number.value.split(":").map(numberOf);
    const [section, offset] = parts.length > 1 ? parts : [0, parts[0]];
    if (parts.length > 2 || section === undefined || section > 0xffff || offset === undefined) {
      const wanted = "Give a number such as 4104 or 0x1008, or a section and an offset such as 1:0x8.";
      this.#result.replaceChildren(failure(new Error(wanted)));
      return;
    }
    const form = Number(this.#image.value) + (parts.length - 1);
    const found = this.#session.ask("translate", form, section, offset);
    this.#result.replaceChildren(await found.then(translationView, failure));
  }
}

function translationView(found) {
  const place = ({ section, offset }) => `${section}:${hexadecimal(offset)}`;
  const rows = [
    [FORMS[0], found.hasRva && hexadecimal(found.rva)],
    [FORMS[1], found.hasSectionOffset && place(found.sectionOffset)],
    [FORMS[2], found.hasInternalRva && hexadecimal(found.internalRva)],
    [FORMS[3], found.hasInternalSectionOffset && place(found.internalSectionOffset)],
  ];
  return html("dl", {}, ...rows.flatMap(([name, value]) => [html("dt", {}, name), html("dd", {}, value || "none")]));
}
