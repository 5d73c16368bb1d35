// Links from one type to another.
import { html } from "./dom.js";
import { hexadecimal } from "./texts.js";

const FIRST_RECORD = 0x1000;

export const typeAddress = (index) => `#types/${hexadecimal(index)}`;

/** A text that leads to the type of an index. A primitive type has no record to lead to. */
export function typeLink(index, text = hexadecimal(index)) {
  return index < FIRST_RECORD ? text : html("a", { href: typeAddress(index) }, text || hexadecimal(index));
}

/** The declaration of a member, in which the name of its type is a link. */
export function linkedDeclaration({ declaration, link }) {
  const [before, ...after] = declaration.split(link.text);
  return [before, typeLink(link.index, link.text), after.join(link.text)];
}
