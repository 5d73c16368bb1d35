// Numbers as the page shows them.

export const hexadecimal = (number, digits = 0) => `0x${number.toString(16).padStart(digits, "0")}`;

const DECIMAL = new Intl.NumberFormat("en");
export const decimal = (number) => DECIMAL.format(number);

export const plural = (number, word) => `${decimal(number)} ${word}${BigInt(number) === 1n ? "" : "s"}`;

/** A number as someone types it: decimal, or hexadecimal after 0x. Undefined if it is none of 32 bits. */
export function numberOf(text) {
  const number = /^(0x[0-9a-f]+|[0-9]+)$/i.test(text.trim()) ? Number(text.trim()) : NaN;
  return number <= 0xffffffff ? number : undefined;
}
