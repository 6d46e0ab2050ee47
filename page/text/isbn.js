// ISBNs as they are typed, scanned or copied.

const HYPHENS = /[\u00ad\u2010-\u2015\u2212\ufe58\ufe63\uff0d]/g;
// Spaces of any width, and invisible signs.
const SPACES = /[\s\u200b-\u200f\u202a-\u202e\u2060-\u2069\ufeff]/g;
// As most texts are.
const IS_PLAIN = /^[ -~]*$/;

/** A text with plain hyphens and spaces, each sign at its place. */
export function plain(text) {
  return IS_PLAIN.test(text) ? text : text.replace(HYPHENS, "-").replace(SPACES, " ");
}

// Thirteen digits with hyphens or none, with one space behind 978, or in five groups; ten, likewise in four groups.
const THIRTEEN = "97[89](?:(?:-?\\d){10}| \\d{10}|(?:[ -]\\d{1,7}){3}[ -]\\d)";
const TEN = "\\d(?:-?\\d){8}-?[\\dXx]|(?:\\d{1,7}[ -]){3}[\\dXx]";

/** The pattern of a written ISBN. */
export const WRITTEN = `${THIRTEEN}|${TEN}`;

/** The same anywhere in a text, with the zero or add-on code that a scanner may write beside thirteen digits. */
export const ANYWHERE = new RegExp(
  `(?<!\\d|\\d-)0?(?:${THIRTEEN})(?:\\d{5}|\\d\\d)?(?!\\d|-\\d)|(?<![\\dA-Za-z]|\\d-)(?:${TEN})(?![\\dA-Za-z]|-\\d)`, "g",
);

/** Whether a text is ten digits, the last of which may be an X. */
export function isTen(text) {
  return /^\d{9}[\dX]$/.test(text);
}

/** Whether thirteen digits begin like a book's. */
export function isBook(text) {
  return /^97[89]/.test(text);
}

/** The check digit of the first twelve digits of an ISBN-13. */
export function checkDigit(text) {
  const digits = [...text.slice(0, 12)].map(Number);
  const sum = digits.reduce((total, digit, at) => total + digit * (at % 2 === 0 ? 1 : 3), 0);
  return String((10 - (sum % 10)) % 10);
}

/** The check digit of the first nine digits of an ISBN-10. */
export function checkSign(text) {
  const digits = [...text.slice(0, 9)].map(Number);
  const sum = digits.reduce((total, digit, at) => total + digit * (10 - at), 0);
  const rest = (11 - (sum % 11)) % 11;
  return rest === 10 ? "X" : String(rest);
}

/** The ISBN-13 of the same book. */
export function toThirteen(ten) {
  const digits = `978${ten.slice(0, 9)}`;
  return digits + checkDigit(digits);
}

/** The thirteen digits of a written ISBN; `undefined` if its check digit is wrong, or it is no book's. */
export function isbnOf(written) {
  const signs = written.replace(/[- ]/g, "").toUpperCase();
  if (isTen(signs)) return signs.at(-1) === checkSign(signs) ? toThirteen(signs) : undefined;
  const digits = withoutAddOn(signs);
  return digits.length === 13 && isBook(digits) && digits.at(-1) === checkDigit(digits) ? digits : undefined;
}

/** The digits of a bar code without a leading zero or add-on code. */
export function withoutAddOn(code) {
  const digits = code.replace(/^0(?=97[89])/, "");
  return [15, 18].includes(digits.length) ? digits.slice(0, 13) : digits;
}

/** All ISBNs in a text, as thirteen digits, each once and in order, with right check digits. */
export function isbnsIn(text) {
  const found = plain(text).match(ANYWHERE) ?? [];
  return [...new Set(found.map(isbnOf))].filter((isbn) => isbn !== undefined);
}
