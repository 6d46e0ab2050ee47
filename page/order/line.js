// A line of an order list: an ISBN and copies, then perhaps `@series` and `# note`. Every other line is marked.

import { ANYWHERE, isbnOf, isbnsIn, plain, WRITTEN } from "../text/isbn.js";

/** The most copies of a line. */
export const MOST_COPIES = 9999;

const LABEL = "isbn(?:-1[03])?:? *";
const COPIES = "[1-9]\\d{0,3}";

const isbnAs = (name) => `(?:${LABEL})?(?<${name}>${WRITTEN})`;
const BEHIND = `${isbnAs("isbn")} +(?:x?(?<copies>${COPIES})|(?<before>${COPIES})[x×])`;
const GOOD = new RegExp(`^ *(?:${BEHIND}|(?<first>${COPIES})[x×] +${isbnAs("behind")}) *$`, "di");
const LONE = new RegExp(`^ *${isbnAs("isbn")} *$`, "i");
// What may be meant as an ISBN: whole or mistyped, too long or too short, or shortened by a spreadsheet.
const LIKE = /(?:\d[ -]?){8,}[\dX]|97[89][ -]?[\dA-Z-]{5,}|\d[.,]\d+E\+?\d+/i;
const SHORTENED = /\d[.,]\d+E\+?\d+/i;
// Beside an ISBN, one whole number and no sign of a sum or an amount.
const OTHER_FORM = /^(?:[^\p{L}\p{N}]*[^\p{L}\p{N}+$€£-])?(?:x *)?[1-9]\d{0,3}(?: *x)?[^\p{L}\p{N}]*$/iu;

/** Whether a text is a number of copies. */
export function areCopies(text) {
  return new RegExp(`^${COPIES}$`).test(text);
}

/** The ISBN, if a text is that and nothing else. */
export function isbnIn(text) {
  const match = LONE.exec(plain(text));
  return match === null ? undefined : isbnOf(match.groups.isbn);
}

/** Whether a text has something like an ISBN in it, whole or broken. */
export function isLikeIsbn(text) {
  return isbnsIn(text).length > 0 || LIKE.test(plain(text));
}

/** Why a text with one ISBN in it is not an ISBN and copies. */
function reasonBeside(body) {
  const without = body.replace(new RegExp(LABEL, "gi"), " ");
  const beside = without.replace(ANYWHERE, (written) => (isbnOf(written) === undefined ? written : " "));
  if (LIKE.test(beside)) return "two";
  if (OTHER_FORM.test(beside)) return "form";
  return /\p{L}/u.test(beside) ? "more" : "copies";
}

/** Why the part before `@` and `#` is not an ISBN and copies, as a `reason`, with its `isbn` if it has just one. */
function faultOf(body) {
  const lone = isbnIn(body);
  if (lone !== undefined) return { reason: "lone", isbn: lone };
  const [isbn, ...others] = isbnsIn(body);
  if (isbn !== undefined) {
    const reason = others.length > 0 ? "two" : reasonBeside(body);
    return reason === "two" ? { reason } : { reason, isbn };
  }
  if (SHORTENED.test(body)) return { reason: "shortened" };
  return { reason: isLikeIsbn(body) ? "broken" : "none" };
}

/** The number of copies in a good body, and its place. */
function copiesIn({ groups, indices }) {
  const name = ["copies", "before", "first"].find((each) => groups[each] !== undefined);
  const [start, end] = indices.groups[name];
  return { copies: Number(groups[name]), start, end };
}

/**
 * A line by its `kind`: `blank`; `struck` (behind `#`); `good`, with its `isbn` of thirteen digits, `copies`, `series`,
 * `note`, and the place of its number; or `marked`, with the `reason`, and the `isbn` if there is just one. `bodyEnd`
 * is where `@` or `#` begins.
 */
export function readLine(text) {
  const signs = plain(text);
  if (signs.trim() === "") return { kind: "blank" };
  const hash = signs.indexOf("#");
  if (signs.trimStart().startsWith("#")) return { kind: "struck" };
  const [before, note] = hash < 0 ? [signs, ""] : [signs.slice(0, hash), text.slice(hash + 1).trim()];
  const at = before.indexOf("@");
  const body = at < 0 ? before : before.slice(0, at);
  const bodyEnd = body.trimEnd().length;
  if (at >= 0 && !/^[a-z0-9-]{1,32} *$/.test(before.slice(at + 1))) return { kind: "marked", reason: "series", bodyEnd };
  const match = GOOD.exec(body);
  const isbn = match === null ? undefined : isbnOf(match.groups.isbn ?? match.groups.behind);
  if (isbn === undefined) return { kind: "marked", ...faultOf(body), bodyEnd };
  const series = at < 0 ? undefined : before.slice(at + 1).trim();
  return { kind: "good", isbn, ...copiesIn(match), series, note, bodyEnd };
}
