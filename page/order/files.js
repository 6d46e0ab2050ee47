// Files that a buyer opens instead of pasting them.

import { say } from "../text/wording.js";

const MOST_BYTES = 1_000_000;

/** The text of bytes, as spreadsheets and tills save it; `undefined` if they are no text. */
function textOf(bytes) {
  const [first, second] = bytes;
  if (first === 0xff && second === 0xfe) return new TextDecoder("utf-16le").decode(bytes);
  if (bytes.includes(0)) return undefined;
  try {
    return new TextDecoder("utf-8", { fatal: true }).decode(bytes);
  } catch {
    return new TextDecoder("windows-1252").decode(bytes);
  }
}

/** The `text` of a file, with line breaks as in a text field, or what is `wrong` with it. */
export async function textOfFile(file) {
  if (file.size > MOST_BYTES) return { wrong: say("order.tooLarge", { name: file.name }) };
  const text = textOf(new Uint8Array(await file.arrayBuffer()));
  if (text === undefined) return { wrong: say("order.noText", { name: file.name }) };
  return { text: text.replace(/\r\n?/g, "\n") };
}
