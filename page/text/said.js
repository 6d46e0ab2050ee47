// Texts from feeds, which may be of any length, and may have signs that change the direction of others.

// What sets the direction of letters, and ends that.
const DIRECTIONS = /[\u061c\u200e\u200f\u202a-\u202e\u2066-\u2069]/gu;

const MOST_SIGNS = 40;

/** A text without signs that set the direction of letters. */
export function undirected(text) {
  return text.replace(DIRECTIONS, "");
}

/** The beginning of a text, for a sentence that must stay short. */
export function shortened(text, most = MOST_SIGNS) {
  const signs = [...undirected(text)];
  return signs.length > most ? `${signs.slice(0, most - 1).join("")}…` : signs.join("");
}
