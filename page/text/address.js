// Addresses: of files beside the page, and the part behind `#`: the name of a view, and after a `?` what is asked
// there.

const VIEWS = ["article", "order", "missing"];

/** What an address may ask for. */
export const ASKED = ["isbn", "day", "quantity", "country", "currency", "type"];

/**
 * The view and the texts of an address, by name. An unknown view is the first one; an unknown name, as a mail or
 * another program may add one, is ignored.
 */
export function readAddress(hash) {
  const [name, query = ""] = hash.replace(/^#/, "").split(/\?(.*)/s);
  const all = [...new URLSearchParams(query)];
  return {
    view: VIEWS.includes(name) ? name : VIEWS[0],
    given: Object.fromEntries(all.filter(([key]) => ASKED.includes(key))),
  };
}

/** The address of a view and a question, in one order. */
export function addressOf(view, given) {
  const names = ASKED.filter((name) => given[name] !== undefined);
  return `#${view}?${new URLSearchParams(names.map((name) => [name, given[name]]))}`;
}

/** The URL of a path beside the page, without a name and password that the page's own may have. */
export function urlBeside(path) {
  const url = new URL(path, document.baseURI);
  url.username = "";
  url.password = "";
  return url;
}
