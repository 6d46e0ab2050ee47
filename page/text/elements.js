// Builds elements by calls of the DOM alone. Texts become text nodes, so nothing from a message is ever read as markup.

/** The element of the page that has that id. */
export const found = (id) => document.getElementById(id);

/** An HTML element; `undefined` attributes are left out, and texts become text nodes. */
export function element(name, attributes = {}, ...children) {
  const made = document.createElement(name);
  for (const [key, value] of Object.entries(attributes)) {
    if (value !== undefined) made.setAttribute(key, value);
  }
  made.append(...children);
  return made;
}

/** Replaces the children of a place; if they are the same, nothing is laid out again. */
export function refill(place, ...children) {
  const made = element(place.localName, {}, ...children);
  if (made.innerHTML !== place.innerHTML) place.replaceChildren(...made.childNodes);
}

function cell({ name, className }, content, isHeader) {
  const attributes = { role: isHeader ? "rowheader" : "cell", "data-column": name, class: className };
  if (isHeader) attributes.scope = "row";
  return element(isHeader ? "th" : "td", attributes, ...content);
}

const columnOf = (column) => (typeof column === "string" ? { name: column } : column);

/** A row of a table with those columns: `cells`, a list of children for each, and `className`. */
export function tableRow(columns, { cells, className }) {
  const made = cells.map((content, at) => cell(columnOf(columns[at]), content, at === 0));
  return element("tr", { role: "row", class: className }, ...made);
}

/**
 * A table of rows as `tableRow` has them, labelled by the heading with that id. A column is its name, or an object of
 * `name` and the `className` of its cells. The roles are written out, since a table laid out in blocks on a narrow
 * screen loses them.
 */
export function table(heading, columns, rows) {
  const all = columns.map(columnOf);
  const heads = all.map(({ name, className }) =>
    element("th", { role: "columnheader", scope: "col", class: className }, name),
  );
  const body = rows.map((row) => tableRow(all, row));
  return element(
    "table",
    { role: "table", "aria-labelledby": heading },
    element("thead", { role: "rowgroup" }, element("tr", { role: "row" }, ...heads)),
    element("tbody", { role: "rowgroup" }, ...body),
  );
}
