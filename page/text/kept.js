// What a tab keeps over a reload, if the browser keeps anything.

/** The text that is kept under a name; empty if there is none. */
export function kept(name) {
  try {
    return sessionStorage.getItem(name) ?? "";
  } catch {
    return "";
  }
}

export function keep(name, text) {
  try {
    sessionStorage.setItem(name, text);
  } catch {
    // Then it ends with the page.
  }
}
