// Copies text for other programs.

import { element } from "./elements.js";
import { say } from "./wording.js";

/** Copies a text; if the browser does not allow it, shows the text, and returns false. */
export async function copyText(text, place) {
  place.replaceChildren();
  try {
    await navigator.clipboard.writeText(text);
    return true;
  } catch {
    const area = element("textarea", { rows: 8, readonly: "" }, text);
    place.append(element("label", {}, say("page.copyByHand"), area));
    area.select();
    return false;
  }
}
