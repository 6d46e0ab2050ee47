// Bar codes: a scanner types them like a keyboard, wherever the focus is, followed by Enter, Tab or nothing.

// Nobody types thirteen digits with so little time between any two, in milliseconds.
const GAP = 60;

// How long a scanner may take for what follows the digits: an add-on, Enter or Tab.
const BEHIND = 120;

/** The digits that came as quickly as a scanner types them. */
export class Burst {
  #digits = "";
  #last = -Infinity;

  /** Whether a digit at this time begins a new burst. */
  begins(time) {
    return time - this.#last > GAP;
  }

  add(digit, time) {
    this.#digits = this.begins(time) ? digit : this.#digits + digit;
    this.#last = time;
  }

  /** The digits of a whole bar code of a book, or more; `undefined` if there are fewer. */
  get code() {
    return this.#digits.length >= 13 ? this.#digits : undefined;
  }

  /** Whether what comes at this time belongs to the digits. */
  isBehind(time) {
    return time - this.#last <= BEHIND;
  }

  end() {
    this.#digits = "";
    this.#last = -Infinity;
  }
}

const isField = (element) => element.matches("input, select, textarea");

/** Removes from a field what a scanner typed into it. */
function remembered(field) {
  if (!isField(field)) return () => {};
  const { value, selectionStart } = field;
  return () => {
    if (field.value === value) return;
    field.value = value;
    if (field.localName === "textarea") field.setSelectionRange(selectionStart, selectionStart);
    field.dispatchEvent(new Event(field.localName === "select" ? "change" : "input", { bubbles: true }));
  };
}

/**
 * Listens to the page's keys for bar codes. `place` has `field`, where ISBNs are typed; `begin`, called at a digit that
 * no field takes; and `scanned`, which gets the digits of a bar code.
 */
export class Scanner {
  #place;
  #burst = new Burst();
  #restore = () => {};
  #timer;
  // When the last digit came, and the last digit of the last bar code.
  #digitAt = -Infinity;
  #scannedAt = -Infinity;

  constructor(place) {
    this.#place = place;
    document.addEventListener("keydown", (event) => this.#hear(event), true);
  }

  #hear(event) {
    if (event.ctrlKey || event.altKey || event.metaKey || event.isComposing) return;
    const isEnd = event.key === "Enter" || event.key === "Tab";
    if (/^\d$/.test(event.key) && !event.repeat) this.#digit(event);
    else if (isEnd && this.#burst.isBehind(event.timeStamp) && this.#burst.code !== undefined) {
      event.preventDefault();
      this.#finish();
    } else if (isEnd && event.timeStamp - this.#scannedAt <= BEHIND) {
      // The page was so busy that it handled the key after the wait had ended.
      event.preventDefault();
    } else if (isEnd || event.key.length === 1) {
      clearTimeout(this.#timer);
      this.#burst.end();
    }
  }

  #digit({ key, timeStamp }) {
    const field = document.activeElement ?? document.body;
    if (this.#burst.begins(timeStamp)) this.#restore = field === this.#place.field ? () => {} : remembered(field);
    if (!isField(field)) this.#place.begin();
    this.#burst.add(key, timeStamp);
    this.#digitAt = timeStamp;
    clearTimeout(this.#timer);
    if (this.#burst.code !== undefined) this.#timer = setTimeout(() => this.#finish(), BEHIND);
  }

  #finish() {
    clearTimeout(this.#timer);
    const { code } = this.#burst;
    this.#burst.end();
    this.#scannedAt = this.#digitAt;
    this.#restore();
    this.#place.scanned(code);
  }
}
