// The table beside an order list: a row for each ISBN and wholesaler, in the order of the text.

import { addressOf } from "../text/address.js";
import { money, times } from "../text/amounts.js";
import { catalogueLink } from "../article/catalogue.js";
import { element, found, table, tableRow } from "../text/elements.js";
import { farInWords, farOf } from "../article/retail.js";
import { titleNodes, titlesOfOffers } from "../desk/titles.js";
import { availabilityDot, availabilityOf } from "../desk/offers.js";
import { wholesalerOf } from "../desk/settings.js";
import { inDigits, say, sayCount } from "../text/wording.js";
import { changeOf, CONFIRMABLE, isPriced, savingOf, unpricedOf } from "./answers.js";

const COLUMNS = ["title", "copies", "wholesaler", "availability", "price", "sum", "note"];
const AMOUNTS = ["copies", "price", "sum"];
const CLASSES = { note: "said" };

const columns = () => COLUMNS.map((name) => ({
  name: say(`order.columns.${name}`),
  className: AMOUNTS.includes(name) ? `${name} amount` : CLASSES[name] ?? name,
}));

/** The title from a feed, or only the ISBN, with a link to the article. */
function titleCell(row, answer, { settings, titles }) {
  const { isbn, copies, lines } = row;
  const said = titlesOfOffers(titles.get(isbn) ?? [], answer?.offers ?? []);
  const title = said.length > 0 ? [...titleNodes(said, settings), " "] : [];
  const link = element("a", { href: addressOf("article", { isbn, quantity: String(copies) }) }, isbn);
  const names = lines.map((line) => inDigits(line.number)).join(", ");
  return [...title, element("small", {}, link, " · ", sayCount("order.ofLines", lines.length, { lines: names }))];
}

/** The copies: for one line a button that leads to their number in the text; for several no line has the sum. */
function copiesCell({ isbn, copies, lines }, { goTo }) {
  if (lines.length > 1) return [inDigits(copies)];
  const button = element("button", { type: "button", class: "number" }, inDigits(copies));
  button.setAttribute("aria-label", say("order.toNumber", { isbn, copies: inDigits(copies), line: lines[0].number }));
  button.addEventListener("click", () => goTo(lines[0].number));
  return [button];
}

function offerInWords(offer, { settings }) {
  const price = money(offer.amount, settings.currency);
  return say("order.offer", { wholesaler: wholesalerOf(settings, offer.series), price, availability: availabilityOf(offer) });
}

/** The field that chooses a wholesaler by hand, written behind `@` into the text. */
function wholesalerCell(row, answer, state, context) {
  const { settings, choose } = context;
  if (answer === undefined) return ["…"];
  if (answer.refusal !== undefined) return [];
  const offers = answer.offers.filter(isPriced);
  if (offers.length === 0) return [];
  const names = [...new Set(offers.map(({ series }) => series))];
  const all = row.series === undefined || names.includes(row.series) ? names : [row.series, ...names];
  const ofRules = answer.choice === null ? say("order.noRule") : wholesalerOf(settings, answer.choice.series);
  const options = all.map((name) => {
    const own = offers.filter(({ series }) => series === name);
    const words = own.length === 1 ? offerInWords(own[0], context) : wholesalerOf(settings, name);
    return element("option", { value: name }, words);
  });
  const field = element("select", { "aria-label": say("order.wholesalerOf", { isbn: row.isbn }) },
    element("option", { value: "" }, ofRules), ...options);
  field.value = row.series ?? "";
  field.addEventListener("change", () => choose(row, field.value === "" ? undefined : field.value));
  return [field];
}

/** That nobody offers a book, or that a wholesaler may whose messages are missing. */
function noOffersInWords({ settings, doubtful }) {
  const names = doubtful.map((name) => wholesalerOf(settings, name));
  if (names.length === 0) return say("order.needs.noOffers");
  return say("order.needs.noOffersYet", { wholesalers: names.join(", ") });
}

/** Why a person should look at a row, in words. */
function needInWords(row, answer, { need, offer }, context) {
  const { settings, changes } = context;
  const { currency, type } = settings;
  const wholesaler = row.series === undefined ? "" : wholesalerOf(settings, row.series);
  if (need === "far") return farInWords(farOf(offer, { ...answer, type }), offer, currency);
  if (need === "refused") return answer.refusal.words;
  if (need === "noOffers") return noOffersInWords(context);
  const names = settings.series.map(({ name }) => name);
  if (need === "handLacks" && !names.includes(row.series)) {
    return say("order.needs.handUnknown", { name: row.series, names: names.join(", ") });
  }
  const before = changes.get(changeOf(row));
  return say(`order.needs.${need}`, {
    wholesaler: need === "changed" ? wholesalerOf(settings, before.series) : wholesaler,
    price: need === "changed" ? money(before.amount, currency) : "",
    copies: inDigits(row.copies),
    type,
    sum: offer === undefined ? "" : money(times(offer.amount, row.copies), currency),
  });
}

/** A button at a row, by the path of its words. */
function rowButton(path, className, { isbn }, act) {
  const button = element("button", { type: "button", class: `small ${className}` }, say(path));
  button.setAttribute("aria-label", `${say(path)}: ${isbn}`);
  button.addEventListener("click", act);
  return button;
}

function needPart(row, answer, state, context) {
  const words = element("strong", { class: "need" }, needInWords(row, answer, state, context));
  const { need } = state;
  if (CONFIRMABLE.includes(need)) {
    return [words, " ", rowButton("order.confirm", "confirm", row, () => context.confirm(row, state))];
  }
  if (need === "refused") return [words, " ", rowButton("order.askAgain", "again", row, () => context.askAgain(row))];
  if (need === "noOffers") return [words, " ", ...catalogueLink(row.isbn, say("article.inCatalogue"), context.settings)];
  return [words];
}

/** What another offer of the same answer saves, and the rule that preferred the ordered one. */
function savingPart(row, answer, { offer }, { settings }) {
  const saving = savingOf(answer, offer, row.copies);
  if (saving === undefined) return [];
  const words = say("order.saving", {
    amount: money(saving.amount, settings.currency),
    wholesaler: wholesalerOf(settings, saving.offer.series),
    availability: availabilityOf(saving.offer),
  });
  const why = row.series === undefined
    ? say("order.preferred", { rule: answer.choice.rule, wholesaler: wholesalerOf(settings, offer.series) })
    : say("order.byHand");
  return [element("span", {}, `${words}; ${why}`)];
}

/** The remarks on a row, one after the other. */
function noteCell(row, answer, state, context) {
  if (answer === undefined) return [];
  const { settings } = context;
  const parts = [];
  if (state.need !== undefined) parts.push(element("span", {}, ...needPart(row, answer, state, context)));
  if (state.offer !== undefined) {
    parts.push(...savingPart(row, answer, state, context));
    const names = unpricedOf(answer).map((name) => wholesalerOf(settings, name));
    if (names.length > 0) parts.push(say("order.unpriced", { wholesalers: names.join(", "), type: settings.type }));
    if (context.doubtful.includes(state.offer.series)) parts.push(say("order.mayBeOld"));
  }
  if (row.note !== "") parts.push(element("bdi", { class: "own" }, row.note));
  return parts.flatMap((part) => [" · ", part]).slice(1);
}

function cellsOf(row, answer, state, context) {
  const { offer } = state;
  const { currency } = context.settings;
  return [
    titleCell(row, answer, context),
    copiesCell(row, context),
    wholesalerCell(row, answer, state, context),
    [offer === undefined ? "" : availabilityDot(offer)],
    [offer === undefined ? "" : money(offer.amount, currency)],
    [offer === undefined ? "" : money(times(offer.amount, row.copies), currency)],
    noteCell(row, answer, state, context),
  ];
}

/** What a row is drawn from: if one of these changes, it is drawn again. */
function drawnOf({ row, answer, state }, { titles, doubtful }) {
  const lines = row.lines.map((line) => line.number).join();
  return [lines, row.copies, row.note, answer, state.need, state.offer, titles.get(row.isbn), doubtful];
}

/** Replaces a row, with the focus at the same field or button. */
function replaceRow(old, made) {
  const fields = (place) => [...place.querySelectorAll("a, button, select")];
  const at = fields(old).indexOf(document.activeElement);
  old.replaceWith(made);
  if (at >= 0) fields(made)[at]?.focus({ preventScroll: true });
}

// How many rows are drawn before keys are handled.
const MOST_AT_ONCE = 60;

/** The rows of the table; an unchanged one stays. */
export class Rows {
  #context;
  #columns = columns();
  // For each row of the list its row in the table (`made`), and what that was drawn from.
  #drawn = new Map();

  /**
   * The context has the `settings`, the `titles`, the `changes` since a book was answered, and `goTo`, `choose`, `confirm`
   * and `askAgain`.
   */
  constructor(context) {
    this.#context = { ...context, doubtful: [] };
    found("list").replaceChildren(table("list-heading", this.#columns, []));
  }

  /** Draws rows, each with its `row`, `answer` and `state`, some at a time; returns whether all are drawn. */
  draw(shown, doubtful) {
    if (doubtful.join() !== this.#context.doubtful.join()) this.#context.doubtful = doubtful;
    let left = MOST_AT_ONCE;
    const drawn = new Map();
    for (const each of shown) {
      const old = this.#drawn.get(each.row.key);
      const of = drawnOf(each, this.#context);
      const isSame = old !== undefined && of.every((part, at) => part === old.of[at]);
      if (!isSame) left -= 1;
      const kept = isSame || left < 0 ? old : this.#madeOf(each, of, old);
      if (kept !== undefined) drawn.set(each.row.key, kept);
    }
    const body = document.querySelector("#list tbody");
    const rows = [...drawn.values()].map(({ made }) => made);
    const isSame = body.children.length === rows.length && rows.every((made, at) => body.children[at] === made);
    if (!isSame) body.replaceChildren(...rows);
    this.#drawn = drawn;
    return left >= 0;
  }

  #madeOf(each, of, old) {
    const cells = cellsOf(each.row, each.answer, each.state, this.#context);
    const made = tableRow(this.#columns, { cells, className: each.state.need === undefined ? undefined : "needs" });
    if (old?.made.isConnected) replaceRow(old.made, made);
    return { made, of };
  }
}
