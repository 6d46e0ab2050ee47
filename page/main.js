// The page: its texts and settings, and the view that the address names.

import { addressOf, readAddress } from "./text/address.js";
import { Article } from "./article/article.js";
import { today } from "./text/days.js";
import { element, found } from "./text/elements.js";
import { Missing } from "./missing/missing.js";
import { Order } from "./order/order.js";
import { Reports } from "./missing/reports.js";
import { loadRules } from "./desk/rules.js";
import { Scanner } from "./text/scan.js";
import { loadSettings } from "./desk/settings.js";
import { labelAll, say, sayCount, speak } from "./text/wording.js";

/** What a view says of the desk, in the note above it. */
const watch = {
  down(words) {
    const note = found("down");
    if (note.textContent !== words) note.textContent = words;
    note.hidden = false;
  },
  up() {
    const note = found("down");
    if (note.hidden) return;
    note.hidden = true;
    note.textContent = "";
  },
};

/** Says what is wrong with a file of the shop, in the note above the views. */
function showProblems(problems) {
  if (problems.length === 0) return;
  const items = problems.map((problem) => element("li", {}, say(problem.path, problem.values)));
  found("settings-wrong").append(
    element("h2", {}, say("settings.heading")),
    element("ul", {}, ...items),
    element("p", {}, say("settings.whom")),
  );
  found("settings-wrong").hidden = false;
}

/** Another day has other prices: the page reloads once somebody looks at it, and keeps the list. */
function reloadAtMidnight() {
  const begun = today();
  const look = () => {
    if (document.visibilityState === "visible" && today() !== begun) location.reload();
  };
  setInterval(look, 10_000);
  document.addEventListener("visibilitychange", look);
}

// The part of the address that is shown.
let shownHash;

function show(views) {
  shownHash = location.hash;
  const { view, given } = readAddress(shownHash);
  for (const [name, shown] of Object.entries(views)) {
    const isShown = name === view;
    if (isShown) document.body.dataset.view = name;
    found(`${name}-view`).hidden = !isShown;
    if (isShown) found(`to-${name}`).setAttribute("aria-current", "page");
    else {
      found(`to-${name}`).removeAttribute("aria-current");
      shown.leave();
    }
  }
  // Another view leads back to what was asked here.
  if (location.hash !== "") found(`to-${view}`).href = location.hash;
  views[view].show(given);
  const title = views[view].title?.() ?? say(`${view}.view`);
  document.title = say("page.title", { view: title, shop: found("shop").textContent });
}

/** The tab counts, in every view, the wholesalers that somebody should look at. */
function countStops(reports) {
  const count = reports.doubtful().length;
  const words = count > 0 ? [" ", element("span", { class: "tag unusual" }, sayCount("missing.stopsAtTab", count))] : [];
  found("missing-count").replaceChildren(...words);
}

async function start() {
  const [{ settings, problems }, rules] = await Promise.all([loadSettings(), loadRules()]);
  Object.assign(settings, { rules });
  speak(settings.language);
  document.documentElement.lang = settings.language;
  labelAll(document);
  if (settings.shop !== "") found("shop").textContent = say("page.shop", { shop: settings.shop });
  showProblems(problems);
  const reports = new Reports(settings);
  const order = new Order(settings, reports, watch);
  const article = new Article(settings, reports, watch, order);
  const views = { article, order, missing: new Missing(settings, reports, watch) };
  reports.subscribe(() => countStops(reports));
  const view = () => readAddress(location.hash).view;
  new Scanner({
    field: found("isbn"),
    begin: () => view() === "article" && article.beginIsbn(),
    scanned: (code) => {
      if (view() === "order") order.scanned(code);
      else if (view() === "article") article.scanned(code);
      else location.hash = addressOf("article", { isbn: code });
    },
  });
  found("skip").addEventListener("click", (event) => {
    event.preventDefault();
    found("content").focus();
  });
  // An address that was set just before the page was ready is shown already when the browser tells of it: showing it
  // again would ask everything twice.
  window.addEventListener("hashchange", () => {
    if (location.hash !== shownHash) show(views);
  });
  reports.begin();
  show(views);
  reloadAtMidnight();
}

start();
