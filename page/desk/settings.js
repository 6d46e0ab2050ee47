// desk.json, which the operator writes: the series, first values of the fields, and the page's language. A problem is a
// `path` of its words, and `values`.

import { urlBeside } from "../text/address.js";
import { isCatalogue } from "../article/catalogue.js";
import { wrongKey } from "../order/csv-form.js";
import { kindOf } from "./price-types.js";

const MOST_QUANTITIES = 8;

const isText = (value) => typeof value === "string";
const isObject = (value) => typeof value === "object" && value !== null && !Array.isArray(value);
const isCount = (value, most) => Number.isInteger(value) && value >= 1 && value <= most;
const isLike = (grammar) => (value) => isText(value) && grammar.test(value);

function isLanguage(value) {
  try {
    return isText(value) && Intl.getCanonicalLocales(value).length === 1;
  } catch {
    return false;
  }
}

/** Whether a value is a list of quantities, each greater than the one before it. */
function areQuantities(value) {
  if (!Array.isArray(value) || value.length > MOST_QUANTITIES) return false;
  return value.every((count, at) => isCount(count, 999_999) && !(value[at - 1] >= count));
}

// The keys of the shop: what each may be, the page's name for it, and its default.
const SHOP = {
  country: [isLike(/^[A-Z]{2}$/), "country"],
  currency: [isLike(/^[A-Z]{3}$/), "currency"],
  price_type: [isLike(/^\d\d$/), "type"],
  shop: [isText, "shop", ""],
  address: [isText, "address", ""],
  language: [isLanguage, "language", "en-GB"],
  quantities: [areQuantities, "quantities", []],
  catalogue: [isCatalogue, "catalogue", ""],
  recommended_type: [(value) => kindOf(value) === "retail", "retailType", ""],
};

// The same of a series.
const SERIES = {
  name: [isLike(/^[a-z0-9-]{1,32}$/), "name"],
  words: [isText, "words"],
  parts: [(value) => isCount(value, 9999), "parts", 1],
  number_offset: [(value) => value === 0 || isCount(value, 999_999_999), "offset", 0],
  mail: [isLike(/^[^\s@<>,;:?&"]+@[^\s@<>,;:?&"]+$/), "mail", ""],
  account: [isText, "account", ""],
  csv: [(value) => wrongKey(value) === undefined, "csv", {}],
};

// desk-prices reads this key, and reports what is wrong with it.
const OF_OTHERS = ["price_file"];

/** The right values of an object, under the page's names for its keys; `values` go into each problem. */
function readKeys(given, keys, known, problems, values) {
  const found = {};
  for (const [key, [isRight, name, otherwise = ""]] of Object.entries(keys)) {
    const isUsed = Object.hasOwn(given, key) && isRight(given[key]);
    found[name] = isUsed ? given[key] : otherwise;
    if (isUsed) continue;
    const path = Object.hasOwn(given, key) ? "settings.wrong" : "settings.lacks";
    const isOptional = keys[key].length > 2;
    if (path === "settings.wrong" || !isOptional) {
      problems.push({ path, values: { key, value: JSON.stringify(given[key]), ...values } });
    }
  }
  for (const key of Object.keys(given)) {
    if (!known.includes(key)) problems.push({ path: "settings.unknown", values: { key, ...values } });
  }
  return found;
}

/** The series with a name of their own; problems name the others. */
function readAllSeries(given, problems) {
  const found = [];
  for (const [at, item] of given.entries()) {
    const place = `series ${at + 1}: `;
    const series = readKeys(isObject(item) ? item : {}, SERIES, Object.keys(SERIES), problems, { place });
    if (found.some(({ name }) => name === series.name)) {
      problems.push({ path: "settings.twice", values: { place, value: JSON.stringify(series.name) } });
    } else if (series.name !== "") found.push(series);
  }
  return found;
}

function settingsOf(given, problems) {
  const known = ["series", ...Object.keys(SHOP), ...OF_OTHERS];
  const settings = readKeys(given, SHOP, known, problems, { place: "" });
  if (Array.isArray(given.series)) return { series: readAllSeries(given.series, problems), ...settings };
  problems.push({ path: "settings.lacks", values: { place: "", key: "series" } });
  return { series: [], ...settings };
}

/** The right settings of a text, and what is wrong with the others. */
export function readSettings(text) {
  const problems = [];
  try {
    const given = JSON.parse(text);
    if (isObject(given)) return { settings: settingsOf(given, problems), problems };
    return { settings: settingsOf({}, []), problems: [{ path: "settings.notObject", values: {} }] };
  } catch (fault) {
    return { settings: settingsOf({}, []), problems: [{ path: "settings.notJson", values: { fault: fault.message } }] };
  }
}

/** The settings of the page's desk.json, with the problems. */
export async function loadSettings() {
  try {
    const reply = await fetch(urlBeside("desk.json"));
    if (reply.ok) return readSettings(await reply.text());
    return { settings: settingsOf({}, []), problems: [{ path: "settings.unread", values: { status: reply.status } }] };
  } catch {
    return { settings: settingsOf({}, []), problems: [{ path: "settings.unreached", values: {} }] };
  }
}

/** The words of a series, or else its name. */
export function wholesalerOf(settings, name) {
  return settings.series.find((series) => series.name === name)?.words ?? name;
}
