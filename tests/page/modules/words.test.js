// The words of each language of the page.

import assert from "node:assert/strict";
import { readdirSync, readFileSync } from "node:fs";
import { afterEach, test } from "node:test";

import { say, sayCount, sayParts, speak } from "../page/text/wording.js";
import { texts as de } from "../page/words/de.js";
import { texts as en } from "../page/words/en.js";

afterEach(() => speak("en-GB", en));

/** The texts of a table by path. */
function textsOf(table, path = "") {
  return Object.entries(table).flatMap(([key, value]) =>
    typeof value === "string" ? [[path + key, value]] : textsOf(value, `${path}${key}.`),
  );
}

const bracesOf = (text) => [...new Set(text.match(/\{\w+\}/g) ?? [])].sort();

test("German has each text that English has, with the same in braces", () => {
  const [one, other] = [textsOf(en), textsOf(de)];
  assert.deepEqual(other.map(([path]) => path).sort(), one.map(([path]) => path).sort());
  const german = Object.fromEntries(other);
  for (const [path, text] of one) assert.deepEqual(bracesOf(german[path]), bracesOf(text), path);
});

test("no text is empty, and German is not English, nor calls a message by two words", () => {
  for (const [path, text] of [...textsOf(en), ...textsOf(de)]) assert.match(text, /^(?!.*Nachricht).*\S/s, path);
  const english = Object.fromEntries(textsOf(en));
  // Names, signs and forms for numbers may be the same in both.
  const same = textsOf(de).filter(([path, text]) => text === english[path] && /[a-z]{3}/.test(text.replaceAll(/\{\w+\}/g, "")));
  assert.deepEqual(same.map(([path]) => path), ["page.name"]);
});

test("each text that index.html names is there", () => {
  const html = readFileSync("../page/index.html", "utf8");
  const paths = [...html.matchAll(/data-(?:text|label)="([^"]+)"/g)].map(([, path]) => path);
  assert.ok(paths.length > 20);
  for (const path of paths) assert.equal(typeof say(path), "string", path);
});

test("each text that a module names is there", () => {
  const files = readdirSync("../page", { recursive: true }).filter((name) => name.endsWith(".js") && !name.startsWith("words/"));
  const sources = files.map((name) => readFileSync(`../page/${name}`, "utf8")).join("\n");
  const paths = [...sources.matchAll(/\bsay(?:Parts|Count)?\(\s*"([a-zA-Z.]+)"/g)].map(([, path]) => path);
  assert.ok(paths.length > 60);
  for (const path of paths) assert.doesNotThrow(() => (path in counted ? sayCount(path, 2) : say(path)), path);
});

const counted = Object.fromEntries(
  textsOf(en).filter(([path]) => path.endsWith(".one")).map(([path]) => [path.slice(0, -4), true]),
);

test("words of a language, and of one that the page has not", () => {
  for (const [language, texts] of [["de-AT", de], ["de", de], ["en-US", en], ["fr", en], ["constructor", en]]) {
    speak(language);
    assert.equal(say("order.view"), texts.order.view, language);
  }
  speak("en-GB");
});

test("forms for counts", () => {
  assert.equal(sayCount("article.copies", 1), "1 copy");
  assert.equal(sayCount("article.copies", 0), "0 copies");
  assert.equal(sayCount("article.copies", 1000), "1,000 copies");
  speak("de");
  assert.equal(sayCount("article.copies", 1), "1 Exemplar");
  assert.equal(sayCount("article.copies", 1000), "1.000 Exemplare");
});

test("what stands in braces is filled in once, and what nobody gives stays", () => {
  speak("en-GB");
  assert.equal(say("order.onPaper.to", { text: "{one}" }), "To: {one}");
  assert.equal(say("order.onPaper.to", {}), "To: {text}");
  const node = { isNode: true };
  assert.deepEqual(sayParts("order.onPaper.to", { text: node }), ["To: ", node, ""]);
  assert.throws(() => say("nothing"), /nothing/);
});
