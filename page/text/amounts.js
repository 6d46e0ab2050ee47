// Amounts of the desk, texts such as 11.500, in the page's language. They never become binary numbers: Intl takes the
// text, and sums are in whole thousandths.

import { formatter } from "./wording.js";

// How many decimals a currency has; asking takes long.
const decimals = new Map();

function usualDecimals(currency) {
  if (!decimals.has(currency)) {
    const { maximumFractionDigits } = formatter(Intl.NumberFormat, { style: "currency", currency }).resolvedOptions();
    decimals.set(currency, maximumFractionDigits);
  }
  return decimals.get(currency);
}

/** As many decimals as the currency has, or more if the amount needs them. */
function decimalsOf(amount, currency) {
  const needed = (amount.split(".")[1] ?? "").replace(/0+$/, "").length;
  return Math.max(usualDecimals(currency), needed);
}

function inLanguage(amount, currency, style) {
  const count = decimalsOf(amount, currency);
  const digits = { minimumFractionDigits: count, maximumFractionDigits: count };
  return formatter(Intl.NumberFormat, { ...style, ...digits }).format(amount);
}

/** An amount with its currency, such as £11.50 or 24,00 €. */
export function money(amount, currency) {
  return inLanguage(amount, currency, { style: "currency", currency });
}

/** An amount with its currency and its sign, such as +£9.85. */
export function signedMoney(amount, currency) {
  return inLanguage(amount, currency, { style: "currency", currency, signDisplay: "exceptZero" });
}

/** The same without the currency. */
export function bareMoney(amount, currency) {
  return inLanguage(amount, currency, {});
}

function thousandths(amount) {
  const [whole, decimals = ""] = amount.split(".");
  return BigInt(whole + decimals.padEnd(3, "0"));
}

function amountOf(count) {
  const digits = String(count < 0n ? -count : count).padStart(4, "0");
  return `${count < 0n ? "-" : ""}${digits.slice(0, -3)}.${digits.slice(-3)}`;
}

/** What so many copies cost, exactly. */
export function times(amount, copies) {
  return amountOf(thousandths(amount) * BigInt(copies));
}

/** The sum of amounts, exactly. */
export function sumOf(amounts) {
  return amountOf(amounts.reduce((sum, amount) => sum + thousandths(amount), 0n));
}

/** By how much one amount exceeds another; it may be negative. */
export function difference(one, other) {
  return amountOf(thousandths(one) - thousandths(other));
}

/** Whether an amount is zero. */
export function isNothing(amount) {
  return thousandths(amount) === 0n;
}

/** Sorts amounts, the least first, and `null`, no price, last. */
export function compareAmounts(one, other) {
  if (one === null || other === null) return (one === null) - (other === null);
  const [first, second] = [thousandths(one), thousandths(other)];
  return first < second ? -1 : Number(first > second);
}
