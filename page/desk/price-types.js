// Price types of ONIX, code list 58: who pays such a price.

// The supplier's net prices: what the shop pays for a copy.
const NET = ["05", "06", "07", "08", "09", "15", "17", "25", "27"];

// What a customer pays: recommended, fixed and publishers' retail prices.
const RETAIL = [
  "01", "02", "03", "04", "11", "12", "13", "14", "21", "22", "23", "24", "31", "33", "34", "41", "42",
];

/** `net`, `retail`, or `other` for a type that is neither or unknown. */
export function kindOf(type) {
  if (NET.includes(type)) return "net";
  return RETAIL.includes(type) ? "retail" : "other";
}
