// Exact numbers and their texts. A number is a JavaScript number where that is exact, else a BigInt; < and > compare both kinds.
import { UNIT_DIGITS } from "./format.js";

const exact = (big) => (BigInt.asIntN(53, big) === big ? Number(big) : big);

export function plus(a, b) {
  const sum = typeof a === "number" && typeof b === "number" ? a + b : NaN;
  return Number.isSafeInteger(sum) ? sum : exact(BigInt(a) + BigInt(b));
}

export const minus = (a, b) => plus(a, -b);

// The number that zigzag spells.
export function unzigzag(n) {
  if (typeof n === "number") return n % 2 ? -(n + 1) / 2 : n / 2;
  return exact(n & 1n ? -((n + 1n) >> 1n) : n >> 1n);
}

// A varint that is whole, from one place to another.
function spelled(bytes, from, to) {
  let number = 0n;
  for (let at = to - 1; at >= from; at--) number = (number << 7n) | BigInt(bytes[at] & 127);
  return exact(number);
}

// A number of up to 7 bytes is exact without a BigInt.
const SHORT = 7;

// Reads numbers one after another, exactly. All bytes of a number have to be there.
export class Reader {
  constructor(bytes, at) {
    Object.assign(this, { bytes, at });
  }

  unsigned() {
    const from = this.at;
    let number = 0, scale = 1, byte;
    do {
      byte = this.bytes[this.at++];
      number += (byte & 127) * scale;
      scale *= 128;
    } while (byte >= 128);
    return this.at - from <= SHORT ? number : spelled(this.bytes, from, this.at);
  }

  signed() {
    return unzigzag(this.unsigned());
  }

  skip(numbers) {
    let at = this.at;
    for (let left = numbers; left > 0; ) if (this.bytes[at++] < 128) left--;
    this.at = at;
  }
}

// A coordinate of a precision, as a decimal.
export function decimal(number, precision) {
  const sign = number < 0 ? "-" : "", digits = String(number).replace("-", "");
  if (precision <= 0) return digits === "0" ? "0" : sign + digits + "0".repeat(-precision);
  const padded = digits.padStart(precision + 1, "0");
  return `${sign}${padded.slice(0, -precision)}.${padded.slice(-precision)}`;
}

// A number of units as a decimal, with as many digits as the precision has, or more where they aren't 0.
export function ofUnits(units, precision) {
  const [whole, digits] = decimal(units, UNIT_DIGITS).split(".");
  const kept = digits.replace(/0+$/, "").padEnd(Math.max(0, precision), "0");
  return kept ? `${whole}.${kept}` : whole.replace(/^-0$/, "0");
}

const POWERS = Array.from({ length: 16 }, (_, power) => 10 ** power);

export function inUnits(number, precision) {
  const power = POWERS[UNIT_DIGITS - precision], product = typeof number === "number" ? number * power : NaN;
  return Number.isSafeInteger(product) ? product : exact(BigInt(number) * BigInt(power));
}

export const number = (n) => n.toLocaleString("en");

const SEVERAL = { vertex: "vertices", box: "boxes", "list of ids": "lists of ids" };

// Both are numbers of the page: "1 member", "2,286 boxes".
export const many = (n, word) => `${number(n)} ${n === 1 ? word : (SEVERAL[word] ?? `${word}s`)}`;
