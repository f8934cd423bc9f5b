/** Numbers: JS numbers are metres, seconds, kilograms and radians; BigInts are units of 2^-24. */

import { wrong } from "./arguments.js";

/** @typedef {number | bigint} Num */
/** @typedef {Float64Array | Float32Array | BigInt64Array} Pair a typed array of length 2 */
/** @typedef {readonly [Num, Num] | Pair | {readonly x: Num, readonly y: Num}} Vector */

/** 1, in units of 2^-24. */
export const ONE = 2 ** 24;
export const TICKS_PER_SECOND = 64;

/** Beyond the range of each call, so that the core refuses it. */
const BEYOND = 2n ** 62n;

/**
 * A number in units of 2^-24, the nearest one; a BigInt is such a number itself. One that is too
 * large for 64 bits is some number that the core refuses. NaN, and what is no number, is a
 * TypeError.
 * @param {Num} value
 * @param {string} [what] the name that the error gives it
 */
export function raw(value, what = "value") {
  if (typeof value === "bigint") {
    return value > BEYOND ? BEYOND : value < -BEYOND ? -BEYOND : value;
  }
  if (typeof value !== "number" || Number.isNaN(value)) throw wrong(what, "a number", value);
  const units = Math.round(value * ONE); // the product is exact
  if (Math.abs(units) > Number(BEYOND)) return units > 0 ? BEYOND : -BEYOND;
  return BigInt(units);
}

/**
 * Units of 2^-24 as a number in metres, the nearest one. What is no BigInt is a TypeError.
 * @param {bigint} value
 */
export function metres(value) {
  if (typeof value !== "bigint") throw wrong("value", "a BigInt", value);
  return Number(value) / ONE;
}

/**
 * Whether it is an array, or a typed one.
 * @param {any} value
 */
const isList = (value) => Array.isArray(value) || (ArrayBuffer.isView(value) && "length" in value);

/**
 * A vector in units of 2^-24. What is none is a TypeError.
 * @param {Vector} value
 * @param {string} what the name that the error gives it
 * @returns {[bigint, bigint]}
 */
export function rawVector(value, what) {
  const given = /** @type {any} */ (value);
  const isVector = isList(given) ? given.length === 2 : typeof given === "object" && given !== null;
  if (!isVector) throw wrong(what, "[x, y] or {x, y}", value);
  const [x, y] = isList(given) ? given : [given.x, given.y];
  return [raw(x, `${what}.x`), raw(y, `${what}.y`)];
}

/**
 * A count, or the greatest one if it is beyond that. What is no count is a TypeError.
 * @param {number} value
 * @param {number} greatest
 * @param {string} what the name that the error gives it
 */
export function count(value, greatest, what) {
  if (Number.isInteger(value) && value >= 0) return Math.min(value, greatest);
  throw wrong(what, "a whole number from 0 on", value);
}

export const GREATEST_U8 = 2 ** 8 - 1;
export const GREATEST_U16 = 2 ** 16 - 1;
export const GREATEST_U32 = 2 ** 32 - 1;

/** Half of pi as a sum, so that the first part times a count of quarter turns is exact. */
const QUARTER_TURN = [1.5707963267341256, 6.077100506506192e-11];
const TERMS = 18;

/** Beyond this many radians the nearest direction is not found any more. */
const GREATEST_ANGLE = 2 ** 20;

/**
 * The cosine and the sine of an angle in radians, in units of 2^-24. They are made by sums and
 * products alone, on which all engines agree; on Math.cos they need not. An angle is from -2^20 to
 * 2^20.
 * @param {number} angle
 * @returns {[bigint, bigint]}
 */
export function direction(angle) {
  if (typeof angle !== "number" || !(Math.abs(angle) <= GREATEST_ANGLE)) {
    throw wrong("angle", "a number from -2^20 to 2^20", angle);
  }
  const quarters = Math.round(angle / (QUARTER_TURN[0] + QUARTER_TURN[1]));
  const rest = angle - quarters * QUARTER_TURN[0] - quarters * QUARTER_TURN[1];
  let cosine = 1;
  let sine = 1;
  for (let k = TERMS; k > 0; k -= 2) {
    cosine = 1 - (cosine * rest * rest) / (k * (k - 1));
    sine = 1 - (sine * rest * rest) / (k * (k + 1));
  }
  sine *= rest;
  const turned = [[cosine, sine], [-sine, cosine], [-cosine, -sine], [sine, -cosine]];
  const [x, y] = turned[((quarters % 4) + 4) % 4];
  return [raw(x), raw(y)];
}
