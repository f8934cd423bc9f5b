import assert from "node:assert/strict";
import test from "node:test";
import { direction, metres, ONE, raw } from "./common.mjs";

test("metres become the nearest units", () => {
  for (const [value, units] of [
    [1, 16777216n],
    [-0.5, -8388608n],
    [2 ** -24, 1n],
    [0.1, 1677722n],
    [2 ** -26, 0n],
    [2 ** 38, 2n ** 62n],
    [1e300, 2n ** 62n],
    [-Infinity, -(2n ** 62n)],
    [5n, 5n],
    [2n ** 70n, 2n ** 62n],
  ]) {
    assert.equal(raw(value), units);
  }
});

test("what is no number is a TypeError", () => {
  for (const wrong of [NaN, "1", null, undefined, [1]]) assert.throws(() => raw(wrong), TypeError);
});

test("units become metres and the same units again", () => {
  for (let units = 1n; units < 2n ** 53n; units = units * 3n + 1n) {
    assert.equal(raw(metres(units)), units);
    assert.equal(raw(metres(-units)), -units);
  }
});

test("a direction is the nearest one", () => {
  for (let step = -3000; step < 3000; step++) {
    const angle = step * 0.013;
    const [cosine, sine] = direction(angle).map(Number);
    assert.ok(Math.abs(cosine - Math.cos(angle) * ONE) < 0.501);
    assert.ok(Math.abs(sine - Math.sin(angle) * ONE) < 0.501);
  }
});
