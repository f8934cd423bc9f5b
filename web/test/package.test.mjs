// What stands in web/out beside the sources.
import assert from "node:assert/strict";
import { existsSync, readFileSync } from "node:fs";
import test from "node:test";
import vm from "node:vm";
import * as own from "./common.mjs";

const OUT = new URL("../out/", import.meta.url);
const isOfPackage = (name) => !["refuses", "sceneOfTwo"].includes(name);
const about = JSON.parse(readFileSync(new URL("package.json", OUT), "utf8"));

test("resolvers of each age find the same files", () => {
  const { ".": whole, ...others } = about.exports;
  assert.deepEqual(whole, { types: about.types, default: about.main });
  for (const file of [about.main, about.types, ...Object.values(others)]) {
    assert.ok(existsSync(new URL(file, OUT)), file);
  }
});

test("the core says what of it is proved, as the file beside it does", () => {
  const made = readFileSync(new URL("made", OUT), "utf8");
  const from = { "unproved": "unproved sources", "proved for x86-64 Linux": "proved module" };
  assert.ok(made.includes(` compiled from the ${from[own.build()]} of commit `), own.build());
});

/** A match, whose call is given the package. */
async function play(buyosen) {
  await buyosen.init();
  const scene = new buyosen.Scene();
  scene.box({ at: [0, -1], half: [20, 1], mass: 0 });
  const ball = scene.circle({ at: [0, 3], radius: 0.5, owner: 0 });
  const peer = new buyosen.Peer(scene, { player: 0 });
  peer.push(ball, [6, 0]);
  peer.advance(50);
  peer.settle();
  return [buyosen.build(), peer.world().hash()].join(" ");
}

test("the classic script plays where nothing is imported or fetched", async () => {
  const page = vm.createContext({ URL });
  vm.runInContext(readFileSync(new URL("buyosen.classic.js", OUT), "utf8"), page);
  const refused = { name: "TypeError", message: /^source: bytes, .* is wanted, not 5$/ };
  await assert.rejects(page.buyosen.init(5), refused);
  assert.throws(() => page.buyosen.initSync(5), refused);
  assert.deepEqual(Object.keys(page.buyosen).sort(), Object.keys(own).filter(isOfPackage).sort());
  assert.equal(await vm.runInContext(`(${play})(buyosen)`, page), await play(own));
});
