// What the package costs in node, each the least of several series, beside capi/speed.c.
//
//     node web/speed.mjs TICKS < SCENE    microseconds a tick of a settle of the scene, of a world,
//                                         and of its values; nanoseconds of a call
import { readFileSync } from "node:fs";
import { init, Peer, Scene } from "./out/src/index.js";

const SERIES = 5;
const CALLS = 100000;
const WORLDS = 2000;

/** The least time of a call in milliseconds, of several series of so many calls. */
function least(calls, call) {
  let time = Infinity;
  for (let series = 0; series < SERIES; series++) {
    const begun = performance.now();
    for (let number = 0; number < calls; number++) call();
    time = Math.min(time, (performance.now() - begun) / calls);
  }
  return time;
}

await init();
const ticks = Number(process.argv[2]);
const scene = Scene.read(readFileSync(0, "utf8"));
const settle = least(1, () => {
  const peer = new Peer(scene, { player: 0 });
  peer.advance(ticks);
  peer.settle();
  peer.free();
});
const peer = new Peer(scene, { player: 0 });
peer.advance(ticks);
peer.settle();
const world = least(WORLDS, () => peer.world(ticks));
const values = least(WORLDS, () => peer.world(ticks).values);
const call = least(CALLS, () => peer.reached);
console.log(`settle, ${ticks} ticks: ${((1000 * settle) / ticks).toFixed(2)} us a tick`);
console.log(`world: ${(1000 * world).toFixed(1)} us; with values: ${(1000 * values).toFixed(1)} us`);
console.log(`reached: ${(1e6 * call).toFixed(0)} ns`);
