// What the tests share: the package as web/build made it, and a scene of two players.
import assert from "node:assert/strict";
import { init, PfError, Scene } from "../out/src/index.js";

export * from "../out/src/index.js";
await init();

/** A floor, a circle of player 0 and a turned box of player 1: bodies 0, 1 and 2. */
export function sceneOfTwo() {
  const scene = new Scene();
  scene.box({ at: [0, -1], half: [20, 1], mass: 0 });
  scene.circle({ at: [0, 3], radius: 0.5, owner: 0 });
  scene.box({ at: [3, 3], half: [0.5, 0.5], angle: 0.7, owner: 1 });
  return scene;
}

/** Whether a call is refused with a name of pf.h. */
export function refuses(name, call) {
  assert.throws(call, (error) => error instanceof PfError && error.name === name, name);
}
