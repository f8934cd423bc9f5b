/** The scenes of the page. A view is the left, right, low and high end of what is seen. */

import { Scene } from "../src/index.js";

/** @typedef {{scene: Scene, view: [number, number, number, number]}} Stage */

const FIXED = { mass: 0, friction: 0.6 };

/**
 * A floor, and a wall on each side.
 * @param {Scene} scene
 * @param {number} wide
 * @param {number} high
 */
function addGround(scene, wide, high) {
  scene.box({ at: [0, -3], half: [wide + 30, 3], ...FIXED });
  for (const side of [-1, 1]) {
    scene.box({ at: [side * (wide + 0.5), high], half: [0.5, high + 2], ...FIXED });
  }
}

/**
 * @returns {Stage}
 */
function tower() {
  const scene = new Scene();
  addGround(scene, 9, 12);
  for (let floor = 0; floor < 11; floor++) {
    const owner = floor % 2;
    const [x, wide] = owner ? [-0.03, 0.95] : [0.03, 0.75];
    scene.box({ at: [x, 0.4 + 0.8 * floor], half: [wide, 0.4], friction: 0.6, owner });
  }
  for (const owner of [0, 1]) {
    const side = owner ? 1 : -1;
    scene.circle({ at: [side * 5, 0.75], radius: 0.75, mass: 3, owner });
    scene.box({ at: [side * 7.6, 0.5], half: [0.5, 0.5], owner });
    scene.box({ at: [side * 7.6, 1.4], half: [0.4, 0.4], owner: 1 - owner });
  }
  return { scene, view: [-9.6, 9.6, -0.7, 11] };
}

/**
 * @param {number} rows
 * @param {number} wide
 * @returns {Stage}
 */
function pyramid(rows, wide) {
  const scene = new Scene();
  addGround(scene, wide, rows + 4);
  for (let row = 0; row < rows; row++) {
    for (let column = 0; column < rows - row; column++) {
      const x = (column - (rows - row - 1) / 2) * 1.04;
      scene.box({ at: [x, 0.5 + row], half: [0.5, 0.5], owner: (row + column) % 2 });
    }
  }
  for (const owner of [0, 1]) {
    const x = (owner ? 1 : -1) * (wide - 1.6);
    scene.circle({ at: [x, 0.9], radius: 0.9, mass: 6, owner });
  }
  return { scene, view: [-wide - 0.6, wide + 0.6, -0.7, (wide * 2 + 1.2) * 0.58] };
}

/**
 * Numbers from 0 to 1, the same in every match.
 * @param {number} seed
 */
function dice(seed) {
  return () => {
    seed = (Math.imul(seed, 1664525) + 1013904223) >>> 0;
    return (seed >>> 8) / 2 ** 24;
  };
}

/**
 * @returns {Stage}
 */
function pile() {
  const scene = new Scene();
  const next = dice(7);
  addGround(scene, 8, 12);
  for (const [side, y] of [[-1, 3.2], [1, 5.2]]) {
    scene.box({ at: [side * 4.2, y], half: [2.4, 0.2], angle: side * 0.32, ...FIXED });
  }
  for (let body = 0; body < 60; body++) {
    const x = ((body % 8) - 3.5) * 1.75 + (next() - 0.5) * 0.4;
    const size = 0.3 + 0.3 * next();
    const placed = { at: /** @type {[number, number]} */ ([x, 6.5 + Math.floor(body / 8) * 1.5]) };
    const options = { ...placed, mass: 4 * size * size, friction: 0.45, owner: body % 2 };
    if (body % 3 === 0) scene.circle({ ...options, radius: size });
    else scene.box({ ...options, half: [size, 0.28 + 0.25 * next()], angle: next() * 3 });
  }
  return { scene, view: [-8.6, 8.6, -0.7, 9.8] };
}

/** @type {Record<string, () => Stage>} */
export const SCENES = {
  Tower: tower,
  Pyramid: () => pyramid(9, 9.4),
  Pile: pile,
  "210 boxes": () => pyramid(20, 17.5),
};
