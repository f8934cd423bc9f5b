/**
 * Buyosen for JavaScript: a deterministic 2D physics core for rollback netcode.
 *
 *     import { init, Peer, Scene } from "buyosen";
 *     await init();
 *     const scene = new Scene({ gravity: [0, -10] });
 *     scene.box({ at: [0, -1], half: [20, 1], mass: 0 });
 *     const ball = scene.circle({ at: [0, 3], radius: 0.5, owner: 0 });
 *     const peer = new Peer(scene, { player: 0 });
 *     socket.binaryType = "arraybuffer";
 *     socket.send(peer.push(ball, [6, 0])); // a frame of 27 bytes for all others
 *     socket.onmessage = ({ data }) => peer.take(data); // theirs, late or not, in any order
 *     const step = () => { peer.advance(); peer.settle(); draw(peer.world().values); };
 *
 * A game calls `step` 64 times a second, by the time that has passed: timers of browsers drift.
 *
 * Peers made of the same scene that have taken the same commands show the same worlds, bit for bit.
 *
 * A JS number is in metres, seconds, kilograms and radians, and becomes a whole number in units of
 * 2^-24, the nearest one; a BigInt is such a whole number itself. A vector is [x, y], a typed array
 * of length 2, or {x, y}.
 *
 * A call that the core refuses throws a PfError with a name of pf.h, as "PF_NOT_OWNER". It has
 * changed nothing, but what pf.h says of a settle and a seal that are out of memory. An argument of
 * a wrong kind, or an option that is unknown or missing, is a TypeError that names it.
 */
export { build, init, initSync, PfError } from "./core.js";
export { FRAME_BYTES, fromHex, readFrame, toHex } from "./frames.js";
export { direction, metres, ONE, raw, TICKS_PER_SECOND } from "./numbers.js";
export { Peer } from "./peer.js";
export { Scene } from "./scene.js";
export { COSINE, SINE, SPIN, STRIDE, VX, VY, World, X, Y } from "./world.js";
