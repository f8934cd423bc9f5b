/** One side of a match. */

import { checkOptions, wrong } from "./arguments.js";
import { loaded, Owned, PF_SMALL_BUFFER } from "./core.js";
import { bytesOf, FRAME_BYTES } from "./frames.js";
import { count, GREATEST_U16, GREATEST_U32, GREATEST_U8, raw, rawVector } from "./numbers.js";
import { Scene } from "./scene.js";
import { World } from "./world.js";

/** @typedef {import("./numbers.js").Num} Num */
/** @typedef {import("./numbers.js").Vector} Vector */

const PUTS = /** @type {const} */ (["new", "same", "greater", "lesser"]);
/** More bytes than a frame has, so that a longer one is refused as it is. */
const GREATEST_LENGTH = 64;

/** @param {Peer} peer */
function keyOf(peer) {
  if (!(peer instanceof Peer)) throw wrong("other", "a Peer", peer);
  return peer.key;
}

/** @param {World} into */
function fillable(into) {
  if (!(into instanceof World)) throw wrong("into", "a World", into);
  return into;
}

/** Holds the commands that a player issues and takes, and simulates the match. */
export class Peer extends Owned {
  /**
   * @param {Scene} scene which is copied
   * @param {{player: number, ring?: number}} options the player, 0 to 7, which has to be given:
   *   where two peers of a match issue as one player, commands get lost; and how many of the last
   *   worlds are kept, 1 to 64, or 16 if it is not given: a frame that is late by fewer ticks costs
   *   only the ticks since its own
   */
  constructor(scene, options) {
    super();
    if (!(scene instanceof Scene)) throw wrong("scene", "a Scene", scene);
    checkOptions("Peer", options, ["player"], ["ring"]);
    const { player, ring = 16 } = options;
    const core = loaded();
    this.player = count(player, GREATEST_U8, "player");
    this.ring = count(ring, GREATEST_U32, "ring");
    core.call("peer_new", ...scene.key, this.player, this.ring, core.output);
    this.key = core.toldKey();
    const key = this.key;
    this.owns(() => core.code("peer_free", ...key));
  }

  /**
   * Gives a body of the player an impulse, mass times metres a second. It acts in the tick that the
   * next `advance` adds, as what the next three calls do. Each returns the frame to send to all
   * others.
   * @param {number} body
   * @param {Vector} impulse
   */
  push(body, impulse) {
    return this.#issue("push", body, ...rawVector(impulse, "impulse"));
  }

  /**
   * Gives it an angular impulse, inertia times radians a second.
   * @param {number} body
   * @param {Num} impulse
   */
  turn(body, impulse) {
    return this.#issue("turn", body, raw(impulse, "impulse"));
  }

  /**
   * Stops it, and its spin.
   * @param {number} body
   */
  stop(body) {
    return this.#issue("stop", body);
  }

  /**
   * Puts it somewhere, at rest.
   * @param {number} body
   * @param {Vector} at
   */
  place(body, at) {
    return this.#issue("place", body, ...rawVector(at, "at"));
  }

  /**
   * @param {string} kind
   * @param {number} body
   * @param {...bigint} numbers
   */
  #issue(kind, body, ...numbers) {
    const core = loaded();
    this.#call(kind, count(body, GREATEST_U16, "body"), ...numbers, core.output);
    return core.bytes(core.output, FRAME_BYTES).slice();
  }

  /**
   * Takes a frame that has come: late or not, in any order, more than once.
   * @param {Uint8Array | ArrayBuffer} frame
   */
  take(frame) {
    const core = loaded();
    const bytes = bytesOf(frame).subarray(0, GREATEST_LENGTH);
    core.bytes(core.input, bytes.length).set(bytes);
    this.#call("take", core.input, BigInt(bytes.length), core.output);
    return PUTS[core.told()];
  }

  /** Takes all commands that another peer holds, and returns how many changed this one.
   * @param {Peer} other */
  merge(other) {
    return this.#told("merge", ...keyOf(other));
  }

  /**
   * The same, whatever the other one has sealed.
   * @param {Peer} other
   */
  mergeAlone(other) {
    return this.#told("merge_alone", ...keyOf(other));
  }

  /**
   * The frames that it holds for this tick and later ones: all that a replay needs, if nothing was
   * sealed.
   * @param {number} [from]
   */
  frames(from = 0) {
    const core = loaded();
    const tick = count(from, GREATEST_U32, "from");
    const code = core.code("peer_frames", ...this.key, tick, core.input, 0n, core.output);
    if (code !== PF_SMALL_BUFFER) core.check(code, "peer_frames");
    const frames = core.told();
    const at = core.allocate(frames * FRAME_BYTES);
    try {
      this.#call("frames", tick, at, BigInt(frames), core.output);
      const front = Array.from({ length: frames }, (_, number) => at + number * FRAME_BYTES);
      return front.map((place) => core.bytes(place, FRAME_BYTES).slice());
    } finally {
      core.free(at);
    }
  }

  /** Goes on by some ticks, and returns the reached one. It simulates nothing: `settle` does.
   * @param {number} [ticks] */
  advance(ticks = 1) {
    return this.#told("advance", count(ticks, GREATEST_U32, "ticks"));
  }

  /** Simulates up to the reached tick, and again what late commands have changed. */
  settle() {
    return this.#told("settle");
  }

  /** Forgets what came before a tick: frames of before are refused from then on.
   * @param {number} tick */
  seal(tick) {
    this.#call("seal", count(tick, GREATEST_U32, "tick"));
  }

  get reached() {
    return this.#told("reached");
  }

  /** The greatest tick whose world is kept. */
  get settled() {
    return this.#told("settled");
  }

  /** The tick that was sealed, at first 0. */
  get horizon() {
    return this.#told("horizon");
  }

  /** How many ticks were simulated, and for how many pairs points were computed. */
  get counts() {
    const core = loaded();
    this.#call("meter", core.output);
    return { ticks: core.toldLong(), collides: core.toldLong(8) };
  }

  /**
   * The world at a tick, the reached one if none is given. It is a copy: what the peer does later
   * does not change it, and each call makes another one, unless a world is given to be filled.
   * @param {number} [tick] from the horizon to the reached one
   * @param {World} [into] which loses what it had; where the call fails it stays as it was
   */
  world(tick = this.reached, into = new World()) {
    const at = count(tick, GREATEST_U32, "tick");
    return fillable(into).fill(tick, "peer_world", (...buffers) =>
      loaded().code("peer_world", ...this.key, at, ...buffers),
    );
  }

  /**
   * The world at the horizon, as a copy.
   * @param {World} [into] as that of `world`
   */
  base(into = new World()) {
    return fillable(into).fill(this.horizon, "peer_base", (...buffers) =>
      loaded().code("peer_base", ...this.key, ...buffers),
    );
  }

  /**
   * @param {string} name
   * @param {...any} parameters
   */
  #call(name, ...parameters) {
    loaded().call(`peer_${name}`, ...this.key, ...parameters);
  }

  /**
   * @param {string} name
   * @param {...any} parameters
   */
  #told(name, ...parameters) {
    const core = loaded();
    this.#call(name, ...parameters, core.output);
    return core.told();
  }
}
