/** The bodies and contacts of a tick. */

import { wrong } from "./arguments.js";
import { loaded, PF_SMALL_BUFFER, PF_UNKNOWN_BODY } from "./core.js";
import { count, GREATEST_U32, metres, ONE } from "./numbers.js";

/** The sizes of pf_body and pf_contact, and where a body says whether it is awake. */
const BODY_BYTES = 64;
const BODY_WORDS = BODY_BYTES / Int32Array.BYTES_PER_ELEMENT;
const AWAKE = 15;
const CONTACT_BYTES = 24;

/** The numbers of a body in `World.values`: body k's begin at k * STRIDE. */
export const X = 0;
export const Y = 1;
export const COSINE = 2;
export const SINE = 3;
export const VX = 4;
export const VY = 5;
export const SPIN = 6;
export const STRIDE = 7;

const WORD = 2 ** 32;
const FNV_OFFSET = 0x811c9dc5;
const FNV_PRIME = 0x01000193;

/** Memory of the core, which grows: a call writes to it what a world then copies. */
class Buffer {
  at = 0;
  /** How many elements it has room for. */
  room = 0;

  /**
   * @param {number} size the bytes of an element
   */
  constructor(size) {
    this.size = size;
  }

  /**
   * Makes room for so many elements. What it had is gone.
   * @param {number} elements
   */
  grow(elements) {
    if (elements <= this.room) return;
    const at = loaded().allocate(elements * this.size);
    if (this.room > 0) loaded().free(this.at);
    this.at = at;
    this.room = elements;
  }

  /**
   * The first elements, copied: into an array that has their length, or else into a new one.
   * @param {number} elements
   * @param {Int32Array} into
   */
  copy(elements, into) {
    const length = (elements * this.size) / Int32Array.BYTES_PER_ELEMENT;
    const words = new Int32Array(loaded().buffer, this.at, length);
    if (into.length !== length) return words.slice();
    into.set(words);
    return into;
  }
}

const writtenBodies = new Buffer(BODY_BYTES);
const writtenContacts = new Buffer(CONTACT_BYTES);

/** A world, in JavaScript's memory. Nothing changes it but a call that is given it to be filled. */
export class World {
  #bodies = new Int32Array(0);
  #contacts = new Int32Array(0);
  /** @type {{values: Float64Array, awake: Uint8Array} | null} */
  #numbers = null;
  /** The tick, and how many bodies and contacts there are. */
  tick = 0;
  bodyCount = 0;
  contactCount = 0;

  /**
   * Fills it by a call, which is made again where the memory was too small.
   * @internal
   * @param {number} tick
   * @param {string} name
   * @param {(...buffers: (number | bigint)[]) => number} call
   */
  fill(tick, name, call) {
    const core = loaded();
    const [bodies, contacts] = [writtenBodies, writtenContacts];
    let code = PF_SMALL_BUFFER;
    while (code === PF_SMALL_BUFFER) {
      const front = [bodies.at || core.output, BigInt(bodies.room)];
      code = call(...front, contacts.at || core.output, BigInt(contacts.room), core.output);
      if (code === PF_SMALL_BUFFER) {
        const [bodyCount, contactCount] = [core.told(), core.told(8)];
        bodies.grow(bodyCount);
        contacts.grow(contactCount + (contactCount >> 1));
      }
    }
    core.check(code, name);
    this.bodyCount = core.told();
    this.contactCount = core.told(8);
    this.tick = tick;
    this.#bodies = bodies.copy(this.bodyCount, this.#bodies);
    this.#contacts = contacts.copy(this.contactCount, this.#contacts);
    this.#numbers = null;
    return this;
  }

  /** x, y, cosine, sine, vx, vy and spin of each body, in metres and seconds. */
  get values() {
    return this.#read().values;
  }

  /** 1 for each body that is simulated, and 0 for each that is static or asleep. */
  get awake() {
    return this.#read().awake;
  }

  /** The bodies in JS numbers, made when they are asked for first. */
  #read() {
    if (this.#numbers !== null) return this.#numbers;
    const values = new Float64Array(this.bodyCount * STRIDE);
    const awake = new Uint8Array(this.bodyCount);
    const words = this.#bodies;
    for (let body = 0; body < this.bodyCount; body++) {
      const from = body * BODY_WORDS;
      for (let at = 0; at < STRIDE; at++) {
        const [low, high] = [words[from + 2 * at], words[from + 2 * at + 1]];
        values[body * STRIDE + at] = (high * WORD + (low >>> 0)) / ONE;
      }
      awake[body] = words[from + AWAKE];
    }
    this.#numbers = { values, awake };
    return this.#numbers;
  }

  /**
   * The bodies as pf.h has them, eight numbers each; the last is timer + awake * 2^32. It is the
   * world's own memory.
   */
  get raw() {
    return new BigInt64Array(this.#bodies.buffer);
  }

  /**
   * One body, in metres, seconds and radians.
   * @param {number} number
   */
  body(number) {
    if (count(number, GREATEST_U32, "number") >= this.bodyCount) {
      throw loaded().error(PF_UNKNOWN_BODY, "World.body");
    }
    const [x, y, cosine, sine, vx, vy, spin] = this.values.subarray(number * STRIDE);
    const awake = this.awake[number] === 1;
    return { x, y, cosine, sine, angle: Math.atan2(sine, cosine), vx, vy, spin, awake };
  }

  /** The contacts, whose impulses are in kilograms times metres a second. */
  contacts() {
    const view = new DataView(this.#contacts.buffer);
    return Array.from({ length: this.contactCount }, (_, number) => {
      const at = number * CONTACT_BYTES;
      return {
        a: view.getUint16(at, true),
        b: view.getUint16(at + 2, true),
        feature: view.getUint32(at + 4, true),
        normal: metres(view.getBigInt64(at + 8, true)),
        tangent: metres(view.getBigInt64(at + 16, true)),
      };
    });
  }

  /** 16 digits: where two worlds differ these do, but by an accident. */
  hash() {
    let [a, b] = [FNV_OFFSET, FNV_OFFSET ^ this.bodyCount];
    for (const words of [this.#bodies, this.#contacts]) {
      for (const word of words) {
        a = Math.imul(a ^ word, FNV_PRIME);
        b = Math.imul(b ^ word ^ (a >>> 15), FNV_PRIME);
      }
    }
    return [a, b].map((part) => (part >>> 0).toString(16).padStart(8, "0")).join("");
  }

  /**
   * Whether another world has the same bits: bodies and contacts.
   * @param {World} other
   */
  equals(other) {
    if (!(other instanceof World)) throw wrong("other", "a World", other);
    return areSame(this.#bodies, other.#bodies) && areSame(this.#contacts, other.#contacts);
  }
}

/**
 * @param {Int32Array} words
 * @param {Int32Array} others
 */
function areSame(words, others) {
  return words.length === others.length && words.every((word, at) => word === others[at]);
}
