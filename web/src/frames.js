/** Frames: commands as peers send them. */

import { wrong } from "./arguments.js";
import {
  loaded,
  PF_FRAME_BAD_KIND,
  PF_FRAME_BAD_VERSION,
  PF_FRAME_LONG,
  PF_FRAME_SHORT,
} from "./core.js";

export const FRAME_BYTES = 27;
const KINDS = /** @type {const} */ (["push", "turn", "stop", "place"]);
/** The version of a frame, by its kind. */
const VERSIONS = { push: 1, turn: 1, stop: 1, place: 2 };

/**
 * The bytes of a frame as it has come, without a copy.
 * @param {Uint8Array | ArrayBuffer} frame
 * @param {string} [what] the name that an error gives it
 */
export function bytesOf(frame, what = "frame") {
  if (frame instanceof Uint8Array) return frame;
  if (frame instanceof ArrayBuffer) return new Uint8Array(frame);
  throw wrong(what, "a Uint8Array or an ArrayBuffer", frame);
}

/**
 * What a frame says, its numbers in units of 2^-24. A game that does not trust its peers looks here
 * whether a frame is of the player that sent it, and for a tick that is near. Only `take` sees
 * whether a frame is right in all.
 * @param {Uint8Array | ArrayBuffer} frame
 */
export function readFrame(frame) {
  const bytes = bytesOf(frame);
  const view = new DataView(bytes.buffer, bytes.byteOffset, bytes.length);
  const refuse = (/** @type {number} */ code) => loaded().error(code, "readFrame");
  if (bytes.length < FRAME_BYTES) throw refuse(PF_FRAME_SHORT);
  if (bytes.length > FRAME_BYTES) throw refuse(PF_FRAME_LONG);
  const version = view.getUint8(0);
  if (!Object.values(VERSIONS).includes(version)) throw refuse(PF_FRAME_BAD_VERSION);
  const kind = KINDS[view.getUint8(8)];
  if (kind === undefined || VERSIONS[kind] !== version) throw refuse(PF_FRAME_BAD_KIND);
  return {
    tick: view.getUint32(1),
    player: view.getUint8(5),
    number: view.getUint16(6),
    kind,
    body: view.getUint16(9),
    x: view.getBigInt64(11),
    y: view.getBigInt64(19),
  };
}

/**
 * Bytes as the hexadecimal digits that the texts of docs/FORMATS.md have.
 * @param {Uint8Array | ArrayBuffer} bytes
 */
export function toHex(bytes) {
  const pairs = Array.from(bytesOf(bytes, "bytes"), (byte) => byte.toString(16).padStart(2, "0"));
  return pairs.join("");
}

/**
 * The bytes of hexadecimal digits, two a byte.
 * @param {string} digits
 */
export function fromHex(digits) {
  if (typeof digits !== "string" || !/^([0-9a-f]{2})*$/i.test(digits)) {
    throw wrong("digits", "a string of hexadecimal digits, two a byte,", digits);
  }
  return Uint8Array.from(digits.match(/../g) ?? [], (pair) => parseInt(pair, 16));
}
