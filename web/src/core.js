/** The physics core as a WebAssembly module: its calls, its memory, and why a call fails. */

import { wrong } from "./arguments.js";

const PF_OK = 0;
const PF_OUT_OF_MEMORY = 1;
export const PF_SMALL_BUFFER = 5;
export const PF_FRAME_SHORT = 48;
export const PF_FRAME_LONG = 49;
export const PF_FRAME_BAD_VERSION = 50;
export const PF_FRAME_BAD_KIND = 51;
export const PF_UNKNOWN_BODY = 64;

const CONTEXT_BYTES = 16;
const TEXT_BYTES = 160;
/** Room for what a call writes, and behind it for what it reads. */
const OUTPUT_BYTES = 32;
const INPUT_BYTES = 160;

/** A call that the core refused, or for which there was no memory. */
export class PfError extends Error {
  /**
   * @param {number} code the number of pf.h
   * @param {string} name its name, as "PF_NOT_OWNER"
   * @param {string} text what it means
   * @param {string} call the call that returned it, as "pf_peer_push"
   * @param {number} [line] the line of a scene's text, counted from 1
   */
  constructor(code, name, text, call, line) {
    const place = line === undefined ? "" : `line ${line}: `;
    super(`${place}${text} (${call})`);
    this.name = name;
    this.code = code;
    this.call = call;
    this.line = line;
  }
}

/** An instance of the module, with one open context. */
class Core {
  #exports;
  #view;

  /**
   * @param {WebAssembly.Module} module
   */
  constructor(module) {
    this.#exports = /** @type {any} */ (new WebAssembly.Instance(module, {}).exports);
    this.#view = new DataView(this.#exports.memory.buffer);
    this.output = this.allocate(OUTPUT_BYTES + INPUT_BYTES);
    this.input = this.output + OUTPUT_BYTES;
    this.context = this.allocate(CONTEXT_BYTES);
    this.bytes(this.context, CONTEXT_BYTES).fill(0);
    this.call("open");
  }

  /** The buffer of the module's memory. When the memory grows it is another one. */
  get buffer() {
    return /** @type {ArrayBuffer} */ (this.#exports.memory.buffer);
  }

  /** The memory, to read and write numbers in. */
  get view() {
    if (this.#view.buffer !== this.buffer) this.#view = new DataView(this.buffer);
    return this.#view;
  }

  /**
   * @param {number} at
   * @param {number} length
   */
  bytes(at, length) {
    return new Uint8Array(this.buffer, at, length);
  }

  /**
   * A number of 32 bits that the last call wrote.
   * @param {number} [offset]
   */
  told(offset = 0) {
    return this.view.getUint32(this.output + offset, true);
  }

  /**
   * A number of 64 bits that the last call wrote.
   * @param {number} [offset]
   */
  toldLong(offset = 0) {
    return Number(this.view.getBigUint64(this.output + offset, true));
  }

  /**
   * The key that the last call wrote.
   * @returns {[number, number]}
   */
  toldKey() {
    return [this.view.getInt32(this.output, true), this.view.getInt32(this.output + 4, true)];
  }

  /**
   * Memory of the module, which `free` gives back.
   * @param {number} length
   */
  allocate(length) {
    const at = this.#exports.malloc(Math.max(length, 1)) >>> 0;
    if (at === 0) {
      throw new PfError(PF_OUT_OF_MEMORY, "PF_OUT_OF_MEMORY", "out of memory", "malloc");
    }
    return at;
  }

  /**
   * @param {number} at
   */
  free(at) {
    this.#exports.free(at);
  }

  /**
   * What pf_NAME returns. Structs are taken apart: a key is two numbers, a vector two BigInts.
   * @param {string} name
   * @param {...(number | bigint)} parameters
   */
  code(name, ...parameters) {
    return /** @type {number} */ (this.#exports[`flat_pf_${name}`](this.context, ...parameters));
  }

  /**
   * Calls pf_NAME, and throws where it fails.
   * @param {string} name
   * @param {...any} parameters
   */
  call(name, ...parameters) {
    this.check(this.code(name, ...parameters), name);
  }

  /**
   * @param {number} code
   * @param {string} name
   * @param {number} [line]
   */
  check(code, name, line) {
    if (code !== PF_OK) throw this.error(code, `pf_${name}`, line);
  }

  /**
   * @param {number} code
   * @param {string} call
   * @param {number} [line]
   */
  error(code, call, line) {
    const name = this.written("flat_pf_error_name", code);
    return new PfError(code, name, this.written("flat_pf_error_text", code), call, line);
  }

  /** What pf_build of pf.h says. */
  get build() {
    const at = this.#exports.pf_build() >>> 0;
    const bytes = new Uint8Array(this.buffer, at, TEXT_BYTES);
    return String.fromCharCode(...bytes.subarray(0, bytes.indexOf(0)));
  }

  /**
   * What a call writes about a code.
   * @param {string} call
   * @param {number} code
   */
  written(call, code) {
    this.#exports[call](code, this.input, BigInt(TEXT_BYTES), this.output);
    return String.fromCharCode(...this.bytes(this.input, this.told() - 1));
  }
}

/** @type {Core | undefined} */
let core;

/** The core that `init` has loaded. */
export function loaded() {
  if (core === undefined) throw new Error("buyosen: await init() first");
  return core;
}

/**
 * How much of the core is proved: "unproved", since its sources were compiled without a proof, or
 * "proved for x86-64 Linux": its module was proved for that machine, and nothing proves that it was
 * compiled for WebAssembly rightly.
 */
export const build = () => loaded().build;

/**
 * Loads the core, once: a later call does nothing. Without a source that is buyosen.wasm beside
 * this file, by fetch, or from the disk in node. A source of another kind is a TypeError, and bytes
 * that are no core are the error that WebAssembly has for them.
 * @param {BufferSource | WebAssembly.Module | Response | Promise<Response> | URL | string} [source]
 */
export async function init(source = new URL("buyosen.wasm", import.meta.url)) {
  if (core !== undefined) return;
  const from = await fetched(await source);
  initSync(from instanceof WebAssembly.Module ? from : await WebAssembly.compile(from));
}

/**
 * The same at once, from a module or its bytes. Browsers limit how many bytes they compile so.
 * @param {BufferSource | WebAssembly.Module} source
 */
export function initSync(source) {
  if (core !== undefined) return;
  const from = object(source);
  core = new Core(from instanceof WebAssembly.Module ? from : new WebAssembly.Module(from));
}

/**
 * The bytes behind an address or a response; others as they are.
 * @param {BufferSource | WebAssembly.Module | Response | URL | string} from
 * @returns {Promise<BufferSource | WebAssembly.Module>}
 */
async function fetched(from) {
  if (typeof from === "string" || from instanceof URL) {
    const url = new URL(from, import.meta.url);
    if (url.protocol !== "file:") return fetched(await fetch(url));
    const { readFile } = await import(/** @type {any} */ ("node:fs/promises"));
    return readFile(url);
  }
  if (typeof Response !== "undefined" && from instanceof Response) {
    if (!from.ok) throw new Error(`buyosen: ${from.url}: ${from.status}`);
    return from.arrayBuffer();
  }
  return object(/** @type {BufferSource | WebAssembly.Module} */ (from));
}

/**
 * Bytes or a module, as they are. What is no object is a TypeError; and WebAssembly sees to others.
 * @param {BufferSource | WebAssembly.Module} source
 */
function object(source) {
  if (typeof source === "object" && source !== null) return source;
  throw wrong("source", "bytes, a WebAssembly.Module, a Response or a URL", source);
}

const unused = new FinalizationRegistry((/** @type {() => void} */ free) => free());

/** Something of the core's: `free`, `using` or the garbage collector gives it back. */
export class Owned {
  /** @type {(() => void) | null} */
  #free = null;

  /**
   * @protected
   * @param {() => void} free which must not hold this object
   */
  owns(free) {
    this.#free = free;
    unused.register(this, free, this);
  }

  /** Gives it back at once. It must not be used after that; a second call does nothing. */
  free() {
    if (this.#free === null) return;
    unused.unregister(this);
    this.#free();
    this.#free = null;
  }
}
const { dispose } = /** @type {any} */ (Symbol);
if (dispose) /** @type {any} */ (Owned.prototype)[dispose] = Owned.prototype.free;
