/** The bodies that a match begins with. */

import { checkOptions, wrong } from "./arguments.js";
import { loaded, Owned } from "./core.js";
import { count, direction, ONE, raw, rawVector } from "./numbers.js";

/** @typedef {import("./numbers.js").Num} Num */
/** @typedef {import("./numbers.js").Vector} Vector */

/**
 * What a body is beside its shape: where it is, in metres; its mass in kilograms, from 1/16 to
 * 1,024, or exactly 0 if it is static, 1 if none is given; its friction, 0 to 4, 0.5 if none is
 * given; and the player, 0 to 7, who may move it, or null.
 * @typedef {{at: Vector, mass?: Num, friction?: Num, owner?: number | null}} BodyOptions
 */
const BODY_OPTIONS = ["mass", "friction", "owner"];

/**
 * A body of a scene, in units of 2^-24.
 * @typedef {object} Shape
 * @property {"circle" | "box"} kind
 * @property {number | null} owner
 * @property {bigint} mass
 * @property {bigint} friction
 * @property {bigint} [radius] of a circle
 * @property {[bigint, bigint]} [half] the half extents of a box
 * @property {[bigint, bigint]} at
 * @property {[bigint, bigint]} direction the cosine and the sine of its rotation
 */

const NOBODY = 255;
/** @type {[bigint, bigint]} */
const UPRIGHT = [BigInt(ONE), 0n];

export class Scene extends Owned {
  /** @type {[bigint, bigint]} */
  gravity;
  /**
   * The bodies by their numbers.
   * @type {Readonly<Shape>[]}
   */
  bodies = [];
  /** @type {[number, number]} */
  key;

  /**
   * @param {{gravity?: Vector}} options in metres a second squared, [0, -10] if none is given
   */
  constructor(options = {}) {
    super();
    checkOptions("Scene", options, [], ["gravity"]);
    const { gravity = [0, -10] } = options;
    const core = loaded();
    this.gravity = rawVector(gravity, "gravity");
    core.call("scene_new", ...this.gravity, core.output);
    this.key = core.toldKey();
    const key = this.key;
    this.owns(() => core.code("scene_free", ...key));
  }

  /** The scene that a text of docs/FORMATS.md describes, from `gravity` to `end`.
   * @param {string} text */
  static read(text) {
    checkText(text);
    const lines = text.split("\n").map((line) => line.split(" "));
    const scene = new Scene({ gravity: gravityOf(lines) });
    for (const [word, owner, ...numbers] of lines) {
      if (word === "end") break;
      if (word === "circle" || word === "box") {
        scene.#add(shapeOf(word, owner, numbers.map(BigInt)));
      }
    }
    return scene;
  }

  /**
   * Adds a circle, and returns its number, from 0 on, which is the same for all peers. Where the
   * core refuses it, that is a PfError with a name as "PF_SCENE_BAD_SIZE", and nothing is added.
   * @param {BodyOptions & {radius: Num}} options the radius in metres, from 1/16 to 1,024
   */
  circle(options) {
    checkOptions("circle", options, ["at", "radius"], BODY_OPTIONS);
    const { at, radius } = options;
    const placed = { at: rawVector(at, "at"), direction: UPRIGHT };
    const size = { radius: raw(radius, "radius") };
    return this.#add({ kind: "circle", ...materialOf(options), ...size, ...placed });
  }

  /**
   * Adds a box, and returns its number, as `circle` does.
   * @param {BodyOptions & {half: Vector, angle?: number, direction?: Vector}} options its half
   *   extents in metres, each from 1/16 to 1,024, and how it is turned: by an angle in radians, or
   *   into a direction, [cosine, sine]; not at all if neither is given, and both are a TypeError
   */
  box(options) {
    const others = ["angle", "direction", ...BODY_OPTIONS];
    checkOptions("box", options, ["at", "half"], others);
    const { at, half, angle, direction: into } = options;
    if (angle !== undefined && into !== undefined) {
      throw new TypeError("box: an angle or a direction is wanted, not both");
    }
    const turned = into === undefined ? direction(angle ?? 0) : rawVector(into, "direction");
    const placed = { at: rawVector(at, "at"), direction: turned };
    const size = { half: rawVector(half, "half") };
    return this.#add({ kind: "box", ...materialOf(options), ...size, ...placed });
  }

  /**
   * @param {Shape} shape
   */
  #add(shape) {
    const core = loaded();
    const material = core.input;
    core.view.setBigInt64(material, shape.mass, true);
    core.view.setBigInt64(material + 8, shape.friction, true);
    const owner = shape.owner === null ? NOBODY : count(shape.owner, NOBODY - 1, "owner");
    core.view.setUint8(material + 16, owner);
    const front = [...this.key, material];
    if (shape.kind === "circle") {
      core.call("scene_add_circle", ...front, shape.radius, ...shape.at, core.output);
    } else {
      const box = [.../** @type {any} */ (shape.half), ...shape.at, ...shape.direction];
      core.call("scene_add_box", ...front, ...box, core.output);
    }
    return this.bodies.push(Object.freeze(shape)) - 1;
  }

  /** The text of docs/FORMATS.md that describes this scene. */
  toString() {
    const bodies = this.bodies.map((body) => lineOf(body));
    return [`gravity ${this.gravity.join(" ")}`, ...bodies, "end", ""].join("\n");
  }
}

/**
 * @param {BodyOptions} options
 */
function materialOf({ mass, friction = 0.5, owner = null }) {
  return { owner, mass: massOf(mass), friction: raw(friction, "friction") };
}

/**
 * A mass in units of 2^-24. One that rounds to 0 is no static body's: it becomes 1, which is less
 * than the core takes.
 * @param {Num} mass
 */
function massOf(mass = 1) {
  const units = raw(mass, "mass");
  return units === 0n && Number(mass) !== 0 ? 1n : units;
}

/**
 * Throws the error of the first line that is wrong, if there is one.
 * @param {string} text
 */
function checkText(text) {
  if (typeof text !== "string") throw wrong("text", "a string", text);
  const core = loaded();
  const bytes = new TextEncoder().encode(text);
  const at = core.allocate(bytes.length);
  try {
    core.bytes(at, bytes.length).set(bytes);
    const line = core.output + 8;
    core.view.setBigUint64(line, 0n, true); // it is written only where a line is invalid
    const code = core.code("scene_read", at, BigInt(bytes.length), core.output, line);
    core.check(code, "scene_read", core.told(8) || undefined);
    core.call("scene_free", ...core.toldKey());
  } finally {
    core.free(at);
  }
}

/**
 * @param {string[][]} lines of a text that is right
 * @returns {[bigint, bigint]}
 */
function gravityOf(lines) {
  const [, x, y] = /** @type {string[]} */ (lines.find(([word]) => word === "gravity"));
  return [BigInt(x), BigInt(y)];
}

/**
 * @param {"circle" | "box"} kind
 * @param {string} player
 * @param {bigint[]} numbers
 * @returns {Shape}
 */
function shapeOf(kind, player, [mass, friction, ...rest]) {
  const owner = player === "-" ? null : Number(player);
  const material = { owner, mass, friction };
  if (kind === "circle") {
    const [radius, x, y] = rest;
    return { kind, ...material, radius, at: [x, y], direction: UPRIGHT };
  }
  const [width, height, x, y, c, s] = rest;
  return { kind, ...material, half: [width, height], at: [x, y], direction: [c, s] };
}

/**
 * @param {Shape} body
 */
function lineOf(body) {
  const front = [body.kind, body.owner ?? "-", body.mass, body.friction];
  if (body.kind === "circle") return [...front, body.radius, ...body.at].join(" ");
  return [...front, .../** @type {any} */ (body.half), ...body.at, ...body.direction].join(" ");
}

