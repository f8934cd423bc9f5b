/** What one player sees: the world, and how far it went back. */

import { COSINE, metres, SINE, STRIDE, X, Y } from "../src/index.js";
import { colourOf, colours, fill, fit, stroke } from "./canvas.js";

/** @typedef {import("./match.js").Match} Match */
/** @typedef {import("../src/world.js").World} World */

/** How many of the last ticks the strip shows. */
const PAST = 240;
/** For how many ticks a rollback is told of. */
const TOLD = 40;
/** Seconds in which a correction has eased to a third, and a glow. */
const EASE = 0.11;
const GLOW = 0.45;
/** Metres from which a body glows when it is corrected, and its true place is drawn beside it. */
const SEEN = 0.02;
const FAR = 0.08;
/** The ticks over which times are summed: a browser's clock may tell tenths of milliseconds. */
const TIMED = 128;

/** A body as it is drawn, in metres. */
class Shape {
  /**
   * @param {import("../src/scene.js").Shape} body
   */
  constructor(body) {
    this.owner = body.owner;
    this.isStatic = body.mass === 0n;
    this.mass = metres(body.mass);
    this.radius = body.radius === undefined ? 0 : metres(body.radius);
    this.half = body.half?.map(metres) ?? null;
  }

  /**
   * Its outline as a path.
   * @param {CanvasRenderingContext2D} context
   * @param {number} x in pixels
   * @param {number} y
   * @param {number} angle
   * @param {number} scale pixels of a metre
   */
  outline(context, x, y, angle, scale) {
    context.beginPath();
    if (this.half === null) {
      context.arc(x, y, this.radius * scale, 0, 2 * Math.PI);
      return;
    }
    const [wide, high] = this.half.map((it) => it * scale);
    const [cosine, sine] = [Math.cos(angle), Math.sin(angle)];
    for (const [u, v] of [[wide, high], [-wide, high], [-wide, -high], [wide, -high]]) {
      context.lineTo(x + cosine * u - sine * v, y - sine * u - cosine * v);
    }
    context.closePath();
  }

  /**
   * How far a point is from it, in metres, if it stands there.
   * @param {number} dx
   * @param {number} dy
   * @param {number} angle
   */
  distance(dx, dy, angle) {
    if (this.half === null) return Math.max(0, Math.hypot(dx, dy) - this.radius);
    const [cosine, sine] = [Math.cos(angle), Math.sin(angle)];
    const u = Math.abs(cosine * dx + sine * dy) - this.half[0];
    const v = Math.abs(cosine * dy - sine * dx) - this.half[1];
    return Math.hypot(Math.max(0, u), Math.max(0, v));
  }
}

/**
 * The angle from one direction to another, given by cosine and sine.
 * @param {Float64Array} from
 * @param {Float64Array} to
 * @param {number} at
 */
function turnBetween(from, to, at) {
  const [c, s, c2, s2] = [from[at + COSINE], from[at + SINE], to[at + COSINE], to[at + SINE]];
  return Math.atan2(s2 * c - c2 * s, c2 * c + s2 * s);
}

/** Metres to pixels of a canvas, and back. */
class Lens {
  /**
   * @param {number} scale pixels of a metre
   * @param {number} middle where x is 0
   * @param {number} floor where y is 0
   */
  constructor(scale, middle, floor) {
    this.scale = scale;
    this.middle = middle;
    this.floor = floor;
  }

  /**
   * @param {number} x
   * @param {number} y
   */
  to(x, y) {
    return [this.middle + x * this.scale, this.floor - y * this.scale];
  }

  /**
   * @param {number} x
   * @param {number} y
   */
  from(x, y) {
    return [(x - this.middle) / this.scale, (this.floor - y) / this.scale];
  }
}

export class Pane {
  /**
   * The body that is held: by which pointer, where that is, and where it began.
   * @type {{body: number, at: number[], from: number[], id: number, moved: boolean} | null}
   */
  grab = null;
  /** The body that keys move, or -1. */
  chosen = -1;
  /**
   * What is done in the next tick.
   * @type {(() => void)[]}
   */
  todo = [];

  /**
   * @param {0 | 1} player
   * @param {HTMLElement} figure
   */
  constructor(player, figure) {
    const find = (/** @type {string} */ name) =>
      /** @type {any} */ (figure.querySelector(name));
    this.player = player;
    /** @type {HTMLCanvasElement} */
    this.canvas = find(".world");
    /** @type {HTMLCanvasElement} */
    this.strip = find(".strip");
    /** @type {HTMLElement} */
    this.say = find(".say");
    /** @type {HTMLElement} */
    this.ticks = find(".tick");
    /** @type {Match} */
    this.match = /** @type {any} */ (null);
    /** @type {Shape[]} */
    this.shapes = [];
    /** @type {number[]} */
    this.view = [-1, 1, -1, 1];
    /** Of each body what is drawn less what is simulated: x, y and angle. */
    this.off = new Float64Array();
    /** How much each glows, and where it is drawn. */
    this.glow = new Float32Array();
    this.drawn = new Float64Array();
    /** The lens of the last frame. */
    this.glass = new Lens(1, 0, 0);
    /** How many ticks each of the last ticks simulated again, and the last one that did. */
    this.past = new Uint16Array(PAST);
    this.last = { ticks: 0, at: -TOLD };
    /** How long the last ticks took, and how many were simulated in that. */
    this.times = new Float64Array(TIMED);
    this.counts = new Float64Array(TIMED);
  }

  /**
   * @param {Match} match
   * @param {number[]} view
   */
  start(match, view) {
    this.match = match;
    this.view = view;
    this.shapes = match.scene.bodies.map((body) => new Shape(body));
    this.off = new Float64Array(this.shapes.length * 3);
    this.glow = new Float32Array(this.shapes.length);
    this.drawn = new Float64Array(this.shapes.length * 3);
    this.past.fill(0);
    this.last = { ticks: 0, at: -TOLD };
    this.times.fill(0);
    this.counts.fill(0);
    this.grab = null;
    this.chosen = -1;
    this.todo = [];
    this.glass = this.lens();
  }

  get side() {
    return this.match.sides[this.player];
  }

  /** The bodies that the player moves. */
  get own() {
    return [...this.shapes.keys()].filter((body) => this.shapes[body].owner === this.player);
  }

  /**
   * A late frame changed the present: what is drawn stays, and eases to the corrected place.
   * @param {World} old
   * @param {World} now
   */
  correct(old, now) {
    const [from, to] = [old.values, now.values];
    this.shapes.forEach((_, body) => {
      const at = body * STRIDE;
      const [dx, dy] = [from[at + X] - to[at + X], from[at + Y] - to[at + Y]];
      const turn = turnBetween(to, from, at);
      [dx, dy, turn].forEach((part, k) => {
        this.off[body * 3 + k] += part;
      });
      const much = Math.hypot(dx, dy) + Math.abs(turn) * 0.3;
      if (much > SEEN) this.glow[body] = Math.max(this.glow[body], Math.min(1, 0.35 + much));
    });
  }

  /** Notes what the last tick took. */
  note() {
    const { again, time, simulated } = this.side;
    const { tick } = this.match;
    this.past.copyWithin(0, 1);
    this.past[PAST - 1] = again;
    if (again > 0) this.last = { ticks: again, at: tick };
    this.times[tick % TIMED] = time;
    this.counts[tick % TIMED] = simulated;
  }

  /** Microseconds that a tick takes. */
  get microseconds() {
    const sum = (/** @type {Float64Array} */ all) => all.reduce((a, b) => a + b, 0);
    return (1000 * sum(this.times)) / (sum(this.counts) || 1);
  }

  /**
   * Lets corrections and glows fade.
   * @param {number} seconds
   * @param {boolean} isEased
   */
  fade(seconds, isEased) {
    const kept = isEased ? Math.exp(-seconds / EASE) : 0;
    for (let k = 0; k < this.off.length; k++) this.off[k] *= kept;
    for (let k = 0; k < this.glow.length; k++) this.glow[k] *= Math.exp(-seconds / GLOW);
  }

  /** Metres to pixels of the canvas and back: the whole view, on the floor where there is one. */
  lens() {
    const { clientWidth: width, clientHeight: height } = this.canvas;
    const [left, right, low, high] = this.view;
    const scale = Math.min(width / (right - left), height / (high - low));
    const middle = width / 2 - ((left + right) / 2) * scale;
    return new Lens(scale, middle, height + low * scale);
  }

  /**
   * Draws the world between the last tick and this one.
   * @param {number} part from 0 to 1
   * @param {boolean} isEased
   */
  draw(part, isEased) {
    const [context] = fit(this.canvas);
    context.lineJoin = "round";
    this.glass = this.lens();
    this.#place(part, isEased);
    this.shapes.forEach((shape, body) => {
      if (isEased && !shape.isStatic) this.#drawTrue(context, shape, body);
      this.#drawBody(context, shape, body);
    });
    this.#drawHeld(context);
    this.#drawStrip();
  }

  /**
   * Where each body is drawn.
   * @param {number} part
   * @param {boolean} isEased
   */
  #place(part, isEased) {
    const [before, now] = [this.side.before.values, this.side.now.values];
    this.shapes.forEach((shape, body) => {
      const at = body * STRIDE;
      const angle = Math.atan2(now[at + SINE], now[at + COSINE]);
      const place = [now[at + X], now[at + Y], angle];
      if (!shape.isStatic && isEased) {
        const back = 1 - part;
        place[0] += (before[at + X] - place[0]) * back + this.off[body * 3];
        place[1] += (before[at + Y] - place[1]) * back + this.off[body * 3 + 1];
        place[2] += turnBetween(now, before, at) * back + this.off[body * 3 + 2];
      }
      this.drawn.set(place, body * 3);
    });
  }

  /**
   * The path of a body where it is drawn.
   * @param {CanvasRenderingContext2D} context
   * @param {Shape} shape
   * @param {number} body
   */
  #outline(context, shape, body) {
    const { glass } = this;
    const [x, y, angle] = this.drawn.subarray(body * 3);
    const [px, py] = glass.to(x, y);
    shape.outline(context, px, py, angle, glass.scale);
    return { px, py, angle, scale: glass.scale };
  }

  /**
   * A thin outline where a body truly is, that is drawn on its way there.
   * @param {CanvasRenderingContext2D} context
   * @param {Shape} shape
   * @param {number} body
   */
  #drawTrue(context, shape, body) {
    if (Math.hypot(this.off[body * 3], this.off[body * 3 + 1]) < FAR) return;
    const { values } = this.side.now;
    const { glass } = this;
    const at = body * STRIDE;
    const [x, y] = glass.to(values[at + X], values[at + Y]);
    const angle = Math.atan2(values[at + SINE], values[at + COSINE]);
    shape.outline(context, x, y, angle, glass.scale);
    stroke(context, colours.dim, 1, 0.55);
  }

  /**
   * @param {CanvasRenderingContext2D} context
   * @param {Shape} shape
   * @param {number} body
   */
  #drawBody(context, shape, body) {
    const { px, py, angle, scale } = this.#outline(context, shape, body);
    if (shape.isStatic) {
      fill(context, colours.floor);
      return;
    }
    const isOwn = shape.owner === this.player;
    const colour = colourOf(shape.owner);
    const isAwake = this.side.now.awake[body] === 1;
    fill(context, colour, isOwn ? (isAwake ? 0.95 : 0.78) : isAwake ? 0.34 : 0.26);
    stroke(context, colour, isOwn ? 1.5 : 1.25);
    if (this.glow[body] > 0.03) stroke(context, colours.glow, 2.5, this.glow[body]);
    if (shape.half !== null) return;
    const long = shape.radius * scale; // so that a circle is seen to turn
    context.beginPath();
    context.moveTo(px, py);
    context.lineTo(px + Math.cos(angle) * long, py - Math.sin(angle) * long);
    stroke(context, isOwn ? colours.card : colour, 1.5);
  }

  /**
   * The body that is held, and where it is drawn to.
   * @param {CanvasRenderingContext2D} context
   */
  #drawHeld(context) {
    const isChosen = this.canvas.matches(":focus-visible");
    const held = this.grab?.body ?? (isChosen ? this.chosen : -1);
    if (held < 0) return;
    const { px, py } = this.#outline(context, this.shapes[held], held);
    stroke(context, colours.ink, 2);
    if (!this.grab?.moved) return;
    const [x, y] = this.glass.to(this.grab.at[0], this.grab.at[1]);
    context.beginPath();
    context.moveTo(px, py);
    context.lineTo(x, y);
    context.setLineDash([4, 4]);
    stroke(context, colours.ink, 2);
    context.setLineDash([]);
    context.beginPath();
    context.arc(x, y, 4, 0, 2 * Math.PI);
    fill(context, colours.ink);
  }

  /** A bar for each tick that is behind, as high as the ticks that were simulated again. */
  #drawStrip() {
    const [context, width, height] = fit(this.strip);
    const greatest = Math.max(24, ...this.past);
    const wide = width / PAST;
    context.fillStyle = colourOf(this.player);
    this.past.forEach((ticks, k) => {
      const high = (ticks / greatest) * (height - 6);
      if (ticks > 0) context.fillRect(k * wide - 1, height - high, Math.max(2, wide), high);
    });
    const isFresh = this.match.tick - this.last.at < TOLD;
    const time = Math.round((this.last.ticks * 1000) / 64);
    const text = isFresh ? `rolled back ${this.last.ticks} ticks, ${time} ms` : "no rollback";
    context.font = "12px system-ui, sans-serif";
    context.textBaseline = "top";
    context.fillStyle = colours.card;
    context.globalAlpha = 0.8;
    context.fillRect(6, 3, context.measureText(text).width + 10, 17);
    context.globalAlpha = 1;
    context.fillStyle = isFresh ? colours.ink : colours.dim;
    context.fillText(text, 11, 5);
  }
}
