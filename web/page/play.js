/** What players do: drags, taps, keys, and the bots that play until somebody does. */

import { raw, STRIDE, VX, VY, X, Y } from "../src/index.js";

/** @typedef {import("./pane.js").Pane} Pane */

/** A body that is dragged is pushed every so many ticks. */
const PUSH_EVERY = 3;
/** Its velocity for each metre to the pointer, the greatest one, and the greatest change of it. */
const FOLLOW = 7;
const FASTEST = 13;
const HARDEST = 2.6;
/** What gravity takes from it in three ticks and a half. */
const LIFT = 0.35;
/** Ticks between two pushes of a bot: at least, and how many more there may be. */
const BOT_WAITS = 60;
const BOT_MORE = 120;
/** How near a pointer has to come to a body, in pixels. */
const NEAR = { mouse: 5, pen: 10, touch: 20 };
/** Metres from which on a pointer has moved. */
const MOVED = 0.15;
/** What keys give the chosen body, in metres a second; and what a tap gives. */
const WAYS = {
  ArrowLeft: [-2.5, 0],
  ArrowRight: [2.5, 0],
  ArrowUp: [0, 4.5],
  ArrowDown: [0, -4.5],
};
const HOP = 4.5;

/**
 * @param {number[]} vector
 * @param {number} greatest
 */
function limited([x, y], greatest) {
  const long = Math.hypot(x, y);
  return long > greatest ? [(x * greatest) / long, (y * greatest) / long] : [x, y];
}

/**
 * Gives a body a change of velocity.
 * @param {Pane} pane
 * @param {number} body
 * @param {number[]} change
 */
function nudge(pane, body, [x, y]) {
  const { mass } = pane.shapes[body];
  pane.match.issue(pane.player, "push", body, raw(x * mass), raw(y * mass));
}

/** The players of the page. */
export class Players {
  /** When the bot of each pane pushes next. */
  #next = [0, 0];

  /**
   * @param {() => boolean} areBots whether bots play
   * @param {() => void} stopBots
   */
  constructor(areBots, stopBots) {
    this.areBots = areBots;
    this.stopBots = stopBots;
  }

  start() {
    this.#next = [40, 150];
  }

  /**
   * What a player does in this tick.
   * @param {Pane} pane
   */
  play(pane) {
    if (this.areBots()) this.#bot(pane);
    if (pane.match.tick % PUSH_EVERY === 0) this.#drag(pane);
    for (const act of pane.todo.splice(0)) act();
  }

  /**
   * @param {Pane} pane
   */
  #bot(pane) {
    const { tick } = pane.match;
    if (tick < this.#next[pane.player]) return;
    this.#next[pane.player] = tick + BOT_WAITS + Math.floor(Math.random() * BOT_MORE);
    const { own } = pane;
    const body = own[Math.floor(Math.random() * own.length)];
    const x = pane.side.now.values[body * STRIDE + X];
    const [wide, high] = [Math.random() - 0.5, 2 + Math.random() * 3];
    nudge(pane, body, [limited([wide - x * 2, 0], 6)[0], high]);
  }

  /**
   * A body that is dragged follows the pointer.
   * @param {Pane} pane
   */
  #drag(pane) {
    const { grab } = pane;
    if (grab === null || !grab.moved) return;
    const { values } = pane.side.now;
    const at = grab.body * STRIDE;
    const way = [grab.at[0] - values[at + X], grab.at[1] - values[at + Y]];
    const [vx, vy] = limited(way.map((part) => part * FOLLOW), FASTEST);
    const change = limited([vx - values[at + VX], vy - values[at + VY] + LIFT], HARDEST);
    if (Math.hypot(...change) > 0.05) nudge(pane, grab.body, change);
  }

  /**
   * Listens to the pointers and keys of a pane.
   * @param {Pane} pane
   * @param {(pane: Pane, text: string) => void} hint
   */
  listen(pane, hint) {
    const { canvas } = pane;
    const slop = (/** @type {PointerEvent} */ event) =>
      NEAR[/** @type {"mouse"} */ (event.pointerType)] ?? NEAR.mouse;
    const scrollsElsewhere = (/** @type {TouchEvent} */ event) => {
      if (bodyAt(pane, event.changedTouches[0], NEAR.touch).body >= 0) event.preventDefault();
    };
    canvas.addEventListener("touchstart", scrollsElsewhere, { passive: false });
    canvas.addEventListener("pointerdown", (event) => {
      if (event.button === 0) this.#grab(pane, event, slop(event), hint);
    });
    canvas.addEventListener("pointermove", (event) => move(pane, event, slop(event)));
    canvas.addEventListener("pointerup", (event) => drop(pane, event, true));
    canvas.addEventListener("pointercancel", (event) => drop(pane, event, false));
    canvas.addEventListener("keydown", (event) => this.#key(pane, event, hint));
  }

  /**
   * @param {Pane} pane
   * @param {PointerEvent} event
   * @param {number} slop
   * @param {(pane: Pane, text: string) => void} hint
   */
  #grab(pane, event, slop, hint) {
    const { body, at } = bodyAt(pane, event, slop);
    if (body < 0) return;
    const { owner } = pane.shapes[body];
    if (owner !== pane.player) {
      const other = pane.player === 0 ? "B" : "A";
      hint(pane, owner === null ? "nobody may push this one" : `that one is player ${other}'s`);
      return;
    }
    this.stopBots();
    pane.grab = { body, at, from: at, id: event.pointerId, moved: false };
    pane.chosen = body;
    pane.canvas.setPointerCapture(event.pointerId);
  }

  /**
   * @param {Pane} pane
   * @param {KeyboardEvent} event
   * @param {(pane: Pane, text: string) => void} hint
   */
  #key(pane, event, hint) {
    const way = WAYS[/** @type {"ArrowUp"} */ (event.key)];
    const isNext = event.key.toLowerCase() === "n";
    if (isNext || (way !== undefined && pane.chosen < 0)) {
      const { own } = pane;
      const back = event.key === "N" ? own.length - 1 : 1;
      pane.chosen = own[(own.indexOf(pane.chosen) + back) % own.length];
      hint(pane, `body ${pane.chosen} is chosen`);
    }
    if (way === undefined) return;
    const body = pane.chosen;
    this.stopBots();
    pane.todo.push(() => nudge(pane, body, way));
    event.preventDefault();
  }
}

/**
 * The body that a pointer is at, or -1, and the point in metres. An own body is found before
 * another that is as near.
 * @param {Pane} pane
 * @param {{clientX: number, clientY: number}} event
 * @param {number} slop in pixels
 */
function bodyAt(pane, event, slop) {
  const { left, top } = pane.canvas.getBoundingClientRect();
  const lens = pane.lens();
  const at = lens.from(event.clientX - left, event.clientY - top);
  let [body, least] = [-1, Infinity];
  pane.shapes.forEach((shape, number) => {
    if (shape.isStatic) return;
    const [x, y, angle] = pane.drawn.subarray(number * 3);
    const distance = shape.distance(at[0] - x, at[1] - y, angle);
    const rank = distance + (shape.owner === pane.player ? 0 : 0.25 / lens.scale);
    if (distance <= slop / lens.scale && rank < least) [body, least] = [number, rank];
  });
  return { body, at };
}

/**
 * @param {Pane} pane
 * @param {PointerEvent} event
 * @param {number} slop
 */
function move(pane, event, slop) {
  const { grab } = pane;
  const { body, at } = bodyAt(pane, event, slop);
  if (grab !== null && grab.id === event.pointerId) {
    grab.at = at;
    if (Math.hypot(at[0] - grab.from[0], at[1] - grab.from[1]) > MOVED) grab.moved = true;
    return;
  }
  const isOwn = body >= 0 && pane.shapes[body].owner === pane.player;
  pane.canvas.style.cursor = isOwn ? "grab" : body >= 0 ? "not-allowed" : "default";
}

/**
 * Lets go of what is held. A tap without a drag is a hop, away from where it hit.
 * @param {Pane} pane
 * @param {PointerEvent} event
 * @param {boolean} isUp
 */
function drop(pane, event, isUp) {
  const { grab } = pane;
  if (grab === null || grab.id !== event.pointerId) return;
  pane.grab = null;
  if (!isUp || grab.moved) return;
  const away = (pane.drawn[grab.body * 3] - grab.at[0]) * 8;
  pane.todo.push(() => nudge(pane, grab.body, [limited([away, 0], 4)[0], HOP]));
}
