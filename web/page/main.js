/** The page: its time, its controls, and what it tells. */

import { init } from "../classic.js";
import { TICKS_PER_SECOND } from "../src/index.js";
import { readColours } from "./canvas.js";
import { Match } from "./match.js";
import { Pane } from "./pane.js";
import { Players } from "./play.js";
import { SCENES } from "./scenes.js";
import { drawWire } from "./wire.js";

/** Milliseconds of a frame of the screen in which ticks may be simulated; then the page is late. */
const BUDGET = 24;
/** A page that was out of sight goes on from where it was, and not from where it would be. */
const LONGEST_FRAME = 0.1;
/** Milliseconds between two tellings, and for which a hint stays. */
const TELL_EVERY = 120;
const HINT_STAYS = 2600;
const GREATEST_TICK = 2 ** 20;

const find = (/** @type {string} */ id) => /** @type {any} */ (document.getElementById(id));

class Page {
  network = { delay: 150, jitter: 60, loss: 0.1 };
  isPaused = false;
  sceneName = Object.keys(SCENES)[0];
  /** The part of a tick that has passed, and when the last frame was. */
  #rest = 0;
  #last = 0;
  /** How far the page is behind time, and when it told last. */
  #late = 0;
  #told = 0;
  #hints = [0, 0];

  constructor() {
    this.panes = [new Pane(0, find("side0")), new Pane(1, find("side1"))];
    this.players = new Players(() => find("bots").checked, () => {
      find("bots").checked = false;
    });
    for (const pane of this.panes) {
      this.players.listen(pane, (where, text) => this.hint(where, text));
    }
    this.match = this.#stage(this.sceneName);
  }

  /**
   * @param {string} name
   */
  #stage(name) {
    const { scene, view } = SCENES[name]();
    const match = new Match(scene, this.network);
    for (const pane of this.panes) pane.start(match, view);
    this.players.start();
    return match;
  }

  /**
   * Begins a match.
   * @param {string} [name] of its scene
   */
  start(name = this.sceneName) {
    this.match.free();
    this.sceneName = name;
    this.match = this.#stage(name);
    this.#rest = 0;
    for (const input of document.querySelectorAll("#scenes input")) {
      const radio = /** @type {HTMLInputElement} */ (input);
      radio.checked = radio.value === name;
    }
  }

  tick() {
    if (this.match.tick === GREATEST_TICK) this.start();
    this.match.step(
      (player) => this.players.play(this.panes[player]),
      (side, old, now) => this.panes[side.player].correct(old, now),
    );
    for (const pane of this.panes) pane.note();
  }

  /**
   * Goes on for some seconds.
   * @param {number} seconds
   */
  #go(seconds) {
    const begun = performance.now();
    this.#rest += seconds * TICKS_PER_SECOND;
    this.#late = Math.max(0, this.#late - seconds * 8);
    while (this.#rest >= 1) {
      this.tick();
      this.#rest -= 1;
      if (performance.now() - begun < BUDGET || this.#rest < 1) continue;
      this.#rest = 0;
      this.#late = Math.min(20, this.#late + 2);
    }
  }

  /**
   * A frame of the screen.
   * @param {number} time
   */
  frame(time) {
    const seconds = Math.min(LONGEST_FRAME, (time - this.#last) / 1000 || 0);
    this.#last = time;
    if (!this.isPaused) this.#go(seconds);
    const isEased = find("smooth").checked;
    const part = this.isPaused ? 1 : this.#rest;
    for (const pane of this.panes) {
      pane.fade(seconds, isEased);
      pane.draw(part, isEased);
    }
    drawWire(find("wire"), this.match, this.match.tick + part);
    if (time - this.#told > TELL_EVERY) this.#tell(time);
  }

  /**
   * @param {number} time
   */
  #tell(time) {
    this.#told = time;
    const isLate = this.#late > 8;
    for (const pane of this.panes) {
      const micros = pane.microseconds;
      const tick = this.match.tick.toLocaleString("en");
      pane.ticks.textContent = `tick ${tick} · ${micros.toFixed(micros < 10 ? 1 : 0)} µs each`;
      if (time < this.#hints[pane.player]) continue;
      const owner = pane.player === 0 ? "moves what is blue" : "moves what is orange";
      pane.say.textContent = isLate ? "slow motion: this machine is too slow" : owner;
      pane.say.classList.toggle("told", isLate);
    }
    const { differs, common, hash, isEqualNow, open, tick } = this.match;
    const at = (differs ?? common).toLocaleString("en");
    find("same").classList.toggle("bad", differs !== null);
    find("verdict").textContent =
      differs === null ? `✓ Equal, bit for bit, at tick ${at}` : `✗ Worlds differ at tick ${at}`;
    find("hash").textContent = `world ${hash}`;
    find("equal").textContent = isEqualNow ? "equal" : "differ";
    find("equal").className = isEqualNow ? "good" : "wait";
    find("open").textContent = `${open} ${open === 1 ? "frame" : "frames"} on the way`;
    find("behind").textContent = `${tick - common} ticks unconfirmed`;
  }

  /**
   * Tells something in the caption of a pane.
   * @param {Pane} pane
   * @param {string} text
   */
  hint(pane, text) {
    pane.say.textContent = text;
    pane.say.classList.add("told");
    this.#hints[pane.player] = performance.now() + HINT_STAYS;
    find("live").textContent = text;
  }

  /**
   * @param {boolean} isPaused
   */
  pause(isPaused) {
    this.isPaused = isPaused;
    find("pause").textContent = isPaused ? "Go on" : "Pause";
    find("pause").setAttribute("aria-pressed", String(isPaused));
  }

  /** One tick, and then a pause. */
  step() {
    this.pause(true);
    this.tick();
  }

  /** Shows the match as a text. */
  save() {
    this.match.deliver();
    for (const pane of this.panes) pane.off.fill(0);
    const text = this.match.text();
    const area = find("text");
    area.value = text;
    find("download").onclick = () => download(text);
    find("copy").onclick = () => navigator.clipboard.writeText(text).catch(() => area.select());
    const wasPaused = this.isPaused;
    this.pause(true);
    find("saved").onclose = () => this.pause(wasPaused);
    find("saved").showModal();
    area.scrollTop = 0;
    find("download").focus();
  }
}

/**
 * @param {string} text
 */
function download(text) {
  const link = document.createElement("a");
  link.href = URL.createObjectURL(new Blob([text], { type: "text/plain" }));
  link.download = "match.txt";
  link.click();
  setTimeout(() => URL.revokeObjectURL(link.href), 10000);
}

/**
 * Sliders, buttons, scenes and keys.
 * @param {Page} page
 */
function connect(page) {
  const slide = (
    /** @type {"delay" | "jitter" | "loss"} */ name,
    /** @type {string} */ unit,
    /** @type {number} */ share,
  ) => {
    const put = () => {
      page.network[name] = Number(find(name).value) * share;
      find(`${name}-value`).textContent = `${find(name).value} ${unit}`;
    };
    find(name).addEventListener("input", put);
    put();
  };
  slide("delay", "ms", 1);
  slide("jitter", "ms", 1);
  slide("loss", "%", 0.01);
  for (const name of Object.keys(SCENES)) {
    const label = document.createElement("label");
    label.innerHTML = `<input type="radio" name="scene" value="${name}"><span>${name}</span>`;
    /** @type {HTMLInputElement} */ (label.firstChild).onchange = () => page.start(name);
    find("scenes").append(label);
  }
  find("pause").onclick = () => page.pause(!page.isPaused);
  find("step").onclick = () => page.step();
  find("reset").onclick = () => page.start();
  find("save").onclick = () => page.save();
  find("close").onclick = () => find("saved").close();
  document.addEventListener("keydown", (event) => key(page, event));
}

/**
 * @param {Page} page
 * @param {KeyboardEvent} event
 */
function key(page, event) {
  const target = /** @type {HTMLElement} */ (event.target);
  const isOther = event.ctrlKey || event.metaKey || event.altKey || find("saved").open;
  if (isOther) return;
  const name = Object.keys(SCENES)[Number(event.key) - 1];
  if (event.key === " " && target.closest("button, input, summary") === null) {
    page.pause(!page.isPaused);
    event.preventDefault();
  } else if (event.key === ".") page.step();
  else if (event.key === "r") page.start();
  else if (name !== undefined && target.closest("input[type=range]") === null) page.start(name);
}

/** Light or dark, as the visitor or the system has it. */
function connectTheme() {
  const system = matchMedia("(prefers-color-scheme: dark)");
  let chosen = /** @type {string | null} */ (null);
  const show = () => {
    document.documentElement.dataset.theme = chosen ?? (system.matches ? "dark" : "light");
    readColours();
  };
  system.addEventListener("change", show);
  find("theme").onclick = () => {
    chosen = document.documentElement.dataset.theme === "dark" ? "light" : "dark";
    show();
  };
  show();
}

/** Plays, once the core is there. */
async function begin() {
  await init();
  const page = new Page();
  connect(page);
  page.start();
  Object.assign(globalThis, { playground: page });
  const frame = (/** @type {number} */ time) => {
    requestAnimationFrame(frame);
    page.frame(time);
  };
  requestAnimationFrame(frame);
}

connectTheme();
if (matchMedia("(prefers-reduced-motion: reduce)").matches) find("bots").checked = false;
begin().catch((error) => {
  find("same").classList.add("bad");
  find("verdict").textContent = `This browser cannot run the core: ${error}`;
});
