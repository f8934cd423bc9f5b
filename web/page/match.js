/** Two peers and the network between them: what the page plays and its checks try. Nothing is drawn
 * here. */

import { Peer, TICKS_PER_SECOND, toHex, World } from "../src/index.js";

const TICK_MS = 1000 / TICKS_PER_SECOND;
/** A side whose frames are not all confirmed sends them again after so many ticks. */
const SEND_EVERY = 2;
/** A side that has nothing to send says so all the same. */
const BEAT_EVERY = 4;
const SEAL_EVERY = 4;
/** For how many ticks a lost packet is still told of. */
const LOST_STAYS = 12;

/**
 * @typedef {{delay: number, jitter: number, loss: number}} Network the delay of a packet and how
 *   much more it may be, in milliseconds, and the share of packets that are lost
 * @typedef {object} Packet
 * @property {0 | 1} from
 * @property {number} leaves the tick
 * @property {number} arrives
 * @property {boolean} lost
 * @property {number} first the number of its first frame
 * @property {Uint8Array[]} frames all that are not confirmed
 * @property {boolean} fresh whether one of them is sent for the first time
 * @property {number} have how many frames of the other side have come, without a gap
 * @property {number} sent how many frames its side has sent by then
 * @property {number} lane from 0 to 1: where it is drawn
 */

/** One player: a peer, the frames that it has sent and taken, and its worlds. */
export class Side {
  /**
   * Own frames, and how many of them the other side has confirmed.
   * @type {Uint8Array[]}
   */
  sent = [];
  confirmed = 0;
  /** Whether a frame is still to leave for the first time. */
  isFresh = false;
  /**
   * Which of the other's frames have come, and how many without a gap.
   * @type {boolean[]}
   */
  has = [];
  have = 0;
  /**
   * Packets that tell of frames which have not come.
   * @type {Packet[]}
   */
  open = [];
  /** All commands of the other side before this tick have come. */
  complete = 0;
  /** How many ticks were simulated again when frames came, and in all, in the last step. */
  again = 0;
  simulated = 0;
  /** How long that took, in milliseconds. */
  time = 0;

  /**
   * @param {import("../src/scene.js").Scene} scene
   * @param {0 | 1} player
   */
  constructor(scene, player) {
    this.player = player;
    this.peer = new Peer(scene, { player, ring: 64 });
    this.now = this.peer.world(0);
    this.before = this.peer.world(0);
    this.base = new World();
  }

  /** Simulates what is missing, and returns how many ticks that were. */
  settle() {
    const [ticks, begun] = [this.peer.counts.ticks, performance.now()];
    this.peer.settle();
    this.time += performance.now() - begun;
    return this.peer.counts.ticks - ticks;
  }

  /** The present world becomes the one before. */
  turnOver() {
    [this.before, this.now] = [this.now, this.before];
    this.peer.world(this.peer.reached, this.now);
  }

  free() {
    this.peer.free();
  }
}

export class Match {
  tick = 0;
  /** The last tick of which both sides have all commands, and the hash of its world. */
  common = 0;
  hash = "";
  /** The tick at which the worlds were found to differ, which never happens. */
  differs = /** @type {number | null} */ (null);
  /** Whether the present worlds are equal. */
  isEqualNow = true;
  /** @type {Packet[]} */
  packets = [];
  /**
   * The events of the match as lines of docs/FORMATS.md.
   * @type {string[]}
   */
  #lines = [];
  /** Ticks by which each side has gone on since its last line. */
  #advanced = [0, 0];

  /**
   * @param {import("../src/scene.js").Scene} scene
   * @param {Network} network
   * @param {() => number} [random] from 0 to 1
   */
  constructor(scene, network, random = Math.random) {
    this.scene = scene;
    this.network = network;
    this.random = random;
    this.sides = [new Side(scene, 0), new Side(scene, 1)];
    this.#compare();
  }

  free() {
    for (const side of this.sides) side.free();
  }

  /**
   * Issues a command of a player, in units of 2^-24. Its frame leaves with the next packet.
   * @param {0 | 1} player
   * @param {"push" | "turn" | "stop" | "place"} kind
   * @param {number} body
   * @param {...bigint} numbers
   */
  issue(player, kind, body, ...numbers) {
    const side = this.sides[player];
    const { peer } = side;
    const vector = /** @type {[bigint, bigint]} */ (/** @type {unknown} */ (numbers));
    const frame =
      kind === "stop" ? peer.stop(body)
      : kind === "turn" ? peer.turn(body, numbers[0])
      : peer[kind](body, vector);
    this.#note(player, `issue ${player} ${[kind, body, ...numbers].join(" ")}`);
    side.sent.push(frame);
    side.isFresh = true;
  }

  /**
   * One tick of both sides. Frames that have come are taken, and what they change is simulated
   * again: `corrected` is called with the side, and the present world before and after. Then
   * `commands` may issue for a player, both sides go on by a tick, and packets leave.
   * @param {(player: 0 | 1) => void} commands
   * @param {(side: Side, old: World, now: World) => void} [corrected]
   */
  step(commands, corrected = () => {}) {
    for (const side of this.sides) {
      side.time = 0;
      side.again = 0;
      if (this.#receive(side)) {
        side.again = side.settle();
        side.turnOver();
        corrected(side, side.before, side.now);
      }
    }
    for (const side of this.sides) {
      commands(side.player);
      side.peer.advance(1);
      this.#advanced[side.player] += 1;
      side.simulated = side.again + side.settle();
      side.turnOver();
    }
    this.tick += 1;
    this.#send();
    if (this.tick % SEAL_EVERY === 0) this.#compare();
    this.isEqualNow = this.sides[0].now.equals(this.sides[1].now);
  }

  /**
   * Takes what has come for a side, and returns whether a frame was new.
   * @param {Side} side
   */
  #receive(side) {
    let isNew = false;
    for (const packet of this.packets) {
      if (packet.from === side.player || packet.lost || packet.arrives !== this.tick) continue;
      packet.frames.forEach((frame, place) => {
        if (this.#take(side, packet.first + place, frame)) isNew = true;
      });
      while (side.has[side.have]) side.have += 1;
      side.confirmed = Math.max(side.confirmed, packet.have);
      side.open.push(packet);
    }
    side.open = side.open.filter((packet) => {
      if (packet.sent <= side.have) side.complete = Math.max(side.complete, packet.leaves);
      return packet.sent > side.have;
    });
    return isNew;
  }

  /**
   * Takes a frame of the other side, unless it has come before.
   * @param {Side} side
   * @param {number} number
   * @param {Uint8Array} frame
   */
  #take(side, number, frame) {
    if (side.has[number]) return false;
    side.has[number] = true;
    side.peer.take(frame);
    this.#note(side.player, `take ${side.player} ${toHex(frame)}`);
    return true;
  }

  #send() {
    const { delay, jitter, loss } = this.network;
    const seen = (/** @type {Packet} */ packet) =>
      packet.arrives > this.tick - (packet.lost ? LOST_STAYS : 1);
    this.packets = this.packets.filter(seen);
    for (const side of this.sides) {
      const isOpen = side.sent.length > side.confirmed && this.tick % SEND_EVERY === 0;
      if (!side.isFresh && !isOpen && this.tick % BEAT_EVERY !== side.player) continue;
      const ticks = Math.round((delay + this.random() * jitter) / TICK_MS);
      this.packets.push({
        from: side.player,
        leaves: this.tick,
        arrives: this.tick + Math.max(1, ticks),
        lost: this.random() < loss,
        first: side.confirmed,
        frames: side.sent.slice(side.confirmed),
        fresh: side.isFresh,
        have: side.have,
        sent: side.sent.length,
        lane: this.random(),
      });
      side.isFresh = false;
    }
  }

  /** Seals the last tick of which both have all commands, and compares both worlds there. */
  #compare() {
    const [first, second] = this.sides;
    const common = Math.min(this.tick, first.complete, second.complete);
    if (common <= this.common && this.hash !== "") return;
    for (const side of this.sides) {
      side.peer.seal(common);
      side.peer.base(side.base);
    }
    this.common = common;
    this.hash = first.base.hash();
    if (!first.base.equals(second.base)) this.differs ??= common;
  }

  /** How many frames are on their way, or lost and to be sent again. */
  get open() {
    const [first, second] = this.sides;
    return first.sent.length - second.have + second.sent.length - first.have;
  }

  /** Delivers all frames at once. Then both worlds are equal. */
  deliver() {
    for (const side of this.sides) {
      const other = this.sides[1 - side.player];
      other.sent.forEach((frame, number) => this.#take(side, number, frame));
      side.have = other.sent.length;
      side.complete = this.tick;
      other.confirmed = side.have;
      side.open = [];
    }
    this.packets = [];
    for (const side of this.sides) {
      side.settle();
      side.peer.world(this.tick, side.now);
    }
    this.#compare();
    this.isEqualNow = this.sides[0].now.equals(this.sides[1].now);
  }

  /**
   * Notes an event of a player, behind the ticks by which it has gone on.
   * @param {0 | 1} player
   * @param {string} [line]
   */
  #note(player, line) {
    if (this.#advanced[player] > 0) {
      this.#lines.push(`advance ${player} ${this.#advanced[player]}`);
    }
    this.#advanced[player] = 0;
    if (line !== undefined) this.#lines.push(line);
  }

  /** The match as a text that `pf_play run` reads; at its end it shows both worlds. */
  text() {
    this.#note(0);
    this.#note(1);
    const head = "# A match of the playground: two players whose frames came late.\n";
    const ends = [0, 1].map((player) => `settle ${player}\nshow ${player} ${this.tick}\n`);
    const events = this.#lines.map((line) => `${line}\n`).join("");
    return `${head}${this.scene}peers 2\n${events}${ends.join("")}`;
  }
}
