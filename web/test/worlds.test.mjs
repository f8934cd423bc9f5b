// The match of capi/worlds.c: its worlds are the same on each machine.
import assert from "node:assert/strict";
import { readFileSync } from "node:fs";
import test from "node:test";
import { ONE, Peer, Scene } from "./common.mjs";

const [TICKS, MEETING, FIRST, BODIES, LATE, ONE_IN] = [1024, 32, 3, 63, 24, 4];

/** A row of numbers, each below a limit. */
class Row {
  #state = 1n;

  next(limit) {
    const next = this.#state * 6364136223846793005n + 1442695040888963407n;
    this.#state = BigInt.asUintN(64, next);
    return Number((this.#state >> 33n) % BigInt(limit));
  }
}

/** The text of a bin, and of the bodies above it. */
function sceneText() {
  const floor = [20 * ONE, ONE, 0, -ONE, ONE, 0].join(" ");
  const lines = [`gravity 0 ${-10 * ONE}`, `box - 0 ${ONE / 2} ${floor}`];
  for (const side of [-21, 21]) {
    lines.push(`box - 0 ${ONE / 2} ${ONE} ${20 * ONE} ${side * ONE} ${19 * ONE} ${ONE} 0`);
  }
  for (let i = 0; i < BODIES - FIRST; i++) {
    const size = ((i % 3) + 2) * (ONE / 4);
    const at = [((i % 10) * 4 - 18) * ONE, (Math.floor(i / 10) * 3 + 2) * ONE];
    const turned = [((i % 7) - 3) * (ONE / 4), ((i % 5) - 2) * (ONE / 4)];
    const shape = i % 4 < 2 ? [size, ...at] : [size, size, ...at, ...turned];
    const of = [i % 4 < 2 ? "circle" : "box", (FIRST + i) % 2, ONE, ONE / 2];
    lines.push([...of, ...shape].join(" "));
  }
  return [...lines, "end", ""].join("\n");
}

/** A player's command for one of its bodies. */
function issue(row, peer) {
  const [kind, first, second] = [row.next(4), row.next(17), row.next(9)];
  const body = FIRST + ((FIRST + peer.player) % 2) + 2 * row.next((BODIES - FIRST) / 2);
  if (kind === 0) return peer.push(body, [first - 8, second]);
  if (kind === 1) return peer.turn(body, second - 4);
  if (kind === 2) return peer.stop(body);
  return peer.place(body, [(first - 8) * 2, second + 10]);
}

test("the worlds of a long match are those of each machine", () => {
  const scene = Scene.read(sceneText());
  const peers = [0, 1].map((player) => new Peer(scene, { player, ring: 16 }));
  const row = new Row();
  const lines = [];
  let letters = [];
  for (let tick = 0; tick < TICKS; ) {
    const meeting = (Math.floor(tick / MEETING) + 1) * MEETING;
    for (const peer of peers) {
      if (row.next(ONE_IN) !== 0) continue;
      const frame = issue(row, peer);
      const due = Math.min(tick + 1 + row.next(LATE), meeting);
      letters.push({ frame, to: peers[1 - peer.player], due });
    }
    tick++;
    for (const peer of peers) peer.advance();
    for (const { frame, to } of letters.filter((it) => it.due === tick)) to.take(frame);
    letters = letters.filter((it) => it.due > tick);
    for (const peer of peers) peer.settle();
    if (tick !== meeting) continue;
    const [own, other] = peers.map((peer) => peer.world());
    lines.push(`${tick} ${own.contactCount} ${own.hash()}\n`);
    assert.ok(own.equals(other));
    for (const peer of peers) peer.seal(tick);
  }
  const stored = new URL("../../capi/worlds.out", import.meta.url);
  assert.equal(lines.join(""), readFileSync(stored, "utf8"));
});
