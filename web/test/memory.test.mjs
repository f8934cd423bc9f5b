import assert from "node:assert/strict";
import { setImmediate } from "node:timers/promises";
import test from "node:test";
import { loaded } from "../out/src/core.js";
import { Peer, refuses, Scene, sceneOfTwo } from "./common.mjs";

/** How many keys may be in use when the collector has run again and again. */
const FEW_KEYS = 600;

test("what is freed is gone, and may be freed twice", () => {
  const scene = sceneOfTwo();
  const peer = new Peer(scene, { player: 0 });
  scene.free();
  peer.advance();
  peer.settle();
  peer.free();
  peer.free();
  refuses("PF_BAD_KEY", () => peer.advance());
  refuses("PF_BAD_KEY", () => new Peer(scene, { player: 0 }));
});

test("a world stays when its peer is freed", () => {
  const peer = new Peer(sceneOfTwo(), { player: 0 });
  peer.advance(10);
  peer.settle();
  const world = peer.world();
  const hash = world.hash();
  peer.free();
  assert.equal(world.hash(), hash);
  assert.equal(world.values.length, 3 * 7);
});

test("a world is the same after the memory has grown", () => {
  const peer = new Peer(sceneOfTwo(), { player: 0 });
  peer.advance(10);
  peer.settle();
  const world = peer.world();
  const [hash, raw] = [world.hash(), Array.from(world.raw)];
  const before = loaded().buffer.byteLength;
  const large = new Scene();
  for (let body = 0; body < 1000; body++) {
    large.circle({ at: [(body % 40) * 2.1, Math.floor(body / 40) * 2.1], radius: 1 });
  }
  const peers = [];
  while (loaded().buffer.byteLength === before && peers.length < 100) {
    const other = new Peer(large, { player: 0, ring: 64 });
    other.advance(70);
    other.settle();
    peers.push(other);
  }
  assert.notEqual(loaded().buffer.byteLength, before);
  assert.deepEqual(Array.from(world.raw), raw);
  assert.equal(world.hash(), hash);
  for (const other of peers) other.free();
});

test("what is freed is used again", () => {
  const scene = sceneOfTwo();
  let bytes = 0;
  for (let made = 0; made < 3000; made++) {
    const peer = new Peer(scene, { player: 0, ring: 64 });
    peer.advance(64);
    peer.settle();
    peer.free();
    if (made === 100) bytes = loaded().buffer.byteLength;
  }
  assert.equal(loaded().buffer.byteLength, bytes);
});

test("where all memory is taken, a call says so, and works again when some is there", () => {
  const core = loaded();
  const blocks = [];
  for (let size = 2 ** 28; size >= 16; size /= 2) {
    try {
      for (;;) blocks.push(core.allocate(size));
    } catch (error) {
      assert.equal(error.name, "PF_OUT_OF_MEMORY");
    }
  }
  assert.throws(() => sceneOfTwo(), (error) => error.name === "PF_OUT_OF_MEMORY");
  for (const block of blocks) core.free(block);
  assert.equal(sceneOfTwo().bodies.length, 3);
});

test("worlds take no memory of the core", () => {
  const peer = new Peer(sceneOfTwo(), { player: 0 });
  peer.world(0);
  const bytes = loaded().buffer.byteLength;
  const worlds = Array.from({ length: 20000 }, () => peer.world(0));
  assert.equal(loaded().buffer.byteLength, bytes);
  assert.ok(worlds.every((world) => world.equals(worlds[0])));
});

test("what the collector finds is freed", { skip: !globalThis.gc }, async () => {
  const scene = sceneOfTwo();
  let greatest = 0;
  for (let made = 0; made < 2000; made++) {
    const peer = new Peer(scene, { player: 0, ring: 64 });
    peer.advance(64);
    peer.settle();
    greatest = Math.max(greatest, peer.key[0]);
    if (made % 50 === 0) {
      globalThis.gc();
      await setImmediate();
    }
  }
  assert.ok(greatest < FEW_KEYS, `${greatest} keys`);
});
