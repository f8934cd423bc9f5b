import assert from "node:assert/strict";
import test from "node:test";
import {
  fromHex,
  metres,
  Peer,
  readFrame,
  refuses,
  Scene,
  sceneOfTwo,
  STRIDE,
  toHex,
  World,
} from "./common.mjs";

function twoPeers() {
  const scene = sceneOfTwo();
  return [new Peer(scene, { player: 0 }), new Peer(scene, { player: 1 })];
}

function go(peer, ticks) {
  peer.advance(ticks);
  assert.equal(peer.settle(), peer.reached);
}

test("a late frame makes both worlds equal", () => {
  const [first, second] = twoPeers();
  const frame = first.push(1, [6, 0]);
  go(first, 20);
  go(second, 20);
  assert.ok(!first.world().equals(second.world()));
  assert.notEqual(first.world().hash(), second.world().hash());
  assert.equal(second.take(frame), "new");
  assert.equal(second.take(frame.buffer), "same");
  second.settle();
  assert.ok(first.world().equals(second.world()));
  assert.equal(first.world().hash(), second.world().hash());
  assert.equal(second.counts.ticks, 40);
});

test("worlds of two ticks are two worlds", () => {
  const [peer] = twoPeers();
  const first = peer.world();
  const hash = first.hash();
  go(peer, 5);
  const second = peer.world();
  assert.ok(!first.equals(second));
  assert.deepEqual([first.tick, second.tick], [0, 5]);
  assert.equal(first.hash(), hash);
  assert.ok(second.values[STRIDE + 1] < first.values[STRIDE + 1], "it falls");
  assert.ok(first.equals(peer.world(0)));
});

test("a world is filled where one is given, unless the call is refused", () => {
  const [peer] = twoPeers();
  const world = peer.world(0);
  const before = Array.from(world.values);
  refuses("PF_NOT_REACHED", () => peer.world(1, world));
  assert.deepEqual([world.tick, Array.from(world.values)], [0, before]);
  go(peer, 5);
  assert.equal(peer.world(5, world), world);
  assert.equal(world.tick, 5);
  assert.ok(world.equals(peer.world(5)));
  assert.equal(peer.base(world), world);
  assert.deepEqual([world.tick, Array.from(world.values)], [0, before]);
});

test("typed arrays are vectors as arrays are", () => {
  const [peer] = twoPeers();
  const [x, y] = [6n << 24n, -(1n << 23n)];
  for (const impulse of [
    [6, -0.5],
    { x: 6, y: -0.5 },
    Float64Array.of(6, -0.5),
    Float32Array.of(6, -0.5),
    BigInt64Array.of(x, y),
  ]) {
    const said = readFrame(peer.push(1, impulse));
    assert.deepEqual([said.x, said.y], [x, y]);
  }
  const scene = new Scene({ gravity: Float32Array.of(0, -10) });
  scene.box({ at: Float64Array.of(1, 2), half: Float32Array.of(1, 1) });
  const same = new Scene({ gravity: [0, -10] });
  same.box({ at: [1, 2], half: [1, 1] });
  assert.equal(scene.toString(), same.toString());
});

test("a frame says what was issued", () => {
  const [first] = twoPeers();
  const frame = first.push(1, [6, -0.5]);
  const said = { tick: 0, player: 0, number: 0, kind: "push", body: 1 };
  assert.deepEqual(readFrame(frame), { ...said, x: 6n << 24n, y: -(1n << 23n) });
  assert.deepEqual(fromHex(toHex(frame)), frame);
  const others = [first.turn(1, -0.25), first.stop(1), first.place(1, { x: 1, y: 9 })];
  assert.deepEqual(others.map((it) => readFrame(it).kind), ["turn", "stop", "place"]);
  assert.deepEqual(first.frames().map(toHex), [frame, ...others].map(toHex));
  first.advance();
  assert.deepEqual(first.frames(1), []);
});

test("merged peers hold the same commands", () => {
  const [first, second] = twoPeers();
  first.push(1, [1, 0]);
  second.turn(2, 1);
  second.stop(2);
  assert.equal(first.merge(second), 2);
  assert.equal(second.mergeAlone(first), 1);
  for (const peer of [first, second]) go(peer, 5);
  assert.ok(first.world().equals(second.world()));
});

test("a sealed tick is the horizon", () => {
  const [first, second] = twoPeers();
  for (const peer of [first, second]) {
    go(peer, 20);
    peer.seal(15);
  }
  assert.equal(first.horizon, 15);
  assert.equal(first.base().tick, 15);
  assert.ok(first.base().equals(second.base()));
  assert.ok(first.base().equals(second.world(15)));
});

test("a world shows its bodies and contacts", () => {
  const [first] = twoPeers();
  go(first, 50);
  const world = first.world(50, new World());
  assert.equal(world.bodyCount, 3);
  assert.equal(world.values.length, 3 * STRIDE);
  assert.equal(world.raw.length, 3 * 8);
  for (let at = 0; at < STRIDE; at++) {
    assert.equal(world.values[STRIDE + at], metres(world.raw[8 + at]));
  }
  assert.deepEqual([...world.awake], [0, 1, 1]);
  const { x, y, awake } = world.body(1);
  assert.deepEqual([x, Math.abs(y - 0.5) < 0.02, awake], [0, true, true]);
  const contacts = world.contacts();
  assert.equal(contacts.length, world.contactCount);
  assert.deepEqual([contacts[0].a, contacts[0].b], [0, 1]);
  assert.ok(contacts[0].normal > 0);
});
