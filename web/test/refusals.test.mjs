import assert from "node:assert/strict";
import test from "node:test";
import {
  fromHex,
  metres,
  Peer,
  PfError,
  raw,
  readFrame,
  refuses,
  Scene,
  sceneOfTwo,
  toHex,
} from "./common.mjs";

const at = [0, 0];

test("commands", () => {
  const peer = new Peer(sceneOfTwo(), { player: 0 });
  refuses("PF_NOT_OWNER", () => peer.push(2, [1, 0]));
  refuses("PF_STATIC_BODY", () => peer.push(0, [1, 0]));
  assert.throws(() => peer.push(0, [1, 0]), {
    message: "the body is static (pf_peer_push)",
  });
  refuses("PF_UNKNOWN_BODY", () => peer.push(3, [1, 0]));
  refuses("PF_UNKNOWN_BODY", () => peer.push(2 ** 16 + 1, [1, 0]));
  refuses("PF_BAD_NUMBER", () => peer.push(1, [1e300, 0]));
  refuses("PF_BAD_NUMBER", () => peer.push(1, [2n ** 64n, 0]));
  refuses("PF_BAD_NUMBER", () => peer.turn(1, -(2n ** 64n)));
  refuses("PF_BAD_NUMBER", () => peer.place(1, [2 ** 21, 0]));
  assert.deepEqual(peer.frames(), []);
});

test("frames", () => {
  const peer = new Peer(sceneOfTwo(), { player: 0 });
  refuses("PF_FRAME_SHORT", () => peer.take(new Uint8Array(26)));
  refuses("PF_FRAME_LONG", () => peer.take(new Uint8Array(28)));
  refuses("PF_FRAME_LONG", () => peer.take(new Uint8Array(3000)));
  refuses("PF_FRAME_BAD_VERSION", () => peer.take(new Uint8Array(27)));
  refuses("PF_FRAME_SHORT", () => readFrame(new Uint8Array(0)));
  refuses("PF_FRAME_LONG", () => readFrame(new ArrayBuffer(28)));
  refuses("PF_FRAME_BAD_VERSION", () => readFrame(new Uint8Array(27)));
  for (const [version, kind] of [[1, 4], [1, 3], [2, 0]]) {
    const frame = new Uint8Array(27);
    frame[0] = version;
    frame[8] = kind;
    refuses("PF_FRAME_BAD_KIND", () => readFrame(frame));
    refuses("PF_FRAME_BAD_KIND", () => peer.take(frame));
  }
});

test("ticks", () => {
  const scene = sceneOfTwo();
  const [peer, other] = [0, 1].map((player) => new Peer(scene, { player }));
  const frame = peer.push(1, [1, 0]);
  refuses("PF_NOT_REACHED", () => peer.world(1));
  refuses("PF_NOT_REACHED", () => peer.seal(1));
  refuses("PF_TICK_LIMIT", () => peer.advance(2 ** 20 + 1));
  refuses("PF_TICK_LIMIT", () => peer.advance(2 ** 40));
  peer.advance(20);
  peer.seal(15);
  refuses("PF_TOO_OLD", () => peer.take(frame));
  refuses("PF_TOO_OLD", () => peer.world(3));
  refuses("PF_HORIZONS_DIFFER", () => peer.merge(other));
});

test("scenes and peers", () => {
  const scene = sceneOfTwo();
  refuses("PF_SCENE_BAD_NUMBER", () => new Scene({ gravity: [0, -1025] }));
  refuses("PF_SCENE_BAD_SIZE", () => scene.circle({ at, radius: 1e-3 }));
  refuses("PF_SCENE_BAD_SIZE", () => scene.box({ at, half: [1, 2000] }));
  refuses("PF_SCENE_BAD_MASS", () => scene.circle({ at, radius: 1, mass: -1 }));
  refuses("PF_SCENE_BAD_NUMBER", () => scene.circle({ at: [0, 2 ** 30], radius: 1 }));
  refuses("PF_SCENE_BAD_NUMBER", () => scene.circle({ at, radius: 1, owner: 8 }));
  refuses("PF_SCENE_BAD_NUMBER", () => scene.circle({ at, radius: 1, owner: 1000 }));
  assert.equal(scene.bodies.length, 3);
  refuses("PF_BAD_PLAYER", () => new Peer(scene, { player: 8 }));
  refuses("PF_BAD_PLAYER", () => new Peer(scene, { player: 256 }));
  refuses("PF_BAD_RING", () => new Peer(scene, { player: 0, ring: 0 }));
  refuses("PF_BAD_RING", () => new Peer(scene, { player: 0, ring: 65 }));
  const full = new Scene();
  for (let body = 0; body < 1024; body++) full.circle({ at: [body * 3, 0], radius: 1 });
  refuses("PF_SCENE_TOO_MANY", () => full.circle({ at, radius: 1 }));
});

test("texts, with their lines", () => {
  for (const [text, name, line] of [
    ["", "PF_SCENE_BAD_LINE", 1],
    ["gravity 0 0\ncircle - 1 1\nend\n", "PF_SCENE_BAD_LINE", 2],
    ["gravity 0 0\n\ncircle - 0 0 1 0 0\nend\n", "PF_SCENE_BAD_SIZE", 3],
  ]) {
    const isRight = (error) =>
      error instanceof PfError && error.name === name && error.line === line;
    assert.throws(() => Scene.read(text), isRight, text);
  }
});

test("a mass that rounds to 0 is refused, and only 0 is static", () => {
  const scene = new Scene();
  for (const mass of [1e-9, 2 ** -26, -1e-9, Number.MIN_VALUE, 1n]) {
    refuses("PF_SCENE_BAD_MASS", () => scene.circle({ at, radius: 1, mass }));
    refuses("PF_SCENE_BAD_MASS", () => scene.box({ at, half: [1, 1], mass }));
  }
  for (const mass of [0, -0, 0n]) scene.circle({ at, radius: 1, mass });
  assert.deepEqual(scene.bodies.map((body) => body.mass), [0n, 0n, 0n]);
});

/** Calls of a scene of two and a peer of it, and the argument that each has wrong. */
const WRONG = [
  ["impulse", (scene, peer) => peer.push(1, 5)],
  ["impulse.x", (scene, peer) => peer.push(1, [NaN, 0])],
  ["impulse.y", (scene, peer) => peer.push(1, { x: 1 })],
  ["impulse.y", (scene, peer) => peer.push(1, [1, "2"])],
  ["impulse", (scene, peer) => peer.push(1, null)],
  ["impulse", (scene, peer) => peer.push(1, [1])],
  ["impulse", (scene, peer) => peer.push(1, [1, 2, 3])],
  ["impulse", (scene, peer) => peer.push(1, new Float64Array(3))],
  ["impulse.x", (scene, peer) => peer.push(1, new DataView(new ArrayBuffer(16)))],
  ["impulse", (scene, peer) => peer.push(1, "12")],
  ["body", (scene, peer) => peer.push(1.5, [0, 0])],
  ["body", (scene, peer) => peer.push("1", [0, 0])],
  ["body", (scene, peer) => peer.push(1n, [0, 0])],
  ["impulse", (scene, peer) => peer.turn(1, [1, 0])],
  ["impulse", (scene, peer) => peer.turn(1)],
  ["at", (scene, peer) => peer.place(1)],
  ["ticks", (scene, peer) => peer.advance(-1)],
  ["ticks", (scene, peer) => peer.advance(0.5)],
  ["tick", (scene, peer) => peer.seal("1")],
  ["tick", (scene, peer) => peer.world("1")],
  ["into", (scene, peer) => peer.world(0, {})],
  ["into", (scene, peer) => peer.base(peer)],
  ["from", (scene, peer) => peer.frames(null)],
  ["number", (scene, peer) => peer.world(0).body("1")],
  ["other", (scene, peer) => peer.world(0).equals(peer)],
  ["Scene", (scene, peer) => new Scene([0, -10])],
  ["Scene", (scene, peer) => new Scene(null)],
  ["gravity", (scene, peer) => new Scene({ gravity: -10 })],
  ["box", (scene, peer) => scene.box({ at })],
  ["circle", (scene, peer) => scene.circle({ radius: 1 })],
  ["circle", (scene, peer) => scene.circle()],
  ["circle", (scene, peer) => scene.circle(1)],
  ["radius", (scene, peer) => scene.circle({ at, radius: "1" })],
  ["mass", (scene, peer) => scene.circle({ at, radius: 1, mass: "1" })],
  ["mass", (scene, peer) => scene.circle({ at, radius: 1, mass: null })],
  ["friction", (scene, peer) => scene.circle({ at, radius: 1, friction: Symbol("f") })],
  ["owner", (scene, peer) => scene.circle({ at, radius: 1, owner: -1 })],
  ["half.x", (scene, peer) => scene.box({ at, half: { y: 1 } })],
  ["angle", (scene, peer) => scene.box({ at, half: [1, 1], angle: NaN })],
  ["angle", (scene, peer) => scene.box({ at, half: [1, 1], angle: 2 ** 21 })],
  ["direction", (scene, peer) => scene.box({ at, half: [1, 1], direction: 1 })],
  ["text", (scene, peer) => Scene.read(new TextEncoder().encode("gravity 0 0\nend\n"))],
  ["frame", (scene, peer) => peer.take("00")],
  ["frame", (scene, peer) => peer.take(new Blob([]))],
  ["frame", (scene, peer) => readFrame([1, 2, 3])],
  ["bytes", (scene, peer) => toHex("00")],
  ["digits", (scene, peer) => fromHex("0g")],
  ["digits", (scene, peer) => fromHex("012")],
  ["digits", (scene, peer) => fromHex(12)],
  ["value", (scene, peer) => raw("1")],
  ["value", (scene, peer) => metres(1)],
  ["scene", (scene, peer) => new Peer({}, { player: 0 })],
  ["scene", (scene, peer) => new Peer(peer, { player: 0 })],
  ["Peer", (scene, peer) => new Peer(scene, 0)],
  ["player", (scene, peer) => new Peer(scene, { player: null })],
  ["ring", (scene, peer) => new Peer(scene, { player: 0, ring: "16" })],
  ["other", (scene, peer) => peer.merge(scene)],
  ["other", (scene, peer) => peer.mergeAlone(null)],
];

test("arguments of a wrong kind are named", () => {
  const scene = sceneOfTwo();
  const peer = new Peer(scene, { player: 0 });
  for (const [name, call] of WRONG) {
    const isNamed = (error) => error instanceof TypeError && error.message.startsWith(`${name}: `);
    assert.throws(() => call(scene, peer), isNamed, call.toString());
  }
  assert.equal(scene.bodies.length, 3);
  assert.deepEqual(peer.frames(), []);
});

test("options that are unknown or missing are named", () => {
  const scene = sceneOfTwo();
  const take = "at, radius, mass, friction, owner";
  for (const [message, call] of [
    [`circle: there is no option raduis: it takes ${take}`, () => scene.circle({ raduis: 1 })],
    ["circle: the option radius is missing", () => scene.circle({ at })],
    ["box: the option at is missing", () => scene.box({ half: [1, 1], angle: 1 })],
    [
      "box: an angle or a direction is wanted, not both",
      () => scene.box({ at, half: [1, 1], angle: 1, direction: [1, 0] }),
    ],
    ["Scene: there is no option g: it takes gravity", () => new Scene({ g: [0, 0] })],
    ["Peer: the option player is missing", () => new Peer(scene)],
    ["Peer: the option player is missing", () => new Peer(scene, { ring: 8 })],
    ["impulse: [x, y] or {x, y} is wanted, not Array of length 3", () =>
      new Peer(scene, { player: 0 }).push(1, [1, 2, 3])],
  ]) {
    assert.throws(call, { name: "TypeError", message });
  }
});
