// Each stored text of examples/ is run over the package, and gives the stored replies, to the byte.
import assert from "node:assert/strict";
import { readdirSync, readFileSync } from "node:fs";
import test from "node:test";
import { fromHex, Peer, PfError, Scene, toHex, World } from "./common.mjs";

const EXAMPLES = new URL("../../examples/", import.meta.url);

/** The ticks that a refusal tells behind its name. */
const TICKS = {
  PF_NOT_REACHED: (peer) => [peer.reached],
  PF_TOO_OLD: (peer) => [peer.horizon],
  PF_HORIZONS_DIFFER: (peer, other) => [peer.horizon, other.horizon],
};

/** PF_FRAME_BAD_KIND as the replies have it, BadKind. */
function wordOf(name) {
  const words = name.replace(/^PF_(FRAME_)?/, "").split("_");
  return words.map((word) => word[0] + word.slice(1).toLowerCase()).join("");
}

function shown(peer, world, scene, number) {
  const lines = [`show ${number} ${world.tick}`];
  const raw = world.raw;
  scene.bodies.forEach(({ mass }, body) => {
    if (mass === 0n) return;
    const numbers = Array.from(raw.subarray(body * 8, body * 8 + 7));
    const last = raw[body * 8 + 7];
    lines.push(["body", body, ...numbers, last & 0xffffffffn, last >> 32n].join(" "));
  });
  for (const { a, b, feature, normal, tangent } of world.contacts()) {
    const impulses = [normal, tangent].map((impulse) => BigInt(impulse * 2 ** 24));
    lines.push(["contact", a, b, feature, ...impulses].join(" "));
  }
  return [...lines, "end"];
}

/** The replies to a line of an event. */
function replies(word, peers, scene, [first, ...fields]) {
  const peer = peers[first];
  switch (word) {
    case "issue": {
      const [kind, body, ...numbers] = fields;
      const values = numbers.map(BigInt);
      const impulse = kind === "turn" ? values : kind === "stop" ? [] : [values];
      return [`issue ${first} ${toHex(peer[kind](Number(body), ...impulse))}`];
    }
    case "take":
      return [`take ${first} ${peer.take(fromHex(fields[0]))}`];
    case "merge":
      return [`merge ${first} ${peer.merge(peers[fields[0]])}`];
    case "advance":
      return [`advance ${first} ${peer.advance(Number(fields[0]))}`];
    case "settle":
      return [`settle ${first} ${peer.settle()}`];
    case "seal":
      peer.seal(Number(fields[0]));
      return [`seal ${first} ${fields[0]}`];
    case "show":
      return shown(peer, peer.world(Number(fields[0]), new World()), scene, first);
  }
  throw new Error(`no event: ${word}`);
}

/** The same, or the refusal. */
function answers(word, peers, scene, fields) {
  try {
    return replies(word, peers, scene, fields);
  } catch (error) {
    if (!(error instanceof PfError)) throw error;
    const ticks = TICKS[error.name]?.(peers[fields[0]], peers[fields[1]]) ?? [];
    return [["refused", wordOf(error.name), ...ticks].join(" ")];
  }
}

function run(text) {
  const end = text.indexOf("end\n") + "end\n".length;
  const scene = Scene.read(text.slice(0, end));
  const peers = [];
  const lines = [];
  for (const line of text.slice(end).split("\n")) {
    const [word, ...fields] = line.split(" ");
    if (line === "" || word.startsWith("#")) continue;
    if (word !== "peers") {
      lines.push(...answers(word, peers, scene, fields));
      continue;
    }
    while (peers.length < Number(fields[0])) {
      peers.push(new Peer(scene, { player: peers.length, ring: 64 }));
    }
  }
  return lines.map((line) => `${line}\n`).join("");
}

const texts = readdirSync(EXAMPLES).filter((name) => /^(?!session-).*\.txt$/.test(name));
for (const name of texts) {
  test(name, () => {
    const [text, wanted] = [name, name.replace(/\.txt$/, ".out")].map((file) =>
      readFileSync(new URL(file, EXAMPLES), "utf8"),
    );
    assert.equal(run(text), wanted);
  });
}
