// A late frame makes the worlds of two peers equal, in a folder that has nothing but the package.
import { init, Peer, Scene } from "buyosen";

await init();
const scene = new Scene();
const ball = scene.circle({ at: [0, 3], radius: 0.5, owner: 0 });
const [first, second] = [0, 1].map((player) => new Peer(scene, { player }));
const frame = first.push(ball, [6, 0]);
for (const peer of [first, second]) {
  peer.advance(20);
  peer.settle();
}
const wereEqual = first.world().equals(second.world());
second.take(frame);
second.settle();
process.exitCode = !wereEqual && first.world().equals(second.world()) ? 0 : 1;
