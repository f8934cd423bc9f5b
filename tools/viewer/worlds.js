// The worlds of the match: they are unpacked, and a scene is made of those of a tick.

const UNIT = 16777216;
const FIELDS = 9; // of a body: x y c s vx vy w timer awake
const KEPT = 8; // unpacked blocks of a track
const JUMP_TICKS = 16; // for which a jump is shown
const data = JSON.parse(document.getElementById("data").textContent);
const moving = data.bodies.filter((body) => !body.static);
const placeOf = new Map(moving.map((body, k) => [body.number, k]));

// ---- numbers

/** Adds a number to the one at a place. */
function addTo(numbers, at, low, high) {
  const sum = (numbers[at] >>> 0) + (low >>> 0);
  numbers[at] = sum;
  numbers[at + 1] += high + (sum > 0xffffffff);
}

/**
 * Rows of so many numbers of 64 bits, from the deflated planes of their bytes in base 64. Each
 * number is two of 32 bits, the lower one first: so it is compared and read much faster. If they
 * are changes of what stands so many places before, they are added up.
 */
async function unpackHere(text, width, before) {
  const deflated = await fetch(`data:;base64,${text}`);
  const stream = deflated.body.pipeThrough(new DecompressionStream("deflate"));
  const planes = new Uint8Array(await new Response(stream).arrayBuffer());
  const long = 8 * width, count = planes.length / long;
  const rows = new Uint8Array(planes.length), numbers = new Int32Array(rows.buffer);
  for (let plane = 0; plane < long; plane += 1) {
    for (let row = 0; row < count; row += 1) rows[row * long + plane] = planes[plane * count + row];
  }
  for (let at = 2 * before; before && at < numbers.length; at += 2) {
    addTo(numbers, at, numbers[at - 2 * before], numbers[at - 2 * before + 1]);
  }
  return numbers;
}

/** What the thread does that unpacks, so that drawing does not wait for it. */
async function answer({ data: [name, ...packed] }) {
  const numbers = await unpackHere(...packed);
  postMessage([name, numbers], [numbers.buffer]);
}

const program = [addTo, unpackHere, answer, "onmessage = answer;"].join("\n");
const thread = new Worker(URL.createObjectURL(new Blob([program])));
const waiting = []; // for an answer, by the names of the questions
thread.onmessage = ({ data: [name, numbers] }) => {
  waiting[name](numbers);
  delete waiting[name];
};

function unpacked(text, width, before = 0) {
  return new Promise((done) => {
    thread.postMessage([waiting.push(done) - 1, text, width, before]);
  });
}

const rawAt = (numbers, k) => (BigInt(numbers[2 * k + 1]) << 32n) | BigInt(numbers[2 * k] >>> 0);
const realAt = (numbers, k) => numbers[2 * k + 1] * 256 + (numbers[2 * k] >>> 0) / UNIT;

/** Whether a body that moves has the same first fields in two lists of rows. */
function isSame(rows, others, k, fields) {
  const start = 2 * FIELDS * k;
  for (let at = start; at < start + 2 * fields; at += 1) {
    if (rows[at] !== others[at]) return false;
  }
  return true;
}

/** The worlds of a peer, tick by tick. */
class Track {
  #kept = new Map();

  constructor({ blocks, ends, again }) {
    Object.assign(this, { blocks, ends, again });
    this.corrections = Object.keys(again).map(Number);
  }

  /** What was unpacked under a name, or is now. The latest are kept. */
  #keep(name, unpack) {
    const found = this.#kept.get(name) ?? unpack();
    this.#kept.delete(name);
    this.#kept.set(name, found);
    if (this.#kept.size > KEPT) this.#kept.delete(this.#kept.keys().next().value);
    return found;
  }

  async #unpackBlock(number) {
    const [bodies, contacts] = this.blocks[number];
    const all = [unpacked(bodies, FIELDS, FIELDS * moving.length), unpacked(contacts, 5)];
    const [rows, points] = await Promise.all(all);
    return { bodies: rows, contacts: points };
  }

  /** The block that has a tick. */
  block(tick) {
    const number = Math.floor(tick / data.span);
    if (number < this.blocks.length) return this.#keep(number, () => this.#unpackBlock(number));
    return null;
  }

  /** The rows of the bodies that move, as they were shown at a tick. */
  async rows(tick) {
    const row = 2 * FIELDS * moving.length, at = (tick % data.span) * row;
    return (await this.block(tick)).bodies.subarray(at, at + row);
  }

  /** The same of the world that late commands made of the tick, or null where none did. */
  async rowsAgain(tick) {
    if (!this.again[tick]) return null;
    return this.#keep(`again ${tick}`, async () => {
      const [rows, shown] = [await unpacked(this.again[tick], FIELDS), await this.rows(tick)];
      for (let at = 0; at < rows.length; at += 2) addTo(rows, at, shown[at], shown[at + 1]);
      return rows;
    });
  }

  /** The contacts of a tick, five numbers each: two bodies, feature, normal, tangent. */
  async contacts(tick) {
    const { contacts } = await this.block(tick), first = tick - (tick % data.span);
    const from = first ? this.ends[first - 1] : 0, start = tick ? this.ends[tick - 1] : 0;
    return contacts.subarray(10 * (start - from), 10 * (this.ends[tick] - from));
  }
}

const tracks = data.tracks.map((packed) => new Track(packed));
const peers = data.readings[0].map((_, peer) => peer);
const trackOf = (peer, reading) => tracks[data.readings[reading][peer]];
const lastOf = (peer) => trackOf(peer, 0).ends.length - 1;
const lastTick = Math.max(...peers.map(lastOf));
const correctionsOf = (peer) => trackOf(peer, 1).corrections;
const corrections = [...new Set(peers.flatMap(correctionsOf))].sort((a, b) => a - b);
/** How the peers are at a tick: "same", "alone", "corrected" later, or "differ". */
const stateAt = (tick, reading) => data.states[reading].findLast(([from]) => from <= tick)[1];

// ---- where bodies are

const halves = (body) => body.size.map((v) => v / UNIT);

/** Where a body is in such rows, in units of the scene: position and rotation. */
function poseIn(rows, body) {
  if (body.static) {
    const [x, y, c, s] = body.start.map((v) => v / UNIT);
    return { x, y, c, s, awake: false };
  }
  const at = placeOf.get(body.number) * FIELDS, part = (f) => realAt(rows, at + f);
  return { x: part(0), y: part(1), c: part(2), s: part(3), awake: rows[2 * at + 16] === 1 };
}

/** The bodies as the tick after this one finds contacts: corrected, and where they are placed. */
async function posesBefore(peer, reading, tick) {
  const track = trackOf(peer, reading);
  const rows = await track.rowsAgain(tick) ?? await track.rows(tick);
  const poses = data.bodies.map((body) => poseIn(rows, body));
  for (const command of data.commands) {
    const came = command.came[peer];
    if (!command.place || command.tick !== tick) continue;
    if (came === null || (reading === 1 && came > tick)) continue;
    [poses[command.body].x, poses[command.body].y] = command.place.map((v) => v / UNIT);
  }
  return poses;
}

// ---- contact points

const turned = (pose, [x, y]) => [
  pose.x + pose.c * x - pose.s * y, pose.y + pose.s * x + pose.c * y,
];
const local = (pose, [x, y]) => {
  const [dx, dy] = [x - pose.x, y - pose.y];
  return [pose.c * dx + pose.s * dy, pose.c * dy - pose.s * dx];
};

/** The two ends of a face of a box, counter-clockwise. */
function faceOf([w, h], face) {
  const corners = [[w, -h], [w, h], [-w, h], [-w, -h]];
  return [corners[face], corners[(face + 1) % 4]];
}

const NORMALS = [[1, 0], [0, 1], [-1, 0], [0, -1]];

/** Where two boxes touch, by the feature: reference face, incident edge, what made the point. */
function boxPoint(a, poseA, b, poseB, feature) {
  const face = (feature >> 4) & 7, edge = (feature >> 2) & 3, part = feature & 3;
  const flipped = face >= 4;
  const [ref, poseRef, inc, poseInc] = flipped ? [b, poseB, a, poseA] : [a, poseA, b, poseB];
  const ends = faceOf(halves(inc), edge).map((p) => local(poseRef, turned(poseInc, p)));
  const [w, h] = halves(ref);
  const along = face % 2 ? 0 : 1, limit = face % 2 ? w : h;
  let point = [...ends[part & 1]];
  if (part >= 2) {
    const side = part === 2 ? -limit : limit;
    const [p, q] = ends;
    const span = q[along] - p[along];
    const t = span === 0 ? 0.5 : (side - p[along]) / span;
    point = [p[0] + t * (q[0] - p[0]), p[1] + t * (q[1] - p[1])];
  }
  const n = NORMALS[face % 4];
  point[1 - along] = n[1 - along] * (along ? w : h); // on the reference face
  const [nx, ny] = [poseRef.c * n[0] - poseRef.s * n[1], poseRef.s * n[0] + poseRef.c * n[1]];
  const sign = flipped ? -1 : 1;
  return { at: turned(poseRef, point), normal: [sign * nx, sign * ny] };
}

/** Where a box and a circle touch, and the normal from the box. */
function boxCirclePoint(box, poseBox, poseCircle, feature) {
  const [w, h] = halves(box);
  const centre = local(poseBox, [poseCircle.x, poseCircle.y]);
  if (feature >= 140) { // the centre is in the box, closest to this face
    const n = NORMALS[feature - 140];
    const point = n[0] ? [n[0] * w, centre[1]] : [centre[0], n[1] * h];
    const [nx, ny] = [poseBox.c * n[0] - poseBox.s * n[1], poseBox.s * n[0] + poseBox.c * n[1]];
    return { at: turned(poseBox, point), normal: [nx, ny] };
  }
  const near = [Math.max(-w, Math.min(w, centre[0])), Math.max(-h, Math.min(h, centre[1]))];
  const at = turned(poseBox, near);
  let d = [poseCircle.x - at[0], poseCircle.y - at[1]];
  if (Math.hypot(...d) < 1e-6) { // too near for these numbers: the region says where the centre is
    const [sx, sy] = [Math.floor((feature - 128) / 3) - 1, ((feature - 128) % 3) - 1];
    d = [poseBox.c * sx - poseBox.s * sy, poseBox.s * sx + poseBox.c * sy];
  }
  const length = Math.hypot(...d) || 1;
  return { at, normal: [d[0] / length, d[1] / length] };
}

/** Where two bodies touch, and the normal from the first to the second. */
function pointOf(a, poseA, b, poseB, feature) {
  if (a.size.length === 2 && b.size.length === 2) return boxPoint(a, poseA, b, poseB, feature);
  if (a.size.length === 2) return boxCirclePoint(a, poseA, poseB, feature);
  if (b.size.length === 2) {
    const found = boxCirclePoint(b, poseB, poseA, feature);
    return { at: found.at, normal: found.normal.map((v) => -v) };
  }
  const d = [poseB.x - poseA.x, poseB.y - poseA.y];
  const length = Math.hypot(...d) || 1;
  const normal = d[0] || d[1] ? [d[0] / length, d[1] / length] : [0, 1];
  const r = a.size[0] / UNIT;
  return { at: [poseA.x + r * normal[0], poseA.y + r * normal[1]], normal };
}

/** The contact points of a tick, with their normals and the normal impulses. */
async function pointsOf(peer, reading, tick, contacts) {
  if (!contacts.length) return [];
  const poses = await posesBefore(peer, reading, tick - 1), points = [];
  for (let at = 0; at < contacts.length; at += 10) {
    const [i, j, feature] = [contacts[at], contacts[at + 2], contacts[at + 4]];
    const point = pointOf(data.bodies[i], poses[i], data.bodies[j], poses[j], feature);
    points.push({ ...point, impulse: realAt(contacts, at / 2 + 3) });
  }
  return points;
}

/** The least body of each body's island: chains of contacts, never through static bodies. */
function islandsOf(contacts) {
  const parent = data.bodies.map((_, k) => k);
  const root = (k) => (parent[k] === k ? k : (parent[k] = root(parent[k])));
  for (let at = 0; at < contacts.length; at += 10) {
    const [i, j] = [contacts[at], contacts[at + 2]];
    if (data.bodies[i].static || data.bodies[j].static) continue;
    const [a, b] = [root(i), root(j)];
    parent[Math.max(a, b)] = Math.min(a, b);
  }
  return data.bodies.map((_, k) => root(k));
}

// ---- scenes

/** The bodies that ended up elsewhere than they were shown, and where. */
function ghostsOf(rows, final) {
  return moving.filter((_, k) => !isSame(rows, final, k, 4))
    .map((body) => ({ body, pose: poseIn(final, body) }));
}

/** From where to where late commands have made bodies jump lately, and how many ticks ago. */
async function jumpsOf(track, tick) {
  const jumps = [];
  for (const at of track.corrections.filter((one) => one <= tick && tick < one + JUMP_TICKS)) {
    const [shown, again] = [await track.rows(at), await track.rowsAgain(at)];
    for (const { body, pose } of ghostsOf(shown, again)) {
      const { x, y } = poseIn(shown, body);
      jumps.push({ body: body.number, from: [x, y], to: [pose.x, pose.y], age: tick - at });
    }
  }
  return jumps;
}

/** What the pane of a peer shows at a tick. */
async function sceneOf(peer, reading, asked) {
  const track = trackOf(peer, reading), tick = Math.min(asked, lastOf(peer));
  const [rows, contacts] = [await track.rows(tick), await track.contacts(tick)];
  const final = await trackOf(peer, 0).rows(tick);
  return {
    peer, tick, rows, contacts, final,
    isThere: asked === tick,
    poses: data.bodies.map((body) => poseIn(rows, body)),
    points: await pointsOf(peer, reading, tick, contacts),
    ghosts: ghostsOf(rows, final),
    jumps: await jumpsOf(track, tick),
  };
}

/**
 * The bodies in which the peers that are there differ: at the end of all, or else as shown. With
 * the rows of each peer. Nothing where they differ only until late commands come.
 */
function differing(scenes, tick) {
  if (stateAt(tick, 0) !== "differ") return { numbers: new Set(), rows: [] };
  const there = scenes.filter((scene) => scene.isThere);
  for (const rows of [there.map((scene) => scene.final), there.map((scene) => scene.rows)]) {
    const bodies = moving.filter((_, k) => rows.some((one) => !isSame(one, rows[0], k, FIELDS)));
    if (bodies.length) return { numbers: new Set(bodies.map((body) => body.number)), rows };
  }
  return { numbers: new Set(), rows: [] };
}

/** Unpacks what the next ticks need, while these are still played. */
function unpackAhead(reading, tick) {
  for (const peer of peers) {
    trackOf(peer, reading).block(tick + data.span);
    trackOf(peer, 0).block(tick + data.span);
  }
}
