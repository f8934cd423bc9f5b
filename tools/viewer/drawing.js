// How scenes and the time line are drawn.

/** The colours of the page by their names. Nothing but a real difference is red. */
const colours = Object.fromEntries(["calm", "same", "corrected", "alone", "differ"].map((name) => [
  name, getComputedStyle(document.documentElement).getPropertyValue(`--${name}`).trim(),
]));
const MANY = 300; // bodies in sight; more are drawn roughly, as strokes take long
const view = { ...data.whole };
const middleSize = moving.map((body) => Math.max(...halves(body))).sort((a, b) => a - b)
  .at(moving.length >> 1) ?? 1;

// ---- canvases

/** A pen that draws, in pixels of the page, on an empty canvas with the pixels of the screen. */
function penOf(canvas) {
  const { left, top, width, height } = canvas.getBoundingClientRect();
  const across = (from, long) => Math.round((from + long) * devicePixelRatio)
    - Math.round(from * devicePixelRatio);
  const size = { width: across(left + scrollX, width), height: across(top + scrollY, height) };
  if (canvas.width !== size.width || canvas.height !== size.height) Object.assign(canvas, size);
  const pen = canvas.getContext("2d");
  pen.setTransform(size.width / width, 0, 0, size.height / height, 0, 0);
  pen.clearRect(0, 0, width, height);
  return pen;
}

/** Draws again when the page is zoomed or comes to another screen. */
function drawOnOtherPixels(draw) {
  const others = matchMedia(`(resolution: ${devicePixelRatio}dppx)`);
  others.addEventListener("change", () => { draw(); drawOnOtherPixels(draw); }, { once: true });
}

/** How a canvas shows the plane. */
function lensOf(canvas) {
  const { clientWidth: width, clientHeight: height } = canvas;
  const scale = Math.min(width / view.width, height / view.height);
  return {
    width, height, scale,
    toScreen: ([x, y]) => [width / 2 + (x - view.x) * scale, height / 2 - (y - view.y) * scale],
    toPlane: ([x, y]) => [view.x + (x - width / 2) / scale, view.y - (y - height / 2) / scale],
  };
}

// ---- panes

/** Begins a path about a body that is greater all round by so many pixels. */
function traceBody(pen, lens, body, pose, more) {
  const [x, y] = lens.toScreen([pose.x, pose.y]);
  const [w, h] = body.size.map((v) => Math.max(0, (v / UNIT) * lens.scale + more));
  pen.beginPath();
  if (body.size.length === 1) {
    pen.arc(x, y, w, 0, 2 * Math.PI);
    return;
  }
  const [right, rise] = [w * pose.c, -w * pose.s], [left, up] = [-h * pose.s, -h * pose.c];
  pen.moveTo(x + right + left, y + rise + up);
  pen.lineTo(x - right + left, y - rise + up);
  pen.lineTo(x - right - left, y - rise - up);
  pen.lineTo(x + right - left, y + rise - up);
  pen.closePath();
}

function isSeen(lens, body, pose) {
  const [x, y] = lens.toScreen([pose.x, pose.y]);
  const reach = Math.hypot(...halves(body)) * lens.scale + 2;
  return Math.abs(x - lens.width / 2) < lens.width / 2 + reach
    && Math.abs(y - lens.height / 2) < lens.height / 2 + reach;
}

/** A colour for the island of a least body, none of them red. Those of near numbers differ much. */
const islandColour = (least, lightness) =>
  `hsl(${(40 + ((least * 173.05) % 280)).toFixed(1)} 60% ${lightness}%)`;

/** A colour as it is where two fifths of it lie on the ground of a pane. */
const pale = (colour) => `rgb(${[1, 3, 5].map((at) => (
  Math.round(0.4 * parseInt(colour.slice(at, at + 2), 16) + 150)))})`;

/** A body with its outline, and of a circle the radius that turns with it. */
function drawBody(pen, lens, body, pose, colour) {
  traceBody(pen, lens, body, pose, 0);
  pen.fillStyle = colour;
  pen.fill();
  pen.strokeStyle = "#333";
  pen.lineWidth = 1;
  pen.stroke();
  if (body.size.length === 2) return;
  drawStroke(pen, lens.toScreen([pose.x, pose.y]),
    lens.toScreen(turned(pose, [body.size[0] / UNIT, 0])));
}

/** A body without its outline; a box that stands upright, by half a pixel, is drawn faster. */
function drawRoughly(pen, lens, body, pose, colour) {
  pen.fillStyle = colour;
  const [w, h = 0] = body.size.map((v) => (v / UNIT) * lens.scale - 0.5);
  if (h > 0 && pose.c > 0 && Math.abs(pose.s) * Math.max(w, h) < 0.5) {
    const [x, y] = lens.toScreen([pose.x, pose.y]);
    pen.fillRect(x - w, y - h, 2 * w, 2 * h);
    return;
  }
  traceBody(pen, lens, body, pose, -0.5);
  pen.fill();
}

function drawStroke(pen, from, to) {
  pen.beginPath();
  pen.moveTo(...from);
  pen.lineTo(...to);
  pen.stroke();
}

function drawDot(pen, place, radius) {
  pen.beginPath();
  pen.arc(...place, radius, 0, 2 * Math.PI);
  pen.fill();
}

/** Bodies by their owners or by their islands, sleepers pale. */
function drawBodies(pen, lens, scene, seen, byIslands) {
  const islands = byIslands ? islandsOf(scene.contacts) : null;
  const drawOne = seen.length > MANY ? drawRoughly : drawBody;
  for (const body of seen) {
    const pose = scene.poses[body.number], isPale = !body.static && !pose.awake;
    let colour = isPale ? pale(body.colour) : body.colour;
    if (islands && !body.static) colour = islandColour(islands[body.number], isPale ? 85 : 62);
    drawOne(pen, lens, body, pose, colour);
  }
}

/** An arrow on the screen, from a dot; the head is left out where the arrow is short. */
function drawArrow(pen, [x, y], [u, v], dot) {
  drawStroke(pen, [x, y], [u, v]);
  drawDot(pen, [x, y], dot);
  const length = Math.hypot(u - x, v - y), head = 2.4 * dot;
  if (length < head) return;
  const [dx, dy] = [(head * (u - x)) / length, (head * (v - y)) / length];
  pen.beginPath();
  pen.moveTo(u, v);
  pen.lineTo(u - dx - dy / 2, v - dy + dx / 2);
  pen.lineTo(u - dx + dy / 2, v - dy - dx / 2);
  pen.fill();
}

/** Lines without dots and heads, some at once: neither one by one nor all at once is as fast. */
function drawLines(pen, lines) {
  for (let start = 0; start < lines.length; start += 32) {
    pen.beginPath();
    for (const [from, to] of lines.slice(start, start + 32)) {
      pen.moveTo(from[0], from[1]);
      pen.lineTo(to[0], to[1]);
    }
    pen.stroke();
  }
}

/** Contact points, with their normal impulses as arrows. */
function drawPoints(pen, lens, points, isRough) {
  const dot = Math.max(0.8, Math.min(2.5, 0.15 * middleSize * lens.scale));
  pen.fillStyle = pen.strokeStyle = "#111";
  pen.lineWidth = 0.6 * dot;
  const lines = points.map(({ at: [x, y], normal, impulse }) => {
    const share = Math.min(4, Math.max(0, impulse) / data.greatImpulse);
    const length = 2 * middleSize * Math.sqrt(share);
    const end = [x + normal[0] * length, y + normal[1] * length];
    return [lens.toScreen([x, y]), lens.toScreen(end)];
  });
  if (isRough) drawLines(pen, lines);
  else for (const [from, to] of lines) drawArrow(pen, from, to, dot);
}

function outline(pen, lens, shapes, colour, width) {
  pen.strokeStyle = colour;
  pen.lineWidth = width;
  for (const { body, pose } of shapes) {
    traceBody(pen, lens, body, pose, 0);
    pen.stroke();
  }
}

/** Fading lines: from where bodies were shown to where late commands made them jump. */
function drawJumps(pen, lens, jumps) {
  pen.strokeStyle = pen.fillStyle = colours.calm;
  pen.lineWidth = 1.5;
  for (const jump of jumps) {
    const [from, to] = [lens.toScreen(jump.from), lens.toScreen(jump.to)];
    if (Math.hypot(from[0] - to[0], from[1] - to[1]) < 2) continue; // too short to be seen
    pen.globalAlpha = 1 - jump.age / JUMP_TICKS;
    drawStroke(pen, from, to);
    drawDot(pen, from, 2.5);
  }
  pen.globalAlpha = 1;
}

function drawPane(canvas, scene, byIslands, differ) {
  const pen = penOf(canvas), lens = lensOf(canvas);
  const seen = data.bodies.filter((body) => isSeen(lens, body, scene.poses[body.number]));
  drawBodies(pen, lens, scene, seen, byIslands);
  drawPoints(pen, lens, scene.points, seen.length > MANY);
  const dash = Math.max(2, Math.min(5, middleSize * lens.scale * 0.5));
  pen.setLineDash([dash, dash]);
  outline(pen, lens, scene.ghosts, colours.calm, 1.5);
  pen.setLineDash([]);
  drawJumps(pen, lens, scene.jumps);
  const red = [...differ].map((k) => ({ body: data.bodies[k], pose: scene.poses[k] }));
  outline(pen, lens, red, colours.differ, 3);
}

// ---- the time line

const SIDE = 8; // what the line leaves free at either side, as the slider does
const ROW = 5;
const STRIP = 4 + ROW * peers.length + 18;

/** A triangle that points up to the strip. */
function mark(pen, x, colour) {
  pen.fillStyle = colour;
  pen.beginPath();
  pen.moveTo(x, STRIP + 9);
  pen.lineTo(x - 4, STRIP + 17);
  pen.lineTo(x + 4, STRIP + 17);
  pen.fill();
}

/** When commands act, sharing the height where several do, and above when each peer got them. */
function drawCommands(pen, at) {
  const counts = new Map(), drawn = new Map();
  for (const { tick } of data.commands) counts.set(tick, (counts.get(tick) ?? 0) + 1);
  for (const { tick, player, came } of data.commands) {
    const place = drawn.get(tick) ?? 0, height = 14 / counts.get(tick);
    drawn.set(tick, place + 1);
    pen.fillStyle = data.colours[player];
    pen.fillRect(at(tick) - 1, STRIP - 18 + place * height, 3, height);
    came.forEach((when, peer) => {
      if (when !== null) pen.fillRect(at(when) - 1, 2 + peer * ROW, 3, 3);
    });
  }
}

function drawLine(canvas, reading) {
  const pen = penOf(canvas), width = canvas.clientWidth - 2 * SIDE;
  const ratio = canvas.width / canvas.clientWidth;
  const at = (tick) => Math.round(ratio * (SIDE + (tick / (lastTick || 1)) * width)) / ratio;
  const runs = data.states[reading];
  runs.forEach(([from, what], k) => {
    const end = at(k + 1 < runs.length ? runs[k + 1][0] : lastTick + 1);
    pen.fillStyle = colours[what];
    pen.fillRect(at(from), STRIP, Math.max(1, end - at(from)), 8);
  });
  drawCommands(pen, at);
  for (const tick of corrections) mark(pen, at(tick), colours.calm);
  if (data.first) mark(pen, at(data.first[0]), colours.differ);
}
