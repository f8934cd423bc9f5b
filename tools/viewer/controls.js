// What is told in words, and what moves the page.

const NAMES = ["x", "y", "c", "s", "vx", "vy", "w", "timer", "awake"];
const MOST = 8; // bodies that are told
const element = (id) => document.getElementById(id);
const paneOf = (peer) => element(`pane${peer}`);
const state = { tick: 0, reading: 0, islands: false, isPlaying: false, told: null };
let shown = null; // the scenes of a tick and a reading, and in which bodies the peers differ
let drawing = null; // a promise while something is still to be drawn

// ---- texts

const inUnits = (raw) => (Number(raw) / UNIT).toFixed(4);
const rowOf = (rows, k) => NAMES.map((_, f) => rawAt(rows, k * FIELDS + f));

function bodyText({ peer, tick, rows }, body) {
  if (body.static) {
    const at = body.start.slice(0, 2);
    return `peer ${peer}: body ${body.number}, static\n` +
      `  position ${at.map(inUnits).join(" ")}\n  raw ${at.join(" ")}`;
  }
  const raw = rowOf(rows, placeOf.get(body.number));
  const owner = body.owner === "-" ? "nobody" : `player ${body.owner}`;
  return `peer ${peer}: body ${body.number} of ${owner}, tick ${tick}\n` +
    `  position ${inUnits(raw[0])} ${inUnits(raw[1])}, ` +
    `velocity ${inUnits(raw[4])} ${inUnits(raw[5])}, ` +
    `spin ${inUnits(raw[6])}, timer ${raw[7]}, ${raw[8] ? "awake" : "asleep"}\n` +
    `  raw ${NAMES.map((name, f) => `${name} ${raw[f]}`).join(", ")}`;
}

/** What `show` prints for a peer at the tick. */
function shownText({ peer, tick, rows, contacts }) {
  const lines = [`show ${peer} ${tick}`];
  moving.forEach((body, k) => lines.push(`body ${body.number} ${rowOf(rows, k).join(" ")}`));
  for (let at = 0; at < contacts.length / 2; at += 5) {
    lines.push(`contact ${[0, 1, 2, 3, 4].map((f) => rawAt(contacts, at + f)).join(" ")}`);
  }
  return [...lines, "end"].join("\n");
}

function commandText(command) {
  return `tick ${command.tick} player ${command.player} number ${command.number}: ${command.text}`;
}

function commandsText() {
  return data.commands.map((command) => {
    const came = command.came.map((tick, peer) => (
      tick === null ? `peer ${peer} lacks it` : `peer ${peer} held it from its tick ${tick} on`));
    return `${commandText(command)}; ${came.join(", ")}`;
  }).join("\n") || "none";
}

/** The commands that a peer lacks at the end, of those that another holds and both have passed. */
function lackedTexts() {
  const pairs = peers.flatMap((p) => peers.map((q) => [p, q]));
  return pairs.flatMap(([p, q]) => data.commands
    .filter(({ came, tick }) => came[p] !== null && came[q] === null
      && tick < Math.min(lastOf(p), lastOf(q)))
    .map((command) => `peer ${q} lacks what peer ${p} holds: ${commandText(command)}`));
}

/** The fields of a body in which two rows differ. */
function fieldTexts(number, one, other) {
  return NAMES.flatMap((name, f) => {
    const more = BigInt(other[f]) - BigInt(one[f]);
    return more ? [`body ${number} ${name}: ${one[f]} and ${other[f]}, ${more} more`] : [];
  });
}

const moreText = (count) => (count > MOST ? [`and ${count - MOST} bodies more`] : []);

/** In what the peers differ, in the whole match. */
function differenceTexts() {
  if (!data.first) return lackedTexts();
  const [tick, a, b] = data.first;
  const what = "the first tick at which two peers show different worlds";
  const bodies = data.differing.slice(0, MOST).flatMap((row) => fieldTexts(...row));
  if (!bodies.length) bodies.push("all bodies are the same, and the contacts are not");
  return [`${what} is ${tick}: peers ${a} and ${b}`, ...lackedTexts(), ...bodies,
    ...moreText(data.differing.length)];
}

/** The bodies that differ at the tick from those of the first peer that is there, and how. */
function differencesHere() {
  const { numbers, rows } = shown.differ;
  if (data.first?.[0] === shown.tick && peers.length === 2) return "";
  const there = shown.scenes.filter((scene) => scene.isThere).map((scene) => scene.peer);
  const out = [...numbers].slice(0, MOST).flatMap((number) => {
    const [one, ...others] = rows.map((each) => rowOf(each, placeOf.get(number)));
    return others.flatMap((other, at) => fieldTexts(number, one, other)
      .map((text) => `tick ${shown.tick}, peers ${there[0]} and ${there[at + 1]}: ${text}`));
  });
  return [...out, ...moreText(numbers.size)].join("\n");
}

/** Which commands come late to a peer at the tick. */
function lateTexts(peer) {
  if (!correctionsOf(peer).includes(shown.tick)) return [];
  const late = data.commands.filter(({ tick, came }) => came[peer] === shown.tick
    && tick < shown.tick);
  return [`a correction of peer ${peer} at tick ${shown.tick}, by commands that came late:`,
    ...late.map((command) => `  ${commandText(command)}`)];
}

function titleText({ peer, tick, isThere, ghosts }) {
  if (!isThere) return `peer ${peer}, which has reached no tick above ${tick}`;
  if (shown.reading === 1 && correctionsOf(peer).includes(tick)) {
    return `peer ${peer}: late commands come now`;
  }
  return `peer ${peer}${ghosts.length ? ": corrected later" : ""}`;
}

/** Writes a text, if it is another one: the page is laid out anew after each. */
function write(id, text) {
  if (element(id).textContent !== text) element(id).textContent = text;
}

/** Tells the body that was pointed at last. */
function tellBody() {
  if (!state.told) return;
  write("body", shown.scenes.map((one) => bodyText(one, state.told)).join("\n"));
}

function tell() {
  write("tick", String(shown.tick));
  element("slider").value = shown.tick;
  element("cursor").style.left =
    `calc(${SIDE}px + (100% - ${2 * SIDE}px) * ${shown.tick / (lastTick || 1)})`;
  element("earlier").disabled = !(corrections[0] < shown.tick);
  element("later").disabled = !(corrections.at(-1) > shown.tick);
  for (const scene of shown.scenes) write(`title${scene.peer}`, titleText(scene));
  write("late", peers.flatMap(lateTexts).join("\n"));
  write("here", differencesHere());
  if (element("shown").open) write("numbers", shown.scenes.map(shownText).join("\n"));
  tellBody();
}

// ---- what is drawn when

function drawPanes() {
  if (!shown) return;
  for (const scene of shown.scenes) {
    drawPane(paneOf(scene.peer), scene, state.islands, shown.differ.numbers);
  }
}

/** Looks up the tick and the reading that are asked for now, where others are shown. */
async function lookUp() {
  const { tick, reading } = state;
  if (shown?.tick === tick && shown.reading === reading) return;
  const scenes = await Promise.all(peers.map((peer) => sceneOf(peer, reading, tick)));
  if (shown?.reading !== reading) drawLine(element("line"), reading);
  shown = { tick, reading, scenes, differ: differing(scenes, tick) };
  tell();
}

/** Goes on by the ticks that have passed since the last frame, of 64 in a second. */
function playOn(milliseconds) {
  state.rest += Math.max(0, Math.min(100, milliseconds)) * 0.064;
  const ticks = Math.floor(state.rest);
  state.rest -= ticks;
  if (ticks) goTo(state.tick + ticks);
  unpackAhead(state.reading, state.tick);
  if (state.tick === lastTick) setPlaying(false);
}

const nextFrame = () => new Promise((done) => { requestAnimationFrame(done); });

async function drawFrames() {
  let last = performance.now();
  do {
    const now = await nextFrame();
    if (state.isPlaying) playOn(now - last);
    last = now;
    if (!state.isStale) continue;
    state.isStale = false;
    await lookUp();
    drawPanes();
  } while (state.isStale || state.isPlaying);
  drawing = null;
}

/** Draws at the next frame of the screen, however often it is called until then. */
function changed() {
  state.isStale = true;
  drawing ??= drawFrames();
}

// ---- what moves it

function goTo(tick) {
  state.tick = Math.max(0, Math.min(lastTick, tick));
  changed();
}

function setReading(number) {
  state.reading = number;
  document.getElementsByName("reading")[number].checked = true;
  changed();
}

function setPlaying(isPlaying) {
  if (isPlaying && state.tick === lastTick) state.tick = 0;
  Object.assign(state, { isPlaying, rest: 0 });
  element("play").textContent = isPlaying ? "pause" : "play";
  changed();
}

const togglePlay = () => setPlaying(!state.isPlaying);

/** Goes to a correction, in the reading that has it. */
function goToCorrection(tick) {
  if (tick === undefined) return;
  setReading(1);
  goTo(tick);
}

const goOn = () => goToCorrection(corrections.find((tick) => tick > state.tick));
const goBack = () => goToCorrection(corrections.findLast((tick) => tick < state.tick));

function setIslands(isSet) {
  state.islands = element("islands").checked = isSet;
  changed();
}

function showAll() {
  Object.assign(view, data.whole);
  changed();
}

/** The pointer is at a point of a pane. */
function pointAt({ poses }, point) {
  const found = data.bodies.findLast((body) => {
    const [x, y] = local(poses[body.number], point);
    return body.size.length === 1 ? Math.hypot(x, y) <= body.size[0] / UNIT
      : Math.abs(x) <= halves(body)[0] && Math.abs(y) <= halves(body)[1];
  });
  state.told = found ?? state.told;
  tellBody();
}

/** Zooms by a factor, so that what was at one place of the pane is at another then. */
function moveView(canvas, from, to, factor) {
  const held = lensOf(canvas).toPlane(from);
  const least = data.whole.width / 1000 / view.width, most = data.whole.width * 100 / view.width;
  const within = Math.max(least, Math.min(most, factor));
  view.width *= within;
  view.height *= within;
  const now = lensOf(canvas).toPlane(to);
  view.x += held[0] - now[0];
  view.y += held[1] - now[1];
  changed();
}

/** The middle of some fingers, and how far they are from it. */
function gripOf(fingers) {
  const points = [...fingers.values()];
  const [x, y] = [0, 1].map((k) => points.reduce((sum, p) => sum + p[k], 0) / points.length);
  return { middle: [x, y], spread: Math.hypot(points[0][0] - x, points[0][1] - y) };
}

/** One finger or the mouse moves the plane; two fingers also zoom. */
function listenTo(canvas, peer) {
  const fingers = new Map();
  const place = (event) => [event.offsetX, event.offsetY];
  canvas.addEventListener("wheel", (event) => {
    event.preventDefault();
    const by = event.deltaY * (event.ctrlKey ? 0.01 : 0.001); // a pinch on a touch pad is slower
    moveView(canvas, place(event), place(event), Math.exp(by));
  }, { passive: false });
  canvas.addEventListener("pointerdown", (event) => {
    fingers.set(event.pointerId, place(event));
    canvas.setPointerCapture(event.pointerId);
  });
  canvas.addEventListener("pointermove", (event) => {
    if (!fingers.has(event.pointerId)) return;
    const before = gripOf(fingers);
    fingers.set(event.pointerId, place(event));
    const { middle, spread } = gripOf(fingers);
    moveView(canvas, before.middle, middle, spread > 1 ? before.spread / spread : 1);
  });
  for (const kind of ["pointerdown", "pointermove"]) {
    canvas.addEventListener(kind, (event) => {
      if (fingers.size > 1 || !shown) return;
      pointAt(shown.scenes[peer], lensOf(canvas).toPlane(place(event)));
    });
  }
  for (const kind of ["pointerup", "pointercancel"]) {
    canvas.addEventListener(kind, (event) => fingers.delete(event.pointerId));
  }
  canvas.addEventListener("dblclick", showAll);
}

function addPane(peer) {
  const pane = document.createElement("div");
  pane.className = "pane";
  pane.innerHTML = `<h2 id="title${peer}">peer ${peer}</h2><canvas id="pane${peer}"></canvas>`;
  element("panes").append(pane);
  listenTo(paneOf(peer), peer);
  new ResizeObserver(drawPanes).observe(paneOf(peer));
}

/** The time line: a press or a drag goes to the tick that is there. */
function listenToLine() {
  const line = element("line");
  line.style.height = `${STRIP + 18}px`;
  new ResizeObserver(() => drawLine(line, state.reading)).observe(line);
  const goThere = (event) => {
    if (!event.buttons) return;
    goTo(Math.round(((event.offsetX - SIDE) / (line.clientWidth - 2 * SIDE)) * lastTick));
  };
  line.addEventListener("pointerdown", goThere);
  line.addEventListener("pointermove", goThere);
}

function listenToButtons() {
  const does = { play: togglePlay, back: () => goTo(state.tick - 1), on: () => goTo(state.tick + 1),
    earlier: goBack, later: goOn, all: showAll };
  for (const [id, act] of Object.entries(does)) element(id).addEventListener("click", act);
  // a press leaves the keys to the page, so that space plays
  element("buttons").addEventListener("mousedown", (event) => event.preventDefault());
  element("slider").max = element("last").textContent = lastTick;
  element("slider").addEventListener("input", (event) => goTo(Number(event.target.value)));
  element("islands").addEventListener("change", (event) => setIslands(event.target.checked));
  for (const input of document.getElementsByName("reading")) {
    input.addEventListener("change", () => setReading(Number(input.value)));
  }
  element("shown").addEventListener("toggle", tell);
}

function listenToKeys() {
  const keys = { ArrowLeft: () => goTo(state.tick - 1), ArrowRight: () => goTo(state.tick + 1),
    Home: () => goTo(0), End: () => goTo(lastTick), " ": togglePlay, n: goOn, p: goBack,
    i: () => setIslands(!state.islands), a: showAll };
  document.addEventListener("keydown", (event) => {
    if (event.ctrlKey || event.altKey || event.metaKey || !keys[event.key]) return;
    if (event.key === " " && ["BUTTON", "SUMMARY"].includes(event.target.tagName)) return;
    event.preventDefault();
    keys[event.key]();
  });
}

async function begin() {
  element("panes").style.setProperty("--peers", peers.length);
  element("panes").classList.toggle("many", peers.length > 4);
  for (const peer of peers) addPane(peer);
  const texts = differenceTexts();
  element("differences").className = texts.length ? "differ" : "note";
  element("differences").textContent = texts.join("\n")
    || (peers.length > 1 ? "the peers agree at every tick that both have reached" : "");
  element("commands").textContent = commandsText();
  listenToLine();
  listenToButtons();
  listenToKeys();
  drawOnOtherPixels(() => { drawPanes(); drawLine(element("line"), state.reading); });
  changed();
  await drawing;
  document.body.dataset.ready = "yes";
}

begin();
