/** The network between both players: each packet is a dot, and a lost one a cross. */

import { colourOf, colours, fill, fit, stroke } from "./canvas.js";

/** Pixels that stay free at the ends of the way, and beside it. */
const ENDS = 8;
const SIDES = 12;

/**
 * @param {HTMLCanvasElement} canvas
 * @param {import("./match.js").Match} match
 * @param {number} now the tick, with its part that has passed
 */
export function drawWire(canvas, match, now) {
  const [context, width, height] = fit(canvas);
  const isUpright = height > width;
  const [long, wide] = isUpright ? [width, height] : [height, width];
  for (const packet of match.packets) {
    if (packet.frames.length === 0) continue;
    const way = (now - packet.leaves) / (packet.arrives - packet.leaves);
    const gone = Math.min(packet.lost ? 0.5 : 1, Math.max(0, way));
    const along = ENDS + (packet.from === 0 ? gone : 1 - gone) * (long - 2 * ENDS);
    const across = SIDES + packet.lane * (wide - 2 * SIDES);
    const [x, y] = isUpright ? [along, across] : [across, along];
    if (packet.lost && way > 0.5) drawCross(context, x, y, Math.max(0, 1 - (way - 0.5) * 3));
    else drawDot(context, x, y, packet);
  }
}

/**
 * @param {CanvasRenderingContext2D} context
 * @param {number} x
 * @param {number} y
 * @param {import("./match.js").Packet} packet
 */
function drawDot(context, x, y, { from, fresh }) {
  context.beginPath();
  context.arc(x, y, fresh ? 4.5 : 2.5, 0, 2 * Math.PI);
  fill(context, colourOf(from), fresh ? 1 : 0.3);
}

/**
 * @param {CanvasRenderingContext2D} context
 * @param {number} x
 * @param {number} y
 * @param {number} alpha
 */
function drawCross(context, x, y, alpha) {
  context.beginPath();
  for (const side of [-4, 4]) {
    context.moveTo(x - 4, y - side);
    context.lineTo(x + 4, y + side);
  }
  stroke(context, colours.glow, 2, alpha);
}
