/** Canvases that are sharp on every screen, and the colours of the page. */

/**
 * The colours of style.css by their names.
 * @type {Record<string, string>}
 */
export const colours = {};
const NAMES = ["a", "b", "nobody", "floor", "dim", "ink", "card", "glow"];

/** Reads the colours again, when the page has become light or dark. */
export function readColours() {
  const style = getComputedStyle(document.documentElement);
  for (const name of NAMES) colours[name] = style.getPropertyValue(`--${name}`).trim();
}

/**
 * The colour of a player's bodies.
 * @param {number | null} owner
 */
export const colourOf = (owner) =>
  owner === null ? colours.nobody : owner === 0 ? colours.a : colours.b;

/**
 * An empty canvas in the pixels of the page, and its width and height.
 * @param {HTMLCanvasElement} canvas
 * @returns {[CanvasRenderingContext2D, number, number]}
 */
export function fit(canvas) {
  const { clientWidth: width, clientHeight: height } = canvas;
  const ratio = window.devicePixelRatio || 1;
  const [wide, high] = [Math.round(width * ratio), Math.round(height * ratio)];
  if (canvas.width !== wide || canvas.height !== high) {
    canvas.width = wide;
    canvas.height = high;
  }
  const context = /** @type {CanvasRenderingContext2D} */ (canvas.getContext("2d"));
  context.setTransform(ratio, 0, 0, ratio, 0, 0);
  context.clearRect(0, 0, width, height);
  return [context, width, height];
}

/**
 * @param {CanvasRenderingContext2D} context
 * @param {string} colour
 * @param {number} width
 * @param {number} [alpha]
 */
export function stroke(context, colour, width, alpha = 1) {
  context.strokeStyle = colour;
  context.lineWidth = width;
  context.globalAlpha = alpha;
  context.stroke();
  context.globalAlpha = 1;
}

/**
 * @param {CanvasRenderingContext2D} context
 * @param {string} colour
 * @param {number} [alpha]
 */
export function fill(context, colour, alpha = 1) {
  context.fillStyle = colour;
  context.globalAlpha = alpha;
  context.fill();
  context.globalAlpha = 1;
}
