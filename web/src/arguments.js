/** Arguments of a wrong kind: TypeErrors that name them. */

const LONGEST_SHOWN = 40;

/**
 * A value as an error shows it.
 * @param {unknown} value
 */
function shown(value) {
  if (typeof value === "string") return JSON.stringify(value.slice(0, LONGEST_SHOWN));
  if (typeof value === "bigint") return `${value}n`;
  if (typeof value === "function") return "a function";
  if (typeof value !== "object" || value === null) return String(value);
  const kind = Object.prototype.toString.call(value).slice("[object ".length, -1);
  const { length } = /** @type {any} */ (value);
  return typeof length === "number" ? `${kind} of length ${length}` : `this ${kind}`;
}

/**
 * The error of an argument that is of another kind than what is wanted.
 * @param {string} what the name of the argument
 * @param {string} wanted as "a number"
 * @param {unknown} value
 */
export function wrong(what, wanted, value) {
  return new TypeError(`${what}: ${wanted} is wanted, not ${shown(value)}`);
}

/**
 * Throws where options have one that the call does not know, or lack one that it needs.
 * @param {string} call
 * @param {object | undefined} options
 * @param {string[]} needed
 * @param {string[]} others
 */
export function checkOptions(call, options, needed, others) {
  const given = /** @type {any} */ (options === undefined ? {} : options);
  if (typeof given !== "object" || given === null) throw wrong(call, "an object of options", given);
  const known = [...needed, ...others];
  for (const name of Object.keys(given)) {
    if (known.includes(name)) continue;
    throw new TypeError(`${call}: there is no option ${name}: it takes ${known.join(", ")}`);
  }
  for (const name of needed) {
    if (given[name] === undefined) throw new TypeError(`${call}: the option ${name} is missing`);
  }
}
