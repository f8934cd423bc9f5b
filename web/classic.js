/** The package for a script that has the core in it: web/bundle puts its bytes in the place of
 * "buyosen.wasm". */

// @ts-ignore: no types tell what the bytes are
import core from "buyosen.wasm";
import { init as load } from "./src/index.js";

export * from "./src/index.js";

/**
 * Loads the core, once: the one in this script, if no other is given.
 * @param {Parameters<typeof load>[0]} [source]
 */
export const init = (source = core) => load(source);
