// @ts-check
// The engine: the WebAssembly module page/cell.wasm, with the one call `cell_answer` (docs/guide/embedding.md).
import { latin } from './python/text.js';

/**
 * @typedef {object} Answer what the programs write, as a text of which each character is a byte, and their exit status
 * @property {string} text
 * @property {number} status
 * @typedef {object} Engine
 * @property {(words: string[], files: Record<string, Uint8Array>) => Answer} ask
 */

const ROOM = 1 << 20; // bytes of an answer
const NO_ROOM = 4; // the status of one that is longer: the number of its bytes is told then
const encoder = new TextEncoder();

/** The files as the call takes them: of each its name, its number of bytes, both with a line feed, and its bytes. @param {Record<string, Uint8Array>} files */
function bundleOf(files) {
  const parts = Object.entries(files).flatMap(([name, data]) => [encoder.encode(`${name}\n${data.length}\n`), data]);
  const whole = new Uint8Array(parts.reduce((size, part) => size + part.length, 0));
  let at = 0;
  for (const part of parts) {
    whole.set(part, at);
    at += part.length;
  }
  return whole;
}

/** The engine of a module. Each answer is made in a new instance, so that nothing stays between two of them. @implements {Engine} */
export class ModuleEngine {
  /** @param {WebAssembly.Module} module */
  constructor(module) { this.module = module; }

  /** @param {string[]} words @param {Record<string, Uint8Array>} files @returns {Answer} */
  ask(words, files, room = ROOM) {
    const exports = /** @type {any} */ (new WebAssembly.Instance(this.module, {}).exports);
    const take = size => exports.room_take(BigInt(size)) || (() => { throw new RangeError('memory ran out'); })();
    const put = data => {
      const at = take(Math.max(1, data.length));
      new Uint8Array(exports.memory.buffer).set(data, Number(at));
      return [at, BigInt(data.length)];
    };
    const asked = put(encoder.encode(words.map(word => `${word}\n`).join(''))), given = put(bundleOf(files)), out = take(room), written = take(8);
    const status = exports.cell_answer(...asked, ...given, out, BigInt(room), written);
    const count = Number(new DataView(exports.memory.buffer).getBigUint64(Number(written), true));
    if (status === NO_ROOM) return this.ask(words, files, count);
    return { text: latin(new Uint8Array(exports.memory.buffer, Number(out), count)), status };
  }
}
