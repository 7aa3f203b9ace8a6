// Asks the WebAssembly module, each time in a new instance, so that nothing stays between two answers.
"use strict";
const fs = require("fs");

const ROOM = 1 << 20; // bytes of an answer
const NO_ROOM = 4; // the status of one that is longer, of which the number of bytes is told

/** The module of a file, compiled. @param {string} name */
const moduleOf = name => new WebAssembly.Module(fs.readFileSync(name));

/**
 * The answer to words with files, both as the call takes them, and how many bytes the memory had at the end. `prepare` is given the exports right before the call.
 * @param {WebAssembly.Module} module @param {Uint8Array} words @param {Uint8Array} files @returns {{ status: number, text: Uint8Array, memory: number }}
 */
function ask(module, words, files, room = ROOM, prepare = exports => {}) {
  const { exports } = new WebAssembly.Instance(module, {});
  const { memory, cell_answer, room_take } = exports;
  const put = bytes => {
    const at = room_take(BigInt(bytes.length || 1));
    new Uint8Array(memory.buffer).set(bytes, Number(at));
    return [at, BigInt(bytes.length)];
  };
  const asked = put(words), given = put(files), out = room_take(BigInt(room)), written = room_take(8n);
  prepare(exports);
  const status = cell_answer(...asked, ...given, out, BigInt(room), written);
  const count = Number(new DataView(memory.buffer).getBigUint64(Number(written), true));
  if (status === NO_ROOM) return ask(module, words, files, count, prepare);
  return { status, text: new Uint8Array(memory.buffer, Number(out), count), memory: memory.buffer.byteLength };
}

module.exports = { ask, moduleOf };
