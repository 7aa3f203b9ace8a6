// node module_asking.js MODULE [full]: asks the module all questions of standard input, and prints the answers: questions.py says how both are packed. With `full`
// all of its memory is taken before each.
"use strict";
const fs = require("fs");
const { ask, moduleOf } = require("./module_engine.js");

const LINE_FEED = 10;
const ROOM = 1 << 20;
const LARGEST = 1n << 31n, SMALLEST = 16n; // blocks

/** Takes all memory that there is. */
function fill({ room_take }) {
  for (let size = LARGEST; size >= SMALLEST;) if (room_take(size) === 0n) size >>= 1n;
}

const module_ = moduleOf(process.argv[2]);
const prepare = process.argv[3] === "full" ? fill : () => {};
const given = fs.readFileSync(0);
const answers = [];
for (let at = 0; at < given.length;) {
  const end = given.indexOf(LINE_FEED, at);
  const [words, files] = given.toString("latin1", at, end).split(" ").map(Number);
  const start = end + 1, middle = start + words;
  at = middle + files;
  const { status, text } = ask(module_, given.subarray(start, middle), given.subarray(middle, at), ROOM, prepare);
  answers.push(Buffer.from(`${status} ${text.length}\n`), Buffer.from(text));
}
fs.writeSync(1, Buffer.concat(answers));
