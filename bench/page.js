// node bench/page.js MODULE WORD..: asks a module these words, with the files that they name, once for each line of standard input, and prints in a line the seconds
// on the clock, those of the processor, and the bytes of memory.
"use strict";
const fs = require("fs");
const readline = require("readline");
const { ask, moduleOf } = require("../tests/lib/module_engine.js");

const [file, ...words] = process.argv.slice(2);

/** The files that the words name, with the sources of a machine file, each as the call takes it. @param {string[]} names */
function bundleOf(names) {
  const parts = [];
  for (const name of new Set(names.filter(it => fs.existsSync(it)))) {
    const own = fs.readFileSync(name);
    const sources = name.endsWith(".cell") ? [...own.toString("latin1").matchAll(/^source (\S+)/gm)].map(it => it[1]) : [];
    parts.push(Buffer.from(`${name}\n${own.length}\n`), own, bundleOf(sources));
  }
  return Buffer.concat(parts);
}

const module_ = moduleOf(file);
const asked = Buffer.from(words.join("\n"));
const given = bundleOf(words);
readline.createInterface({ input: process.stdin }).on("line", () => {
  const clock = performance.now(), used = process.cpuUsage();
  const { memory } = ask(module_, asked, given);
  const { user, system } = process.cpuUsage(used);
  console.log((performance.now() - clock) / 1e3, (user + system) / 1e6, memory);
});
