// Asks the worker of a page in node: node page_asking.js PAGE <QUESTIONS >ANSWERS. QUESTIONS is { files, questions: [{ asked, words, names }] }, where `asked`
// is `ask` for the engine or the name of a tool; ANSWERS is a list of { text, status } or { refused }.
'use strict';
const fs = require('fs'), vm = require('vm'), zlib = require('zlib');

const page = fs.readFileSync(process.argv[2], 'utf8');
const part = name => zlib.inflateSync(Buffer.from(new RegExp(`<script id="${name}" type="text/plain">([^<]*)</script>`).exec(page)[1], 'base64'));
const { files, questions } = JSON.parse(fs.readFileSync(0, 'utf8'));

let answer = null;
globalThis.onmessage = null;
globalThis.postMessage = told => { answer = told; };
vm.runInThisContext(part('worker').toString());
globalThis.onmessage({ data: { engine: new WebAssembly.Module(part('engine')) } });

const answers = questions.map(({ asked, words, names }, id) => {
  const given = Object.fromEntries(names.map(name => [name, files[name]]));
  globalThis.onmessage({ data: { id, asked: asked === 'ask' ? 'ask' : 'tool', given: asked === 'ask' ? [words, given] : [asked, words, given] } });
  return answer.answer || { refused: answer.refused };
});
fs.writeSync(1, JSON.stringify(answers));
