// Hunts in parts as the page does, in node: node page_sums.js PAGE <QUESTIONS. QUESTIONS is a list of { machine, files, runs, cuts }, where `cuts` are the numbers
// at which the runs are cut into parts, in the order in which the parts come. A line is printed for each sum that isn't what one hunt of all the runs finds, and for
// each report of a sum that has other lines than the engine prints. The page's report has neither commands nor suppressions.
'use strict';
const fs = require('fs'), vm = require('vm'), zlib = require('zlib');

const page = fs.readFileSync(process.argv[2], 'utf8');
const LEFT = /^(?:$|  (?:why|why, and how to fix it|backwards from its end|step through this run|who wrote it|suppression): |other runs may still fail: )/;
const part = name => zlib.inflateSync(Buffer.from(new RegExp(`<script id="${name}" type="text/plain">([^<]*)</script>`).exec(page)[1], 'base64'));

let answer = null;
globalThis.onmessage = null;
globalThis.postMessage = told => { answer = told; };
vm.runInThisContext(part('worker').toString());
globalThis.onmessage({ data: { engine: new WebAssembly.Module(part('engine')) } });
vm.runInThisContext(/^const \$report = [^]*?^\}\)\(\);$/m.exec(page)[0]);
function ask(asked, ...given) {
  globalThis.onmessage({ data: { id: 0, asked, given } });
  if (answer.refused !== undefined) throw new Error(answer.refused);
  return answer.answer;
}
/** The sum of parts. */
function sumOf(parts) {
  const sum = vm.runInThisContext('new $sums.Sum()');
  for (const one of parts) sum.add(one);
  return sum;
}
/** The lines of the page's report on a sum. */
function reportOf(sum, machine) {
  const report = vm.runInThisContext('$report'), lines = [...report.findingLines(sum), ...report.endLines(sum)].map(({ text }) => text);
  return [report.headOf(sum, machine), ...lines, report.coverageLine(sum), ...report.unexecutedLines(sum)];
}
/** All that a sum has; of the classes of runs the order doesn't matter. */
const told = sum => JSON.stringify([sum.runs, sum.allStopped, sum.flaws, ...['race', 'end', 'result', 'finding', 'warning'].map(name => sum.of(name)), sum.coverage,
  [...sum.kinds].sort(), sum.sources]);

for (const { machine, files, runs, cuts } of JSON.parse(fs.readFileSync(0, 'utf8'))) {
  const project = { machine, files }, all = [0, ...cuts, runs].sort((one, other) => one - other);
  const parts = [0, ...cuts].map(from => ask('huntPart', project, from, all[all.indexOf(from) + 1] - from));
  const sum = sumOf(parts), whole = sumOf([ask('huntPart', project, 0, runs)]);
  if (told(sum) !== told(whole)) console.log(`${machine}: ${parts.length} parts add up to ${told(sum)}, and not to ${told(whole)}`);
  const { text } = ask('ask', ['hunt', machine, '--runs', String(runs), '--all'], files), wanted = text.split('\n').filter(line => !LEFT.test(line));
  const lines = reportOf(sum, machine);
  if (lines.join('\n') !== wanted.join('\n')) console.log(`${machine}: the report on the sum is ${JSON.stringify(lines)}, and not ${JSON.stringify(wanted)}`);
}
