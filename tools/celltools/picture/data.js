// ---- what the page has: facts, tables, and the steps in blocks that are opened where they are needed
const byId = id => document.getElementById(id);
const facts = JSON.parse(byId('facts').textContent);
const blocks = byId('steps').textContent.split('\n');
const story = facts.story, HOST = 2 * facts.spes, MEMORY = -1, NEVER = -1;
const MOST_BLOCKS = 64; // that are kept open
const open_blocks = new Map(), asked = new Set();
let tables = null;

const escaped = text => String(text).replace(/[&<>"]/g, c => ({ '&': '&amp;', '<': '&lt;', '>': '&gt;', '"': '&quot;' }[c]));
const hex = number => '0x' + number.toString(16);
const count = number => number.toLocaleString('en');
const base = name => (name || '').split('/').pop();
const placeName = place => place === MEMORY ? 'main memory' : `the local store of SPU ${place}`;

async function opened(text) {
  const bytes = Uint8Array.from(atob(text), c => c.charCodeAt(0));
  return new Response(new Blob([bytes]).stream().pipeThrough(new DecompressionStream('deflate'))).text();
}

async function openBlock(number) {
  if (asked.has(number)) return;
  asked.add(number);
  const text = await opened(blocks[number]);
  if (open_blocks.size >= MOST_BLOCKS) forget(open_blocks.keys().next().value);
  open_blocks.set(number, text.split('\n'));
}

function forget(number) {
  open_blocks.delete(number);
  asked.delete(number);
}

// Opens the blocks of these steps, and says whether one wasn't open.
async function need(places) {
  const missing = [...new Set(places.filter(place => place >= 0 && place < facts.count).map(place => Math.floor(place / facts.block)))]
    .filter(number => !open_blocks.has(number));
  await Promise.all(missing.map(openBlock));
  return missing.length > 0;
}

// ---- a step, as its line says it
const span = words => words && { place: words[0] === 'mem' ? MEMORY : +words[0], low: +words[1], high: +words[1] + +words[2] };

function parsed(line, place) {
  const [head, ...parts] = line.split(' | '), [letter, spe, command, element, part] = head.split(' ');
  const fields = Object.fromEntries(parts.map(text => { const [name, ...words] = text.split(' '); return [name, words]; }));
  const lane = letter === 'h' ? HOST : 2 * +spe + (letter === 'x' ? 0 : 1);
  return { place, letter, lane, fields, spe: spe === undefined ? null : +spe, command: command === undefined ? null : +command, element: +element, part: +part,
    fetch: span(fields.fetch), read: span(fields.read), write: span(fields.write) };
}

// A step; null where its block isn't open yet.
function stepAt(place) {
  const lines = open_blocks.get(Math.floor(place / facts.block));
  if (!lines) return null;
  const at = place % facts.block;
  if (typeof lines[at] === 'string') lines[at] = parsed(lines[at], place);
  return lines[at];
}

// ---- commands and sources
const KINDS = ['PUT', 'GET', 'PUTL', 'GETL', 'BARRIER', 'PUTQLLUC', 'SNDSIG'], MARKS = ['', 'F', 'B'];
const COLORS = ['put', 'get', 'put', 'get', 'barrier', 'put', 'mail'], HOLLOW = ['GET', 'GETL'];

function barOfRow([spe, number, kind, mark, tag, ls, ea, size, issue, first, last, end, stalls, slot]) {
  return { spe, number, name: KINDS[kind] + MARKS[mark], kind: KINDS[kind], color: COLORS[kind], tag, ls, ea, size, issue, first, last, end, stalls, slot };
}
const barOfAtomic = ([spe, issue, place, slot]) =>
  ({ spe, number: null, name: 'atomic command', kind: 'atomic', color: 'atomic', issue, first: place, last: place, end: place, stalls: [], slot });

function commandText(bar) {
  if (bar.number === null) return bar.name;
  const head = `#${bar.number} ${bar.name}, tag ${bar.tag}`;
  if (bar.kind === 'BARRIER') return head;
  if (bar.kind === 'SNDSIG') return `${head}, 4 bytes at ${hex(bar.ls)} of the store to ${signalName(...registerOf(bar))}`;
  if (bar.kind.endsWith('L')) return `${head}, list of ${bar.size / 8} at ${hex(bar.ea)}, data at ${hex(bar.ls)} of the store`;
  return `${head}, ${bar.size} bytes, store ${hex(bar.ls)} ${bar.kind === 'GET' ? '←' : '→'} memory ${hex(bar.ea)}`;
}

// A signal register has its processor and its number, 1 or 2; a command names both by its address.
const registerOf = bar => [bar.ea >> 1, (bar.ea & 1) + 1];
const signalName = (spe, register) => `signal register ${register} of SPU ${spe}`;

const bars = [], barOf = new Map();
function readTables(text) {
  tables = JSON.parse(text);
  bars.push(...tables.bars.map(barOfRow), ...tables.atomics.map(barOfAtomic));
  for (const bar of bars) barOf.set(bar.number === null ? `at ${bar.end}` : `${bar.spe} ${bar.number}`, bar);
}
const barOfStep = step => barOf.get(step.letter === 'a' ? `at ${step.place}` : `${step.spe} ${step.command}`);
const slots = spe => Math.max(1, (tables && tables.slots[spe]) || 1);
// The line of a source that an instruction comes from.
const sourceOf = step => facts.sources[facts.code[step.spe][step.fetch.low]] || [null, 0, ''];
