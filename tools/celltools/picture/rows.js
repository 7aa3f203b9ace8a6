// ---- the text of the rows
const tagsOf = groups => '{' + [...Array(32).keys()].filter(tag => groups >>> tag & 1).join(', ') + '}';
const BOXES = { in: 'inbox', out: 'outbox', intr: 'intr. box' };
const ATOMICS = { getllar: 'GETLLAR', putllc: 'PUTLLC', putlluc: 'PUTLLUC' };
const COUNTED = {
  0: 'the events', 3: 'signal 1', 4: 'signal 2', 21: 'the queue', 22: 'the mask', 23: 'the request', 24: 'the tags', 25: 'the stalls', 27: 'the atomic',
  28: 'the outbox', 29: 'the inbox', 30: 'intr. box',
};
const EVENTS = [
  [0x400, 'lost line'], [0x200, 'signal 1'], [0x100, 'signal 2'], [0x80, 'outbox'], [0x40, 'intr. box'], [0x10, 'inbox'], [8, 'queue'], [2, 'stall'], [1, 'tags'],
];
// A set of events by their names; where there are several, in brief as a number.
const namesOf = bits => EVENTS.filter(([bit]) => bits & bit).map(([, name]) => name);
const eventsOf = bits => `{${namesOf(bits).join(', ')}}`;
const eventsInBrief = bits => namesOf(bits).length > 1 ? hex(+bits) : eventsOf(bits);
const EVENT_WORDS = { 1: 'mask', 2: 'clears' };
const STATUSES = { 0: 'stored', 1: 'lost', 2: 'PUTLLUC', 4: 'GETLLAR' }; // of an atomic command

// What an instruction does beside computing, by its fields: the colour of a chip, the whole of it, and the chip's words, longer and shorter ones.
const TOLD = [
  ['issue', 'issue', ([number]) => [`issues #${number}`, `issues #${number}`]],
  ['tags', 'tag', ([groups]) => [`reads the tag status ${hex(+groups)}: tags ${tagsOf(+groups)}`, `tags ${tagsOf(+groups)}`, `tags ${hex(+groups)}`]],
  ['stalls', 'tag', ([groups]) => [`reads the stall status ${hex(+groups)}: stalls ${tagsOf(+groups)}`, `stalls ${tagsOf(+groups)}`, `stalls ${hex(+groups)}`]],
  ['ack', 'tag', ([tag]) => [`resumes tag ${tag}`, `resumes tag ${tag}`, 'resumes']],
  ['request', 'plain', ([, groups]) => [`requests the tag status: tags ${tagsOf(+groups)}`, `requests ${tagsOf(+groups)}`, `requests ${hex(+groups)}`, 'requests']],
  ['atomic', 'atomic', ([kind]) => [ATOMICS[kind], ATOMICS[kind]]],
  ['atomicread', 'atomic', (_, { rdch: [, bits] }) => [`reads the atomic status ${bits}: ${STATUSES[bits] || ''}`, `status ${bits}: ${STATUSES[bits] || ''}`, `status ${bits}`]],
  ['put', 'mail', ([, box, value]) => [`writes ${hex(+value)} to its ${BOXES[box]}`, `writes ${BOXES[box]} ${hex(+value)}`, `writes ${BOXES[box]}`, 'writes']],
  ['take', 'mail', ([, box, value]) => [`reads ${hex(+value)} from its ${BOXES[box]}`, `reads ${BOXES[box]} ${hex(+value)}`, `reads ${BOXES[box]}`, 'reads']],
  ['ended', 'end', () => ['ends', 'ends']],
  ['signal', 'mail', ([, register], { rdch: [, value] }) =>
    [`reads ${hex(+value)} from signal ${register}`, `reads signal ${register} ${hex(+value)}`, `reads signal ${register}`, `signal ${register}`]],
  ['rchcnt', 'plain', ([channel, number]) => countedForms(`counts ${COUNTED[channel] || `channel ${channel}`}`, number)],
  ['rdch', 'plain', ([channel, bits]) => channel === '0' ? [`reads the events ${hex(+bits)}: ${eventsOf(bits)}`, `events ${eventsOf(bits)}`, `events ${eventsInBrief(bits)}`, 'events']
    : [`reads ${hex(+bits)} from channel ${channel}`]],
  ['wrch', 'plain', ([channel, bits]) => channel in EVENT_WORDS
    ? [`${EVENT_WORDS[channel]} ${hex(+bits)}: ${eventsOf(bits)}`, `${EVENT_WORDS[channel]} ${eventsOf(bits)}`, `${EVENT_WORDS[channel]} ${eventsInBrief(bits)}`, EVENT_WORDS[channel]]
    : [`writes ${hex(+bits)} to channel ${channel}`]],
];
const countedForms = (what, number) => [`${what}: ${number}`, `${what}: ${number}`, what, `counts: ${number}`];
// What an instruction does: the whole of it, and its chip's words; null where it computes alone.
function toldOf(step) {
  const found = TOLD.find(([name]) => name in step.fields);
  if (!found) return null;
  const [whole, ...chips] = found[2](step.fields[found[0]], step.fields);
  return { color: found[1], whole, chips };
}
// The first of some texts that is no wider than that, or else the last.
const fitting = (texts, font, room) => texts.find(text => widthOf(text, font) <= room) || texts[texts.length - 1];

// What is delivered to a signal register, or taken out of a mailbox by the host.
const valueText = ({ fields: { deliver, take } }) => deliver || take ? `: ${hex(+(deliver ? deliver[0] : take[2]))}` : '';
// What a step of a flow controller is.
function flowText(step) {
  if (step.letter === 'a') return atomicText(step);
  const bar = barOfStep(step), name = `#${step.command}`;
  if (step.letter === 'r') return `${name} completes`;
  if (step.letter === 'e') return `${name} element${step.fields.element ? ` ${step.fields.element[0]}${step.fields.element[2] === '1' ? ', flag' : ''}` : ': a fault'}`;
  if (bar.kind === 'SNDSIG') return step.fields.signal ? `${name} to SPU ${step.fields.signal[0]} sig ${step.fields.signal[1]}${valueText(step)}` : `${name} to no register`;
  return bar.kind.endsWith('L') ? `${name} el. ${step.element} piece ${step.part}` : `${name} piece ${step.part}`;
}
function atomicText(step) {
  const kind = step.fields.atomic[0], lost = kind === 'putllc' && step.fields.status[0] === '1';
  return ATOMICS[kind] + (lost ? ', lost' : kind === 'putllc' ? ', stored' : '');
}
// The host's actions are its script, one step each.
function actionOf(place) {
  const at = lowerBound(tables.hosts, place);
  return (facts.script[at] || '').replace(/^host /, '');
}

// A step in one line of words.
function stepText(step) {
  if (step.lane === HOST) return `host: ${actionOf(step.place)}${valueText(step)}`;
  if (step.lane % 2) return `MFC ${step.spe}: ${flowText(step)}`;
  const [file, line, text] = sourceOf(step), told = toldOf(step);
  return `SPU ${step.spe}: ${text}${told ? `, ${told.whole}` : ''}${line ? ` (${file}:${line})` : ''}`;
}

const CODE_FONT = '11.5px ui-monospace, "DejaVu Sans Mono", monospace', CHIP_FONT = '600 10.5px system-ui, "DejaVu Sans", sans-serif';
const FLOW_FONT = '11px system-ui, "DejaVu Sans", sans-serif';
const CHIP_EDGES = 12, CELL_GAP = 8, RACE_MARK = 38, LINE_NUMBER = 46, FLAG = 16;
const chip = (color, text) => `<span class="chip ${color} t">${escaped(text)}</span>`;
const box = (left, right, inner, title = '') =>
  `<div class="cell" role="gridcell" style="left:${left}px;width:${Math.max(0, right - left)}px"${title ? ` title="${escaped(title)}"` : ''}>${inner}</div>`;
const raceMark = place => !isRacing(place) ? '' : chip('race', place === story.first ? '1st' : '2nd');

function stepCell(step) {
  const lane = lanes[step.lane];
  if (lane.fold) return '';
  const flag = step.fields.fixed ? ' ⚑' : '', mark = raceMark(step.place), room = textEnd(lane) - textOf(lane) - (mark ? RACE_MARK : 0);
  if (step.lane === HOST) return box(textOf(lane), textEnd(lane), `${mark}<code class="t">${escaped(hostText(step, room))}</code>`, stepText(step));
  if (lane.is_flow) return box(textOf(lane), textEnd(lane), `${mark}<span class="flow t">${escaped(fitting(flowForms(step), FLOW_FONT, room - FLAG))}${flag}</span>`, flowText(step));
  return box(textOf(lane), textEnd(lane), mark + instructionCell(step, room, flag), stepText(step));
}
const hostText = (step, room) => fitting([actionOf(step.place) + valueText(step), actionOf(step.place)], CODE_FONT, room);
// What a step of a flow controller is, and less of it.
function flowForms(step) {
  const text = flowText(step), bare = text.slice(0, text.length - valueText(step).length), brief = bare.replace(/^#\d+ /, '');
  return [text, bare, brief, brief.replace(/ (piece|sig) .*/, '')];
}
// The line of the source, what it does, and the line's number: as much of it as there is room for.
function instructionCell(step, room, flag) {
  const [, line, text] = sourceOf(step), told = toldOf(step), chips = told ? told.chips : [];
  const color = chips.length ? told.color : 'tag', said = (fitting(chips.map(words => words + flag), CHIP_FONT, room - CHIP_EDGES) || flag).trimStart();
  const chip_width = said ? widthOf(said, CHIP_FONT) + CHIP_EDGES : 0, code_width = widthOf(text, CODE_FONT) + CELL_GAP;
  const has_code = !said || code_width + chip_width <= room, has_line = has_code && line && code_width + chip_width + LINE_NUMBER <= room;
  return (has_code ? `<code class="t">${escaped(text)}</code>` : '') + (said ? chip(color, said) : '') + (has_line ? `<span class="at t">:${line}</span>` : '');
}

// How many steps a gap has, and which columns made them, where its block is open and it isn't long.
function gapCells(row) {
  const size = row.b - row.a + 1, per = new Map();
  for (let place = row.a; size <= facts.block && place <= row.b; place++) {
    const step = stepAt(place);
    if (!step) break;
    per.set(step.lane, (per.get(step.lane) || 0) + 1);
  }
  if (!per.size) return wideGap(size);
  const seen = [...per].map(([lane, number]) => [lanes[lane], number]).filter(([lane]) => !lane.fold && lane.w);
  return seen.map(([lane, number]) => box(textOf(lane), textEnd(lane), `<span class="t">⋮ ${count(number)}</span>`)).join('');
}
function wideGap(size) {
  const lane = lanes.find(one => one.w > FOLDED && !one.fold) || lanes[0];
  return box(textOf(lane), textEnd(lane), `<span class="t">⋮ ${count(size)} steps</span>`);
}
const endChip = (lane, text, is_bad) => chip(is_bad ? 'race' : 'end', fitting([text, text.split(' ').pop()], CHIP_FONT, textEnd(lane) - textOf(lane) - CHIP_EDGES));
const isFault = text => text.startsWith('dma') || text.startsWith('bad');
function endCells() {
  const goes_on = facts.end === 'Open', told = text => text !== 'running' ? text : goes_on ? 'goes on' : facts.end === 'Stuck' ? 'waits here' : text;
  const isBad = text => text === 'running' && !goes_on || isFault(text);
  const found = facts.states.map(([text], spe) => [lanes[2 * spe], told(text), isBad(text)]);
  if (hasScript() && facts.host[0] < facts.host[1]) found.push([lanes[HOST], facts.script[facts.host[0]].replace(/^host /, ''), !goes_on]);
  return found.filter(([lane]) => !lane.fold).map(([lane, text, is_bad]) => box(textOf(lane), textEnd(lane), endChip(lane, text, is_bad), text)).join('');
}

function rowHtml(row, n) {
  const id = `id="row${n}" data-n="${n}" role="row" aria-rowindex="${n + 1}" style="top:${n * ROW}px;width:${width}px"`;
  if (row.is_end) return `<div class="row end" ${id}><span class="number t" role="rowheader">end</span>${endCells()}</div>`;
  if (!row.is_step) {
    const size = count(row.b - row.a + 1), name = `${size} steps, ${count(row.a)} to ${count(row.b)}`;
    return `<div class="row gap" ${id} aria-label="${name}, folded" title="${name}: a click opens them"><span class="number t" role="rowheader">⋯ ${size}</span>${gapCells(row)}</div>`;
  }
  const step = stepAt(row.a);
  const racing = (isRacing(row.a) ? ' race' : '') + (isHit(row.a) ? ' hit' : '');
  const label = step ? ` aria-label="${escaped(`step ${row.a}, ${stepText(step)}`)}"` : '';
  const number = `<span class="number t" role="rowheader">${count(row.a)}</span>`;
  return `<div class="row${racing}" ${id} aria-selected="${row.a === state.selected}"${label}>${number}${step ? stepCell(step) : ''}</div>`;
}
function backHtml(row, n) {
  const step = row.is_step && !row.is_end ? stepAt(row.a) : null, lane = step && lanes[step.lane];
  const open = step && relation(step) === null ? `<div class="open" style="left:${lane.x + 1}px;width:${lane.w - 1}px"></div>` : '';
  const selected = row.is_step && row.a === state.selected ? ' selected' : '';
  return `<div class="back${n % 2 ? ' odd' : ''}${row.is_step && isRacing(row.a) ? ' race' : ''}${selected}" style="top:${n * ROW}px;width:${width}px">${open}</div>`;
}
