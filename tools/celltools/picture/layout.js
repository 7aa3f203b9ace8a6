// ---- the columns, and which rows there are
const ROW = 20, GUTTER = 64, HEAD = 48, FOLDED = 16, SLOT = 13;
const MEMORY_COLUMN = HOST + 1;
const NARROW = { program: 124, flow: 118, memory: 88, to_bars: 42 }, TIGHT = { program: 104, flow: 108, memory: 76, to_bars: 24 }; // the least widths, and where columns are folded
const OPENED_AT_ONCE = 200, OPENED_AROUND = 30;
const state = { folded: new Set(), off: new Set(), opened: new Set(), selected: null, memory: MEMORY, names: true, only: false, printed: null, filter: '',
  kept_folds: null }; // those that "All columns" opened
let lanes = [], width = 0, to_bars = 42, rows = [], row_starts = [];
let keys_shown = new Set();

const isRacing = place => story !== null && (place === story.first || place === story.second);
const laneName = lane => lane === MEMORY_COLUMN ? 'Memory' : lane === HOST ? 'Host' : `${lane % 2 ? 'MFC' : 'SPU'} ${lane >> 1}`;
const hasScript = () => facts.script.length > 0;

function laneOfKey(place) {
  const at = lowerBound(tables.keys, place);
  return tables.keys[at] === place ? tables.lanes[at] : null;
}
function lowerBound(list, wanted) {
  let low = 0, high = list.length;
  while (low < high) { const middle = low + high >> 1; if (list[middle] < wanted) low = middle + 1; else high = middle; }
  return low;
}

const isFolded = lane => state.folded.has(lane);
const barsWidth = spe => slots(spe) * SLOT + to_bars;

// Shares the width of the window among the columns that are open. A processor of which a column is folded has one strip.
function layout() {
  const open = [...Array(HOST).keys()].filter(lane => !isFolded(lane)), programs = open.filter(lane => lane % 2 === 0).length, flows = open.length - programs;
  const strips = [...Array(facts.spes).keys()].filter(spe => isFolded(2 * spe) || isFolded(2 * spe + 1)).length;
  const host = !hasScript() ? 0 : isFolded(HOST) ? FOLDED : 116, wide_memory = isFolded(MEMORY_COLUMN) ? FOLDED : facts.spes > 1 ? 120 : 200;
  const whole = state.printed ? 1370 : byId('scroll').clientWidth - 4;
  const others = () => GUTTER + host + FOLDED * strips + open.filter(lane => lane % 2).reduce((sum, lane) => sum + barsWidth(lane >> 1), 0);
  const roomOf = least => { to_bars = programs > 4 ? TIGHT.to_bars : least.to_bars; return whole - others() - programs * least.program - flows * least.flow; };
  const least = strips && roomOf(NARROW) < Math.min(NARROW.memory, wide_memory) ? TIGHT : NARROW, room = roomOf(least);
  const memory = Math.min(wide_memory, Math.max(least.memory, room)), fixed = others() + memory;
  const share = Math.max(0, whole - fixed) / Math.max(1, programs * 2.2 + flows);
  const flow = Math.min(210, Math.max(least.flow, share)), program = (whole - fixed - flows * flow) / Math.max(1, programs);
  place_lanes({ program: Math.min(400, Math.max(least.program, program)), flow, host, memory });
  width = Math.max(lanes[MEMORY_COLUMN].x + lanes[MEMORY_COLUMN].w, whole);
}

function place_lanes(wide) {
  let x = GUTTER;
  lanes = [];
  for (let number = 0; number <= MEMORY_COLUMN; number++) {
    const fold = isFolded(number), is_flow = number < HOST && number % 2 === 1, is_joined = is_flow && fold && isFolded(number - 1);
    const w = is_joined ? 0 : number === HOST ? wide.host : number === MEMORY_COLUMN ? wide.memory : fold ? FOLDED : is_flow ? barsWidth(number >> 1) + wide.flow : wide.program;
    lanes.push({ number, x: is_joined ? x - FOLDED : x, w, fold, is_flow, spe: number >> 1 });
    x += w;
  }
}
// Where a program's line stands, and where the text of a flow controller begins.
const lineOf = lane => lane.fold ? lane.x + FOLDED / 2 : lane.number === HOST ? lane.x + 9 : lane.x + lane.w - 9;
const textOf = lane => lane.is_flow ? lane.x + barsWidth(lane.spe) - 2 : lane.x + (lane.number === HOST ? 20 : 6);
const textEnd = lane => lane.number < HOST && !lane.is_flow ? lane.x + lane.w - 18 : lane.x + lane.w - 4;
const barX = (lane, bar) => lane.fold ? lane.x + FOLDED / 2 : lane.x + to_bars + (bar ? bar.slot * SLOT : 0);

// ---- the rows: steps that are shown, and gaps between them
function shownPlaces() {
  const wanted = state.only && story ? [...story.steps] : tables.keys.filter((_, k) => !isFolded(tables.lanes[k]));
  const more = [...state.opened, ...(story ? [story.first, story.second] : []), ...(state.selected === null ? [] : [state.selected])];
  return [...new Set(wanted.concat(more))].sort((a, b) => a - b);
}

function build() {
  rows = [];
  let next = 0;
  const gapTo = place => { if (place > next) rows.push({ is_step: place === next + 1, a: next, b: place - 1 }); };
  for (const place of shownPlaces()) {
    gapTo(place);
    rows.push({ is_step: true, a: place, b: place });
    next = place + 1;
  }
  gapTo(facts.count);
  rows.push({ is_end: true, a: facts.count, b: facts.count });
  row_starts = rows.map(row => row.a);
  for (const bar of bars) { bar.top = rowOf(bar.issue); bar.bottom = bar.end === NEVER ? rows.length - 1 : rowOf(bar.end); }
  for (const arrow of tables.arrows) { arrow.top = rowOf(arrow[0]); arrow.bottom = rowOf(arrow[1]); }
}
const rowOf = place => Math.max(0, lowerBound(row_starts, place + 1) - 1);
const middle = place => rowOf(place) * ROW + ROW / 2;
const isShown = place => { const row = rows[rowOf(place)]; return row.is_step === true && row.a === place; };

// Opens a gap: all of it, or of a long one its beginning, or its end.
function openGap(row, from_end) {
  const size = row.b - row.a + 1, first = from_end ? Math.max(row.a, row.b - OPENED_AT_ONCE + 1) : row.a;
  for (let place = first; place <= row.b && place < first + Math.min(size, OPENED_AT_ONCE); place++) state.opened.add(place);
}
function openAround(place) {
  for (let k = Math.max(0, place - OPENED_AROUND); k <= Math.min(facts.count - 1, place + OPENED_AROUND); k++) state.opened.add(k);
}
