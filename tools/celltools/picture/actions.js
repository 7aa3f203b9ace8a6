// ---- painting, and what the reader does
let painted = '', painting = 0, doing = 0;
const HEAD_EDGES = 14, MOST_OVERVIEW = 90; // the room around a column's name, and how high the overview may be

function visibleRows() {
  if (state.printed) return state.printed;
  const scroll = byId('scroll'), a = Math.max(0, Math.floor(scroll.scrollTop / ROW) - 12);
  return [a, Math.min(rows.length, a + Math.ceil(scroll.clientHeight / ROW) + 26)];
}
// The steps whose lines the rows from a to below b need: those of the rows, and of the ends of arrows and bars.
function neededPlaces(a, b) {
  const places = rows.slice(a, b).flatMap(row => row.is_end ? [] : row.b - row.a < facts.block ? [row.a, row.b] : [row.a]);
  for (const [from, to] of weakArrows(a, b).concat(strongArrows())) places.push(from, to);
  return story ? places.concat(story.first, story.second) : places;
}

async function paint(is_forced) {
  const [a, b] = visibleRows(), key = `${a} ${b}`;
  if (!is_forced && key === painted) return;
  painted = key;
  const turn = ++painting;
  if (await need(neededPlaces(a, b)) && turn !== painting) return;
  if (turn === painting) show(a, b);
}
function show(a, b) {
  const body = byId('body'), shift = state.printed ? a * ROW : 0, list = rows.slice(a, b);
  body.style.height = `${(state.printed ? b - a : rows.length) * ROW + 8}px`;
  body.style.width = `${width}px`;
  const top = a * ROW, height = (b - a) * ROW + 8, htmlOf = make => list.map((row, k) => make(row, a + k)).join('');
  const svg = name => `<svg class="${name}" aria-hidden="true" style="top:${top}px" width="${width}" height="${height}" viewBox="0 ${top} ${width} ${height}"></svg>`;
  body.innerHTML = `<div id="sheet" role="presentation" style="top:${-shift}px">${htmlOf(backHtml)}${svg('under')}${htmlOf(rowHtml)}${svg('over')}</div>`;
  occupyRows(body, shift);
  occupyDots(a, b);
  const [under, over] = drawing(a, b);
  body.querySelector('.under').innerHTML = under;
  body.querySelector('.over').innerHTML = over;
  markOverview(a + 12, b - 14);
  const selected = state.selected === null ? null : rowOf(state.selected);
  if (selected !== null && selected >= a && selected < b) byId('scroll').setAttribute('aria-activedescendant', `row${selected}`);
  else byId('scroll').removeAttribute('aria-activedescendant');
}

function heads() {
  const cells = lanes.filter(lane => lane.w).map(lane => lane.number === MEMORY_COLUMN && !lane.fold ? memoryHead(lane) : laneHead(lane));
  const focused = document.activeElement, kept = focused.dataset.lane === undefined ? `#${focused.id}` : `[data-lane="${focused.dataset.lane}"]`;
  const is_kept = byId('heads').contains(focused);
  byId('heads').style.width = `${width}px`;
  byId('heads').innerHTML = `<div class="head" role="columnheader" style="left:0;width:${GUTTER}px">step</div>${cells.join('')}`;
  if (byId('place')) byId('place').onchange = event => { state.memory = +event.target.value; refresh(); };
  if (is_kept) (document.querySelector(kept) || byId('scroll')).focus({ preventScroll: true });
}
function laneHead(lane) {
  const files = lane.number >= HOST ? '' : [...new Set(Object.values(facts.code[lane.spe]).map(at => base(facts.sources[at][0])))].filter(Boolean).join(', ');
  const more = lane.number === HOST ? 'its script' : lane.is_flow ? 'commands' : files;
  const name = laneName(lane.number), is_strip = lane.number < HOST && lane.fold && isFolded(lane.number ^ 1), whole = is_strip ? `${name} and ${laneName(lane.number ^ 1)}` : name;
  const title = `${whole}${more ? `, ${escaped(more)}` : ''}: a click ${lane.fold ? 'opens' : 'folds'} the column`;
  return `<div class="head${lane.fold ? ' fold' : ''}" role="columnheader" style="left:${lane.x}px;width:${lane.w}px">`
    + `<button data-lane="${lane.number}" aria-expanded="${!lane.fold}" aria-label="${whole}" title="${title}">${name}</button>`
    + (lane.fold ? '' : `<small>${escaped(shortened(more, lane.w - HEAD_EDGES))}</small>`) + '</div>';
}
// As much of a text as there is room for.
function shortened(text, room) {
  let length = text.length;
  while (length && widthOf(text.slice(0, length) + (length < text.length ? '…' : ''), FLOW_FONT) > room) length--;
  return length < text.length ? `${text.slice(0, length)}…` : text;
}
function memoryHead(lane) {
  const places = [...new Set([MEMORY, state.memory, ...Object.keys(facts.touched).map(Number)])].sort((one, other) => one - other);
  const low = ranges.length ? ranges[0].low : 0, high = ranges.length ? ranges[ranges.length - 1].high - 1 : 0;
  const options = places.map(place => `<option value="${place}"${place === state.memory ? ' selected' : ''}>${place === MEMORY ? 'memory' : `store ${place}`}</option>`).join('');
  return `<div class="head" role="columnheader" style="left:${lane.x}px;width:${lane.w}px"><select id="place" aria-label="Whose bytes are shown">${options}</select>`
    + `<small>${ranges.length ? `${hex(low)} to ${hex(high)}` : 'untouched'}</small></div>`;
}

// What is in view: the step that is chosen, where it is, or else one near the top, and a column that is.
function inView() {
  const scroll = byId('scroll'), y = state.selected === null ? -1 : rowOf(state.selected) * ROW - scroll.scrollTop;
  const place = y >= 0 && y < scroll.clientHeight - HEAD ? state.selected : topPlace(), lane = laneOfKey(place);
  const isSeen = ({ x, w, fold }) => w && !fold && x + w > scroll.scrollLeft && x < scroll.scrollLeft + scroll.clientWidth;
  return { place, lane: lane !== null && isSeen(lanes[lane]) ? lane : lanes.findIndex(isSeen) };
}
// Lays the page out anew; what is in view, or a step that is named, keeps its place on the screen.
function refresh(kept) {
  const scroll = byId('scroll'), seen = lanes.length ? inView() : { place: 0, lane: 0 }, place = kept === undefined ? seen.place : kept;
  const y = rowOf(place) * ROW - scroll.scrollTop, x = seen.lane < 0 ? 0 : lanes[seen.lane].x - scroll.scrollLeft;
  layout(); build(); layoutMemory(); heads();
  byId('body').style.height = `${rows.length * ROW + 8}px`;
  byId('body').style.width = `${width}px`;
  scroll.setAttribute('aria-rowcount', rows.length);
  scroll.scrollTop = rowOf(place) * ROW - y;
  scroll.scrollLeft = seen.lane < 0 ? 0 : lanes[seen.lane].x - x;
  press('columns', isAllOpen());
  return Promise.all([paint(true), refreshSide()]);
}
const press = (id, is_on) => byId(id).setAttribute('aria-pressed', is_on);
async function refreshSide() {
  const step = state.selected === null ? null : state.selected;
  if (step !== null) {
    await need([step]);
    await Promise.all([need(direct(stepAt(step)).flatMap(([, places]) => places.slice(0, MOST_NAMED))), findNeighbour(stepAt(step))]);
  }
  side();
}

const topPlace = () => rows[Math.min(rows.length - 1, Math.floor(byId('scroll').scrollTop / ROW) + 8)].a;
async function select(place) {
  state.selected = place;
  if (place !== null) await need([place]);
  const step = place === null ? null : stepAt(place);
  relateTo(step);
  if (step) await findNeighbour(step);
  say(step);
}
// Goes to a step: it is in the middle of the screen then, its column in the window, and it is chosen.
async function go(place) {
  if (!(place >= 0 && place < facts.count)) return;
  await need([place]);
  openFor(place);
  if (!isShown(place)) openAround(place);
  await select(place);
  layout(); build();
  centre(rowOf(place));
  await refresh(place);
  showColumns([stepAt(place).lane]);
  await paint(true);
}
// Goes to a step that was asked for by its number, so that the keys go on from there.
async function goThere(place) {
  await go(place);
  byId('scroll').focus({ preventScroll: true });
}
function centre(row) {
  const scroll = byId('scroll');
  byId('body').style.height = `${rows.length * ROW + 8}px`;
  scroll.scrollTop = Math.max(0, Math.round((row * ROW - scroll.clientHeight / 2 + HEAD) / ROW) * ROW);
}
const raceTop = () => Math.min(story.first, ...story.pairs.filter(([, to]) => to === story.first).map(([from]) => from));
const raceFits = () => (rowOf(story.second) - rowOf(raceTop())) * ROW < byId('scroll').clientHeight - 120;
async function toRace() {
  if (!story) return;
  showRace();
  await select(story.second);
  layout(); build();
  const top = rowOf(raceTop()), bottom = rowOf(story.second);
  centre(raceFits() ? (top + bottom) / 2 : bottom);
  await refresh(story.second);
  showColumns([...racingLanes(), MEMORY_COLUMN]);
  showColumns(racingLanes());
}
function setOnly(is_only) {
  state.only = is_only;
  press('only', is_only);
}
// To the end of the run, with the column of the step before it.
async function toEnd() {
  byId('scroll').scrollTop = rows.length * ROW;
  await paint(true);
}

// ---- the overview
function drawOverview() {
  const { rows: parts, size } = facts.overview, n = parts[0].length, most = Math.max(1, ...parts.flat());
  const shown = parts.map((row, lane) => [row, lane]).filter(([row]) => row.some(Boolean));
  const height = shown.length * 5 + 2, shade = value => Math.ceil(4 * Math.sqrt(value / most));
  const color = lane => lane === HOST ? 'var(--mail)' : lane % 2 ? 'var(--get)' : 'var(--ink)';
  const part = (value, at, k, lane) => `<rect x="${at}" y="${k * 5 + 1}" width="1.05" height="4" fill="${color(lane)}" opacity="${.25 + .75 * shade(value) / 4}"/>`;
  let html = shown.map(([row, lane], k) => row.map((value, at) => value ? part(value, at, k, lane) : '').join('')).join('');
  if (story) html += [story.first, story.second].map(place => `<rect x="${place / size - n / 800}" width="${n / 400}" y="0" height="${height}" fill="var(--race)"/>`).join('');
  const svg = byId('overview');
  svg.setAttribute('viewBox', `0 0 ${Math.max(1, n)} ${height}`);
  svg.setAttribute('preserveAspectRatio', 'none');
  svg.style.height = `${Math.min(MOST_OVERVIEW, Math.max(14, height * 1.2))}px`;
  svg.innerHTML = html + `<rect id="view" x="0" y="0" width="1" height="${height}" fill="var(--put)" opacity=".25"/>`;
  svg.onclick = event => { const at = svg.getBoundingClientRect(); go(Math.min(facts.count - 1, Math.floor((event.clientX - at.left) / at.width * n * size))); };
}
function markOverview(a, b) {
  const first = rows[Math.min(rows.length - 1, Math.max(0, a))], last = rows[Math.min(rows.length - 1, Math.max(0, b))], { size, rows: parts } = facts.overview;
  byId('view').setAttribute('x', first.a / size);
  byId('view').setAttribute('width', Math.max(parts[0].length / 300, (last.b + 1 - first.a) / size));
}

// ---- what the reader asks for
async function onRow(n, from_end) {
  const row = rows[n];
  if (row.is_end) return;
  if (row.is_step) { await select(row.a === state.selected ? null : row.a); await refresh(row.a); return; }
  openGap(row, from_end);
  await refresh(row.a);
}
async function move(way, same_lane) {
  let n = state.selected === null ? rowOf(topPlace()) : rowOf(state.selected) + way;
  const step = state.selected === null ? null : stepAt(state.selected);
  const fits = row => row.is_step && (!same_lane || !step || laneOfKey(row.a) === step.lane);
  while (rows[n] && !fits(rows[n])) n += way;
  if (!rows[n]) return;
  const place = rows[n].a;
  await select(place);
  build();
  const y = rowOf(place) * ROW, scroll = byId('scroll');
  if (y < scroll.scrollTop + ROW || y > scroll.scrollTop + scroll.clientHeight - HEAD - 2 * ROW) centre(rowOf(place));
  await refresh(place);
}
function fold() {
  state.opened.clear();
  return refresh();
}
function toggleNames() {
  state.names = !state.names;
  press('names', state.names);
  return paint(true);
}
function togglePanel() {
  press('panel', !document.body.classList.toggle('wide'));
  return refresh();
}
function toggleTheme() {
  const root = document.documentElement, is_dark = root.dataset.theme ? root.dataset.theme === 'dark' : matchMedia('(prefers-color-scheme: dark)').matches;
  root.dataset.theme = is_dark ? 'light' : 'dark';
}
function toggleOnly() {
  if (!story) return null;
  setOnly(!state.only);
  return refresh();
}
function toggleGroup(group, button) {
  if (!state.off.delete(group)) state.off.add(group);
  button.setAttribute('aria-pressed', !state.off.has(group));
  return paint(true);
}

const KEY_ACTIONS = {
  j: () => move(1), ArrowDown: () => move(1), k: () => move(-1), ArrowUp: () => move(-1), J: () => move(1, true), K: () => move(-1, true),
  r: toRace, e: toEnd, w: toNextWait, o: toggleOnly, f: fold, c: toggleColumns, a: toggleNames, s: togglePanel, t: toggleTheme,
  g: () => ask('jump'), '/': () => ask('find'), n: () => toHit(1), N: () => toHit(-1), Enter: event => openNear(event.shiftKey),
};
// A field that is asked for by its key is empty to the reader: what stands in it is written over.
function ask(id) {
  byId(id).focus();
  byId(id).select();
}
// The last steps of those that wait, one after the other.
function toNextWait() {
  const places = facts.ending.said.map(([, place]) => place).filter(place => place !== null);
  return places.length ? goThere(places[(places.indexOf(state.selected) + 1) % places.length]) : null;
}
// Enter opens the gap behind the step that is chosen; with Shift, the one before it, from its end.
function openNear(is_before) {
  const n = rowOf(state.selected === null ? topPlace() : state.selected), row = rows[n + (is_before ? -1 : 1)];
  return row && !row.is_step && !row.is_end ? onRow(n + (is_before ? -1 : 1), is_before) : null;
}
function onKey(event) {
  const is_field = ['INPUT', 'SELECT'].includes(event.target.tagName), is_button = event.target.tagName === 'BUTTON' || event.target.tagName === 'SUMMARY';
  if (is_field || event.ctrlKey || event.metaKey || event.altKey || is_button && event.key === 'Enter') return;
  const action = KEY_ACTIONS[event.key];
  if (!action || event.key.startsWith('Arrow') && event.target.closest('#side')) return;
  event.preventDefault();
  perform(() => action(event));
}
// Does what the reader asks for; until it is done the picture says that it is busy.
async function perform(action) {
  byId('scroll').setAttribute('aria-busy', ++doing > 0);
  try { await action(); } finally { byId('scroll').setAttribute('aria-busy', --doing > 0); }
}
function onJump(event) {
  const digits = event.target.value.replace(/[ ,.]/g, '');
  if (event.key === 'Enter' && /^\d+$/.test(digits)) perform(() => goThere(Math.min(facts.count - 1, +digits)));
  if (event.key === 'Escape') byId('scroll').focus();
  if (event.key === 'g') ask('jump');
}
// The field takes a number alone.
function onJumpInput(event) {
  if (event.data && /[^\d ,.]/.test(event.data)) event.preventDefault();
}
function onClick(event) {
  const to = event.target.closest('[data-go]'), lane = event.target.closest('[data-lane]'), row = event.target.closest('[data-n]');
  if (to) perform(() => goThere(+to.dataset.go));
  else if (lane) perform(() => toggleLane(+lane.dataset.lane));
  else if (row) perform(() => onRow(+row.dataset.n, event.shiftKey));
}
function onPrint() {
  const top = Math.max(0, rowOf(story ? raceTop() : topPlace()) - 6);
  state.printed = [top, Math.min(rows.length, top + 38)];
  layout(); build(); layoutMemory(); heads(); show(...state.printed);
}
function afterPrint() {
  state.printed = null;
  refresh(topPlace());
}

function listen() {
  const on = {
    'to-race': toRace, 'to-end': toEnd, only: toggleOnly, fold, columns: toggleColumns, names: toggleNames, panel: togglePanel, theme: toggleTheme,
    before: () => toHit(-1), next: () => toHit(1),
  };
  for (const [id, action] of Object.entries(on)) byId(id).onclick = () => perform(action);
  const swatch = group => `<span class="swatch" style="background:${SHADES[group]}"></span>`;
  byId('groups').innerHTML = GROUPS.map(([group, name]) => `<button data-group="${group}" aria-pressed="true">${swatch(group)}${name}</button>`).join('');
  for (const button of document.querySelectorAll('[data-group]')) button.onclick = () => toggleGroup(button.dataset.group, button);
  byId('jump').onkeydown = onJump;
  byId('jump').onbeforeinput = onJumpInput;
  byId('find').onkeydown = event => perform(() => onFind(event));
  byId('scroll').addEventListener('scroll', () => requestAnimationFrame(() => paint(false)));
  byId('side').addEventListener('input', event => { if (event.target.id === 'filter') { state.filter = event.target.value; listCommands(); } });
  document.addEventListener('click', onClick);
  addEventListener('keydown', onKey);
  addEventListener('resize', () => state.printed || refresh());
  addEventListener('beforeprint', onPrint);
  addEventListener('afterprint', afterPrint);
}

// ---- the beginning
function headline() {
  byId('title').textContent = facts.machine;
  const { whole } = facts, verdict = whole ? `race ${whole.pair.join(' ')}` : facts.verdict;
  byId('verdict').textContent = `${verdict} · ${facts.ending.words}`;
  byId('verdict').classList.add(facts.ending.level);
  const steps = whole ? `${whole.record}, its short record: ${count(facts.count)} of ${count(whole.count)} steps` : `${facts.record}: ${count(facts.count)} steps`;
  byId('summary').textContent = `${steps}, ${facts.spes} SPU${facts.spes > 1 ? 's' : ''}`;
  if (!story) for (const id of ['to-race', 'only']) byId(id).hidden = true;
}
async function begin() {
  const theme = location.hash.slice(1);
  if (theme === 'dark' || theme === 'light') document.documentElement.dataset.theme = theme;
  readTables(await opened(byId('tables').textContent));
  readGraph(tables.graph);
  if (story) state.memory = story.shared[0][0];
  headline(); listen(); fitAt(facts.focus); layout(); build(); drawOverview();
  if (!story) { await refresh(); if (facts.focus > 0) await toEnd(); }
  else {
    await toRace();
    if (!raceFits()) { setOnly(true); await toRace(); }
  }
  await paint(true);
  document.body.dataset.ready = 'yes';
}
begin();
