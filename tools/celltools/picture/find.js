// ---- finding steps: by a label, a line of a source, an address, a channel, or by words
const hits = { text: '', places: [], turn: 0 };
const WAIT = 32; // blocks between two words on how far the search is

// What is asked for, as a test of a step.
function testOf(text) {
  const address = /^0x[0-9a-f]+$/i.test(text) ? parseInt(text, 16) : null, line = /^(.*):(\d+)$/.exec(text), channel = channelOf(text);
  const has_words = hasWords(text), isAt = step => address !== null && touches(step, null, address, address + 1);
  const isLine = ([file, number]) => line && number === +line[2] && (base(file) === base(line[1]) || !line[1]);
  return step => (step.fetch ? isLine(sourceOf(step)) || channel !== null && sourceOf(step)[3] === channel : false) || isAt(step) || isAtLabel(step, text)
    || has_words(step);
}
// Every word has to be there, a number as a whole one.
function hasWords(text) {
  const plain = word => word.replace(/[.*+?^${}()|[\]\\]/g, '\\$&');
  const wanted = text.split(/\s+/).map(word => new RegExp(plain(word) + (/\d$|^0x/.test(word) ? '(?![0-9a-f])' : ''), 'i'));
  return step => { const said = wordsOf(step); return wanted.every(word => word.test(said)); };
}
function wordsOf(step) {
  const bar = step.lane % 2 && step.lane !== HOST && step.letter !== 'a' ? barOfStep(step) : null;
  return `step ${step.place} ${stepText(step)} ${bar ? commandText(bar) : ''}`;
}
function channelOf(text) {
  const number = /^(?:\$?ch|channel )(\d+)$/i.exec(text), named = Object.entries(facts.channels).find(([, name]) => name.toLowerCase() === text.toLowerCase());
  return number ? +number[1] : named ? +named[0] : null;
}
// Whether a step fetches, reads or writes one of these bytes, of a place or of any.
const touches = (step, place, low, high) => [step.fetch, step.read, step.write].some(bytes => bytes && (place === null || bytes.place === place) && bytes.low < high && low < bytes.high);
// Whether a step is the instruction at a label, or touches the bytes behind it; `buf+0x10` is one of them.
function isAtLabel(step, text) {
  const [, name, offset] = /^([^+\s]+)(?:\+(0x[0-9a-f]+|\d+))?$/i.exec(text) || [];
  if (name === undefined) return false;
  if (step.fetch && isOfLabel(step, step.spe, name, offset, true)) return true;
  return [step.read, step.write].some(bytes => bytes && bytes.place !== MEMORY && isOfLabel(step, bytes.place, name, offset, false));
}
function isOfLabel(step, spe, name, offset, is_code) {
  const label = Object.hasOwn(tables.labels[spe], name) ? tables.labels[spe][name] : null;
  if (!label) return false;
  const low = label[0] + (offset ? +offset : 0), high = offset ? low + 1 : low + Math.max(1, label[1]);
  return is_code ? step.fetch.low === low : [step.read, step.write].some(bytes => bytes && bytes.place === spe && bytes.low < high && low < bytes.high);
}

// A plain instruction says the same each time, so that it is looked at once for each address.
const PLAIN = /^x (\d+) \| fetch \d+ (\d+) \d+$/;
function placesIn(lines, start, test, known) {
  return lines.flatMap((line, at) => {
    const plain = typeof line === 'string' ? PLAIN.exec(line) : null, key = plain && `${plain[1]} ${plain[2]}`;
    if (key && known.has(key)) return known.get(key) ? [start + at] : [];
    const is_hit = test(typeof line === 'string' ? parsed(line, start + at) : line);
    if (key) known.set(key, is_hit);
    return is_hit ? [start + at] : [];
  });
}
// Looks for a text in all steps; false where another search began meanwhile.
async function search(text) {
  const turn = ++hits.turn, test = testOf(text), known = new Map(), found = [];
  for (let number = 0; number < blocks.length; number++) {
    const lines = open_blocks.get(number) || (await opened(blocks[number])).split('\n');
    if (turn !== hits.turn) return false;
    if (number % WAIT === WAIT - 1) byId('hits').textContent = `looking: ${Math.floor(100 * number / blocks.length)} %`;
    for (const place of placesIn(lines, number * facts.block, test, known)) found.push(place);
  }
  hits.text = text;
  hits.places = found;
  return true;
}

const isHit = place => hits.places[lowerBound(hits.places, place)] === place;
function tellHits(at) {
  const said = !hits.text ? '' : hits.places.length ? `hit ${count(at + 1)} of ${count(hits.places.length)}` : `no step has ${hits.text}`;
  byId('hits').textContent = said;
}
// The hit behind the step that is chosen, or the one before it, and round again.
async function toHit(way) {
  const { places } = hits, here = state.selected === null ? topPlace() - (way > 0 ? 1 : 0) : state.selected;
  if (!places.length) { tellHits(0); return; }
  const at = way > 0 ? lowerBound(places, here + 1) : lowerBound(places, here) - 1, k = (at + places.length) % places.length;
  await go(places[k]);
  tellHits(k);
}
async function onFind(event) {
  if (event.key === 'Escape') byId('scroll').focus();
  if (event.key !== 'Enter') return;
  const text = event.target.value.trim(), way = event.shiftKey ? -1 : 1;
  if (text === hits.text) { await toHit(way); return; }
  if (!text) { hits.text = ''; hits.places = []; tellHits(0); await paint(true); return; }
  if (!await search(text)) return;
  await toFirstHit(way);
}
// The first hit from the step that is chosen on, itself among them.
async function toFirstHit(way) {
  if (way > 0 && state.selected !== null && isHit(state.selected)) { await go(state.selected); tellHits(lowerBound(hits.places, state.selected)); return; }
  await toHit(way);
  await paint(true);
}
