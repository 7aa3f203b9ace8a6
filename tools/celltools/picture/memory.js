// ---- the column of memory: the ranges of one place that the run touches, row by row
let ranges = [];

// The ranges of the place that is shown: all of it, or where it has the bytes of a race, those around them.
function layoutMemory() {
  const shared = story && story.shared.find(([place]) => place === state.memory), all = facts.touched[state.memory] || [];
  const found = shared ? aroundShared(all, shared[1], shared[2]) : all;
  const lane = lanes[MEMORY_COLUMN], sum = found.reduce((total, [low, high]) => total + Math.sqrt(high - low), 0), room = lane.w - 16 - 6 * found.length;
  let x = lane.x + 8;
  ranges = found.map(([low, high]) => {
    const w = Math.max(3, room * Math.sqrt(high - low) / sum), range = { low, high, x, w };
    x += w + 6;
    return range;
  });
}
function aroundShared(all, low, high) {
  const margin = Math.max(32, 2 * (high - low));
  const found = all.filter(range => range[0] < high + 64 && range[1] > low - 64).map(range => [Math.max(range[0], low - margin), Math.min(range[1], high + margin)]);
  return found.length ? found : [[low, high]];
}

// Draws bytes, as far as they are in a range that is shown.
function onRanges(low, high, draw) {
  for (const range of ranges) {
    const a = Math.max(range.low, low), b = Math.min(range.high, high), scale = range.w / (range.high - range.low);
    if (a < b) draw(range.x + (a - range.low) * scale, Math.max(2, (b - a) * scale));
  }
}

function memoryArt(a, b) {
  const lane = lanes[MEMORY_COLUMN];
  if (lane.fold) return '';
  const edge = x => `<line x1="${x}" x2="${x}" y1="${a * ROW}" y2="${b * ROW}" stroke="var(--line)" stroke-dasharray="1 3"/>`;
  const out = ranges.flatMap(range => [edge(range.x), edge(range.x + range.w)]);
  for (const [place, low, high] of story ? story.shared : []) {
    if (place === state.memory) onRanges(low, high, (x, w) => out.push(`<rect x="${x}" y="${a * ROW}" width="${w}" height="${(b - a) * ROW}" fill="var(--race)" opacity=".13"/>`));
  }
  for (let n = a; n < b; n++) if (rows[n].is_step) memoryOfRow(n, out);
  return out.join('');
}
function memoryOfRow(n, out) {
  const step = stepAt(rows[n].a);
  if (!step) return;
  const color = isRacing(step.place) ? 'var(--race)' : step.lane % 2 && step.lane !== HOST ? 'var(--get)' : 'var(--ink)', y = n * ROW;
  const title = (way, bytes) => `<title>step ${step.place} ${way} ${hex(bytes.low)} to ${hex(bytes.high - 1)}</title>`;
  const hollow = (way, bytes, dashes) => onRanges(bytes.low, bytes.high, (x, w) => out.push(`<rect x="${x + .75}" y="${y + 5}" width="${Math.max(1.5, w - 1.5)}" height="10" `
    + `fill="none" stroke="${color}" stroke-width="1.5"${dashes}>${title(way, bytes)}</rect>`));
  const full = (way, bytes) => onRanges(bytes.low, bytes.high, (x, w) =>
    out.push(`<rect x="${x}" y="${y + 4}" width="${w}" height="12" fill="${color}">${title(way, bytes)}</rect>`));
  if (isTouched(step.read)) hollow('reads', step.read, '');
  if (isTouched(step.write)) full('writes', step.write);
  if (isRacing(step.place) && isTouched(step.fetch)) hollow('fetches', step.fetch, ' stroke-dasharray="3 2"');
}
const isTouched = bytes => bytes && bytes.place === state.memory;
