// ---- the drawing: lines of the programs, bars, steps, and above them the words that have places there
const DEFINITIONS = '<defs>' + Object.entries(SHADES).map(([name, color]) =>
  `<marker id="m-${name}" viewBox="0 0 8 8" refX="7.5" refY="4" markerUnits="userSpaceOnUse" markerWidth="9" markerHeight="9" orient="auto">`
  + `<path d="M0 .8 8 4 0 7.2Z" fill="${color}"/></marker>`).join('')
  + '<pattern id="stall" width="5" height="5" patternUnits="userSpaceOnUse" patternTransform="rotate(45)"><rect width="5" height="5" fill="var(--paper)"/>'
  + '<rect width="2" height="5" fill="var(--ink)"/></pattern></defs>';

function laneLines(top, bottom) {
  const line = (x, look) => `<path d="${brokenDown(x, top, bottom)}" ${look}/>`;
  return lanes.filter(lane => lane.w).map(lane => line(lane.x + .5, 'stroke="var(--line)"')
    + (lane.is_flow || lane.number === MEMORY_COLUMN ? '' : line(lineOf(lane), 'stroke="var(--lane)" stroke-width="1.5"'))).join('');
}

// ---- bars
function barArt(bar) {
  const lane = lanes[2 * bar.spe + 1], x = barX(lane, bar), color = `var(--${bar.color})`, is_open = bar.end === NEVER;
  const top = middle(bar.issue), bottom = is_open ? (rows.length - 1) * ROW + ROW / 2 : middle(bar.end), first = bar.first === NEVER ? bottom : middle(bar.first);
  const last = is_open && bar.last !== NEVER ? middle(bar.last) : bottom, fill = HOLLOW.includes(bar.kind) ? 'var(--paper)' : color;
  const body = `<rect x="${x - 4}" y="${first - 7}" width="8" height="${Math.max(14, last - first + 14)}" rx="2.5" fill="${fill}" stroke="${color}" stroke-width="2"/>`;
  return `<g><title>${escaped(commandText(bar))}</title><path d="M${x - 4} ${top}h8" stroke="${color}" stroke-width="2"/>`
    + `<path d="${brokenDown(x, top, Math.min(first, bottom))}" stroke="${color}" stroke-width="2" stroke-dasharray="2 2"/>` + (bar.first === NEVER ? '' : body)
    + bar.stalls.map(stall => stallArt(stall, x, bottom, color)).join('') + (is_open ? openEnd(x, last, bottom, color) : '') + '</g>';
}
// A command that is never done ends in a cross.
function openEnd(x, last, bottom, color) {
  return `<path d="${brokenDown(x, last, bottom)}" stroke="${color}" stroke-width="2" stroke-dasharray="2 3"/>`
    + `<path d="M${x - 4} ${bottom - 4}l8 8m0-8l-8 8" stroke="var(--race)" stroke-width="2.4"/>`;
}
function stallArt([from, to], x, bottom, color) {
  const top = middle(from) + 4, end = to === NEVER ? bottom : middle(to);
  return `<rect x="${x - 4}" y="${top}" width="8" height="${Math.max(4, end - top)}" fill="url(#stall)" stroke="${color}"><title>stalled</title></rect>`;
}

// ---- steps: dots in the columns of programs, ticks in bars
function anchor(step) {
  const lane = lanes[step.lane];
  return lane.is_flow ? barX(lane, barOfStep(step)) : lineOf(lane);
}
function stepArt(n) {
  const step = stepAt(rows[n].a);
  if (!step) return '';
  const x = anchor(step), y = n * ROW + ROW / 2, lane = lanes[step.lane], fill = relation(step) === null ? 'var(--paper)' : 'var(--ink)';
  if (isRacing(step.place)) return `<path d="M${x} ${y - 7}l7 7-7 7-7-7z" fill="var(--race)" stroke="var(--paper)" stroke-width="1.5"/>`;
  if (lane.is_flow) return `<line x1="${x - 4}" x2="${x + 4}" y1="${y}" y2="${y}" stroke="var(--ink)" stroke-width="1.5"/>`;
  return `<circle cx="${x}" cy="${y}" r="${lane.fold ? 2.5 : 3.5}" fill="${fill}" stroke="var(--ink)" stroke-width="1.5"/>`;
}

// The drawing of the rows from a to below b, beneath the words and above them. Words get their places first, and then lines are broken where words stand.
function drawing(a, b) {
  const seen = bars.filter(bar => bar.bottom >= a && bar.top <= b), bar_boxes = barBoxes(seen);
  const arrowsOf = (pairs, is_strong) => pairs.map(pair => arrowOf(pair, is_strong)).filter(Boolean);
  const weak = arrowsOf(weakArrows(a, b), false), strong = arrowsOf(strongArrows(), true);
  const named = seen.filter(bar => bar.number !== null && bar.top >= a - 1 && isShown(bar.issue) && !lanes[2 * bar.spe + 1].fold);
  const names = named.map(bar => barLabel(bar, lanes[2 * bar.spe + 1])).join('');
  const missing = missingLine(bar_boxes), line_boxes = lineBoxes(seen, a, b, missing);
  const solid = [...bar_boxes, ...edgeBoxes()], labels = [...strong, ...weak];
  const over = names + (missing.length ? missingLabel(missing, bar_boxes) : '') + labels.map(arrow => arrowLabel(arrow, solid, line_boxes)).join('');
  const steps = rows.slice(a, b).map((row, k) => row.is_step ? stepArt(a + k) : '').join('');
  const under = DEFINITIONS + laneLines(a * ROW, b * ROW) + seen.map(barArt).join('') + steps + [...weak, ...strong].map(arrowArt).join('') + missingArt(missing) + memoryArt(a, b);
  return [under, over];
}
