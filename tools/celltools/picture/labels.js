// ---- places for words in the drawing, where no other text is
const measuring = document.createElement('canvas').getContext('2d');
const LABEL_FONT = '10px system-ui, "DejaVu Sans", sans-serif', STRONG_FONT = 'bold 11px system-ui, "DejaVu Sans", sans-serif';
const LETTERS = 3;      // as far as the letters of a row are from its edges
const SHORT_ARROW = 120;
let words = [], dots = []; // boxes, in the drawing's own measure

function widthOf(text, font) {
  measuring.font = font;
  return measuring.measureText(text).width;
}

// The boxes of the words in the rows.
function occupyRows(body, top) {
  const origin = body.getBoundingClientRect();
  words = [...body.querySelectorAll('.t')].map(node => {
    const box = node.getBoundingClientRect(), edge = box.height < ROW - 1 ? 0 : LETTERS;
    return { x: box.left - origin.left, y: box.top - origin.top + top + edge, w: box.width, h: box.height - 2 * edge };
  }).filter(box => box.w > 0);
}
// Dots and ticks are to be seen as well.
function occupyDots(a, b) {
  dots = [];
  for (let n = a; n < b; n++) {
    const step = rows[n].is_step ? stepAt(rows[n].a) : null;
    if (step) dots.push({ x: anchor(step) - 5, y: n * ROW + ROW / 2 - 5, w: 10, h: 10 });
  }
}
const meets = (one, other) => one.x < other.x + other.w + 2 && other.x < one.x + one.w + 2 && one.y < other.y + other.h && other.y < one.y + one.h;

// The first of these middles around which a box is free of words, dots and these boxes; it is taken then. Null where none is.
function placeFor(points, w, h, boxes = []) {
  const lanes_end = lanes[MEMORY_COLUMN].x;
  for (const [x, y] of points) {
    const place = { x: x - w / 2, y: y - h / 2, w, h };
    if (place.x < GUTTER || place.x + w > lanes_end || [words, dots, boxes].some(found => found.some(other => meets(place, other)))) continue;
    words.push(place);
    return [x, y];
  }
  return null;
}

// What words shouldn't cover: bars and the edges of the row that is chosen not at all, and lines where there is room elsewhere.
function edgeBoxes() {
  if (state.selected === null) return [];
  const top = rowOf(state.selected) * ROW;
  return [top, top + ROW].map(y => ({ x: 0, y: y - 2, w: width, h: 4 }));
}
function barBoxes(seen) {
  return seen.filter(bar => bar.first !== NEVER).map(bar => {
    const top = rowOf(bar.first) * ROW, bottom = (bar.end === NEVER ? rowOf(bar.last) : bar.bottom) * ROW + ROW;
    return { x: barX(lanes[2 * bar.spe + 1], bar) - 5, y: top + 3, w: 10, h: bottom - top - 6 };
  });
}
function lineBoxes(seen, a, b, missing) {
  const down = (x, top, bottom) => ({ x: x - 1, y: top * ROW, w: 2, h: (bottom - top + 1) * ROW });
  const of_lanes = lanes.filter(lane => lane.w).flatMap(lane => lane.is_flow ? [down(lane.x, a, b)] : [down(lane.x, a, b), down(lineOf(lane), a, b)]);
  const of_missing = missing.flatMap(piece => samples(piece).map(t => pointOf(piece, t))).map(([x, y]) => ({ x: x - 1, y: y - 1, w: 2, h: 2 }));
  return [...of_lanes, ...seen.map(bar => down(barX(lanes[2 * bar.spe + 1], bar), bar.top, bar.bottom)), ...of_missing];
}

// Points along a line, from its middle on, and beside it.
function pointsOn(at, beside) {
  return [.5, .42, .58, .34, .66, .26, .74, .18, .82].flatMap(part => {
    const [x, y] = at(part);
    return [[x, y], ...beside.map(by => [x + by, y])];
  });
}

// The name of a rule at its arrow, where there is room.
function ruleLabel(pieces, text, color, solid, line_boxes) {
  const w = widthOf(text, LABEL_FONT), [low, high] = [0, 1].map(part => pointAlong(pieces, part)[0]).sort((one, other) => one - other);
  const near = pointsOn(part => pointAlong(pieces, part), [w / 2 + 4, -w / 2 - 4, w / 2 + 18]);
  if (high - low < SHORT_ARROW) near.push(...pointsOn(part => pointAlong(pieces, part), []).flatMap(([, y]) => [[high + w / 2 + 12, y], [low - w / 2 - 12, y]]));
  const place = placeFor(near, w + 2, 12, [...solid, ...line_boxes]) || placeFor(near, w + 2, 12, solid);
  return place ? `<text class="halo" x="${place[0]}" y="${place[1] + 3.5}" text-anchor="middle" fill="${color}">${text}</text>` : '';
}

// The words at the arrow that is missing: on it, where it is long, or beside it, above or below it, where that is free.
function missingLabel(pieces, bar_boxes) {
  const text = 'not ordered', w = widthOf(text, STRONG_FONT) + 16, longest = pieces.reduce((one, other) => lengthOf(other) > lengthOf(one) ? other : one);
  const near = [0, 10, -10, 20, -20, 30, -30, 40, -40, 60, -60, 80, -80, 120, -120]
    .flatMap(by => pointsOn(part => pointAlong(pieces, part), [w / 2 + 12, -w / 2 - 12, w, -w]).map(([x, y]) => [x, y + by]));
  if (lengthOf(longest) > 1.5 * w) near.unshift(...[.5, .4, .6, .3, .7].map(part => pointOf(longest, part)));
  else near.unshift(...near.filter(([x, y]) => !pieces.some(piece => boxesNear(piece, [{ x: x - w / 2 - 4, y: y - 9, w: w + 8, h: 18 }]).length)));
  const place = placeFor(near, w, 18, bar_boxes) || placeFor(near, w, 18);
  if (!place) return '';
  const [x, y] = place;
  return `<rect x="${x - w / 2}" y="${y - 9}" width="${w}" height="18" rx="9" fill="var(--paper)" stroke="var(--race)"/>`
    + `<text class="strong" x="${x}" y="${y + 4}" text-anchor="middle" fill="var(--race)">${text}</text>`;
}

// What a command moves, or where to.
function amountOf(bar) {
  if (bar.kind === 'BARRIER') return '';
  if (bar.kind === 'SNDSIG') return ` → SPU ${registerOf(bar)[0]} sig ${registerOf(bar)[1]}`;
  return bar.kind.endsWith('L') ? `, ${bar.size / 8} el.` : `, ${count(bar.size)} B`;
}
// The name of a command beside its issue, as long as there is room for.
function barLabel(bar, lane) {
  const texts = [`#${bar.number} ${bar.name} t${bar.tag}${amountOf(bar)}`, `#${bar.number} ${bar.name} t${bar.tag}`, `#${bar.number} ${bar.name}`, `#${bar.number}`];
  const room = textEnd(lane) - textOf(lane), text = texts.find(one => widthOf(one, STRONG_FONT) < room);
  if (!text) return '';
  const w = widthOf(text, STRONG_FONT), place = placeFor([[textOf(lane) + w / 2, bar.top * ROW + ROW / 2]], w, 14);
  return place ? `<text class="strong" x="${textOf(lane)}" y="${place[1] + 4}" fill="var(--${bar.color})">${escaped(text)}</text>` : '';
}
