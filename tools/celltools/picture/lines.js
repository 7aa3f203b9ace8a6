// ---- lines, which are broken where words stand
const AROUND = 1.5, SAMPLE = 3, TURN = 7; // the room around words, the length that is looked at at once, and the radius of a corner

// A line is a list of pieces, cubic curves of four points each.
const curved = (from, one, other, to) => [from, one, other, to];
const between = ([x1, y1], [x2, y2], t) => [x1 + (x2 - x1) * t, y1 + (y2 - y1) * t];
const straightTo = (from, to) => curved(from, between(from, to, 1 / 3), between(from, to, 2 / 3), to);
const lengthOf = ([a, b, c, d]) => [[a, b], [b, c], [c, d]].reduce((sum, [[x1, y1], [x2, y2]]) => sum + Math.hypot(x2 - x1, y2 - y1), 0);

// A line through corners, which are round.
function angular(corners) {
  const found = [];
  let from = corners[0];
  for (let k = 1; k < corners.length - 1; k++) {
    const corner = corners[k], next = corners[k + 1];
    const turn = Math.min(TURN, Math.hypot(corner[0] - from[0], corner[1] - from[1]), Math.hypot(next[0] - corner[0], next[1] - corner[1]) / 2);
    const before = towards(corner, from, turn), behind = towards(corner, next, turn);
    found.push(straightTo(from, before), curved(before, between(before, corner, .55), between(behind, corner, .55), behind));
    from = behind;
  }
  return [...found, straightTo(from, corners[corners.length - 1])].filter(piece => lengthOf(piece) > .1);
}
function towards(from, to, length) {
  const whole = Math.hypot(to[0] - from[0], to[1] - from[1]);
  return whole ? between(from, to, length / whole) : from;
}

function pointOf([a, b, c, d], t) {
  const ab = between(a, b, t), bc = between(b, c, t), cd = between(c, d, t);
  return between(between(ab, bc, t), between(bc, cd, t), t);
}
// The part of a piece from one of its points to another.
function partOf(piece, low, high) {
  const [a, b, c, d] = piece, ab = between(a, b, high), bc = between(b, c, high), abc = between(ab, bc, high);
  const front = curved(a, ab, abc, pointOf(piece, high)), t = high ? low / high : 0;
  const last = between(front[2], front[3], t), middle = between(between(front[1], front[2], t), last, t);
  return curved(pointOf(front, t), middle, last, front[3]);
}
// The places of a piece, from 0 to 1, that are looked at.
function samples(piece) {
  const steps = Math.max(1, Math.ceil(lengthOf(piece) / SAMPLE));
  return [...Array(steps + 1).keys()].map(k => k / steps);
}
const isWithin = ([x, y], box, room) => x > box.x - room && x < box.x + box.w + room && y > box.y - room && y < box.y + box.h + room;
function boxesNear(piece, boxes) {
  const xs = piece.map(([x]) => x), ys = piece.map(([, y]) => y);
  const low_x = Math.min(...xs) - AROUND, high_x = Math.max(...xs) + AROUND, low_y = Math.min(...ys) - AROUND, high_y = Math.max(...ys) + AROUND;
  return boxes.filter(box => box.x < high_x && box.x + box.w > low_x && box.y < high_y && box.y + box.h > low_y);
}

// The path of a line, without what lies in words.
function broken(pieces) {
  let path = '', goes_on = false;
  for (const piece of pieces) {
    const parts = freeParts(piece);
    for (const [low, high] of parts) {
      const [from, ...others] = partOf(piece, low, high).map(([x, y]) => `${+x.toFixed(1)} ${+y.toFixed(1)}`);
      path += `${goes_on && low === 0 ? '' : `M${from}`}C${others}`;
    }
    goes_on = parts.length > 0 && parts[parts.length - 1][1] === 1;
  }
  return path;
}
function freeParts(piece) {
  const near = boxesNear(piece, words);
  return near.length ? runs(samples(piece), t => !near.some(box => isWithin(pointOf(piece, t), box, AROUND))) : [[0, 1]];
}
// The stretches of places at which something holds, each by its first and last place.
function runs(places, holds) {
  const found = [];
  let first = null, last = null;
  for (const place of places) {
    if (holds(place)) { first = first === null ? place : first; last = place; }
    if (first !== null && (last !== place || place === 1)) {
      if (last > first) found.push([first, last]);
      first = null;
    }
  }
  return found;
}
// The path of a line downwards, without what lies in words.
function brokenDown(x, top, bottom) {
  const gaps = words.filter(box => box.x - AROUND < x && x < box.x + box.w + AROUND).sort((one, other) => one.y - other.y);
  let path = '', y = top;
  for (const gap of gaps) {
    if (gap.y - AROUND > y && y < bottom) path += `M${x} ${y}V${Math.min(bottom, gap.y - AROUND)}`;
    y = Math.max(y, gap.y + gap.h + AROUND);
  }
  return y < bottom ? `${path}M${x} ${y}V${bottom}` : path;
}

// How much of a line lies in boxes, in pixels.
function within(pieces, boxes) {
  return pieces.reduce((sum, piece) => {
    const near = boxesNear(piece, boxes), places = samples(piece);
    return sum + places.filter(t => near.some(box => isWithin(pointOf(piece, t), box, 0))).length / places.length * lengthOf(piece);
  }, 0);
}
// A point of a line by its part of the whole length.
function pointAlong(pieces, part) {
  const lengths = pieces.map(lengthOf);
  let left = part * lengths.reduce((sum, length) => sum + length, 0);
  for (let k = 0; k < pieces.length; k++) {
    if (left <= lengths[k] || k === pieces.length - 1) return pointOf(pieces[k], lengths[k] ? Math.min(1, left / lengths[k]) : 0);
    left -= lengths[k];
  }
  return [0, 0];
}
