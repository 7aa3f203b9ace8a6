// ---- arrows, and the one that is missing
const GROUP = {
  Issued: 'issue', AtomicIssued: 'atomic', NextAtomic: 'atomic', AtomicSeen: 'atomic', Line: 'atomic', Passed: 'mail', PlaceFree: 'mail', Signalled: 'mail', Finished: 'mail',
  Queue: 'queue', ElementPiece: 'queue', NextElement: 'queue', StallSeen: 'tag', Resumed: 'tag', ResumedEarlier: 'tag', TagSeen: 'tag', Program: 'lane', Script: 'lane',
};
const GROUPS = [['issue', 'issue'], ['tag', 'tag and stall status'], ['queue', 'fences, elements'], ['atomic', 'atomic'], ['mail', 'mailboxes, signals, host']];
const SHADES = {
  issue: 'var(--issue)', atomic: 'var(--atomic)', mail: 'var(--mail)', queue: 'var(--queue)', tag: 'var(--tag)', lane: 'var(--ink)', race: 'var(--race)',
};
const NAMED_WITHIN = 30; // rows that an arrow may span and still have its rule's name
const OFF_DOT = 5, OFF_BAR = 9, BULGE = 16; // how far from a step an arrow ends, beside it and above it; how far one within a column bends

// On which side of a step its words stand: 1 to the right, -1 to the left, 0 nowhere.
const wordsSide = lane => lane.fold ? 0 : lane.is_flow || lane.number === HOST ? 1 : -1;

// Where an arrow begins and ends; null where one of its steps has no row.
function endsOf(from, to) {
  const one = stepAt(from), other = stepAt(to);
  if (!one || !other || !isShown(from) || !isShown(to)) return null;
  const x1 = anchor(one), x2 = anchor(other);
  return { x1, y1: middle(from), x2, y2: middle(to), lane1: lanes[one.lane], lane2: lanes[other.lane], way: Math.abs(x1 - x2) < 4 ? 0 : Math.sign(x2 - x1) };
}
// A curve from the side of one step to the side of another; where words stand on that side, from below the one or to above the other.
function curve({ x1, y1, x2, y2, lane1, lane2, way }, off) {
  if (!way) {
    const side = lane1.is_flow ? -1 : 1;
    return [curved([x1 + side * off, y1], [x1 + side * BULGE, y1 + off], [x2 + side * BULGE, y2 - off], [x2 + side * off, y2])];
  }
  const x = (x1 + x2) / 2, y = (y1 + y2) / 2, is_below = way === wordsSide(lane1), is_above = -way === wordsSide(lane2);
  return [curved(is_below ? [x1, y1 + OFF_BAR] : [x1 + way * off, y1], is_below ? [x1, y] : [x, y1],
    is_above ? [x2, y] : [x, y2], is_above ? [x2, y2 - OFF_BAR] : [x2 - way * off, y2])];
}
const isIssue = name => name === 'Issued' || name === 'AtomicIssued';
// An issue's arrow goes to the command's bar, and where it is thick, down to its first step.
function issueLine({ x1, y1, x2, y2, way }, is_strong) {
  return angular(is_strong ? [[x1 + way * OFF_DOT, y1], [x2, y1], [x2, y2 - OFF_BAR]] : [[x1 + way * OFF_DOT, y1], [x2 - way * OFF_DOT, y1]]);
}

// An arrow as it is drawn: its line, its rule's name, and its looks; null where it isn't.
function arrowOf([from, to, rule], is_strong) {
  const ends = endsOf(from, to), name = facts.rules[rule], group = GROUP[name];
  if (!ends) return null;
  const pieces = isIssue(name) ? issueLine(ends, is_strong) : curve(ends, OFF_DOT);
  return { ends, name, group, pieces, is_strong, title: `<title>${name}: step ${from} happens before step ${to}</title>` };
}
function arrowArt({ ends, group, pieces, is_strong, title }) {
  if (group === 'lane') return `<path d="${brokenDown(ends.x1, ends.y1, ends.y2)}" stroke="var(--ink)" stroke-width="3" opacity=".8">${title}</path>`;
  return `<path d="${broken(pieces)}" fill="none" stroke="${SHADES[group]}" stroke-width="${is_strong ? 2.4 : 1.3}" `
    + `opacity="${is_strong ? 1 : .75}" marker-end="url(#m-${group})">${title}</path>`;
}
function arrowLabel({ ends, name, group, pieces, is_strong }, solid, line_boxes) {
  const is_far = Math.abs(ends.y1 - ends.y2) > NAMED_WITHIN * ROW;
  if (!state.names || group === 'lane' || group === 'issue' && !is_strong || !is_strong && is_far) return '';
  return ruleLabel(isIssue(name) ? [straightTo([ends.x2, ends.y1], [ends.x2, ends.y2])] : pieces, name, SHADES[group], solid, line_boxes);
}

const strongArrows = () => story ? story.pairs : [];
function weakArrows(a, b) {
  const strong = new Set(strongArrows().map(([from, to]) => `${from} ${to}`));
  const isSeen = arrow => Math.min(arrow.top, arrow.bottom) <= b && Math.max(arrow.top, arrow.bottom) >= a;
  return tables.arrows.filter(arrow => isSeen(arrow) && !state.off.has(GROUP[facts.rules[arrow[2]]]) && !strong.has(`${arrow[0]} ${arrow[1]}`));
}

// ---- the arrow that is missing
// Lines that it may take: a curve, and along the gutter before each flow controller's bars, from the side of the first step or from below it.
function missingLines(ends) {
  const { x1, y1, x2, y2 } = ends, gutters = lanes.filter(lane => lane.is_flow && !lane.fold).map(lane => lane.x + to_bars / 3);
  const along = x => [[x, y2], [x2 + (x > x2 ? OFF_BAR : -OFF_BAR), y2]], below = y1 + ROW / 2;
  return [curve(ends, OFF_BAR), ...gutters.flatMap(x => [
    angular([[x1 + (x > x1 ? OFF_BAR : -OFF_BAR), y1], [x, y1], ...along(x)]), angular([[x1, below - 2], [x1, below], [x, below], ...along(x)])])];
}
// The one of them that meets the fewest words, then the fewest bars and dots, and then is the shortest. One that underlines the first step's words costs more.
function missingLine(bar_boxes) {
  const ends = story && endsOf(story.first, story.second);
  if (!ends) return [];
  const others = [...bar_boxes, ...dots];
  const underlines = pieces => pieces.some(piece => piece.every(([, y]) => y === ends.y1 + ROW / 2));
  const cost = pieces => 20 * within(pieces, words) + within(pieces, others) + pieces.reduce((sum, piece) => sum + lengthOf(piece), 0) / 50 + 20 * underlines(pieces);
  return missingLines(ends).map(pieces => [cost(pieces), pieces]).reduce((one, other) => other[0] < one[0] ? other : one)[1];
}
function missingArt(pieces) {
  if (!pieces.length) return '';
  const path = broken(pieces), title = `<title>step ${story.first} does not happen before step ${story.second}</title>`;
  return `<path d="${path}" fill="none" stroke="var(--paper)" stroke-width="5" opacity=".8"/>`
    + `<path id="missing" d="${path}" fill="none" stroke="var(--race)" stroke-width="2.4" stroke-dasharray="6 4" marker-end="url(#m-race)">${title}</path>`;
}
