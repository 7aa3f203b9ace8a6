// ---- what is ordered before and after a step, by the graph that the page has
const chains = new Map(), special = new Map(), edges = new Map();
let flow_order = [];

function readGraph(graph) {
  if (!graph) return;
  for (const [place, chain] of graph.chains) chains.set(place, chain);
  for (const [place, ...found] of graph.edges) {
    edges.set(place, found);
    flow_order.push(place);
    if (chains.has(place)) listOf(special, chains.get(place)).push(place);
  }
}
function listOf(map, key) {
  if (!map.has(key)) map.set(key, []);
  return map.get(key);
}
const chainOfStep = step => step.letter === 'x' ? step.spe : step.letter === 'h' ? -1 : null;
const membersOf = node => tables.graph.sets[-node - 1];
const nodesBefore = place => (edges.get(place) || []).filter((_, k) => k % 2 === 0);

// The steps before one: of each chain up to a place, and steps of flow controllers.
function pastOf(step) {
  const limits = new Map(), seen = new Set(), stack = nodesBefore(step.place), chain = chainOfStep(step);
  const upTo = (key, place) => {
    const limit = limits.has(key) ? limits.get(key) : -1;
    if (place <= limit) return;
    limits.set(key, place);
    for (const k of special.get(key) || []) if (k > limit && k <= place) stack.push(...nodesBefore(k));
  };
  if (chain !== null) upTo(chain, step.place - 1);
  while (stack.length) {
    const node = stack.pop();
    if (node >= 0 && chains.has(node)) upTo(chains.get(node), node);
    else if (!seen.has(node)) {
      seen.add(node);
      stack.push(...(node < 0 ? membersOf(node) : nodesBefore(node)));
    }
  }
  return other => seen.has(other.place) || chainOfStep(other) !== null && other.place <= (limits.has(chainOfStep(other)) ? limits.get(chainOfStep(other)) : -1);
}

// The steps behind one: of each chain from a place on, and steps of flow controllers.
function futureOf(step) {
  const firsts = new Map(), seen = new Set([step.place]), sets = new Map(), chain = chainOfStep(step);
  if (chain !== null) firsts.set(chain, step.place);
  const firstOf = node => firsts.has(chains.get(node)) ? firsts.get(chains.get(node)) : Infinity;
  const isBehind = node => node >= 0 ? seen.has(node) || chains.has(node) && node >= firstOf(node) : setIsBehind(node, isBehind, sets);
  for (const place of flow_order) {
    if (place <= step.place || !nodesBefore(place).some(isBehind)) continue;
    if (!chains.has(place)) seen.add(place);
    else if (!firsts.has(chains.get(place))) firsts.set(chains.get(place), place);
  }
  return other => seen.has(other.place) || chainOfStep(other) !== null && firsts.has(chainOfStep(other)) && other.place >= firsts.get(chainOfStep(other));
}

function setIsBehind(node, isBehind, known) {
  const stack = [node];
  while (stack.length) {
    const top = stack[stack.length - 1], waiting = known.has(top) ? [] : membersOf(top).filter(inner => inner < 0 && !known.has(inner));
    if (waiting.length) { stack.push(...waiting); continue; }
    if (!known.has(top)) known.set(top, membersOf(top).some(inner => inner < 0 ? known.get(inner) : isBehind(inner)));
    stack.pop();
  }
  return known.get(node);
}

// How steps stand to the one that is chosen: -1 before, 1 behind, 0 itself, null unordered; undefined where the page doesn't say.
let relation = () => undefined;
function relateTo(step) {
  if (!step || !tables.graph) { relation = () => undefined; return; }
  const isBefore = pastOf(step), isBehind = futureOf(step);
  relation = other => other.place === step.place ? 0 : isBefore(other) ? -1 : isBehind(other) ? 1 : null;
}

const MOST_NAMED = 12; // of the steps that a rule puts before one, the latest that are told
// The steps that rules put before one, but for those of its own program: by each rule, the latest first. Of a long record, those whose arrows are drawn.
function direct(step) {
  const found = new Map(), list = edges.get(step.place) || [];
  for (let k = 0; k < list.length; k += 2) found.set(facts.rules[list[k + 1]], listOf(found, facts.rules[list[k + 1]]).concat(stepsOf(list[k])));
  if (!tables.graph) for (const [from, to, rule] of tables.arrows) if (to === step.place) listOf(found, facts.rules[rule]).push(from);
  return [...found].map(([rule, places]) => [rule, [...new Set(places)].sort((a, b) => b - a)]).sort(([, one], [, other]) => other[0] - one[0]);
}
function stepsOf(node) {
  const found = [], seen = new Set(), stack = [node];
  while (stack.length) {
    const top = stack.pop();
    if (top >= 0) found.push(top);
    else if (!seen.has(top)) { seen.add(top); for (const member of membersOf(top)) stack.push(member); }
  }
  return found;
}

// ---- the step before one in its own program, which may be folded
const neighbours = new Map();
const chainRule = step => step.lane === HOST ? 'Script' : 'Program';
const neighbourOf = step => neighbours.has(step.place) ? neighbours.get(step.place) : null;
async function findNeighbour(step) {
  if (chainOfStep(step) !== null && !neighbours.has(step.place)) neighbours.set(step.place, await lastOfLane(step.lane, step.place));
}
// The last step of a column before a place; null where there is none. The overview tells which parts of the run have one.
async function lastOfLane(lane, end) {
  const { rows: parts, size } = facts.overview;
  for (let part = Math.floor((end - 1) / size); part >= 0 && end > 0; part--) {
    if (!parts[lane][part]) continue;
    for (let place = Math.min(end, (part + 1) * size) - 1; place >= part * size; place--) {
      await need([place]);
      if (stepAt(place).lane === lane) return place;
    }
  }
  return null;
}
