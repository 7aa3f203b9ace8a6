// ---- which columns are open: as many as fit into the window, those first that have something in view
const isAllOpen = () => state.folded.size === 0;
const isLane = lane => lane !== null;
const columnsOf = lane => lane === HOST ? [HOST] : [lane & ~1, lane | 1]; // the two of a processor
const isInWindow = () => width <= byId('scroll').clientWidth;
const flat = lists => [...new Set(lists.flat())];

// The columns of the two steps that race and of what issued them; and behind them those of the processors on the way from the one to the other.
const racingLanes = () => flat([story.first, story.second].map(laneOfKey).filter(isLane).map(lane => [lane, lane & ~1]));
const raceLists = () => [racingLanes(), ...story.steps.map(laneOfKey).filter(isLane).map(columnsOf), [HOST]];
const waitingLanes = () => facts.ending.said.map(([, place]) => laneOfKey(place)).filter(isLane).map(columnsOf);

// The columns by how near to a place they have a row, each processor's two together.
function nearLanes(place) {
  const { keys, lanes: of_keys } = tables, found = new Set();
  let high = lowerBound(keys, place), low = high - 1;
  while ((low >= 0 || high < keys.length) && found.size <= facts.spes) {
    const is_low = high >= keys.length || low >= 0 && place - keys[low] <= keys[high] - place;
    found.add(of_keys[is_low ? low-- : high++] >> 1);
  }
  return [...found].map(number => columnsOf(2 * number));
}
const allLists = () => [...Array(facts.spes + 1).keys()].map(number => columnsOf(2 * number));

// Opens columns, the first of these lists anyway and of the others those that fit, and folds the rest.
function fit([first, ...others]) {
  state.kept_folds = null;
  state.folded = new Set([...Array(HOST).keys(), ...(hasScript() ? [HOST] : [])].filter(lane => !first.includes(lane)));
  layout();
  for (const list of others) {
    const opened = list.filter(isFolded);
    opened.forEach(lane => state.folded.delete(lane));
    if (opened.length) layout();
    if (opened.length && !isInWindow()) opened.forEach(lane => state.folded.add(lane));
  }
  layout();
}
// All columns where they fit, but of many processors those that a race is about alone; else those that wait, and those nearest to a place.
function fitAt(place) {
  const is_crowd = story && facts.spes > 2;
  state.folded.clear();
  state.kept_folds = null;
  layout();
  if (is_crowd || !isInWindow()) fit(story ? [...raceLists(), ...(is_crowd ? [] : nearLanes(place))] : [...waitingLanes(), ...nearLanes(place), ...allLists()]);
}

// Sees that the column of a step is open and can be in the window: it and its partner, and of the others those that have something near it.
function openFor(place) {
  const { lane } = stepAt(place);
  if (!isFolded(lane)) return;
  columnsOf(lane).forEach(one => state.folded.delete(one));
  state.kept_folds = null;
  layout();
  if (!isInWindow()) fit([[lane], columnsOf(lane), ...nearLanes(place)]);
}
// Shows columns by as little as is needed: all of them, or where they are too far from each other the last one.
function showColumns(numbers) {
  const scroll = byId('scroll'), room = scroll.clientWidth, shown = numbers.map(number => lanes[number]);
  const low = Math.min(...shown.map(lane => lane.x)), high = Math.max(...shown.map(lane => lane.x + lane.w)), last = shown[shown.length - 1];
  const [left, right] = high - low <= room ? [low, high] : [last.x, last.x + last.w];
  if (left < scroll.scrollLeft) scroll.scrollLeft = right <= room ? 0 : left;
  else if (right > scroll.scrollLeft + room) scroll.scrollLeft = right - room;
}
function showRace() {
  if (racingLanes().some(isFolded) || !isInWindow()) fit(raceLists());
}

function toggleLane(lane) {
  const partner = lane ^ 1, is_strip = lane < HOST && isFolded(lane) && isFolded(partner);
  if (is_strip) state.folded.delete(partner);
  if (!state.folded.delete(lane)) state.folded.add(lane);
  state.kept_folds = null;
  return refresh();
}
// Opens all columns; again, folds those that were.
function toggleColumns() {
  if (!isAllOpen()) {
    state.kept_folds = state.folded;
    state.folded = new Set();
  } else if (state.kept_folds) {
    state.folded = state.kept_folds;
    state.kept_folds = null;
  } else fitAt(topPlace());
  return refresh();
}
