// @ts-check
// The report on a hunt for the page: the lines that `hunt --all` prints, without its commands. In their place a line has the number of a run that can be opened.

/**
 * @typedef {import('./sums.js').Sum} Sum @typedef {import('./sums.js').Count} Count @typedef {import('./sums.js').Entry} Entry
 * @typedef {import('./sums.js').Source} Source
 * @typedef {{ kind: string, text: string, run: number | null }} Line
 *   a line: `kind` is that of a finding for its first line, `deeper` for a line on the one before it, or else `plain`; `run` is the run that it is about
 */

/** By the kinds of findings their count, and how the first line and their own lines name them. */
const FINDINGS = {
  race: ['race', 'DATA RACE', 'data race'], halt: ['halt', 'HALT', 'halt'], fault: ['fault', 'FAULT', 'fault'], deadlock: ['stuck', 'DEADLOCK', 'deadlock'],
  livelock: ['livelock', 'LIVELOCK', 'livelock'], budget: ['budget', 'BUDGET SPENT', 'spent budget'],
};
/** How the first line of a warning names it, by the kinds of warnings. */
const WARNINGS = {
  'lost-signal': 'warning: lost signal', 'unread-putllc': 'warning: unread status of a PUTLLC', 'unread-tags': 'warning: unread tag status',
  'unwritten-bytes': 'warning: bytes that nothing wrote',
};
const NOTHING = 'no data race, halt, fault, deadlock, livelock or spent budget';
const MOST_ENDINGS = 8, MOST_RESULTS = 8; // that are listed: endings in which all SPUs stopped, and results of an ending
const MOST_SPANS = 8; // of lines of a source that no run executed

/** @param {number} runs */
const inRuns = runs => `${runs} ${runs === 1 ? 'run' : 'runs'}`;
/** @param {Count} count */
const counted = ({ runs, first }) => `${inRuns(runs)} (first: run ${first})`;
/** @param {string} text @param {number | null} [run] @param {string} [kind] @returns {Line} */
const line = (text, run = null, kind = 'plain') => ({ kind, text, run });
/** @param {string} text @param {number | null} [run] */
const deeper = (text, run = null) => line(`  ${text}`, run, 'deeper');

/** The first line: which runs were made of a machine file, and what was found. @param {Sum} sum @param {string} machine */
export function headOf(sum, machine) {
  const { runs, flaws, lineCounts: { lines, unexecuted } } = sum, warnings = sum.of('warning').length;
  const found = Object.values(FINDINGS).filter(([flaw]) => flaws[flaw].runs).map(([flaw, words]) => `${words} in ${inRuns(flaws[flaw].runs)}`);
  const warned = warnings ? `; ${warnings} ${warnings === 1 ? 'warning' : 'warnings'}` : '';
  const note = warned + (unexecuted ? `; ${unexecuted} of ${lines} lines with instructions never executed` : '');
  return `${machine}: ${inRuns(runs)}, seed 1: ${found.join(', ') || NOTHING}${note}`;
}

/** The failures, by their kinds, and then the warnings. @param {Sum} sum @returns {Line[]} */
export function findingLines(sum) {
  const failures = sum.of('finding'), warnings = sum.of('warning');
  return [
    ...Object.entries(FINDINGS).flatMap(([kind, [, , words]]) => foundLines(sum, failures.filter(({ finding }) => finding === kind), words, kind)),
    ...Object.entries(WARNINGS).flatMap(([kind, words]) => foundLines(sum, warnings.filter(({ warning }) => warning === kind), words, 'warning')),
  ];
}
/** The lines of findings, which these words name. @param {Sum} sum @param {Entry[]} found @param {string} words @param {string} kind @returns {Line[]} */
const foundLines = (sum, found, words, kind) => found.flatMap(({ runs, first, shown }) => [
  line(`${words} in ${runs} of ${inRuns(sum.runs)} (first: run ${first})`, first, kind), ...shownLines(shown)]);
/** A text that has a character a byte. @param {string} text */
const decoded = text => new TextDecoder().decode(Uint8Array.from(Array.from(text, character => character.charCodeAt(0))));

/** The lines of a finding. @param {string} shown @returns {Line[]} */
function shownLines(shown) {
  const lines = decoded(shown).split('\n').slice(0, -1);
  return lines.filter(text => !text.startsWith('  suppression: ')).map(text => line(text, null, 'deeper'));
}

/** How the runs ended, and which results they left. @param {Sum} sum @returns {Line[]} */
export function endLines(sum) {
  const { stuck, livelock, budget } = sum.flaws, spent = livelock.runs + budget.runs; // a livelock is a spent budget, too
  const ends = [[sum.allStopped, 'AllStopped'], [stuck.runs, 'Stuck'], [spent, 'Budget']].filter(([runs]) => runs);
  const endings = sum.of('end'), stopped = endings.filter(({ end }) => end.startsWith('AllStopped'));
  const listed = stopped.length > 1 ? stopped.slice(0, MOST_ENDINGS) : [], more = stopped.length - MOST_ENDINGS;
  return [
    line(`ends: ${ends.length === 1 ? 'all ' : ''}${ends.map(([runs, word]) => `${runs} ${word}`).join(', ')}`),
    ...listed.map(ending => deeper(`${counted(ending)}: ${ending.end}`, ending.first)), ...(more > 0 ? [deeper(`and ${more} more`)] : []), ...resultLines(sum, stopped),
  ];
}
/** The results of each of these endings whose runs left several. @param {Sum} sum @param {Entry[]} endings @returns {Line[]} */
function resultLines(sum, endings) {
  /** @type {Map<string, Entry[]>} */
  const results = new Map(endings.map(({ end }) => [end, []]));
  for (const result of sum.of('result')) results.get(result.end)?.push(result);
  return [...results].filter(([, found]) => found.length > 1).flatMap(([end, found]) => {
    const listed = found.slice(0, MOST_RESULTS).map(counted), more = found.length - MOST_RESULTS;
    const [first, second] = found, [ours, theirs] = difference(first.result, second.result);
    return [line(`results: ${found.length} different ones in the runs that end ${end}`), deeper([...listed, ...(more > 0 ? [`and ${more} more`] : [])].join(', ')),
      deeper(`run ${first.first}: ${ours}`, first.first), deeper(`run ${second.first}: ${theirs}`, second.first)];
  });
}
/** The first line in which the second of two results differs from the first, of both. @param {string} first @param {string} second */
function difference(first, second) {
  const [ours, theirs] = [first, second].map(text => text.replace(/\n$/, '').split('\n'));
  const place = theirs.findIndex((text, k) => text !== ours[k]), at = place < 0 ? theirs.length : place;
  return [ours, theirs].map(lines => lines[at] ?? 'nothing more');
}

/** How many classes of equivalent runs were seen, and how many further runs would be of new ones. @param {Sum} sum */
export function coverageLine({ runs, coverage: { classes, once } }) {
  const known = `coverage: ${classes} ${classes === 1 ? 'class' : 'classes'} of equivalent runs`;
  if (!once) return `${known}, each seen more than once`;
  const some = 200 * once < runs ? 'fewer than 1%' : `about ${Math.floor((100 * once + Math.floor(runs / 2)) / runs)}%`;
  return `${known}, ${once} seen only once; ${some} of further runs would be new`;
}

/** The lines that no run executed, a line of the report for each source that has some. @param {Sum} sum @returns {string[]} */
export function unexecutedLines({ sources }) {
  return sources.map(spansOf).filter(spans => spans.length).map(spans => {
    const more = spans.length > MOST_SPANS ? ` and ${spans.length - MOST_SPANS} more` : '';
    return `never executed: ${spans.slice(0, MOST_SPANS).join(' ')}${more}`;
  });
}
/** The spans of lines of a source that no run executed. Lines without an instruction don't end a span. @param {Source} source */
function spansOf({ source, lines }) {
  /** @type {[number, number][]} */
  const spans = [];
  lines.forEach(([number, executed], k) => {
    if (executed) return;
    if (k && !lines[k - 1][1]) spans[spans.length - 1][1] = number;
    else spans.push([number, number]);
  });
  return spans.map(([first, last]) => `${decoded(source)}:${first}${last > first ? `-${last}` : ''}`);
}
