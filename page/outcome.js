// @ts-check
// The outcome of a run and of a hunt: one text and one kind, the same in every tab. Only what ended well is good.

/**
 * @typedef {'good' | 'warned' | 'bad'} Kind
 * @typedef {object} Incident an SPU that ended otherwise than by a `stop` instruction of its program
 * @property {number} spe
 * @property {string} status as the record has it: `halted`, `badword`, `dmafault size`, ..; `stopped 0x0000` for one that ran into zeros
 * @property {string} place of the instruction: FILE:LINE, or the address if no line placed it
 * @typedef {object} Ending how a run ended
 * @property {string} word AllStopped, Stuck or Budget
 * @property {number} steps
 * @property {Incident[]} incidents
 * @typedef {object} Outcome
 * @property {Kind} kind
 * @property {string} text a few words, for the head of the tabs
 * @property {string[]} failures what ended badly, a sentence each
 * @property {string[]} warnings
 * @typedef {{ runs: number, lines: { text: string, run: number }[] }} Zeros
 *   in how many runs of a hunt an SPU ran into zeros, and a line for each such SPU with the first of the runs
 */

/** @type {Zeros} */
export const NO_ZEROS = { runs: 0, lines: [] };

const ZEROS = 'stopped 0x0000';
/** FILE:LINE with the name of the file alone. @param {string} place */
const short = place => place.slice(place.lastIndexOf('/') + 1);

/** What happened to an SPU. @param {Incident} incident */
export function incidentText({ spe, status, place }) {
  if (status === 'halted') return `SPU ${spe} halted at ${place}`;
  if (status === ZEROS) return `SPU ${spe} ran into zeros: it stopped on the word 0 at ${place}, which is no stop instruction`;
  return `SPU ${spe} has a fault (${status}) at ${place}`;
}
/** Whether an SPU only ran into zeros, which is a warning. @param {Incident} incident */
const isWarning = ({ status }) => status === ZEROS;

/** The first of some sentences, and how many more there are. @param {string[]} sentences */
const firstOf = sentences => sentences.length > 1 ? `${sentences[0]}, and ${sentences.length - 1} more` : sentences[0];

/**
 * The outcome of a run. `race` has the two steps of its race, null if `check` found none, undefined if it isn't checked.
 * @param {Ending} ending @param {number[] | null} [race] @returns {Outcome}
 */
export function outcomeOf({ word, steps, incidents }, race) {
  const named = incidents.map(incident => ({ ...incident, place: short(incident.place) }));
  const ended = { Stuck: ['deadlock'], Budget: [`its budget of ${steps} steps is spent`] }[word] || [];
  const failures = [...ended, ...incidents.filter(incident => !isWarning(incident)).map(incidentText)];
  const warnings = incidents.filter(isWarning).map(incidentText);
  const bad = [...ended, ...named.filter(incident => !isWarning(incident)).map(incidentText)];
  const zeros = named.filter(isWarning).map(({ spe }) => `SPU ${spe} ran into zeros`);
  const checked = race ? [`race: steps ${race[0]} and ${race[1]}`] : race === null ? ['no race'] : [];
  const end = bad.length ? [`ended badly: ${firstOf(bad)}`] : zeros.length ? [firstOf(zeros)] : checked.length ? [] : ['ran to its end'];
  const isOnlySpent = word === 'Budget' && failures.length === 1;
  const kind = race || failures.length && !isOnlySpent ? 'bad' : failures.length || warnings.length ? 'warned' : 'good';
  return { kind, text: [...checked, ...end].join('; '), failures, warnings };
}

/** What can go wrong in a run of a hunt, by the names of the counts. */
const FOUND = { race: 'race', stuck: 'deadlock', livelock: 'livelock', budget: 'spent budget', fault: 'fault', halt: 'halt' };

/**
 * The outcome of a hunt.
 * @param {{ made: number, asked: number, flaws: Record<string, { runs: number, first: number | null }>, zeros: number }} hunt how many runs were made of how
 *   many, how many have each flaw, and in how many an SPU ran into zeros
 * @returns {Outcome}
 */
export function outcomeOfHunt({ made, asked, flaws, zeros }) {
  const count = new Intl.NumberFormat('en').format, found = Object.entries(FOUND).filter(([name]) => flaws[name].runs);
  const runs = `${count(made)}${made < asked ? ` of ${count(asked)}` : ''} ${made === 1 && made === asked ? 'run' : 'runs'}`;
  const failures = found.map(([name, words]) => `${words} in ${count(flaws[name].runs)} of ${count(made)} runs (first: run ${flaws[name].first})`);
  const warnings = zeros ? [`an SPU ran into zeros in ${count(zeros)} of ${count(made)} runs`] : [];
  const first = found.map(([name, words], k) => `${words} in ${count(flaws[name].runs)}${k ? '' : ` of ${count(made)} runs`}`);
  const isOnlySpent = found.length === 1 && found[0][0] === 'budget';
  const kind = found.length && !isOnlySpent ? 'bad' : found.length || warnings.length || made < asked ? 'warned' : 'good';
  return { kind, text: first.join(', ') || warnings[0] || `nothing found in ${runs}`, failures, warnings };
}
