// @ts-check
// The answers of the worker about a program and its runs, from the engine and from the tools' own modules.
import { $, files, importOf, keep, printedBy } from './python/runtime.js';
import { programs } from './python/files.js';
import { decodedText } from './python/text.js';
import { incidentText } from './outcome.js';
import { partOf } from './sums.js';

/**
 * @typedef {object} Project a machine file with its sources
 * @property {string} machine the name of the machine file
 * @property {Record<string, string>} files
 * @typedef {{ project: Project, record: string, stamp: number }} Made a run that was made, with a number that is no other's
 * @typedef {import('./outcome.js').Ending} Ending
 */

const MOST_STEPS = 200_000; // of a run that is told of step by step
const TOO_LARGE = 'this is too large for the page: out of memory or stack. The command-line tools have more room';
const OF_TOOLS = '/cell/', PAIR = /^race (\d+) (\d+)$/;

const NOTHING = { stamp: -1, record: '', run: /** @type {any} */ (null), steps: /** @type {any} */ (null), ending: /** @type {Ending | null} */ (null) };
/** What was computed of a run, kept until another run is asked about, with the name of the record's file. */
let held = NOTHING;

/** Why nothing is told, in words for the user. */
export class Refusal extends Error {}

/** Does what may be refused by a tool. @template T @param {() => T} act @returns {T} */
function attempt(act) {
  try {
    return act();
  } catch (thrown) {
    if (thrown instanceof RangeError) throw new Refusal(TOO_LARGE);
    if ($.isCaught(thrown, $.builtins.BaseException)) throw new Refusal($.str(thrown));
    throw thrown;
  }
}

/** Puts the files of a project among those that the tools read, in place of the project before. @param {Project} project */
function load(project) {
  held = NOTHING;
  for (const name of [...files.keys()]) if (!name.startsWith(OF_TOOLS)) files.delete(name);
  for (const [name, text] of Object.entries(project.files)) if (!name.startsWith(OF_TOOLS)) keep(name, text);
}
/** A name for the file of a record, which no file of the project has. @param {Project} project */
function recordName({ files: given }) {
  let name = 'record.out';
  while (Object.hasOwn(given, name)) name = `run-${name}`;
  return name;
}
/** What the engine answers. @param {Project} project @param {string[]} words */
function asked(project, words) {
  const encoder = new TextEncoder(), given = Object.fromEntries(Object.entries(project.files).map(([name, text]) => [name, encoder.encode(text)]));
  const { text, status } = /** @type {import('./engine.js').Engine} */ (programs.engine).ask(words, given);
  return { text: decodedText(text), status };
}

/** The parts of what is told of a line of a file. @param {string} words */
const lineOf = words => /^(.+?):(\d+): (warning: )?(.*)$/.exec(words);

/** The faulty lines of a project, and its warnings. @param {Project} project */
export function faults(project) {
  load(project);
  const found = [];
  for (const line of attempt(() => explainedMachine(project.machine)).split('\n')) {
    const at = lineOf(line);
    if (at) found.push({ file: at[1], line: +at[2], is_warning: Boolean(at[3]), words: at[4] });
    else if (line && !line.startsWith('    ')) found.push({ file: line.split(': ')[0], line: 0, is_warning: false, words: line.slice(line.indexOf(': ') + 2) });
  }
  return found;
}

/** Why a project has no run: its faulty lines, or what the engine says. @param {Project} project @param {string} text */
function refusalOf(project, text) {
  const faulty = faults(project).filter(({ is_warning }) => !is_warning).map(({ file, line, words }) => `${file}${line ? `:${line}` : ''}: ${words}`);
  return new Refusal(faulty.join('\n') || text.trim().replace(/^(?:cell|hunt|run_trace): /, ''));
}
/** A run of a project. @param {Project} project */
export function run(project) {
  const { text, status } = asked(project, ['run', project.machine]);
  if (status || !text.startsWith('cell-record')) throw refusalOf(project, text);
  return text;
}
/** A part of a hunt: so many runs, from one number on. @param {Project} project @param {number} from @param {number} runs */
export function huntPart(project, from, runs) {
  const { text, status } = attempt(() => asked(project, ['hunt', project.machine, '--json', '--from', String(from), '--runs', String(runs)]));
  if (status > 1) throw refusalOf(project, text);
  return attempt(() => partOf(text));
}
const ZEROS = 'stopped 0x0000', MOST_ZEROS = 8; // endings that are looked at: each costs a run
/**
 * In how many runs of a hunt an SPU ran into zeros, and a line for each such SPU with the first of the runs.
 * @param {Project} project @param {import('./sums.js').Entry[]} endings @returns {import('./outcome.js').Zeros}
 */
export function zerosOf(project, endings) {
  load(project);
  return attempt(() => {
    const found = endings.filter(({ end }) => end.includes(ZEROS)).slice(0, MOST_ZEROS).map(({ first, runs }) => {
      const incidents = incidentsOf(project.machine, recordOfHunt(project, Number(first))).filter(({ status }) => status === ZEROS);
      return { runs: incidents.length ? runs : 0, lines: incidents.map(incident => ({ text: incidentText(incident), run: Number(first) })) };
    });
    return { runs: found.reduce((sum, { runs }) => sum + runs, 0), lines: found.flatMap(({ lines }) => lines) };
  });
}
/** A file as a tool names it that reads a copy of it. @param {string} name */
const snapshotOf = name => importOf('celltools.run.snapshots').Snapshot(name, name);
/** The record of a run of a hunt. @param {Project} project @param {number} number */
function recordOfHunt(project, number) {
  const record = importOf('celltools.run.hunted').record_of_hunt(snapshotOf(project.machine), number);
  return decodedText(/** @type {string} */ (files.get($.str(record.path))));
}
/** A run of a hunt. @param {Project} project @param {number} number */
export function runOfHunt(project, number) {
  load(project);
  return attempt(() => recordOfHunt(project, number));
}

// ---- of a run

/** @param {Made} made */
function hold(made) {
  if (held.stamp === made.stamp) return;
  load(made.project);
  held = { ...NOTHING, stamp: made.stamp, record: recordName(made.project) };
  keep(held.record, made.record);
}
/** How many steps a run has. @param {Made} made */
const stepsIn = made => Number((/^steps (\d+)$/m.exec(made.record) || [])[1]);
/** Refused where a run has too many steps. @param {Made} made */
function refuseLong(made) {
  const steps = stepsIn(made);
  const [has, most] = [steps, MOST_STEPS].map(number => number.toLocaleString('en'));
  if (steps > MOST_STEPS) throw new Refusal(`the run has ${has} steps, but the page shows single steps of runs with at most ${most}: use the command-line tools`);
}
/** The run as tools/picture has it. @param {Made} made */
function drawnRun(made) {
  refuseLong(made);
  hold(made);
  if (!held.run) held.run = importOf('celltools.picture.run').Run(made.project.machine, held.record);
  return held.run;
}

/** The lines of a record that have the states at its end. @param {string} record */
function statesIn(record) {
  const lines = record.split('\n');
  return lines.slice(lines.findIndex(line => line.startsWith('steps ')) + 1).filter(Boolean);
}
const STATE = /^spe (\d+) (halted|stopped 0x0000|(?:badword|badchannel|dmafault)(?: \w+)?) pc 0x([0-9a-f]+)/, STORE = 0x40000;
/**
 * The SPUs of a run that halted, have a fault or ran into zeros: a `stop 0x0000` that no `stop` instruction of a source placed.
 * @param {string} machine @param {string} record @returns {import('./outcome.js').Incident[]}
 */
function incidentsOf(machine, record) {
  const odd = statesIn(record).map(line => STATE.exec(line)).filter(found => found !== null);
  if (!odd.length) return [];
  const sites = importOf('celltools.source.sites').Sites(machine), steps = record.slice(0, record.indexOf('\nsteps '));
  return odd.map(found => {
    const [, number, status, digits] = /** @type {RegExpExecArray} */ (found), spe = +number, isDone = status === 'halted' || status.startsWith('stopped');
    const at = (parseInt(digits, 16) + STORE - (isDone ? 4 : 0)) % STORE, site = sites.of_processor[spe].get(at);
    const inList = status.startsWith('dmafault') && isOfElement(steps, spe), place = site && !inList ? `${site.file}:${site.number}` : '';
    return { spe, status, place: inList ? 'an element of a list' : place || `0x${at.toString(16).padStart(5, '0')}`, text: site ? String(site.text) : '' };
  }).filter(({ status, text }) => !(status.startsWith('stopped') && /^stop\b/.test(text)));
}
/** Whether the last step of an SPU read an element of a list, so that its fault is that of the element. @param {string} steps @param {number} spe */
function isOfElement(steps, spe) {
  const found = [...'xpera'].map(kind => ({ kind, at: steps.lastIndexOf(`\n${kind} ${spe} `) })).sort((one, other) => other.at - one.at);
  return found[0].kind === 'e';
}
/** @param {Made} made @returns {Ending} */
function endingOf(made) {
  hold(made);
  if (!held.ending) {
    const word = (statesIn(made.record).find(line => line.startsWith('end ')) || '').slice('end '.length);
    held.ending = { word, steps: stepsIn(made), incidents: incidentsOf(made.project.machine, made.record) };
  }
  return held.ending;
}

/** How a run ended, with its states and with what its SPUs wait for or failed by. @param {Made} made */
export function ending(made) {
  return attempt(() => {
    const ended = endingOf(made), states = statesIn(made.record), { ended_lines } = importOf('celltools.telling.ended');
    const isTold = ended.steps <= MOST_STEPS;
    const { waiting_of } = importOf('celltools.telling.waiting'), { machine } = made.project, isLeft = ended.word === 'Stuck' || ended.word === 'Budget';
    const waits = isTold && isLeft ? waiting_of(machine, held.record) : [];
    return { ended, states, waits: [...waits, ...(isTold ? ended_lines(machine, held.record, states) : [])] };
  });
}
/** The verdict of `check` on a run, and the words for its race unless the run has too many steps. @param {Made} made */
export function check(made) {
  return attempt(() => {
    const ended = endingOf(made);
    const [verdict] = importOf('celltools.run.runs').verdict(made.project.machine, held.record), pair = PAIR.exec(verdict);
    if (!pair) return { ended, verdict, pair: null, words: [] };
    const places = [+pair[1], +pair[2]];
    if (stepsIn(made) > MOST_STEPS) return { ended, verdict, pair: places, words: [] };
    const drawn = drawnRun(made), { race_words } = importOf('celltools.picture.story');
    return { ended, verdict, pair: places, words: race_words(drawn, drawn.race).map(([title, lines]) => ({ title, lines: [...lines] })) };
  });
}
/** The picture of a run, a page of its own. @param {Made} made */
export function picture(made) {
  return attempt(() => [...importOf('celltools.picture.page').page_of(importOf('celltools.picture.short').drawn(drawnRun(made)))].join(''));
}
/** Both orders of a race, in words. @param {Made} made */
export function orders(made) {
  refuseLong(made);
  hold(made);
  return attempt(() => bothOrders(made.project.machine, held.record, held.record));
}

/** The steps of a run, as a debugger has them. @param {Made} made */
function stepsOf(made) {
  refuseLong(made);
  hold(made);
  if (!held.steps) {
    const { Run } = importOf('celltools.run.stepping'), { Words } = importOf('celltools.telling.states'), { Sites } = importOf('celltools.source.sites');
    const steps = Run(made.project.machine, '/tmp/steps');
    steps.follow(held.record);
    held.steps = { steps, words: Words(steps, Sites(made.project.machine)), count: steps.ahead };
  }
  return held.steps;
}
/** How a run stands behind so many steps, what the last of them was, and what may come. @param {Made} made @param {number} place */
export function step(made, place) {
  return attempt(() => {
    const { steps, words, count } = stepsOf(made), at = Math.min(place, count);
    steps.place = at;
    const state = steps.state(at), before = at ? steps.state(at - 1) : state;
    const last = at ? [...words.step(at - 1), ...words.calls(at - 1), ...words.changed(before, state)] : [];
    words.learn(state);
    const next = state.may.length ? state.may.map(head => words.possible(head, state)) : [...words.actors(state)];
    const states = importOf('states').told(made.project.machine, held.record, at)[0].join('\n');
    return { place: at, count, last, next, states, lines: linesOf(state, words.sites) };
  });
}
/** Where the processors stand, in the sources. */
function linesOf(state, sites) {
  const found = [];
  for (const spe of state.spes) {
    const site = sites.of_processor[spe.number].get(spe.pc);
    if (site && spe.runs) found.push({ file: site.file, line: site.number });
  }
  return found;
}

// ---- the tools

/** What tools/explain prints of a machine file, whatever its name. @param {string} name */
function explainedMachine(name) {
  const report = importOf('celltools.explain.report').Report(), { MOST_BYTES, bytes_of } = importOf('celltools.common.texts'), data = bytes_of(name);
  if (data.length > MOST_BYTES) return `${name}: the file is too long: at most ${MOST_BYTES.toLocaleString('en')} bytes are read\n`;
  return printedBy(() => importOf('celltools.explain.machine').explain_machine(name, data, report));
}
/** What tools/explain prints of files. @param {string[]} names */
function explained(names) {
  const report = importOf('celltools.explain.report').Report(), machines = $.dictOf([]);
  return printedBy(() => { for (const name of names) importOf('explain').explain(name, report, machines); });
}
/** What tools/witness tells, which would name its records so. @param {string} machine @param {string} record @param {string} base */
function bothOrders(machine, record, base) {
  return [...importOf('witness').shown(machine, record, $.tupleOf(`${base}.first`, `${base}.second`))[1]];
}
/** What a tool prints of files, to be compared with that of a clone. @param {string} name @param {string[]} words @param {Record<string, string>} given */
export function tool(name, words, given) {
  load({ machine: '', files: given });
  const [machine, record, more] = words;
  return attempt(() => {
    if (name === 'explain') return { text: explained(words) };
    const lines = name === 'states' ? [...importOf('states').told(machine, record, +more)[0]] : bothOrders(machine, record, more);
    return { text: `${lines.join('\n')}\n` };
  });
}
/** What the engine answers, to be compared with the programs. @param {string[]} words @param {Record<string, string>} given */
export const ask = (words, given) => asked({ machine: '', files: given }, words);
