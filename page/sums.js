// @ts-check
// The sum of the parts of a hunt: what one hunt of all their runs finds. A part has the runs from one number on; parts may come in any order.

/**
 * @typedef {{ runs: number, first: number | null }} Count how many runs, and the number of the first
 * @typedef {Record<string, any> & Count} Entry a race, an ending, a result, a finding or a warning, as `hunt --json` prints it
 * @typedef {object} Part what `hunt --json` prints of some runs
 * @property {Record<string, any>} head
 * @property {Entry[]} entries
 * @property {Source[]} sources
 * @property {Record<string, number>} kinds how many runs are of each class of equivalent runs
 *
 * @typedef {{ source: string, lines: [number, number][] }} Source
 *   the lines of a source with an instruction, in their order: the number of each, and 1 if a run executed it, else 0. The name has a character a byte
 */

const FLAWS = ['race', 'stuck', 'livelock', 'budget', 'fault', 'halt', 'missed'];
/** The members that tell two entries of a name apart. The first of these names that a line has as a member is its name. */
const KEYS = { race: ['key'], result: ['end', 'result'], end: ['end'], missed: ['missed'], finding: ['key'], warning: ['key'] };

/** The name of a line of `hunt --json`. @param {Record<string, any>} line @returns {string} */
const nameOf = line => Object.keys(KEYS).find(name => name in line) || '';

/** The part that a text of `hunt --json` has. @param {string} text @returns {Part} */
export function partOf(text) {
  const lines = text.trimEnd().split('\n').map(line => JSON.parse(line)), head = lines.find(line => 'hunt' in line);
  const { kinds } = lines.find(line => 'kinds' in line && !('hunt' in line));
  return { head, kinds, sources: lines.filter(line => 'source' in line), entries: lines.filter(line => 'runs' in line && 'first' in line) };
}

export class Sum {
  constructor() {
    this.runs = this.allStopped = 0;
    /** @type {Record<string, Count>} */
    this.flaws = Object.fromEntries(FLAWS.map(name => [name, { runs: 0, first: null }]));
    /** The entries, each with its place in the part that has its first run. @type {Map<string, { name: string, place: number, entry: Entry }>} */
    this.found = new Map();
    /** @type {Map<string, number>} */
    this.kinds = new Map();
    /** The sources, in the order of the machine file. @type {Source[]} */
    this.sources = [];
  }

  /** @param {Part} part */
  add({ head, entries, sources, kinds }) {
    this.runs += head.runs;
    this.allStopped += head.all_stopped;
    for (const name of FLAWS) addCount(this.flaws[name], head[name]);
    entries.forEach((entry, place) => this.addEntry(entry, place));
    for (const [digest, runs] of Object.entries(kinds)) this.kinds.set(digest, (this.kinds.get(digest) || 0) + runs);
    this.sources = sources.map((one, k) => joined(one, this.sources[k] || one));
  }
  /** @param {Entry} entry @param {number} place */
  addEntry(entry, place) {
    const name = nameOf(entry), key = JSON.stringify([name, ...KEYS[name].map(member => entry[member])]), known = this.found.get(key);
    const runs = entry.runs + (known ? known.entry.runs : 0);
    if (!known || Number(entry.first) < Number(known.entry.first)) this.found.set(key, { name, place, entry: { ...entry, runs } });
    else known.entry.runs = runs;
  }

  /** The entries of a name, in the order of their first runs. @param {string} name @returns {Entry[]} */
  of(name) {
    const found = [...this.found.values()].filter(known => known.name === name);
    return found.sort((one, other) => Number(one.entry.first) - Number(other.entry.first) || one.place - other.place).map(({ entry }) => entry);
  }
  /** How many classes of equivalent runs there are, and how many of them have one run. */
  get coverage() {
    return { classes: this.kinds.size, once: [...this.kinds.values()].filter(runs => runs === 1).length };
  }
  /** How many lines of the sources have an instruction, and how many of them no run executed. */
  get lineCounts() {
    const lines = this.sources.flatMap(source => source.lines);
    return { lines: lines.length, unexecuted: lines.filter(([, executed]) => !executed).length };
  }
}

/** A source with the lines that either of two parts executed. @param {Source} one @param {Source} other @returns {Source} */
const joined = (one, other) => ({ source: one.source, lines: one.lines.map(([number, executed], k) => [number, executed | other.lines[k][1]]) });

/** @param {Count} one @param {Count} other which is added to it */
function addCount(one, other) {
  one.runs += other.runs;
  if (other.first !== null && (one.first === null || other.first < one.first)) one.first = other.first;
}
