// @ts-check
// The user's work: all files of all programs that were changed. The browser's storage keeps it, if the browser lets the page have one.
import { TextBuffer } from './buffer.js';

/**
 * @typedef {import('./telling.js').Project} Project
 * @typedef {Record<string, string>} Texts of files, by their names
 * @typedef {object} State what is stored of a program
 * @property {string} machine
 * @property {Texts} files those that differ from the given program
 * @property {Texts[]} dropped what was taken back by "As it was", the latest last
 */

const SOURCE = /^[ \t]*source[ \t]+([^ \t#\n\r]+)/gm, SOURCE_LINE = /^[ \t]*source[ \t]/;
const STORED = 'cell work '; // how the storage's keys begin; a program's id follows
const PAUSE = 400; // milliseconds after the last change until it is stored
export const LINK = 'program='; // how the ids of programs from links begin: they are the part of the address after #

/** The sources that a machine file names, each once, also if one of its lines is faulty.
 * @param {string} text */
export const sourcesOf = text => [...new Set([...text.matchAll(SOURCE)].map(found => found[1]))];

/** @param {unknown} texts
 * @returns {texts is Texts} */
const areTexts = texts => typeof texts === 'object' && texts !== null && Object.values(texts).every(text => typeof text === 'string');
/** @param {Texts} a
 * @param {Texts} b */
const areEqual = (a, b) => Object.keys(a).length === Object.keys(b).length && Object.entries(a).every(([name, text]) => Object.hasOwn(b, name) && b[name] === text);

/** What a text of the storage holds; null if it is none of this page.
 * @param {string | null} text @returns {State | null} */
function stateIn(text) {
  try {
    const { machine, files, dropped } = JSON.parse(text || '');
    return typeof machine === 'string' && areTexts(files) && Array.isArray(dropped) && dropped.every(areTexts) ? { machine, files, dropped } : null;
  } catch {
    return null;
  }
}

/** A program that was opened: the texts of its files, as given and as changed. A file stays also while no `source` line names it. */
export class Program {
  /** @param {string} id
   * @param {Project} given @param {State | null} kept */
  constructor(id, given, kept) {
    this.id = id;
    this.machine = given.machine;
    /** @type {Map<string, string>} */
    this.given = new Map(Object.entries(given.files));
    /** @type {Map<string, TextBuffer>} */
    this.buffers = new Map();
    /** @type {Map<string, string>} The changed texts of files that have no buffer yet. */
    this.kept = new Map(Object.entries(kept ? kept.files : {}));
    this.dropped = kept ? kept.dropped : [];
    this.listed = { changes: -1, names: /** @type {string[]} */ ([]) };
    /** The file that is shown. */
    this.file = this.names[1] || this.machine;
  }
  /** The text of a file with its history.
   * @param {string} name */
  buffer(name) {
    let found = this.buffers.get(name);
    if (!found) this.buffers.set(name, found = new TextBuffer(this.textOf(name) || '', name === this.machine ? SOURCE_LINE : undefined));
    return found;
  }
  /** The text of a file; undefined if there is none.
   * @param {string} name */
  textOf(name) {
    const buffer = this.buffers.get(name);
    return buffer ? buffer.text : this.kept.get(name) ?? this.given.get(name);
  }
  /** The machine file, and the sources that it names. */
  get names() {
    const machine = this.buffer(this.machine), changes = machine.watchedChanges;
    if (this.listed.changes !== changes) this.listed = { changes, names: [...new Set([this.machine, ...sourcesOf(machine.text)])] };
    return this.listed.names;
  }
  /** The program with the files that it names.
   * @returns {Project} */
  get project() {
    const names = this.names.filter(name => this.has(name));
    return { machine: this.machine, files: Object.fromEntries(names.map(name => [name, this.textOf(name) || ''])) };
  }
  /** Whether there is a file. A new source has a buffer as soon as its tab is opened, and is there as soon as it has a text.
   * @param {string} name */
  has(name) { return this.given.has(name) || Boolean(this.textOf(name)); }
  /** The texts that differ from the given ones.
   * @returns {Texts} */
  get changes() {
    const texts = [...new Set([...this.buffers.keys(), ...this.kept.keys()])].map(name => /** @type {[string, string]} */ ([name, this.textOf(name) || '']));
    return Object.fromEntries(texts.filter(([name, text]) => text !== (this.given.get(name) || '')));
  }
  get isChanged() { return Object.keys(this.changes).length > 0; }
  /** Whether `bringBack` has anything to bring. */
  get hasDropped() { return this.dropped.length > 0; }
  /** @returns {State} */
  get state() { return { machine: this.machine, files: this.changes, dropped: this.dropped }; }

  /** Takes other changed texts in the place of its own; each file's history can undo it.
   * @param {Texts} texts */
  take(texts) {
    for (const name of new Set([...Object.keys(this.changes), ...Object.keys(texts)])) {
      this.buffer(name).replaceAll(Object.hasOwn(texts, name) ? texts[name] : this.given.get(name) || '');
    }
  }
  /** Takes back all changes, and keeps them. */
  reset() {
    const { changes } = this;
    if (!Object.keys(changes).length) return;
    this.dropped = [...this.dropped.filter(texts => !areEqual(texts, changes)), changes];
    this.take({});
  }
  /** Brings the changes again that were taken back last. What the user changed since is kept in their place, the first of what was taken back. */
  bringBack() {
    const texts = this.dropped.pop(), { changes } = this;
    if (!texts) return;
    if (Object.keys(changes).length && !areEqual(changes, texts)) this.dropped.unshift(changes);
    this.take(texts);
  }
}

/** All programs that were opened or changed. */
export class Work {
  /** @param {{ kept: (is_kept: boolean) => void, replaced: (program: Program) => void }} page called after storing, and after another tab changes a program */
  constructor(page) {
    this.page = page;
    /** @type {Map<string, Program>} */
    this.programs = new Map();
    /** @type {Set<Program>} Those whose changes aren't stored yet. */
    this.unsaved = new Set();
    this.timer = 0;
    this.storage = storage();
    addEventListener('pagehide', () => this.save());
    addEventListener('visibilitychange', () => this.save());
    addEventListener('storage', ({ key, newValue }) => this.hear(key, newValue));
    /** Asks the user before the page is left.
     * @param {BeforeUnloadEvent} event */
    this.leave = event => {
      if (this.save()) return;
      event.preventDefault();
      event.returnValue = true; // which browsers up to 2023 ask by
    };
  }
  /** The program of an id, as it was left.
   * @param {string} id @param {Project} given */
  program(id, given) {
    let found = this.programs.get(id);
    if (!found) this.programs.set(id, found = new Program(id, given, stateIn(this.read(id))));
    return found;
  }
  /** The programs from links that were opened since the page was loaded, or are changed, each with its id and the name of its machine file.
   * @returns {{ id: string, machine: string }[]} */
  get links() {
    const found = new Map();
    for (const id of this.storedIds.filter(stored => stored.startsWith(LINK))) {
      const state = stateIn(this.read(id));
      if (state && Object.keys(state.files).length) found.set(id, state.machine);
    }
    for (const [id, { machine }] of this.programs) if (id.startsWith(LINK)) found.set(id, machine);
    return [...found].map(([id, machine]) => ({ id, machine }));
  }
  get storedIds() {
    try {
      const keys = Array.from({ length: this.storage ? this.storage.length : 0 }, (_, at) => this.storage?.key(at) || '');
      return keys.filter(key => key.startsWith(STORED)).map(key => key.slice(STORED.length)).sort();
    } catch {
      return [];
    }
  }
  /** @param {string} id
   * @returns {string | null} */
  read(id) {
    try {
      return this.storage ? this.storage.getItem(STORED + id) : null;
    } catch {
      return null;
    }
  }

  /** A program has changed: it is stored after a pause, or before the page is left.
   * @param {Program} program */
  touch(program) {
    if (!this.unsaved.size) addEventListener('beforeunload', this.leave);
    this.unsaved.add(program);
    clearTimeout(this.timer);
    this.timer = setTimeout(() => this.save(), PAUSE);
  }
  /** Stores what isn't yet.
   * @returns {boolean} whether all is */
  save() {
    clearTimeout(this.timer);
    for (const program of [...this.unsaved]) if (this.write(program)) this.unsaved.delete(program);
    const is_kept = !this.unsaved.size;
    if (is_kept) removeEventListener('beforeunload', this.leave);
    this.page.kept(is_kept);
    return is_kept;
  }
  /** @param {Program} program
   * @returns {boolean} whether it is stored, or has nothing to store */
  write(program) {
    const { state } = program, is_empty = !state.dropped.length && !Object.keys(state.files).length;
    try {
      if (is_empty && this.storage) this.storage.removeItem(STORED + program.id);
      else if (this.storage) this.storage.setItem(STORED + program.id, JSON.stringify(state));
      return is_empty || this.storage !== null;
    } catch {
      return is_empty;
    }
  }
  /** Takes what another tab stored, unless this tab has changes of its own that it stores next.
   * @param {string | null} key @param {string | null} text */
  hear(key, text) {
    const program = key && key.startsWith(STORED) ? this.programs.get(key.slice(STORED.length)) : undefined;
    if (!program || this.unsaved.has(program)) return;
    const state = text === null ? { machine: program.machine, files: {}, dropped: [] } : stateIn(text);
    if (!state) return;
    program.dropped = state.dropped;
    program.take(state.files);
    this.page.replaced(program);
  }
}

/** The browser's storage; null if it lets the page have none.
 * @returns {Storage | null} */
function storage() {
  try {
    return localStorage;
  } catch {
    return null;
  }
}
