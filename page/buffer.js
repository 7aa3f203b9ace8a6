// @ts-check
// The text of a file as an array of lines. It keeps its own history, cursor and scroll position, so that they outlive its textarea.

/**
 * @typedef {{ line: number, column: number }} Place both count from 0
 * @typedef {{ anchor: Place, focus: Place }} Selection
 * @typedef {object} Change
 * @property {Place} start
 * @property {string} removed
 * @property {string} inserted
 * @property {boolean} is_typed whether it may grow by the next keys
 * @property {Selection} before the selection that undoing it restores
 */

const MOST_CHANGES = 1000; // of one history
const MOST_SPREAD = 10_000; // arguments of one call
const LINE_ENDS = /\r\n?/g;

/** A text with line feeds alone, as a textarea has it.
 * @param {string} text */
export const plain = text => text.includes('\r') ? text.replace(LINE_ENDS, '\n') : text;
/** @param {Place} a
 * @param {Place} b */
const compare = (a, b) => a.line - b.line || a.column - b.column;
/** The start and the end of a selection.
 * @param {Selection} selection @returns {[Place, Place]} */
export const ordered = ({ anchor, focus }) => compare(anchor, focus) <= 0 ? [anchor, focus] : [focus, anchor];

/** The place at which a text ends that begins at another place.
 * @param {Place} start @param {string} text @returns {Place} */
function endOf(start, text) {
  let line = start.line, at = -1;
  for (let next = text.indexOf('\n'); next >= 0; next = text.indexOf('\n', next + 1)) {
    line++;
    at = next;
  }
  return { line, column: at < 0 ? start.column + text.length : text.length - at - 1 };
}

export class TextBuffer {
  /** @param {string} text
   * @param {RegExp} [watched] lines whose changes are counted */
  constructor(text, watched) {
    this.lines = plain(text).split('\n');
    this.watched = watched;
    this.changes = 0; // of the text, also those that undo and redo make
    /** How many changes touched a watched line. */
    this.watchedChanges = 0;
    /** @type {string | null} The text, if it was asked for since the last change. */
    this.joined = text;
    /** @type {Change[]} */
    this.done = [];
    /** @type {Change[]} */
    this.undone = [];
    this.selection = /** @type {Selection} */ ({ anchor: { line: 0, column: 0 }, focus: { line: 0, column: 0 } });
    this.scroll = { top: 0, left: 0 };
  }

  /** The whole text. Until the first change it has the line ends that it came with. */
  get text() {
    if (this.joined === null) this.joined = this.lines.join('\n');
    return this.joined;
  }
  /** The text between two places.
   * @param {Place} start @param {Place} end */
  between(start, end) {
    if (start.line === end.line) return this.lines[start.line].slice(start.column, end.column);
    return [this.lines[start.line].slice(start.column), ...this.lines.slice(start.line + 1, end.line), this.lines[end.line].slice(0, end.column)].join('\n');
  }
  /** The end of the text.
   * @returns {Place} */
  get end() {
    const line = this.lines.length - 1;
    return { line, column: this.lines[line].length };
  }

  /**
   * Replaces what is between two places, and puts the cursor after it. The change can be undone.
   * @param {Place} start @param {Place} end @param {string} inserted with line feeds alone
   * @param {boolean} [is_typed] whether it is part of one change with the keys before it
   */
  replace(start, end, inserted, is_typed = false) {
    const removed = this.between(start, end), cursor = endOf(start, inserted);
    if (removed === inserted) return;
    this.record({ start, removed, inserted, is_typed, before: this.selection }, end);
    this.put(start, end, inserted);
    this.selection = { anchor: cursor, focus: cursor };
  }
  /** Replaces the whole text, as one change that can be undone; equal lines at its ends stay as they are.
   * @param {string} text */
  replaceAll(text) {
    const lines = plain(text).split('\n'), most = Math.min(lines.length, this.lines.length) - 1, cursor = this.selection;
    let first = 0, same = 0;
    while (first < most && lines[first] === this.lines[first]) first++;
    while (same < most - first && lines[lines.length - 1 - same] === this.lines[this.lines.length - 1 - same]) same++;
    const end = this.lines.length - 1 - same;
    this.replace({ line: first, column: 0 }, { line: end, column: this.lines[end].length }, lines.slice(first, lines.length - same).join('\n'));
    this.selection = { anchor: this.within(cursor.anchor), focus: this.within(cursor.focus) };
  }
  /** The nearest place that the text has.
   * @param {Place} place @returns {Place} */
  within({ line, column }) {
    const most = Math.min(line, this.lines.length - 1);
    return { line: most, column: Math.min(column, this.lines[most].length) };
  }

  /** Takes back the last change.
   * @returns {boolean} whether there was one */
  undo() {
    const change = this.done.pop();
    if (!change) return false;
    this.undone.push(change);
    this.put(change.start, endOf(change.start, change.inserted), change.removed);
    this.selection = change.before;
    return true;
  }
  /** Makes again what was taken back last.
   * @returns {boolean} whether there was anything */
  redo() {
    const change = this.undone.pop();
    if (!change) return false;
    this.done.push({ ...change, is_typed: false });
    const cursor = endOf(change.start, change.inserted);
    this.put(change.start, endOf(change.start, change.removed), change.inserted);
    this.selection = { anchor: cursor, focus: cursor };
    return true;
  }
  /** Ends the change that keys add to: the next key begins another. */
  endTyping() {
    const last = this.done[this.done.length - 1];
    if (last) last.is_typed = false;
  }

  /** Adds a change to the history, or to the last change if both were typed and touch each other.
   * @param {Change} change @param {Place} end of what it removes */
  record(change, end) {
    this.undone.length = 0;
    const last = this.done[this.done.length - 1];
    if (!last || !last.is_typed || !change.is_typed || !grown(last, change, end)) this.done.push(change);
    else if (!last.inserted && !last.removed) this.done.pop();
    if (this.done.length > MOST_CHANGES) this.done.shift();
  }
  /** Replaces what is between two places.
   * @param {Place} start @param {Place} end @param {string} inserted */
  put(start, end, inserted) {
    const made = (this.lines[start.line].slice(0, start.column) + inserted + this.lines[end.line].slice(end.column)).split('\n');
    const count = end.line - start.line + 1, { watched } = this;
    if (watched && (made.some(line => watched.test(line)) || this.lines.slice(start.line, end.line + 1).some(line => watched.test(line)))) this.watchedChanges++;
    if (made.length < MOST_SPREAD) this.lines.splice(start.line, count, ...made);
    else this.lines = [...this.lines.slice(0, start.line), ...made, ...this.lines.slice(end.line + 1)];
    this.changes++;
    this.joined = null;
  }
}

/** Adds a typed change to the last one; false if they don't touch, or a line was begun.
 * @param {Change} last @param {Change} change @param {Place} end */
function grown(last, change, end) {
  const { start, removed, inserted } = change;
  if (inserted.includes('\n') || removed.includes('\n')) return false;
  if (last.inserted && !compare(end, endOf(last.start, last.inserted)) && removed.length <= last.inserted.length) {
    last.inserted = last.inserted.slice(0, last.inserted.length - removed.length) + inserted;
    return true;
  }
  if (last.inserted || inserted) return false;
  if (!compare(end, last.start)) [last.start, last.removed] = [start, removed + last.removed]; // Backspace
  else if (!compare(start, last.start)) last.removed += removed; // Delete
  else return false;
  return true;
}
