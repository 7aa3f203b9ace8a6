// @ts-check
// The editor: the files of a program, each with a tab and a textarea of its own, with line numbers, and marks at lines.
import { asTabs, byId, make, markTab, withCode } from './dom.js';
import { Gutter } from './gutter.js';
import { TextView } from './view.js';

/** @typedef {import('./work.js').Program} Program
 * @typedef {{ file: string, line: number, is_warning: boolean, words: string }} Fault */

const MOST_TABS = 100, MOST_FAULTS = 12; // that are shown
/** @param {string} name */
const base = name => name.slice(name.lastIndexOf('/') + 1);
/** The file that a program was left at, as long as the program names it.
 * @param {Program} program */
const shownOf = ({ names, file, machine }) => names.includes(file) ? file : machine;

export class Editor {
  /** @param {() => void} changed called after the user changes the text */
  constructor(changed) {
    this.changed = changed;
    this.opened = /** @type {Program | null} */ (null);
    this.file = '';
    /** @type {Fault[]} */
    this.faults = [];
    /** @type {{ file: string, line: number, kind: string }[]} */
    this.marks = [];
    this.gutter = new Gutter();
    /** @type {Map<string, TextView>} The textareas, by their files: a file has one from the first time that it is shown. */
    this.views = new Map();
    /** @type {TextView | null} The one that is shown. */
    this.view = null;
    asTabs(byId('files'), /** @param {HTMLElement} tab */ tab => this.show(tab.dataset.file || ''));
  }

  /** Opens a program at the file that it was left at.
   * @param {Program} program */
  open(program) {
    const others = program === this.opened ? [] : [...this.views.values()];
    if (others.length) this.views = new Map();
    this.opened = program;
    this.faults = [];
    this.marks = [];
    this.show(shownOf(program));
    for (const view of others) view.remove();
  }
  /** The files of the program: its machine file, and the sources that this names, of which one may be new.
   * @returns {string[]} */
  get names() { return this.opened ? this.opened.names : []; }
  /** The program with its files alone. */
  get program() { return /** @type {Program} */ (this.opened).project; }

  /** Shows a file, at a line if one is named.
   * @param {string} file @param {number} [line] */
  show(file, line) {
    const program = this.opened;
    if (!program || !program.names.includes(file)) return;
    this.file = program.file = file;
    const view = this.viewOf(program, file);
    this.turnTo(view);
    this.drawTabs();
    this.drawMarks();
    this.drawValidity();
    if (!line) return;
    view.goTo(line);
    byId('code').scrollIntoView({ block: 'nearest' });
  }
  /** The textarea of a file.
   * @param {Program} program @param {string} file */
  viewOf(program, file) {
    let view = this.views.get(file);
    if (view) return view;
    view = new TextView(program.buffer(file), `${file === program.machine ? 'machine file' : 'source'} ${file}`, { changed: () => this.take(), moved: () => this.draw() });
    this.views.set(file, view);
    return view;
  }
  /** Shows a textarea in the place of another one, which passes the keyboard on.
   * @param {TextView} view */
  turnTo(view) {
    const before = this.view, is_focused = before !== null && before.text === document.activeElement;
    if (before === view) return;
    if (before) before.hide();
    this.view = view;
    view.show();
    if (is_focused) view.text.focus({ preventScroll: true });
  }
  /** Removes the textareas of files that the program doesn't name any more. */
  removeViews() {
    const names = new Set(this.names);
    for (const [file, view] of [...this.views]) {
      if (names.has(file)) continue;
      view.remove();
      this.views.delete(file);
    }
  }
  /** Shows the program again after something else than the editor changed it. */
  refresh() {
    const program = /** @type {Program} */ (this.opened), file = shownOf(program);
    if (file === this.file && this.view) this.view.redraw();
    this.show(file);
  }

  take() {
    if (this.opened && this.file === this.opened.machine) this.drawTabs();
    if (this.marks.length) this.setMarks([]);
    else this.draw();
    this.changed();
  }

  /** Draws the tabs. Those that are there stay, so that a click on one isn't lost. */
  drawTabs() {
    this.removeViews();
    const list = byId('files'), { names } = this, is_focused = list.contains(document.activeElement);
    const shown = names.slice(0, MOST_TABS), faulty = this.faultyFiles;
    if (names.includes(this.file) && !shown.includes(this.file)) shown.push(this.file);
    const old = new Map([...list.querySelectorAll('[role=tab]')].map(tab => [tab.dataset.file, tab]));
    const tabs = shown.map(name => old.get(name) || make('button', { role: 'tab', 'data-file': name, title: name, 'aria-controls': 'code' }, base(name)));
    const more = names.length > shown.length ? [make('span', { class: 'dim' }, `and ${names.length - shown.length} more`)] : [];
    if (more.length || tabs.length !== list.childNodes.length || tabs.some((tab, at) => tab !== list.childNodes[at])) list.replaceChildren(...tabs, ...more);
    for (const [at, tab] of tabs.entries()) {
      const is_faulty = faulty.has(shown[at]), told = tab.querySelector('.unseen');
      tab.className = is_faulty ? 'faulty' : '';
      if (is_faulty && !told) tab.append(make('span', { class: 'unseen' }, ', faulty'));
      else if (!is_faulty && told) told.remove();
    }
    const chosen = tabs[shown.indexOf(this.file)] || null;
    markTab(list, chosen);
    if (is_focused && chosen) chosen.focus();
  }
  /** The files with a faulty line. */
  get faultyFiles() { return new Set(this.faults.filter(fault => !fault.is_warning).map(fault => fault.file)); }
  /** Marks the textareas of faulty files for a screen reader. */
  drawValidity() {
    const faulty = this.faultyFiles;
    for (const [file, { text }] of this.views) text.setAttribute('aria-invalid', String(faulty.has(file)));
  }
  /** Takes the marks and faults of the file that is shown. */
  drawMarks() {
    /** @type {Map<number, string>} */
    const kinds = new Map();
    for (const { file, line, kind } of this.marks) if (file === this.file) kinds.set(line, kind);
    for (const { file, line, is_warning } of this.faults) if (file === this.file) kinds.set(line, is_warning ? 'warned' : 'fault');
    this.gutter.mark(kinds);
    this.draw();
  }
  draw() {
    if (!this.view) return;
    this.gutter.draw(this.view);
    const { left } = this.view;
    if (byId('left').textContent !== left) byId('left').textContent = left;
  }

  /** Marks faulty lines, and lists them below.
   * @param {Fault[]} faults */
  setFaults(faults) {
    this.faults = faults;
    this.drawTabs();
    this.drawMarks();
    /** @param {Fault} fault */
    const told = ({ file, line, is_warning, words }) => make('li', { class: is_warning ? 'warned' : 'fault' },
      make('button', { class: 'place', onclick: () => this.show(file, line) }, `${base(file)}${line ? `:${line}` : ''}`), ' ', ...withCode(words));
    byId('faults').replaceChildren(...faults.slice(0, MOST_FAULTS).map(told), ...(faults.length > MOST_FAULTS ? [make('li', {}, `and ${faults.length - MOST_FAULTS} more`)] : []));
    this.drawValidity();
  }
  /** Marks lines that the results name.
   * @param {{ file: string, line: number, kind: string }[]} marks */
  setMarks(marks) {
    this.marks = marks;
    this.drawMarks();
  }
}
