// @ts-check
// Shows a TextBuffer in a textarea of its own. A long file has only the lines around the visible ones in it: a browser lays out a whole textarea again for each
// key, which takes 100 ms at 20,000 lines. Such a file is scrolled by the element around the textarea, and what a selection has outside of it is kept here.
import { byId, make } from './dom.js';
import { ordered, plain } from './buffer.js';

/** @typedef {import('./buffer.js').TextBuffer} TextBuffer
 * @typedef {import('./buffer.js').Place} Place */

const WHOLE = 400, WHOLE_SIZE = 60_000; // lines and characters of a file that the textarea holds as a whole
const MARGIN = 100; // lines of a long file above and below the visible ones
const LONGEST = 4000; // characters of a line that are shown
const MOST_LINES = 500_000; // that are shown: browsers have no element that is much higher
const MOST_PRESSED = 2000; // lines that stay in the textarea while a selection grows by the mouse
const SLACK = 2; // empty lines below the last one, in which a new line is drawn until the textarea has grown
const PADDING = 8; // pixels, as page.css has it
const INDENT = /^[ \t]*/;
const PLAIN = { wrap: 'off', spellcheck: 'false', autocapitalize: 'off', autocomplete: 'off' }; // a program is no prose

export class TextView {
  /** A hidden textarea in the element `code`.
   * @param {TextBuffer} buffer
   * @param {string} label the name of the textarea for a screen reader
   * @param {{ changed: () => void, moved: () => void }} page called after the user changes the text, and after it scrolls */
  constructor(buffer, label, page) {
    this.page = page;
    this.buffer = buffer;
    this.drawn = -1; // the number of changes of the buffer that the textarea has
    this.text = /** @type {HTMLTextAreaElement} */ (make('textarea', { ...PLAIN, 'aria-label': label, 'aria-describedby': 'faults-said left' }));
    this.sheet = make('div', { class: 'sheet' });
    this.pane = make('div', { class: 'pane', hidden: true }, this.sheet, this.text);
    byId('code').append(this.pane);
    this.first = 0;
    this.last = 0;
    /** What the textarea holds. */
    this.shown = '';
    this.isWhole = true;
    this.isCut = false; // whether a line of `shown` is longer in the buffer
    this.isPressed = false; // whether a mouse button is down, with which a selection may grow
    this.isComposing = false; // whether an input method is at work, which a change of the textarea's value would end
    this.placed = { start: 0, end: 0, direction: 'none', anchor: 0 }; // the selection as it was put into the textarea
    this.lineHeight = parseFloat(getComputedStyle(this.text).lineHeight);
    this.removed = new AbortController();
    this.resized = new ResizeObserver(() => this.follow());
    this.listen();
  }
  listen() {
    const { text, removed: { signal } } = this;
    text.addEventListener('input', event => this.take(/** @type {InputEvent} */ (event)));
    text.addEventListener('beforeinput', event => this.beforeInput(event));
    text.addEventListener('keydown', event => this.key(event));
    text.addEventListener('scroll', () => this.follow());
    this.pane.addEventListener('scroll', () => this.follow());
    text.addEventListener('paste', event => this.paste(event));
    for (const kind of /** @type {('copy' | 'cut')[]} */ (['copy', 'cut'])) text.addEventListener(kind, event => this.copy(event));
    text.addEventListener('compositionstart', () => { if (this.reachesOut) this.write(''); this.isComposing = true; });
    text.addEventListener('compositionend', () => { this.isComposing = false; this.fit(); });
    text.addEventListener('pointerdown', () => { this.isPressed = true; this.buffer.endTyping(); });
    for (const kind of ['pointerup', 'pointercancel']) addEventListener(kind, () => { if (this.isPressed) { this.isPressed = false; this.follow(); } }, { signal });
    document.addEventListener('selectionchange', () => { if (document.activeElement === text) this.readSelection(); }, { signal });
    this.resized.observe(this.pane);
  }

  // ---- what is shown

  /** Shows the textarea. It is as it was left, unless the buffer was changed without it. */
  show() {
    if (!this.pane.hidden) return;
    this.pane.hidden = false;
    if (this.drawn === this.buffer.changes) this.scrollTo(this.buffer.scroll);
    else this.refill(this.buffer.scroll);
  }
  hide() {
    this.keepPlace();
    this.pane.hidden = true;
  }
  /** Removes the textarea from the page. Its text, history, cursor and scroll position stay in the buffer. */
  remove() {
    this.removed.abort();
    this.resized.disconnect();
    this.pane.remove();
  }
  /** Notes the selection and scroll position in the buffer: a browser may forget the scroll position of what is hidden, and a textarea that is removed has none. */
  keepPlace() {
    if (this.drawn !== this.buffer.changes) return; // another text is shown than the buffer has
    this.readSelection();
    if (this.pane.clientHeight) this.buffer.scroll = { top: this.top, left: this.scroller.scrollLeft };
  }
  /** @param {{ top: number, left: number }} scroll in pixels */
  scrollTo({ top, left }) {
    this.scroller.scrollTop = top;
    this.scroller.scrollLeft = left;
    this.page.moved();
  }
  get scroller() { return this.isWhole ? this.text : this.pane; }
  get top() { return this.scroller.scrollTop; }
  /** How many lines can be seen. */
  get visible() { return Math.ceil(this.pane.clientHeight / this.lineHeight); }
  /** How many lines of the buffer are shown. */
  get count() { return Math.min(this.buffer.lines.length, MOST_LINES); }
  /** What the editor doesn't show of the file, in words. */
  get left() {
    const { length } = this.buffer.lines, words = new Intl.NumberFormat('en').format;
    if (length > MOST_LINES) return `The editor shows the first ${words(MOST_LINES)} of ${words(length)} lines.`;
    return this.isCut ? `The editor shows the first ${words(LONGEST)} characters of a line.` : '';
  }

  /** Puts the lines around a scroll position into the textarea.
   * @param {{ top: number, left: number }} scroll in pixels */
  refill(scroll) {
    const { lines } = this.buffer, { count } = this;
    this.isWhole = count <= WHOLE && count === lines.length && isSmall(lines);
    if (this.isWhole) [this.first, this.last] = [0, count];
    else [this.first, this.last] = this.windowAt(Math.floor((scroll.top - PADDING) / this.lineHeight));
    this.isCut = false;
    const shown = [];
    for (let at = this.first; at < this.last; at++) {
      const line = lines[at];
      if (line.length > LONGEST) this.isCut = true;
      shown.push(line.length > LONGEST ? `${line.slice(0, LONGEST)}…` : line);
    }
    this.shown = shown.join('\n');
    this.text.value = this.shown;
    this.drawn = this.buffer.changes;
    this.size();
    this.placeSelection();
    this.scrollTo(scroll);
  }
  /** The lines that the textarea of a long file holds if this is the first visible one.
   * @param {number} line @returns {[number, number]} */
  windowAt(line) {
    const { lines } = this.buffer, { count, visible } = this, top = Math.max(0, Math.min(line, count - visible));
    let first = top, last = Math.min(count, top + visible), size = 0;
    for (let at = first; at < last; at++) size += Math.min(lines[at].length, LONGEST);
    for (let margin = 0; margin < MARGIN && size < WHOLE_SIZE; margin++) {
      if (first > 0) size += Math.min(lines[--first].length, LONGEST);
      if (last < count) size += Math.min(lines[last++].length, LONGEST);
    }
    if (!this.isPressed || this.last - this.first > MOST_PRESSED) return [first, last];
    return [Math.min(first, this.first), Math.max(last, Math.min(count, this.last))];
  }
  /** Sizes the textarea and the sheet that is scrolled by. */
  size() {
    const { isWhole, text: { style } } = this;
    this.pane.classList.toggle('long', !isWhole);
    this.sheet.style.height = isWhole ? '0' : this.heightOf(this.count);
    style.top = isWhole ? '' : `${this.first * this.lineHeight}px`;
    style.height = isWhole ? '' : this.heightOf(this.last - this.first);
    style.width = '';
    this.widen();
  }
  /** The height of some lines of a long file, as CSS has it.
   * @param {number} lines */
  heightOf(lines) { return `${(lines + SLACK) * this.lineHeight + 2 * PADDING}px`; }
  /** Makes the textarea of a long file as wide as its longest line. */
  widen() {
    if (!this.isWhole && this.text.scrollWidth > this.text.clientWidth) this.text.style.width = `${this.text.scrollWidth + 40}px`;
  }
  /** Goes on after a scroll: the textarea of a long file is filled again if the visible lines come near to its ends. */
  follow() {
    if (!this.pane.clientHeight) return;
    if (!this.isWhole) {
      this.text.scrollTop = 0;
      const top = Math.floor((this.top - PADDING) / this.lineHeight), near = Math.floor(Math.min(MARGIN, this.margin) / 2);
      const is_near = (this.first > 0 && top < this.first + near) || (this.last < this.count && top + this.visible > this.last - near);
      if (is_near && !this.isComposing) {
        this.readSelection();
        this.refill({ top: this.top, left: this.pane.scrollLeft });
        return;
      }
    }
    this.page.moved();
  }
  /** How many lines the textarea has above or below the visible ones at most. */
  get margin() { return Math.max(0, (this.last - this.first - this.visible) / 2); }
  /** Fills the textarea again after a change, if it has become too large, or the file short or long. */
  fit() {
    const { isWhole } = this, count = this.last - this.first, size = this.shown.length;
    const is_right = isWhole ? count <= WHOLE && size <= WHOLE_SIZE : this.buffer.lines.length > WHOLE && count <= 2 * MARGIN + 2 * this.visible && size <= 2 * WHOLE_SIZE;
    if (this.isComposing) return;
    if (is_right && !this.isCut) {
      if (!isWhole) this.grow();
      return;
    }
    this.redraw();
    this.reveal();
  }
  /** Sizes the textarea of a long file after a change. */
  grow() {
    const height = this.heightOf(this.last - this.first);
    if (this.text.style.height !== height) {
      this.text.style.height = height;
      this.sheet.style.height = this.heightOf(this.count);
      this.text.scrollTop = 0;
    }
    this.widen();
  }

  // ---- places and the selection

  /** The place of an offset in the textarea.
   * @param {number} offset @returns {Place} */
  placeAt(offset) {
    const line = this.first + newlines(this.shown, offset), column = offset - this.shown.lastIndexOf('\n', offset - 1) - 1;
    if (!offset) return { line, column: 0 };
    return { line, column: column > LONGEST ? this.buffer.lines[line].length : column };
  }
  /** The offset of a place in the textarea: one of its ends, if the place is outside.
   * @param {Place} place */
  offsetOf({ line, column }) {
    if (line < this.first) return 0;
    if (line >= this.last) return this.shown.length;
    let at = 0;
    for (let left = line - this.first; left > 0; left--) at = this.shown.indexOf('\n', at) + 1;
    return at + (column > LONGEST ? LONGEST + 1 : column);
  }
  /** @param {Place} place */
  isOutside({ line }) { return line < this.first || line >= this.last; }
  /** Whether something is selected of which a part isn't in the textarea. */
  get reachesOut() {
    const { anchor, focus } = this.buffer.selection, is_empty = anchor.line === focus.line && anchor.column === focus.column;
    return !is_empty && (this.isOutside(anchor) || this.isOutside(focus) || this.isCut);
  }
  placeSelection() {
    const { anchor, focus } = this.buffer.selection, from = this.offsetOf(anchor), to = this.offsetOf(focus);
    this.text.setSelectionRange(Math.min(from, to), Math.max(from, to), to < from ? 'backward' : 'forward');
    this.placed = { start: Math.min(from, to), end: Math.max(from, to), direction: this.text.selectionDirection, anchor: from };
  }
  /** Takes the selection of the textarea. An end outside of the textarea stays there as long as the user moves the other one. */
  readSelection() {
    const { selectionStart: start, selectionEnd: end, selectionDirection: direction, value } = this.text, { placed } = this;
    if (value.length !== this.shown.length || (start === placed.start && end === placed.end && direction === placed.direction)) return;
    const [from, to] = direction === 'backward' ? [end, start] : [start, end], { anchor } = this.buffer.selection;
    const is_kept = from === placed.anchor && from !== to && this.isOutside(anchor);
    const is_all = !this.isWhole && start === 0 && end === value.length && placed.start === placed.end; // by a menu
    const focus = this.placeAt(to);
    this.buffer.selection = is_all ? { anchor: { line: 0, column: 0 }, focus: this.buffer.end } : { anchor: is_kept ? anchor : this.placeAt(from), focus };
    this.placed = { start, end, direction, anchor: from };
  }
  /** Scrolls to the cursor if it can't be seen.
   * @param {boolean} [is_centred] whether its line comes to the middle in any case */
  reveal(is_centred = false) {
    const { line, column } = this.buffer.selection.focus, y = line * this.lineHeight + PADDING, height = this.pane.clientHeight;
    const is_seen = !is_centred && y >= this.top && y + this.lineHeight <= this.top + height;
    if (!is_seen || this.isOutside({ line, column: 0 })) this.refill({ top: is_seen ? this.top : Math.max(0, y - height / 2), left: this.scroller.scrollLeft });
    const x = this.width(this.buffer.lines[line].slice(0, Math.min(column, LONGEST))), { scrollLeft, clientWidth } = this.scroller;
    if (x < scrollLeft || x > scrollLeft + clientWidth - 2 * PADDING) this.scroller.scrollLeft = x < clientWidth / 2 ? 0 : x - clientWidth / 2;
  }
  /** How many pixels a text takes in its line, about.
   * @param {string} text */
  width(text) {
    const pen = /** @type {CanvasRenderingContext2D} */ (document.createElement('canvas').getContext('2d'));
    pen.font = getComputedStyle(this.text).font;
    let columns = 0;
    for (const character of text) columns += character === '\t' ? 8 - columns % 8 : 1;
    return columns * pen.measureText('0').width;
  }
  /** Selects a line, and shows it.
   * @param {number} number counts from 1 */
  goTo(number) {
    const line = Math.min(number, this.buffer.lines.length) - 1;
    this.buffer.endTyping();
    this.buffer.selection = { anchor: { line, column: 0 }, focus: { line, column: this.buffer.lines[line].length } };
    this.text.focus({ preventScroll: true });
    this.reveal(true);
    this.placeSelection();
    this.scroller.scrollLeft = 0;
  }

  // ---- what the user changes

  /** Takes what the browser changed in the textarea.
   * @param {InputEvent} event */
  take(event) {
    const now = this.text.value, was = this.shown;
    if (now === was) return;
    let same = now.length - this.text.selectionEnd; // what follows the cursor, mostly, is as it was
    if (same > was.length || !was.endsWith(now.slice(now.length - same))) same = 0;
    const most = Math.min(now.length, was.length);
    let start = 0;
    while (start < most - same && now.charCodeAt(start) === was.charCodeAt(start)) start++;
    while (same < most - start && now.charCodeAt(now.length - 1 - same) === was.charCodeAt(was.length - 1 - same)) same++;
    const inserted = now.slice(start, now.length - same), from = this.placeAt(start), to = this.placeAt(was.length - same);
    const before = this.buffer.lines.length;
    this.buffer.replace(from, to, inserted, /^(insert(Text|CompositionText|LineBreak)|deleteContent(Backward|Forward))$/.test(event.inputType));
    this.last += this.buffer.lines.length - before;
    this.shown = now;
    this.drawn = this.buffer.changes;
    this.placed.start = -1;
    this.readSelection();
    this.isCut = this.isCut || this.buffer.lines[from.line].length > LONGEST || inserted.length > LONGEST;
    this.fit();
    this.page.changed();
  }
  /** Replaces the selection by a text.
   * @param {string} text */
  write(text) {
    this.readSelection();
    const [start, end] = ordered(this.buffer.selection);
    this.buffer.replace(start, end, plain(text));
    this.changedHere();
  }
  /** Shows the buffer again after a change that wasn't made in the textarea. */
  redraw() {
    this.refill({ top: this.top, left: this.scroller.scrollLeft });
  }
  /** Shows such a change that the user made, and the cursor. */
  changedHere() {
    this.redraw();
    this.reveal();
    this.page.changed();
  }
  undo() { if (this.buffer.undo()) this.changedHere(); }
  redo() { if (this.buffer.redo()) this.changedHere(); }

  /** Does by the buffer what the browser can't do: it forgets its own history when the lines in the textarea are set anew, which a scroll or "As it was" does, and
   * the textarea hasn't the whole selection.
   * @param {InputEvent} event */
  beforeInput(event) {
    const { inputType } = event;
    if (inputType === 'historyUndo' || inputType === 'historyRedo') {
      event.preventDefault();
      if (inputType === 'historyUndo') this.undo();
      else this.redo();
      return;
    }
    this.readSelection();
    if (!this.reachesOut || !event.cancelable || event.isComposing || !/^(insert(Text|LineBreak|FromPaste|ReplacementText)|delete)/.test(inputType)) return;
    event.preventDefault();
    this.write(inputType === 'insertLineBreak' ? '\n' : event.data || event.dataTransfer?.getData('text/plain') || '');
  }
  /** @param {ClipboardEvent} event */
  paste(event) {
    event.preventDefault();
    this.write(event.clipboardData?.getData('text/plain') || '');
  }
  /** Copies or cuts a selection that isn't in the textarea as a whole.
   * @param {ClipboardEvent} event */
  copy(event) {
    this.readSelection();
    if (!this.reachesOut) return;
    event.preventDefault();
    event.clipboardData?.setData('text/plain', this.buffer.between(...ordered(this.buffer.selection)));
    if (event.type === 'cut') this.write('');
  }

  /** @param {KeyboardEvent} event */
  key(event) {
    if (event.isComposing || /^(Shift|Control|Alt|Meta|CapsLock)$/.test(event.key)) return;
    this.readSelection();
    const is_command = (event.ctrlKey || event.metaKey) && !event.altKey, key = event.key.toLowerCase();
    const act = is_command ? this.command(key, event.shiftKey) : event.altKey ? null : event.key === 'Enter' ? this.indented() : this.paging(event) || this.collapsing(event);
    if (act) {
      event.preventDefault();
      act();
    } else if (!is_command && this.isOutside(this.buffer.selection.focus)) this.reveal();
  }
  /** What a key with Control does; null if the browser does it.
   * @param {string} key @param {boolean} is_shift @returns {(() => void) | null} */
  command(key, is_shift) {
    if (key === 'z') return is_shift ? () => this.redo() : () => this.undo();
    if (key === 'y') return () => this.redo();
    if (this.isWhole) return null;
    const start = { line: 0, column: 0 }, { end } = this.buffer;
    if (key === 'a') {
      return () => {
        this.buffer.selection = { anchor: start, focus: end };
        this.placeSelection();
      };
    }
    const to = { home: start, arrowup: start, end, arrowdown: end }[key];
    return to ? () => this.moveTo(to, is_shift) : null;
  }
  /** Moves the cursor, and shows it.
   * @param {Place} place @param {boolean} is_shift whether the selection grows */
  moveTo(place, is_shift) {
    this.buffer.selection = { anchor: is_shift ? this.buffer.selection.anchor : place, focus: place };
    this.reveal();
    this.placeSelection();
  }
  /** Page Up and Page Down in a long file: there the textarea is no page that scrolls; null for all other keys.
   * @param {KeyboardEvent} event */
  paging({ key, shiftKey }) {
    const way = { PageUp: -1, PageDown: 1 }[key];
    if (!way || this.isWhole) return null;
    return () => {
      const { line, column } = this.buffer.selection.focus, move = way * Math.max(1, this.visible - 2);
      this.pane.scrollTop += move * this.lineHeight;
      this.moveTo(this.buffer.within({ line: Math.max(0, Math.min(this.count - 1, line + move)), column }), shiftKey);
    };
  }
  /** Begins a line with the blanks of the one before; null if that has none. */
  indented() {
    if (this.reachesOut) return null;
    const [{ line, column }] = ordered(this.buffer.selection), [blanks] = /** @type {RegExpExecArray} */ (INDENT.exec(this.buffer.lines[line].slice(0, column)));
    return blanks ? () => document.execCommand('insertText', false, `\n${blanks}`) : null;
  }
  /** An arrow key ends a selection that reaches out of the textarea: at its start or at its end; null for all other keys.
   * @param {KeyboardEvent} event */
  collapsing({ key, shiftKey }) {
    const is_back = key === 'ArrowLeft' || key === 'ArrowUp';
    if (shiftKey || !this.reachesOut || !(is_back || key === 'ArrowRight' || key === 'ArrowDown')) return null;
    const [start, end] = ordered(this.buffer.selection);
    return () => this.moveTo(is_back ? start : end, false);
  }
}

/** Whether lines are few and short enough that the textarea holds them all.
 * @param {string[]} lines */
function isSmall(lines) {
  let size = 0;
  for (const line of lines) size += line.length + 1;
  return size <= WHOLE_SIZE && lines.every(line => line.length <= LONGEST);
}
/** How many line feeds a text has before an offset.
 * @param {string} text @param {number} offset */
function newlines(text, offset) {
  let count = 0;
  for (let at = text.indexOf('\n'); at >= 0 && at < offset; at = text.indexOf('\n', at + 1)) count++;
  return count;
}
