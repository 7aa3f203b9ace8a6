// @ts-check
// The line numbers and the marks of the lines that can be seen, and of some above and below.
import { byId } from './dom.js';

const OVER = 20; // lines drawn above and below the visible ones

export class Gutter {
  constructor() {
    /** @type {Map<number, string>} The kinds of marked lines, which count from 1. */
    this.kinds = new Map();
    this.drawn = '';
  }
  /** Takes other marks.
   * @param {Map<number, string>} kinds */
  mark(kinds) {
    this.kinds = kinds;
    this.drawn = '';
  }
  /** Draws them, unless they are drawn already.
   * @param {import('./view.js').TextView} view */
  draw({ top, visible, count, lineHeight }) {
    const line = Math.floor(top / lineHeight), from = Math.max(0, line - OVER - line % OVER), to = Math.min(count, from + visible + 3 * OVER), drawn = `${from} ${to}`;
    const moved = `translateY(${from * lineHeight - top}px)`;
    byId('numbers').style.transform = moved;
    byId('shades').style.transform = moved;
    if (drawn === this.drawn) return;
    this.drawn = drawn;
    const numbers = [], shades = [];
    for (let at = from; at < to; at++) {
      const kind = this.kinds.get(at + 1);
      numbers.push(`<i${kind ? ` class="${kind}"` : ''}>${at + 1}</i>`);
      if (kind) shades.push(`<i class="${kind}" style="top:calc(${at - from} * var(--line-height))"></i>`);
    }
    byId('numbers').innerHTML = numbers.join('');
    byId('shades').innerHTML = shades.join('');
  }
}
