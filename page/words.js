// @ts-check
// Words that name places in sources and steps, as buttons that go there.
import { make, withCode } from './dom.js';

const PLACE = /([\w./-]+\.(?:s|S|cell)):(\d+)|\bstep (\d+)\b/g;

/**
 * @typedef {object} Ways what is done at a place that is named
 * @property {string[]} files those that can be shown
 * @property {(file: string, line: number) => void} toLine
 * @property {((step: number) => void) | null} toStep
 */
/** @param {string} text @param {Ways} ways @returns {(Node | string)[]} */
export function linked(text, ways) {
  const parts = /** @type {(Node | string)[]} */ ([]);
  let at = 0;
  for (const found of text.matchAll(PLACE)) {
    const [whole, file, line, step] = found, is_line = file !== undefined && ways.files.includes(file);
    if (!is_line && !(step !== undefined && ways.toStep)) continue;
    parts.push(...coded(text.slice(at, found.index)));
    const go = is_line ? () => ways.toLine(file, +line) : () => ways.toStep && ways.toStep(+step);
    parts.push(make('button', { class: 'place', title: is_line ? file : '', onclick: go }, is_line ? `${file.slice(file.lastIndexOf('/') + 1)}:${line}` : whole));
    at = found.index + whole.length;
  }
  return [...parts, ...coded(text.slice(at))];
}
/** A text with its code, where each backquote has another one. @param {string} text */
const coded = text => text.split('`').length % 2 ? withCode(text) : [text];

/** The places that lines name. @param {string[]} lines */
export const placesIn = lines => lines.flatMap(line => [...line.matchAll(PLACE)].filter(found => found[1]).map(found => ({ file: found[1], line: +found[2] })));

/** A line with its indent as an item. @param {string} line @param {Ways} ways */
export const itemOf = (line, ways) => make('li', line.startsWith('    ') ? { class: 'deeper' } : {}, ...linked(line.trim(), ways));
