// @ts-check
// Texts and bytes of Python: their methods, and how values are written.
import { ByteArray, Bytes, Dict, PySet, Tuple } from './values.js';
import { Named, fail, takeNamed } from './classes.js';

// ---- how values are written

/** A value as `str` writes it. */
export function str(value = /** @type {any} */ ('')) {
  if (typeof value === 'string') return value;
  if (typeof value === 'number' || typeof value === 'bigint') return String(value);
  return value && value.__str__ ? value.__str__() : repr(value);
}
const quoted = text => {
  const mark = text.includes("'") && !text.includes('"') ? '"' : "'";
  return mark + text.replaceAll('\\', '\\\\').replaceAll(mark, `\\${mark}`).replaceAll('\n', '\\n').replaceAll('\t', '\\t').replaceAll('\r', '\\r') + mark;
};
/** A value as `repr` writes it. */
export function repr(value) {
  if (value === null || value === undefined) return 'None';
  if (typeof value === 'boolean') return value ? 'True' : 'False';
  if (typeof value === 'string') return quoted(value);
  if (value instanceof Tuple && '__repr__' in value) return /** @type {any} */ (value).__repr__(repr);
  if (value instanceof Tuple) return `(${value.map(repr).join(', ')}${value.length === 1 ? ',' : ''})`;
  if (Array.isArray(value)) return `[${value.map(repr).join(', ')}]`;
  if (value instanceof Bytes) return `b${quoted(value.s)}`;
  if (value instanceof Dict) return `{${value.items().map(([key, found]) => `${repr(key)}: ${repr(found)}`).join(', ')}}`;
  if (value instanceof PySet) return value.length ? `{${[...value].map(repr).join(', ')}}` : 'set()';
  return value.__repr__ ? value.__repr__() : String(value);
}

const SPEC = /^(?:([^])?([<>=^]))?([+ -])?(#)?(0)?(\d+)?(,)?(?:\.(\d+))?([a-zA-Z%])?$/u;
const BASES = { x: 16, X: 16, b: 2, o: 8 };
/** A value by what stands behind the colon in braces. @param {any} value @param {string} spec */
export function format(value, spec = '') {
  const found = SPEC.exec(spec);
  if (!found) fail('ValueError', `Invalid format specifier ${repr(spec)}`);
  const [, fill, side, sign, mark, zero, width, comma, places, kind] = found, is_number = typeof value === 'number' || typeof value === 'bigint';
  let text = is_number ? digits(value, kind, comma, places) : str(value);
  let lead = is_number ? value < 0 ? '-' : sign === '+' ? '+' : sign === ' ' ? ' ' : '' : '';
  if (is_number && mark && BASES[kind]) lead += `0${kind}`;
  if (!is_number && places) text = text.slice(0, +places);
  const room = Math.max(0, (+width || 0) - lead.length - text.length), filled = (fill || (zero ? '0' : ' ')).repeat(room);
  const way = side || (zero ? '=' : is_number ? '>' : '<');
  if (way === '=') return lead + filled + text;
  if (way === '^') return filled.slice(0, room >> 1) + lead + text + filled.slice(room >> 1);
  return way === '>' ? filled + lead + text : lead + text + filled;
}
function digits(value, kind, comma, places) {
  const size = value < 0 ? -value : value;
  if (kind === 'c') return String.fromCharCode(Number(value));
  if (places !== undefined || kind === 'f') return Number(size).toFixed(places === undefined ? 6 : +places);
  const text = size.toString(BASES[kind] || 10);
  return comma ? text.replace(/\B(?=(\d{3})+$)/g, ',') : kind === 'X' ? text.toUpperCase() : text;
}
/** `text % values`. */
export function percent(text, values) {
  const given = values instanceof Tuple ? [...values] : [values];
  return text.replace(/%(0?\d*)([sdrx%])/g, (_, width, kind) => {
    if (kind === '%') return kind;
    return kind === 'r' ? repr(given.shift()) : format(given.shift(), kind === 's' ? '' : width + kind);
  });
}
function formatted(text, given) {
  const named = takeNamed(given);
  let next = 0;
  return text.replace(/\{\{|\}\}|\{(\w*)(?::([^}]*))?\}/g, (whole, name, spec) => {
    if (whole === '{{' || whole === '}}') return whole[0];
    const value = name === '' ? given[next++] : /^\d+$/.test(name) ? given[+name] : named[name];
    return spec ? format(value, spec) : str(value);
  });
}

// ---- methods

const LINE_END = /\r\n|[\n\r\v\f\x1c-\x1e\x85\u2028\u2029]/;
const isPrintable = text => !/[\p{C}\p{Zl}\p{Zp}]|(?! )\p{Zs}/u.test(text);
const around = (text, of, begin, end) => {
  let from = 0, to = text.length;
  const is_in = of === null ? character => /\s/.test(character) : character => of.includes(character);
  while (begin && from < to && is_in(text[from])) from++;
  while (end && to > from && is_in(text[to - 1])) to--;
  return text.slice(from, to);
};
const any = (found, is) => Array.isArray(found) ? found.some(is) : is(found);
function split(text, mark = /** @type {any} */ (null), most = -1) {
  if (mark instanceof Named) [mark, most] = [mark.values.sep ?? null, mark.values.maxsplit ?? -1];
  if (mark === null) {
    const words = text.trim() ? text.trim().split(/\s+/) : [];
    if (most < 0 || words.length <= most) return words;
    const rest = /** @type {RegExpExecArray} */ (new RegExp(`^\\s*(?:\\S+\\s+){${most}}`).exec(text))[0];
    return [...words.slice(0, most), text.slice(rest.length).trimEnd()];
  }
  const parts = text.split(mark);
  return most < 0 || parts.length <= most ? parts : [...parts.slice(0, most), parts.slice(most).join(mark)];
}
function partition(text, mark) {
  const at = text.indexOf(mark);
  return at < 0 ? Tuple.of(text, '', '') : Tuple.of(text.slice(0, at), mark, text.slice(at + mark.length));
}
function rpartition(text, mark) {
  const at = text.lastIndexOf(mark);
  return at < 0 ? Tuple.of('', '', text) : Tuple.of(text.slice(0, at), mark, text.slice(at + mark.length));
}
function replace(text, what, by, most = -1) {
  if (most < 0) return text.replaceAll(what, () => by);
  return split(text, what, most).join(by);
}
function count(text, part, from = 0, to = text.length) {
  return text.slice(from, to).split(part).length - 1;
}
const within = (text, part, from = 0, to = text.length) => {
  const at = text.slice(0, to ?? undefined).indexOf(part, from ?? 0);
  return at;
};
function expandtabs(text, size = 8) {
  let made = '', column = 0;
  for (const character of text) {
    const part = character === '\t' ? ' '.repeat(size - column % size) : character;
    made += part;
    column = character === '\n' ? 0 : column + part.length;
  }
  return made;
}

/** The methods of texts. @type {Record<string, (text: string, ...given: any[]) => any>} */
export const OF_TEXT = {
  split, partition, rpartition, replace, count, expandtabs,
  rsplit: (text, mark, most) => {
    const parts = text.split(mark), at = Math.max(0, parts.length - 1 - most);
    return [parts.slice(0, at + 1).join(mark), ...parts.slice(at + 1)];
  },
  splitlines: text => { const lines = text.split(new RegExp(LINE_END, 'g')); if (!lines[lines.length - 1]) lines.pop(); return lines; },
  join: (text, parts) => [...parts].join(text),
  strip: (text, of = null) => around(text, of, true, true),
  lstrip: (text, of = null) => around(text, of, true, false),
  rstrip: (text, of = null) => around(text, of, false, true),
  startswith: (text, found, from = 0) => any(found, part => text.startsWith(part, from)),
  endswith: (text, found) => any(found, part => text.endsWith(part)),
  find: within,
  index: (text, part, from) => { const at = within(text, part, from); return at < 0 ? fail('ValueError', 'substring not found') : at; },
  rfind: (text, part) => text.lastIndexOf(part),
  upper: text => text.toUpperCase(), lower: text => text.toLowerCase(),
  removeprefix: (text, part) => text.startsWith(part) ? text.slice(part.length) : text,
  removesuffix: (text, part) => part && text.endsWith(part) ? text.slice(0, -part.length) : text,
  ljust: (text, width, fill = ' ') => text.padEnd(width, fill), rjust: (text, width, fill = ' ') => text.padStart(width, fill),
  zfill: (text, width) => text.padStart(width, '0'),
  isdigit: text => /^\d+$/.test(text), isdecimal: text => /^\d+$/.test(text), isalpha: text => /^\p{L}+$/u.test(text), isspace: text => /^\s+$/.test(text),
  isprintable: isPrintable,
  format: (text, ...given) => formatted(text, given),
  encode: (text, kind = 'utf-8', how = 'strict') => new Bytes(encoded(text, kind, how)),
};

/** A text as bytes, each a character; those that stand for bytes that are no UTF-8 are these bytes again. */
function encoded(text, kind, how) {
  if (kind === 'latin1' || kind === 'latin-1') return text;
  if (/^[\0-\x7f]*$/.test(text)) return text;
  const own = part => /^[\udc80-\udcff]$/.test(part) ? String.fromCharCode(part.charCodeAt(0) - 0xdc00) : latin(new TextEncoder().encode(part));
  return text.split(/([\udc80-\udcff])/).map(own).join('');
}
/** Bytes of JavaScript as a text of such characters. @param {Uint8Array} data */
export function latin(data) {
  let made = '';
  for (let at = 0; at < data.length; at += 8192) made += String.fromCharCode(...data.subarray(at, at + 8192));
  return made;
}
/** Such a text as bytes of JavaScript. @param {string} text */
export function unlatin(text) {
  const made = new Uint8Array(text.length);
  for (let at = 0; at < text.length; at++) made[at] = text.charCodeAt(at);
  return made;
}
// The bytes of a character of UTF-8 that is above 0x7f, or one byte that is none of such.
const ODD = new RegExp(['[\\xc2-\\xdf][\\x80-\\xbf]', '\\xe0[\\xa0-\\xbf][\\x80-\\xbf]', '[\\xe1-\\xec\\xee\\xef][\\x80-\\xbf]{2}', '\\xed[\\x80-\\x9f][\\x80-\\xbf]',
  '\\xf0[\\x90-\\xbf][\\x80-\\xbf]{2}', '[\\xf1-\\xf3][\\x80-\\xbf]{3}', '\\xf4[\\x80-\\x8f][\\x80-\\xbf]{2}', '[\\x80-\\xff]'].join('|'), 'g');
/** Bytes as a text; those that are no UTF-8 are characters that stand for them. */
function decoded(text, kind) {
  if (kind === 'latin1' || kind === 'latin-1' || /^[\0-\x7f]*$/.test(text)) return text;
  return text.replace(ODD, part => part.length === 1 ? String.fromCharCode(0xdc00 + part.charCodeAt(0)) : new TextDecoder().decode(unlatin(part)));
}

const asText = value => value instanceof Bytes ? value.s : Array.isArray(value) ? value.map(asText) : value instanceof Named ? value : value;
const asBytes = value => typeof value === 'string' ? new Bytes(value) : Array.isArray(value) ? value.map(asBytes) : value;
/** The methods of bytes: those of texts, and how they become texts. @type {Record<string, (data: Bytes, ...given: any[]) => any>} */
export const OF_BYTES = {
  decode: (data, kind) => decoded(data.s, typeof kind === 'string' ? kind : 'utf-8'),
  hex: data => [...data].map(byte => byte.toString(16).padStart(2, '0')).join(''),
  append: (data, byte) => { if (data instanceof ByteArray) data.s += String.fromCharCode(byte); return null; },
  extend: (data, more) => { if (data instanceof ByteArray) data.s += String.fromCharCode(...more); return null; },
  join: (data, parts) => new Bytes([...parts].map(part => part.s).join(data.s)),
  splitlines: data => { const lines = data.s.split(/\r\n|[\r\n]/); if (!lines[lines.length - 1]) lines.pop(); return lines.map(asBytes); },
};
for (const [name, method] of Object.entries(OF_TEXT)) {
  if (!(name in OF_BYTES)) OF_BYTES[name] = (data, ...given) => asBytes(/** @type {any} */ (method)(data.s, ...given.map(asText)));
}

/** A text of bytes as a text, for people. @param {string} text */
export const decodedText = text => decoded(text, 'utf-8');
