// @ts-check
// Python's regular expressions by JavaScript's: what differs in the writing is rewritten, and bytes are matched as texts of such characters.
import { Bytes, tupleOf } from './values.js';
import { takeNamed } from './classes.js';

export const FLAGS = { I: 2, M: 8, S: 16, X: 64, A: 256 };
const BLANKS = ' \\t\\n\\r\\f\\v';
const LETTERS = '\\w\\u00aa\\u00b5\\u00ba\\u00c0-\\u00d6\\u00d8-\\u00f6\\u00f8-\\u02c1\\u0370-\\u1fff\\u2c00-\\ud7ff\\uf900-\\uffdc';

/** The part of a pattern in JavaScript's writing: [what, how many characters it was]. */
function partOf(source, at, flags, isInClass, isAscii) {
  const here = source[at], two = source.slice(at, at + 2);
  if (here === '\\') {
    if (two === '\\Z') return ['(?![\\s\\S])', 2];
    if (two === '\\A') return ['(?<![\\s\\S])', 2];
    if (two === '\\s' && isAscii) return [isInClass ? BLANKS : `[${BLANKS}]`, 2];
    if (two === '\\w' && !isAscii) return [isInClass ? LETTERS : `[${LETTERS}]`, 2];
    return [two, 2];
  }
  if (isInClass) return [here, 1];
  if (source.startsWith('(?P<', at)) return ['(?<', 4];
  if (here === '.') return [flags & FLAGS.S ? '[\\s\\S]' : '[^\\n]', 1];
  if (here === '^') return [flags & FLAGS.M ? '(?<![^\\n])' : '(?<![\\s\\S])', 1];
  if (here === '$') return [flags & FLAGS.M ? '(?![^\\n])' : '(?=\\n?(?![\\s\\S]))', 1];
  return [here, 1];
}
/** A pattern in JavaScript's writing. */
function rewritten(source, flags, isAscii) {
  let found = '', at = 0, isInClass = false;
  while (at < source.length) {
    const [part, size] = partOf(source, at, flags, isInClass, isAscii);
    if (source[at] === '[' && !isInClass) isInClass = true;
    else if (source[at] === ']' && isInClass) isInClass = false;
    found += part;
    at += size;
  }
  return found;
}

/** What a pattern found. */
export class Match {
  constructor(pattern, found, string) {
    this.re = pattern;
    this.found = found;
    this.string = string;
  }
  as(text) { return text === undefined ? null : this.re.isBytes ? new Bytes(text) : text; }
  __getitem__(group) { return this.as(typeof group === 'string' ? this.found.groups[group] : this.found[group]); }
  group(...groups) { return groups.length > 1 ? tupleOf(...groups.map(group => this.__getitem__(group))) : this.__getitem__(groups[0] || 0); }
  groups() { return tupleOf(...this.found.slice(1).map(text => this.as(text))); }
  start(group = 0) { return group ? this.within(group)[0] : this.found.index; }
  end(group = 0) { return group ? this.within(group)[1] : this.found.index + this.found[0].length; }
  span(group = 0) { return tupleOf(this.start(group), this.end(group)); }
  within(group) {
    const pattern = new RegExp(this.re.source, 'dy');
    pattern.lastIndex = this.found.index;
    return /** @type {any} */ (pattern.exec(textOf(this.string))).indices[group] || [-1, -1];
  }
}
const textOf = string => string instanceof Bytes ? string.s : string;

/** A pattern that is compiled. */
export class Pattern {
  constructor(pattern, flags = 0) {
    this.isBytes = pattern instanceof Bytes;
    this.pattern = pattern;
    const isAscii = this.isBytes || Boolean(flags & FLAGS.A);
    this.source = rewritten(textOf(pattern), flags, isAscii);
    this.flags = flags & FLAGS.I ? 'i' : '';
  }
  by(kind) {
    if (!this[kind]) this[kind] = new RegExp(kind === 'whole' ? `(?:${this.source})(?![\\s\\S])` : this.source, (kind === 'any' ? 'g' : 'y') + this.flags);
    return this[kind];
  }
  run(kind, string, at) {
    const pattern = this.by(kind);
    pattern.lastIndex = at;
    const found = pattern.exec(textOf(string));
    return found && new Match(this, found, string);
  }
  match(string, at = 0) { return this.run('begin', string, at); }
  fullmatch(string, at = 0) { return this.run('whole', string, at); }
  search(string, at = 0) { return this.run('any', string, at); }
  *finditer(string) {
    let at = 0, found;
    while (at <= textOf(string).length && (found = this.search(string, at))) {
      at = found.end() + (found.end() === found.start() ? 1 : 0);
      yield found;
    }
  }
  findall(string) {
    const partOf = found => found.found.length > 2 ? found.groups() : found.__getitem__(found.found.length - 1);
    return [...this.finditer(string)].map(partOf);
  }
  sub(by, string) {
    const text = textOf(string), replace = typeof by === 'function' ? found => textOf(by(found)) : found => filledIn(textOf(by), found);
    let made = '', at = 0;
    for (const found of this.finditer(string)) {
      made += text.slice(at, found.start()) + replace(found);
      at = found.end();
    }
    return this.isBytes ? new Bytes(made + text.slice(at)) : made + text.slice(at);
  }
  split(string) {
    const text = textOf(string), parts = [];
    let at = 0;
    for (const found of this.finditer(string)) {
      parts.push(text.slice(at, found.start()), ...found.found.slice(1));
      at = found.end();
    }
    return [...parts, text.slice(at)].map(part => this.isBytes ? new Bytes(part) : part);
  }
}
const filledIn = (text, found) => text.replace(/\\(?:g<(\w+)>|(\d)|(.))/g, (_, name, digit, other) => filled(found, name ?? digit, other));
const filled = (found, group, other) => group === undefined ? other === 'n' ? '\n' : other : textOf(found.group(/^\d+$/.test(group) ? +group : group)) ?? '';

const known = new Map();
function compile(pattern, flags = 0) {
  if (pattern instanceof Pattern) return pattern;
  const key = `${pattern instanceof Bytes ? 'b' : 's'}${flags}:${textOf(pattern)}`;
  if (!known.has(key)) known.set(key, new Pattern(pattern, flags));
  return known.get(key);
}
export const re = {
  ...FLAGS, compile, Pattern, Match,
  match: (pattern, string, flags) => compile(pattern, flags).match(string),
  fullmatch: (pattern, string, flags) => compile(pattern, flags).fullmatch(string),
  search: (pattern, string, flags) => compile(pattern, flags).search(string),
  findall: (pattern, string, flags) => compile(pattern, flags).findall(string),
  finditer: (pattern, string, flags) => compile(pattern, flags).finditer(string),
  sub(pattern, by, string, ...more) { return compile(pattern, takeNamed(more).flags).sub(by, string); },
  split: (pattern, string) => compile(pattern).split(string),
  escape: text => text.replace(/[^A-Za-z0-9_]/g, '\\$&'),
};
