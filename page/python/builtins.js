// @ts-check
// The functions and types that Python has everywhere.
import { ByteArray, Bytes, Dict, PySet, Tuple, entries, order, truth, tupleOf } from './values.js';
import { exceptions, fail, takeNamed } from './classes.js';
import { OF_TEXT, repr, str as textOf } from './text.js';
import { by } from './methods.js';
import { Slice, iterated } from './operators.js';

/** The numbers from one to another. */
export class Range {
  constructor(from, to, step) {
    this.from = from;
    this.to = to;
    this.step = step;
    this.length = Math.max(0, Math.ceil((to - from) / step));
  }
  *[Symbol.iterator]() { for (let at = this.from, left = this.length; left > 0; left--, at += this.step) yield at; }
  __contains__(value) {
    const is_between = this.step > 0 ? value >= this.from && value < this.to : value <= this.from && value > this.to;
    return is_between && Number.isInteger(value) && (value - this.from) % this.step === 0;
  }
  __getitem__(at) {
    if (at instanceof Slice) return [...this].slice(at.lower ?? 0, at.upper ?? this.length);
    return this.from + this.step * (at < 0 ? at + this.length : at);
  }
  __len__() { return this.length; }
}
const range = (...given) => given.length < 2 ? new Range(0, given[0], 1) : new Range(given[0], given[1], given[2] ?? 1);

const len = value => value.__len__ ? value.__len__() : value.length ?? fail('TypeError', 'it has no length');
const str = Object.assign((...given) => textOf(...given), {
  ...Object.fromEntries(['join', 'split', 'strip', 'lower', 'upper', 'startswith', 'isdigit'].map(name => [name, OF_TEXT[name]])),
});
const list = (parts = []) => [...iterated(parts)];
const tuple = (parts = []) => tupleOf(...iterated(parts));
const bool = value => truth(value ?? null);
const set = (members = []) => new PySet(iterated(members));
const dict = Object.assign((...given) => {
  const more = takeNamed(given), made = new Dict(given.length ? entries(given[0]) : []);
  for (const [key, value] of Object.entries(more)) made.set(key, value);
  return made;
}, { fromkeys: (keys, value = null) => new Dict([...keys].map(key => [key, value])) });

const PREFIXES = { 16: /^0[xX]/, 8: /^0[oO]/, 2: /^0[bB]/ };
const DIGITS = { 16: /^[0-9a-fA-F]+$/, 10: /^[0-9]+$/, 8: /^[0-7]+$/, 2: /^[01]+$/ };
function intOf(word, base) {
  const bare = word.trim().replaceAll('_', ''), sign = /^[+-]/.test(bare) ? bare[0] : '', digits = bare.slice(sign.length);
  const found = base || +(Object.keys(PREFIXES).find(kind => PREFIXES[kind].test(digits)) || 10);
  const plain = PREFIXES[found] ? digits.replace(PREFIXES[found], '') : digits;
  if (!DIGITS[found] || !DIGITS[found].test(plain)) fail('ValueError', `invalid literal for int() with base ${base}: ${repr(word)}`);
  const small = parseInt(plain, found), exact = () => [...plain].reduce((sum, digit) => sum * BigInt(found) + BigInt(parseInt(digit, found)), 0n);
  const value = Number.isSafeInteger(small) ? small : exact();
  return sign === '-' ? -value : value;
}
const int = Object.assign((value = /** @type {any} */ (0), base = 10) => {
  if (typeof value === 'string') return intOf(value, base);
  if (value instanceof Bytes) return intOf(value.s, base);
  return typeof value === 'bigint' ? value : value === null ? fail('TypeError', 'None is no number') : Math.trunc(Number(value));
}, {
  from_bytes: (data, way) => {
    const bytes = way === 'little' ? [...data].reverse() : [...data], value = bytes.reduce((sum, byte) => sum * 256n + BigInt(byte), 0n);
    return value <= 9007199254740991n ? Number(value) : value;
  },
});
const bytes = Object.assign((value = /** @type {any} */ ([])) => {
  if (value instanceof Bytes) return new Bytes(value.s);
  return new Bytes(typeof value === 'number' ? '\0'.repeat(value) : String.fromCharCode(...value));
}, {
  fromhex: text => new Bytes((text.replace(/\s/g, '').match(/../g) || []).map(pair => String.fromCharCode(parseInt(pair, 16))).join('')),
});
const bytearray = value => new ByteArray(bytes(value).s);

const slice = (...given) => given.length < 2 ? new Slice(null, given[0], 1) : new Slice(given[0], given[1], given[2] ?? 1);
const CHECKS = new Map(/** @type {[any, (value: any) => boolean][]} */ ([
  [str, value => typeof value === 'string'], [list, value => Array.isArray(value) && !(value instanceof Tuple)], [tuple, value => value instanceof Tuple],
  [dict, value => value instanceof Dict], [set, value => value instanceof PySet], [bool, value => typeof value === 'boolean'],
  [int, value => ['number', 'bigint', 'boolean'].includes(typeof value)], [bytes, value => value instanceof Bytes && !(value instanceof ByteArray)],
  [bytearray, value => value instanceof ByteArray], [slice, value => value instanceof Slice], [range, value => value instanceof Range],
]));
function isinstance(value, kinds) {
  const is = kind => CHECKS.has(kind) ? CHECKS.get(kind)(value) : Boolean(kind.prototype && value && kind.prototype.isPrototypeOf(value));
  return (Array.isArray(kinds) ? kinds : [kinds]).some(is);
}

// ---- what goes through values

function* map(made, ...lists) {
  if (lists.length === 1) { for (const value of iterated(lists[0])) yield made(value); return; }
  for (const parts of zip(...lists)) yield made(...parts);
}
function* filter(is, values) { for (const value of iterated(values)) if (is === null ? truth(value) : truth(is(value))) yield value; }
function* enumerate(values, start = 0) { let at = start; for (const value of iterated(values)) yield tupleOf(at++, value); }
function* zip(...lists) {
  const all = lists.map(found => iterated(found)[Symbol.iterator]());
  while (all.length) {
    const parts = [];
    for (const one of all) {
      const { value, done } = one.next();
      if (done) return;
      parts.push(value);
    }
    yield tupleOf(...parts);
  }
}
const reversed = values => (Array.isArray(values) ? [...values] : [...iterated(values)]).reverse()[Symbol.iterator]();
const iter = values => {
  const found = iterated(values)[Symbol.iterator]();
  return found[Symbol.iterator] ? found : Object.assign(found, { [Symbol.iterator]() { return this; } });
};
function next(steps, ...other) {
  const { value, done } = steps.next();
  return done ? other.length ? other[0] : fail('StopIteration') : value;
}
const any = values => { for (const value of iterated(values)) if (truth(value)) return true; return false; };
const all = values => { for (const value of iterated(values)) if (!truth(value)) return false; return true; };
const sum = (values, start = 0) => { let found = start; for (const value of iterated(values)) found += Number(value); return found; };
function sorted(values, ...given) {
  const { key, reverse } = takeNamed(given);
  return [...iterated(values)].sort(by(key, reverse));
}
const extreme = way => (...given) => {
  const named = takeNamed(given), values = given.length === 1 ? [...iterated(given[0])] : given, { key } = named;
  if (!values.length) return 'default' in named ? named.default : fail('ValueError', 'arg is an empty sequence');
  return values.reduce((best, value) => way * order(key ? key(value) : value, key ? key(best) : best) > 0 ? value : best);
};

/** What `print` writes to, besides what it is told. */
export const printed = { stdout: null };
function print(...given) {
  const { sep = ' ', end = '\n', file } = takeNamed(given);
  (file || printed.stdout).write(given.map(value => textOf(value)).join(sep) + end);
  return null;
}
const getattr = (object, name, ...other) => object[name] !== undefined ? object[name] : other.length ? other[0] : fail('AttributeError', name);

export const builtins = {
  ...exceptions, len, str, list, tuple, bool, set, frozenset: set, dict, int, bytes, bytearray, isinstance, range, map, filter, enumerate, zip, reversed, iter,
  next, any, all, sum, sorted, min: extreme(-1), max: extreme(1), print, getattr, repr, abs: value => value < 0 ? -value : value,
  chr: code => String.fromCodePoint(code),
  ord: text => text.codePointAt(0), slice,
  hasattr: (object, name) => object[name] !== undefined, type: object => object.constructor, object: null,
  divmod: (a, b) => tupleOf(Math.floor(a / b), ((a % b) + b) % b),
  callable: value => typeof value === 'function', float: Number, id: object => object,
};
