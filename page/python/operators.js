// @ts-check
// What the operators, attributes, calls and assignments of Python do.
import { ByteArray, Bytes, Dict, PySet, Tuple, entries, eq, keyOf, tupleOf } from './values.js';
import { fail, functionOf } from './classes.js';
import { OF_BYTES, OF_TEXT, percent } from './text.js';
import { OF_LIST, OF_NUMBER, OF_SET, OF_DICT } from './methods.js';

const isBig = value => typeof value === 'bigint';
/** A whole number as JavaScript has it best. @param {bigint} value */
const whole = value => value >= -9007199254740991n && value <= 9007199254740991n ? Number(value) : value;
const isNumber = value => typeof value === 'number' || typeof value === 'boolean';
/** Works a number out, and exactly where JavaScript's numbers don't reach. */
const exactly = (one, other, plain, exact) => {
  if (isNumber(one) && isNumber(other)) {
    const found = plain(Number(one), Number(other));
    if (Number.isSafeInteger(found)) return found;
  }
  return whole(exact(BigInt(one), BigInt(other)));
};

export function add(one, other) {
  if (typeof one === 'number' && typeof other === 'number' || typeof one === 'string' && typeof other === 'string') return /** @type {any} */ (one) + other;
  if (Array.isArray(one)) return one instanceof Tuple ? tupleOf(...one, ...other) : [...one, ...other];
  if (one instanceof Bytes) return new Bytes(one.s + other.s);
  if (isNumber(one) || isBig(one)) return exactly(one, other, (a, b) => a + b, (a, b) => a + b);
  return fail('TypeError', 'these can’t be added');
}
export function sub(one, other) {
  if (typeof one === 'number' && typeof other === 'number') return one - other;
  return one instanceof PySet ? one.without(other) : exactly(one, other, (a, b) => a - b, (a, b) => a - b);
}
export function mul(one, other) {
  if (isNumber(one) && (typeof other === 'string' || typeof other === 'object')) return mul(other, one);
  const times = Math.max(0, Number(other));
  if (typeof one === 'string') return one.repeat(times);
  if (one instanceof Bytes) return new Bytes(one.s.repeat(times));
  if (Array.isArray(one) && one.length === 1) return made(one, new Array(times).fill(one[0]));
  if (Array.isArray(one)) return made(one, Array.from({ length: times * one.length }, (_, k) => one[k % one.length]));
  return exactly(one, other, (a, b) => a * b, (a, b) => a * b);
}
const made = (like, parts) => like instanceof Tuple ? tupleOf(...parts) : parts;
/** A folder and a name, or a quotient. */
export const div = (one, other) => one && one.__truediv__ ? one.__truediv__(other) : one / other;
export function floordiv(one, other) {
  if (Number(other) === 0) fail('ValueError', 'division by zero');
  return exactly(one, other, (a, b) => Math.floor(a / b), (a, b) => (a - (a % b + b) % b) / b);
}
export function mod(one, other) {
  if (typeof one === 'string') return percent(one, other);
  const plain = part => part instanceof Bytes ? part.s : part;
  if (one instanceof Bytes) return new Bytes(percent(one.s, Array.isArray(other) ? tupleOf(...other.map(plain)) : plain(other)));
  return exactly(one, other, (a, b) => ((a % b) + b) % b, (a, b) => ((a % b) + b) % b);
}
export const pow = (one, other) => exactly(one, other, (a, b) => a ** b, (a, b) => a ** b);
export const lshift = (one, by) => exactly(one, by, (a, b) => a * 2 ** b, (a, b) => a << b);
export const rshift = (one, by) => isNumber(one) && one >= 0 && by < 53 ? Math.floor(Number(one) / 2 ** by) : whole(BigInt(one) >> BigInt(by));
const isSmall = (one, other) => typeof one === 'number' && typeof other === 'number' && one >= 0 && other >= 0 && one <= 0x7fffffff && other <= 0x7fffffff;
export const invert = one => whole(~BigInt(one));
export function and(one, other) {
  if (isSmall(one, other)) return one & other;
  if (one instanceof PySet) return one.common(other);
  return typeof one === 'boolean' && typeof other === 'boolean' ? one && other : whole(BigInt(one) & BigInt(other));
}
export function or(one, other) {
  if (isSmall(one, other)) return one | other;
  if (one instanceof PySet) return one.union(other);
  if (one instanceof Dict) return new Dict([...entries(one), ...entries(other)]);
  return typeof one === 'boolean' && typeof other === 'boolean' ? one || other : whole(BigInt(one) | BigInt(other));
}
export function xor(one, other) {
  if (one instanceof PySet) return one.without(other).union(other.without(one));
  return typeof one === 'boolean' && typeof other === 'boolean' ? one !== other : whole(BigInt(one) ^ BigInt(other));
}

/** The operators that stand before `=`, which change lists and sets themselves. */
export const within = {
  add(one, other) {
    if (Array.isArray(one) && !(one instanceof Tuple)) { for (const part of [...other]) one.push(part); return one; }
    if (one instanceof ByteArray) { one.s += other.s; return one; }
    return add(one, other);
  },
  sub(one, other) {
    if (!(one instanceof PySet)) return sub(one, other);
    for (const member of [...other]) one.discard(member);
    return one;
  },
  or(one, other) {
    if (!(one instanceof PySet)) return or(one, other);
    one.update(other);
    return one;
  },
  and, xor, mul, div, floordiv, mod, pow, lshift, rshift,
};

// ---- attributes and calls

/** The methods that Python brings for a value; null for an object of a class. */
function methodsOf(value) {
  if (typeof value === 'string') return OF_TEXT;
  if (typeof value === 'number' || typeof value === 'bigint') return OF_NUMBER;
  if (Array.isArray(value)) return OF_LIST;
  return value instanceof Bytes ? OF_BYTES : value instanceof PySet ? OF_SET : value instanceof Dict ? OF_DICT : null;
}
/** Calls a method of an object, which may be one that Python brings. */
export function call(object, name, ...given) {
  const methods = methodsOf(object), own = methods && methods[name];
  if (own) return own(object, ...given);
  const found = object[name];
  if (typeof found !== 'function') fail('AttributeError', `${object && object.constructor && object.constructor.name} has no ${name}`);
  return object[name](...given);
}
/** An attribute; of a method one that knows its object. */
export function get(object, name) {
  if (object === null || object === undefined) fail('AttributeError', `None has no ${name}`);
  const found = object[name];
  if (found !== undefined && typeof found !== 'function') return found;
  const methods = methodsOf(object), own = methods && !Object.hasOwn(Object.getPrototypeOf(object), name) && methods[name];
  if (own) return (...given) => own(object, ...given);
  if (object.$isClass && found === undefined && object.prototype[name] !== undefined) return unbound(object.prototype[name]);
  if (found === undefined && !(name in object)) fail('AttributeError', `${object.constructor && object.constructor.name} has no ${name}`);
  const is_method = typeof found === 'function' && !found.$isClass && !object.$isModule && !object.$isClass;
  return is_method ? functionOf(found.bind(object), found.$names, found.$only) : found;
}
const unbound = method => (self, ...given) => method.apply(self, given);

// ---- parts

/** A part of a list, from a number to another. */
export class Slice {
  constructor(lower, upper, step) {
    this.lower = lower;
    this.upper = upper;
    this.step = step ?? 1;
  }
  indices(length) {
    const [first, last] = this.step < 0 ? [length - 1, -1] : [0, length], [low, high] = this.step < 0 ? [-1, length - 1] : [0, length];
    const at = (place, other) => place === null ? other : Math.max(low, Math.min(high, place < 0 ? place + length : place));
    return tupleOf(at(this.lower, first), at(this.upper, last), this.step);
  }
}
export const slice = (lower, upper, step) => new Slice(lower, upper, step);
function partOf(sequence, { lower, upper, step }) {
  if (step === 1) return sequence.slice(lower ?? 0, upper ?? sequence.length);
  const [from, to] = new Slice(lower, upper, step).indices(sequence.length), found = [];
  for (let at = from; step > 0 ? at < to : at > to; at += step) found.push(sequence[at]);
  return typeof sequence === 'string' ? found.join('') : found;
}
/** What stands at a place or under a key. */
export function item(object, key) {
  if (Array.isArray(object) || typeof object === 'string') {
    if (key instanceof Slice) return made(object, partOf(object, key));
    const found = object[key < 0 ? key + object.length : key];
    return found === undefined ? fail('IndexError', 'index out of range') : found;
  }
  if (object instanceof Dict) {
    const found = object.map.get(keyOf(key));
    const { __missing__ } = /** @type {any} */ (object);
    return found ? found[1] : __missing__ ? __missing__.call(object, key) : fail('KeyError', key);
  }
  if (object instanceof Bytes) return key instanceof Slice ? new Bytes(partOf(object.s, key)) : object.s.charCodeAt(key < 0 ? key + object.length : key);
  return object.__getitem__ ? object.__getitem__(key) : fail('TypeError', 'it has no parts');
}
export function setItem(object, key, value) {
  if (object instanceof Dict) return object.set(key, value);
  if (key instanceof Slice) {
    const [from, to] = key.indices(object.length);
    if (object instanceof ByteArray) object.s = object.s.slice(0, from) + value.s + object.s.slice(Math.max(from, to));
    else object.splice(from, Math.max(0, to - from), ...value);
    return null;
  }
  if (object instanceof ByteArray) { object.s = object.s.slice(0, key) + String.fromCharCode(value) + object.s.slice(key + 1); return null; }
  if (object.__setitem__) return object.__setitem__(key, value);
  if (key < 0 ? key + object.length < 0 : key >= object.length) fail('IndexError', 'index out of range');
  object[key < 0 ? key + object.length : key] = value;
  return null;
}
export function deleteItem(object, key) {
  if (object instanceof Dict) { if (!object.delete(key)) fail('KeyError', key); return; }
  const [from, to] = key instanceof Slice ? key.indices(object.length) : [key < 0 ? key + object.length : key, (key < 0 ? key + object.length : key) + 1];
  object.splice(from, Math.max(0, to - from));
}
/** Whether something is in a list, a text, a dictionary or a set. */
export function has(object, value) {
  if (typeof object === 'string') return object.includes(value);
  if (object instanceof Bytes) return typeof value === 'number' ? object.s.includes(String.fromCharCode(value)) : object.s.includes(value.s);
  if (Array.isArray(object)) return typeof value === 'object' && value !== null ? object.some(part => eq(part, value)) : object.includes(value);
  if (object instanceof Dict || object instanceof PySet) return object.has(value);
  if (object.__contains__) return object.__contains__(value);
  for (const part of object) if (eq(part, value)) return true;
  return false;
}
/** What a loop goes through. */
export const iterated = value => value && value[Symbol.iterator] ? value : fail('TypeError', 'nothing to go through');
/** The parts of a value, so many, or so many before and behind a list of the others. */
export function unpack(value, before, behind) {
  const parts = Array.isArray(value) ? value : [...iterated(value)];
  if (behind === undefined) return parts.length === before ? parts : fail('ValueError', `${parts.length} values, and not ${before}`);
  if (parts.length < before + behind) fail('ValueError', 'not enough values');
  return [...parts.slice(0, before), parts.slice(before, parts.length - behind), ...parts.slice(parts.length - behind)];
}
export const named = given => Object.fromEntries(entries(given));
