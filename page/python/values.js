// @ts-check
// The values of Python that JavaScript lacks: tuples, dictionaries and sets by the values of their keys, bytes; and when two values are equal, or one is less.

/** @typedef {any} Value a value of Python: null for None, an array for a list */

/** A tuple: an array that is a key by its parts. */
export class Tuple extends Array {
  static get [Symbol.species]() { return Array; }
}
/** @param {...Value} parts */
export function tupleOf(...parts) {
  return Object.setPrototypeOf(parts, Tuple.prototype);
}

const numbers = new WeakMap();
let lastNumber = 0;
/** A number for an object that is no other's. @param {object} object */
function numberOf(object) {
  if (!numbers.has(object)) numbers.set(object, ++lastNumber);
  return numbers.get(object);
}

/** What a value is kept under in a Map: equal values of Python have the same. @param {Value} value */
export function keyOf(value) {
  if (typeof value === 'string') return value.charCodeAt(0) === 0 ? `\0s${value}` : value;
  if (typeof value === 'number' || typeof value === 'bigint') return value;
  if (typeof value === 'boolean') return Number(value);
  if (value === null || value === undefined) return null;
  if (value instanceof Tuple) return `\0t${value.map(partKey).join('\0')}`;
  return value.$key ? value.$key() : value;
}
/** @param {Value} value */
export function partKey(value) {
  if (typeof value === 'string') return `s${value.length}:${value}`;
  const key = keyOf(value);
  if (typeof key === 'string') return `k${key.length}:${key}`;
  return typeof key === 'object' && key !== null || typeof key === 'function' ? `o${numberOf(key)}` : `n${key}`;
}

/** A dictionary. */
export class Dict {
  constructor(entries = /** @type {Iterable<Value>} */ ([])) {
    /** @type {Map<any, [Value, Value]>} */
    this.map = new Map();
    for (const [key, value] of entries) this.set(key, value);
  }
  get length() { return this.map.size; }
  *[Symbol.iterator]() { for (const [key] of this.map.values()) yield key; }
  set(key, value) {
    const found = this.map.get(keyOf(key));
    if (found) found[1] = value;
    else this.map.set(keyOf(key), [key, value]);
  }
  has(key) { return this.map.has(keyOf(key)); }
  get(key, other = null) {
    const found = this.map.get(keyOf(key));
    return found ? found[1] : other;
  }
  delete(key) { return this.map.delete(keyOf(key)); }
  keys() { return new PySet(this); }
  values() { return [...this.map.values()].map(([, value]) => value); }
  items() { return [...this.map.values()].map(([key, value]) => tupleOf(key, value)); }
  setdefault(key, other = null) {
    if (!this.has(key)) this.set(key, other);
    return this.get(key);
  }
  update(other = /** @type {Value} */ ([])) { for (const [key, value] of entries(other)) this.set(key, value); }
  clear() { this.map.clear(); }
  copy() { return new Dict(this.map.values()); }
}
/** The entries of a dictionary, or pairs. @param {Value} value */
export const entries = value => value instanceof Dict ? [...value.map.values()] : value;

/** A set. */
export class PySet {
  constructor(members = /** @type {Iterable<Value>} */ ([])) {
    this.map = new Map();
    for (const member of members) this.add(member);
  }
  get length() { return this.map.size; }
  [Symbol.iterator]() { return this.map.values(); }
  has(member) { return this.map.has(keyOf(member)); }
  add(member) { if (!this.has(member)) this.map.set(keyOf(member), member); }
  discard(member) { this.map.delete(keyOf(member)); }
  clear() { this.map.clear(); }
  copy() { return new PySet(this); }
  update(...others) { for (const other of others) for (const member of other) this.add(member); }
  union(...others) { const found = this.copy(); found.update(...others); return found; }
  without(other) { return new PySet([...this].filter(member => !other.has(member))); }
  common(other) { return new PySet([...this].filter(member => other.has(member))); }
  isWithin(other) { return [...this].every(member => other.has(member)); }
  pop() {
    const [member] = this;
    this.discard(member);
    return member;
  }
  $key() { return `\0e${[...this].map(partKey).sort().join('\0')}`; }
}

/** Bytes, as a text of which each character is one. */
export class Bytes {
  /** @param {string} s */
  constructor(s) { this.s = s; }
  get length() { return this.s.length; }
  *[Symbol.iterator]() { for (let at = 0; at < this.s.length; at++) yield this.s.charCodeAt(at); }
  $key() { return `\0b${this.s}`; }
}
/** @param {string} s */
export const bytesOf = s => new Bytes(s);
/** Bytes that change. */
export class ByteArray extends Bytes {}

const isList = value => Array.isArray(value);
/** Whether two values are equal. @param {Value} one @param {Value} other @returns {boolean} */
export function eq(one, other) {
  if (one === other) return true;
  if (typeof one !== 'object' || typeof other !== 'object' || one === null || other === null) return typeof one === 'bigint' && one == other;
  if (isList(one)) return isList(other) && one instanceof Tuple === other instanceof Tuple && areSame(one, other);
  if (one instanceof Bytes) return other instanceof Bytes && one.s === other.s;
  if (one instanceof PySet) return other instanceof PySet && one.length === other.length && one.isWithin(other);
  const isIn = ([key, value]) => other.has(key) && eq(value, other.get(key));
  if (one instanceof Dict) return other instanceof Dict && one.length === other.length && one.items().every(isIn);
  return Boolean(one.__eq__ && one.__eq__(other));
}
const areSame = (one, other) => one.length === other.length && one.every((part, k) => eq(part, other[k]));

/** How two values stand: below 0, 0, or above. @param {Value} one @param {Value} other @returns {number} */
export function order(one, other) {
  if (isList(one)) {
    for (let k = 0; k < one.length && k < other.length; k++) {
      const found = order(one[k], other[k]);
      if (found) return found;
    }
    return one.length - other.length;
  }
  if (one instanceof Bytes) return order(one.s, other.s);
  if (one && one.__lt__) return one.__lt__(other) ? -1 : other.__lt__(one) ? 1 : 0;
  return one < other ? -1 : one > other ? 1 : 0;
}
export function lt(one, other) {
  if (typeof one !== 'object') return one < other;
  return one instanceof PySet ? one.length < other.length && one.isWithin(other) : order(one, other) < 0;
}
export function le(one, other) {
  if (typeof one !== 'object') return one <= other;
  return one instanceof PySet ? one.isWithin(other) : order(one, other) <= 0;
}

/** Whether a value counts as true. @param {Value} value */
export function truth(value) {
  if (typeof value !== 'object' || value === null) return Boolean(value);
  if (isList(value) || value instanceof Dict || value instanceof PySet || value instanceof Bytes) return value.length > 0;
  return value.__bool__ ? value.__bool__() : value.__len__ ? value.__len__() > 0 : true;
}
