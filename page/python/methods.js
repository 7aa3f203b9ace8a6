// @ts-check
// The methods of lists, numbers, sets and dictionaries.
import { Bytes, Dict, PySet, eq, order, tupleOf } from './values.js';
import { fail, takeNamed } from './classes.js';

/** The place in a list of a value. */
function index(list, value, from = 0) {
  const at = list.findIndex((part, k) => k >= from && eq(part, value));
  return at < 0 ? fail('ValueError', 'it is not in the list') : at;
}
/** Compares by what a function makes of values. */
export const by = (key, reverse) => (one, other) => (reverse ? -1 : 1) * order(key ? key(one) : one, key ? key(other) : other);
/** @type {Record<string, (list: any[], ...given: any[]) => any>} */
export const OF_LIST = {
  append: (list, value) => { list.push(value); return null; },
  extend: (list, more) => { for (const value of [...more]) list.push(value); return null; },
  insert: (list, at, value) => { list.splice(at, 0, value); return null; },
  pop: (list, at = -1) => list.length ? list.splice(at < 0 ? at + list.length : at, 1)[0] : fail('IndexError', 'pop from empty list'),
  remove: (list, value) => { list.splice(index(list, value), 1); return null; },
  clear: list => { list.length = 0; return null; },
  copy: list => [...list],
  count: (list, value) => list.filter(part => eq(part, value)).length,
  index,
  reverse: list => { Array.prototype.reverse.call(list); return null; },
  sort: (list, ...given) => { const { key, reverse } = takeNamed(given); Array.prototype.sort.call(list, by(key, reverse)); return null; },
};
/** @type {Record<string, (value: any, ...given: any[]) => any>} */
export const OF_NUMBER = {
  bit_length: value => value ? (value < 0 ? -value : value).toString(2).length : 0,
  to_bytes: (value, size, way, ...named) => {
    const text = BigInt.asUintN(8 * size, BigInt(value)).toString(16).padStart(2 * size, '0');
    const bytes = (text.match(/../g) || []).map(pair => parseInt(pair, 16));
    return new Bytes(String.fromCharCode(...(way === 'little' ? bytes.reverse() : bytes)));
  },
};
/** @type {Record<string, (set: PySet, ...given: any[]) => any>} */
export const OF_SET = {
  remove: (set, member) => set.has(member) ? set.discard(member) : fail('KeyError', member),
};
/** @type {Record<string, (dict: any, ...given: any[]) => any>} */
export const OF_DICT = {
  get: (dict, key, other) => Dict.prototype.get.call(dict, key, other),
  pop: (dict, key, ...other) => {
    if (!dict.has(key)) return other.length ? other[0] : fail('KeyError', key);
    const value = dict.get(key);
    dict.delete(key);
    return value;
  },
  popitem: dict => { const last = [...dict.map.values()].pop(); dict.delete(last[0]); return tupleOf(...last); },
  update: (dict, ...given) => {
    const more = takeNamed(given);
    if (given.length) Dict.prototype.update.call(dict, given[0]);
    for (const [key, value] of Object.entries(more)) dict.set(key, value);
    return null;
  },
};
