// @ts-check
// The modules of Python's library that the tools use, apart from files and programs.
import { Bytes, Dict, entries, eq, keyOf, lt, tupleOf } from './values.js';
import { Enum, Named, NamedTuple, classOf, contextmanager, dataclass, fail, functionOf, namedtuple, replaced, takeNamed } from './classes.js';
import { item } from './operators.js';
import { unlatin } from './text.js';

// ---- collections

class DefaultDict extends Dict {
  constructor(make) { super(); this.make = make; }
  __missing__(key) {
    const value = this.make();
    this.set(key, value);
    return value;
  }
}
class Counter extends Dict {
  constructor(values = []) { super(); for (const value of values) this.set(value, (this.get(value) || 0) + 1); }
  __missing__() { return 0; }
  most_common(most = Infinity) { return this.items().sort(([, one], [, other]) => other - one).slice(0, most); }
}
/** A list that is taken from at both ends: what was put in front, the last first, and what stands behind it from `head` on. */
class Deque {
  constructor(values = []) { this.front = []; this.behind = [...values]; this.head = 0; }
  get length() { return this.front.length + this.behind.length - this.head; }
  __len__() { return this.length; }
  *[Symbol.iterator]() {
    for (let at = this.front.length - 1; at >= 0; at--) yield this.front[at];
    for (let at = this.head; at < this.behind.length; at++) yield this.behind[at];
  }
  __getitem__(at) { return [...this].at(at); }
  append(value) { this.behind.push(value); }
  appendleft(value) { this.front.push(value); }
  extend(values) { for (const value of values) this.behind.push(value); }
  extendleft(values) { for (const value of values) this.front.push(value); }
  pop() { return this.behind.length > this.head ? this.behind.pop() : this.front.length ? this.front.shift() : fail('IndexError', 'pop from an empty deque'); }
  popleft() {
    if (this.front.length) return this.front.pop();
    if (this.head === this.behind.length) fail('IndexError', 'pop from an empty deque');
    const value = this.behind[this.head++];
    if (this.head > 1024 && this.head * 2 > this.behind.length) { this.behind = this.behind.slice(this.head); this.head = 0; }
    return value;
  }
}
const Sequence = classOf('Sequence', [], () => {});
const collections = {
  namedtuple, defaultdict: make => new DefaultDict(make), Counter: values => new Counter(values), deque: values => new Deque(values),
  OrderedDict: values => new Dict(entries(values || [])), abc: { Sequence, Iterable: Sequence, Mapping: Sequence },
};

// ---- functools, itertools, operator

/** A function that keeps what it answered. */
function kept(made) {
  const known = new Map();
  return functionOf((...given) => {
    const key = keyOf(tupleOf(...given));
    if (!known.has(key)) known.set(key, made(...given));
    return known.get(key);
  }, made.$names);
}
const functools = {
  cache: kept, lru_cache: given => given instanceof Named || typeof given !== 'function' ? kept : kept(given), cached_property: made => made,
  reduce: (made, values, ...start) => /** @type {any} */ ([...values]).reduce((one, other) => made(one, other), ...start),
  partial: (made, ...given) => (...more) => made(...given, ...more),
};
function* groupby(values, key = value => value) {
  let group = null, last;
  for (const value of values) {
    const found = key(value);
    if (group && eq(found, last)) group.push(value);
    else {
      if (group) yield tupleOf(last, group);
      [group, last] = [[value], found];
    }
  }
  if (group) yield tupleOf(last, group);
}
function* chain(...lists) { for (const values of lists) yield* values; }
function* zip_longest(...given) {
  const { fillvalue = null } = takeNamed(given), lists = given.map(values => [...values]), longest = Math.max(0, ...lists.map(values => values.length));
  for (let at = 0; at < longest; at++) yield tupleOf(...lists.map(values => at < values.length ? values[at] : fillvalue));
}
function* islice(values, from, to) {
  const [begin, end] = to === undefined ? [0, from] : [from, to ?? Infinity];
  let at = 0;
  if (end > 0) for (const value of values) { if (at >= begin) yield value; if (++at >= end) return; }
}
function* count(from = 0, step = 1) { for (let at = from; ; at += step) yield at; }
function* repeat(value, times = Infinity) { for (let at = 0; at < times; at++) yield value; }
function* accumulate(values) { let sum = 0; for (const value of values) yield sum += value; }
function* takewhile(is, values) { for (const value of values) { if (!is(value)) return; yield value; } }
const itertools = {
  groupby, zip_longest, islice, count, repeat, accumulate, takewhile, chain: Object.assign(chain, { from_iterable: lists => chain(...lists) }),
  product: (one, other) => [...one].flatMap(a => [...other].map(b => tupleOf(a, b))),
};
const operator = {
  itemgetter: (...keys) => value => keys.length === 1 ? item(value, keys[0]) : tupleOf(...keys.map(key => item(value, key))),
  attrgetter: name => value => value[name],
};

// ---- bisect, heapq, array

const firstAt = is => (values, value, ...given) => {
  const { key } = takeNamed(given);
  let low = 0, high = values.length;
  while (low < high) {
    const middle = (low + high) >> 1;
    if (is(key ? key(values[middle]) : values[middle], value)) high = middle;
    else low = middle + 1;
  }
  return low;
};
const bisect_left = firstAt((found, value) => !lt(found, value)), bisect_right = firstAt((found, value) => lt(value, found));
const bisect = { bisect_left, bisect_right, bisect: bisect_right, insort: (values, value) => { values.splice(bisect_right(values, value), 0, value); } };
const heapq = {
  heappush(heap, value) {
    let at = heap.push(value) - 1;
    for (let up = (at - 1) >> 1; at && lt(heap[at], heap[up]); at = up, up = (at - 1) >> 1) [heap[at], heap[up]] = [heap[up], heap[at]];
  },
  heappop(heap) {
    const least = heap[0], last = heap.pop();
    if (heap.length) heap[0] = last;
    for (let at = 0; ;) {
      const [left, right] = [2 * at + 1, 2 * at + 2];
      let low = left < heap.length && lt(heap[left], heap[at]) ? left : at;
      if (right < heap.length && lt(heap[right], heap[low])) low = right;
      if (low === at) return least;
      [heap[at], heap[low]] = [heap[low], heap[at]];
      at = low;
    }
  },
  heapify(heap) { const all = heap.splice(0); for (const value of all) heapq.heappush(heap, value); },
};
/** Numbers of a byte each. */
class ByteList extends Array {
  static get [Symbol.species]() { return Array; }
  tobytes() {
    let made = '';
    for (let at = 0; at < this.length; at += 8192) made += String.fromCharCode(...Array.prototype.slice.call(this, at, at + 8192).map(value => value & 0xff));
    return new Bytes(made);
  }
}
const array = { array: (_, values = []) => { const made = new ByteList(); for (const value of values) made.push(value); return made; } };

// ---- texts for the page

/** A value as JSON writes it, the parts of a dictionary in their order. @param {any} value @returns {string} */
function written(value) {
  const member = ([key, found]) => `${JSON.stringify(key === null ? 'null' : String(key))}:${written(found)}`;
  if (value instanceof Dict) return `{${[...value.map.values()].map(member).join(',')}}`;
  if (Array.isArray(value)) return `[${Array.from(value, written).join(',')}]`;
  return typeof value === 'bigint' ? String(value) : JSON.stringify(value ?? null);
}
const json = { dumps: (value, ..._) => written(value) };
const html = { escape: text => text.replace(/[&<>"']/g, character => ({ '&': '&amp;', '<': '&lt;', '>': '&gt;', '"': '&quot;', "'": '&#x27;' })[character]) };
const base64 = { b64encode: data => new Bytes(btoa(data.s)) };
const STORED = 65535; // bytes of a block
/** The format of deflate, of blocks that are stored as they are: the page that opens them is beside. */
function stored(data) {
  const parts = ['\x78\x01'], text = data.s;
  for (let at = 0; at === 0 || at < text.length; at += STORED) {
    const part = text.slice(at, at + STORED), size = part.length, is_last = at + STORED >= text.length;
    parts.push(String.fromCharCode(is_last ? 1 : 0, size & 255, size >> 8, ~size & 255, (~size >> 8) & 255), part);
  }
  let [one, two] = [1, 0];
  for (const byte of unlatin(text)) { one = (one + byte) % 65521; two = (two + one) % 65521; }
  return new Bytes(`${parts.join('')}${String.fromCharCode(two >> 8, two & 255, one >> 8, one & 255)}`);
}
const zlib = { compress: data => stored(data) };

// ---- what only says of which kind something is

const KIND = { __getitem__() { return KIND; } };
const typing = new Proxy({ NamedTuple, TYPE_CHECKING: false, $isModule: true }, { get: (found, name) => name in found ? found[name] : KIND });

export const LIBRARY = {
  collections, 'collections.abc': collections.abc, functools, itertools, operator, bisect, heapq, array, json, html, base64, zlib, typing,
  dataclasses: { dataclass, replace: replaced, field: () => fail('NotImplementedError') }, enum: { Enum }, contextlib: { contextmanager },
  stat: { S_ISREG: () => true, S_IMODE: mode => mode }, errno: {}, time: {}, signal: {}, traceback: {}, io: {}, hashlib: {},
};
