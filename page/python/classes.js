// @ts-check
// Functions and classes of Python: called without `new`, with arguments by their names; exceptions; named tuples, enumerations and classes of data.
import { Tuple, eq, partKey } from './values.js';

/** What is given by name, as the last argument of a call. */
export class Named {
  /** @param {Record<string, any>} values */
  constructor(values) { this.values = values; }
}
/** Takes what is given by name off the other arguments. @param {any[]} rest @returns {Record<string, any>} */
export function takeNamed(rest) {
  return rest.length && rest[rest.length - 1] instanceof Named ? rest.pop().values : {};
}

/** A function of which the names of the parameters are known, and of those that are only given by name. */
export function functionOf(made, names, only = /** @type {string[]} */ ([])) {
  return Object.assign(made, { $names: names, $only: only });
}
/** Calls a function with arguments of which some are given by name. */
export function callNamed(called, given, named) {
  const names = called.$names;
  if (!names) return called(...given, new Named(named));
  const all = [...given], left = {};
  for (const [name, value] of Object.entries(named)) {
    if (names.includes(name)) all[names.indexOf(name)] = value;
    else left[name] = value;
  }
  return called(...Array.from(all), ...(Object.keys(left).length ? [new Named(left)] : []));
}

/** The object that all objects of Python's classes come from. */
const INSTANCE = { toString() { return this.__str__ ? this.__str__() : `<${this.constructor.name}>`; } };

/** What a class statement says of its class, one part after the other. */
class Building {
  constructor(made) { this.made = made; }
  $method(name, code, kinds) {
    const { made } = this, is = kind => kinds.some(found => found === kind || found.endsWith(`.${kind}`));
    if (is('staticmethod')) made[name] = code;
    else if (is('classmethod')) put(made, name, { value: code });
    else if (is('property')) put(made.prototype, name, { get: code });
    else if (is('cached_property')) put(made.prototype, name, { get() { return keptOn(this, name, code); }, set(value) { put(this, name, { value }); } });
    else if (is('contextmanager')) put(made.prototype, name, { value: entering(code) });
    else put(made.prototype, name, { value: code });
    if (name === '__init__') Object.assign(made, { $names: code.$names, $only: code.$only });
    if (name === '__iter__') put(made.prototype, Symbol.iterator, { value: code });
  }
  $field(name, ...value) {
    if (!Object.hasOwn(this.made, '$fields')) this.made.$fields = [];
    this.made.$fields.push({ name, value });
  }
  $set(name, value) {
    const { made } = this;
    put(made, name, { value: made.$isEnum ? memberOf(made, name, value) : value });
    if (!made.$isEnum) put(made.prototype, name, { value });
  }
}
const entering = code => functionOf(function (...given) { return new Context(code.apply(this, given)); }, code.$names);
const put = (object, name, how) => Object.defineProperty(object, name, { configurable: true, ...('value' in how ? { writable: true } : {}), ...how });
function keptOn(object, name, code) {
  const value = code.call(object);
  put(object, name, { value });
  return value;
}

/** Goes through an object that has numbered parts. */
function* itemByItem() {
  for (let at = 0; at < this.__len__(); at++) yield this.__getitem__(at);
}

/** A class of Python. @param {string} name @param {any[]} bases @param {(building: any) => void} define */
export function classOf(name, bases, define) {
  const base = bases[0] && bases[0].prototype ? bases[0] : null;
  const Fresh = function () {};
  const made = /** @type {any} */ (function (...given) {
    if (made.$made) return made.$made(made, given);
    const self = new Fresh();
    if (self.__init__) self.__init__(...given);
    return self;
  });
  made.prototype = Object.create(base ? base.prototype : INSTANCE);
  if (base) Object.setPrototypeOf(made, base);
  put(made, 'name', { value: name });
  put(made, '__name__', { value: name });
  put(made.prototype, 'constructor', { value: made });
  Fresh.prototype = made.prototype;
  made.$isClass = true;
  define(new Building(made));
  if (made.prototype.__getitem__ && made.prototype.__len__ && !made.prototype[Symbol.iterator]) put(made.prototype, Symbol.iterator, { value: itemByItem });
  if (made.$finish) made.$finish(made);
  return made;
}
/** The methods of the class above, for an object. */
export function superOf(made, self) {
  const base = Object.getPrototypeOf(made).prototype;
  return new Proxy({}, { get: (_, name) => (...given) => base && base[name] ? base[name].apply(self, given) : null });
}

// ---- exceptions

const BASE = classOf('BaseException', [], building => {
  building.$method('__init__', function (...given) { this.args = given; }, []);
  building.$method('__str__', function () { return this.args.length ? String(this.args[this.args.length - 1]) : ''; }, []);
});
const kindOf = (name, base) => classOf(name, [base], () => {});
const Exception = kindOf('Exception', BASE), LookupError = kindOf('LookupError', Exception);
const OSError = classOf('OSError', [Exception], building => {
  building.$method('__init__', /** @this {any} */ function (...given) {
    [this.errno, this.strerror, this.filename] = given.length > 1 ? given : [null, given[0] ?? null, null];
    this.args = given;
  }, []);
  building.$method('__str__', function () { return this.filename ? `${this.strerror}: ${this.filename}` : String(this.strerror); }, []);
});
export const exceptions = {
  BaseException: BASE, Exception, LookupError, OSError, ValueError: kindOf('ValueError', Exception), TypeError: kindOf('TypeError', Exception),
  KeyError: kindOf('KeyError', LookupError), IndexError: kindOf('IndexError', LookupError), StopIteration: kindOf('StopIteration', Exception),
  FileNotFoundError: kindOf('FileNotFoundError', OSError), NotADirectoryError: kindOf('NotADirectoryError', OSError),
  IsADirectoryError: kindOf('IsADirectoryError', OSError), PermissionError: kindOf('PermissionError', OSError),
  FileExistsError: kindOf('FileExistsError', OSError), MemoryError: kindOf('MemoryError', Exception),
  KeyboardInterrupt: kindOf('KeyboardInterrupt', BASE), NotImplementedError: kindOf('NotImplementedError', Exception),
  AttributeError: kindOf('AttributeError', Exception), RecursionError: kindOf('RecursionError', Exception),
};
export const exceptionOf = value => value.$isClass ? value() : value;
/** Whether an exception is of a kind, or of one of several. */
export function isCaught(thrown, kinds) {
  return (Array.isArray(kinds) ? kinds : [kinds]).some(kind => kind.prototype && kind.prototype.isPrototypeOf(thrown));
}
/** Throws an exception of Python. */
export function fail(kind, ...given) {
  throw exceptions[kind](...given);
}

// ---- what `with` enters

/** A function that yields once, as what `with` enters. */
export class Context {
  constructor(steps) { this.steps = steps; }
  __enter__() { return this.steps.next().value; }
  __exit__() { this.steps.return(); }
}
export const contextmanager = made => functionOf((...given) => new Context(made(...given)), made.$names);

// ---- named tuples, enumerations, data

/** Makes a class one of tuples whose parts have names. */
function finishTuple(made) {
  const fields = made.$fields || [];
  made.$names = fields.map(({ name }) => name);
  const part = (given, { name, value }) => given !== undefined ? given : value.length ? value[0] : fail('TypeError', `${name} is missing`);
  made.$made = (_, given) => tupleAs(made, fields.map((field, k) => part(given[k], field)));
  fields.forEach(({ name }, k) => put(made.prototype, name, { get() { return this[k]; } }));
  put(made.prototype, '__repr__', { value: writtenTuple(made) });
  put(made.prototype, '_replace', { value(named) { return tupleAs(made, fields.map(({ name }, k) => name in named.values ? named.values[name] : this[k])); } });
}
/** How a named tuple is written. */
function writtenTuple(made) {
  return function (repr) { return `${made.name}(${made.$names.map((name, k) => `${name}=${repr(this[k])}`).join(', ')})`; };
}
const tupleAs = (made, parts) => Object.setPrototypeOf(parts, made.prototype);
export const NamedTuple = function () {};
NamedTuple.prototype = Object.create(Tuple.prototype);
NamedTuple.$finish = finishTuple;
export function namedtuple(name, names) {
  return classOf(name, [NamedTuple], building => { for (const field of typeof names === 'string' ? names.split(' ') : names) building.$field(field); });
}

/** A member of an enumeration. */
function memberOf(made, name, value) {
  const member = Object.assign(Object.create(made.prototype), { name, value });
  put(made, '$members', { value: [...(made.$members || []), member] });
  put(made, Symbol.iterator, { value: () => made.$members[Symbol.iterator]() });
  return member;
}
export const Enum = Object.assign(function () {}, { $isEnum: true });
Enum.prototype = Object.create(INSTANCE);

/** Gives a class what its fields say: how it is made, and when two of its objects are equal. */
function dataOf(made) {
  const fields = made.$fields || [], proto = made.prototype;
  made.$names = fields.map(({ name }) => name);
  put(proto, '__init__', {
    value(...given) { fields.forEach(({ name, value }, k) => put(this, name, { value: given[k] !== undefined ? given[k] : value[0], enumerable: true })); },
  });
  put(proto, '__eq__', { value(other) { return other.constructor === made && fields.every(({ name }) => eq(this[name], other[name])); } });
  put(proto, '$key', { value() { return `\0d${made.name}\0${fields.map(({ name }) => partKey(this[name])).join('\0')}`; } });
  return made;
}
export const dataclass = given => given instanceof Named ? dataOf : dataOf(given);
/** An object of data with some other fields. */
export function replaced(object, named) {
  const made = object.constructor;
  return made(...made.$fields.map(({ name }) => name in named.values ? named.values[name] : object[name]));
}
