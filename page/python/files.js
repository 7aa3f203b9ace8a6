// @ts-check
// The files of a worker: texts by their names, and what of them Python's modules do. And the programs, which the engine stands for.
import { Bytes, Dict, tupleOf } from './values.js';
import { exceptions, fail, takeNamed } from './classes.js';
import { OF_BYTES, OF_TEXT, unlatin } from './text.js';
import { printed } from './builtins.js';

/** The files, by their names: each as a text of which a character is a byte. @type {Map<string, string>} */
export const files = new Map();
export const TOOLS = '/cell'; // the folder of the repository
const ABSENT = 2;

const textOf = name => typeof name === 'string' ? name : name.__fspath__();
/** The name under which a file is kept: its own if there is such a file, otherwise the name without `.` and `..`. @param {any} name */
function named(name) {
  const text = textOf(name), found = [];
  if (files.has(text)) return text;
  for (const part of text.split('/')) {
    if (part === '..') found.pop();
    else if (part && part !== '.') found.push(part);
  }
  return (text.startsWith('/') ? '/' : '') + found.join('/');
}
function read(name) {
  const at = named(name);
  if (at === '/dev/null') return '';
  const found = files.get(at);
  if (found === undefined) throw exceptions.FileNotFoundError(ABSENT, 'No such file or directory', textOf(name));
  return found;
}
const write = (name, text) => { if (named(name) !== '/dev/null') files.set(named(name), text); };

/** A file that is open. */
class File {
  constructor(name, mode) {
    this.name = name;
    this.isBytes = mode.includes('b');
    this.isRead = !/[wa]/.test(mode);
    this.kept = this.isRead ? read(name) : '';
  }
  __enter__() { return this; }
  __exit__() { this.close(); }
  read(most = -1) {
    const found = new Bytes(most < 0 ? this.kept : this.kept.slice(0, most));
    return this.isBytes ? found : OF_BYTES.decode(found);
  }
  write(data) { this.kept += data instanceof Bytes ? data.s : OF_TEXT.encode(data).s; }
  flush() { if (!this.isRead) write(this.name, this.kept); }
  close() { this.flush(); }
}
/** @param {any} name @param {string} mode */
export const open = (name, mode = 'r', ..._) => new File(textOf(name), typeof mode === 'string' ? mode : 'r');

// ---- os, pathlib, tempfile

const base = name => name.slice(name.lastIndexOf('/') + 1), folder = name => name.includes('/') ? name.slice(0, Math.max(1, name.lastIndexOf('/'))) : '';
const joined = (one, other) => other.startsWith('/') ? other : one ? `${one.replace(/\/$/, '')}/${other}` : other;
/** A name without its ending, and the ending. @param {string} name */
function splitext(name) {
  const at = base(name).lastIndexOf('.'), size = at > 0 ? base(name).length - at : 0;
  return tupleOf(name.slice(0, name.length - size), size ? name.slice(-size) : '');
}
const path = {
  $isModule: true, splitext, join: (...parts) => parts.map(textOf).reduce(joined), basename: name => base(textOf(name)), dirname: name => folder(textOf(name)),
  realpath: name => named(name), abspath: name => named(name), exists: name => name !== null && files.has(named(name)), isfile: name => files.has(named(name)),
  isdir: () => false,
  samefile: (one, other) => named(one) === named(other), getsize: name => read(name).length,
};
const PathLike = Object.assign(function () {}, { prototype: {}, __getitem__: () => PathLike });
const os = {
  $isModule: true, path, PathLike, fspath: name => textOf(name), environ: new Dict(), devnull: '/dev/null', sep: '/', linesep: '\n', O_RDONLY: 0, O_WRONLY: 1,
  makedirs: () => null, mkdir: () => null, unlink: name => files.delete(named(name)), remove: name => files.delete(named(name)), getcwd: () => '/',
  stat: name => { read(name); return { st_mode: 0, st_mtime_ns: 0, st_size: read(name).length }; },
};
const PATH = Symbol('path');
/** @param {...any} parts */
const Path = (...parts) => new PathOf(named(path.join(...parts)) || '.');
class PathOf {
  constructor(text) { this.text = text; this[PATH] = true; }
  __fspath__() { return this.text; }
  __str__() { return this.text; }
  __eq__(other) { return other[PATH] && other.text === this.text; }
  $key() { return `\0p${this.text}`; }
  __truediv__(name) { return Path(this.text, textOf(name)); }
  get name() { return base(this.text); }
  get stem() { return path.splitext(base(this.text))[0]; }
  get suffix() { return path.splitext(base(this.text))[1]; }
  get parent() { return Path(folder(this.text) || '.'); }
  get parents() {
    const found = [];
    for (let at = folder(this.text); at && at !== '/'; at = folder(at)) found.push(new PathOf(at));
    return [...found, new PathOf('/')];
  }
  resolve() { return this; }
  exists() { return files.has(this.text); }
  is_file() { return files.has(this.text); }
  mkdir() { return null; }
  read_text() { return OF_BYTES.decode(new Bytes(read(this.text))); }
  read_bytes() { return new Bytes(read(this.text)); }
  write_text(text) { write(this.text, OF_TEXT.encode(text).s); }
  write_bytes(data) { write(this.text, data.s); }
}

let lastFolder = 0;
const fresh = () => `/tmp/${++lastFolder}`;
/** A folder of files that go when it is left. */
class TemporaryFolder {
  constructor() { this.name = fresh(); }
  __enter__() { return this.name; }
  __exit__() { for (const name of [...files.keys()]) if (name.startsWith(`${this.name}/`)) files.delete(name); }
}
class TemporaryFile extends File {
  constructor(suffix) { super(fresh() + suffix, 'wb'); }
  __exit__() { files.delete(this.name); }
}
const tempfile = {
  TemporaryDirectory: () => new TemporaryFolder(),
  NamedTemporaryFile: (...given) => new TemporaryFile(takeNamed(given).suffix || ''),
};

// ---- sys, subprocess

/** What is printed, kept as a text. */
export class Output {
  constructor() { this.parts = []; }
  write(text) { this.parts.push(text); }
  writelines(parts) { for (const part of parts) this.parts.push(part); }
  flush() {}
  take() { return this.parts.splice(0).join(''); }
}
export const stdout = new Output();
export const stderr = new Output();
printed.stdout = stdout;
const sys = { $isModule: true, stdout, stderr, stdin: null, argv: ['cell'], path: [], version_info: tupleOf(3, 11), exit: fail };

/** How a program's words begin for the engine. */
const PROGRAMS = {
  [`${TOOLS}/crates/cell_cli/out/cell_cli`]: [], [`${TOOLS}/crates/hunt/out/hunt`]: ['hunt'], [`${TOOLS}/crates/run_trace/out/run_trace`]: ['trace'],
};
const SHOWN = /^(?:cell|hunt|run_trace): /, RUN = /^run_trace: /; // a run is made by run_trace, and `cell` says the same of a file

/** What answers for the programs: words and files in, a text and a status out. */
export const programs = { engine: /** @type {import('../engine.js').Engine | null} */ (null) };

/** What a program answers, asked by its words: it gets the files that they name and those that a machine file may name. */
function answered(command) {
  const words = command.map(textOf), lead = PROGRAMS[words[0]];
  if (words[0] === `${TOOLS}/tools/launch`) return { returncode: 0, stdout: new Bytes(''), stderr: new Bytes('') };
  if (!lead || !programs.engine) throw exceptions.FileNotFoundError(ABSENT, 'No such program', words[0]);
  const { text: told, status } = programs.engine.ask([...lead, ...words.slice(1)], filesFor(words));
  const text = words[1] === 'run' ? told.replace(RUN, 'cell: ') : told;
  const is_said = SHOWN.test(OF_BYTES.decode(new Bytes(text)));
  return { returncode: status, stdout: new Bytes(is_said ? '' : text), stderr: new Bytes(is_said ? text : '') };
}
/** Temporary files are many; of these only those that are named. */
function filesFor(words) {
  const wanted = new Set(words.map(named)), found = /** @type {Record<string, Uint8Array>} */ (Object.create(null)); // a file may be called __proto__
  if (wanted.has(os.devnull)) found[os.devnull] = new Uint8Array();
  for (const [name, text] of files) {
    if (wanted.has(name) || !name.startsWith('/')) found[words.find(word => named(word) === name) || name] = unlatin(text);
  }
  return found;
}
function run(command, ...given) {
  const { text, encoding } = takeNamed(given), done = answered(command);
  const out = text || encoding ? value => OF_BYTES.decode(value) : value => value;
  return { returncode: done.returncode, stdout: out(done.stdout), stderr: out(done.stderr) };
}

export const FILES = {
  os, 'os.path': path, pathlib: { Path, PurePath: Path }, tempfile, sys, subprocess: { run, DEVNULL: null, PIPE: null },
  _signal: { SIG_DFL: 0, SIGINT: 2, signal: () => null },
};
