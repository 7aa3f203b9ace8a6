// @ts-check
// What the translated modules of the tools are given: all of the above, as `$`, and how one module finds another.
import * as values from './values.js';
import * as classes from './classes.js';
import * as operators from './operators.js';
import { builtins } from './builtins.js';
import { format, latin, repr, str } from './text.js';
import { re } from './patterns.js';
import { LIBRARY } from './library.js';
import { FILES, TOOLS, files, open, stdout } from './files.js';

/** The modules that aren't imported yet, and those that are. */
const waiting = new Map(), modules = new Map(Object.entries(/** @type {Record<string, any>} */ ({ ...LIBRARY, ...FILES, re })));
for (const found of modules.values()) if (!found.$isModule) found.$isModule = true;
// How a program of tools/ starts, reads its words and ends has no place here, nor how it writes files.
modules.set('celltools.common.starting', { $isModule: true });
modules.set('celltools.common.ending', { $isModule: true, end: () => null });
modules.set('celltools.common.words', { $isModule: true, Words: null, file_name: null, number: null, number_up_to: null });
modules.set('celltools.common.writing', { $isModule: true, write_whole: null });

/** Keeps a module until it is imported. */
function module(name, file, make) {
  waiting.set(name, { file, make });
}
/** A module by its name. @param {string} name */
export function importOf(name) {
  const known = modules.get(name), found = waiting.get(name);
  if (known || !found) return known || { $isModule: true };
  waiting.delete(name);
  const made = { $isModule: true };
  modules.set(name, made);
  return Object.assign(made, found.make(name, `${TOOLS}/${found.file}`));
}
/** What a module has under a name, or a module within it. */
function importFrom(name, part) {
  const found = importOf(name)[part];
  return found === undefined ? importOf(`${name}.${part}`) : found;
}

export const $ = {
  ...values, ...classes, ...operators, builtins: { ...builtins, open }, format, repr, str, set: found => new values.PySet(found),
  dictOf: found => new values.Dict(found), module, importOf, importFrom,
};

/** What is printed while something is done. @param {() => void} act */
export function printedBy(act) {
  stdout.take();
  act();
  return stdout.take();
}
/** Puts a file where the tools find it. @param {string} name @param {string | Uint8Array} text */
export function keep(name, text) {
  files.set(name, latin(typeof text === 'string' ? new TextEncoder().encode(text) : text));
}
export { files };
