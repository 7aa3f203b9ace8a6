// @ts-check
// Texts that are packed: those that the page holds, and the program in a link.

const { CompressionStream, DecompressionStream } = /** @type {any} */ (globalThis); // the types of older checkers lack them
const MOST_BYTES = 4_194_304; // of a file, as the programs take it
const MOST_UNPACKED = 33_554_432; // bytes of all that a link holds
const NO_PROGRAM = 'this link holds no program: it was cut off, or is not a link of this page';
const count = new Intl.NumberFormat('en').format;

/** @param {BlobPart} data
 * @param {TransformStream} by */
const through = (data, by) => new Response(new Blob([data]).stream().pipeThrough(by)).arrayBuffer();

/** Bytes from base 64.
 * @param {string} text */
export const bytesOf = text => Uint8Array.from(atob(text), character => character.charCodeAt(0));
/** What is deflated, unpacked.
 * @param {Uint8Array} data */
export const unpacked = async data => new Uint8Array(await through(data, new DecompressionStream('deflate')));

/** A program as a part of a link.
 * @param {import('./telling.js').Project} project */
export async function linkOf(project) {
  const data = new Uint8Array(await through(JSON.stringify({ m: project.machine, f: project.files }), new CompressionStream('deflate')));
  let text = '';
  for (const byte of data) text += String.fromCharCode(byte);
  return btoa(text).replaceAll('+', '-').replaceAll('/', '_').replace(/=+$/, '');
}
/** Why a link isn't opened, in words for the user. */
export class LinkError extends Error {}

/** What is deflated, unpacked; null as soon as it is more than a number of bytes.
 * @param {Uint8Array} data @param {number} most @returns {Promise<Uint8Array | null>} */
async function unpackedWithin(data, most) {
  const reader = new Blob([data]).stream().pipeThrough(new DecompressionStream('deflate')).getReader(), parts = [];
  let size = 0;
  for (let { done, value } = await reader.read(); !done; { done, value } = await reader.read()) {
    size += value.length;
    if (size > most) {
      reader.cancel().catch(() => {});
      return null;
    }
    parts.push(value);
  }
  return new Uint8Array(await new Blob(parts).arrayBuffer());
}
/** The program of a part of a link.
 * @param {string} part @returns {Promise<import('./telling.js').Project>} */
export async function programIn(part) {
  const data = await unpackedWithin(inflatable(part), MOST_UNPACKED).catch(() => { throw new LinkError(NO_PROGRAM); });
  if (!data) throw new LinkError(`this link is not opened: it unpacks to more than ${count(MOST_UNPACKED)} bytes, and a file has at most ${count(MOST_BYTES)}`);
  const { m, f } = parsed(data), project = { machine: m, files: f }, why = tooLarge(project);
  if (why) throw new LinkError(`${why}. The link isn't opened`);
  return project;
}
/** Which file of a program is larger than a file may be, in words; '' if none is.
 * @param {import('./telling.js').Project} project */
export function tooLarge(project) {
  const encoder = new TextEncoder();
  for (const [name, text] of Object.entries(project.files)) {
    const size = text.length > MOST_BYTES / 3 ? encoder.encode(text).length : text.length; // a character has at most 3 bytes
    if (size > MOST_BYTES) return `${name}: this file has ${count(size)} bytes, and a file has at most ${count(MOST_BYTES)}`;
  }
  return '';
}
/** @param {string} part */
function inflatable(part) {
  try {
    return bytesOf(part.replaceAll('-', '+').replaceAll('_', '/'));
  } catch {
    throw new LinkError(NO_PROGRAM);
  }
}
/** @param {Uint8Array} data
 * @returns {{ m: string, f: Record<string, string> }} */
function parsed(data) {
  try {
    const { m, f } = JSON.parse(new TextDecoder().decode(data));
    if (typeof m === 'string' && typeof f === 'object' && Object.values(f).every(text => typeof text === 'string') && Object.hasOwn(f, m)) return { m, f };
  } catch {
    // as one that holds something else
  }
  throw new LinkError(NO_PROGRAM);
}
