// @ts-check
// The worker: takes the engine first, then answers one question after the other.
import { ModuleEngine } from './engine.js';
import { programs } from './python/files.js';
import { Refusal, ask, check, ending, faults, huntPart, orders, picture, run, runOfHunt, step, tool, zerosOf } from './telling.js';

/** @type {Record<string, (...given: any[]) => any>} */
const ANSWERS = { faults, run, huntPart, zerosOf, runOfHunt, ending, check, picture, orders, step, ask, tool };

/** @param {{ data: { engine?: WebAssembly.Module, id: number, asked: string, given: any[] } }} message */
onmessage = ({ data }) => {
  if (data.engine) {
    programs.engine = new ModuleEngine(data.engine);
    return;
  }
  const { id, asked, given } = data;
  try {
    postMessage({ id, answer: ANSWERS[asked](...given) });
  } catch (thrown) {
    const { name, message } = /** @type {Error} */ (thrown);
    postMessage({ id, refused: thrown instanceof Refusal ? message : `the page has an error: ${name || ''} ${message || thrown}` });
  }
};
