// @ts-check
// Questions to a worker. A question that takes too long, or that the user stops, ends its worker, and a new one takes its place.

/** Why there is no answer. */
export class Unanswered extends Error {}

/** A worker with its questions. */
export class Asker {
  /**
   * @param {string} script
   * @param {WebAssembly.Module} engine
   * @param {() => void} [changed] is called when a question is asked and when none is left
   * @param {() => number} [seconds] that a question may take
   */
  constructor(script, engine, changed = () => {}, seconds = () => Infinity) {
    this.changed = changed;
    this.seconds = seconds;
    this.address = URL.createObjectURL(new Blob([script], { type: 'text/javascript' }));
    this.engine = engine;
    /** @type {Map<number, { answer: (value: any) => void, refuse: (why: Error) => void, timer: number | undefined }>} */
    this.open = new Map();
    this.number = 0;
    this.worker = this.start();
  }
  start() {
    const worker = new Worker(this.address);
    worker.postMessage({ engine: this.engine });
    worker.onmessage = ({ data }) => this.take(data);
    worker.onerror = event => this.stop(`the page has an error: ${event.message}`);
    return worker;
  }
  get isBusy() { return this.open.size > 0; }

  /** @param {string} asked @param {...any} given @returns {Promise<any>} */
  ask(asked, ...given) {
    const id = ++this.number;
    return new Promise((answer, refuse) => {
      const most = this.seconds();
      const timer = most < Infinity ? setTimeout(() => this.stop(`it took more than ${most} seconds and was stopped`), most * 1000) : undefined;
      this.open.set(id, { answer, refuse, timer });
      this.changed();
      this.worker.postMessage({ id, asked, given });
    });
  }
  take({ id, answer, refused }) {
    const question = this.open.get(id);
    if (!question) return;
    this.open.delete(id);
    clearTimeout(question.timer);
    this.changed();
    if (refused === undefined) question.answer(answer);
    else question.refuse(new Unanswered(refused));
  }
  /** Ends the worker with all its questions; another takes its place. @param {string} why */
  stop(why) {
    this.end(why);
    this.worker = this.start();
    this.changed();
  }
  /** Ends the worker with all its questions. @param {string} why */
  end(why) {
    this.worker.terminate();
    const left = [...this.open.values()];
    this.open.clear();
    for (const { timer, refuse } of left) {
      clearTimeout(timer);
      refuse(new Unanswered(why));
    }
  }
}
