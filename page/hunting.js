// @ts-check
// A hunt in parts, over as many workers as the machine has cores. What was found so far is there at any time, also if the hunt is stopped.
import { Unanswered } from './asking.js';
import { NO_ZEROS } from './outcome.js';
import { Sum } from './sums.js';

/** @typedef {import('./asking.js').Asker} Asker @typedef {import('./telling.js').Project} Project */

const PART = 250, LEAST = 50; // milliseconds that a part should take, so that little is lost at a stop, and at least, so that there are few
const FIRST_PART = 2, GROWTH = 4, MOST_RUNS = 20_000; // runs of a part: the first, how much more the next may have, and the most
const ALONE = 300; // milliseconds before the other workers begin, if so much is left then: a short hunt is over sooner without them

export class Hunting {
  /**
   * @param {() => Asker} begin begins a worker, whose questions have no time limit
   * @param {number} cores how many workers at most
   */
  constructor(begin, cores) {
    this.begin = begin;
    this.cores = Math.max(1, cores);
    /** @type {Asker[]} */
    this.askers = [];
    this.isMaking = this.isLooking = false; // whether runs are made, and whether some are looked at again
    this.why = ''; // why the runs are stopped
    this.refusal = ''; // of a part
    this.next = this.asked = this.working = 0;
    this.size = FIRST_PART; // runs of the next part
    this.perRun = Infinity; // milliseconds that a run took in the last part
    this.sum = new Sum();
  }
  /** The worker of a number. @param {number} k */
  asker(k) {
    while (this.askers.length <= k) this.askers.push(this.begin());
    return this.askers[k];
  }
  /** Makes runs whose answer nobody needs, so that the browser makes the code fast. @param {Project} project @param {number} runs */
  warmUp(project, runs) {
    this.asker(0).ask('huntPart', project, 0, runs).catch(() => {});
    this.asker(0).ask('zerosOf', project, []).catch(() => {});
  }

  /**
   * Makes the runs from 0 on. The answer is there at the end, at a stop, or when the seconds are over: the sum of the parts that are done, and why there aren't
   * more, or ''. It is refused if no part is done.
   * @param {Project} project @param {number} runs @param {number} seconds @param {(sum: Sum) => void} progress is called after each part
   */
  async hunt(project, runs, seconds, progress) {
    Object.assign(this, { isMaking: true, why: '', refusal: '', next: 0, asked: runs, working: 1, size: FIRST_PART, perRun: Infinity, sum: new Sum() });
    const timer = this.limit(seconds), works = [this.work(this.asker(0), project, progress)];
    const others = setTimeout(() => {
      const left = runs - this.next;
      if (this.why || left * this.perRun < ALONE) return;
      this.working = Math.min(this.cores, left + 1);
      for (let k = 1; k < this.working; k++) works.push(this.work(this.asker(k), project, progress));
    }, ALONE);
    for (let k = 0; k < works.length; k++) await works[k]; // others may have begun meanwhile
    clearTimeout(others);
    clearTimeout(timer);
    this.isMaking = false;
    if (!this.sum.runs) throw new Unanswered(this.refusal || `the hunt ended before a run did: ${this.why}`);
    return { sum: this.sum, why: this.why };
  }
  /** Makes parts one after the other in a worker. @param {Asker} asker @param {Project} project @param {(sum: Sum) => void} progress */
  async work(asker, project, progress) {
    const { sum } = this;
    while (!this.why && this.next < this.asked) {
      const from = this.next, runs = this.partSize(), begun = performance.now();
      this.next += runs;
      try {
        const part = await asker.ask('huntPart', project, from, runs);
        if (this.why) return;
        sum.add(part);
      } catch (thrown) {
        if (!this.why) this.refusal = thrown.message;
        this.stop(thrown.message);
        return;
      }
      this.perRun = Math.max(0.001, (performance.now() - begun) / runs);
      this.size = Math.max(1, Math.min(Math.round(PART / this.perRun), runs * GROWTH, MOST_RUNS));
      progress(sum);
    }
  }
  /** How many runs the next part has: at the end fewer, so that all workers end at one time. */
  partSize() {
    const left = this.asked - this.next, share = Math.max(Math.ceil(left / this.working), Math.round(LEAST / this.perRun));
    return Math.max(1, Math.min(left, this.size, share));
  }
  /** The runs of a sum in which an SPU ran into zeros; none if it takes too long to find them. @param {Project} project @param {Sum} sum @param {number} seconds */
  async zeros(project, sum, seconds) {
    this.isLooking = true;
    const timer = this.limit(seconds);
    try {
      return /** @type {import('./outcome.js').Zeros} */ (await this.asker(0).ask('zerosOf', project, sum.of('end')));
    } catch (why) {
      if (!(why instanceof Unanswered)) throw why;
      return NO_ZEROS;
    } finally {
      clearTimeout(timer);
      this.isLooking = false;
    }
  }
  /** Stops it when the seconds are over. @param {number} seconds */
  limit(seconds) {
    return setTimeout(() => this.stop(`it took more than ${seconds} seconds`), seconds * 1000);
  }
  get isBusy() { return this.isMaking || this.isLooking; }
  /** Ends what is under way. @param {string} why in words for the user */
  stop(why) {
    if (!this.isLooking && (!this.isMaking || this.why)) return;
    if (this.isMaking) this.why = why;
    const [first, ...others] = this.askers.splice(0);
    for (const asker of others) asker.end(why);
    if (first.isBusy) first.stop(why);
    this.askers.push(first);
  }
}
