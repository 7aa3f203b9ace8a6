// @ts-check
// The results, under tabs: the end of a run, its race, its steps, its picture, both orders of the race, and the findings of a hunt.
import { asTabs, byId, make, markTab, say } from './dom.js';
import { outcomeOf, outcomeOfHunt } from './outcome.js';
import { coverageLine, endLines, findingLines, headOf, unexecutedLines } from './report.js';
import { itemOf, linked, placesIn } from './words.js';

/**
 * @typedef {import('./telling.js').Made} Made @typedef {import('./telling.js').Project} Project @typedef {import('./words.js').Ways} Ways
 * @typedef {import('./outcome.js').Ending} Ending @typedef {import('./outcome.js').Outcome} Outcome
 * @typedef {{ file: string, line: number, kind: string }} Mark
 * @typedef {object} HuntResult a hunt that has ended
 * @property {Project} project
 * @property {import('./sums.js').Sum} sum
 * @property {number} asked how many runs were asked for
 * @property {string} why there are fewer, or ''
 * @property {import('./outcome.js').Zeros} zeros
 */

/**
 * @typedef {object} Page what the page does for the results
 * @property {(file: string, line: number) => void} show
 * @property {(marks: Mark[]) => void} mark
 * @property {(number: number, panel: string) => void} openRun
 */

const statesOf = (text, label = 'the states') => make('pre', { tabindex: '0', 'aria-label': label }, text);
const count = new Intl.NumberFormat('en').format;

/** The panels. All but `hunt` are drawn for the open run, by the method of the same name. */
const PANELS = ['result', 'race', 'steps', 'picture', 'orders', 'hunt'];
const ENDED = { Stuck: 'deadlock', Budget: 'its budget is spent', AllStopped: 'all SPUs have stopped' };

export class Results {
  /**
   * @param {(asked: string, ...given: any[]) => Promise<any>} ask
   * @param {Page} page
   */
  constructor(ask, page) {
    this.ask = ask;
    this.page = page;
    this.made = /** @type {Made | null} */ (null);
    this.title = '';
    this.ended = /** @type {Ending | null} */ (null);
    this.pair = /** @type {number[] | null | undefined} */ (undefined); // the steps of its race; undefined until it is checked
    this.drawn = new Set(); // the panels that are drawn for this run
    this.panel = '';
    this.marks = /** @type {Record<string, Mark[]>} */ ({}); // of each panel
    this.hunt = /** @type {{ project: Project, outcome: Outcome | null } | null} */ (null);
    this.isRunStale = this.isHuntStale = false; // whether the program was changed since
    this.place = 0;
    this.count = 0;
    this.isStepping = false;
    this.areStatesOpen = true;
    asTabs(byId('views'), tab => this.show(tab.dataset.panel || ''));
    this.wireSteps();
  }
  /** @returns {Ways} */
  get ways() {
    return { files: this.made ? Object.keys(this.made.project.files) : [], toLine: this.page.show, toStep: this.made ? step => this.toStep(step + 1) : null };
  }

  /** Opens a run in place of the one before. @param {Made | null} made @param {string} title */
  take(made, title) {
    Object.assign(this, { made, title, ended: null, pair: undefined, place: -1, count: 0, isRunStale: false, marks: {} });
    this.drawn.clear();
    byId('frame').removeAttribute('srcdoc');
    for (const panel of PANELS) if (panel !== 'hunt') byId(`tab-${panel}`).disabled = !made || panel === 'orders';
    for (const panel of ['result', 'race', 'step', 'orders']) byId(panel).replaceChildren();
    this.page.mark([]);
    if (!made) this.showNothing();
  }
  /** Closes the run and the hunt. */
  close() {
    this.take(null, '');
    this.hunt = null;
    byId('tab-hunt').disabled = true;
    byId('hunt').replaceChildren();
  }
  /** Shows no panel; what is open can be shown again by its tab. */
  showNothing() {
    this.panel = '';
    for (const panel of PANELS) byId(panel).hidden = true;
    markTab(byId('views'), null);
    byId('nothing').hidden = false;
    this.drawHead();
  }
  /** Marks the results as those of an earlier text of the program. Their marks may stand at other lines now. */
  growStale() {
    this.isRunStale = this.isHuntStale = true;
    this.marks = {};
    this.drawHead();
  }
  /** Shows the outcome of the run or of the hunt, and whether the program was changed since, by the panel that is shown. */
  drawHead() {
    const isHunt = this.panel === 'hunt', ofRun = this.panel && this.ended ? outcomeOf(this.ended, this.pair) : null;
    const outcome = isHunt ? this.hunt && this.hunt.outcome : ofRun;
    byId('verdict').hidden = !outcome;
    byId('verdict').className = outcome ? outcome.kind : '';
    byId('verdict').textContent = outcome ? outcome.text : '';
    byId('stale').hidden = !(isHunt ? this.hunt && this.isHuntStale : this.panel && this.isRunStale);
  }
  /** Takes the end of the open run, and its race once it is checked. @param {Ending} ended @param {number[] | null} [pair] */
  takeEnd(ended, pair) {
    this.ended = ended;
    if (pair !== undefined) this.pair = pair;
    this.drawHead();
    return outcomeOf(ended, this.pair);
  }
  /** Shows a panel, which is drawn when it is first shown. @param {string} panel */
  async show(panel) {
    const tab = byId(`tab-${panel}`);
    if (!tab || tab.disabled) return;
    markTab(byId('views'), tab);
    this.panel = panel;
    for (const name of PANELS) byId(name).hidden = name !== panel;
    byId('nothing').hidden = true;
    this.page.mark(this.marks[panel] || []);
    this.drawHead();
    if (this.made && !this.drawn.has(panel) && panel !== 'hunt') {
      this.drawn.add(panel);
      const made = this.made;
      try {
        await this[panel](made);
      } catch (why) {
        this.drawn.delete(panel);
        if (made === this.made) this.refuse(why.message, panel);
      }
    }
  }
  /** Marks lines as long as a panel is shown. @param {string} panel @param {Mark[]} marks */
  mark(panel, marks) {
    if (this.isRunStale) return;
    this.marks[panel] = marks;
    if (this.panel === panel) this.page.mark(marks);
  }
  /** Says in a panel why it has nothing. @param {string} why @param {string} panel */
  refuse(why, panel) {
    const place = panel === 'steps' ? byId('step') : panel === 'picture' ? byId('picture-said') : byId(panel);
    place.replaceChildren(...why.split('\n').map(line => make('p', { class: 'refused' }, ...linked(line, this.ways))));
    say(why);
  }

  // ---- how it ended

  async result(made) {
    const { ended, states, waits } = await this.ask('ending', made);
    if (made !== this.made) return;
    const outcome = this.takeEnd(ended);
    const said = `${this.title}: ${count(ended.steps)} steps, ${ENDED[ended.word] || ''} (${ended.word}).`;
    const told = waits.length ? [make('h3', {}, 'SPUs that wait, failed or stopped'), make('ul', {}, ...waits.map(line => itemOf(line, this.ways)))] : [];
    byId('result').replaceChildren(make('p', {}, said), ...this.sentences(outcome), ...told,
      make('h3', {}, 'State of the machine'), statesOf(states.join('\n')));
    say(`${said} ${[...outcome.failures, ...outcome.warnings, ...waits].join('. ')}`);
  }
  /** The failures and warnings of a run. @param {Outcome} outcome */
  sentences({ failures, warnings }) {
    const list = (words, kind, found) => found.length ? [make('p', { class: kind }, ...linked(`${words}: ${found.join('; ')}.`, this.ways))] : [];
    return [...list('Ended badly', 'refused', failures), ...list('Warning', 'cautioned', warnings)];
  }

  // ---- its race

  async race(made) {
    const { ended, verdict, pair, words } = await this.ask('check', made);
    if (made !== this.made) return;
    const outcome = this.takeEnd(ended, pair), badly = this.sentences(outcome);
    const checked = words => make('p', {}, `${this.title} ${words}: check returns `, make('code', {}, verdict), '.');
    byId('tab-orders').disabled = !words.length;
    say([outcome.text, ...words.slice(0, 2).map(({ lines }) => lines.join(', '))].join('. '));
    if (!pair) {
      byId('race').replaceChildren(checked('has no data race'), ...badly,
        make('p', { class: 'dim' }, 'This holds for the steps of this run. Another run may take another path: Hunt makes many.'));
      return;
    }
    if (!words.length) {
      byId('race').replaceChildren(checked('has a data race'), make('p', {}, 'The run has too many steps to explain the race here.'), ...badly);
      return;
    }
    this.mark('race', [...placesIn(words[0].lines), ...placesIn(words[1].lines)].map(place => ({ ...place, kind: 'race' })));
    const section = ({ title, lines }, k) => make('section', { class: k < 2 ? 'card' : k === words.length - 1 ? 'card remedy' : '' },
      make('h3', {}, ...linked(title, this.ways)), make('ul', {}, ...lines.map(line => itemOf(line, this.ways))));
    const head = `${this.title} has a data race: these two steps touch the same byte, and neither happens before the other.`;
    byId('race').replaceChildren(make('p', {}, head), ...badly, ...words.map(section));
  }
  async orders(made) {
    const lines = await this.ask('orders', made);
    if (made !== this.made) return;
    const told = statesOf('', 'both orders of the race'), ways = { ...this.ways, toStep: null };
    told.append(...lines.flatMap(line => [...linked(line, ways), '\n']));
    const head = 'The two steps in either order, after the shortest run that leads to them, with the result of each.';
    byId('orders').replaceChildren(make('p', { class: 'dim' }, head), told);
  }

  // ---- its picture

  async picture(made) {
    byId('picture-said').textContent = 'drawing …';
    const html = await this.ask('picture', made);
    if (made !== this.made) return;
    const frame = byId('frame');
    frame.srcdoc = html.replace('<html lang="en">', '<html lang="en" class="within">');
    frame.onload = () => this.theme();
    byId('picture-said').textContent = '';
    byId('alone').onclick = () => window.open(URL.createObjectURL(new Blob([html], { type: 'text/html' })));
  }
  /** The picture is as dark or light as the page. */
  theme() {
    const { theme } = document.documentElement.dataset, inner = byId('frame').contentDocument;
    if (inner && inner.documentElement && theme) inner.documentElement.dataset.theme = theme;
  }

  // ---- its steps

  wireSteps() {
    byId('slider').oninput = event => this.toStep(+event.target.value);
    byId('back').onclick = () => this.toStep(this.place - 1);
    byId('on').onclick = () => this.toStep(this.place + 1);
    byId('first').onclick = () => this.toStep(0);
    byId('last').onclick = () => this.toStep(this.count);
    byId('place').onchange = event => this.toStep(+event.target.value || 0);
  }
  async steps() {
    await this.toStep(this.pair ? this.pair[1] : 0);
  }
  /** Goes to the state after so many steps. Of several that are asked for quickly the latest is shown. @param {number} place */
  async toStep(place) {
    const { made } = this;
    if (!made) return;
    this.place = Math.max(0, this.count ? Math.min(place, this.count) : place);
    byId('slider').value = byId('place').value = String(this.place);
    this.drawn.add('steps');
    if (byId('steps').hidden) await this.show('steps');
    if (this.isStepping) return;
    this.isStepping = true;
    try {
      for (let shown = -1; shown !== this.place && made === this.made;) {
        shown = this.place;
        const found = await this.ask('step', made, shown);
        if (made === this.made) this.drawStep(found);
        if (shown > found.count) this.place = shown = found.count;
      }
    } catch (why) {
      this.refuse(why.message, 'steps');
    }
    this.isStepping = false;
  }
  drawStep({ place, count: steps, last, next, states, lines }) {
    this.count = steps;
    byId('slider').max = byId('place').max = String(steps);
    byId('slider').value = byId('place').value = String(place);
    byId('slider').setAttribute('aria-valuetext', `after ${place} of ${steps} steps`);
    byId('of').textContent = `of ${count(steps)}`;
    byId('back').disabled = byId('first').disabled = place === 0;
    byId('on').disabled = byId('last').disabled = place === steps;
    this.mark('steps', lines.map(line => ({ ...line, kind: 'now' })));
    const ways = { ...this.ways, toStep: null }, list = found => make('ul', {}, ...found.map(line => itemOf(line, ways)));
    byId('step').replaceChildren(
      ...(last.length ? [make('h3', {}, 'Last step'), list(last)] : [make('h3', {}, 'No step is made yet')]),
      make('h3', {}, 'Possible next steps'), list(next),
      make('details', { open: this.areStatesOpen, ontoggle: event => { this.areStatesOpen = event.target.open; } },
        make('summary', {}, 'State of the machine'), statesOf(states)));
    say(last.length ? last[0] : 'no step is made yet');
  }

  // ---- a hunt

  /** Shows that a hunt began. The open run stays open. @param {Project} project @param {number} asked how many runs */
  huntBegins(project, asked) {
    this.hunt = { project, outcome: null };
    this.isHuntStale = false;
    byId('tab-hunt').disabled = false;
    byId('hunt').replaceChildren(make('p', {}, make('label', {}, 'Runs ', make('progress', { id: 'hunt-progress', max: asked, value: 0 })), ' ',
      make('span', { id: 'hunt-so-far' }, `0 of ${count(asked)}`)));
    this.show('hunt');
  }
  /** Shows how far a hunt is. @param {import('./sums.js').Sum} sum @param {number} asked */
  huntGoesOn(sum, asked) {
    const so_far = outcomeOfHunt({ made: sum.runs, asked, flaws: sum.flaws, zeros: 0 });
    byId('hunt-progress').value = sum.runs;
    byId('hunt-so-far').textContent = `${count(sum.runs)} of ${count(asked)}: ${so_far.failures.join('; ') || 'nothing found so far'}`;
  }
  /** Takes back that a hunt began which has nothing to report. */
  huntFails() {
    this.hunt = null;
    byId('tab-hunt').disabled = true;
    byId('hunt').replaceChildren();
  }
  /** Shows the report on a hunt. @param {HuntResult} result */
  hunted({ project, sum, asked, why, zeros }) {
    const outcome = outcomeOfHunt({ made: sum.runs, asked, flaws: sum.flaws, zeros: zeros.runs }), paragraph = (text, name) => make('p', { class: name }, text);
    this.hunt = { project, outcome };
    const list = (lines, name) => make('ul', { class: name }, ...lines.map(line => this.huntLine(line)));
    byId('hunt').replaceChildren(paragraph(headOf(sum, project.machine), 'found'),
      ...(why ? [paragraph(`Ended after ${count(sum.runs)} of ${count(asked)} runs: ${why}.`, 'cautioned')] : []),
      ...outcome.warnings.map(words => paragraph(`Warning: ${words}.`, 'cautioned')), list(zeros.lines.map(line => ({ kind: 'deeper', ...line })), 'hunted'),
      list(findingLines(sum), 'hunted'), list(endLines(sum), 'hunted'), paragraph(coverageLine(sum), ''),
      ...unexecutedLines(sum).map(text => make('p', {}, ...linked(text, { files: Object.keys(project.files), toLine: this.page.show, toStep: null }))),
      paragraph('Another run may do what none of these did.', 'dim'));
    this.drawHead();
    say(`${outcome.text}. ${why}`);
  }
  /** A line of the report, with a button for its run. @param {import('./report.js').Line} line */
  huntLine({ kind, text, run }) {
    const ways = { files: this.hunt ? Object.keys(this.hunt.project.files) : [], toLine: this.page.show, toStep: null };
    const open = () => this.page.openRun(Number(run), kind === 'race' ? 'race' : 'result');
    return make('li', { class: kind }, ...(run === null ? [] : [make('button', { class: 'show-run', onclick: open }, `Show run ${run}`), ' ']), ...linked(text.trim(), ways));
  }
}
