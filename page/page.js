// @ts-check
// The page: what the user opens, and what is done with it.
import { Asker, Unanswered } from './asking.js';
import { asOneStop, byId, make, say, takeStop, wireStops, withCode } from './dom.js';
import { Editor } from './editor.js';
import { Hunting } from './hunting.js';
import { NO_ZEROS } from './outcome.js';
import { LinkError, bytesOf, linkOf, programIn, tooLarge, unpacked } from './packing.js';
import { Results } from './results.js';
import { LINK, Work, sourcesOf } from './work.js';
import { linked } from './words.js';

/**
 * @typedef {{ id: string, title: string, words: string[], mends: string, mended: string | null, machine: string, files?: Record<string, string> }} Example
 * @typedef {{ groups: { title: string, examples: Example[] }[], files: Record<string, string>, start: string }} Library
 */
const MOST_LINK = 2_000_000; // characters of an address
const TYPING = 350; // milliseconds behind the last key
const SHOWN = 300; // milliseconds before it is said that something is done
const NARROW = '(max-width:1150px)'; // where what comes out stands below the program, as page.css has it
const IDLE = 500, WARMING = 300; // milliseconds before the engine is warmed up, and by how many runs
const DOERS = ['run', 'check'];
const REDRAWN = 100; // milliseconds between two drawings of how far a hunt is

const textOf = id => byId(id).textContent.trim();
/** @typedef {import('./telling.js').Project} Project */
/** @type {Library} */
const library = JSON.parse(textOf('library'));
const examples = new Map(library.groups.flatMap(({ examples: found }) => found.map(example => [example.id, example])));
const exampleOf = id => /** @type {Example} */ (examples.get(id));
let opened = /** @type {Example | null} */ (null), stamp = 0, typing = 0, waiting = 0, busy = false;
/** @type {Asker} */ let asker;
/** @type {Asker} */ let checker;
/** @type {Hunting} */ let hunting;

const editor = new Editor(onChange);
const work = new Work({
  kept: is_kept => { byId('unkept').hidden = is_kept; },
  replaced: program => { if (program === editor.opened) { editor.refresh(); afterChange(); } },
});
const ask = (asked, ...given) => asker.ask(asked, ...given);
const results = new Results(ask, {
  show: (file, line) => editor.show(file, line), mark: marks => editor.setMarks(marks), openRun: (number, panel) => runOfHunt(number, panel),
});

// ---- what is opened

/** The program of an example. @param {Example} example @returns {Project} */
function programOf(example) {
  const { machine, files } = example;
  if (files) return { machine, files };
  const text = library.files[machine];
  return { machine, files: Object.fromEntries([machine, ...sourcesOf(text)].map(name => [name, library.files[name]])) };
}
/** @param {Example} example */
function open(example) {
  opened = example;
  editor.open(work.program(example.id, programOf(example)));
  drawOpened();
}
/** Opens an example that was chosen, so that the browser's button goes back to the one before. @param {string} id */
function choose(id) {
  history.pushState(null, '', `#${id}`);
  return openAddress();
}
/** Opens the program of a link, which is in the list from then on. @param {string} id */
async function openLink(id) {
  try {
    const project = await programIn(id.slice(LINK.length));
    if (addressPart() !== id) return; // another was chosen since
    examples.set(id, { id, title: `A program from a link: ${titleOf(project.machine)}`, words: [], mends: '', mended: null, ...project });
    open(exampleOf(id));
    drawList();
    drawCurrent();
  } catch (why) {
    if (!(why instanceof LinkError)) throw why;
    if (!opened) open(exampleOf(library.start));
    refuse(why.message);
  }
}
/** @param {string} machine the name of a machine file */
const titleOf = machine => machine.slice(machine.lastIndexOf('/') + 1);
const isChanged = () => editor.opened !== null && editor.opened.isChanged;
/** Puts the program back as it was given, or its changes back into it. @param {'reset' | 'bringBack'} act */
function putBack(act) {
  const program = /** @type {import('./work.js').Program} */ (editor.opened);
  editor.view?.keepPlace();
  program[act]();
  work.touch(program);
  editor.refresh();
  afterChange();
  drawPutBack();
  byId(act === 'reset' ? 'bring-back' : 'restore').focus(); // the other button may be hidden now
}
/** Shows the buttons that put the program back. */
function drawPutBack() {
  byId('restore').hidden = !isChanged();
  byId('bring-back').hidden = !(editor.opened && editor.opened.hasDropped);
}
/** Whether a program is another one than that of the editor. @param {Project} project */
const isAnother = project => JSON.stringify(project) !== JSON.stringify(editor.program);

/** Draws what is told of the program that is open. */
function drawOpened() {
  const { id, title, words, mends, mended } = /** @type {Example} */ (opened);
  if (hunting) hunting.stop('another program is open');
  results.close();
  drawPutBack();
  drawCurrent();
  const button = mended && examples.has(mended) ? [' ', make('button', { onclick: () => choose(mended) }, 'Open the fixed program')] : [];
  byId('lesson').replaceChildren(make('h2', {}, title), ...words.map(text => make('p', {}, ...withCode(text))),
    ...(mends ? [make('details', {}, make('summary', {}, 'What mends it'), make('p', {}, ...withCode(mends), ...button))] : []));
  document.title = `${title} - cell`;
  check();
}
/** Marks the program that is open in the list. */
function drawCurrent() {
  for (const link of document.querySelectorAll('#list a')) {
    link.removeAttribute('aria-current');
    if (!opened || link.getAttribute('href') !== `#${opened.id}`) continue;
    link.setAttribute('aria-current', 'page');
    takeStop(byId('list'), 'a', link);
    link.scrollIntoView({ block: 'nearest' });
  }
}
function drawList() {
  const item = ({ id, title }) => make('li', {}, make('a', { href: `#${id}`, tabindex: '-1' }, title)), { links } = work;
  const own = links.length ? [{ title: 'From links', examples: numbered(links) }] : [];
  const groups = [...own, ...library.groups.filter(({ title }) => title)];
  byId('list').replaceChildren(...groups.map(({ title, examples: found }) => make('section', {}, make('h2', {}, title), make('ul', {}, ...found.map(item)))));
  asOneStop(byId('list'), 'a');
}
/** Programs from links with their titles: the name of the machine file, with a number if several have it. @param {{ id: string, machine: string }[]} links */
function numbered(links) {
  const before = new Map();
  return links.map(({ id, machine }) => {
    const name = titleOf(machine), number = (before.get(name) || 0) + 1;
    before.set(name, number);
    return { id, title: number > 1 ? `${name} (${number})` : name };
  });
}
function showList(is_shown) {
  document.body.classList.toggle('listing', is_shown);
  byId('list-button').setAttribute('aria-expanded', String(is_shown));
}

// ---- what the user changes

function onChange() {
  work.touch(/** @type {import('./work.js').Program} */ (editor.opened));
  byId('restore').hidden = false;
  afterChange();
}
function afterChange() {
  clearTimeout(typing);
  typing = setTimeout(check, TYPING);
  results.growStale();
}
/** Looks for faulty lines. */
async function check() {
  clearTimeout(typing);
  drawPutBack();
  if (!checker) return;
  if (checker.isBusy) checker.stop('another text is there');
  const program = editor.program;
  try {
    const faults = await checker.ask('faults', program);
    editor.setFaults(faults);
    const wrong = faults.filter(({ is_warning }) => !is_warning).length;
    byId('faults-said').textContent = wrong ? `${wrong} faulty ${wrong === 1 ? 'line' : 'lines'}` : '';
  } catch (why) {
    if (!(why instanceof Unanswered)) throw why;
  }
}

// ---- what is done

/** Makes one run at a time, and says why it can't be made. A hunt may be under way meanwhile. @param {() => Promise<void>} act */
async function doing(act) {
  if (busy || !asker) return;
  setBusy(true);
  try {
    await act();
  } catch (why) {
    if (!(why instanceof Unanswered)) throw why;
    refuse(why.message);
  } finally {
    setBusy(false);
    toResults();
  }
}
/** Scrolls to the results if they are below the program. */
function toResults() {
  if (matchMedia(NARROW).matches) byId('results').scrollIntoView({ block: 'start' });
}
/** Marks the buttons that wait for each other; they keep the keyboard. @param {boolean} is_busy */
function setBusy(is_busy) {
  busy = is_busy;
  for (const id of DOERS) byId(id).setAttribute('aria-disabled', String(is_busy));
}
const isAtWork = () => asker.isBusy || hunting.isBusy;
/** Shows that something takes a while, and the button that stops it. */
function showBusy() {
  clearTimeout(waiting);
  const show = () => { byId('busy').textContent = isAtWork() ? 'working …' : ''; byId('stop').hidden = !isAtWork(); };
  byId('hunt-runs').setAttribute('aria-disabled', String(hunting.isMaking));
  if (isAtWork() && byId('stop').hidden) waiting = setTimeout(show, SHOWN);
  else show();
}
/** Stops what is at work. A hunt that is stopped reports what it found. */
function stop() {
  hunting.stop('stopped');
  if (asker.isBusy) asker.stop('stopped');
  byId('run').focus();
}
/** Says why there is no result. What is open stays open under its tabs. @param {string} why */
function refuse(why) {
  const ways = { files: editor.names, toLine: (file, line) => editor.show(file, line), toStep: null };
  byId('nothing').replaceChildren(...why.split('\n').map(line => make('p', { class: 'refused' }, ...linked(line, ways))));
  results.showNothing();
  say(why);
}
/** Opens a run of a program, which may have changed while it was made. @param {string} record @param {string} title @param {Project} project */
function take(record, title, project) {
  results.take({ project, record, stamp: ++stamp }, title);
  results.isRunStale = isAnother(project);
}
const run = () => doing(async () => {
  const project = editor.program;
  take(await ask('run', project), 'The run', project);
  await results.show('result');
});
const checkRun = () => doing(async () => {
  const project = editor.program;
  if (!results.made || results.isRunStale) take(await ask('run', project), 'The run', project);
  await results.show('race');
});
/** Hunts while the open run stays open. */
async function hunt() {
  if (!hunting || hunting.isMaking) return;
  hunting.stop('another hunt begins');
  const project = editor.program, asked = Math.max(1, Math.min(1_000_000, Math.floor(+byId('runs').value) || 200));
  byId('runs').value = String(asked);
  results.huntBegins(project, asked);
  toResults();
  let drawn = 0;
  const progress = sum => {
    if (performance.now() - drawn < REDRAWN || results.hunt?.project !== project) return;
    drawn = performance.now();
    results.huntGoesOn(sum, asked);
  };
  try {
    const seconds = Number(document.body.dataset.seconds), making = hunting.hunt(project, asked, seconds, progress);
    showBusy();
    const { sum, why } = await making, isOpen = () => results.hunt?.project === project;
    if (why && isOpen()) results.hunted({ project, sum, asked, why, zeros: NO_ZEROS }); // at once
    const zeros = isOpen() ? await hunting.zeros(project, sum, seconds) : null;
    if (zeros && isOpen()) results.hunted({ project, sum, asked, why, zeros });
  } catch (why) {
    if (!(why instanceof Unanswered)) throw why;
    if (results.hunt?.project !== project) return; // another program is open
    results.huntFails();
    refuse(why.message);
  } finally {
    showBusy();
  }
}
/** Opens a run of the hunt. @param {number} number @param {string} panel */
const runOfHunt = (number, panel) => doing(async () => {
  const { project } = /** @type {{ project: Project }} */ (results.hunt);
  take(await ask('runOfHunt', project, number), `Run ${number}`, project);
  await results.show(panel);
  byId(`tab-${panel}`).focus();
});

async function share() {
  const project = editor.program, why = tooLarge(project), link = why ? '' : `${location.href.split('#')[0]}#${LINK}${await linkOf(project)}`;
  byId('link').value = link;
  byId('link-row').hidden = false;
  if (why || link.length > MOST_LINK) {
    byId('link-said').textContent = why || `this link has ${link.length} characters, but browsers open at most ${MOST_LINK}: shorten the files`;
    return;
  }
  byId('link').select();
  try {
    await navigator.clipboard.writeText(link);
    byId('link-said').textContent = 'copied: it holds the whole program';
  } catch {
    byId('link-said').textContent = 'copy it: it holds the whole program';
  }
}
function toggleTheme() {
  const root = document.documentElement, is_dark = root.dataset.theme ? root.dataset.theme === 'dark' : matchMedia('(prefers-color-scheme: dark)').matches;
  root.dataset.theme = is_dark ? 'light' : 'dark';
  results.theme();
}
/** The part of the address behind #. */
function addressPart() {
  try {
    return decodeURIComponent(location.hash.slice(1));
  } catch {
    return 'program='; // a link that was cut
  }
}
/** Opens what the address asks for. */
async function openAddress() {
  const part = addressPart();
  if (part.startsWith(LINK)) await openLink(part);
  else open(examples.get(part) || exampleOf(library.start));
}

function wire() {
  byId('run').onclick = run;
  byId('check').onclick = checkRun;
  byId('hunt-runs').onclick = hunt;
  byId('stop').onclick = stop;
  byId('share').onclick = share;
  byId('theme').onclick = toggleTheme;
  byId('restore').onclick = () => putBack('reset');
  byId('bring-back').onclick = () => putBack('bringBack');
  byId('list').onclick = event => {
    const link = event.target.closest('a');
    if (!link) return;
    event.preventDefault();
    choose(link.getAttribute('href').slice(1));
    if (document.body.classList.contains('listing')) byId('lesson').focus();
    showList(false);
  };
  wireStops(byId('list'), 'a');
  byId('skip').onclick = event => { event.preventDefault(); editor.view?.text.focus(); };
  byId('list-button').onclick = () => showList(!document.body.classList.contains('listing'));
  byId('wide').onclick = () => byId('wide').setAttribute('aria-pressed', String(document.body.classList.toggle('wide')));
  addEventListener('hashchange', openAddress);
  addEventListener('keydown', event => {
    if (event.key === 'Escape') showList(false);
    if (event.key !== 'Enter' || !(event.ctrlKey || event.metaKey)) return;
    event.preventDefault();
    if (event.shiftKey) hunt();
    else checkRun();
  });
}

async function start() {
  drawList();
  wire();
  await openAddress();
  const [engine, script] = await Promise.all([unpacked(bytesOf(textOf('engine'))), unpacked(bytesOf(textOf('worker')))]);
  const module = await WebAssembly.compile(engine), code = new TextDecoder().decode(script);
  const seconds = () => Number(document.body.dataset.seconds);
  hunting = new Hunting(() => new Asker(code, module), navigator.hardwareConcurrency || 1);
  asker = new Asker(code, module, showBusy, seconds);
  checker = new Asker(code, module, undefined, seconds);
  document.body.dataset.ready = 'true';
  await check();
  setTimeout(warmUp, IDLE);
}
/** Warms the engine up. Its code is one in all workers. */
function warmUp() {
  if (!hunting.isBusy) hunting.warmUp(programOf(exampleOf(library.start)), WARMING);
}
start().catch(why => refuse(`this browser cannot run the emulator: ${why.message || why}`));
