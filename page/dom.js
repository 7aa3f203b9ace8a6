// @ts-check
// Makes elements, and finds them.

/** @param {string} id @returns {any} */
export const byId = id => document.getElementById(id);

/**
 * An element with its attributes and what it holds; `on` and a name is what it does.
 * @param {string} name
 * @param {Record<string, any>} [attributes]
 * @param {...(Node | string)} held
 */
export function make(name, attributes = {}, ...held) {
  const made = document.createElement(name);
  for (const [key, value] of Object.entries(attributes)) {
    if (key.startsWith('on')) made.addEventListener(key.slice(2), value);
    else if (typeof value === 'boolean') made.toggleAttribute(key, value);
    else made.setAttribute(key, String(value));
  }
  made.append(...held);
  return made;
}

/** A text in which `words` between backquotes are code. @param {string} text @returns {(Node | string)[]} */
export const withCode = text => text.split('`').map((part, k) => k % 2 ? make('code', {}, part) : part);

/** Announces a text to a screen reader. @param {string} text */
export function say(text) {
  byId('said').textContent = text;
}

/** Tabs, of which one is chosen: by a click, and by the arrow keys. @param {HTMLElement} list @param {(tab: HTMLElement) => void} choose */
export function asTabs(list, choose) {
  const tabs = () => /** @type {HTMLElement[]} */ ([...list.querySelectorAll('[role=tab]:not([hidden]):not([disabled])')]);
  list.addEventListener('click', event => {
    const tab = /** @type {HTMLElement} */ (event.target).closest('[role=tab]');
    if (tab) choose(/** @type {HTMLElement} */ (tab));
  });
  list.addEventListener('keydown', event => {
    const all = tabs(), at = all.findIndex(tab => tab === document.activeElement), way = { ArrowLeft: -1, ArrowRight: 1 }[event.key];
    if (at < 0 || !way) return;
    event.preventDefault();
    const next = all[(at + way + all.length) % all.length];
    next.focus();
    choose(next);
  });
}
/** Marks the chosen tab of a list. @param {HTMLElement} list @param {HTMLElement | null} chosen */
export function markTab(list, chosen) {
  for (const tab of /** @type {Iterable<HTMLElement>} */ (list.querySelectorAll('[role=tab]'))) {
    tab.setAttribute('aria-selected', String(tab === chosen));
    tab.tabIndex = tab === chosen ? 0 : -1;
  }
}
// ---- many links that are one stop of the Tab key: the arrow keys go from one to another

/** @param {HTMLElement} list @param {string} selector of the links @returns {HTMLElement[]} */
const stopsOf = (list, selector) => [...list.querySelectorAll(selector)].map(link => /** @type {HTMLElement} */ (link));
/** Makes a link the stop of its list. @param {HTMLElement} list @param {string} selector @param {Element} chosen */
export function takeStop(list, selector, chosen) {
  for (const link of stopsOf(list, selector)) link.tabIndex = link === chosen ? 0 : -1;
}
/** Makes the first link the stop of its list if none is. @param {HTMLElement} list @param {string} selector */
export function asOneStop(list, selector) {
  const links = stopsOf(list, selector);
  if (links.length && !links.some(link => link.tabIndex === 0)) links[0].tabIndex = 0;
}
/** Wires the keys of such a list. @param {HTMLElement} list @param {string} selector */
export function wireStops(list, selector) {
  list.addEventListener('keydown', event => {
    const links = stopsOf(list, selector), at = links.findIndex(link => link === document.activeElement);
    const next = { ArrowDown: at + 1, ArrowUp: at - 1, Home: 0, End: links.length - 1 }[event.key];
    if (at < 0 || next === undefined || !links[next]) return;
    event.preventDefault();
    takeStop(list, selector, links[next]);
    links[next].focus();
  });
}
