// ---- the explanation next to the picture
const goButton = place => `<button class="go" data-go="${place}">${count(place)}</button>`;
// Words in which steps are named, as links to them.
const linked = text => escaped(text).replace(/\bstep (\d+)\b/g, (_, place) => `step ${goButton(+place)}`);
const lines = found => found.map(line => `<p>${linked(line)}</p>`).join('');

// What the page has of a record that has many rows before its race, and where the two steps stand in it.
function shortHtml() {
  const { whole } = facts;
  if (!whole) return '';
  const [first, second] = whole.pair.map(count);
  return `<p class="dim">This picture has the ${count(facts.count)} steps that lead to the race, of ${count(whole.count)}: the first record of <code>tools/witness</code>. `
    + `They have new numbers: the two are steps ${first} and ${second} of ${escaped(whole.record)}. <code>tools/picture --whole</code> draws all steps, and lists other races.</p>`;
}
function storyHtml() {
  if (!story) return '';
  const head = `<h2>Why steps ${goButton(story.first)} and ${goButton(story.second)} race</h2>`;
  return head + shortHtml() + wordsHtml() + `<p class="dim">${escaped(story.behind)}</p>` + othersHtml();
}
const classOf = part => part < 2 ? 'card' : part === 5 ? 'remedy' : '';
const wordsHtml = () => story.words.map(([title, found], k) => `<section class="${classOf(k)}"><h3>${escaped(title)}</h3>${lines(found)}</section>`).join('');
function othersHtml() {
  if (story.others === null) return '<p class="dim">The record is too long to search for other races; --race I J draws any two steps that race.</p>';
  if (!story.others.length) return '';
  const found = story.others.map(([first, second, text]) => `<li>${goButton(first)} and ${goButton(second)}: ${escaped(text)}</li>`).join('');
  const more = '<p class="dim">One for each pair of source lines. --race I J draws one of them.</p>';
  return `<details><summary>Other steps that race (${story.others.length})</summary><ul>${found}</ul>${more}</details>`;
}
// How the run ended, with the last step of each that is told of.
function endingHtml() {
  const { title, said } = facts.ending, lastOf = place => place === null ? 'no step' : `last step ${goButton(place)}`;
  return said.length ? `<h2>${escaped(title)}</h2><ul>${said.map(([text, place]) => `<li>${linked(text)}: ${lastOf(place)}</li>`).join('')}</ul>` : '';
}

function selectedHtml() {
  const step = state.selected === null ? null : stepAt(state.selected);
  if (!step) return '';
  const call = facts.sources[tables.calls[step.place]], bar = step.lane % 2 && step.lane !== HOST ? barOfStep(step) : null;
  const said = [stepText(step), ...(call ? [`called from ${call[0]}:${call[1]}: ${call[2]}`] : []), ...(bar && bar.number !== null ? [commandText(bar)] : [])];
  for (const [way, bytes] of [['reads', step.read], ['writes', step.write]]) {
    if (bytes) said.push(`${way} ${hex(bytes.low)} to ${hex(bytes.high - 1)} of ${placeName(bytes.place)}`);
  }
  if (tables.places) said.push(`this is step ${count(tables.places[step.place])} of ${facts.whole.record}`);
  if (step.fields.fixed) said.push('⚑ a tag status becomes available at the end of this step');
  return `<h2>Step ${count(step.place)}</h2>${said.map(text => `<p>${escaped(text)}</p>`).join('')}${beforeHtml(step)}${relationHtml(step)}`;
}
// What happens directly before a step: the one before it in its own program, and by each other rule those that the rule names.
function beforeHtml(step) {
  const neighbour = neighbourOf(step), own = neighbour === null ? [] : [`<li>${goButton(neighbour)}, the previous step of its program, by <b>${chainRule(step)}</b>${otherText(neighbour)}</li>`];
  const others = direct(step).map(([rule, places]) => places.length === 1 ? `<li>${goButton(places[0])} by <b>${rule}</b>${otherText(places[0])}</li>` : manyHtml(rule, places));
  const none = tables.graph ? 'nothing: it is the first step of its program' : 'nothing that is drawn';
  return `<h3>happens directly before it</h3><ul>${[...own, ...others].join('') || `<li>${none}</li>`}</ul>`;
}
function manyHtml(rule, places) {
  const named = places.slice(0, MOST_NAMED).map(place => `<li>${goButton(place)}${otherText(place)}</li>`).join(''), more = places.length - MOST_NAMED;
  return `<li>${count(places.length)} steps by <b>${rule}</b>, the latest first:<ul>${named}${more > 0 ? `<li>and ${count(more)} earlier ones</li>` : ''}</ul></li>`;
}
const otherText = place => { const step = stepAt(place); return step ? `: ${escaped(stepText(step))}` : ''; };
function relationHtml() {
  return tables.graph ? '<p class="dim"><span class="shade">Shaded</span>, with a hollow dot: steps that neither happen before nor after this one.</p>'
    : '<p class="dim">The record is too long to shade the steps that are not ordered with this one.</p>';
}

function commandsHtml() {
  const found = bars.filter(bar => bar.number !== null);
  if (!found.length) return '';
  const field = `<label>filter <input id="filter" value="${escaped(state.filter)}" placeholder="PUT, tag 3, 0x80"></label>`;
  return `<details><summary>Commands (${count(found.length)})</summary>${field}<ul id="commands"></ul></details>`;
}
function listCommands() {
  if (!byId('commands')) return;
  const wanted = state.filter.toLowerCase(), isWanted = bar => bar.number !== null && `mfc ${bar.spe} ${commandText(bar)}`.toLowerCase().includes(wanted);
  const found = bars.filter(isWanted), endText = bar => bar.end === NEVER ? '<b>not complete</b>' : goButton(bar.end);
  byId('commands').innerHTML = found.slice(0, 100).map(bar => `<li>MFC ${bar.spe} ${escaped(commandText(bar))}: ${goButton(bar.issue)} to ${endText(bar)}</li>`).join('')
    + (found.length > 100 ? `<li>and ${count(found.length - 100)} more</li>` : '');
}

const sample = (inner, height = 16) => `<svg width="34" height="${height}" aria-hidden="true">${inner}</svg>`;
function legendHtml() {
  const arrows = GROUPS.map(([group, name]) => [sample(`<path d="M2 8H30" stroke="${SHADES[group]}" stroke-width="1.6" marker-end="url(#m-${group})"/>`), `happens before: ${name}`]);
  const entries = [
    [sample('<line x1="17" x2="17" y1="0" y2="16" stroke="var(--lane)" stroke-width="1.5"/><circle cx="17" cy="8" r="3.5" fill="var(--ink)"/>'),
      'an instruction; the vertical line is rule Program, for the host Script'],
    [sample('<line x1="17" x2="17" y1="0" y2="6" stroke="var(--put)" stroke-width="2" stroke-dasharray="2 2"/>'
      + '<rect x="13" y="6" width="8" height="9" rx="2" fill="var(--put)"/>'),
      'a command: dotted from its issue to its first step, then to its completion; filled: PUT, hollow: GET; a tick for each step'],
    [sample('<rect x="13" y="1" width="8" height="14" fill="url(#stall)" stroke="var(--get)"/>'), 'a stalled list command'],
    [sample('<path d="M13 4l8 8m0-8l-8 8" stroke="var(--race)" stroke-width="2.4"/>'), 'a command that is not complete at the end'],
    ...arrows,
    [sample('<path d="M2 8H30" stroke="var(--race)" stroke-width="2.4" stroke-dasharray="6 4" marker-end="url(#m-race)"/>'), 'the missing arrow: the two steps of the race are not ordered'],
    [sample('<rect x="3" y="3" width="12" height="10" fill="none" stroke="var(--ink)" stroke-width="1.5"/>'
      + '<rect x="19" y="3" width="12" height="10" fill="var(--ink)"/>'),
      'memory: read, written; gaps between ranges aren’t to scale'],
  ];
  return `<details${story ? '' : ' open'}><summary>What the marks mean</summary><div class="legend">${entries.map(([mark, text]) => `${mark}<span>${text}</span>`).join('')}</div>`
    + '<p class="dim">An arrow from the end of a bar, or to its first step, stands for all steps of the command. Arrows that follow from others aren’t drawn. '
    + 'Thick: the happens-before path to the second step. ⚑ a tag status becomes available. Plain instructions are folded: ⋯ opens them.</p></details>';
}
const KEYS = [['j, k, ↓, ↑', 'next step, previous step'], ['J, K', 'the same within the column'], ['Enter', 'unfolds steps; Shift and Enter from the end'],
  ['g', 'to a step by its number'], ['/', 'find a label, file.s:12, 0x400, ch24, or words of a step, such as lost'], ['n, N', 'next hit, previous hit'],
  ['e', 'to the end'], ...(facts.ending.said.length ? [['w', 'to the last step of the next SPU or command that waits or has a fault']] : []),
  ...(story ? [['r', 'to the race'], ['o', 'only the steps of the race, or all']] : []),
  ['c', 'all columns, or the previous choice'], ['f', 'fold again'], ['a', 'names of rules at the arrows'], ['s', 'the explanation'], ['t', 'dark or light']];
const keysHtml = () => `<details><summary>Keys</summary><dl>${KEYS.map(([key, text]) => `<dt><kbd>${key}</kbd></dt><dd>${text}</dd>`).join('')}</dl></details>`;

function side() {
  const kept = byId('side').scrollTop, open = [...byId('side').querySelectorAll('details')].map(node => node.open);
  const is_focused = byId('side').contains(document.activeElement);
  byId('side').innerHTML = selectedFirst() + commandsHtml() + legendHtml() + keysHtml();
  [...byId('side').querySelectorAll('details')].forEach((node, k) => { if (k in open) node.open = open[k]; });
  listCommands();
  byId('side').scrollTop = kept;
  if (is_focused) byId('side').focus({ preventScroll: true });
}
// A step that isn't of the race comes before the explanation of the race.
function selectedFirst() {
  const told = storyHtml() + endingHtml();
  return state.selected !== null && !isRacing(state.selected) ? selectedHtml() + told : told + selectedHtml();
}
// The text for a screen reader about the step that is chosen.
function say(step) {
  const neighbour = step ? neighbourOf(step) : null, own = neighbour === null ? [] : [`after step ${neighbour} by ${chainRule(step)}`];
  const before = step ? [...direct(step).map(([rule, places]) => `after step ${places[0]}${places.length > 1 ? ` and ${places.length - 1} earlier` : ''} by ${rule}`), ...own].slice(0, 3) : [];
  byId('said').textContent = step ? `step ${step.place}, ${stepText(step)}. ${before.join(', ')}` : '';
}
