// Given to a page by tests/picture in a browser: tells which of its texts overlap, which are cut, which lines cross one, and what has no name for a reader's ear.
function shownBox(node, rect) {
  let box = rect;
  for (let up = node.parentElement; up; up = up.parentElement) {
    const style = getComputedStyle(up);
    if (style.overflowX === 'visible' && style.overflowY === 'visible') continue;
    const own = up.getBoundingClientRect();
    box = { left: Math.max(box.left, own.left), right: Math.min(box.right, own.right), top: Math.max(box.top, own.top), bottom: Math.min(box.bottom, own.bottom) };
  }
  return box;
}
const isText = node => node.textContent.trim() && !['SCRIPT', 'STYLE', 'TITLE', 'OPTION', 'NOSCRIPT'].includes(node.parentElement.tagName)
  && !node.parentElement.closest('.unseen, title, [hidden], details:not([open]) > :not(summary)');

// The boxes of a text as far as they are seen; a line's box is higher than its letters.
function boxesOf(node) {
  const range = document.createRange(), within = node.parentElement.closest('svg') ? 2 : 3, up = node.parentElement;
  range.selectNodeContents(node);
  return [...range.getClientRects()].map(rect => ({ rect, box: shownBox(node, rect) })).filter(({ box }) => box.right - box.left > 1 && box.bottom - box.top > 1)
    .map(({ rect, box }) => ({
      node, is_head: up.closest('#heads') !== null, is_in_rows: up.closest('#sheet') !== null, is_cut: rect.right > box.right + 1,
      left: box.left, right: box.right, top: box.top + within, bottom: box.bottom - within,
    }));
}
function allBoxes() {
  const walker = document.createTreeWalker(document.body, NodeFilter.SHOW_TEXT), found = [];
  while (walker.nextNode()) if (isText(walker.currentNode)) found.push(...boxesOf(walker.currentNode));
  return found;
}
const nameOf = box => box.node.textContent.trim().slice(0, 60);

// ---- texts on texts
// Rows go on below the heads of the columns, which stay where they are.
const isBeneath = (one, other) => one.is_head !== other.is_head;
const touch = (one, other) => one.left < other.right - 1 && other.left < one.right - 1 && one.top < other.bottom && other.top < one.bottom;
const overlap = (one, other) => one.node !== other.node && !isBeneath(one, other) && touch(one, other);
const overlaps = boxes => boxes.flatMap((one, i) => boxes.slice(0, i).filter(other => overlap(one, other)).map(other => [nameOf(one), nameOf(other)]));

// ---- lines on texts
const EVERY = 3; // pixels between the points of a line that are looked at
function pointsOf(line) {
  const length = line.getTotalLength(), matrix = line.getScreenCTM();
  return [...Array(Math.ceil(length / EVERY) + 1).keys()].map(k => line.getPointAtLength(Math.min(length, k * EVERY)).matrixTransform(matrix));
}
const titleOf = line => (line.querySelector('title') || line.closest('g')?.querySelector('title') || { textContent: 'a line' }).textContent;
function crossings(boxes) {
  const drawn = [...document.querySelectorAll('#sheet .under path, #sheet .under line, #sheet .under rect')].filter(line => !line.closest('defs'));
  return drawn.flatMap(line => {
    const around = line.getBoundingClientRect(), reach = { left: around.left - 2, right: around.right + 2, top: around.top - 1, bottom: around.bottom + 1 };
    const near = boxes.filter(box => box.is_in_rows && touch(box, reach));
    const points = near.length ? pointsOf(line) : [], isIn = box => ({ x, y }) => x > box.left && x < box.right && y > box.top && y < box.bottom;
    return near.filter(box => points.some(isIn(box))).map(box => [titleOf(line), nameOf(box)]);
  });
}

// ---- for a reader's ear
const hasName = node => node.getAttribute('aria-label') || node.getAttribute('aria-labelledby') || node.closest('label') || node.textContent.trim();
function unnamed() {
  const wanted = [...document.querySelectorAll('button, input, select, summary, [role=img], [role=grid], [role=row], aside, [tabindex]')];
  return wanted.filter(node => !node.closest('[hidden]') && !hasName(node)).map(node => node.outerHTML.slice(0, 80));
}

const isReady = () => document.body !== null && document.body.dataset.ready === 'yes';
function told() {
  const boxes = allBoxes(), cut = boxes.filter(box => box.is_cut && !box.node.parentElement.closest('#side')).map(nameOf);
  const columns = document.getElementById('heads'), is_wide = columns.offsetWidth > columns.parentElement.clientWidth;
  return { is_ready: isReady(), is_wide, has_missing: document.getElementById('missing') !== null, overlaps: overlaps(boxes), cut, crossings: crossings(boxes), unnamed: unnamed() };
}
// Waits until the page is ready, or for so long that it won't be. In the background a clock goes by seconds, so that the page is watched instead.
new Promise(done => {
  const end = () => { watch.disconnect(); done(told()); }, watch = new MutationObserver(() => isReady() && end());
  watch.observe(document, { attributes: true, childList: true, subtree: true });
  setTimeout(end, 20000);
  if (isReady()) end();
});
