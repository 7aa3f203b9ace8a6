// Given to a page by tests/picture in a browser that takes keys: tells what a reader of the page sees.
{
  const scroll = document.getElementById('scroll'), frame = scroll.getBoundingClientRect(), heads = document.getElementById('heads').getBoundingClientRect();
  // Whether a node is within the picture's frame and below the heads of its columns.
  const isWithin = (box, top) => box.left >= frame.left - 1 && box.right <= frame.right + 1 && box.top >= top - 1 && box.bottom <= frame.bottom + 1;
  const isSeen = (node, top) => { const box = node.getBoundingClientRect(); return box.width > 0 && isWithin(box, top); };
  const columns = [...document.querySelectorAll('#heads .head')];
  const nameOf = head => head.querySelector('button')?.textContent || head.querySelector('select')?.selectedOptions[0].textContent || head.textContent;
  const cells = [...document.querySelectorAll('#body .row .chip.race')].filter(chip => /^(1st|2nd)/.test(chip.textContent));
  const strips = [...document.querySelectorAll('#heads .fold button')], chosen = document.querySelector('#body [aria-selected=true]');
  const isReadable = button => button.textContent.length > 0 && button.scrollHeight <= button.clientHeight + 1 && isSeen(button, frame.top);
  ({
    is_ready: document.body?.dataset.ready === 'yes', is_busy: scroll.getAttribute('aria-busy') === 'true',
    chosen: chosen ? chosen.getAttribute('aria-label') : null, top: chosen ? Math.round(chosen.getBoundingClientRect().top) : null,
    racing: cells.filter(chip => isSeen(chip.closest('.cell'), heads.bottom)).map(chip => chip.textContent),
    columns: columns.filter(head => isSeen(head, frame.top)).map(nameOf), strips: strips.map(button => button.textContent),
    unreadable: strips.filter(button => !isReadable(button)).map(button => button.textContent),
    open: [...document.querySelectorAll('#heads [aria-expanded=true]')].map(button => button.textContent),
    pressed: [...document.querySelectorAll('.bar > [aria-pressed=true]')].map(button => button.id),
    is_at_end: [...document.querySelectorAll('#body .row.end')].some(row => row.getBoundingClientRect().bottom <= frame.bottom + 1),
    badge: document.getElementById('verdict').textContent, color: getComputedStyle(document.getElementById('verdict')).backgroundColor,
    field: document.getElementById('jump').value, hits: document.getElementById('hits').textContent, side: document.getElementById('side').innerText,
  });
}
