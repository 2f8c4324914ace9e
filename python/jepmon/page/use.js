// What a reader does: points, clicks, keys, the switch, the overview, copying, printing.

const details = document.getElementById('details');
const overview = document.getElementById('overview');
const only = document.getElementById('only');
const LEAST_HEIGHT = 300; // of the chart, where it has more lanes than there is room for
const MOST_STRETCH = 1.8; // of a view that is narrower than its place
let showing = 0; // the number of the view

// --- Details ---

function row(table, name, ...cells) {
  const made = element('tr', '', table);
  element('th', '', made, name).scope = 'row';
  for (const cell of cells) element('td', '', made, cell);
  return made;
}

// Tells of an operation; of the one of the verdict where none is pointed at.
function tell(pointed) {
  const operation = pointed || fatal;
  details.replaceChildren();
  details.classList.toggle('kept', pointed !== null && pointed.id === keptId);
  if (operation) tellOperation(operation);
  const keeps = keptId === null
    ? 'Point at an operation for its events; a click or Enter keeps them. Arrow keys go from one to the next.'
    : 'These stay until Escape, or until another operation is clicked.';
  element('p', 'quiet', details, keeps);
}

function tellOperation(operation) {
  const title = element('p', 'title', details);
  element('b', '', title, operation.label);
  element('span', '', title, ` by client ${operation.client}, process ${operation.process}: `);
  const {outcome} = operation;
  if (operation !== fatal) element('span', '', title, ENDED[outcome]);
  else element('span', 'fatal', title, given.over ? `at its ${outcome} more outcomes were possible than the budget allows`
    : `its ${outcome} fits none of the possible outcomes`);
  const table = element('table', '', details);
  tellEvent(table, 'invoked', eventOf(operation.begin, operation));
  const told = {ok: 'ok', fail: 'failed', info: 'timed out'}[outcome];
  if (operation.end >= 0) tellEvent(table, told, eventOf(operation.end, operation));
  if (labelsOfPart.has(operation.id)) {
    const label = `${labelsOfPart.get(operation.id)}, without the members that were taken out`;
    row(table, 'smallest part', label).lastChild.colSpan = 4;
  }
  if (operation.note) row(table, 'values', operation.note).lastChild.colSpan = 4;
}

function tellEvent(table, name, event) {
  const made = row(table, name, `event ${event.index}`, `line ${event.line}`);
  element('td', 'fields', made, event.fields.map(([field, text]) => `:${field} ${text}`).join('  '));
  element('code', '', element('td', '', made), event.text);
}

function operationOf(target) {
  const bar = target instanceof Element ? target.closest('.operation') : null;
  return bar ? operations[Number(bar.dataset.id)] : null;
}

function keep(id) {
  keptId = id;
  for (const [bar, made] of shown.drawn) {
    made.classList.toggle('kept', bar.operation.id === id);
    made.setAttribute('aria-pressed', String(bar.operation.id === id));
  }
  tell(id === null ? null : operations[id]);
}

chart.addEventListener('mouseover', (event) => {
  const operation = operationOf(event.target);
  if (operation && keptId === null) tell(operation);
});
chart.addEventListener('mouseleave', () => { if (keptId === null) tell(null); });
chart.addEventListener('click', (event) => {
  const operation = operationOf(event.target);
  if (!operation) return;
  makeCurrent(operation.id);
  keep(operation.id === keptId ? null : operation.id);
});
chart.addEventListener('focusin', (event) => {
  const operation = operationOf(event.target);
  if (operation && keptId === null) tell(operation);
});

// --- Keys: one operation at a time can be reached by Tab, arrow keys go on from it ---

function makeCurrent(id) {
  currentId = id;
  for (const [bar, made] of shown.drawn) made.tabIndex = bar.operation.id === id ? 0 : -1;
}

function go(bar) {
  makeCurrent(bar.operation.id);
  reveal(bar);
  draw(true);
  makeCurrent(bar.operation.id);
  shown.drawn.get(bar).focus({preventScroll: true});
}

// Scrolls so that the beginning of the bar is to be seen.
function reveal(bar) {
  const seen = visible(), foot = shown.foot ? shown.foot.foot.offsetHeight : 0, head = shown.axis.offsetHeight;
  const wide = seen.right - seen.left;
  if (bar.x < seen.left + 10 || Math.min(bar.right, bar.x + 120) > seen.right) chart.scrollLeft = Math.max(0, bar.x - wide / 3);
  const room = chart.clientHeight - head - foot;
  if (bar.y < chart.scrollTop || bar.y + 40 > chart.scrollTop + room) chart.scrollTop = Math.max(0, bar.y - room / 2);
}

// The bar in the next lane up or down that is nearest in time.
function beside(bar, step) {
  for (let lane = bar.lane + step; lane >= 0 && lane < shown.view.lanes.length; lane += step) {
    const there = shown.view.bars.filter((each) => each.lane === lane);
    const far = (each) => Math.max(each.begin - bar.until, bar.begin - each.until, 0) * 1e6 + Math.abs(each.begin - bar.begin);
    if (there.length) return there.reduce((best, each) => far(each) < far(best) ? each : best);
  }
  return bar;
}

chart.addEventListener('keydown', (event) => {
  const operation = operationOf(event.target);
  if (!operation || event.altKey || event.ctrlKey || event.metaKey) return;
  const {bars} = shown.view, bar = shown.view.barOf.get(operation.id);
  const last = bars.length - 1;
  const targets = {
    ArrowRight: () => bars[Math.min(bar.place + 1, last)], ArrowLeft: () => bars[Math.max(bar.place - 1, 0)],
    ArrowDown: () => beside(bar, 1), ArrowUp: () => beside(bar, -1), Home: () => bars[0], End: () => bars[last],
  };
  if (event.key === 'Enter' || event.key === ' ') keep(operation.id === keptId ? null : operation.id);
  else if (targets[event.key]) go(targets[event.key]());
  else return;
  event.preventDefault();
});
document.addEventListener('keydown', (event) => {
  if (event.key === 'Escape' && keptId !== null) {
    keep(null);
    const operation = operationOf(document.activeElement);
    if (operation) tell(operation);
  }
});

// --- Where the chart stands ---

function toFatal() {
  const {view} = shown, wide = visible().right - visible().left;
  const x = view.fatalX === null ? view.width : view.fatalX;
  chart.scrollLeft = view.width <= wide ? 0 : Math.max(0, x - wide * 0.75);
  const bar = fatal && view.barOf.get(fatal.id);
  if (bar) reveal(bar);
}

// The chart is as high as what is to be seen has room for, with the details below it.
function fitHeight() {
  const top = chart.getBoundingClientRect().top + window.scrollY;
  chart.style.setProperty('--tallest', `${Math.max(LEAST_HEIGHT, window.innerHeight - top - details.offsetHeight - 8)}px`);
}

// How far the view is stretched to fill its place, and how wide it is then.
function stretchOf(row) {
  const room = chart.clientWidth - parseInt(getComputedStyle(chart).getPropertyValue('--names'), 10);
  const stretch = Math.max(1, Math.min(MOST_STRETCH, room / row.width));
  return [stretch, Math.max(room, Math.round(row.width * stretch))];
}

function show(number) {
  const focus = currentId;
  showing = number;
  build(viewOf(given.views[number], ...stretchOf(given.views[number])), number === 1);
  const {bars, barOf} = shown.view;
  const start = barOf.get(focus) || (fatal && barOf.get(fatal.id)) || bars[bars.length - 1];
  currentId = start ? start.operation.id : null;
  shown.points = pointsOf(chosenEnd, shown.view, shown.isPart);
  toFatal();
  draw(true);
  drawOverview();
}

let asked = false;
chart.addEventListener('scroll', () => {
  if (asked) return;
  asked = true;
  requestAnimationFrame(() => {
    asked = false;
    draw(false);
    placeWindow();
  });
}, {passive: true});
new ResizeObserver(() => {
  const [stretch, width] = stretchOf(given.views[showing]);
  if (stretch !== shown.view.stretch || width !== shown.view.width) show(showing);
  else draw(true);
  drawOverview();
}).observe(chart);
document.getElementById('to-first').addEventListener('click', () => { chart.scrollLeft = 0; });
document.getElementById('to-fatal').addEventListener('click', toFatal);
if (only) only.addEventListener('change', () => show(only.checked ? 1 : 0));
document.querySelectorAll('.seek').forEach((button) => button.addEventListener('click', (event) => {
  event.stopPropagation();
  const {event: index, operation: id} = button.dataset;
  const sought = index === undefined ? operations[Number(id)] : operationWith(Number(index));
  if (only && sought && !shown.view.barOf.has(sought.id)) { // it is no part of the smallest one
    only.checked = false;
    show(0);
  }
  const bar = sought && shown.view.barOf.get(sought.id);
  if (bar) go(bar);
}));

// The operation that begins or ends with the event of this index.
function operationWith(index) {
  return operations.find((each) => given.events[each.begin][0] === index || each.end >= 0 && given.events[each.end][0] === index);
}

// --- The overview: all bars, small ---

function drawOverview() {
  const {view} = shown, seen = visible();
  overview.hidden = view.width <= (seen.right - seen.left) * 1.3;
  document.getElementById('jumps').hidden = overview.hidden;
  if (overview.hidden) return;
  const canvas = overview.querySelector('canvas'), ratio = window.devicePixelRatio || 1;
  const wide = overview.clientWidth, high = overview.clientHeight;
  canvas.width = Math.round(wide * ratio);
  canvas.height = Math.round(high * ratio);
  const pen = canvas.getContext('2d'), colours = getComputedStyle(overview);
  pen.scale(ratio, ratio);
  const x = (place) => place / view.width * wide, y = (place) => 4 + place / view.height * (high - 8);
  pen.fillStyle = colours.getPropertyValue('--band');
  pen.globalAlpha = Math.min(1, BANDS / view.deepest);
  for (const band of view.bands) pen.fillRect(x(band.begin), 0, Math.max(1, x(band.until) - x(band.begin)), high);
  pen.globalAlpha = 1;
  for (const bar of view.bars) {
    pen.fillStyle = colours.getPropertyValue(colourOf(bar));
    pen.fillRect(x(bar.x), y(bar.y), Math.max(1, x(bar.right - bar.x)), Math.max(1.5, y(22) - 5));
  }
  if (view.fatalX !== null) {
    pen.fillStyle = colours.getPropertyValue('--fatal-edge');
    pen.fillRect(x(view.fatalX) - 1, 0, 2, high);
  }
  placeWindow();
}

function colourOf(bar) {
  const {operation} = bar;
  if (operation === fatal) return '--fatal-edge';
  if (operation.outcome === 'info' || operation.outcome === 'open') return '--late-edge';
  if (operation.outcome === 'fail') return '--failed-edge';
  return operation.changes ? '--change-edge' : '--read-edge';
}

function placeWindow() {
  if (overview.hidden) return;
  const seen = visible(), by = overview.clientWidth / shown.view.width;
  put(overview.querySelector('.window'), seen.left * by, null, Math.max(6, (seen.right - seen.left) * by), null);
}

function moveWindow(event) {
  const seen = visible(), at = (event.clientX - overview.getBoundingClientRect().left) / overview.clientWidth;
  chart.scrollLeft = at * shown.view.width - (seen.right - seen.left) / 2;
}

overview.addEventListener('pointerdown', (event) => {
  overview.setPointerCapture(event.pointerId);
  moveWindow(event);
});
overview.addEventListener('pointermove', (event) => { if (event.buttons) moveWindow(event); });
window.matchMedia('(prefers-color-scheme: dark)').addEventListener('change', drawOverview);

// --- Copying, printing ---

document.getElementById('copy').addEventListener('click', async (event) => {
  const text = document.getElementById('text');
  try {
    await navigator.clipboard.writeText(text.textContent);
    event.target.textContent = 'copied';
  } catch (fault) {
    getSelection().selectAllChildren(text);
    event.target.textContent = 'selected: copy it';
  }
  setTimeout(() => { event.target.textContent = 'copy'; }, 2000);
});

// On paper nothing scrolls: all lanes are drawn, with the fatal event within the width of a sheet, and labels where the bars
// begin there.
const SHEET = 900;
window.addEventListener('beforeprint', () => {
  const {view} = shown;
  if (view.width > SHEET) chart.scrollLeft = Math.max(0, (view.fatalX === null ? view.width : view.fatalX) - SHEET * 0.75);
  const left = chart.scrollLeft;
  drawRange({left, right: left + 2 * SHEET, top: 0, bottom: view.height});
  for (const [bar, made] of shown.drawn) made.querySelector('.label').style.marginLeft = `${Math.max(0, left - bar.x)}px`;
  for (const fault of shown.ticks.querySelectorAll('.fault')) {
    fault.firstChild.style.marginLeft = `${Math.max(0, left - parseFloat(fault.style.left))}px`;
  }
});
window.addEventListener('afterprint', () => {
  for (const made of shown.drawn.values()) made.querySelector('.label').style.marginLeft = '';
  draw(true);
});

window.addEventListener('resize', fitHeight);
tell(null);
show(0);
fitHeight();
toFatal();
if (chosenEnd !== null) choose(chosenEnd);
