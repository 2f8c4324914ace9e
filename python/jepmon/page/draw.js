// Draws a view: what is to be seen of it and a little around it, so that a long history has no more elements than a short one.

const chart = document.getElementById('chart');
const AROUND = 500; // pixels beside what is to be seen that are drawn too
const SVG = 'http://www.w3.org/2000/svg';
const BANDS = 3; // bands over one another are as dark as so many at most
const BAND_LABEL = 170; // pixels for the text of a short band (page/view.py keeps them free)
const AXIS = 26, STRIP = 22, HELD = 26, GROWTH = 66;
let shown = null; // the view that is shown, with its elements
let keptId = null; // the operation whose details are kept
let currentId = null; // the operation that has, or gets, the focus

function element(name, className, parent, text) {
  const made = document.createElement(name);
  if (className) made.className = className;
  if (text !== undefined) made.textContent = text;
  if (parent) parent.append(made);
  return made;
}

function put(made, left, top, width, height) {
  if (left !== null) made.style.left = `${left}px`;
  if (top !== null) made.style.top = `${top}px`;
  if (width !== null) made.style.width = `${width}px`;
  if (height !== null) made.style.height = `${height}px`;
  return made;
}

// The parts that stand still: rulers at the top and the bottom, names at the left, the field of bars between them.
function build(view, isPart) {
  chart.replaceChildren();
  const space = element('div', 'space', chart);
  space.style.width = `calc(var(--names) + ${view.width}px)`;
  const axis = element('div', 'axis', space);
  axis.style.height = `${AXIS + STRIP * view.strips + 1}px`; // with its border
  const corner = element('div', 'corner', axis);
  element('span', 'row-name', corner, 'event').style.height = `${AXIS}px`;
  if (view.strips) element('span', 'row-name', corner, 'faults').style.height = `${STRIP}px`;
  const middle = element('div', 'middle', space);
  middle.style.height = `${view.height}px`;
  const names = element('div', 'names', middle);
  for (const lane of view.lanes) put(element('div', 'name', names, `client ${lane.client}`), null, lane.top, null, lane.height);
  const field = element('div', 'field', middle);
  field.style.width = `${view.width}px`;
  for (const lane of view.lanes) put(element('div', 'lane', field), null, lane.top, null, lane.height);
  const svg = document.createElementNS(SVG, 'svg');
  svg.setAttribute('class', 'order-line');
  svg.setAttribute('aria-hidden', 'true');
  const path = document.createElementNS(SVG, 'path');
  svg.append(path);
  field.append(svg);
  const foot = buildFoot(view, isPart, space);
  shown = {view, isPart, space, axis, field, svg, path, foot, drawn: new Map(), around: [], range: null, points: []};
  shown.ticks = element('div', 'cells', axis);
  if (view.fatalX !== null) {
    put(element('div', 'fatal-line', field), view.fatalX - 1, 0, null, view.height);
    if (foot && !foot.scale) put(element('div', 'fatal-line', foot.cells), view.fatalX - 1, 0, null, null);
  }
}

// Below the bars: what the object could hold, and how many ends there were.
function buildFoot(view, isPart, space) {
  const counts = !isPart && !view.held.length && (given.growth.length > 0 || given.over);
  if (!view.held.length && !counts) return null;
  const growth = counts ? given.growth : [];
  const foot = element('div', 'foot', space);
  const corner = element('div', 'corner', foot);
  if (view.held.length) element('span', 'row-name', corner, given.holds).style.height = `${HELD}px`;
  if (counts) element('span', 'row-name growth-name', corner, 'outcomes').style.height = `${GROWTH}px`;
  foot.style.height = `${(view.held.length ? HELD : 0) + (counts ? GROWTH : 0) + 1}px`;
  const cells = element('div', 'cells', foot);
  const base = view.held.length ? HELD : 0;
  const made = {foot, cells, base, held: heldOf(view), growth: growth.filter(([event]) => view.columnOf.has(event))};
  if (counts) made.scale = scaleOf(growth);
  if (counts && given.over) {
    const line = put(element('div', 'budget-line', cells), null, base + GROWTH - 4 - made.scale(given.budget), view.width, null);
    line.title = `the budget: ${given.budget} outcomes`;
    const name = element('span', 'budget-name', corner, `budget ${given.budget}`);
    put(name, null, base + GROWTH - 12 - made.scale(given.budget), null, null);
  }
  return made;
}

// Heights of numbers of ends, by their logarithm.
function scaleOf(growth) {
  const most = Math.max(given.over ? given.budget : 4, ...growth.map(([, count]) => count));
  return (count) => (GROWTH - 26) * Math.log2(count + 1) / Math.log2(most + 1);
}

// Stretches from one ok to the next, with what the object could hold there.
function heldOf(view) {
  const stretches = [];
  let from = 0;
  for (const [event, text] of view.held) {
    if (!view.columnOf.has(event)) continue;
    const x = view.xs[view.columnOf.get(event)], last = stretches[stretches.length - 1];
    if (last && last.text === text && event !== given.fatal) last.right = x;
    else stretches.push({x: from, right: x, text, fatal: event === given.fatal});
    from = x;
  }
  return stretches;
}

// --- What is to be seen ---

function visible() {
  const names = shown.space.querySelector('.corner').offsetWidth;
  return {left: chart.scrollLeft, right: chart.scrollLeft + chart.clientWidth - names, top: chart.scrollTop,
    bottom: chart.scrollTop + chart.clientHeight};
}

function draw(force) {
  const seen = visible();
  const range = shown.range;
  const within = range && seen.left >= range.left && seen.right <= range.right && seen.top >= range.top
    && seen.bottom <= range.bottom;
  if (within && !force) return;
  drawRange({left: seen.left - AROUND, right: seen.right + AROUND, top: seen.top - AROUND / 2, bottom: seen.bottom + AROUND / 2});
}

function drawRange(now) {
  shown.range = now;
  drawBars(now);
  for (const old of shown.around) old.remove();
  shown.around = [];
  drawColumns(now);
  drawBands(now);
  drawFoot(now);
  drawOrder(now);
}

function drawBars(range) {
  const wanted = barsBetween(shown.view, range.left, range.right, range.top, range.bottom);
  const current = shown.view.barOf.get(currentId);
  if (current) wanted.add(current); // it may have the focus
  for (const [bar, made] of shown.drawn) {
    if (!wanted.has(bar)) {
      made.remove();
      shown.drawn.delete(bar);
    }
  }
  for (const bar of wanted) {
    if (!shown.drawn.has(bar)) {
      const made = barElement(bar);
      shown.drawn.set(bar, made);
      shown.field.append(made);
    }
  }
}

function barElement(bar) {
  const {operation} = bar;
  const made = put(element('div', classOf(bar)), bar.x, bar.y, bar.right - bar.x, null);
  made.dataset.id = operation.id;
  made.tabIndex = operation.id === currentId ? 0 : -1;
  made.setAttribute('role', 'button');
  made.setAttribute('aria-pressed', String(operation.id === keptId));
  made.setAttribute('aria-label', nameOf(operation));
  const label = element('span', 'label', made);
  const ofPart = shown.isPart && labelsOfPart.has(operation.id);
  element('span', 'words', label, ofPart ? labelsOfPart.get(operation.id) : operation.label);
  if (MARKS[operation.outcome]) element('span', 'mark', label, MARKS[operation.outcome]);
  if (bar.toldAt !== null) put(element('span', 'told', made), Math.round(bar.toldAt - bar.x), null, null, null);
  return made;
}

function classOf(bar) {
  const {operation} = bar;
  const classes = ['operation', operation.changes ? 'change' : 'read', operation.outcome];
  if (bar.toEdge) classes.push('to-edge');
  if (bar.fromEdge) classes.push('from-edge');
  if (operation === fatal) classes.push('fatal');
  else if (given.fatal >= 0 && operation.begin > given.fatal) classes.push('later');
  else if (part.size && !part.has(operation.id)) classes.push('other');
  if (operation.id === keptId) classes.push('kept');
  return classes.join(' ');
}

function nameOf(operation) {
  const begin = given.events[operation.begin][0];
  const end = operation.end < 0 ? '' : ` to ${given.events[operation.end][0]}`;
  const is = operation === fatal ? ', the operation of the verdict' : '';
  return `client ${operation.client}: ${operation.label}, event ${begin}${end}, ${ENDED[operation.outcome]}${is}`;
}

function around(made) {
  shown.around.push(made);
  return made;
}

// The index of each event, and a line down from it.
function drawColumns(range) {
  const {view} = shown;
  for (let column = columnFrom(view, range.left); column < view.xs.length && view.xs[column] <= range.right; column++) {
    const x = view.xs[column], isFatal = view.columns[column] === given.fatal;
    const tick = element('span', isFatal ? 'tick fatal' : 'tick', shown.ticks, given.events[view.columns[column]][0]);
    around(put(tick, x, null, null, null));
    if (!isFatal) around(put(element('div', 'grid', shown.field), x, 0, null, view.height));
  }
}

// Faults: a band over the lanes, and its text in the strip above them.
function drawBands(range) {
  shown.field.style.setProperty('--share', Math.min(1, BANDS / shown.view.deepest));
  for (const band of shown.view.bands) {
    if (band.begin > range.right || Math.max(band.until, band.begin + 200) < range.left) continue;
    const moment = band.until <= band.begin;
    around(put(element('div', moment ? 'band moment' : 'band', shown.field), band.begin, 0, Math.max(2, band.until - band.begin),
      shown.view.height)).title = band.text;
    if (band.strip < 0) continue;
    const named = put(element('div', moment ? 'fault moment' : 'fault', shown.ticks), band.begin, AXIS + STRIP * band.strip,
      Math.max(band.until - band.begin, 2), null);
    named.title = band.text;
    element('span', 'fault-name', named, band.text).style.maxWidth = `${Math.max(BAND_LABEL, band.until - band.begin - 8)}px`;
    around(named);
  }
}

function drawFoot(range) {
  const {foot} = shown;
  if (!foot) return;
  for (const stretch of foot.held) {
    if (stretch.x > range.right || stretch.right < range.left) continue;
    const made = around(element('div', stretch.fatal ? 'held fatal' : 'held', foot.cells));
    put(made, stretch.x, null, stretch.right - stretch.x, null);
    made.title = stretch.text;
    element('span', 'held-text', made, stretch.text);
  }
  for (const [event, count] of foot.growth) {
    const x = shown.view.xs[shown.view.columnOf.get(event)];
    if (x >= range.left && x <= range.right) drawCount(x, String(count), foot.scale(count), 'count');
  }
  const {fatalX} = shown.view;
  if (given.over && foot.scale && fatalX !== null && fatalX >= range.left && fatalX <= range.right) {
    drawCount(fatalX, `> ${given.budget}`, foot.scale(given.budget) + 8, 'count over');
  }
}

function drawCount(x, text, height, className) {
  const made = around(put(element('div', className, shown.foot.cells), x, shown.foot.base + GROWTH - 4 - height, null, height));
  made.title = `${text} possible outcomes just before this event`;
  element('span', 'number', made, text);
}
