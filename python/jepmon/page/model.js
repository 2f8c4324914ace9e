// What the page shows, from the data that stand in it (page/data.py writes them).

const given = JSON.parse(document.getElementById('data').textContent);
const OUTCOMES = ['ok', 'fail', 'info', 'open'];
const ENDED = {
  ok: 'it took place',
  fail: 'it failed: it did not take place',
  info: 'it timed out: it may have taken place, or may at any later moment, or never',
  open: 'it was still open when the history ended',
};
const MARKS = {ok: '', fail: '\u2717', info: '?', open: '\u2026'};

const operations = given.operations.map((row, id) => ({
  id, process: row[0], client: row[1], name: row[2], changes: row[3] === 1, label: row[4], begin: row[5], end: row[6],
  outcome: OUTCOMES[row[7]], asked: row[8] || '', answered: row[9] || row[8] || '', note: row[10] || '',
}));
const part = new Set(given.part);
const labelsOfPart = new Map(given.labels);
const fatal = given.fatal < 0 ? null : operations.find((each) => each.begin === given.fatal || each.end === given.fatal) || null;

// An event: its index, line, fields, and its text, which is put together where it is the usual one.
function eventOf(number, operation) {
  const row = given.events[number];
  const fields = given.fields.map((name, place) => [name, row[3 + place]]).filter((field) => field[1] != null);
  const kind = number === operation.begin ? 'invoke' : operation.outcome;
  const value = number === operation.begin ? operation.asked : operation.answered;
  const further = fields.map(([name, text]) => `, :${name} ${text}`).join('');
  const usual = `{:type :${kind}, :process ${operation.process}, :f :${operation.name}, :value [${given.key} ${value}]${further}}`;
  return {index: row[0], line: row[1], kind, fields, text: row[2] === 0 ? usual : row[2]};
}

// A view: some of the operations, laid out, stretched by a factor, and with room to the right up to this width. Bars stand in the
// order of their invocations.
function viewOf(row, stretch, width) {
  const xs = [];
  let x = 0;
  for (const gap of row.gaps) xs.push(Math.round(x += gap * stretch));
  const pitch = given.ends.length ? 42 : 30, over = 6; // with room for the dots of an order
  let top = 0;
  const lanes = row.lanes.map(([client, rows]) => {
    const lane = {client, rows, top, height: rows * pitch + over};
    top += lane.height;
    return lane;
  });
  const end = (column) => column >= xs.length ? width : xs[column];
  const bars = row.bars.map(([id, lane, sub, begin, until, told], place) => ({
    place, operation: operations[id], lane, begin, until, told, x: begin < 0 ? 0 : xs[begin],
    right: Math.max(end(until), begin < 0 ? 12 : xs[begin] + 12), toEdge: until >= xs.length, fromEdge: begin < 0,
    toldAt: until > told ? end(told) : null, y: lanes[lane].top + sub * pitch + 5,
  }));
  const columnOf = new Map(row.columns.map((number, column) => [number, column]));
  const view = {
    columns: row.columns, held: row.held, xs, width, stretch, height: top, lanes, bars, columnOf,
    barOf: new Map(bars.map((bar) => [bar.operation.id, bar])),
    bands: row.bands.map(([text, begin, until, strip]) => ({
      text, begin: begin * stretch, until: until >= row.width ? width : until * stretch, strip,
    })),
    fatalX: columnOf.has(given.fatal) ? xs[columnOf.get(given.fatal)] : null,
    fatalColumn: columnOf.has(given.fatal) ? columnOf.get(given.fatal) : xs.length,
  };
  view.strips = view.bands.reduce((most, band) => Math.max(most, band.strip + 1), 0);
  view.deepest = deepest(view.bands);
  view.blocks = blocksOf(view);
  return view;
}

// How many bands lie over one another, at most.
function deepest(bands) {
  const edges = bands.filter((band) => band.until > band.begin).flatMap((band) => [[band.begin, 1], [band.until, -1]]);
  let depth = 0;
  return edges.sort((a, b) => a[0] - b[0] || a[1] - b[1]).reduce((most, [, step]) => Math.max(most, depth += step), 1);
}

// Which bars meet each stretch of so many pixels: what is drawn is looked up here.
const BLOCK = 1000;
function blocksOf(view) {
  const blocks = Array.from({length: Math.ceil(view.width / BLOCK) + 1}, () => []);
  for (const bar of view.bars) {
    for (let at = Math.floor(bar.x / BLOCK); at <= Math.floor(bar.right / BLOCK); at++) blocks[at].push(bar);
  }
  return blocks;
}

function barsBetween(view, left, right, top, bottom) {
  const found = new Set();
  const last = Math.min(view.blocks.length - 1, Math.floor(right / BLOCK));
  for (let at = Math.max(0, Math.floor(left / BLOCK)); at <= last; at++) {
    for (const bar of view.blocks[at]) {
      if (bar.x <= right && bar.right >= left && bar.y <= bottom && bar.y + 40 >= top) found.add(bar);
    }
  }
  return found;
}

// The first column at or behind this place.
function columnFrom(view, x) {
  let low = 0, high = view.xs.length;
  while (low < high) {
    const middle = (low + high) >> 1;
    if (view.xs[middle] < x) low = middle + 1; else high = middle;
  }
  return low;
}

// The operations of the order that leads to an end, from the first on, and how many come before those that are told.
function orderOf(end) {
  const [last, leftOut] = given.ends[end];
  const found = [];
  for (let step = last; step >= 0; step = given.steps[1][step]) found.push(given.steps[0][step]);
  return {operations: found.reverse(), leftOut};
}
