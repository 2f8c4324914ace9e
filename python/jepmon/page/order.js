// An order of the operations, drawn as numbered dots on the bars, and a line from dot to dot behind the bars.

let chosenEnd = given.ends.length ? 0 : null;

// Where the dots of an end's order stand in a view: each in the first gap between events where it may, evenly within the gap.
function pointsOf(end, view, isPart) {
  if (end === null) return [];
  const order = orderOf(end);
  const gaps = new Map();
  let gap = -1, number = isPart ? 0 : order.leftOut;
  for (const id of order.operations) {
    const bar = id < 0 ? undefined : view.barOf.get(id);
    if (!isPart) number++;
    if (!bar) continue;
    if (isPart) number++;
    gap = Math.max(gap, bar.begin);
    if (!gaps.has(gap)) gaps.set(gap, []);
    gaps.get(gap).push({bar, number});
  }
  const points = [];
  for (const [place, members] of gaps) {
    const left = place < 0 ? 0 : view.xs[place];
    const right = place + 1 < view.xs.length ? view.xs[place + 1] : view.width;
    members.forEach((member, at) => {
      const x = left + (right - left) * (at + 1) / (members.length + 1);
      points.push({...member, x: Math.min(x, member.bar.right - 8), y: member.bar.y + 28});
    });
  }
  return points;
}

function drawOrder(range) {
  const points = shown.points;
  let first = points.findIndex((point) => point.x >= range.left);
  if (first < 0) first = points.length;
  let last = first;
  while (last < points.length && points[last].x <= range.right) last++;
  for (const point of points.slice(first, last)) {
    const dot = around(element('span', point.bar.operation === fatal ? 'dot wrong' : 'dot', shown.field, point.number));
    put(dot, point.x, point.y, null, null);
    dot.setAttribute('aria-hidden', 'true');
  }
  const line = points.slice(Math.max(0, first - 1), last + 1);
  const left = Math.min(range.left, ...line.map((point) => point.x));
  const right = Math.max(range.right, ...line.map((point) => point.x));
  put(shown.svg, left, 0, null, null);
  shown.svg.setAttribute('width', Math.min(right, shown.view.width) - left);
  shown.svg.setAttribute('height', shown.view.height);
  shown.path.setAttribute('d', line.map((point, at) => curve(line[at - 1], point, left)).join(''));
}

// A step of the line: it leaves one dot and comes to the next sideways.
function curve(from, to, left) {
  const x = to.x - left;
  if (!from) return `M${x} ${to.y}`;
  const middle = (from.x + to.x) / 2 - left;
  return `C${middle} ${from.y} ${middle} ${to.y} ${x} ${to.y}`;
}

// Draws the order of this end, or none; the table says which.
function choose(end) {
  chosenEnd = end;
  for (const row of document.querySelectorAll('tr[data-end]')) {
    const isChosen = Number(row.dataset.end) === end;
    row.classList.toggle('chosen', isChosen);
    row.querySelector('.choose').setAttribute('aria-pressed', String(isChosen));
  }
  shown.points = pointsOf(end, shown.view, shown.isPart);
  draw(true);
}

document.querySelectorAll('tr[data-end]').forEach((row) => {
  row.addEventListener('click', () => choose(Number(row.dataset.end) === chosenEnd ? null : Number(row.dataset.end)));
});
