'use strict';

// A page about a run. Places are counted by an index: 0 is the start, and I comes after the I-th step that is
// shown. What holds at a place is what changed up to it.

const SVG = 'http://www.w3.org/2000/svg';
const run = JSON.parse(byId('run').textContent);
const COLOURS = 8;
const REGISTERS = ['zero', 'ra', 'sp', 'gp', 'tp', 't0', 't1', 't2', 's0', 's1', 'a0', 'a1', 'a2', 'a3', 'a4',
  'a5', 'a6', 'a7', 's2', 's3', 's4', 's5', 's6', 's7', 's8', 's9', 's10', 's11', 't3', 't4', 't5', 't6'];
const ARCS = 36, BLOCK = 14, NAMES = 14, WORDS = 12, GAP = 8, TOP = 14, AXIS = 18;
const FOLD = 30, EDGE = 6, RIGHT = 60, LETTER = 5.9, LONG = 120;
const LANE = ARCS + BLOCK + NAMES + WORDS + GAP;
const WIDTHS = [5, 8, 11, 15, 22];
const SMALL = 4096n;
const EVENTS = ['take', 'done', 'signal'], OTHERS = ['drain', 'run', 'preempt', ...EVENTS];

const view = { index: 0, width: 3, matches: [], open: null, lefts: [], cursor: null, ticks: null };
const cells = new Map();  // by key the elements that show its value
const steps = [null, ...run.steps.map(readStep)];
const numbers = steps.map(step => step ? step.number : 0);

// the run

function readStep([number, hart, thread, row, words]) {
  const [shape, deed, where, source] = run.rows[row];
  return { number, hart, thread, shape, deed, where, source, words: run.words[words] };
}

function last() {
  return steps.length - 1;
}

/** The index of a step; of one that is folded that of the next one that is shown. */
function indexOf(number) {
  const found = numbers.findIndex(one => one >= number);
  return found < 0 ? last() : found;
}

function isShown(number) {
  return numbers[indexOf(number)] === number;
}

/** How many steps are folded between a place and the one before it. */
function foldedBefore(index) {
  return index > 0 ? numbers[index] - numbers[index - 1] - 1 : 0;
}

function stateAt(index) {
  return Object.assign({}, ...run.changes.slice(0, index + 1));
}

/** The stores of a hart that wait at a place, the oldest first. */
function waitingAt(hart, index) {
  const place = numbers[index];
  const isThere = (executed, entered) => executed <= place && (!entered || entered > place);
  return run.stores.filter(([on, executed, entered]) => on === hart && isThere(executed, entered));
}

/** What a number in hexadecimal means: a variable, a function, or a small number. */
function meaning(value) {
  if (!value || !value.startsWith('0x')) return '';
  if (run.names[value]) return run.names[value];
  const number = BigInt(value), signed = BigInt.asIntN(64, number);
  if (number < 10n) return '';
  return number < SMALL || signed < 0n && -signed <= SMALL ? String(signed) : '';
}

function colour(thread) {
  const at = run.threads.indexOf(thread);
  return at < 0 ? 'nobody' : `t${at % COLOURS}`;
}

// elements

function byId(id) {
  return document.getElementById(id);
}

function make(tag, attributes = {}, ...children) {
  const element = document.createElement(tag);
  for (const [name, value] of Object.entries(attributes)) element.setAttribute(name, value);
  element.append(...children);
  return element;
}

function draw(parent, tag, attributes, text) {
  const element = document.createElementNS(SVG, tag);
  for (const [name, value] of Object.entries(attributes)) element.setAttribute(name, value);
  if (text !== undefined) element.textContent = text;
  parent.append(element);
  return element;
}

function titled(element, text) {
  draw(element, 'title', {}, text);
  return element;
}

function drawing(attributes) {
  const svg = document.createElementNS(SVG, 'svg');
  for (const [name, value] of Object.entries(attributes)) svg.setAttribute(name, value);
  return svg;
}

function span(kind) {
  return make('span', { class: kind });
}

/** A table that can be scrolled, with a name that a screen reader says. */
function table(name, heads, rows) {
  const head = make('tr', {}, ...heads.map(words => make('th', { scope: 'col' }, words)));
  const caption = make('caption', { class: 'unseen' }, name);
  return make('table', {}, caption, make('thead', {}, head), make('tbody', {}, ...rows));
}

function scrolled(name, inside) {
  return make('div', { class: 'table', tabindex: '0', role: 'group', 'aria-label': name }, inside);
}

function chip(thread) {
  return thread ? make('span', { class: `chip ${colour(thread)}` }, `T${thread}`) : '';
}

/** Notes which elements show the value of a key, and which box round them is marked where it changed. */
function watchKey(key, box, value, meant, note) {
  value.dataset.key = key;
  cells.set(key, { box, value, meant, note });
}

function dot() {
  return make('span', { class: 'dot', 'aria-hidden': 'true' }, '●');
}

// the state

function buildPair(list, name, key) {
  const value = make('dd', { class: 'value' }), meant = span('meaning'), note = span('unseen');
  const box = make('div', { class: 'pair' }, dot(), make('dt', {}, name), value, make('dd', {}, meant, note));
  list.append(box);
  watchKey(key, box, value, meant, note);
}

function buildHart(hart) {
  const list = make('dl'), card = make('div', { class: 'card', id: `hart-${hart}` });
  buildPair(list, 'runs', `h${hart}.thread`);
  buildPair(list, 'reservation', `h${hart}.reservation`);
  buildPair(list, 'requests of harts', `h${hart}.requests`);
  buildPair(list, 'asking for a restart', `h${hart}.restart`);
  const label = `stores that wait on hart ${hart}`;
  const buffer = make('ol', { class: 'buffer', id: `buffer-${hart}`, 'aria-label': label });
  const words = make('p', { class: 'about' }, 'waiting stores, the oldest first:');
  card.append(make('h3', {}, `hart ${hart}`), list, words, buffer);
  return card;
}

function buildRegister(thread, number) {
  const key = `t${thread}.x${number}`;
  const value = span('value'), meant = span('meaning'), note = span('unseen');
  const name = make('span', { class: 'name', title: `x${number}` }, REGISTERS[number]);
  const box = make('div', { class: 'register' }, dot(), name, value, meant, note);
  watchKey(key, box, value, meant, note);
  return box;
}

function buildThread(thread) {
  const state = span('value'), note = span('unseen');
  const title = make('summary', {}, `thread ${thread}: `, state, note);
  const list = make('dl'), registers = make('div', { class: 'registers' });
  const named = { class: `card ${colour(thread)}`, id: `thread-${thread}` };
  const card = make('details', named, title, list, registers);
  watchKey(`t${thread}.state`, title, state, null, note);
  buildPair(list, 'goes on at', `t${thread}.pc`);
  buildPair(list, 'pending signals', `t${thread}.pending`);
  for (let number = 1; number < REGISTERS.length; number++) registers.append(buildRegister(thread, number));
  return card;
}

function buildView(row, key) {
  const value = make('td'), shown = make('span'), note = span('unseen');
  value.append(dot(), shown, note);
  row.append(value);
  watchKey(key, value, shown, null, note);
}

function buildWatched() {
  if (!run.watched.length) return;
  const heads = ['variable', 'memory', ...run.harts.map(hart => `hart ${hart} sees`)];
  const parts = [...new Set(run.watched.flatMap(([, names]) => names))];
  const name = 'Watched variables';
  byId('watched').append(scrolled(name, table(name, heads, parts.map(watchedRow))));
}

function watchedRow(part) {
  const row = make('tr', {}, make('th', { scope: 'row' }, part));
  buildView(row, `m.${part}`);
  for (const hart of run.harts) buildView(row, `v${hart}.${part}`);
  return row;
}

function showValue(cell, value, isChanged) {
  cell.value.textContent = value === undefined ? '' : value;
  if (cell.meant) cell.meant.textContent = meaning(value);
  cell.value.classList.toggle('zero', value === '0x0' || value === 'none');
  cell.box.classList.toggle('changed', isChanged);
  cell.note.textContent = isChanged ? ' (changed)' : '';
}

function showBuffer(hart, index) {
  const list = byId(`buffer-${hart}`);
  list.replaceChildren(...waitingAt(hart, index).map(([, executed, entered, words, bytes, spot]) => {
    const button = make('button', { type: 'button', title: `${bytes}; ${spot}` }, words);
    button.addEventListener('click', () => goToStep(entered || executed));
    const until = entered ? `enters in step ${entered}` : 'never enters';
    return make('li', { 'data-bytes': bytes }, button, ` of step ${executed}, ${until}`);
  }));
  list.previousElementSibling.hidden = !list.children.length;
}

function showState(index) {
  const state = stateAt(index), changed = index ? run.changes[index] : {};
  for (const [key, cell] of cells) {
    showValue(cell, state[key], key in changed);
    cell.value.classList.toggle('differs', state[key] !== state[key.replace(/^v\d+\./, 'm.')]);
  }
  for (const hart of run.harts) {
    showBuffer(hart, index);
    const thread = Number(state[`h${hart}.thread`].replace('thread ', ''));
    byId(`hart-${hart}`).className = `card ${colour(thread)}`;
  }
  for (const thread of run.threads) {
    byId(`thread-${thread}`).hidden = state[`t${thread}.state`].startsWith('not created');
  }
  byId('when').textContent = index ? `after step ${numbers[index]}` : 'at the start';
}

/** Opens the registers of the thread that made a step, and closes those that were opened so before. */
function openThread(thread) {
  if (!thread || view.open === thread) return;
  if (view.open) byId(`thread-${view.open}`).open = false;
  byId(`thread-${thread}`).open = true;
  view.open = thread;
}

// the listing

const HEADS = ['step', 'hart', 'thread', 'what it does', 'read and written', 'source line', 'where'];

function buildListing() {
  const rows = [];
  for (let index = 1; index <= last(); index++) {
    const folded = foldedBefore(index);
    if (folded) rows.push(foldRow(numbers[index] - folded, numbers[index] - 1));
    rows.push(stepRow(steps[index], index));
  }
  const listing = byId('listing');
  listing.append(table('Steps of the run', HEADS, rows));
  listing.addEventListener('click', event => {
    const row = event.target.closest('tr[data-index]');
    if (row) go(Number(row.dataset.index));
  });
}

function foldRow(first, end) {
  const several = `steps ${first} to ${end} are folded (${end - first + 1})`;
  const words = first === end ? `step ${first} is folded` : several;
  return make('tr', { class: 'folded' }, make('td', { colspan: HEADS.length }, words));
}

function stepRow(step, index) {
  const link = make('a', { href: `#${step.number}`, tabindex: '-1' }, step.number);
  const memory = make('td', { class: 'memory', title: step.words }, step.words);
  const source = make('td', { class: 'source', title: step.source }, step.source);
  return make('tr', { 'data-index': index, id: `row-${index}` }, make('td', { class: 'number' }, link),
    make('td', {}, step.hart), make('td', {}, chip(step.thread)), make('td', {}, step.deed), memory, source,
    make('td', {}, step.where));
}

function showRow(before, index) {
  const old = byId(`row-${before}`), row = byId(`row-${index}`);
  if (old) {
    old.removeAttribute('aria-current');
    old.querySelector('a').tabIndex = -1;
  }
  if (row) {
    row.setAttribute('aria-current', 'step');
    row.querySelector('a').tabIndex = 0;
  }
  bringIntoView(byId('listing'), row);
}

function bringIntoView(box, row) {
  const head = 24, top = row ? row.offsetTop : 0, height = row ? row.offsetHeight : 0;
  const isSeen = top - head >= box.scrollTop && top + height <= box.scrollTop + box.clientHeight;
  if (!isSeen) box.scrollTop = top - box.clientHeight / 2;
}

// the timeline

function laneTop(hart) {
  return TOP + run.harts.indexOf(hart) * LANE + ARCS;
}

function width() {
  return WIDTHS[view.width];
}

function middle(index) {
  return view.lefts[index] + width() / 2;
}

/** Where the middle of a step is; of one that is folded that of the fold. */
function across(number) {
  const index = indexOf(number);
  return isShown(number) ? middle(index) : view.lefts[index] - FOLD / 2;
}

/** Where each step begins, with room for what is folded before it; the last one is where all ends. */
function findLefts() {
  let left = EDGE;
  view.lefts = steps.map((_, index) => {
    if (foldedBefore(index)) left += FOLD;
    const found = left;
    if (index) left += width();
    return found;
  });
  view.lefts.push(left);
}

function drawTimeline() {
  findLefts();
  const height = TOP + run.harts.length * LANE + AXIS, all = view.lefts[last() + 1] + RIGHT;
  const words = `${last()} steps on ${run.harts.length} harts, as they are listed below`;
  const viewBox = `0 0 ${all} ${height}`;
  const svg = drawing({ width: all, height, viewBox, role: 'img', 'aria-label': words });
  drawLanes(svg, all);
  drawFolds(svg, height - AXIS);
  for (const stretch of stretches()) drawStretch(svg, stretch);
  run.sequences.forEach(sequence => drawFrame(svg, sequence));
  drawBetween(svg);
  for (let index = 1; index <= last(); index++) drawCell(svg, index);
  drawLabels(svg);
  run.stores.forEach(store => drawArc(svg, store));
  view.cursor = draw(svg, 'rect', { class: 'cursor', y: 0, height: height - AXIS, 'pointer-events': 'none' });
  view.ticks = draw(svg, 'g', {});
  svg.addEventListener('click', event => {
    const found = event.target.closest('[data-go]');
    if (found) goToStep(Number(found.dataset.go));
  });
  byId('timeline').replaceChildren(svg);
}

function drawLanes(svg, right) {
  const labels = run.harts.map(hart => {
    const y = laneTop(hart) + BLOCK;
    draw(svg, 'line', { class: 'lane', x1: 0, x2: right, y1: y, y2: y });
    const label = make('div', {}, `hart ${hart}`);
    label.style.top = `${y - 17}px`;
    return label;
  });
  byId('labels').replaceChildren(...labels);
}

function drawFolds(svg, height) {
  for (let index = 1; index <= last(); index++) {
    const folded = foldedBefore(index), left = view.lefts[index] - FOLD;
    if (!folded) continue;
    const words = folded === 1 ? '1 step' : `${folded} steps`, x = left + FOLD / 2 + 3, y = height / 2;
    const box = { x: left + 3, y: 2, width: FOLD - 6, height: height - 4, rx: 3 };
    titled(draw(svg, 'rect', { ...box, class: 'fold' }), `${words} folded`);
    const turned = { transform: `rotate(-90 ${x} ${y})`, x, y, 'text-anchor': 'middle' };
    draw(svg, 'text', { ...turned, class: 'soft' }, words);
  }
}

/** The threads on harts: from which step up to which. */
function stretches() {
  const found = [], open = new Map();
  for (let index = 1; index <= last(); index++) {
    const { hart, thread, shape } = steps[index], now = open.get(hart);
    if (now && now.thread === thread && shape !== 'run') {
      now.end = index;
    } else if (thread) {
      open.set(hart, { hart, thread, begin: index, end: index });
      found.push(open.get(hart));
    }
  }
  return found;
}

function drawStretch(svg, { hart, thread, begin, end }) {
  const x = view.lefts[begin], right = view.lefts[end] + width();
  const box = { x, y: laneTop(hart), width: right - x, height: BLOCK };
  draw(svg, 'rect', { ...box, class: `stretch ${colour(thread)}` });
}

function drawFrame(svg, [begin, end, hart, thread, form, ending, name]) {
  const x = across(begin) - width() / 2 - 1, right = across(end) + width() / 2 + 1;
  const box = { x, y: laneTop(hart) - 3, width: right - x, height: BLOCK + 6, rx: 3 };
  const frame = draw(svg, 'rect', { ...box, class: `frame ${form}` });
  titled(frame, `thread ${thread}, ${name}: ${ending}`);
}

/** What goes between harts: barriers, from the call to each take and from there to the return; signals. */
function drawBetween(svg) {
  for (const [call, takes, done] of run.barriers) {
    for (const take of takes) {
      drawLink(svg, call, take, 'a request of the barrier');
      drawLink(svg, take, done, 'the barrier returns');
    }
  }
  for (const [posted, delivered, thread, name] of run.signals) {
    drawLink(svg, posted, delivered, `${name} for thread ${thread}`);
  }
}

function drawLink(svg, from, to, words) {
  if (!to || !isShown(from) || !isShown(to) || from === to) return;
  const [begin, end] = [indexOf(from), indexOf(to)];
  const [y1, y2] = [begin, end].map(index => laneTop(steps[index].hart) + BLOCK / 2);
  const bend = y1 === y2 ? LANE / 2 : 0;
  const [x1, x2] = [middle(begin), middle(end)];
  const d = `M ${x1} ${y1} Q ${(x1 + x2) / 2} ${(y1 + y2) / 2 + bend} ${x2} ${y2}`;
  titled(draw(svg, 'path', { class: 'between', d }), words);
}

function drawCell(svg, index) {
  const step = steps[index];
  const group = draw(svg, 'g', { class: `cell ${colour(step.thread)}`, 'data-go': step.number });
  drawShape(group, step.shape, middle(index), laneTop(step.hart), Math.min(BLOCK, width() - 1));
  titled(group, `step ${step.number}: ${step.deed}\n${step.where}\n${step.source}\n${step.words}`.trim());
}

/** Draws the shape of a step, whose upper edge has its middle at x and y. */
function drawShape(group, shape, x, y, wide) {
  const half = wide / 2, low = y + BLOCK, middle = y + BLOCK / 2;
  const box = { x: x - half, y, width: wide, height: BLOCK, rx: 2 };
  const bar = { class: 'own', x: x - half / 2, y: y - 2, width: half, height: BLOCK + 4 };
  if (shape === 'drain') {
    draw(group, 'polygon', { class: 'drain', points: `${x - half},${y} ${x + half},${y} ${x},${low}` });
  } else if (shape === 'call') {
    const points = `${x},${y} ${x + half},${middle} ${x},${low} ${x - half},${middle}`;
    draw(group, 'polygon', { class: 'own', points });
  } else if (shape === 'run' || shape === 'preempt') {
    draw(group, 'rect', bar);
  } else {
    draw(group, 'rect', { ...box, class: EVENTS.includes(shape) ? 'event' : `own ${shape}` });
  }
  if (shape === 'fence') draw(group, 'line', { class: 'mark', x1: x, x2: x, y1: y + 1, y2: low - 1 });
  if (shape === 'atomic') draw(group, 'circle', { class: 'hole', cx: x, cy: middle, r: half / 2 });
}

/** Functions below the steps, and below these what calls and events are and what became of sequences. */
function drawLabels(svg) {
  for (const hart of run.harts) {
    const y = laneTop(hart) + BLOCK + NAMES - 3;
    drawLine(svg, functionLabels(hart), y);
    drawLine(svg, eventLabels(hart), y + WORDS);
  }
  for (let index = 1; index <= last(); index++) {
    const y = TOP + run.harts.length * LANE + 10, number = numbers[index];
    const isMarked = number % (width() < 8 ? 50 : 10) === 0;
    if (isMarked) draw(svg, 'text', { class: 'soft', x: middle(index), y, 'text-anchor': 'middle' }, number);
  }
}

function functionLabels(hart) {
  const labels = [];
  let before = null;
  for (let index = 1; index <= last(); index++) {
    const step = steps[index], x = view.lefts[index], name = step.where.split('+')[0];
    if (step.hart !== hart) continue;
    if (step.shape === 'run') {
      labels.push({ x, text: `T${step.thread}`, kind: 'soft' });
      before = null;
    } else if (!OTHERS.includes(step.shape) && name !== before) {
      labels.push({ x, text: name, kind: '' });
      before = name;
    }
  }
  return labels;
}

function eventLabels(hart) {
  const labels = [];
  for (let index = 1; index <= last(); index++) {
    const step = steps[index], x = view.lefts[index];
    if (step.hart !== hart) continue;
    if (EVENTS.includes(step.shape)) labels.push({ x, text: step.shape, kind: 'soft' });
    if (step.shape === 'call') labels.push({ x, text: step.words.split(':')[0], kind: 'soft' });
  }
  for (const [begin, , on, , form] of run.sequences) {
    const x = view.lefts[indexOf(begin)];
    if (on === hart) labels.push({ x, text: form, kind: `frame-name ${form}` });
  }
  return labels.sort((one, other) => one.x - other.x);
}

/** Draws words beside each other, each as far as there is room before the next. */
function drawLine(svg, labels, y) {
  labels.forEach(({ x, text, kind }, at) => {
    const next = at + 1 < labels.length ? labels[at + 1].x : Infinity;
    const letters = Math.floor((next - x) / LETTER);
    const shown = text.length <= letters ? text : `${text.slice(0, letters - 1)}…`;
    if (shown.length >= Math.min(3, text.length)) draw(svg, 'text', { class: kind, x: x + 1, y }, shown);
  });
}

/** An arc from a store to where it enters memory; of one that doesn't, to the edge. */
function drawArc(svg, [hart, executed, entered, words, bytes]) {
  const begin = across(executed), end = entered ? across(entered) : view.lefts[last() + 1] + RIGHT;
  const base = laneTop(hart) - 2, high = base - Math.min(ARCS - 8, 7 + (end - begin) / 12) * 4 / 3;
  const d = `M ${begin} ${base} C ${begin} ${high} ${end} ${high} ${end} ${base}`;
  const goes = { 'data-go': entered || executed, 'data-executed': executed };
  const group = draw(svg, 'g', { ...goes, class: entered ? 'arc' : 'arc waits' });
  draw(group, 'path', { class: 'seen', d });
  draw(group, 'path', { class: 'hit', d });
  const until = entered ? `enters memory in step ${entered}` : 'still waits at the end';
  titled(group, `store of step ${executed}: ${words} (${bytes}), ${until}`);
}

function showCursor(index) {
  const box = byId('timeline'), x = index ? view.lefts[index] : 0;
  view.cursor.setAttribute('x', x);
  view.cursor.setAttribute('width', index ? width() : EDGE);
  showArcs(box, String(numbers[index]));
  const margin = 3 * width(), left = box.scrollLeft, right = left + box.clientWidth;
  const isSeen = x - margin >= left && x + margin <= right;
  if (!isSeen) box.scrollLeft = x - box.clientWidth / 2;
}

/** Marks the arcs of the store that a step executes, or that enters memory with it. */
function showArcs(box, number) {
  for (const arc of box.querySelectorAll('.arc')) {
    arc.classList.toggle('current', [arc.dataset.executed, arc.dataset.go].includes(number));
  }
}

const LEGEND = [['store', 'store, which waits'], ['drain', 'it enters memory'], ['fence', 'fence'],
  ['atomic', 'AMO, LR, SC'], ['call', 'call'], ['plain', 'another instruction'],
  ['run', 'begins to run, or leaves'], ['signal', 'take, done, signal']];
const LINES = 'Arcs go from a store to where it enters memory. Frames are restartable sequences. ' +
  'Dotted lines are requests of barriers, and signals.';

function buildLegend() {
  const named = thread => make('span', { class: `chip ${colour(thread)}` }, `thread ${thread}`);
  const parts = run.threads.map(named);
  for (const [shape, words] of LEGEND) {
    const svg = drawing({ width: 18, height: 18, class: 'nobody', 'aria-hidden': 'true' });
    drawShape(svg, shape, 9, 2, BLOCK);
    parts.push(make('span', {}, svg, words));
  }
  byId('legend').append(...parts, make('span', {}, LINES));
}

// sequences

function buildSequences() {
  if (!run.sequences.length) {
    byId('sequences').hidden = true;
    return;
  }
  const heads = ['steps', 'hart', 'thread', 'sequence', 'what became of it'], name = 'Restartable sequences';
  byId('sequences').append(scrolled(name, table(name, heads, run.sequences.map(sequenceRow))));
}

function sequenceRow([begin, end, hart, thread, form, ending, name]) {
  const [from, to] = [begin, end].map(number => make('a', { href: `#${number}` }, number));
  const became = make('span', { class: `form ${form}` }, ending);
  return make('tr', {}, make('td', {}, from, ' to ', to), make('td', {}, hart), make('td', {}, chip(thread)),
    make('td', {}, name), make('td', {}, became));
}

// search

function haystack(step) {
  return `${step.deed} ${step.where} ${step.source} ${step.words}`.toLowerCase();
}

/** Whether a text has some words; a line of a file isn't found in one whose number is longer. */
function has(text, words) {
  for (let at = text.indexOf(words); at >= 0; at = text.indexOf(words, at + 1)) {
    const isLonger = /:\d+$/.test(words) && /\d/.test(text[at + words.length] || '');
    if (!isLonger) return true;
  }
  return false;
}

function search() {
  const words = byId('query').value.trim().toLowerCase();
  for (const index of view.matches) byId(`row-${index}`).classList.remove('match');
  const isFound = index => index > 0 && has(haystack(steps[index]), words);
  view.matches = words ? [...steps.keys()].filter(isFound) : [];
  for (const index of view.matches) byId(`row-${index}`).classList.add('match');
  showTicks();
  showMatches();
}

function showTicks() {
  view.ticks.replaceChildren();
  for (const index of view.matches) {
    const x = middle(index);
    draw(view.ticks, 'path', { class: 'tick', d: `M ${x - 4} 0 L ${x + 4} 0 L ${x} 8 Z` });
  }
}

function showMatches() {
  const count = view.matches.length, at = view.matches.indexOf(view.index);
  const words = at < 0 ? `${count} found` : `${at + 1} of ${count}`;
  byId('matches').textContent = byId('query').value.trim() ? words : '';
}

/** Goes to the next match (or, with -1, to the one before), and round at the end. */
function goToMatch(way) {
  if (!view.matches.length) return;
  const ahead = way > 0 ? view.matches : [...view.matches].reverse();
  const found = ahead.find(index => (index - view.index) * way > 0);
  go(found === undefined ? ahead[0] : found);
}

// walking

function told(index) {
  if (!index) return `at the start, before step ${numbers[1] || 1} of ${run.size}`;
  const step = steps[index], whose = step.thread ? `thread ${step.thread}` : 'no thread';
  const words = step.words.length > LONG ? `${step.words.slice(0, LONG)}…` : step.words;
  const number = `step ${step.number} of ${run.size}`;
  const parts = [number, `hart ${step.hart}`, whose, step.deed, step.where, words];
  return parts.filter(Boolean).join(' · ');
}

function go(index) {
  const before = view.index;
  view.index = Math.max(0, Math.min(index, last()));
  byId('slider').value = view.index;
  byId('slider').setAttribute('aria-valuetext', told(view.index));
  byId('number').value = numbers[view.index];
  byId('told').textContent = told(view.index);
  showState(view.index);
  openThread(view.index ? steps[view.index].thread : 1);
  showRow(before, view.index);
  showCursor(view.index);
  showMatches();
  noteAddress();
}

/** Goes to a step; to the next one that is shown where it is folded. */
function goToStep(number) {
  go(indexOf(number));
}

/** The address of the page names the step, so that it can be passed on. */
function noteAddress() {
  try {
    history.replaceState(null, '', `#${numbers[view.index]}`);
  } catch (error) {
    // (some browsers forbid it for a file; the page works without)
  }
}

function goToAddress() {
  const found = /^#(\d+)$/.exec(location.hash);
  if (found && Number(found[1]) !== numbers[view.index]) goToStep(Number(found[1]));
}

/** The next step of the thread that made the last one; with -1 the one before. */
function goOwn(way) {
  const thread = view.index ? steps[view.index].thread : 1;
  for (let index = view.index + way; index >= 1 && index <= last(); index += way) {
    if (steps[index].thread === thread) return go(index);
  }
}

function onKey(event) {
  const isTyping = event.target instanceof HTMLInputElement;
  if (isTyping || event.altKey || event.ctrlKey || event.metaKey) return;
  const way = { ArrowLeft: -1, ArrowRight: 1 }[event.key];
  if (way && event.shiftKey) goOwn(way);
  else if (way) go(view.index + way);
  else if (event.key === 'Home') go(0);
  else if (event.key === 'End') go(last());
  else return;
  event.preventDefault();
}

function zoom(by) {
  view.width = Math.max(0, Math.min(view.width + by, WIDTHS.length - 1));
  drawTimeline();
  showCursor(view.index);
  showTicks();
}

function onClick(id, action) {
  byId(id).addEventListener('click', action);
}

function listen() {
  byId('slider').addEventListener('input', event => go(Number(event.target.value)));
  byId('number').addEventListener('change', event => goToStep(Number(event.target.value)));
  byId('query').addEventListener('input', search);
  byId('search').addEventListener('submit', event => {
    event.preventDefault();
    goToMatch(1);
  });
  onClick('match-before', () => goToMatch(-1));
  onClick('before', () => go(view.index - 1));
  onClick('after', () => go(view.index + 1));
  onClick('first', () => go(0));
  onClick('last', () => go(last()));
  onClick('own-before', () => goOwn(-1));
  onClick('own-after', () => goOwn(1));
  onClick('narrower', () => zoom(-1));
  onClick('wider', () => zoom(1));
  document.addEventListener('keydown', onKey);
  window.addEventListener('hashchange', goToAddress);
}

function start() {
  byId('slider').max = last();
  byId('number').max = run.size;
  buildWatched();
  byId('harts').append(...run.harts.map(buildHart));
  byId('threads').append(...run.threads.map(buildThread));
  buildListing();
  buildSequences();
  buildLegend();
  drawTimeline();
  listen();
  const named = /^#(\d+)$/.exec(location.hash);
  go(named ? indexOf(Number(named[1])) : last());
}

start();
