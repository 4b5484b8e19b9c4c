'use strict';
// What clicks, words and files ask, and the lists beside the map.

// ------------------------------------------------------------------------------------------------ what a point is near

function nearLines(x, y, most) {
  return shown.lines.within(lonAt(x - most), latAt(y + most), lonAt(x + most), latAt(y - most));
}

/** The line nearest to a point on the screen: its piece, the place before the point, and the part of the way on. */
function roadAt(x, y, most = 14) {
  let best = null;
  for (const line of nearLines(x, y, most)) {
    const points = linePoints(line);
    for (let at = 1; at < points.length; at++) {
      const [u, v] = points[at - 1], dx = points[at][0] - u, dy = points[at][1] - v;
      const part = Math.min(1, Math.max(0, ((x - u) * dx + (y - v) * dy) / (dx * dx + dy * dy || 1)));
      const distance = Math.hypot(x - u - part * dx, y - v - part * dy);
      if (distance < (best?.distance ?? most)) {
        best = { piece: shown.lines.piece[line], place: at - 1, part, distance };
      }
    }
  }
  return best;
}

/** The node nearest to a point on the screen, with its location. */
function nodeAt(x, y, most = 24) {
  let best = null;
  for (const line of nearLines(x, y, most)) {
    linePoints(line).forEach(([u, v], place) => {
      const distance = Math.hypot(x - u, y - v);
      if (distance < (best?.distance ?? most)) best = { piece: shown.lines.piece[line], place, distance };
    });
  }
  return best && placedNode(best.piece, best.place);
}

function placedNode(piece, place) {
  const { graph } = shown;
  return { id: graph.node(piece, place), at: [graph.lon(piece, place), graph.lat(piece, place)] };
}

/** The closed turn that is drawn at a point, or one over a node that a barrier closes. */
function closedAt(x, y) {
  const near = ([u, v], most) => Math.hypot(x - u, y - v) < most;
  const shut = shown.shut.find(turn => near(turnNode(turn), 8));
  if (shut) return shut;
  return shown.turns.find(turn => (metresAPixel() > 3 ? near(turnNode(turn), 5)
    : turnPoints(turn).slice(-2).some(point => near(point, 7)) && !near(turnNode(turn), 3)));
}

/** Where a node stands that was typed, or null. */
function nodeCalled(number) {
  const { graph, lines } = shown, wanted = BigInt.asIntN(64, number);
  const low = Number(BigInt.asIntN(32, wanted)), high = Number(BigInt.asIntN(32, wanted >> 32n));
  const isThere = at => graph.bytes.getInt32(at, true) === low && graph.bytes.getInt32(at + 4, true) === high;
  for (const piece of lines.piece) {
    for (let place = 0; place < graph.places(piece); place++) {
      if (isThere(graph.placeAt(piece, place))) return placedNode(piece, place);
    }
  }
  return null;
}

// ---------------------------------------------------------------------------------------------------- parts of a panel

function make(tag, given, ...children) {
  const element = Object.assign(document.createElement(tag), given);
  element.append(...children.filter(child => child !== null && child !== undefined));
  return element;
}

function rows(list, row) {
  const more = list.length - ROWS;
  return make('div', { className: 'rows' }, ...list.slice(0, ROWS).map(row),
    more > 0 ? make('div', { className: 'row' }, make('small', {}, `and ${more} more`)) : null);
}

/** A row that brings a box into view: a name as the program writes it, what it is called, and maybe a number. */
function goRow(code, text, box, more = '', number = '') {
  const row = make('div', { className: `row go ${more}`, tabIndex: 0 }, make('span', {}, make('code', {}, code), ' ',
    make('small', {}, text)), make('small', { className: 'number' }, number));
  row.onclick = () => fit(box());
  row.onkeydown = event => { if (event.key === 'Enter') fit(box()); };
  return row;
}

function table(pairs) {
  const row = ([name, value]) => make('tr', {}, make('td', {}, name), make('td', {}, value));
  return make('table', {}, ...pairs.map(row));
}

function rounded(metres) { return metres < 1000 ? `${metres.toFixed(0)} m` : `${(metres / 1000).toFixed(2)} km`; }

function pieceMetres(graph, piece) {
  let sum = 0;
  for (let at = 1; at < graph.places(piece); at++) sum += graph.metres(piece, at - 1, at);
  return sum;
}

function stepsMetres(steps) {
  const { graph } = shown;
  return steps.reduce((sum, step) => {
    const at = graph.stepPlaces(step);
    return at ? sum + graph.metres(at.piece, at.from, at.to) : sum;
  }, 0);
}

function stepsBox(steps) {
  const box = [Infinity, Infinity, -Infinity, -Infinity], { graph } = shown;
  for (const step of steps) {
    const at = graph.stepPlaces(step);
    for (const place of at ? [at.from, at.to] : []) include(box, graph, at.piece, place);
  }
  return box;
}

/** Runs of steps over one way in one direction. */
function runs(steps) {
  const found = [];
  for (const step of steps) {
    const key = step.slice(0, step.indexOf('.')), sign = step.at(-1), last = found.at(-1);
    if (last?.key === key && last.sign === sign) last.steps.push(step);
    else found.push({ key, sign, steps: [step] });
  }
  return found;
}

// ------------------------------------------------------------------------------------------------------------- looking

async function look(x, y) {
  const closed = closedAt(x, y);
  if (closed) {
    openTab('drive');
    setSteps(closed.flatMap(piece => shown.graph.steps(piece, false)));
    return;
  }
  await see(roadAt(x, y)?.piece ?? null);
}

/** Shows a piece, or none, with what is known of it. */
async function see(piece) {
  const { graph } = shown;
  shown.seen = piece;
  refresh();
  byId('seen').replaceChildren();
  if (piece === null) return;
  const twin = graph.twin(piece), last = graph.places(piece) - 1, key = `w${graph.way(piece)}`;
  const both = twin < 0 ? [piece] : [piece, twin];
  const arcs = both.flatMap(one => graph.contexts(one).flatMap(context => context.arcs));
  await learn([key, ...arcs.map(arc => `w${graph.way(arc)}`)]);
  if (shown.seen !== piece) return;
  byId('seen').append(table([
    ['way', `${key} ${nameOf(key)}`],
    ['piece', twin < 0 ? `${pieceName(piece)}, one way` : `${pieceName(piece)} and ${pieceName(twin)}, both ways`],
    ['nodes', `n${graph.node(piece, 0)} to n${graph.node(piece, last)}, ${last + 1} in all`],
    ['length', rounded(pieceMetres(graph, piece))],
    ...Object.entries(tags.get(key)?.tags ?? {}),
  ]));
  for (const one of both) byId('seen').append(...onward(one));
}

function pieceName(piece) {
  const { graph } = shown;
  return `${graph.way(piece)}.${graph.index(piece)}${graph.direction(piece) ? '-' : '+'}`;
}

/** Where one may go on from a piece, by what one came over where that matters. */
function onward(piece) {
  const { graph } = shown;
  return graph.contexts(piece).flatMap(({ before, arcs }) => [
    make('h2', {}, `From ${[...before, piece].map(pieceName).join(' ')} one may go on by`),
    arcs.length ? rows(arcs, arc => goRow(pieceName(arc), nameOf(`w${graph.way(arc)}`), () => boxOf(graph, [arc])))
      : 'no piece',
  ]);
}

async function find(text) {
  const words = text.trim().split(/[\s,]+/), { graph } = shown;
  if (/^w-?\d{1,19}$/.test(words[0])) {
    const block = graph.block(BigInt(words[0].slice(1)));
    if (block < 0) throw new Error(`${words[0]} has no piece: it is no road, or closed to cars`);
    fit(boxOf(graph, piecesOf(graph, block)));
    await see(graph.firstPiece[block]);
  } else if (/^n-?\d{1,19}$/.test(words[0])) {
    const node = nodeCalled(BigInt(words[0].slice(1)));
    if (!node) throw new Error(`${words[0]} is on no road of the graph`);
    fit([node.at[0], node.at[1], node.at[0], node.at[1]]);
  } else {
    const [lon, lat] = words.map(Number);
    const isPlace = words.length === 2 && Math.abs(lon) <= 180 && Math.abs(lat) <= 90;
    if (!isPlace) throw new Error('type a node as n101, a way as w201, or a longitude and a latitude');
    fit([lon * 1e7, lat * 1e7, lon * 1e7, lat * 1e7]);
  }
}

// ------------------------------------------------------------------------------------------------------------ reaching

function pickNode(x, y) {
  const node = nodeAt(x, y);
  if (!node) return;
  const field = shown.start === null || shown.goal !== null ? 'start' : 'goal';
  if (field === 'start') forget();
  shown[field] = node;
  byId(field).value = node.id;
  if (field === 'goal') attempt(reach);
  refresh();
}

function forget() {
  shown.start = shown.goal = shown.found = null;
  byId('start').value = byId('goal').value = '';
  byId('found').replaceChildren();
  refresh();
}

/** Asks for a drive between the nodes that stand in the two fields. */
async function reach() {
  const [start, goal] = ['start', 'goal'].map(field => {
    const text = byId(field).value.trim().replace(/^n/, '');
    if (!/^-?\d{1,19}$/.test(text)) throw new Error('a node is a number: click two nodes, or type them');
    return BigInt(text);
  });
  shown.start = nodeCalled(start) ?? { id: start };
  shown.goal = nodeCalled(goal) ?? { id: goal };
  shown.found = null;
  byId('found').replaceChildren();
  refresh();
  const { steps } = await ask('/reach', `${start} ${goal}`);
  shown.found = steps ?? [];
  if (steps) await learn(runs(steps).map(run => run.key));
  tellFound(steps);
  refresh();
}

function tellFound(steps) {
  if (!steps) {
    byId('found').replaceChildren(make('div', { className: 'verdict bad' }, make('b', {}, 'none'),
      'No legal drive leads from A to B.'));
    return;
  }
  const found = runs(steps), over = () => {
    openTab('drive');
    setSteps(steps);
  };
  byId('found').replaceChildren(
    make('div', { className: 'verdict good' }, make('b', {}, `a drive of ${rounded(stepsMetres(steps))}`),
      `${steps.length} steps, ${found.length} stretches of way`),
    make('div', { className: 'line' }, make('button', { onclick: over }, 'Drive it'),
      make('button', { onclick: () => fit(stepsBox(steps)) }, 'Show all of it')),
    rows(found, run => goRow(runName(run.steps), nameOf(run.key), () => stepsBox(run.steps), '',
      rounded(stepsMetres(run.steps)))));
}

const runName = steps => (steps.length > 1 ? `${steps[0]} … ${steps.at(-1).split('.')[1]}` : steps[0]);

// ------------------------------------------------------------------------------------------------------------- driving

const RULES = {
  'no-step': () => 'It names no two neighbouring positions of a way.',
  'no-node': node => `Node ${node} is not there, or has no location.`,
  closed: key => `The way is closed to cars: its ${key} says so.`,
  'wrong-way': () => 'The way is one way, and this is against it.',
  apart: () => 'It does not begin where the step before ended.',
  barrier: node => `A barrier closes node ${node}.`,
  reversal: node => `One may not turn round at node ${node}.`,
  no: relation => `Restriction ${relation} forbids this turn.`,
  only: relation => `Restriction ${relation} demands another way here.`,
};

let clicks = [];        // how many steps each click added
let asked = 0;          // so that of several answers the last one is shown

const drivenSteps = () => byId('steps').value.split(/\s+/).filter(Boolean);

function setSteps(steps, added = [steps.length]) {
  byId('steps').value = steps.join(' ');
  clicks = added;
  attempt(judge);
}

/** Adds the piece at a point, or of it one step, in the direction in which the drive goes on or the click points. */
function addRoad(x, y) {
  const road = roadAt(x, y);
  if (!road) return;
  const { graph } = shown, { piece } = road, last = graph.places(piece) - 1, steps = drivenSteps();
  const before = steps.length ? graph.stepPlaces(steps.at(-1)) : null;
  const end = before && graph.node(before.piece, before.to);
  const nodes = Array.from({ length: last + 1 }, (_, place) => graph.node(piece, place));
  const single = byId('single').checked, clicked = road.place + road.part;
  let from = nodes.indexOf(end), forward = from >= 0 ? from < clicked : clicked > last / 2;
  if (single) forward = nodes[road.place] === end || (nodes[road.place + 1] !== end && road.part > 0.5);
  else if (from < 0) from = forward ? 0 : last;
  const all = graph.steps(piece, !forward);
  const own = single ? [all[forward ? road.place : last - 1 - road.place]] : all.slice(forward ? from : last - from);
  setSteps([...steps, ...own], [...clicks, own.length]);
}

function undo() {
  const steps = drivenSteps(), count = clicks.at(-1) ?? 1;
  setSteps(steps.slice(0, Math.max(0, steps.length - count)), clicks.slice(0, -1));
}

/** Turns what the last click added round. */
function flip() {
  const steps = drivenSteps(), count = Math.min(clicks.at(-1) ?? 1, steps.length), kept = steps.length - count;
  const turned = steps.slice(kept).reverse().map(step => step.slice(0, -1) + (step.endsWith('+') ? '-' : '+'));
  setSteps([...steps.slice(0, kept), ...turned], clicks);
}

async function judge() {
  const steps = drivenSteps(), own = ++asked;
  shown.verdict = null;
  shown.members = [];
  refresh();
  if (!steps.length) {
    byId('verdict').replaceChildren();
    return;
  }
  const verdict = await ask('/drive', steps.join(' '));
  const [rule, relation] = verdict.legal ? [] : verdict.rule.split(' ');
  const key = rule === 'no' || rule === 'only' ? `r${relation}` : null;
  if (key) await learn([key]);
  const members = key ? tags.get(key)?.members ?? [] : [];
  const named = [...steps.map(step => step.split('.')[0]), ...members.map(([name]) => name)];
  await learn(named.filter(name => /^w-?\d+$/.test(name)));
  if (own !== asked) return;
  shown.verdict = verdict;
  shown.members = members;
  tellVerdict(steps, verdict, key);
  refresh();
}

function tellVerdict(steps, verdict, key) {
  const [rule, named] = verdict.legal ? [] : verdict.rule.split(' ');
  const said = verdict.legal
    ? make('div', { className: 'verdict good' }, make('b', {}, 'legal'),
      `${steps.length} steps, ${rounded(stepsMetres(steps))}`)
    : make('div', { className: 'verdict bad' }, make('b', {}, `broken at step ${verdict.step}: ${verdict.rule}`),
      RULES[rule]?.(named) ?? '');
  const first = Math.max(0, (verdict.step ?? 0) - ROWS / 2);      // so that the broken step is in the list
  byId('verdict').replaceChildren(said, ...(key ? restriction(key, steps, verdict) : []),
    rows(steps.slice(first), (step, at) => stepRow(step, first + at, verdict)));
}

function restriction(key, steps, verdict) {
  const { first, step } = verdict, told = tags.get(key);
  const parts = [make('p', { className: 'hint' }, `It speaks of the steps ${first} to ${step}, in violet.`)];
  if (!told) return parts;
  const members = told.members.map(([name, role]) => [role || 'member', memberName(name)]);
  return [...parts, table([...Object.entries(told.tags), ...members])];
}

function memberName(key) {
  const isGone = key[0] === 'w' && shown.graph.block(BigInt(key.slice(1))) < 0;
  return `${key} ${key[0] === 'w' ? nameOf(key) : ''}${isGone ? ' (no road of the graph)' : ''}`;
}

function stepRow(step, at, verdict) {
  const number = at + 1, broken = !verdict.legal && number === verdict.step;
  const later = !verdict.legal && number > verdict.step;
  const word = verdict.first && number >= verdict.first && number <= verdict.step;
  const kind = [broken ? 'bad' : '', later ? 'later' : '', word ? 'word' : ''].join(' ');
  const said = shown.graph.stepPlaces(step) ? nameOf(step.split('.')[0]) : 'not in the graph';
  return goRow(`${number}. ${step}`, said, () => stepsBox([step]), kind);
}

// ------------------------------------------------------------------------------------------------------------ changing

/** Takes a change from a file. A large one isn't shown. */
async function takeFile(file) {
  openTab('change');
  const text = await file.text();
  shown.text = text.length > TYPED ? text : null;
  byId('lines').value = shown.text === null ? text : `# ${file.name}: ${text.length} characters, ready to be applied`;
  byId('lines').readOnly = shown.text !== null;
  byId('changed').replaceChildren();
}

/** Sends the change under the next number, and shows what became of the graph. */
async function apply() {
  const text = shown.text ?? byId('lines').value, number = BigInt(shown.sequence) + 1n, button = actButton('apply');
  if (!text.trim()) throw new Error('there are no lines');
  tellChange('The change is being applied …');
  button.disabled = true;
  try {
    await ask(`/change?${number}`, text);
    await showChanged(number);
  } catch (error) {
    if (error.status < 500) tellRefused(error.message);
    else {
      tellChange(`It is not known whether change ${number} was kept: when the page is loaded again, its number tells.`);
      throw error;
    }
  } finally {
    button.disabled = false;
  }
}

const actButton = name => document.querySelector(`[data-act=${name}]`);
const tellChange = text => byId('changed').replaceChildren(make('p', { className: 'hint' }, text));

async function showChanged(number) {
  byId('lines').value = '';
  byId('lines').readOnly = false;
  shown.text = null;
  const old = shown.graph;
  await load();
  tags.clear();
  shown.changes = { old, ...compared(old, shown.graph) };
  actButton('hide').disabled = false;
  await tellChanged(number);
}

/** Says why a change was refused, and marks the line that is in fault. */
function tellRefused(reason) {
  byId('changed').replaceChildren(make('div', { className: 'verdict bad' }, make('b', {}, 'refused'), reason,
    make('br'), 'Nothing has changed.'));
  const line = /^line (\d+) /.exec(reason);
  if (!line || shown.text !== null) return;
  const before = byId('lines').value.split('\n').slice(0, Number(line[1]));
  const end = before.join('\n').length;
  byId('lines').focus();
  byId('lines').setSelectionRange(end - before.at(-1).length, end);
}

async function tellChanged(number) {
  const { old, gone, altered, new: fresh } = shown.changes;
  const list = [...gone.map(block => ['gone', old, block]), ...fresh.map(block => ['new', shown.graph, block]),
    ...altered.map(block => ['altered', shown.graph, block])];
  const ways = list.map(([, graph, block]) => `w${graph.way(graph.firstPiece[block])}`);
  await learn(ways);
  byId('changed').replaceChildren(
    make('div', { className: 'verdict good' }, make('b', {}, `change ${number} is kept`),
      `${fresh.length} ways are new, ${gone.length} are gone, ${altered.length} are altered.`),
    make('div', { className: 'line' }, make('button', { onclick: showChanges }, 'Show all of it')),
    rows(list.map((one, at) => [...one, ways[at]]), ([kind, graph, block, way]) => {
      const row = goRow(way, `${nameOf(way)} ${kind}`, () => boxOf(graph, piecesOf(graph, block)));
      row.prepend(make('i', { className: `dot ${kind}` }));
      return row;
    }));
  refresh();
}

function showChanges() {
  const { old, gone, altered, new: fresh } = shown.changes;
  const there = boxOf(shown.graph, [...altered, ...fresh].flatMap(block => piecesOf(shown.graph, block)));
  const box = boxOf(old, gone.flatMap(block => piecesOf(old, block)));
  widen(box, 0, ...there);
  fit(box);
}

function hideChanges() {
  shown.changes = null;
  byId('changed').replaceChildren();
  actButton('hide').disabled = true;
  refresh();
}

// --------------------------------------------------------------------------------------------- buttons and the pointer

const ACTS = {
  closer: () => zoom(1.6), farther: () => zoom(1 / 1.6), whole: () => fit(shown.lines.extent),
  swap: () => {
    [byId('start').value, byId('goal').value] = [byId('goal').value, byId('start').value];
    return reach();
  },
  forget, undo, flip, clear: () => setSteps([], []), apply, choose: () => byId('file').click(), hide: hideChanges,
};
const CLICKS = { look, reach: pickNode, drive: addRoad, change: look };

function openTab(name) {
  shown.tab = name;
  const every = selector => document.querySelectorAll(selector);
  for (const tab of every('[data-tab]')) tab.setAttribute('aria-selected', tab.dataset.tab === name);
  for (const part of every('[data-of]')) part.hidden = part.dataset.of !== name;
  byId('said').textContent = '';
  if (name === 'drive' && shown.lines && !shown.verdict) attempt(judge);
  refresh();
}

function listenToButtons() {
  document.addEventListener('click', event => {
    const button = event.target.closest('button');
    if (button?.dataset.tab) openTab(button.dataset.tab);
    if (button?.dataset.act && shown.lines) attempt(ACTS[button.dataset.act]);
  });
  for (const [form, work] of [['find', () => find(byId('find').querySelector('input').value)], ['ask', reach]]) {
    byId(form).addEventListener('submit', event => {
      event.preventDefault();
      attempt(work);
    });
  }
  let pause = 0;
  byId('steps').addEventListener('input', () => {
    clicks = [];
    clearTimeout(pause);
    pause = setTimeout(() => attempt(judge), 300);
  });
  byId('file').addEventListener('change', () => {
    if (byId('file').files[0]) attempt(() => takeFile(byId('file').files[0]));
    byId('file').value = '';
  });
}

function listenToFiles() {
  const mark = isOn => document.body.classList.toggle('dropping', isOn);
  document.addEventListener('dragover', event => {
    event.preventDefault();
    mark(true);
  });
  document.addEventListener('dragleave', event => { if (!event.relatedTarget) mark(false); });
  document.addEventListener('drop', event => {
    event.preventDefault();
    mark(false);
    if (event.dataTransfer.files[0]) attempt(() => takeFile(event.dataTransfer.files[0]));
  });
}

const fingers = new Map();      // where each pointer is that is down
let moved = 0;                  // how far they went since the first one came down

function spot(event) {
  const box = canvas.getBoundingClientRect();
  return [event.clientX - box.left, event.clientY - box.top];
}

const middle = points => [points.reduce((sum, p) => sum + p[0], 0) / points.length,
  points.reduce((sum, p) => sum + p[1], 0) / points.length];
const apart = points => (points.length > 1 ? Math.hypot(points[0][0] - points[1][0], points[0][1] - points[1][1]) : 1);

/** Moves and zooms the view as the pointers that are down move. */
function follow(event) {
  const before = [...fingers.values()];
  fingers.set(event.pointerId, spot(event));
  const after = [...fingers.values()], [x, y] = middle(before), [u, v] = middle(after);
  moved += Math.hypot(u - x, v - y) + Math.abs(apart(after) - apart(before));
  if (moved < 5) return;
  canvas.classList.add('moving');
  view.x -= (u - x) / view.scale;
  view.y += (v - y) / view.scale;
  if (after.length > 1) zoom(apart(after) / Math.max(1, apart(before)), u, v);
  refresh();
}

function listenToPointers() {
  canvas.addEventListener('pointerdown', event => {
    if (!fingers.size) moved = 0;
    fingers.set(event.pointerId, spot(event));
    canvas.setPointerCapture(event.pointerId);
    byId('tip').hidden = true;
  });
  canvas.addEventListener('pointermove', event => (fingers.has(event.pointerId) ? follow(event) : hover(event)));
  canvas.addEventListener('pointerup', event => {
    const isClick = fingers.size === 1 && moved < 5 && event.button === 0;
    fingers.delete(event.pointerId);
    canvas.classList.remove('moving');
    if (isClick && shown.lines) attempt(() => CLICKS[shown.tab](...spot(event)));
  });
  canvas.addEventListener('pointercancel', event => fingers.delete(event.pointerId));
  canvas.addEventListener('pointerleave', () => { byId('tip').hidden = true; });
  canvas.addEventListener('wheel', event => {
    event.preventDefault();
    const lines = event.deltaMode === 1 ? 24 : 1;
    zoom(Math.exp(-Math.max(-240, Math.min(240, event.deltaY * lines)) / 300), ...spot(event));
  }, { passive: false });
  canvas.addEventListener('keydown', event => {
    const by = { ArrowLeft: [-80, 0], ArrowRight: [80, 0], ArrowUp: [0, 80], ArrowDown: [0, -80] }[event.key];
    if (event.key === '+' || event.key === '-') zoom(event.key === '+' ? 1.6 : 1 / 1.6);
    if (!by) return;
    event.preventDefault();
    view.x += by[0] / view.scale;
    view.y += by[1] / view.scale;
    refresh();
  });
}

/** Names what the pointer is over. */
function hover(event) {
  if (!shown.lines || event.pointerType === 'touch') return;
  const [x, y] = spot(event), tip = byId('tip');
  const node = shown.tab === 'reach' ? nodeAt(x, y) : null, road = node ? null : roadAt(x, y, 8);
  const key = road ? `w${shown.graph.way(road.piece)}` : '';
  tip.hidden = !node && !road;
  tip.textContent = node ? `n${node.id}` : `${key} ${nameOf(key)}`;
  if (road && !tags.has(key)) learn([key]).then(() => { if (!tip.hidden) hover(event); }, () => {});
  tip.style.left = `${Math.min(x + 14, width - tip.offsetWidth - 4)}px`;
  tip.style.top = `${Math.min(y + 14, height - tip.offsetHeight - 4)}px`;
}

// ----------------------------------------------------------------------------------------------------------- the start

const pause = () => new Promise(done => { setTimeout(done, 0); });

/** Asks for the graph, and shows it. The closed turns are found once it is drawn. */
async function load() {
  const state = await ask('/state');
  shown.graph = new Graph(await (await call('/graph')).arrayBuffer());
  shown.lines = new Lines(shown.graph);
  Object.assign(shown, { sequence: state.sequence, seen: null, found: null, verdict: null, turns: [], shut: [],
    members: [], isSearched: false });
  const [west, south, east, north] = shown.lines.extent;
  squeeze = west <= east ? Math.cos((south + north) / 2 * Math.PI / 1.8e9) : 1;
  const counts = ['ways', 'pieces', 'arcs'].map(name => `${state[name].toLocaleString('en')} ${name}`);
  byId('counts').textContent = [`change ${state.sequence}`, ...counts].join(' · ');
  for (const part of ['seen', 'found', 'verdict']) byId(part).replaceChildren();
  setTimeout(findClosed, 50);
  redraw();
}

function findClosed() {
  Object.assign(shown, missingTurns(shown.graph), { isSearched: true });
  redraw();
}

async function start() {
  openTab('look');
  listenToButtons();
  listenToFiles();
  listenToPointers();
  new ResizeObserver(refresh).observe(canvas);
  if (matchMedia('(max-width: 760px)').matches) byId('legend').open = false;
  fitCanvas();
  await attempt(async () => {
    await load();
    fit(shown.lines.extent);
  });
  byId('busy').hidden = true;
}

start();
