'use strict';
// The page: what is drawn of the graph, what a click asks, and the lists beside the map.

const byId = name => document.getElementById(name);
const TOKEN = document.querySelector('meta[name=token]').content;
const colour = name => getComputedStyle(document.documentElement).getPropertyValue(`--${name}`).trim();
const NAMES = ['both', 'one', 'bad', 'shut', 'good', 'new', 'gone', 'altered', 'word', 'ink', 'start', 'goal'];
const COLOURS = Object.fromEntries(NAMES.map(name => [name, colour(name)]));
const METRES = 0.0111195;       // a unit of 1e-7 degree of latitude, in metres
const TYPED = 300000;           // a change of at most so many characters is shown in full
const ROWS = 200;               // and a list of at most so many rows

const shown = { graph: null, lines: null, turns: [], shut: [], sequence: '0', tab: 'look', seen: null, changes: null,
  start: null, goal: null, found: null, verdict: null, members: [], text: null };
const tags = new Map();         // what is known of ways and restrictions, by their keys

// ------------------------------------------------------------------------------------------------------------ requests

async function call(path, body) {
  let reply;
  try {
    reply = await fetch(path, { method: body === undefined ? 'GET' : 'POST', headers: { 'X-Token': TOKEN }, body });
  } catch {
    throw new Error('map.py does not answer: was it stopped?');
  }
  if (!reply.ok) throw Object.assign(new Error((await reply.text()).trim()), { status: reply.status });
  return reply;
}

const ask = async (path, body) => (await call(path, body)).json();

/** Does what a person asked for, and tells where it fails. */
async function attempt(work) {
  byId('said').textContent = '';
  try {
    return await work();
  } catch (error) {
    byId('said').textContent = error.message;
    return undefined;
  }
}

/** Fetches what is known of these ways and restrictions, of at most so many. */
async function learn(keys) {
  const unknown = [...new Set(keys)].filter(key => !tags.has(key)).slice(0, 2000);
  if (!unknown.length) return;
  const told = await ask('/tags', unknown.join(' '));
  for (const key of unknown) tags.set(key, told[key] ?? null);
}

const nameOf = key => tags.get(key)?.tags.name ?? tags.get(key)?.tags.ref ?? tags.get(key)?.tags.highway ?? '';

// ---------------------------------------------------------------------------------------------------------------- view

const canvas = document.querySelector('canvas');
const pen = canvas.getContext('2d');
const view = { x: 0, y: 0, scale: 1 };      // the middle, and pixels a unit; a unit is 1e-7 degree of latitude
let squeeze = 1;                            // how much shorter a degree of longitude is here
let width = 1, height = 1;

const xOf = lon => (lon * squeeze - view.x) * view.scale + width / 2;
const yOf = lat => (view.y - lat) * view.scale + height / 2;
const lonAt = x => ((x - width / 2) / view.scale + view.x) / squeeze;
const latAt = y => view.y - (y - height / 2) / view.scale;
const metresAPixel = () => METRES / view.scale;

function zoom(factor, x = width / 2, y = height / 2) {
  const scale = Math.min(20 * METRES, Math.max(1e-6, view.scale * factor));
  view.x += (x - width / 2) * (1 / view.scale - 1 / scale);
  view.y -= (y - height / 2) * (1 / view.scale - 1 / scale);
  view.scale = scale;
  refresh();
}

/** Brings a box into view, with at most so many pixels a metre. */
function fit(box, closest = 2) {
  const [west, south, east, north] = box;
  if (west > east) return;
  view.x = (west + east) / 2 * squeeze;
  view.y = (south + north) / 2;
  const across = Math.max((east - west) * squeeze, 1), up = Math.max(north - south, 1);
  view.scale = Math.min(closest * METRES, 0.9 * width / across, 0.9 * height / up);
  refresh();
}

/** Widens a box so that a place of a piece is in it. */
function include(box, graph, piece, place) {
  const lon = graph.lon(piece, place), lat = graph.lat(piece, place);
  widen(box, 0, lon, lat, lon, lat);
}

function boxOf(graph, pieces) {
  const box = [Infinity, Infinity, -Infinity, -Infinity];
  for (const piece of pieces) {
    for (let place = 0; place < graph.places(piece); place++) include(box, graph, piece, place);
  }
  return box;
}

function piecesOf(graph, block) {
  const first = graph.firstPiece[block];
  return Array.from({ length: graph.firstPiece[block + 1] - first }, (_, at) => first + at);
}

// -------------------------------------------------------------------------------------------------- the network, drawn

// The network is drawn on a sheet of its own, a part in each frame; until it is done, the one before is shown, moved.
let sheet = null, next = null, quota = 20000, lastFrame = 0, wanted = false;
const spare = [];               // canvases of sheets that are no longer shown

function refresh() {
  if (!wanted) requestAnimationFrame(draw);
  wanted = true;
}

/** Begins the network anew, as after a change of the graph. */
function redraw() {
  sheet = next = null;
  refresh();
}

function newSheet() {
  const own = spare.pop() ?? document.createElement('canvas');
  own.width = canvas.width;
  own.height = canvas.height;
  const work = own.getContext('2d');
  work.scale(devicePixelRatio, devicePixelRatio);
  work.lineCap = work.lineJoin = 'round';
  return { own, ...view, width, height, begun: performance.now(), parts: paintNetwork(work), done: false };
}

const isCurrent = of => of && of.x === view.x && of.y === view.y && of.scale === view.scale
  && of.width === width && of.height === height;

function draw(now) {
  wanted = false;
  fitCanvas();
  if (!shown.lines) return;
  if (!isCurrent(sheet) && !isCurrent(next)) {
    if (next) spare.push(next.own);
    next = newSheet();
  }
  if (next) {
    quota = Math.min(200000, Math.max(4000, quota * (now - lastFrame > 40 ? 0.7 : 1.3)));
    next.done = next.parts.next(quota).done;
    if (next.done) {
      if (sheet) spare.push(sheet.own);
      [sheet, next] = [next, null];
    }
  }
  lastFrame = now;
  pen.setTransform(devicePixelRatio, 0, 0, devicePixelRatio, 0, 0);
  pen.clearRect(0, 0, width, height);
  if (sheet) putSheet(sheet);
  if (next && (!sheet || performance.now() - next.begun > 250)) putSheet(next);
  paintAnswers();
  putScale();
  if (next) refresh();
}

function putSheet(of) {
  const factor = view.scale / of.scale;
  const x = (of.x - view.x) * view.scale + width / 2 - of.width / 2 * factor;
  const y = (view.y - of.y) * view.scale + height / 2 - of.height / 2 * factor;
  pen.drawImage(of.own, x, y, of.width * factor, of.height * factor);
}

function fitCanvas() {
  const box = canvas.getBoundingClientRect();
  if (box.width === width && box.height === height && canvas.width === Math.round(width * devicePixelRatio)) return;
  [width, height] = [Math.max(1, box.width), Math.max(1, box.height)];
  canvas.width = Math.round(width * devicePixelRatio);
  canvas.height = Math.round(height * devicePixelRatio);
}

const roadWidth = () => Math.min(7, Math.max(1, 3.6 / Math.sqrt(metresAPixel())));

/** Draws all that is in view; yields where as many points were drawn as it was told. */
function* paintNetwork(work) {
  const inView = [lonAt(-20), latAt(height + 20), lonAt(width + 20), latAt(-20)];
  const taken = new Uint8Array(Math.ceil(width + 1) * Math.ceil(height + 1));
  let drawn = 0, most = 20000;
  for (const bothWays of [1, 0]) {
    work.strokeStyle = work.fillStyle = bothWays ? COLOURS.both : COLOURS.one;
    work.lineWidth = roadWidth();
    work.beginPath();
    for (const line of shown.lines.within(...inView)) {
      if (shown.lines.bothWays[line] !== bothWays) continue;
      drawn += traceLine(work, line, taken);
      if (drawn > most) {
        work.stroke();
        most = yield;
        drawn = 0;
        work.beginPath();
      }
    }
    work.stroke();
  }
  if (metresAPixel() < 4) paintOneways(work, inView);
  paintClosed(work);
}

/** Adds a line to the path, and returns how many points it took; one that is smaller than a pixel becomes a dot. */
function traceLine(work, line, taken) {
  const { lons, lats, first, boxes } = shown.lines, last = first[line + 1] - 1;
  const across = (boxes[4 * line + 2] - boxes[4 * line]) * squeeze * view.scale;
  const up = (boxes[4 * line + 3] - boxes[4 * line + 1]) * view.scale;
  let x = xOf(lons[first[line]]), y = yOf(lats[first[line]]);
  if (across < 1.2 && up < 1.2) {
    const at = Math.floor(y) * Math.ceil(width + 1) + Math.floor(x);
    if (x < 0 || y < 0 || x >= width || y >= height || taken[at]) return 0.05;
    taken[at] = 1;
    work.fillRect(x - 0.5, y - 0.5, 1, 1);
    return 1;
  }
  work.moveTo(x, y);
  let points = 1;
  for (let at = first[line] + 1; at <= last; at++) {
    const u = xOf(lons[at]), v = yOf(lats[at]);
    if (at < last && Math.abs(u - x) < 0.8 && Math.abs(v - y) < 0.8) continue;
    work.lineTo(u, v);
    [x, y] = [u, v];
    points++;
  }
  return points;
}

function arrowHead(work, x, y, dx, dy, size) {
  const length = Math.hypot(dx, dy) || 1, u = dx / length * size, v = dy / length * size;
  work.moveTo(x + u, y + v);
  work.lineTo(x - u * 0.6 - v * 0.7, y - v * 0.6 + u * 0.7);
  work.lineTo(x - u * 0.6 + v * 0.7, y - v * 0.6 - u * 0.7);
  work.closePath();
}

/** A head each so many pixels along a line of points. */
function heads(work, points, size, first = 30, each = 80) {
  let ahead = first;
  for (let at = 1; at < points.length; at++) {
    const [x, y] = points[at - 1], dx = points[at][0] - x, dy = points[at][1] - y, length = Math.hypot(dx, dy);
    for (; ahead <= length; ahead += each) {
      const u = x + dx * ahead / length, v = y + dy * ahead / length;
      if (u > -9 && v > -9 && u < width + 9 && v < height + 9) arrowHead(work, u, v, dx, dy, size);
    }
    ahead -= length;
  }
}

function linePoints(line) {
  const { first, lons, lats } = shown.lines, points = [];
  for (let at = first[line]; at < first[line + 1]; at++) points.push([xOf(lons[at]), yOf(lats[at])]);
  return points;
}

function paintOneways(work, inView) {
  work.fillStyle = '#fff';
  work.strokeStyle = COLOURS.one;
  work.lineWidth = 1;
  work.beginPath();
  for (const line of shown.lines.within(...inView)) {
    if (!shown.lines.bothWays[line]) heads(work, linePoints(line), Math.max(3.5, roadWidth() * 0.9), 22);
  }
  work.fill();
  work.stroke();
}

function piecePoints(graph, piece) {
  return Array.from({ length: graph.places(piece) }, (_, at) => [xOf(graph.lon(piece, at)), yOf(graph.lat(piece, at))]);
}

/** The first part of a line of points, of at most so many pixels. */
function clipped(points, most) {
  const out = [points[0]];
  for (let at = 1; at < points.length; at++) {
    const [x, y] = points[at - 1], [u, v] = points[at], step = Math.hypot(u - x, v - y);
    if (step > most) return [...out, [x + (u - x) * most / step, y + (v - y) * most / step]];
    out.push([u, v]);
    most -= step;
  }
  return out;
}

/** The end of a turn's first piece, the pieces between, and the beginning of its last one. */
function turnPoints(turn) {
  const lines = turn.map(piece => piecePoints(shown.graph, piece));
  const points = clipped(lines[0].reverse(), 16).reverse();
  for (const between of lines.slice(1, -1)) points.push(...between.slice(1));
  return [...points, ...clipped(lines.at(-1), 16).slice(1)];
}

/** Where the last of a turn's pieces begins, on the screen. */
const turnNode = turn => [xOf(shown.graph.lon(turn.at(-1), 0)), yOf(shown.graph.lat(turn.at(-1), 0))];
const inSight = ([x, y]) => x > -30 && y > -30 && x < width + 30 && y < height + 30;

function paintClosed(work) {
  const metres = metresAPixel();
  dots(work, shown.shut.map(turnNode).filter(inSight), COLOURS.shut, metres < 6 ? 4.5 : metres < 20 ? 2 : 1);
  const turns = shown.turns.filter(turn => inSight(turnNode(turn)));
  if (metres > 3) {
    dots(work, turns.map(turnNode), COLOURS.bad, metres < 20 ? 2 : 1);
    return;
  }
  for (const turn of turns) {
    const points = turnPoints(turn);
    strip(work, points, COLOURS.bad, 2.5);
    work.fillStyle = COLOURS.bad;
    work.beginPath();
    const [x, y] = points.at(-2), [u, v] = points.at(-1);
    arrowHead(work, u, v, u - x, v - y, 5.5);
    work.fill();
  }
}

function dots(work, points, fill, size) {
  work.fillStyle = fill;
  for (const [x, y] of points) {
    work.beginPath();
    work.arc(x, y, size, 0, 7);
    work.fill();
  }
}

function strip(work, points, stroke, wide, alpha = 1, dash = []) {
  work.globalAlpha = alpha;
  work.strokeStyle = stroke;
  work.lineWidth = wide;
  work.lineCap = dash.length ? 'butt' : 'round';
  work.lineJoin = 'round';
  work.setLineDash(dash);
  work.beginPath();
  points.forEach(([x, y], at) => (at ? work.lineTo(x, y) : work.moveTo(x, y)));
  work.stroke();
  work.setLineDash([]);
  work.globalAlpha = 1;
}

// -------------------------------------------------------------------------------------------------- the answers, drawn

function paintAnswers() {
  paintChanges();
  if (shown.tab === 'look' && shown.seen !== null) paintSeen();
  if (shown.tab === 'reach') {
    if (shown.found) paintSteps(shown.found, () => COLOURS.good);
    paintPin(shown.start, 'A', COLOURS.start);
    paintPin(shown.goal, 'B', COLOURS.goal);
  }
  if (shown.tab === 'drive') paintDrive();
}

function paintChanges() {
  if (!shown.changes) return;
  const { old, gone, altered, new: fresh } = shown.changes, wide = roadWidth();
  paintBlocks(shown.graph, altered, points => strip(pen, points, COLOURS.altered, wide + 3, 0.75));
  paintBlocks(shown.graph, fresh, points => strip(pen, points, COLOURS.new, wide + 3, 0.75));
  paintBlocks(old, gone, points => strip(pen, points, COLOURS.gone, wide + 1, 1, [7, 5]));
}

function paintBlocks(graph, blocks, paint) {
  for (const piece of blocks.flatMap(block => piecesOf(graph, block))) {
    const points = piecePoints(graph, piece);
    if (points.some(inSight)) paint(points);
  }
}

/** The piece that was clicked, and where one may go on from it and its twin. */
function paintSeen() {
  const { graph, seen } = shown, twin = graph.twin(seen), points = piecePoints(graph, seen);
  for (const piece of twin < 0 ? [seen] : [seen, twin]) {
    for (const arc of graph.contexts(piece)[0].arcs) {
      const part = clipped(piecePoints(graph, arc), 45);
      strip(pen, part, COLOURS.good, roadWidth() + 2);
      pen.fillStyle = COLOURS.good;
      pen.beginPath();
      const [x, y] = part.at(-2), [u, v] = part.at(-1);
      arrowHead(pen, u, v, u - x, v - y, roadWidth() + 5);
      pen.fill();
    }
  }
  strip(pen, points, COLOURS.ink, roadWidth() + 3);
  dots(pen, [points[0], points.at(-1)], COLOURS.ink, roadWidth() / 2 + 3);
}

function stepPoints(step) {
  const at = shown.graph.stepPlaces(step);
  if (!at) return null;
  return [at.from, at.to].map(place => [xOf(shown.graph.lon(at.piece, place)), yOf(shown.graph.lat(at.piece, place))]);
}

/** Runs of steps that have one colour and join, as lines of points. */
function paintSteps(steps, colourOf, wide = roadWidth() + 3) {
  let points = [], stroke = null;
  const put = () => {
    if (points.length < 2) return;
    strip(pen, points, stroke, wide);
    pen.fillStyle = '#fff';
    pen.beginPath();
    heads(pen, points, Math.max(3.5, wide * 0.55), 18, 60);
    pen.fill();
  };
  steps.forEach((step, at) => {
    const ends = stepPoints(step), own = colourOf(at);
    const joins = ends && points.length && own === stroke && Math.hypot(ends[0][0] - points.at(-1)[0],
      ends[0][1] - points.at(-1)[1]) < 0.01;
    if (!joins) {
      put();
      points = ends ? [ends[0]] : [];
    }
    if (ends) points.push(ends[1]);
    stroke = own;
  });
  put();
}

function paintPin(node, letter, fill) {
  const at = node?.at;
  if (!at) return;
  const x = xOf(at[0]), y = yOf(at[1]);
  pen.fillStyle = fill;
  pen.strokeStyle = '#fff';
  pen.lineWidth = 2;
  pen.beginPath();
  pen.moveTo(x, y);
  pen.arc(x, y - 20, 11, 0.75 * Math.PI, 0.25 * Math.PI);
  pen.closePath();
  pen.stroke();
  pen.fill();
  pen.fillStyle = '#fff';
  pen.font = 'bold 12px system-ui, sans-serif';
  pen.textAlign = 'center';
  pen.fillText(letter, x, y - 16);
}

/** The ways of the broken restriction that are roads of the graph, each with its roles. */
function paintMembers() {
  const roles = new Map();
  for (const [key, role] of shown.members) roles.set(key, [...roles.get(key) ?? [], role]);
  const blocks = [...roles].filter(([key]) => key[0] === 'w')
    .map(([key, own]) => [shown.graph.block(BigInt(key.slice(1))), own.join(', ')]).filter(([block]) => block >= 0);
  const band = points => strip(pen, points, COLOURS.word, roadWidth() + 9, 0.28);
  paintBlocks(shown.graph, blocks.map(([block]) => block), band);
  return blocks;
}

function label([x, y], text) {
  pen.font = '600 12px system-ui, sans-serif';
  pen.textAlign = 'left';
  pen.lineWidth = 4;
  pen.strokeStyle = '#fff';
  pen.fillStyle = COLOURS.word;
  pen.strokeText(text, x + 10, y + 4);
  pen.fillText(text, x + 10, y + 4);
}

function paintDrive() {
  const steps = drivenSteps(), verdict = shown.verdict, members = paintMembers();
  if (verdict?.first) paintSteps(steps.slice(verdict.first - 1, verdict.step), () => COLOURS.word, roadWidth() + 9);
  const broken = verdict && !verdict.legal ? verdict.step - 1 : Infinity;
  paintSteps(steps, at => (at < broken ? COLOURS.good : at === broken ? COLOURS.bad : '#9aa3ad'));
  const last = steps.length ? stepPoints(steps.at(-1)) : null;
  if (last) dots(pen, [last[1]], COLOURS.ink, 4);
  for (const [block, role] of members) {
    const pieces = piecesOf(shown.graph, block), points = piecePoints(shown.graph, pieces[pieces.length >> 1]);
    label(points[points.length >> 1], role);
  }
}

function putScale() {
  const metres = 110 * metresAPixel(), power = 10 ** Math.floor(Math.log10(metres));
  const nice = [5, 2, 1].find(times => times * power <= metres) * power;
  byId('scale').style.width = `${nice / metresAPixel()}px`;
  byId('scale').textContent = nice >= 1000 ? `${nice / 1000} km` : `${nice} m`;
}
