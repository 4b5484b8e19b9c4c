'use strict';
// The bytes of a graph (docs/FORMATS.md), read in place: tables tell where its blocks and pieces stand. A piece and a
// block are known by their place in these tables. Numbers of 64 bits are compared as two halves, so none is rounded.

const RECORD = 16, NAME = 13, ARC = 17;     // bytes of a place, of a name and of an arc
const FAR = 2 ** 31 - 1;                    // farther than any longitude or latitude

/** A list of numbers that grows. */
class Column {
  constructor(kind) { this.list = new kind(1024); this.length = 0; }
  push(value) {
    if (this.length === this.list.length) {
      const more = new this.list.constructor(2 * this.length);
      more.set(this.list);
      this.list = more;
    }
    this.list[this.length++] = value;
  }
  done() { return this.list.subarray(0, this.length); }
}

/** Numbers of 64 bits, as two halves, and to each an identity, counted from 0 on. */
class Numbers {
  constructor(most) {
    let size = 16;
    while (size < 2 * most) size *= 2;
    this.low = new Int32Array(size);
    this.high = new Int32Array(size);
    this.ids = new Int32Array(size).fill(-1);
    this.count = 0;
  }
  add(low, high) {
    const mask = this.ids.length - 1;
    let at = Math.imul(low, 0x9E3779B1) ^ Math.imul(high, 0x85EBCA6B);
    at = (at ^ at >>> 15) & mask;
    while (this.ids[at] >= 0 && (this.low[at] !== low || this.high[at] !== high)) at = at + 1 & mask;
    if (this.ids[at] < 0) {
      this.low[at] = low;
      this.high[at] = high;
      this.ids[at] = this.count++;
    }
    return this.ids[at];
  }
}

class Graph {
  constructor(buffer) {
    this.buffer = buffer;
    this.bytes = new DataView(buffer);
    const magic = String.fromCharCode(...new Uint8Array(buffer, 0, Math.min(8, buffer.byteLength)));
    if (magic !== 'OSMROAD1' && magic !== 'OSMROAD2') throw new Error('the bytes are no graph');
    this.sourced = magic === 'OSMROAD2';        // then pieces have marks, and contexts sources
    this.head = this.sourced ? 10 : 9;          // bytes of a piece before its places
    try {
      this.readBlocks(this.count(12));
    } catch (error) {
      throw error instanceof RangeError ? new Error('the bytes of the graph end early') : error;
    }
  }

  /** A count of 64 bits. */
  count(at) { return this.bytes.getUint32(at, true) + this.bytes.getUint32(at + 4, true) * 2 ** 32; }

  readBlocks(count) {
    const table = { blocks: new Column(Uint32Array), firsts: new Column(Uint32Array), pieces: new Column(Uint32Array),
      owners: new Column(Uint32Array), contexts: new Column(Uint32Array) };
    let at = 20;
    for (let block = 0; block < count; block++) {
      table.blocks.push(at);
      table.firsts.push(table.pieces.length);
      const pieces = this.bytes.getUint32(at + 8, true);
      at += 12;
      for (let piece = 0; piece < pieces; piece++) {
        table.pieces.push(at);
        table.owners.push(block);
        at += this.head + RECORD * (this.bytes.getUint32(at + 4, true) - this.bytes.getUint32(at, true) + 1);
        table.contexts.push(at);
        at = this.behindContexts(at);
      }
    }
    if (at !== this.buffer.byteLength) throw new Error('bytes stand behind the graph');
    table.blocks.push(at);
    table.firsts.push(table.pieces.length);
    this.blockCount = count;
    this.pieceCount = table.pieces.length;
    this.blockAt = table.blocks.done();
    this.firstPiece = table.firsts.done();
    this.pieceAt = table.pieces.done();
    this.blockOf = table.owners.done();
    this.contextsAt = table.contexts.done();
  }

  behindContexts(at) {
    let contexts = this.count(at);
    at += 8;
    for (; contexts > 0; contexts--) {
      at += 4 + NAME * (this.bytes.getUint32(at, true) - 1);
      at += 8 + ARC * this.count(at);
      at = this.behindSources(at);
    }
    return at;
  }

  /** The byte behind the sources of a context, if a file has them. */
  behindSources(at) {
    if (!this.sourced) return at;
    let sources = this.count(at);
    at += 8;
    for (; sources > 0; sources--) at += 4 + NAME * this.bytes.getUint32(at, true);
    return at;
  }

  // a piece
  index(piece) { return this.bytes.getUint32(this.pieceAt[piece], true); }
  end(piece) { return this.bytes.getUint32(this.pieceAt[piece] + 4, true); }
  direction(piece) { return this.bytes.getUint8(this.pieceAt[piece] + 8); }
  places(piece) { return this.end(piece) - this.index(piece) + 1; }
  placeAt(piece, place) { return this.pieceAt[piece] + this.head + RECORD * place; }
  lon(piece, place) { return this.bytes.getInt32(this.placeAt(piece, place) + 8, true); }
  lat(piece, place) { return this.bytes.getInt32(this.placeAt(piece, place) + 12, true); }
  node(piece, place) { return this.bytes.getBigInt64(this.placeAt(piece, place), true); }
  way(piece) { return this.bytes.getBigInt64(this.blockAt[this.blockOf[piece]], true); }
  /** The place at which a position of the way stands. */
  placeOf(piece, position) { return this.direction(piece) ? this.end(piece) - position : position - this.index(piece); }
  /** The metres between two places of a piece. */
  metres(piece, from, to) {
    return metresBetween(this.lon(piece, from), this.lat(piece, from), this.lon(piece, to), this.lat(piece, to));
  }
  /** The piece over the same positions in the other direction, or -1. */
  twin(piece) {
    const other = piece + (this.direction(piece) ? -1 : 1);
    return this.blockOf[other] === this.blockOf[piece] && this.index(other) === this.index(piece) ? other : -1;
  }
  /** The steps of a piece, or of one against it, in order of travel. */
  steps(piece, against) {
    const way = this.way(piece), backward = (this.direction(piece) === 1) !== against, steps = [];
    for (let at = this.index(piece); at < this.end(piece); at++) steps.push(`w${way}.${at}${backward ? '-' : '+'}`);
    return backward ? steps.reverse() : steps;
  }

  // names
  block(way) {
    let low = 0, high = this.blockCount - 1;
    while (low <= high) {
      const middle = (low + high) >> 1, there = this.bytes.getBigInt64(this.blockAt[middle], true);
      if (there === way) return middle;
      if (there < way) low = middle + 1; else high = middle - 1;
    }
    return -1;
  }
  /** The block of the way whose number stands at this byte. */
  blockNamed(at) {
    const bytes = this.bytes, wantedHigh = bytes.getInt32(at + 4, true), wantedLow = bytes.getUint32(at, true);
    let low = 0, high = this.blockCount - 1;
    while (low <= high) {
      const middle = (low + high) >> 1, there = this.blockAt[middle];
      const order = bytes.getInt32(there + 4, true) - wantedHigh || bytes.getUint32(there, true) - wantedLow;
      if (order === 0) return middle;
      if (order < 0) low = middle + 1; else high = middle - 1;
    }
    return -1;
  }
  /** The piece whose name stands at this byte, or -1. */
  pieceNamed(at) {
    const block = this.blockNamed(at);
    if (block < 0) return -1;
    const index = this.bytes.getUint32(at + 8, true), direction = this.bytes.getUint8(at + 12);
    let low = this.firstPiece[block], high = this.firstPiece[block + 1] - 1;
    while (low <= high) {
      const middle = (low + high) >> 1;
      const order = this.index(middle) - index || this.direction(middle) - direction;
      if (order === 0) return middle;
      if (order < 0) low = middle + 1; else high = middle - 1;
    }
    return -1;
  }
  /** The contexts of a piece: the pieces of each before its own one, and its arcs' pieces. */
  contexts(piece) {
    let at = this.contextsAt[piece] + 8;
    const contexts = [];
    for (let left = this.count(at - 8); left > 0; left--) {
      const before = [], arcs = [];
      for (let names = this.bytes.getUint32(at, true) - 1; names > 0; names--, at += NAME) {
        before.push(this.pieceNamed(at + 4));
      }
      at += 12;
      for (let names = this.count(at - 8); names > 0; names--, at += ARC) arcs.push(this.pieceNamed(at));
      at = this.behindSources(at);
      contexts.push({ before, arcs });
    }
    return contexts;
  }
  /** Where a step runs, given as w12.3+: a piece, and the places between which it does; null where none has it. */
  stepPlaces(step) {
    const found = /^w(-?\d{1,19})\.(\d{1,10})([+-])$/.exec(step);
    const block = found ? this.block(BigInt(found[1])) : -1, position = found ? Number(found[2]) : 0;
    for (let piece = this.firstPiece[block] ?? 0; block >= 0 && piece < this.firstPiece[block + 1]; piece++) {
      if (this.index(piece) <= position && position < this.end(piece)) {
        const from = this.placeOf(piece, position), to = this.placeOf(piece, position + 1);
        return found[3] === '+' ? { piece, from, to } : { piece, from: to, to: from };
      }
    }
    return null;
  }
}

/** The metres between two places, on a sphere; in units of 1e-7 degree. */
function metresBetween(lon, lat, otherLon, otherLat) {
  const radian = Math.PI / 1.8e9;
  const chord = Math.sin((otherLat - lat) * radian / 2) ** 2
    + Math.cos(lat * radian) * Math.cos(otherLat * radian) * Math.sin((otherLon - lon) * radian / 2) ** 2;
  return 2 * 6371000 * Math.asin(Math.sqrt(Math.min(1, chord)));
}

/** For each piece the identity of the node where it begins and ends, and the pieces that begin at each node. */
function endsOf(graph) {
  const { bytes, pieceCount } = graph, numbers = new Numbers(2 * pieceCount);
  const tail = new Int32Array(pieceCount), head = new Int32Array(pieceCount);
  const identity = at => numbers.add(bytes.getInt32(at, true), bytes.getInt32(at + 4, true));
  for (let piece = 0; piece < pieceCount; piece++) {
    tail[piece] = identity(graph.placeAt(piece, 0));
    head[piece] = identity(graph.placeAt(piece, graph.places(piece) - 1));
  }
  const first = new Uint32Array(numbers.count + 1), leaving = new Uint32Array(pieceCount);
  for (const node of tail) first[node + 1]++;
  for (let node = 0; node < numbers.count; node++) first[node + 1] += first[node];
  const next = first.slice();
  for (let piece = 0; piece < pieceCount; piece++) leaving[next[tail[piece]]++] = piece;
  return { tail, head, first, leaving, nodes: numbers.count };
}

/** The turns that no arc takes, as lists of pieces; and turns at nodes where no turn is left but those back, as one
 * pair of pieces for each such node.
 *
 * A turn is missing where a piece begins at a piece's end, is no way back, and has no arc; and where a context of
 * several pieces lacks an arc that its last piece has alone. Where none is left a barrier stands. */
function missingTurns(graph) {
  const { bytes, pieceCount } = graph, ends = endsOf(graph);
  const open = new Uint8Array(ends.nodes), found = [], arcOf = new Int32Array(pieceCount).fill(-1);
  for (let piece = 0; piece < pieceCount; piece++) {
    const contexts = graph.contexts(piece), node = ends.head[piece];
    for (const arc of contexts[0].arcs) arcOf[arc] = piece;
    const back = graph.placeAt(piece, graph.places(piece) - 2);
    for (let at = ends.first[node]; at < ends.first[node + 1]; at++) {
      const onward = ends.leaving[at], next = graph.placeAt(onward, 1);
      const turnsBack = bytes.getInt32(next, true) === bytes.getInt32(back, true)
        && bytes.getInt32(next + 4, true) === bytes.getInt32(back + 4, true);
      if (turnsBack) continue;
      if (arcOf[onward] === piece) open[node] = 1; else found.push([piece, onward]);
    }
    for (const { before, arcs } of contexts.slice(1)) {
      for (const arc of contexts[0].arcs) if (!arcs.includes(arc)) found.push([...before, piece, arc]);
    }
  }
  const nodeOf = turn => ends.head[turn.at(-2)];
  const known = new Set(), turns = [], shut = new Map();
  for (const turn of found) if (open[nodeOf(turn)]) known.add(turn.join());
  for (const turn of found) {
    if (!open[nodeOf(turn)]) shut.set(nodeOf(turn), shut.get(nodeOf(turn)) ?? turn);
    else if (!endsWithOne(turn, known)) turns.push(turn);
  }
  return { turns, shut: [...shut.values()] };
}

/** Whether a turn ends with a shorter one of these, so that it says nothing new. */
function endsWithOne(turn, known) {
  for (let at = 1; at < turn.length - 1; at++) if (known.has(turn.slice(at).join())) return true;
  return false;
}

/** Which blocks of two graphs differ: those of the old one that are gone, those of the new one that are new, and
 * those that stand in both with other bytes, as they stand in the new one. */
function compared(old, graph) {
  const changes = { gone: [], new: [], altered: [] };
  const mine = new Uint8Array(graph.buffer), other = new Uint8Array(old.buffer);
  for (let a = 0, b = 0; a < old.blockCount || b < graph.blockCount;) {
    const left = a < old.blockCount ? old.bytes.getBigInt64(old.blockAt[a], true) : null;
    const right = b < graph.blockCount ? graph.bytes.getBigInt64(graph.blockAt[b], true) : null;
    if (right === null || (left !== null && left < right)) changes.gone.push(a++);
    else if (left === null || right < left) changes.new.push(b++);
    else {
      if (!sameBytes(other, old.blockAt[a], old.blockAt[a + 1], mine, graph.blockAt[b], graph.blockAt[b + 1])) {
        changes.altered.push(b);
      }
      a++;
      b++;
    }
  }
  return changes;
}

function sameBytes(left, from, to, right, otherFrom, otherTo) {
  if (to - from !== otherTo - otherFrom) return false;
  for (let at = from, other = otherFrom; at < to; at++, other++) if (left[at] !== right[other]) return false;
  return true;
}

/** What is drawn of a graph: a line for each piece and its twin, near ones in one group. */
class Lines {
  constructor(graph) {
    this.graph = graph;
    const pieces = [];
    for (let piece = 0; piece < graph.pieceCount; piece++) {
      if (graph.direction(piece) === 0 || graph.twin(piece) < 0) pieces.push(piece);
    }
    this.count = pieces.length;
    this.readBoxes(pieces);
    this.sortByPlace(pieces);
    this.readPlaces();
    this.group(64);
  }

  readBoxes(pieces) {
    this.extent = [Infinity, Infinity, -Infinity, -Infinity];
    const { graph, extent } = this;
    let places = 0;
    for (const piece of pieces) {
      const last = graph.places(piece) - 1;
      places += last + 1;
      for (const place of [0, last]) {
        extent[0] = Math.min(extent[0], graph.lon(piece, place));
        extent[1] = Math.min(extent[1], graph.lat(piece, place));
        extent[2] = Math.max(extent[2], graph.lon(piece, place));
        extent[3] = Math.max(extent[3], graph.lat(piece, place));
      }
    }
    this.placeCount = places;
  }

  /** Orders the pieces by the square of a grid in which each begins, along Morton's curve. */
  sortByPlace(pieces) {
    const { graph, extent } = this, size = Math.max(extent[2] - extent[0], extent[3] - extent[1], 1);
    const keys = Float64Array.from(pieces, (piece, at) => {
      const x = (graph.lon(piece, 0) - extent[0]) / size * 4095, y = (graph.lat(piece, 0) - extent[1]) / size * 4095;
      return (spread(x) + 2 * spread(y)) * 2 ** 28 + at;
    });
    this.piece = Uint32Array.from(keys.sort(), key => pieces[key % 2 ** 28]);
  }

  readPlaces() {
    const { graph } = this;
    this.first = new Uint32Array(this.count + 1);
    this.lons = new Int32Array(this.placeCount);
    this.lats = new Int32Array(this.placeCount);
    this.bothWays = new Uint8Array(this.count);
    let at = 0;
    for (let line = 0; line < this.count; line++) {
      const piece = this.piece[line], places = graph.places(piece);
      this.bothWays[line] = graph.twin(piece) < 0 ? 0 : 1;
      for (let place = 0; place < places; place++, at++) {
        this.lons[at] = graph.lon(piece, place);
        this.lats[at] = graph.lat(piece, place);
      }
      this.first[line + 1] = at;
    }
  }

  /** The boxes of lines, and of groups of so many neighbouring ones: west, south, east, north. */
  group(size) {
    this.groupSize = size;
    this.boxes = new Int32Array(4 * this.count);
    this.groups = new Int32Array(4 * Math.ceil(this.count / size));
    for (const boxes of [this.boxes, this.groups]) boxes.forEach((_, at) => { boxes[at] = at % 4 < 2 ? FAR : -FAR; });
    for (let line = 0; line < this.count; line++) {
      for (let at = this.first[line]; at < this.first[line + 1]; at++) {
        widen(this.boxes, 4 * line, this.lons[at], this.lats[at], this.lons[at], this.lats[at]);
      }
      widen(this.groups, 4 * Math.floor(line / size), ...this.boxes.subarray(4 * line, 4 * line + 4));
    }
  }

  /** The lines whose boxes meet this one. */
  *within(west, south, east, north) {
    for (let group = 0; group * 4 < this.groups.length; group++) {
      if (!meets(this.groups, 4 * group, west, south, east, north)) continue;
      const last = Math.min(this.count, (group + 1) * this.groupSize);
      for (let line = group * this.groupSize; line < last; line++) {
        if (meets(this.boxes, 4 * line, west, south, east, north)) yield line;
      }
    }
  }
}

function widen(boxes, at, west, south, east, north) {
  boxes[at] = Math.min(boxes[at], west);
  boxes[at + 1] = Math.min(boxes[at + 1], south);
  boxes[at + 2] = Math.max(boxes[at + 2], east);
  boxes[at + 3] = Math.max(boxes[at + 3], north);
}

function meets(boxes, at, west, south, east, north) {
  return boxes[at] <= east && boxes[at + 2] >= west && boxes[at + 1] <= north && boxes[at + 3] >= south;
}

/** The lower twelve bits of a number, each moved to twice its place. */
function spread(number) {
  let bits = number & 4095;
  bits = (bits | bits << 8) & 0x00FF00FF;
  bits = (bits | bits << 4) & 0x0F0F0F0F;
  bits = (bits | bits << 2) & 0x33333333;
  return (bits | bits << 1) & 0x55555555;
}
