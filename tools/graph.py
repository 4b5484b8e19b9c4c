#!/usr/bin/env python3
"""Asks a graph that osmroad wrote, draws it, and writes it for other programs; needs nothing but Python.

docs/GRAPH.md tells what each command does, with examples, and graph.py COMMAND --help tells it in short.
"""
import csv
import heapq
import json
import math
import os
import re
import signal
import sys
from array import array
from collections import namedtuple
from contextlib import contextmanager
from inspect import cleandoc

sys.dont_write_bytecode = True      # the import below leaves no folder beside the tools
import certificate                                          # noqa: E402
from graph_file import Graph, Network, Refusal, spelled     # noqa: E402


# ------------------------------------------------------------------------------------------------------- places, metres

RADIANS = math.pi / 1800000000      # in a unit of places
RADIUS = 6371000                    # of the sphere, in metres
HALF, TURN = 1800000000, 3600000000


def metres(places):
    """The length of a line of places, on a sphere."""
    total, (_, x, y) = 0.0, places[0]
    x, y = x * RADIANS, y * RADIANS
    for _, u, v in places[1:]:
        u, v = u * RADIANS, v * RADIANS
        chord = math.sin((v - y) / 2) ** 2 + math.cos(y) * math.cos(v) * math.sin((u - x) / 2) ** 2
        total += 2 * RADIUS * math.asin(math.sqrt(min(1.0, chord)))
        x, y = u, v
    return total


def shorter_way(lon):
    """A difference of longitudes, as the shorter way round the world."""
    return lon if -HALF <= lon < HALF else (lon + HALF) % TURN - HALF


def place_at(places, position):
    """The place at a position, which may lie between two places: then it is no node's."""
    index = int(position)
    if position == index:
        return places[index]
    (_, x, y), (_, u, v) = places[index:index + 2]
    part = position - index
    return None, shorter_way(round(x + part * shorter_way(u - x))), round(y + part * (v - y))


def cut(places, first, last):
    """The part of a line of places between two positions."""
    if first == last:
        return [place_at(places, first)]
    between = places[int(first) + 1:math.ceil(last)]
    return [place_at(places, first)] + between + [place_at(places, last)]


def degrees(place):
    return f'{place[1] / 1e7:.7f},{place[2] / 1e7:.7f}'


def nearest_on(places, place):
    """How far a line of places is from a place, in metres on a plane, and the position that is nearest."""
    _, lon, lat = place
    squeeze, least, nearest = math.cos(lat * RADIANS), math.inf, 0.0
    _, x, y = places[0]
    a, b = shorter_way(x - lon) * squeeze, y - lat
    for index, (_, u, v) in enumerate(places[1:]):
        east, north = shorter_way(u - x) * squeeze, v - y
        length = east * east + north * north
        part = min(1.0, max(0.0, -(a * east + b * north) / length)) if length else 0.0
        away = math.hypot(a + part * east, b + part * north)
        if away < least:
            least, nearest = away, index + part
        x, y, a, b = u, v, a + east, b + north
    return least * RADIANS * RADIUS, nearest


def nearest_spots(graph, place):
    """The pieces that come as near to a place as any, within a millimetre, each with its nearest position; and how many
    metres that is from the place."""
    near, least = [], math.inf
    for piece in range(len(graph.keys)):
        away, position = nearest_on(graph.places(piece), place)
        if away <= least + 0.001:
            near.append((away, piece, position))
            least = min(least, away)
    if not near:
        raise Refusal('the graph has no piece')
    spots = {piece: position for away, piece, position in near if away <= least + 0.001}
    return spots, min(metres([place, place_at(graph.places(piece), at)]) for piece, at in spots.items())


# ---------------------------------------------------------------------------------------------------- the tags of ways

KEYS = ('name', 'highway', 'maxspeed', 'ref')
WAY = re.compile(rb'[ \t]*w(-?)0*([0-9]{1,19})(?=[ \t\r\n]|$)')


def text_of(spelled_bytes):
    """What a key or a value of an OPL line says: %h% stands for the character of this code."""
    text = re.sub('%([0-9a-fA-F]{1,6})%', lambda found: chr(int(found[1], 16)), spelled_bytes.decode())
    text.encode()       # fails where a code is that of no character
    return text


def tags_of(field):
    """The values of KEYS in a field of tags; where a key stands twice the first one counts."""
    found = {}
    for tag in field.split(b',') if field else []:
        key, _, value = tag.partition(b'=')
        found.setdefault(text_of(key), text_of(value))
    return tuple(found.get(key, '') for key in KEYS)


def way_line(line):
    """The version and the tags of a way's line; no tags where it deletes the way."""
    fields = {field[:1]: field[1:] for field in line.replace(b'\t', b' ').rstrip(b'\r\n').split(b' ')[1:] if field}
    tags = tags_of(fields.get(b'T', b''))
    return int(fields.get(b'v') or 0), None if fields.get(b'd') == b'D' else tags


def read_tags(graph, files):
    """The tags that OPL files leave to the ways of a graph: for each way a value for each of KEYS, maybe empty. Of the
    lines of a way the one with the greatest version counts, and of several with that version the first one."""
    ways, found = set(graph.ways), {}
    for name in files:
        with naming(name), open(name, 'rb') as lines:
            for number, line in enumerate(lines, 1):
                begin = WAY.match(line)
                if begin and int(begin[1] + begin[2]) in ways:
                    keep_tags(found, int(begin[1] + begin[2]), line.strip(b' \t'), f'{name}: line {number}')
    missing = [way for way in graph.ways if found.get(way, (0, None))[1] is None]
    if files and missing:
        raise Refusal(f'of the {len(graph.ways)} ways of the graph {len(missing)} do not stand in the OPL, first way '
                      f'{missing[0]}')
    return {way: tags for way, (_, tags) in found.items()}


def keep_tags(found, way, line, where):
    try:
        version, tags = way_line(line)
    except ValueError as fault:         # also of bytes that are no UTF-8
        raise Refusal(f'{where} is no line of OPL: {fault}') from None
    if way not in found or found[way][0] < version:
        found[way] = version, tags


# ------------------------------------------------------------------------------------------- counts, text, geojson, csv


def print_counts(graph):
    """How many ways, pieces, contexts and arcs the graph has, and how many of the pieces are marked, if any are."""
    counts = f'ways {len(graph.ways)} pieces {len(graph.keys)} contexts {len(graph.contexts_at)} arcs {graph.arcs}'
    print(counts, *['marked', sum(graph.marks)] if any(graph.marks) else [])


def print_text(network):
    """A line for each piece with its nodes, for each of its contexts, and for each of their arcs and sources.

    10.0+ is the piece that begins along way 10 at its position 0, and 10.0- the one against the way that ends there. A
    piece is marked where its direction is open to destination traffic alone.
    """
    for piece in range(len(network.keys)):
        lines = [f'piece {spelled(network, piece)} {"marked " if network.marks[piece] else ""}over']
        lines[0] += ''.join([f' {node}' for node, _, _ in network.places(piece)])
        for context in network.contexts(piece):
            lines.append('  context ' + spelled(network, *network.pieces(context)))
            for target in network.arcs_of(context):
                lines.append('    arc to ' + spelled(network, *network.pieces(target)))
            for origin in network.sources_of(context):
                lines.append('    source ' + spelled(network, *network.pieces(origin)))
        print('\n'.join(lines))


def print_geojson(graph, options):
    """The pieces as lines with properties, among them their metres, to be dropped onto a map.

    With --opl also the tags name, highway, maxspeed and ref of their ways, where these have them. It may stand several
    times, as for an extract and its changes: of each way the line with the greatest version counts.
    """
    tags = read_tags(graph, options['--opl'])
    print('{"type": "FeatureCollection", "features": [')
    between = ''
    for piece in range(len(graph.keys)):
        way, index, direction = graph.name(piece)
        places = graph.places(piece)
        arcs = graph.first_arcs[graph.first_contexts[piece + 1]] - graph.first_arcs[graph.first_contexts[piece]]
        properties = {
            'piece': spelled(graph, piece), 'way': way, 'index': index, 'end': graph.ends[piece],
            'direction': ('forward', 'backward')[direction],
            'from_node': places[0][0], 'to_node': places[-1][0],
            'contexts': len(graph.contexts(piece)), 'arcs': arcs, 'metres': round(metres(places), 3),
        }
        if graph.marks[piece]:
            properties['marked'] = True
        properties.update((key, value) for key, value in zip(KEYS, tags.get(way, ())) if value)
        line = ', '.join([f'[{lon / 1e7}, {lat / 1e7}]' for _, lon, lat in places])
        print(f'{between}{{"type": "Feature", "properties": {json.dumps(properties)}, '
              f'"geometry": {{"type": "LineString", "coordinates": [{line}]}}}}', end='')
        between = ',\n'
    print('\n]}')


def write_table(folder, name, head, rows):
    """Writes a file of a folder, whole or not at all."""
    path = os.path.join(folder, name)
    with naming(path):
        try:
            with open(path + '.part', 'w', encoding='utf-8', newline='') as file:
                table = csv.writer(file, lineterminator='\n')
                table.writerow(head)
                table.writerows(rows)
            os.replace(path + '.part', path)
        finally:
            if os.path.exists(path + '.part'):
                os.remove(path + '.part')


def vertices(network, lengths, tags):
    """The rows of vertices.csv."""
    for vertex, piece in enumerate(network.owners):
        way, index, direction = network.name(piece)
        pieces = network.pieces(vertex)
        from_node, *begin = network.place(piece, 0)
        to_node, *end = network.place(piece, network.last(piece))
        at = [f'{number / 1e7:.7f}' for number in begin + end]
        yield [vertex, spelled(network, *pieces), len(pieces), way, index, network.ends[piece], '+-'[direction],
               from_node, to_node, *at, f'{lengths[piece]:.3f}', *tags.get(way, ())]


def edges(network, lengths, tags):
    """The rows of edges.csv."""
    for source in range(len(network.owners)):
        for edge in range(network.first_arcs[source], network.first_arcs[source + 1]):
            target = network.targets[edge]
            piece = network.owners[target]
            ends = network.place(piece, 0)[0], network.place(piece, network.last(piece))[0]
            yield [edge, source, target, spelled(network, piece), *ends, f'{lengths[piece]:.3f}',
                   *tags.get(network.piece_ways[piece], ())]


def write_csv(network, options, folder):
    """Writes a directed graph for any router: contexts are its vertices, and arcs its edges.

    Into the folder come vertices.csv and edges.csv, whose columns docs/GRAPH.md tells. An edge has the metres of the
    piece that it leads over; a drive that begins with a vertex of one piece is as long as that vertex and its edges
    together. With --opl both files have the tags name, highway, maxspeed and ref of the way. It may stand several
    times, as for an extract and its changes: of each way the line with the greatest version counts.
    """
    tags = read_tags(network, options['--opl'])
    lengths = array('d', (metres(network.places(piece)) for piece in range(len(network.keys))))
    with naming(folder):
        os.makedirs(folder, exist_ok=True)
    keys = KEYS if options['--opl'] else ()
    head = ['vertex', 'names', 'pieces', 'way', 'index', 'end', 'direction', 'from_node', 'to_node',
            'from_lon', 'from_lat', 'to_lon', 'to_lat', 'metres', *keys]
    write_table(folder, 'vertices.csv', head, vertices(network, lengths, tags))
    head = ['edge', 'source', 'target', 'piece', 'from_node', 'to_node', 'metres', *keys]
    write_table(folder, 'edges.csv', head, edges(network, lengths, tags))


# ----------------------------------------------------------------------------------------------------------------- diff


def pieces_of(graph, block):
    return range(graph.first_pieces[block], graph.first_pieces[block + 1])


def names_and_ends(graph, block):
    return [(graph.keys[piece], graph.ends[piece]) for piece in pieces_of(graph, block)]


def places_of(graph, block):
    return [graph.places(piece) for piece in pieces_of(graph, block)]


def arcs_of(graph, block):
    """The contexts of a way with their arcs, as they are spelled."""
    contexts = range(graph.first_contexts[graph.first_pieces[block]],
                     graph.first_contexts[graph.first_pieces[block + 1]])
    return [graph.data[graph.contexts_at[at]:graph.sources_at[at]] for at in contexts]


def marks_of(graph, block):
    return [graph.marks[piece] for piece in pieces_of(graph, block)]


def bytes_of_block(graph, block):
    return graph.data[graph.blocks[block]:graph.blocks[block + 1]]


def altered(old, new, block, other):
    """What differs first between a way's blocks in two graphs, or nothing. A graph of version 1 says nothing of marks
    and sources."""
    looks = [('pieces', names_and_ends), ('places', places_of), ('turns', arcs_of)]
    if old.version == new.version:
        if bytes_of_block(old, block) == bytes_of_block(new, other):
            return None
        looks += [('marks', marks_of), ('sources', bytes_of_block)]
    return next((what for what, look in looks if look(old, block) != look(new, other)), None)


def print_diff(old, new):
    """Which ways are gone, new and altered from one graph to another, and how many.

    A line for each, in the order of their numbers. Of an altered way it is said what differs first: where its pieces
    begin and end (`pieces`), their nodes and locations (`places`), which piece may follow which (`turns`), which of
    them are marked (`marks`), or from where one comes to them (`sources`). Graphs of two versions or two profiles are
    told so in lines before all others; of two versions neither marks nor sources are compared. The status is 0 also
    where there is nothing to say.
    """
    if old.version != new.version:
        print(f'version {old.version} and then {new.version}')
    if old.profile != new.profile:
        print(f'profile {old.profile} and then {new.profile}')
    counts = {'gone': 0, 'new': 0, 'altered': 0, 'as before': 0}
    block = other = 0
    while block < len(old.ways) or other < len(new.ways):
        way = min(list(old.ways[block:block + 1]) + list(new.ways[other:other + 1]))
        was = block < len(old.ways) and old.ways[block] == way
        now = other < len(new.ways) and new.ways[other] == way
        what = altered(old, new, block, other) if was and now else None
        kind = 'gone' if not now else 'new' if not was else 'altered' if what else 'as before'
        counts[kind] += 1
        if kind != 'as before':
            print(kind, way, *[what] if what else [])
        block += was
        other += now
    print('ways: ' + ', '.join(f'{count} {kind}' for kind, count in counts.items()))


# ------------------------------------------------------------------------------------------------------------------ svg

WIDTH = 4000    # of the picture, in the units in which its lines are written
REACH = 70      # how far a turn is drawn before and behind its nodes, in the same units
MOST = 100      # where more pieces meet no turns are looked for, nor are turns over more pieces drawn
STEPS = 1024    # over this many steps a turn is drawn: a restriction whose via ways have more is of no use


class Picture:
    """Where places stand in the picture: longitude and latitude, shrunk to the width, with north above."""

    def __init__(self, box):
        self.west, south, east, self.north = box
        self.squeeze = math.cos(math.radians((south + self.north) / 2e7))
        wide, high = (east - self.west) * self.squeeze, self.north - south
        self.scale = WIDTH / max(wide, high, 1)
        self.size = (round(wide * self.scale) + 160, round(high * self.scale) + 160)

    def point(self, place):
        x = (place[1] - self.west) * self.squeeze * self.scale
        return round(x) + 80, round((self.north - place[2]) * self.scale) + 80

    def points(self, places):
        return [self.point(place) for place in places]


def path(line):
    """A line of points in the words of svg, each point relative to the one before."""
    (x, y), words = line[0], []
    words.append(f'M{x} {y}')
    for u, v in line[1:]:
        if (u, v) != (x, y):
            words.append(f'l{u - x} {v - y}')
        x, y = u, v
    return ''.join(words) if len(words) > 1 else ''


def pieces_at(network, shown, box):
    """The pieces that end at each node in the box, or anywhere where there is none; and those that begin there."""
    coming, leaving = {}, {}
    for piece in shown:
        for at, found in ((network.last(piece), coming), (0, leaving)):
            node, lon, lat = network.place(piece, at)
            if box is None or meets(box, (lon, lat, lon, lat)):
                found.setdefault(node, []).append(piece)
    return coming, leaving


def missing_turns(network, shown, box):
    """The turns between pieces that no arc takes, as tuples of pieces, and the nodes at which no turn is left but ways
    back.

    A turn is missing where a piece begins at a context's end, is no way back, and has no arc; and where a context of
    several pieces lacks an arc that its last piece has alone. At a node where none is left a barrier stands.
    """
    coming, leaving = pieces_at(network, shown, box)
    turns, closed = set(), set()
    for node, pieces in coming.items():
        here = leaving.get(node, [])
        if max(len(here), len(pieces)) <= MOST:
            found, tried, passed = turns_at(network, pieces, here)
            turns |= found if passed else set()
            closed |= {node} if tried and not passed else set()
    # a longer turn that ends with a shorter one says nothing new
    return sorted(t for t in turns if not any(t[i:] in turns for i in range(1, len(t) - 1))), closed


def turns_at(network, coming, leaving):
    """The turns at a node that are missing, whether there are any but ways back, and whether any of these is left."""
    found, tried, passed = set(), False, False
    for piece in coming:
        first, *others = network.contexts(piece)
        back = network.place(piece, network.last(piece) - 1)[0]
        onward = {other for other in leaving if network.place(other, 1)[0] != back}
        alone = {network.owners[target] for target in network.arcs_of(first)}
        tried, passed = tried or bool(onward), passed or bool(onward & alone)
        found |= {(piece, other) for other in onward - alone}
        for context in others:
            turn = network.pieces(context)
            if len(turn) < MOST and sum(network.last(between) for between in turn[1:]) <= STEPS:
                lacking = alone.intersection(leaving) - {network.owners[target] for target in network.arcs_of(context)}
                found |= {turn + (other,) for other in lacking}
    return found, tried, passed


def clipped(line, most):
    """The first part of a line of points, of at most so many units."""
    out = [line[0]]
    for (x, y), (u, v) in zip(line, line[1:]):
        step = math.dist((x, y), (u, v))
        if step > most:
            out.append((round(x + (u - x) * most / step), round(y + (v - y) * most / step)))
            return out
        out.append((u, v))
        most -= step
    return out


def turn_line(network, picture, turn):
    """The end of a turn's first piece, the pieces between, and the beginning of its last one."""
    begin = network.places(turn[0], max(0, network.last(turn[0]) - STEPS))
    line = clipped(picture.points(begin)[::-1], REACH)[::-1]
    for between in turn[1:-1]:
        line += picture.points(network.places(between))[1:]
    return line + clipped(picture.points(network.places(turn[-1], 0, STEPS)), REACH)[1:]


def street_lines(graph, picture, shown):
    """The lines of the pieces that are driven both ways, and of those that are driven one way."""
    both, one = [], []
    for piece in shown:
        twin = graph.has_twin(piece)
        if not (twin and graph.keys[piece] & 1):
            (both if twin else one).append(path(picture.points(graph.places(piece))))
    return '\n'.join(both), '\n'.join(one)


def around(boxes):
    """The box round all of these, or round nothing."""
    west, south, east, north = next(boxes, (0, 0, 0, 0))
    for a, b, c, d in boxes:
        west, south, east, north = min(west, a), min(south, b), max(east, c), max(north, d)
    return west, south, east, north


def meets(box, other):
    return box[0] <= other[2] and other[0] <= box[2] and box[1] <= other[3] and other[1] <= box[3]


CREDIT = '© OpenStreetMap contributors, ODbL'     # whoever shows a map of this data has to name it
ARROW = ('<marker id="head" viewBox="0 0 4 4" refX="2" refY="2" markerWidth="4" markerHeight="4" orient="auto">'
         '<path stroke="none" fill="#d02" d="M0 0l4 2l-4 2z"/></marker>')


def drive_lines(network, picture, file):
    """The drive of a file, which holds a reply to `route` or `reach`, as lines of points."""
    _, steps = certificate.read_reply(text_in(file, bytes_of(file)))
    if not steps:
        raise Refusal(f'{file}: no drive')
    lines, end = [], None
    for piece, at in (certificate.read_step(network, step) for step in steps):
        tail, head = network.places(piece, at, at + 1)
        if tail != end:
            lines.append([picture.point(tail)])
        lines[-1].append(picture.point(head))
        end = head
    return lines


def print_drive(lines):
    """A drive over the network, from a ring to a dot."""
    line = ''.join(path(part) for part in lines)
    (x, y), (u, v) = lines[0][0], lines[-1][-1]
    print(f'<path stroke="#2a3" stroke-width="20" d="{line}"/>')
    print(f'<path stroke="#2a3" stroke-width="56" d="M{x} {y}h0M{u} {v}h0"/>')
    print(f'<path stroke="#fff" stroke-width="28" d="M{x} {y}h0"/>')


def print_svg(network, options):
    """The network drawn, with the turns that restrictions take away, and a drive.

    Grey is driven both ways, blue one way; red arrows are turns that restrictions take away, and orange dots are closed
    by barriers. With --box W,S,E,N, in degrees, only this part is drawn. With --drive FILE, which holds a reply to
    `route` or `reach`, its drive is drawn in green, from a ring to a dot. At a node where more than 100 pieces meet no
    turns are looked for.
    """
    shown, box = range(len(network.keys)), options['--box']
    if box:
        shown = [piece for piece in shown if meets(network.box(piece), box)]
        if not shown:
            raise Refusal('no piece is in this box: --box takes west, south, east and north')
    picture = Picture(box or around(network.box(piece) for piece in shown))
    driven = drive_lines(network, picture, options['--drive']) if options['--drive'] else []
    both, one = street_lines(network, picture, shown)
    turns, closed = missing_turns(network, shown, box)
    begins = (network.place(piece, 0) for piece in shown)
    points = {place[0]: picture.point(place) for place in begins if place[0] in closed}
    dots = ''.join('M{} {}h0'.format(*points[node]) for node in sorted(points))
    width, height = picture.size
    print(f'<svg xmlns="http://www.w3.org/2000/svg" viewBox="0 0 {width} {height}" width="{width // 4}" '
          f'height="{height // 4}" fill="none" stroke-linecap="round" stroke-linejoin="round">')
    print(ARROW)
    print(f'<path stroke="none" fill="#fff" d="M0 0h{width}v{height}h-{width}z"/>')
    print(f'<path stroke="#666" stroke-width="7" d="{both}"/>')
    print(f'<path stroke="#28c" stroke-width="7" d="{one}"/>')
    if driven:
        print_drive(driven)
    print(f'<path stroke="#f90" stroke-width="22" d="{dots}"/>')
    for turn in turns:
        line = path(turn_line(network, picture, turn))
        print(f'<path stroke="#d02" stroke-width="9" marker-end="url(#head)" d="{line}"/>')
    print(f'<text x="40" y="{height - 30}" font-size="44" font-family="sans-serif" fill="#666">{CREDIT}</text>')
    print('</svg>')


# ------------------------------------------------------------------------------------------------------- nearest, route


def print_nearest(graph, lon, lat):
    """What of the network is nearest to a place in degrees.

    How far it is, and where; the pieces there, each with the metres from its beginning and its length; and that node of
    these pieces that is nearest to the spot.
    """
    place = place_of(f'{lon},{lat}')
    spots, away = nearest_spots(graph, place)
    nodes = []
    for piece, position in spots.items():
        places = graph.places(piece)
        spot = place_at(places, position)
        nodes.append(min((metres([spot, other]), other[0]) for other in places))
        if len(nodes) == 1:
            print(f'{away:.1f} m away at {degrees(spot)}')
        print(f'piece {spelled(graph, piece)} from node {places[0][0]} to node {places[-1][0]}, '
              f'{metres(cut(places, 0, position)):.1f} of {metres(places):.1f} m')
    far, node = min(nodes)
    print(f'node {node} is {far:.1f} m from there')


def ends_of_drive(graph, word):
    """The pieces over which a node stands, or that are nearest to a place, each with the positions there; and what the
    node or the place is called."""
    if ',' in word:
        spots, away = nearest_spots(graph, place_of(word))
        return {piece: [position] for piece, position in spots.items()}, f'{word}, {away:.0f} m from the road,'
    node = whole_number(word)
    found = {}
    for piece in range(len(graph.keys)):
        positions = [position for position, place in enumerate(graph.places(piece)) if place[0] == node]
        if positions:
            found[piece] = positions
    if not found:
        raise Refusal(f'the graph has no node {node}')
    return found, f'node {node}'


class Frontier:
    """How far contexts are from one end of a drive: from there, or to there. Each has the context from which it was
    come upon, and those that may yet lead on wait."""

    def __init__(self, count):
        self.best, self.came = array('d', [math.inf]) * count, array('q', [-1]) * count
        self.waiting = []

    def offer(self, length, context, by):
        """A context at this length, come upon by another one. Whether that is the best so far."""
        if length >= self.best[context]:
            return False
        self.best[context], self.came[context] = length, by
        heapq.heappush(self.waiting, (length, context))
        return True

    def least(self):
        """No context that waits has less."""
        return self.waiting[0][0] if self.waiting else math.inf

    def take(self):
        """The context with the least length; None where it was come upon for less since."""
        length, context = heapq.heappop(self.waiting)
        return context if length == self.best[context] else None


class Search:
    """Dijkstra's algorithm with contexts in the place of nodes: a context tells all that restrictions ask of the drive
    so far. A walk begins at a context of one piece. A drive may begin and end inside a piece. In a graph of version 2
    the search goes from both ends, by arcs ahead and by sources behind; without sources it goes ahead alone."""

    def __init__(self, network, starts, goals, still):
        self.network, self.goals = network, goals
        self.lengths = array('d', [-1.0]) * len(network.keys)
        self.ahead, self.behind = Frontier(len(network.owners)), Frontier(len(network.owners))
        # the length of the shortest drive that was found, the last context that `ahead` tells of it, and, where that
        # isn't told by `behind`, the context inside which it ends, and where
        self.length, self.found = math.inf, None
        self.starts = {piece: at[0] for piece, at in starts.items() if at[0] < network.last(piece)}
        for piece, first in self.starts.items():
            self.go_on(0.0, network.first_contexts[piece], -1, first, still)
        if network.version == 2:
            for piece in goals:
                self.come_to(piece)

    def whole(self, piece):
        if self.lengths[piece] < 0:
            self.lengths[piece] = metres(self.network.places(piece))
        return self.lengths[piece]

    def goal_behind(self, piece, first, still=False):
        """The first goal on a piece behind a position, or at it where a drive may end where it begins; or None."""
        return next((goal for goal in self.goals.get(piece, ()) if goal > first or still and goal == first), None)

    def go_on(self, length, context, before, first, still=False):
        """A drive of this length so far goes on from a position of a context's piece, to a goal and to the piece's end.
        Whether a goal may lie where the drive begins is said by `still`."""
        piece = self.network.owners[context]
        goal = self.goal_behind(piece, first, still)
        if goal is not None:
            self.keep(length + metres(cut(self.network.places(piece), first, goal)), before, context, goal)
        rest = metres(cut(self.network.places(piece), first, self.network.last(piece))) if first else self.whole(piece)
        if self.ahead.offer(length + rest, context, before):
            self.keep(length + rest + self.behind.best[context], context)

    def keep(self, length, before, context=-1, goal=None):
        if length < self.length:
            self.length, self.found = length, (before, context, goal)

    def come_to(self, piece):
        """The drives that come to a goal of this piece from its beginning."""
        goal = self.goal_behind(piece, 0)
        if goal is not None:
            length = metres(cut(self.network.places(piece), 0, goal))
            for context in self.network.contexts(piece):
                self.come_from(length, context, ~context)

    def come_from(self, length, context, by):
        """The drives of this length that begin with a context, and the sources from which they may come."""
        for origin in self.network.sources_of(context):
            if self.behind.offer(length, origin, by):
                self.keep(self.ahead.best[origin] + length, origin)

    def step_ahead(self):
        context = self.ahead.take()
        if context is not None:
            for target in self.network.arcs_of(context):
                self.go_on(self.ahead.best[context], target, context, 0)

    def step_behind(self):
        context = self.behind.take()
        if context is not None:
            length = self.behind.best[context] + self.whole(self.network.owners[context])
            self.come_from(length, context, context)

    def run(self):
        """The shortest drive: each piece with the positions between which it is driven. None where there is none."""
        both = self.network.version == 2
        while self.ahead.least() + (self.behind.least() if both else 0) < self.length:
            if both and self.behind.least() < self.ahead.least():
                self.step_behind()
            else:
                self.step_ahead()
        return self.walk() if self.found else None

    def walk(self):
        before, context, goal = self.found
        contexts, at = [], before
        while at >= 0:
            contexts.append(at)
            at = self.ahead.came[at]
        contexts.reverse()
        while context < 0:
            by = self.behind.came[contexts[-1]]
            if by < 0:          # the drive ends inside this one
                context, goal = ~by, self.goal_behind(self.network.owners[~by], 0)
            else:
                contexts.append(by)
        pieces = [self.network.owners[at] for at in contexts + [context]]
        firsts = [self.starts[pieces[0]]] + [0] * (len(pieces) - 1)
        lasts = [self.network.last(piece) for piece in pieces[:-1]] + [goal]
        return list(zip(pieces, firsts, lasts))


def print_route(network, start, goal):
    """The shortest drive from one end to another: its metres, and its pieces with the nodes that it passes.

    An end is the number of a node, or a place, LON,LAT in degrees. From a place a drive begins at the spot on the
    network that is nearest to it, in either direction where both are driven, and to a place it ends at such a spot.
    """
    (starts, from_there), (goals, to_there) = (ends_of_drive(network, word) for word in (start, goal))
    search = Search(network, starts, goals, ',' in start + goal)
    walk = search.run()
    if walk is None:
        raise Refusal(f'no drive leads from {from_there} to {to_there}'.rstrip(','))
    parts = [cut(network.places(piece), first, last) for piece, first, last in walk]
    print(f'{sum(map(metres, parts)):.0f} m from {from_there} to {to_there}'.rstrip(','))
    for (piece, _, _), part in zip(walk, parts):
        print('piece', spelled(network, piece), 'over', *[degrees(at) if at[0] is None else at[0] for at in part])


# ---------------------------------------------------------------------------------------------------------------- check


def print_check(network, potentials, start, goal, reply):
    """Whether a certificate shows that a reply to `route` is right: that no drive from node A to node B costs less.

    It puts `certified`, or says which condition doesn't hold and where, with status 1. GRAPH is a graph's file, and
    CERTIFICATE holds the bytes of a reply to `certify`. REPLY is the line `cost C drive STEP ..`, whose drive is looked
    at too, `cost C` alone, or `none`.
    """
    certificate.check(network, potentials, whole_number(start), whole_number(goal), reply)
    print('certified')


# ----------------------------------------------------------------------------------------------------------------- main


def whole_number(word):
    digits = re.fullmatch('(-?)0*([0-9]{1,19})', word)
    if not digits or not -2 ** 63 <= int(digits[1] + digits[2]) < 2 ** 63:
        raise Refusal(f'no number of a node: {word[:40]}')
    return int(digits[1] + digits[2])


def units(word, most):
    """A coordinate in units of 1e-7 degree."""
    if not re.fullmatch(r'-?[0-9]{1,9}(\.[0-9]{1,40})?', word) or abs(float(word)) > most:
        raise Refusal(f'no number of degrees from -{most} to {most}: {word[:40]}')
    return round(float(word) * 1e7)


def place_of(word):
    """A place that is spelled LON,LAT, without a node."""
    lon, comma, lat = word.partition(',')
    if not comma:
        raise Refusal(f'no place, which is LON,LAT in degrees: {word[:40]}')
    return None, units(lon, 180), units(lat, 90)


def box_of(word):
    """Four sides that are spelled W,S,E,N."""
    sides = word.split(',')
    if len(sides) != 4:
        raise Refusal(f'no box, which is W,S,E,N in degrees: {word[:40]}')
    west, south, east, north = (units(side, most) for side, most in zip(sides, (180, 90, 180, 90)))
    if west >= east or south >= north:
        raise Refusal(f'no box: west must be less than east, and south than north: {word[:80]}')
    return west, south, east, north


@contextmanager
def naming(what):
    """Says of what it is that can't be read or written."""
    try:
        yield
    except OSError as fault:
        raise Refusal(f'{what}: {fault.strerror or fault}') from None


def standard_input(name):
    """What a command reads from there."""
    if sys.stdin is None:
        raise Refusal('standard input is closed')
    if sys.stdin.isatty():
        raise Refusal(f'standard input is wanted: {use(name)}')
    with naming('standard input'):
        return sys.stdin.buffer.read()


def text_in(name, data):
    """The text that the bytes of a file are."""
    try:
        return data.decode('ascii')
    except UnicodeDecodeError:
        raise Refusal(f'{name}: no reply of a session') from None


def bytes_of(name):
    with naming(name), open(name, 'rb') as file:
        return file.read()


# the form in which a command wants its graph, the command, its words and its options
Command = namedtuple('Command', 'form run words options')
COMMANDS = {
    'counts': Command(Graph, print_counts, [], []),
    'text': Command(Network, print_text, [], []),
    'geojson': Command(Graph, print_geojson, [], ['--opl']),
    'csv': Command(Network, write_csv, ['FOLDER'], ['--opl']),
    'svg': Command(Network, print_svg, [], ['--box', '--drive']),
    'nearest': Command(Graph, print_nearest, ['LON', 'LAT'], []),
    'route': Command(Network, print_route, ['FROM', 'TO'], []),
    'check': Command(Network, print_check, ['GRAPH', 'CERTIFICATE', 'A', 'B'], []),
    'diff': Command(Graph, print_diff, ['OLD', 'NEW'], []),
}
VALUES = {'--opl': '[--opl FILE]..', '--box': '[--box W,S,E,N]', '--drive': '[--drive FILE]'}
INPUTS = {'check': ' < REPLY', 'diff': ''}      # of the others it is the graph


def use(name):
    command = COMMANDS[name]
    words = [name, *command.words, *[VALUES[option] for option in command.options]]
    return 'graph.py ' + ' '.join(words) + INPUTS.get(name, ' < GRAPH')


def help_of(words):
    """What --help prints."""
    if words[0] in COMMANDS:
        return f'{use(words[0])}\n\n{cleandoc(COMMANDS[words[0]].run.__doc__)}'
    lines = [cleandoc(__doc__), '']
    for name, command in COMMANDS.items():
        lines += [use(name), '    ' + command.run.__doc__.split('\n')[0]]
    return '\n'.join(lines)


def read_words(name, words):
    """The plain words behind a command, and the values of its options."""
    command, plain, options = COMMANDS[name], [], {'--opl': [], '--box': None, '--drive': None}
    words = iter(words)
    for word in words:
        value = next(words, None) if word in command.options else None
        if value is None and word.startswith('--'):
            raise Refusal(f'use: {use(name)}')
        if word == '--box':
            options['--box'] = box_of(value)
        elif word == '--opl':
            options['--opl'].append(value)
        elif word == '--drive':
            options['--drive'] = value
        else:
            plain.append(word)
    if len(plain) != len(command.words):
        raise Refusal(f'use: {use(name)}')
    return plain, options


def run(words):
    if sys.stdout is None:
        raise Refusal('standard output is closed')
    sys.stdout.reconfigure(encoding='utf-8')
    if '--help' in words or '-h' in words:
        print(help_of(words))
    elif not words or words[0] not in COMMANDS:
        raise Refusal(f'use: graph.py COMMAND .. < GRAPH; graph.py --help tells the commands: {", ".join(COMMANDS)}')
    else:
        command = COMMANDS[words[0]]
        plain, options = read_words(words[0], words[1:])
        if words[0] == 'diff':
            command.run(*[command.form(bytes_of(name)) for name in plain])
        elif words[0] == 'check':
            network, potentials = command.form(bytes_of(plain[0])), bytes_of(plain[1])
            command.run(network, potentials, *plain[2:], text_in('standard input', standard_input('check')))
        else:
            given = [options] if command.options else []
            command.run(command.form(standard_input(words[0])), *given, *plain)
    sys.stdout.flush()


def main(words):
    """Runs the command, and returns the status; whatever ends it is told in a line."""
    try:
        with naming('standard output'):
            run(words)
        return 0
    except Refusal as fault:
        said, status = str(fault), 1
    except MemoryError:
        said, status = 'memory ends', 1
    except KeyboardInterrupt:
        said, status = 'interrupted', 128 + signal.SIGINT
    signal.signal(signal.SIGINT, signal.SIG_IGN)
    if sys.stdout is not None:      # what is left to be put would be tried once more, and fail once more
        os.dup2(os.open(os.devnull, os.O_WRONLY), 1)
    if sys.stderr is not None:
        print(said, file=sys.stderr)
    return status


if __name__ == '__main__':
    sys.exit(main(sys.argv[1:]))
