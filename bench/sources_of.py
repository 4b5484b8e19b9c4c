#!/usr/bin/env python3
"""Makes a graph file of version 2 from one of version 1 and the map of which it was made, apart from the program and
from tools/graph_file.py, by docs/FORMATS.md alone.

Use: sources_of.py [FILE.opl ..] <GRAPH >GRAPH2. The graph may be of version 2 too: its sources and marks are then made
anew. Sources are the arcs seen from behind. Marks are what docs/PROFILE.md tells of the ways' tags: under profile 1
there are none, under profile 2 they are at the directions whose deciding key has the value `destination`. Of each way
the line with the greatest version counts, and of several with that version the first one. Without a file nothing is
marked.
"""
import re
import struct
import sys

HEAD, BLOCK, PIECE, MARK = struct.Struct('<8sIQ'), struct.Struct('<qI'), struct.Struct('<IIB'), struct.Struct('<B')
NAME, ARC = struct.Struct('<qIB'), struct.Struct('<qIBI')
LENGTH, COUNT = struct.Struct('<I'), struct.Struct('<Q')
PLACE_SIZE = 16
ESCAPE = re.compile('%([0-9a-fA-F]{1,6})%')


# -------------------------------------------------------------------------------------------------------------- reading


class Input:
    """The bytes of a file, read from the front."""

    def __init__(self, data):
        self.data, self.at = data, 0
        self.sourced = data[:8] == b'OSMROAD2'

    def take(self, form):
        record = form.unpack_from(self.data, self.at)
        self.at += form.size
        return record

    def number(self, form):
        return self.take(form)[0]


def read_context(given):
    """The names before the last, and the arcs; sources are passed over."""
    before = [given.take(NAME) for _ in range(given.number(LENGTH) - 1)]
    arcs = [given.take(ARC) for _ in range(given.number(COUNT))]
    for _ in range(given.number(COUNT) if given.sourced else 0):
        length = given.number(LENGTH)
        given.at += NAME.size * length
    return tuple(before), arcs


def read_piece(given, way):
    index, end, direction = given.take(PIECE)
    given.at += MARK.size if given.sourced else 0
    first = given.at
    given.at += PLACE_SIZE * (end - index + 1)
    places = given.data[first:given.at]
    contexts = [read_context(given) for _ in range(given.number(COUNT))]
    return (way, index, direction), end, places, contexts


def read_graph(data):
    """The profile, and of each block its way and its pieces: name, end, the bytes of the places, contexts."""
    given = Input(data)
    magic, profile, count = given.take(HEAD)
    assert magic in (b'OSMROAD1', b'OSMROAD2'), magic
    blocks = []
    for _ in range(count):
        way, pieces = given.take(BLOCK)
        blocks.append((way, [read_piece(given, way) for _ in range(pieces)]))
    assert given.at == len(data)
    return profile, blocks


# ---------------------------------------------------------------------------------------------------- sources and marks


def sources_of(blocks):
    """Of each context, by its names, the contexts from which an arc leads there."""
    found = {}
    for _, pieces in blocks:
        for name, _, _, contexts in pieces:
            for before, arcs in contexts:
                names = before + (name,)
                for way, index, direction, length in arcs:
                    target = (names + ((way, index, direction),))[-length:]
                    found.setdefault(target, []).append(names)
    return found


def text(escaped):
    return ESCAPE.sub(lambda code: chr(int(code[1], 16)), escaped)


def fields_of(line):
    """The fields of a line by their first letters, but for its first field."""
    return {field[0]: field[1:] for field in line.replace('\t', ' ').split(' ')[1:] if field}


def ways_of(lines):
    """The tags of the ways that the lines leave; those of a deleted way are None."""
    found = {}
    for line in lines:
        line = line.rstrip('\r\n').strip(' \t')
        if line.startswith('w'):
            way, fields = int(re.split('[ \t]', line)[0][1:]), fields_of(line)
            version = int(fields.get('v') or 0)
            if way not in found or found[way][0] < version:
                found[way] = version, None if fields.get('d') == 'D' else tags_of(fields.get('T', ''))
    return {way: tags for way, (_, tags) in found.items()}


def tags_of(field):
    tags = {}
    for tag in field.split(',') if field else []:
        key, _, value = tag.partition('=')
        tags.setdefault(text(key), text(value))
    return tags


def is_marked(tags, direction):
    """Whether the deciding key of a free direction lets destination traffic alone pass."""
    side = ('forward', 'backward')[direction]
    for name in ('motorcar', 'motor_vehicle', 'vehicle', 'access'):
        for key in (f'{name}:{side}', name):
            if key in tags:
                return tags[key] == 'destination'
    return False


# -------------------------------------------------------------------------------------------------------------- writing


def spelled_source(names):
    return LENGTH.pack(len(names)) + b''.join(NAME.pack(*name) for name in names)


def spelled_context(before, arcs):
    return b''.join([LENGTH.pack(len(before) + 1), *(NAME.pack(*name) for name in before),
                     COUNT.pack(len(arcs)), *(ARC.pack(*arc) for arc in arcs)])


def spelled_sources(sources):
    ordered = sorted(sources, key=lambda names: (len(names), names))
    return COUNT.pack(len(ordered)) + b''.join(map(spelled_source, ordered))


def spelled_graph(version, data, tags):
    """The graph of these bytes in a version, with the tags of the ways that have some."""
    profile, blocks = read_graph(data)
    sources = sources_of(blocks)
    parts = [HEAD.pack(b'OSMROAD%d' % version, profile, len(blocks))]
    for way, pieces in blocks:
        parts.append(BLOCK.pack(way, len(pieces)))
        for name, end, places, contexts in pieces:
            mark = profile == 2 and is_marked(tags.get(way) or {}, name[2])
            parts.append(PIECE.pack(name[1], end, name[2]))
            parts.append(MARK.pack(mark) if version == 2 else b'')
            parts += [places, COUNT.pack(len(contexts))]
            for before, arcs in contexts:
                parts.append(spelled_context(before, arcs))
                parts.append(spelled_sources(sources.get(before + (name,), [])) if version == 2 else b'')
    return b''.join(parts)


def first_version(data):
    return spelled_graph(1, data, {})


def second_version(data, tags):
    return spelled_graph(2, data, tags)


def lines_of(files):
    for name in files:
        with open(name, encoding='utf-8', newline='\n') as lines:
            yield from lines


if __name__ == '__main__':
    sys.stdout.buffer.write(second_version(sys.stdin.buffer.read(), ways_of(lines_of(sys.argv[1:]))))
