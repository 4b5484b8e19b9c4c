"""Reads a graph that osmroad wrote, by its written format alone (docs/FORMATS.md), and needs nothing but Python.

It reads both versions of graph files. The bytes stay as they were read, and beside them stand arrays of numbers: ways,
pieces, contexts, arcs and sources are known by their numbers, counted from 0 in the order of the file. A graph in the
grammar is read as a Graph, and one whose arcs and sources are to be followed as a Network. Nothing here takes more than
some bytes for each byte of the graph.
"""
import struct
import sys
from array import array
from bisect import bisect_left, bisect_right


class Refusal(Exception):
    """What is asked for can't be done; the text says why, in a line."""


HEAD, BLOCK, PIECE = struct.Struct('<8sIQ'), struct.Struct('<qI'), struct.Struct('<IIB')
PLACE, NAME, ARC = struct.Struct('<qii'), struct.Struct('<qIB'), struct.Struct('<qIBI')
MARK, LENGTH, COUNT = struct.Struct('<B'), struct.Struct('<I'), struct.Struct('<Q')
PROFILES = (1, 2)
VERSIONS = {b'OSMROAD1': 1, b'OSMROAD2': 2}     # the second one has marks and sources


class Reader:
    """The bytes of a graph, and how many of them were read."""

    def __init__(self, data):
        self.data, self.at = data, 0

    def need(self, holds, what):
        if not holds:
            raise Refusal(f'not a graph: {what} at byte {self.at}')

    def skip(self, size):
        """Goes on by so many bytes, and says where they begin."""
        at = self.at
        self.need(at + size <= len(self.data), 'the bytes end early')
        self.at += size
        return at

    def one(self, form):
        """The next record of a form; the struct module says where it isn't all there."""
        record = form.unpack_from(self.data, self.at)
        self.at += form.size
        return record

    def many(self, form, count):
        """So many records of one form, one behind another."""
        at = self.skip(form.size * count)
        return form.iter_unpack(self.data[at:self.at])

    def context(self):
        """The names of the next context but its last, and its arcs; its sources stand behind these."""
        (length,) = self.one(LENGTH)
        if length == 0:
            self.need(False, 'a context without pieces')
        names = tuple(self.many(NAME, length - 1)) if length > 1 else ()
        (count,) = self.one(COUNT)
        return names, self.many(ARC, count)

    def sources(self):
        """The next sources, each as the names of all its pieces."""
        (count,) = self.one(COUNT)
        for _ in range(count):
            (length,) = self.one(LENGTH)
            yield tuple(self.many(NAME, length))


def check_arcs(reader, arcs, longest):
    """How many arcs these are. They must ascend, and lead to contexts of at most so many pieces."""
    before, count = (), 0
    for way, index, direction, length in arcs:
        name = (way, index, direction)
        if not before < name:
            reader.need(False, 'arcs out of order')
        if direction > 1 or not 1 <= length <= longest:
            reader.need(False, 'no such direction, or a target out of range')
        before = name
        count += 1
    return count


def check_sources(reader, sources, shortest):
    """How many sources these are. They must ascend by length and names, and have at least so many pieces."""
    before, count = (0,), 0
    for names in sources:
        if len(names) < shortest:
            reader.need(False, 'a source too short')
        key = (len(names), names)
        if not before < key:
            reader.need(False, 'sources out of order')
        if max(direction for _, _, direction in names) > 1:
            reader.need(False, 'no such direction')
        before = key
        count += 1
    return count


class Graph:
    """A graph file as arrays. What begins at a number of an array whose name begins with `first_` ends where the next
    one begins, and such an array has one number more for the end of the last. The numbers of its version and of its
    profile are `version` and `profile`. In a file of version 1 nothing is marked, and no context has sources.
    """

    def __init__(self, data):
        self.data = data
        self.ways, self.first_pieces, self.blocks = array('q'), array('I'), array('Q')
        self.piece_ways, self.keys, self.ends, self.places_at = array('q'), array('I'), array('H'), array('Q')
        self.marks = array('B')
        self.first_contexts, self.contexts_at, self.first_arcs = array('I'), array('Q'), array('I')
        self.sources_at, self.first_sources = array('Q'), array('I')
        self.arcs = self.sources = 0
        reader = Reader(data)
        try:
            self.read(reader)
        except struct.error:
            reader.need(False, 'the bytes end early')
        self.first_pieces.append(len(self.keys))
        self.first_contexts.append(len(self.contexts_at))
        self.first_arcs.append(self.arcs)
        self.first_sources.append(self.sources)

    def read(self, reader):
        self.version = VERSIONS.get(bytes(self.data[:8]), 0)
        reader.need(self.version, 'neither OSMROAD1 nor OSMROAD2')
        _, self.profile, blocks = reader.one(HEAD)
        reader.need(self.profile in PROFILES, 'an unknown profile')
        for _ in range(blocks):
            self.blocks.append(reader.at)
            way, count = reader.one(BLOCK)
            reader.need((not self.ways or self.ways[-1] < way) and count >= 1, 'blocks out of order')
            self.ways.append(way)
            self.first_pieces.append(len(self.keys))
            before = -1
            for _ in range(count):
                self.read_piece(reader, way)
                reader.need(before < self.keys[-1], 'pieces out of order')
                before = self.keys[-1]
        self.blocks.append(reader.at)
        reader.need(reader.at == len(self.data), 'bytes behind the last block')

    def read_piece(self, reader, way):
        index, end, direction = reader.one(PIECE)
        reader.need(index < end <= 65534 and direction < 2, 'no such piece')
        self.piece_ways.append(way)
        self.keys.append(2 * index + direction)
        self.ends.append(end)
        self.marks.append(reader.one(MARK)[0] if self.version == 2 else 0)
        reader.need(self.marks[-1] < 2, 'no such mark')
        self.places_at.append(reader.skip(PLACE.size * (end - index + 1)))
        west, south, east, north = self.box(len(self.keys) - 1)
        if west < -1800000000 or east > 1800000000 or south < -900000000 or north > 900000000:
            reader.need(False, 'a place outside the world')
        self.first_contexts.append(len(self.contexts_at))
        (count,) = reader.one(COUNT)
        reader.need(count >= 1, 'a piece without a context')
        before = (0,)
        for _ in range(count):
            before = self.read_context(reader, before)

    def read_context(self, reader, before):
        """The context's length and names, which must come behind those of the context before."""
        self.contexts_at.append(reader.at)
        self.first_arcs.append(self.arcs)
        names, arcs = reader.context()
        key = (len(names) + 1, names)
        if not before < key or names and len(before) == 1:
            reader.need(False, 'contexts out of order')
        if names and max(direction for _, _, direction in names) > 1:
            reader.need(False, 'no such direction')
        self.arcs += check_arcs(reader, arcs, len(names) + 2)
        self.sources_at.append(reader.at)
        self.first_sources.append(self.sources)
        if self.version == 2:
            self.sources += check_sources(reader, reader.sources(), max(1, len(names)))
        return key

    # a piece, by its number

    def name(self, piece):
        """The way, the index, and the direction: 0 along the way's list of nodes, 1 against it."""
        return self.piece_ways[piece], self.keys[piece] >> 1, self.keys[piece] & 1

    def last(self, piece):
        """The position of a piece's last place."""
        return self.ends[piece] - (self.keys[piece] >> 1)

    def place(self, piece, position):
        """A place of a piece, counted in order of travel: (node, lon, lat), in units of 1e-7 degree."""
        return PLACE.unpack_from(self.data, self.places_at[piece] + PLACE.size * position)

    def places(self, piece, first=0, last=65534):
        """The places of a piece between two positions, both included."""
        at, last = self.places_at[piece], min(last, self.last(piece))
        return list(PLACE.iter_unpack(self.data[at + PLACE.size * first:at + PLACE.size * (last + 1)]))

    def box(self, piece):
        """West, south, east and north of a piece's places."""
        at = self.places_at[piece]
        numbers = array('i', self.data[at:at + PLACE.size * (self.last(piece) + 1)])
        if sys.byteorder == 'big':
            numbers.byteswap()
        lons, lats = numbers[2::4], numbers[3::4]
        return min(lons), min(lats), max(lons), max(lats)

    def contexts(self, piece):
        return range(self.first_contexts[piece], self.first_contexts[piece + 1])

    def find(self, way, index, direction):
        """The number of the piece of this name, or -1."""
        block = bisect_left(self.ways, way)
        if block == len(self.ways) or self.ways[block] != way:
            return -1
        key, end = 2 * index + direction, self.first_pieces[block + 1]
        piece = bisect_left(self.keys, key, self.first_pieces[block], end)
        return piece if piece < end and self.keys[piece] == key else -1

    def find_step(self, way, position, direction):
        """The piece with the step between a position of a way's line and the next one, in this direction, and which of
        the piece's steps it is, in order of travel and counted from 0; None where no piece has it."""
        block = bisect_left(self.ways, way)
        if block == len(self.ways) or self.ways[block] != way:
            return None
        first, end = self.first_pieces[block:block + 2]
        behind = bisect_right(self.keys, 2 * position + 1, first, end)
        for piece in range(behind - 1, max(first, behind - 2) - 1, -1):
            if self.keys[piece] & 1 == direction and position < self.ends[piece]:
                return piece, self.ends[piece] - 1 - position if direction else position - (self.keys[piece] >> 1)
        return None

    def has_twin(self, piece):
        """Whether the piece the other way is there."""
        other = piece - 1 if self.keys[piece] & 1 else piece + 1
        inside = 0 <= other < len(self.keys)
        return inside and self.piece_ways[other] == self.piece_ways[piece] and self.keys[other] ^ 1 == self.keys[piece]


class Network(Graph):
    """A graph whose contexts are known by the numbers of their pieces, arcs by the contexts to which they lead, and
    sources by their contexts. In a file of version 2 the sources must be the arcs seen from behind."""

    def __init__(self, data):
        super().__init__(data)
        self.owners, self.targets, self.origins = array('I'), array('I'), array('I')
        for piece in range(len(self.keys)):
            self.owners.extend([piece] * len(self.contexts(piece)))
        # the pieces of the contexts of several pieces, and the numbers of these contexts by their pieces
        self.longer, self.by_pieces = {}, {}
        reader = Reader(data)
        for context, at in enumerate(self.contexts_at):
            if LENGTH.unpack_from(data, at)[0] > 1:
                reader.at = at
                names, _ = reader.context()
                pieces = tuple(self.find(*name) for name in names) + (self.owners[context],)
                reader.need(min(pieces) >= 0, 'a context over a piece that is not there')
                self.longer[context], self.by_pieces[pieces] = pieces, context
        for context, at in enumerate(self.contexts_at):
            reader.at = at
            _, arcs = reader.context()
            self.targets.extend(self.leads(reader, self.pieces(context), arcs))
        if self.version == 2:
            self.read_origins(reader)

    def read_origins(self, reader):
        """The contexts that are sources. Arcs ascend by the pieces to which they lead: so whoever goes over all
        contexts in order meets as a source of each exactly those of which it is the next target."""
        following = self.first_arcs[:-1]
        for context, at in enumerate(self.sources_at):
            reader.at = at
            for names in reader.sources():
                origin = self.find_context([self.find(*name) for name in names])
                reader.need(origin >= 0, 'a source that is not there')
                arc = following[origin]
                reader.need(arc < self.first_arcs[origin + 1] and self.targets[arc] == context,
                            'a source without an arc, or an arc without a source')
                following[origin] += 1
                self.origins.append(origin)
        reader.need(following == self.first_arcs[1:], 'an arc without a source')

    def find_context(self, pieces):
        """The context of these pieces, or -1."""
        if min(pieces) < 0 or len(pieces) > 1:
            return self.by_pieces.get(tuple(pieces), -1)
        return self.first_contexts[pieces[0]]

    def leads(self, reader, pieces, arcs):
        """The contexts to which the arcs of a context of these pieces lead."""
        for way, index, direction, length in arcs:
            before = pieces[1 - length:] if length > 1 else ()
            target = self.find_context(before + (self.find(way, index, direction),))
            reader.need(target >= 0, 'an arc to a piece or a context that is not there')
            yield target

    def pieces(self, context):
        """The pieces of a context in order of travel, its own last."""
        return self.longer.get(context) or (self.owners[context],)

    def arcs_of(self, context):
        """The contexts to which the arcs of a context lead, in the order of the arcs."""
        return self.targets[self.first_arcs[context]:self.first_arcs[context + 1]]

    def sources_of(self, context):
        """The contexts that are the sources of a context, in their order; none in a file of version 1."""
        return self.origins[self.first_sources[context]:self.first_sources[context + 1]]


def spelled(graph, *pieces):
    """Names as text: 10.0+ is the piece that begins along way 10 at its position 0, 10.0- the one against the way."""
    names = [graph.name(piece) for piece in pieces]
    return ' '.join([f'{way}.{index}{"+-"[direction]}' for way, index, direction in names])
