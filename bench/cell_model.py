"""Cells of a map by the rules of docs/CELLS.md alone, slowly and apart from the programs: what an extract of an area
has, who owns a way, and which of a cell's own ways pass. For bench/try_cells.py, bench/cells_spoiled.py and .ci/cells.

A key is a letter of `nwr` with a number, a place a pair of whole numbers of 1e-7 degree, and an area its edges, west,
south, east and north, which belong to it.
"""
import collections

WORLD = (-1800000000, -900000000, 1800000000, 900000000)
CLOSED_RADIUS = 7       # one link less than the link radius
ALL_RULES = 'nwr'       # what is asked of nodes, ways and restrictions


def units(text):
    """A coordinate as OPL has it, in units of 1e-7 degree; digits behind the seventh are dropped."""
    whole, _, part = text.lstrip('-').partition('.')
    value = int(whole) * 10**7 + int((part + '0000000')[:7])
    return -value if text.startswith('-') else value


def degrees(value):
    """The coordinate of so many units, as OPL has it."""
    return '{}{}.{:07}'.format('-' if value < 0 else '', *divmod(abs(value), 10**7))


def key_of(text):
    return text[0], int(text[1:])


def is_in(area, place):
    west, south, east, north = area
    return place is not None and west <= place[0] <= east and south <= place[1] <= north


def spelled(area):
    return '{},{},{},{}'.format(*area)


class Map:
    """The visible objects of lines of OPL in each of which another object stands."""

    def __init__(self, lines):
        self.lines = {}             # each key's line, in the order of the text
        self.nodes = {}             # the place of each node, or None
        self.ways = {}              # the nodes of each way
        self.members = {}           # the nodes and ways that each relation names
        self.highways, self.restrictions = [], []
        for line in lines:
            self.take(line.rstrip('\n'))

    def take(self, line):
        fields = line.split(' ')
        key, field = key_of(fields[0]), {text[0]: text[1:] for text in fields[1:] if text}
        if field.get('d') == 'D':
            return
        self.lines[key] = line
        letter, number = key
        tags = [tag.partition('=') for tag in field.get('T', '').split(',')]
        if letter == 'n':
            located = field.get('x') and field.get('y')
            self.nodes[number] = (units(field['x']), units(field['y'])) if located else None
        elif letter == 'w':
            names = field.get('N', '')
            self.ways[number] = [int(name.split('x')[0][1:]) for name in names.split(',')] if names else []
            if any(name == 'highway' for name, _, _ in tags):
                self.highways.append(number)
        else:
            named = [name.split('@')[0] for name in field.get('M', '').split(',') if name]
            self.members[number] = [key_of(name) for name in named if name[0] in 'nw']
            if next((value for name, _, value in tags if name == 'type'), '') == 'restriction':
                self.restrictions.append(number)

    def has(self, key):
        return key in self.lines

    def text(self):
        return ''.join(line + '\n' for line in self.lines.values())

    def part(self, keys):
        """The map of these of its objects."""
        return Map(line for key, line in self.lines.items() if key in keys)

    def links(self):
        """What is linked to each key: a highway and its nodes, a restriction and its members, there or not."""
        linked = collections.defaultdict(set)
        pairs = [(('w', way), ('n', node)) for way in self.highways for node in self.ways[way]]
        pairs += [(('r', rule), key) for rule in self.restrictions for key in self.members[rule]]
        for one, other in pairs:
            linked[one].add(other)
            linked[other].add(one)
        return linked

    def first_place(self, way):
        """Where the first located node of a way lies, or None."""
        return next((place for place in map(self.nodes.get, self.ways[way]) if place), None)

    def own(self, cell):
        """The highways that the cell owns, ascending."""
        return sorted(way for way in self.highways if is_in(cell, self.first_place(way)))


def cut(whole, area):
    """What osmium-extract takes of a map for the area, by its strategy `complete_ways`."""
    inside = {('n', node) for node, place in whole.nodes.items() if is_in(area, place)}
    inner = {('w', way) for way, nodes in whole.ways.items() if any(('n', node) in inside for node in nodes)}
    named = inside | inner
    kept = named | {('n', node) for _, way in inner for node in whole.ways[way]}
    kept |= {('r', rule) for rule, keys in whole.members.items() if not named.isdisjoint(keys)}
    return whole.part(kept)


def within(linked, starts, links):
    """The keys within so many links of some keys, each with the one it came from."""
    found = {key: key for key in starts}
    frontier = list(found)
    for _ in range(links):
        reached = [(key, found[by]) for by in frontier for key in linked.get(by, ()) if key not in found]
        found.update(reached)
        frontier = [key for key, _ in dict(reached).items()]
    return found


def closed(part, area, key, rules=ALL_RULES):
    """Whether all that is linked to the key in the map is in the cell; rules left out are not asked for."""
    letter, number = key
    if letter not in rules:
        return True
    if letter == 'n':
        return is_in(area, part.nodes.get(number))
    if letter == 'w':
        return any(is_in(area, part.nodes.get(node)) for node in part.ways.get(number, ()))
    return part.has(key) and all(part.has(member) for member in part.members[number])


def check(part, area, cell, radius=CLOSED_RADIUS, rules=ALL_RULES):
    """The own ways of a cell that pass, and the others, each with a key near it that isn't closed."""
    linked = part.links()
    candidates = set(linked) | {('w', way) for way in part.highways}
    reached = within(linked, [key for key in candidates if not closed(part, area, key, rules)], radius)
    own = part.own(cell)
    failing = {way: reached['w', way] for way in own if ('w', way) in reached}
    return [way for way in own if way not in failing], failing


def differing(whole, part, radius):
    """The highways of a part within so many links, in it or in the map, of a key that differs between them."""
    keys = [key for key in whole.lines if not part.has(key)]
    near = within(whole.links(), keys, radius).keys() | within(part.links(), keys, radius).keys()
    return {way for way in part.highways if ('w', way) in near}
