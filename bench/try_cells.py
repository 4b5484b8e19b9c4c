#!/usr/bin/env python3
"""Tries to refute the check that a cell's own ways may be compiled from its cut: small drawn maps, drawn areas, cuts as
osmium takes them (bench/cell_model.py) or with more in them, and ways that pass. It holds where nothing that differs
between a map and a cut is within the link radius of a way that passes, and so each of these must have its block in the
graph of the whole map.

The same is asked of weaker checks: over fewer links, or with one of the three rules left out. Each must let through a
way near which something differs, or it would be the better check. With a PROGRAM, and OSMROAD, each map is compiled by
them too: `part`, `rest` and `cell` must say what the check of bench/cell_model.py says, and the blocks must be the
whole map's; and it is counted how many wrong blocks each weaker check would let through.

Use: try_cells.py MAPS [FIRST [PROGRAM OSMROAD]]: so many maps, of the seeds from FIRST on. Its status is 1 where a way
passes that must not, or a program says otherwise; and where a weaker check wasn't refuted, which wants some thousands
of maps.
"""
import collections
import random
import subprocess
import sys

sys.dont_write_bytecode = True      # the imports below leave no folder beside the scripts
import cell_model                                       # noqa: E402
import sources_of                                       # noqa: E402
from cell_model import ALL_RULES, CLOSED_RADIUS, Map, degrees, spelled     # noqa: E402

LINK_RADIUS = CLOSED_RADIUS + 1
STEP = 10000            # units between two places of a drawn map
WEAKER = [(radius, ALL_RULES) for radius in range(CLOSED_RADIUS - 1, 2, -1)]
WEAKER += [(CLOSED_RADIUS, rules) for rules in ('wr', 'nr', 'nw')]


class Wrong(Exception):
    pass


def must(holds, what):
    if not holds:
        raise Wrong(what)


# --------------------------------------------------------------------------------------------------------- drawn maps


def drawn_nodes(draw, count, side):
    """Places on a small grid; some nodes aren't there, and some have no location."""
    places = {}
    for node in range(1, count + 1):
        if draw.random() < 0.96:
            located = draw.random() < 0.97
            places[node] = (draw.randint(0, side), draw.randint(0, side)) if located else None
    return places


def drawn_way(draw, places, count, near):
    """Some nodes, most of them neighbours where the map is one of short ways."""
    if not near or not places:
        return [draw.randint(1, count) for _ in range(draw.randint(0, 4))]
    at = places[draw.choice(list(places))] or (0, 0)
    far = {node: sum(abs(a - b) for a, b in zip(place or (0, 0), at)) + draw.random() for node, place in places.items()}
    nodes = sorted(far, key=far.get)[:draw.randint(1, 4)]
    return nodes + [draw.randint(1, count)] * (draw.random() < 0.08)


def drawn_members(draw, ways, count):
    """From, via and to, often as they are meant, or anything."""
    named = [('w', draw.randint(1, max(ways, default=1) + (draw.random() < 0.05))) for _ in range(3)]
    members = [(draw.choice(named + [('n', draw.randint(1, count))]), role) for role in ('from', 'via', 'to', 'x')]
    meeting = [(one, other, node) for one in ways for other in ways if one < other
               for node in set(ways[one]) & set(ways[other])]
    if meeting and draw.random() < 0.7:
        one, other, node = draw.choice(meeting)
        members[:3] = [(('w', one), 'from'), (('n', node), 'via'), (('w', other), 'to')]
    return members[:draw.choice((0, 2, 3, 3, 3, 4))]


def drawn_map(seed):
    """The map, and how many places it is wide."""
    draw = random.Random(seed)
    count, side = draw.choice([6, 12, 20, 40]), draw.choice([4, 8, 14])
    places, near = drawn_nodes(draw, count, side), draw.random() < 0.7
    ways = {way: drawn_way(draw, places, count, near) for way in range(1, draw.randint(2, count) + 1)
            if draw.random() < 0.97}
    lines = []
    for node, place in places.items():
        x, y = [degrees(STEP * part) for part in place] if place else ('', '')
        lines.append(f'n{node} x{x} y{y}')
    for way, nodes in ways.items():
        tags = draw.choice(['highway=service'] * 9 + ['highway=service,oneway=yes'] * 3 + ['barrier=fence'])
        lines.append(f'w{way} T{tags} N' + ','.join(f'n{node}' for node in nodes))
    for rule in range(1, draw.randint(1, draw.choice((6, 15)))):
        kind = draw.choice(['type=restriction'] * 5 + ['type=route'])
        value = draw.choice(['no_left_turn', 'only_straight_on', 'no_u_turn'])
        members = ','.join('{}{}@{}'.format(*key, role) for key, role in drawn_members(draw, ways, count))
        lines.append(f'r{rule} T{kind},restriction={value} M{members}')
    return Map(lines), side, draw


def drawn_areas(draw, side):
    """An area of a cell, and the cell in it."""
    ends = [sorted(draw.sample(range(-1, side + 2), 2)) for _ in range(2)]
    if draw.random() < 0.6:
        ends[0][0] = ends[1][0] = -1
    west, south, east, north = (STEP * end for end in (ends[0][0], ends[1][0], ends[0][1], ends[1][1]))
    inset = STEP * draw.choice((0, 0, 1, 2))
    cell = (west + inset, south + inset, east - inset, north - inset)
    area = (west, south, east, north)
    return area, cell if cell[0] <= cell[2] and cell[1] <= cell[3] else area


def with_more(draw, whole, cut):
    """A cut that has more than it must, as one by another strategy: some ways, with their nodes, and some relations."""
    keys = {('w', way) for way in whole.ways if draw.random() < 0.3}
    keys |= {('n', node) for _, way in keys for node in whole.ways[way]}
    return whole.part(keys | cut.lines.keys() | {('r', rule) for rule in whole.members if draw.random() < 0.05})


# ---------------------------------------------------------------------------------------------------------- the trials


def run(words, text):
    return subprocess.run(words, input=text.encode(), stdout=subprocess.PIPE, check=True).stdout


def blocks(graph):
    """The bytes of each way's block."""
    given, found = sources_of.Input(graph), {}
    *_, count = given.take(sources_of.HEAD)
    for _ in range(count):
        begins = given.at
        way, pieces = given.take(sources_of.BLOCK)
        for _ in range(pieces):
            sources_of.read_piece(given, way)
        found[way] = graph[begins:given.at]
    return found


class Trial:
    def __init__(self, programs):
        self.programs, self.counts = programs, collections.Counter()

    def ask_programs(self, cut, area, cell, passing, failing, true_blocks):
        """What `part`, `rest` and `cell` say, and the blocks of the whole cut."""
        program, osmroad = self.programs
        words = [spelled(area), spelled(cell)]
        part = run([program, 'part', *words], cut.text())
        rest = run([program, 'rest', *words], cut.text()).decode().split('\n')[:-1]
        must([line.split(' ')[0] for line in rest] == [f'w{way}' for way in sorted(failing)], f'rest is {rest}')
        places = sum(cell_model.is_in(cell, place) for place in cut.nodes.values())
        lines = [*(f'w{way}' for way in sorted(passing)), *rest, f'{places} {len(passing)} {len(failing)}']
        both = run([program, 'cell', *words], cut.text())
        must(both == part + '\n'.join(['', *lines, '']).encode(), f'cell is {both[len(part):]}')
        found = blocks(part)
        must(found == {way: true_blocks[way] for way in passing if way in true_blocks}, 'a part has other blocks')
        self.counts['blocks compared'] += len(found)
        return blocks(run([osmroad, '-', 'compile'], cut.text()))

    def try_area(self, whole, cut, area, cell, true_blocks):
        passing, failing = cell_model.check(cut, area, cell)
        differing = cell_model.differing(whole, cut, LINK_RADIUS)
        self.counts['own ways'] += len(passing) + len(failing)
        self.counts['ways that pass'] += len(passing)
        self.counts['ways that fail though nothing differs near them'] += len(set(failing) - differing)
        must(differing.isdisjoint(passing), f'{differing & set(passing)} pass, and something near them differs')
        found = self.ask_programs(cut, area, cell, passing, failing, true_blocks) if self.programs else {}
        for weaker in WEAKER:
            more, _ = cell_model.check(cut, area, cell, *weaker)
            self.counts[weaker, 'ways near which something differs'] += len(differing & set(more))
            if self.programs:
                wrong = [way for way in more if found.get(way) != true_blocks.get(way)]
                self.counts[weaker, 'wrong blocks'] += len(wrong)

    def try_map(self, seed):
        whole, side, draw = drawn_map(seed)
        true_blocks = blocks(run([self.programs[1], '-', 'compile'], whole.text())) if self.programs else {}
        for _ in range(3):
            area, cell = drawn_areas(draw, side)
            cut = cell_model.cut(whole, area)
            self.try_area(whole, with_more(draw, whole, cut) if draw.random() < 0.5 else cut, area, cell, true_blocks)


def main(maps, first=0, *programs):
    trial = Trial(programs)
    for seed in range(int(first), int(first) + int(maps)):
        try:
            trial.try_map(seed)
        except (Wrong, subprocess.CalledProcessError) as fault:
            print(f'map {seed}: {fault}')
            return 1
    for name, count in trial.counts.items():
        if isinstance(name, str):
            print(f'{name}: {count}')
    refuted = True
    for weaker in WEAKER:
        counts = {name[1]: count for name, count in trial.counts.items() if name[0] == weaker}
        print('over {} links, by the rules {}:'.format(*weaker),
              ', '.join(f'{count} {name}' for name, count in counts.items()))
        refuted &= counts.get('ways near which something differs', 0) > 0
    return not refuted


if __name__ == '__main__':
    sys.exit(main(*sys.argv[1:]))
