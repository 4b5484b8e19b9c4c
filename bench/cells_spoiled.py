#!/usr/bin/env python3
"""Writes a map that is hard to cut into cells, for bench/cells.sh, as OPL.

cells_spoiled.py FILE.opl SEED     the roads of a map, spoiled: nodes that are missing or not located, ways between far
                                   nodes, ways none of whose nodes is located or there, restrictions near and far, with
                                   members that are missing, that are no roads, or that are nodes
cells_spoiled.py world SEED        roads about the poles, the antimeridian and the corners of the world, over them, and
                                   with nodes on the borders of cells and beside them
"""
import random
import re
import sys

sys.dont_write_bytecode = True      # the imports below leave no folder beside the scripts
from cell_model import WORLD, Map, degrees     # noqa: E402

HALF = 6                # of a net of roads, in nodes


def spoil_nodes(draw, made):
    for key in [key for key in made if key[0] == 'n']:
        drawn = draw.random()
        if drawn < 0.004:
            del made[key]
        elif drawn < 0.007:
            made[key] = re.sub(r' x\S* y\S*', ' x y', made[key])


def add_ways(draw, made, way, nodes):
    """Ways between far nodes, and ways without a place, numbered from some number on."""
    count, free = len([key for key in made if key[0] == 'w']) // 300 + 1, max(nodes) + 1
    lists = [draw.sample(nodes, 3) for _ in range(count)]
    for at in range(free, free + 15, 3):
        made['n', at] = f'n{at} T x y'
        lists.append([at, at + 1, at + 2])
    for number, names in enumerate([*lists, []], way):
        made['w', number] = f'w{number} Thighway=road N' + ','.join(f'n{node}' for node in names)


def members_of(draw, ways, node, meeting):
    """The members of a restriction at a node where ways meet."""
    start, end = draw.sample(meeting, 2)
    via = f'n{node}'
    if draw.random() < 0.3:
        via, end = f'w{draw.choice(meeting)}', draw.choice(list(ways))
    if draw.random() < 0.02:
        end = draw.choice([*ways, max(ways) + 10**6])
    more = f',w{draw.choice(list(ways))}@x,n{node}@y' if draw.random() < 0.02 else ''
    return f'w{start}@from,{via}@via,w{end}@to{more}'


def add_restrictions(draw, made, rule, ways):
    meeting = {}
    for way, nodes in ways.items():
        for node in set(nodes):
            meeting.setdefault(node, []).append(way)
    for node, here in meeting.items():
        if len(here) > 1 and draw.random() < 0.05:
            value = draw.choice(['no_left_turn', 'only_straight_on', 'no_u_turn'])
            members = members_of(draw, ways, node, here)
            made['r', rule] = f'r{rule} Ttype=restriction,restriction={value} M{members}'
            rule += 1


def spoil(path, seed):
    draw = random.Random(seed)
    with open(path, encoding='utf-8') as lines:
        whole = Map(lines)
    made = dict(whole.lines)
    spoil_nodes(draw, made)
    add_ways(draw, made, max(whole.ways) + 1, sorted(whole.nodes))
    add_restrictions(draw, made, max(whole.members, default=0) + 1, whole.ways)
    for key in sorted(made, key=lambda key: ('nwr'.index(key[0]), key[1])):
        print(made[key])


def spots():
    """Places on the world's edges, and on borders that every plan may have."""
    west, south, east, north = WORLD
    corners = [(x, y) for x in (west, east) for y in (south, north)]
    middle = [-1800000000 + 2**31, 0]
    return corners + [(east, 0), (west, 0), (0, north), (0, south), (east - 1, 510000000), (west + 9999, 510000000),
                      *((x, y) for x in middle for y in (0, -1800000000 + 2**31)), (900000000, 400000000)]


def net(draw, spot, first):
    """The places of a net of nodes about a spot, and its ways."""
    size = 2 * HALF
    nodes, ways = [], []
    for row in range(size):
        for column in range(size):
            shifted = [at + (step - HALF) * draw.choice([1, 3000, 20000]) for at, step in zip(spot, (column, row))]
            nodes.append(tuple(max(WORLD[at], min(WORLD[at + 2], value)) for at, value in enumerate(shifted)))
    for row in range(size):
        ways.append([first + row * size + column for column in range(size)][draw.randint(0, 3):])
        ways.append([first + column * size + row for column in range(size)][draw.randint(0, 3):])
    return nodes, ways


def world(seed):
    draw, nodes, ways = random.Random(seed), [], []
    for spot in spots():
        places, lines = net(draw, spot, len(nodes) + 1)
        nodes += places
        ways += lines
    ways += [[draw.randint(1, len(nodes)) for _ in range(2)] for _ in range(12)]
    for number, place in enumerate(nodes, 1):
        print('n{} x{} y{}'.format(number, *map(degrees, place)))
    for number, line in enumerate(ways, 1):
        print(f'w{number} Thighway=road N' + ','.join(f'n{node}' for node in line))


if __name__ == '__main__':
    if len(sys.argv) != 3:
        sys.exit(__doc__)
    if sys.argv[1] == 'world':
        world(int(sys.argv[2]))
    else:
        spoil(sys.argv[1], int(sys.argv[2]))
