#!/usr/bin/env python3
"""What osmium really takes, against bench/cell_model.py, on drawn maps: the promises of docs/CELLS.md.

Of each map osmium-extract cuts five boxes, as tools/cells/boxes.py would have them, and one that lies in another one
from that: each cut must be that of the model, but for relations that come as parents of others. Then tags-filter must
leave the map of the roads, and tools/cells/step what is within eight links of some ways, with whatever more. Last come
places on the edges of boxes all over the world, and one unit beside them.

Use: cells_promises.py MAPS [FIRST [BOXES]], with 60 such boxes where left out. It wants osmium-tool. Its status is 1
where osmium took something else.
"""
import json
import os
import random
import subprocess
import sys
import tempfile

sys.dont_write_bytecode = True      # the imports below leave no folder beside the scripts
HERE = os.path.dirname(os.path.realpath(__file__))
sys.path.insert(0, os.path.join(HERE, '../tools/cells'))
import boxes                                            # noqa: E402
import cell_model                                       # noqa: E402
import osmium_stand_in                                  # noqa: E402
from cell_model import WORLD, Map, degrees              # noqa: E402
from try_cells import STEP, drawn_map                   # noqa: E402

LINK_RADIUS = 8


class Wrong(Exception):
    pass


def osmium(*words):
    subprocess.run(['osmium', words[0], '--no-progress', *words[1:]], check=True, stdout=subprocess.PIPE)


def read(path):
    """The map of a file, as osmium writes its lines."""
    words = ['osmium', 'cat', '--no-progress', '-f', 'opl,add_metadata=false', path]
    return Map(subprocess.run(words, check=True, stdout=subprocess.PIPE, text=True).stdout.splitlines())


def write(room, name, lines):
    """A PBF of these lines."""
    opl, path = os.path.join(room, 'lines.opl'), os.path.join(room, name)
    with open(opl, 'w', encoding='utf-8') as file:
        file.writelines(line + '\n' for line in lines)
    osmium('cat', '-O', '-o', path, opl)
    return path


def must_be(what, found, wanted):
    """The same objects, but for relations that come beside."""
    more = {key for key in found.lines if key not in wanted.lines and key[0] != 'r'}
    if more or not wanted.lines.keys() <= found.lines.keys():
        raise Wrong(f'{what}: {found.lines.keys() ^ wanted.lines.keys()}')
    for key in found.lines:
        of_letter = {'n': found.nodes, 'w': found.ways, 'r': found.members}[key[0]]
        as_wanted = {'n': wanted.nodes, 'w': wanted.ways, 'r': wanted.members}[key[0]]
        if key in wanted.lines and of_letter[key[1]] != as_wanted[key[1]]:
            raise Wrong(f'{what}: {found.lines[key]}')


def extract(room, path, areas):
    """What osmium-extract takes for some areas, by files of tools/cells."""
    plan, config = os.path.join(room, 'cells.txt'), os.path.join(room, 'config.json')
    with open(plan, 'w', encoding='utf-8') as file:
        file.writelines('- {},{},{},{} 0\n'.format(*area) for area in areas)
    with open(config, 'w', encoding='utf-8') as file:
        file.write(subprocess.run([boxes.__file__, 'cells', '1', str(len(areas)), plan], check=True,
                                  stdout=subprocess.PIPE, text=True).stdout)
    osmium('extract', '-O', '-s', 'complete_ways', '-c', config, '-d', room, path)
    return [os.path.join(room, f'{number}.osm.pbf') for number in range(1, len(areas) + 1)]


def drawn_area(draw, side):
    ends = [sorted(draw.sample(range(side + 1), 2)) for _ in range(2)]
    return tuple(STEP * ends[at][end] for end in (0, 1) for at in (0, 1))


def try_cuts(room, path, whole, draw, side):
    """Some areas, and one in an area that is larger."""
    areas = [drawn_area(draw, side) for _ in range(5)]
    for area, file in zip(areas, extract(room, path, areas)):
        must_be(f'the cut of {area}', read(file), cell_model.cut(whole, area))
    inner = areas[0]
    outer = [edge + sign * STEP * draw.randint(0, 3) for edge, sign in zip(inner, (-1, -1, 1, 1))]
    os.rename(extract(room, path, [outer])[0], os.path.join(room, 'region.osm.pbf'))
    (file,) = extract(room, os.path.join(room, 'region.osm.pbf'), [inner])
    must_be(f'the cut of {inner} from a region', read(file), cell_model.cut(whole, inner))


def try_links(room, path, roads, draw):
    """All within the link radius of some ways must be there, as it is in the map."""
    if not roads.highways:
        return
    ways = sorted(draw.sample(roads.highways, min(2, len(roads.highways))))
    os.makedirs(os.path.join(room, 'lists'), exist_ok=True)
    with open(os.path.join(room, 'lists/1'), 'w', encoding='utf-8') as file:
        file.writelines(f'{way}\n' for way in ways)
    os.replace(path, os.path.join(room, 'roads.osm.pbf'))
    subprocess.run([os.path.join(HERE, '../tools/cells/step'), 'near'], cwd=room, check=True)
    found = read(os.path.join(room, 'near.osm.pbf'))
    near = cell_model.within(roads.links(), [('w', way) for way in ways], LINK_RADIUS)
    must_be(f'what is near {ways}', found, roads.part(found.lines.keys() | near.keys()))


def try_map(room, seed):
    whole, side, draw = drawn_map(seed)
    path = write(room, 'map.osm.pbf', whole.lines.values())
    try_cuts(room, path, whole, draw, side)
    osmium('tags-filter', '-O', '-o', os.path.join(room, 'filtered.osm.pbf'), path, 'w/highway', 'r/type=restriction')
    roads = read(os.path.join(room, 'filtered.osm.pbf'))
    keys = {('w', way) for way in whole.highways} | {('r', rule) for rule in whole.restrictions}
    must_be('the roads', roads, whole.part(osmium_stand_in.with_referenced(whole, keys)))
    try_links(room, os.path.join(room, 'filtered.osm.pbf'), roads, draw)


def try_edges(room, draw, count):
    """How many places on edges of boxes, and beside them, were compared."""
    areas, places = [], []
    for _ in range(count):
        ends = [sorted(draw.sample(range(WORLD[at], WORLD[at + 2] + 1), 2)) for at in range(2)]
        areas.append(tuple(ends[at][end] for end in (0, 1) for at in (0, 1)))
        near = [[min(max(edge + by, WORLD[at]), WORLD[at + 2]) for edge in ends[at] for by in (-1, 0, 1)]
                for at in range(2)]
        places += [(x, y) for x in near[0] for y in near[1]]
    lines = ['n{} x{} y{}'.format(number, *map(degrees, place)) for number, place in enumerate(places, 1)]
    whole, path = Map(lines), write(room, 'edges.osm.pbf', lines)
    for area, file in zip(areas, extract(room, path, areas)):
        must_be(f'the places in {area}', read(file), cell_model.cut(whole, area))
    return len(places) * len(areas)


def main(maps, first=0, edges=60):
    with tempfile.TemporaryDirectory() as room:
        for seed in range(int(first), int(first) + int(maps)):
            try:
                try_map(room, seed)
            except (Wrong, subprocess.CalledProcessError) as fault:
                print(f'map {seed}: {fault}')
                return 1
        try:
            compared = try_edges(room, random.Random(int(first)), int(edges))
        except Wrong as fault:
            print(fault)
            return 1
    print(f'{maps} maps, and {compared} places at edges: osmium takes what was promised')
    return 0


if __name__ == '__main__':
    sys.exit(main(*sys.argv[1:]))
