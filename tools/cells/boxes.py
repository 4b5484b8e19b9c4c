#!/usr/bin/env python3
"""What osmium cuts in a pass, for tools/cells/step.

boxes.py look ROADS.txt            ends with 1 where the roads, as osmium-fileinfo tells of them, can't be cut
boxes.py count MB ROADS.txt        how many boxes osmium-extract cuts in a pass of so many megabytes of memory
boxes.py regions PASS COUNT CELLS  osmium-extract's configuration for a pass of so many batches of so many cells each:
                                   the box about each batch
boxes.py cells BATCH COUNT CELLS   the same for a batch: the box of each cell
"""
import json
import sys

MOST = 64               # boxes in a pass: each place is compared with each of them
PROGRAM = 1000          # megabytes for the program itself
KINDS = ('node', 'way', 'relation')
EDGES = (('left', 0, min), ('bottom', 1, min), ('right', 2, max), ('top', 3, max))


def read(path):
    """What the lines `NAME: VALUE` say."""
    with open(path, encoding='utf-8') as lines:
        told = [line.partition(':') for line in lines]
    return {name.strip(): value.strip() for name, _, value in told}


def look(path):
    told = read(path)
    for name, wanted, wrong in (
            ('With history', 'no', 'it is a history'),
            ('Objects ordered (by type and id)', 'yes', 'its objects are not in the order of their types and numbers'),
            ('Multiple versions of same object', 'no', 'an object stands in it more than once')):
        if told[name] != wanted:
            sys.exit(f'boxes.py: the map can not be cut: {wrong}')
    if any(int(told[f'Smallest {kind} ID']) < 0 for kind in KINDS):
        sys.exit('boxes.py: the map can not be cut: it has negative numbers')


def count(megabytes, path):
    """For each box osmium keeps two bits for each number of a node, and of a way and a relation."""
    told = read(path)
    box = sum(2 * int(told[f'Largest {kind} ID']) / 8e6 for kind in KINDS) + 20
    print(max(1, min(MOST, int((megabytes - PROGRAM) / box))))


def boxes_of(path):
    """The box of each cell, as its four edges in units of 1e-7 degree."""
    with open(path, encoding='utf-8') as lines:
        return [[int(edge) for edge in line.split()[1].split(',')] for line in lines]


def degrees(units):
    return float('{}{}.{:07}'.format('-' if units < 0 else '', *divmod(abs(units), 10**7)))


def put(boxes, suffix, form):
    """The configuration with these boxes by their numbers, for files of this form."""
    extracts = [{'output': f'{number}.{suffix}', 'output_format': form,
                 'bbox': {name: degrees(box[at]) for name, at, _ in EDGES}} for number, box in boxes]
    json.dump({'extracts': extracts}, sys.stdout, indent=0)


def numbered(items, number, size):
    """The items of a group, from 1 on, of so many each, with their numbers, from 1 on."""
    return list(enumerate(items, 1))[(number - 1) * size:number * size]


def regions(number, size, path):
    boxes = boxes_of(path)
    batches = [boxes[at:at + size] for at in range(0, len(boxes), size)]
    around = ((batch, [choose(box[at] for box in parts) for _, at, choose in EDGES])
              for batch, parts in numbered(batches, number, size))
    put(around, 'osm.pbf', 'pbf,pbf_compression=lz4,add_metadata=false')


def cells(number, size, path):
    put(numbered(boxes_of(path), number, size), 'opl', 'opl,add_metadata=false')


def main(command='', *words):
    *numbers, path = words or ['']
    commands = {'look': look, 'count': count, 'regions': regions, 'cells': cells}
    if command not in commands:
        sys.exit(__doc__)
    commands[command](*map(int, numbers), path)


if __name__ == '__main__':
    main(*sys.argv[1:])
