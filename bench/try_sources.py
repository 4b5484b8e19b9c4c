#!/usr/bin/env python3
"""Tries the sources and marks of graphs on drawn maps, against bench/sources_of.py, which makes them of the arcs and of
the tags alone: small maps as those of bench/try_routes.py, with more restrictions and with ways for destination
traffic, under both profiles.

Of each map `compile` must put a graph whose sources and marks are those made anew, and `inspect` count it and the graph
of version 1 as one. Then a session follows drawn changes, on a store of profile 1 and on one that was raised, and is
asked for its graph behind each: that must be what `compile` puts of all lines up to there, byte for byte.

Use: try_sources.py PROGRAM [MAPS [FIRST [OLD [FILE.opl ..]]]], with 100 maps where left out, of the seeds from FIRST
on, and then the files, which are compiled alone. OLD is a program that puts graphs of version 1, or - for none: its
graphs must be the same but for marks and sources. It prints how many graphs were compared; its status is 1 where one
isn't as it must be.
"""
import os
import random
import subprocess
import sys
import tempfile

sys.dont_write_bytecode = True      # the imports below leave no folder beside the scripts
import sources_of                                       # noqa: E402
from try_pins import drawn_changes, replies, text_of    # noqa: E402
from try_routes import drawn_map, rule_lines            # noqa: E402

TAGS = ['access=destination', 'motorcar=destination', 'vehicle:backward=destination', 'access=destination,motorcar=yes',
        'motor_vehicle:forward=destination', 'access=no,motorcar:forward=destination', 'access=private']
PROFILES = ([], ['2'])


class Wrong(Exception):
    pass


def must(holds, what):
    if not holds:
        raise Wrong(what)


def run(words, given=b''):
    return subprocess.run(words, input=given, stdout=subprocess.PIPE, check=True).stdout


def with_tags(lines, draw):
    """A map some of whose ways are for destination traffic, and that has more restrictions."""
    out, ways = [], {}
    for line in lines.decode().splitlines():
        if line.startswith('w'):
            name, *_, nodes = line.split()
            ways[int(name[1:])] = [int(node[1:]) for node in nodes[1:].split(',')]
            if draw.random() < 0.3:
                line = line.replace('=residential', f'=residential,{draw.choice(TAGS)}')
        if not line.startswith('r'):
            out.append(line)
    out += rule_lines(draw, ways, draw.randint(0, 8))
    return ''.join(line + '\n' for line in out).encode()


def compare(program, old, lines, what):
    """The graphs of the lines under both profiles."""
    tags, graphs = sources_of.ways_of(lines.decode().split('\n')), []
    for profile in PROFILES:
        graph = run([program, '-', 'compile', *profile], lines)
        must(graph == sources_of.second_version(graph, tags), f'{what}: other sources or marks, {profile}')
        first = sources_of.first_version(graph)
        counts = [run([program, '-', 'inspect'], data) for data in (first, graph)]
        must(counts[0] == counts[1], f'{what}: {counts}')
        must(old == '-' or run([old, '-', 'compile', *profile], lines) == first, f'{what}: another graph, {profile}')
        graphs.append(graph)
    return graphs


def follow(program, room, lines, changes, raised):
    """What a session gives as its graph behind each change."""
    store = os.path.join(room, f'store.{raised}')
    run([program, store, 'create', '1'], lines)
    if raised:
        run([program, store, 'raise'])
    text = ''.join(f'#seq {number}\n{change}#end\ngraph\n' for number, change in enumerate(changes, 2))
    found = replies(run([program, store, 'session'], text.encode()))
    must([reply for reply in found if not reply.startswith(b'graph')]
         == [b'applied %d\n' % number for number in range(2, len(changes) + 2)], f'the replies {found[:9]}')
    return [reply[reply.index(b'\n') + 1:] for reply in found if reply.startswith(b'graph')]


def try_map(program, old, seed):
    """How many graphs were compared."""
    draw = random.Random(seed)
    lines = with_tags(drawn_map(seed)[0], draw)
    changes = [text_of(change) for change in drawn_changes(draw, lines)][:20]
    compare(program, old, lines, 'the map')
    with tempfile.TemporaryDirectory() as room:
        followed = [follow(program, room, lines, changes, raised) for raised in (False, True)]
    for number, change in enumerate(changes, 1):
        lines += change.encode()
        graphs = compare(program, old, lines, f'behind {number} changes')
        must([graphs[at] == followed[at][number - 1] for at in range(2)] == [True, True],
             f'a session has another graph behind {number} changes:\n{lines.decode()}')
    return 2 + 4 * len(changes)


def main(program, maps=100, first=0, old='-', *files):
    compared = 0
    for seed in range(int(first), int(first) + int(maps)):
        try:
            compared += try_map(program, old, seed)
        except (Wrong, subprocess.CalledProcessError) as fault:
            print(f'map {seed}: {fault}')
            return 1
    for name in files:
        with open(name, 'rb') as source:
            try:
                compared += len(compare(program, old, source.read(), name))
            except Wrong as fault:
                print(fault)
                return 1
    print(f'{compared} graphs compared')
    return 0


if __name__ == '__main__':
    sys.exit(main(*sys.argv[1:]))
