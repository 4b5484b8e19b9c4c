#!/usr/bin/env python3
"""Tries `zone-reach` and `zone-drive` on drawn maps with ways for destination traffic: those of bench/try_sources.py.

On a store of profile 2 it asks a session for `zone-reach` of all pairs of nodes of a map. There must be a drive exactly
where one is found by the graph's arcs beside the marks of the way driven so far, which are made of the tags alone: a
search that knows each context once for each way in which zones and other roads may have followed one another. What is
replied must begin and end at the nodes, be legal by the session's own word, and go through no zone by the tags; and
`none` and `no-node` must be those of `reach`, or, where that has a drive, stand for one that zones forbid. Then drives
are drawn, along arcs and across them, and of each `zone-drive` must say what `drive` says, or `through` at the first
step behind a zone that was driven into, whichever comes first. On the same store of profile 1 both messages must say
what `reach` and `drive` say.

Use: try_zones.py PROGRAM [MAPS [FIRST]], with 200 maps where left out, of the seeds from FIRST on. It prints how many
were tried; its status is 1 where one isn't as it must be, with the map's lines.
"""
import itertools
import os
import random
import re
import subprocess
import sys
import tempfile

sys.dont_write_bytecode = True      # the imports below leave no folder beside the scripts
HERE = os.path.dirname(os.path.realpath(__file__))
sys.path[:0] = [HERE, os.path.join(HERE, '../tools')]
import sources_of                           # noqa: E402
from graph_file import Network              # noqa: E402
from session import Session                 # noqa: E402
from try_routes import Trouble, drawn_map, must     # noqa: E402
from try_sources import with_tags           # noqa: E402

STEP = re.compile(r'w(-?\d+)\.(\d+)([+-])')
THROUGH = re.compile('0.*1.*0')     # a zone step between two others


class Zones:
    """Which steps are zone steps, by the tags alone."""

    def __init__(self, lines, raised):
        self.tags, self.raised = sources_of.ways_of(lines.decode().split('\n')), raised

    def mark(self, way, direction):
        zone = self.raised and way in self.tags and sources_of.is_marked(self.tags[way], direction)
        return '1' if zone else '0'

    def of_steps(self, steps):
        """The marks of steps, spelled: 1 for each zone step, 0 for each other."""
        found = (STEP.fullmatch(step) for step in steps)
        return ''.join(self.mark(int(step[1]), '+-'.index(step[3])) for step in found)

    def through(self, steps):
        """How many first steps go through a zone; None where the steps don't."""
        marks = self.of_steps(steps)
        return next((count for count in range(1, len(marks) + 1) if THROUGH.search(marks[:count])), None)


def then(runs, mark):
    """The marks of a way on, as runs of one mark each; None where it goes through a zone."""
    runs = runs if runs.endswith(mark) else runs + mark
    return None if THROUGH.search(runs) else runs


def reachable(network, zones, start):
    """The nodes to which a drive from the start comes that goes through no zone."""
    marks = [zones.mark(network.name(piece)[0], network.name(piece)[2]) for piece in range(len(network.keys))]
    nodes = [[place[0] for place in network.places(piece)] for piece in range(len(network.keys))]
    found, seen, states = set(), set(), []
    for piece, places in enumerate(nodes):
        for at in range(len(places) - 1):
            if places[at] == start:
                found.update(places[at + 1:])
                states.append((network.first_contexts[piece], marks[piece]))
    while states:
        state = states.pop()
        if state in seen:
            continue
        seen.add(state)
        for target in network.arcs_of(state[0]):
            runs = then(state[1], marks[network.owners[target]])
            if runs is not None:
                found.update(nodes[network.owners[target]][1:])
                states.append((target, runs))
    return found


def ends_of(lines, steps):
    """The nodes where a drive begins and ends, by the lines of ways: a node that is repeated there counts once."""
    def node(step, last):
        way, index, direction = STEP.fullmatch(step).groups()
        refs = re.search(rf'^w{way} .* N(\S+)$', lines.decode(), re.MULTILINE)[1]
        line = [int(node[1:]) for node, _ in itertools.groupby(refs.split(','))]
        return line[int(index) + ((direction == '+') == last)]
    return node(steps[0], False), node(steps[-1], True)


def try_reach(session, lines, zones, found, pair):
    """One pair of nodes; returns whether there is a drive, and whether zones alone forbid one."""
    plain, reply = (session.ask('{} {} {}'.format(message, *pair)) for message in ('reach', 'zone-reach'))
    if plain.startswith('no-node') or plain == 'none':
        must(reply == plain, f'{reply}, and reach says {plain}')
        return False, False
    must(reply.startswith('drive ') == (pair[1] in found), f'{reply} from {pair[0]} to {pair[1]}, and found: {found}')
    if reply == 'none':
        return False, True
    steps = reply.split()[1:]
    must(ends_of(lines, steps) == pair, f'{reply}: it has other ends than {pair}')
    must(session.ask('drive ' + ' '.join(steps)) == 'legal', f'{reply}: it is not legal')
    must(zones.through(steps) is None, f'{reply}: it goes through a zone')
    must(session.ask('zone-drive ' + ' '.join(steps)) == 'legal', f'{reply}: zone-drive has a complaint')
    return True, False


def steps_of(network, piece):
    way, index, direction = network.name(piece)
    order = range(index, network.ends[piece])
    return [f'w{way}.{at}{"+-"[direction]}' for at in (reversed(order) if direction else order)]


def drawn_drive(network, draw):
    """Steps along arcs, maybe without the first or the last ones, and maybe with some changed."""
    context, steps = draw.randrange(len(network.owners)), []
    for _ in range(draw.randint(1, 8)):
        steps += steps_of(network, network.owners[context])
        onward = network.arcs_of(context)
        if not onward:
            break
        context = draw.choice(onward)
    first = draw.randrange(len(steps))
    steps = steps[first:draw.randint(first + 1, len(steps))]
    if draw.random() < 0.2:
        steps[draw.randrange(len(steps))] = draw.choice(steps_of(network, draw.randrange(len(network.keys))))
    return steps


def try_drive(session, zones, steps):
    """One drive; returns whether zones alone forbid it."""
    plain, reply = (session.ask(f'{message} {" ".join(steps)}') for message in ('drive', 'zone-drive'))
    through = zones.through(steps)
    first = through is not None and (plain == 'legal' or through < int(plain.split()[1]))
    must(reply == (f'broken {through} through' if first else plain), f'{" ".join(steps)}: {reply}, {plain}, {through}')
    return first


def try_store(program, store, lines, nodes, raised, draw):
    """All pairs of nodes, and drawn drives; returns how many pairs, drives and those that zones forbid there were."""
    zones, counts = Zones(lines, raised), [0, 0, 0, 0]
    with Session(store, program) as session:
        network = Network(session.graph())
        for start in nodes:
            found = reachable(network, zones, start)
            for goal in nodes:
                drives, forbidden = try_reach(session, lines, zones, found, (start, goal))
                must(raised or not forbidden, f'from {start} to {goal}: forbidden under profile 1')
                counts[0] += drives
                counts[1] += forbidden
        for _ in range(40 if len(network.keys) else 0):
            counts[2] += 1
            counts[3] += try_drive(session, zones, drawn_drive(network, draw))
    return counts


def with_zones(lines, draw):
    """A map more of whose ways are for destination traffic, in both directions."""
    def zone(line):
        plain = b'Thighway=residential N' in line and draw.random() < 0.4
        return line.replace(b'=residential', b'=residential,access=destination') if plain else line
    return b''.join(zone(line) for line in lines.splitlines(keepends=True))


def try_map(program, room, seed):
    draw = random.Random(seed)
    lines, nodes = drawn_map(seed)
    lines, store = with_zones(with_tags(lines, draw), draw), os.path.join(room, 'store')
    subprocess.run([program, store, 'create', '1'], input=lines, stdout=subprocess.DEVNULL, check=True)
    try:
        plain = try_store(program, store, lines, nodes, False, draw)
        subprocess.run([program, store, 'raise'], stdout=subprocess.DEVNULL, check=True)
        zoned = try_store(program, store, lines, nodes, True, draw)
    except Trouble as fault:
        raise Trouble(f'map {seed}: {fault}\n{lines.decode()}') from None
    return [a + b for a, b in zip(plain, zoned)]


def main(program, maps=200, first=0):
    counts = [0, 0, 0, 0]
    for seed in range(int(first), int(first) + int(maps)):
        with tempfile.TemporaryDirectory() as room:
            try:
                counts = [a + b for a, b in zip(counts, try_map(program, room, seed))]
            except Trouble as trouble:
                print(trouble)
                return 1
    print('{} maps: {} pairs of nodes with a drive, {} where zones forbid each; {} drives, {} through a zone'
          .format(maps, *counts))
    return 0


if __name__ == '__main__':
    sys.exit(main(*sys.argv[1:]))
