#!/usr/bin/env python3
"""Tries routes of least cost and their certificates on drawn maps: small ones, with oneways, barriers, restrictions
over nodes and ways, ways over one node twice, and places at the poles, at 180 degrees and at one spot.

Of all pairs of nodes of a map it asks a session for `route` and `certify`. The cost must be that which
bench/least_cost.py finds by the graph file, the drive legal by the session's own word, and the certificate one by
tools/certificate.py. Then numbers of the certificate are changed, one at a time: the checker must say what the four
conditions say when they are written out for all pieces, steps and arcs; and no to each change of a number on the drive,
since there each condition leaves a potential only one value.

Use: try_routes.py PROGRAM [MAPS [FIRST]], with 200 maps where left out, of the seeds from FIRST on. It prints how many
were tried; its status is 1 where one isn't as it must be, with the map's lines.
"""
import os
import random
import subprocess
import sys
import tempfile

sys.dont_write_bytecode = True      # the imports below leave no folder beside the tools
HERE = os.path.dirname(os.path.realpath(__file__))
sys.path[:0] = [HERE, os.path.join(HERE, '../tools')]
import certificate                          # noqa: E402
import least_cost                           # noqa: E402
from certificate import NOTHING, step_cost  # noqa: E402
from graph_file import Network, Refusal     # noqa: E402
from session import NoNode, Session         # noqa: E402

EAST, NORTH = 1800000000, 900000000
# whence places are drawn, and how far they may be from there
SPOTS = [((80000000, 500000000), 20000)] * 4 + [
    ((EAST - 1000, 100), 5000), ((0, NORTH - 500), 3000), ((-EAST, -NORTH), 8000), ((5, 600000000), 0),
    ((0, 0), EAST)]


# ------------------------------------------------------------------------------------------------------------ the maps


def degrees(units):
    whole, part = divmod(abs(units), 10 ** 7)
    return f'{"-" if units < 0 else ""}{whole}.{part:07}'


def node_lines(draw, count):
    (lon, lat), far = draw.choice(SPOTS)
    for node in range(1, count + 1):
        x = (lon + draw.randint(-far, far) + EAST) % (2 * EAST) - EAST
        y = max(-NORTH, min(NORTH, lat + draw.randint(-far, far)))
        tags = draw.choice([''] * 12 + [' Tbarrier=bollard', ' Thighway=turning_circle'])
        place = '' if draw.random() < 0.02 else f' x{degrees(x)} y{degrees(y)}'
        yield f'n{node} v1{tags}{place}'


def way_lines(draw, ways):
    for way, nodes in ways.items():
        tag = draw.choice([''] * 5 + [',oneway=yes', ',oneway=-1', ',access=no', ',junction=roundabout'])
        yield f'w{way} v1 Thighway=residential{tag} N' + ','.join(f'n{node}' for node in nodes)


def rule_lines(draw, ways, count):
    for rule in range(1, count + 1):
        kind = draw.choice(['no_left_turn', 'no_straight_on', 'only_right_turn', 'only_straight_on', 'no_u_turn'])
        chain = chained(draw, ways, draw.choice([2, 2, 2, 3, 3, 4]))
        if len(chain) >= 2:
            between = [f'w{way}@via' for way in chain[1:-1]] or [f'n{shared(draw, ways, *chain[:2])}@via']
            members = [f'w{chain[0]}@from', *between, f'w{chain[-1]}@to']
            yield f'r{rule} v1 Ttype=restriction,restriction={kind} M' + ','.join(members)


def chained(draw, ways, length):
    """Ways each of which shares a node with the one before."""
    chain = [draw.choice(sorted(ways))]
    while len(chain) < length:
        onward = [way for way in sorted(ways) if set(ways[way]) & set(ways[chain[-1]])]
        chain.append(draw.choice(onward))
    return chain


def shared(draw, ways, way, other):
    return draw.choice(sorted(set(ways[way]) & set(ways[other])))


def drawn_map(seed):
    """The lines of a map, and its nodes."""
    draw = random.Random(seed)
    count = draw.randint(3, 9)
    ways = {way: [draw.randint(1, count) for _ in range(draw.choice([2, 2, 3, 3, 4, 6]))]
            for way in range(1, draw.randint(2, 9))}
    lines = [*node_lines(draw, count), *way_lines(draw, ways), *rule_lines(draw, ways, draw.randint(0, 4))]
    return ''.join(line + '\n' for line in lines).encode(), range(1, count + 1)


# ----------------------------------------------------------------------------------------- the conditions, written out


def is_certificate(network, potentials, start, goal, cost):
    """The four conditions, each for all that it speaks of; what costs are is summed anew each time."""
    def between(piece, first, last):
        places = network.places(piece)
        return sum(step_cost(*places[at:at + 2]) for at in range(first, last))

    pieces = range(len(network.keys))
    ends = {piece: [place[0] for place in network.places(piece)] for piece in pieces}
    last = {piece: len(nodes) - 1 for piece, nodes in ends.items()}
    arcs = [(context, target) for context in range(len(network.owners)) for target in network.arcs_of(context)]
    begins = all(potentials[network.first_contexts[piece]] <= between(piece, at, last[piece])
                 for piece in pieces for at in range(last[piece]) if ends[piece][at] == start)
    goes_on = all(potentials[target] <= potentials[context] + between(network.owners[target], 0,
                                                                      last[network.owners[target]])
                  for context, target in arcs)
    comes = all(potentials[context] + between(network.owners[target], 0, at) >= cost
                for context, target in arcs for at in range(1, last[network.owners[target]] + 1)
                if ends[network.owners[target]][at] == goal)
    stays = all(between(piece, first, at) >= cost for piece in pieces for first in range(last[piece])
                for at in range(first + 1, last[piece] + 1)
                if ends[piece][first] == start and ends[piece][at] == goal)
    return begins and goes_on and comes and stays


def contexts_driven(network, steps):
    """The contexts that a drive leaves behind it by an arc."""
    piece, at = certificate.read_step(network, steps[0])
    context, found = network.first_contexts[piece], []
    for step in (certificate.read_step(network, word) for word in steps[1:]):
        if step != (piece, at + 1):
            found.append(context)
            (context,) = [target for target in network.arcs_of(context) if network.owners[target] == step[0]]
        piece, at = step
    return found


class Trouble(Exception):
    pass


def must(holds, what):
    if not holds:
        raise Trouble(what)


def try_changes(network, potentials, ends, cost, steps, draw):
    """Changes one number at a time, of those on the drive and of some others; returns how many were refused."""
    on_drive = contexts_driven(network, steps) if steps else []
    refused = 0
    for at in set(on_drive) | set(draw.sample(range(len(potentials)), min(3, len(potentials)))):
        number = potentials[at]
        others = [0, 7, draw.randrange(2 ** 128)] if number == NOTHING else [number - 1, number + 1, 0, NOTHING]
        for other in others:
            if other < 0 or other == number:
                continue
            changed = potentials[:at] + [other] + potentials[at + 1:]
            held = certificate.broken_condition(network, changed, *ends, cost) is None
            must(held == is_certificate(network, changed, *ends, cost), f'changed at {at} to {other}: {held}')
            must(not (held and at in on_drive), f'changed at {at} to {other}, on the drive, and still certified')
            refused += not held
    return refused


def try_pair(network, costs, session, ends, draw):
    """One pair of nodes; returns how many changed certificates were refused."""
    cost, stretches, _ = costs.least(*ends)
    reply = session.ask('route {} {}'.format(*ends))
    if reply.startswith('no-node'):
        must(cost == NOTHING, f'{reply}, and the search finds {least_cost.reply_of(network, cost, stretches)}')
        return 0
    must(certificate.read_reply(reply)[0] == cost, f'{reply}, and the search finds {cost}')
    data = session.certify(*ends)
    potentials = certificate.read_potentials(data, len(network.owners))
    try:
        certificate.check(network, data, *ends, reply)
    except Refusal as fault:
        raise Trouble(f'{reply}: {fault}') from None
    must(is_certificate(network, potentials, *ends, cost), f'{reply}: not certified by the conditions written out')
    steps = certificate.read_reply(reply)[1]
    must(not steps or session.drive(steps).legal, f'{reply}: the drive is not legal')
    for more in (cost + 1, NOTHING) if cost != NOTHING else ():
        must(certificate.broken_condition(network, potentials, *ends, more), f'{reply}: certified for {more} too')
    return try_changes(network, potentials, ends, cost, steps, draw)


def try_map(program, store, seed):
    """All pairs of a map; returns how many there were, how many had a drive, and how many changes were refused."""
    lines, nodes = drawn_map(seed)
    subprocess.run([program, store, 'create', '1'], input=lines, stdout=subprocess.DEVNULL, check=True)
    draw, refused, drives = random.Random(seed), 0, 0
    with Session(store, program) as session:
        network = Network(session.graph())
        costs = least_cost.Costs(network)
        for start in nodes:
            for goal in nodes:
                try:
                    refused += try_pair(network, costs, session, (start, goal), draw)
                except (Trouble, NoNode) as fault:
                    raise Trouble(f'map {seed}, from {start} to {goal}: {fault}\n{lines.decode()}') from None
                drives += costs.least(start, goal)[0] != NOTHING
    return len(nodes) ** 2, drives, refused


def main(program, maps=200, first=0):
    pairs = drives = refused = 0
    for seed in range(int(first), int(first) + int(maps)):
        with tempfile.TemporaryDirectory() as room:
            try:
                found = try_map(program, os.path.join(room, 'store'), seed)
            except Trouble as trouble:
                print(trouble)
                return 1
        pairs, drives, refused = pairs + found[0], drives + found[1], refused + found[2]
    print(f'{maps} maps, {pairs} pairs of nodes, {drives} with a drive; {refused} changed certificates refused')
    return 0


if __name__ == '__main__':
    sys.exit(main(*sys.argv[1:]))
