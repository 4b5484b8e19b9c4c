#!/usr/bin/env python3
"""Puts roads for destination traffic into a town, measures drives that go through none; for bench/zone_town.sh.

zone_town.py gate SIDE TOWN.opl writes the town, of SIDE times SIDE junctions, with a tenth of its ways, drawn, and all
ways to two squares of it changed: those that are drawn and those to the first square are for destination traffic alone,
and those to the second one are closed.
zone_town.py ask PROGRAM STORE TOWN.opl SIDE asks a session on a store of profile 2 for `reach` and `zone-reach` between
the same nodes, and `drive` and `zone-drive` of 100,000 steps, a round trip driven again and again. It prints how long
each takes by the clock, and how much longer the drives are in steps.
"""
import os
import random
import re
import sys
import time

sys.dont_write_bytecode = True      # the imports below leave no folder beside the scripts
sys.path.insert(0, os.path.join(os.path.dirname(os.path.realpath(__file__)), '../tools'))
from session import Session         # noqa: E402
from town_nodes import Town         # noqa: E402

REACHES = ('reach', 'zone-reach')
HALF = 6        # of a square's side, in junctions


def middles(side):
    """The junctions in the middles of the two squares."""
    return [1 + row * side + column for row, column in ((side // 2, side // 3), (side // 2, 2 * side // 3))]


def rims(side):
    """The junctions on the rims of the two squares, each two deep, as a way goes over two edges."""
    def rim(middle):
        around = [(r, c) for r in range(-HALF, HALF + 1) for c in range(-HALF, HALF + 1)]
        return {middle + r * side + c for r, c in around if max(abs(r), abs(c)) >= HALF - 1}
    return [rim(middle) for middle in middles(side)]


def gate(side, path):
    draws, (gated, closed) = random.Random(1), rims(side)
    with open(path, encoding='utf-8') as lines:
        for line in lines:
            if line[0] == 'w' and 'highway=' in line:
                nodes = {int(node) for node in re.findall(r'n(\d+)', line.rsplit(' N', 1)[1])}
                drawn = draws.random() < 0.1
                value = 'no' if nodes & closed else 'destination' if drawn or nodes & gated else None
                line = line.replace('highway=', f'access={value},highway=', 1) if value else line
            sys.stdout.write(line)


def tell(name, times):
    times = sorted(times) or [0]
    print(f'  {name:40} {len(times):4} times  middle {times[len(times) // 2]:9.2f} ms  longest {times[-1]:9.2f} ms')
    return times[len(times) // 2]


def timed(session, line):
    start = time.perf_counter()
    reply = session.ask(line)
    return reply, 1000 * (time.perf_counter() - start)


def compare(session, kind, pairs):
    """What both messages take for pairs of nodes."""
    replies, middle = [], []
    for message in REACHES:
        answers = [timed(session, f'{message} {a} {b}') for a, b in pairs]
        nowhere = sum(reply == 'none' for reply, _ in answers)
        name = f'{message} {kind}' + (f', {nowhere} none' if nowhere else '')
        middle.append(tell(name, [took for _, took in answers]))
        replies.append([reply.split()[1:] for reply, _ in answers])
    longer = [len(zoned) / len(plain) for plain, zoned in zip(*replies) if plain and zoned]
    more = f', over {sum(longer) / len(longer):.3f} times as many steps' if longer else ''
    print(f'  {kind}: {middle[1] / middle[0]:.2f} times as long{more}')


def round_trip(session, pairs):
    """The steps of a drive from some node to another one and back that may be driven again and again."""
    for pair in pairs:
        there, back = (session.ask('zone-reach {} {}'.format(*ends)).split()[1:] for ends in (pair, pair[::-1]))
        if there and back and session.ask('drive ' + ' '.join(there + back + there)) == 'legal':
            return there + back
    return []


def ask(program, store, path, side):
    town = Town(path, random.Random(1))
    gated, closed = middles(side)
    far, near = [town.across() for _ in range(50)], [town.nearby() for _ in range(100)]
    with Session(store, program) as session:
        compare(session, 'across the town', far)
        compare(session, 'nearby', near)
        compare(session, 'into a gated square', [(start, gated) for start, _ in far[:10]])
        compare(session, 'into a closed square', [(start, closed) for start, _ in far[:10]])
        steps = round_trip(session, near + far)
        steps = (steps * (100000 // max(1, len(steps)) + 1))[:100000]
        for message in ('drive', 'zone-drive'):
            reply, took = timed(session, message + ' ' + ' '.join(steps))
            print(f'  {message} of {len(steps)} steps: {reply}, {took:.1f} ms')


if sys.argv[1] == 'gate':
    gate(int(sys.argv[2]), sys.argv[3])
else:
    ask(*sys.argv[2:5], int(sys.argv[5]))
