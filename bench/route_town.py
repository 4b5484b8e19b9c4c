#!/usr/bin/env python3
"""Asks a session on a store of a town for drives, any by `reach` and of least cost by `route`, and for certificates,
and prints how long each takes by the clock; then checks two certificates with tools/graph.py. bench/route_town.sh calls
it. Use: route_town.py PROGRAM STORE TOWN.opl GRAPH SECONDS, with what a compilation takes.
"""
import os
import random
import subprocess
import sys
import tempfile
import time

sys.dont_write_bytecode = True      # the imports below leave no folder beside the scripts
TOOLS = os.path.join(os.path.dirname(os.path.realpath(__file__)), '../tools')
sys.path.insert(0, TOOLS)
from session import Session         # noqa: E402
from town_nodes import Town         # noqa: E402

program, store, path, graph, compiled = sys.argv[1:]


def timed(call, *words):
    """What a call answers, and how many milliseconds it took."""
    start = time.perf_counter()
    answer = call(*words)
    return answer, 1000 * (time.perf_counter() - start)


def middle(found):
    return sorted(found)[len(found) // 2]


def tell(name, times):
    print(f'  {name:30} {len(times):4} times  middle {middle(times):9.2f} ms  longest {max(times):9.2f} ms')


def measure(session, kind, pairs):
    """What each message takes for pairs of nodes; returns the middles of reach and route."""
    middles = []
    for message in 'reach', 'route':
        answers = [timed(session.ask, f'{message} {a} {b}') for a, b in pairs]
        found = [took for reply, took in answers if 'drive' in reply]
        tell(f'{message} {kind}', found or [0])
        if len(found) < len(pairs):
            tell(f'{message} {kind}, none', [took for reply, took in answers if 'drive' not in reply])
        middles.append(middle(found or [0]))
    tell(f'certify {kind}', [timed(session.certify, *pair)[1] for pair in pairs[:10]])
    return middles


def check(session, room, kind, pair):
    """Has a route and its certificate checked."""
    file = os.path.join(room, 'certificate')
    with open(file, 'wb') as target:
        target.write(session.certify(*pair))
    reply = session.ask('route {} {}'.format(*pair)).encode()
    words = [sys.executable, os.path.join(TOOLS, 'graph.py'), 'check', graph, file, *map(str, pair)]
    ended, took = timed(lambda: subprocess.run(words, input=reply, capture_output=True, check=False))
    print(f'  {kind}, {os.path.getsize(file)} bytes: {(ended.stdout or ended.stderr).decode().strip()}, '
          f'by graph.py in {took / 1000:.1f} s')
    return ended.returncode


def main():
    town = Town(path, random.Random(1))
    with Session(store, program) as session, tempfile.TemporaryDirectory() as room:
        if session.ask('route 1 1') == 'unknown':
            print('the program has no route')
            return 1
        far, near = [town.across() for _ in range(100)], [town.nearby() for _ in range(100)]
        _, across = measure(session, 'across the town', far)
        reach, nearby = measure(session, 'nearby', near)
        print(f'  a route across takes {across / 1000 / float(compiled):.2f} times a compilation, '
              f'one nearby {nearby / reach:.2f} times a reach')
        return check(session, room, 'across', far[0]) or check(session, room, 'nearby', near[0])


sys.exit(main())
