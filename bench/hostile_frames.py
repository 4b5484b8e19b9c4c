#!/usr/bin/env python3
"""Sends hostile frames to sessions, and prints how long each takes by the clock beside what `- compile` of the same map
takes, and the greatest memory of the session before and behind them: a node of 10,000 ways that is deleted; a
restriction of 65,535 members that comes, and goes; a change that touches every way; one object two thousand times; a
hundred thousand nodes moved. Behind each the graph that was followed is compared with the one that is compiled. Use:
hostile_frames.py PROGRAM FOLDER; bench/frames.sh calls it.
"""
import os
import subprocess
import sys
import time

program, folder = sys.argv[1:]


def star(ways):
    """Ways that end at one node, which a bollard shuts, so that no arc leads on there."""
    yield 'n1 v1 Tbarrier=bollard x8 y50\n'
    for k in range(2, ways + 2):
        yield f'n{k} v1 x8.{k:07} y50.1\n'
    for k in range(2, ways + 2):
        yield f'w{k} v1 Thighway=residential Nn1,n{k}\n'


def grid(size):
    """Streets between neighbouring junctions."""
    for k in range(size * size):
        yield f'n{k + 1} v1 x8.{k % size:07} y50.{k // size:07}\n'
    number = 0
    for k in range(size * size):
        for other in ([k + 1] if (k + 1) % size else []) + ([k + size] if k + size < size * size else []):
            number += 1
            yield f'w{number} v1 Thighway=residential Nn{k + 1},n{other + 1}\n'


def members(ways):
    return ','.join(f'w{1 + k % ways}@via' for k in range(65535))


def run(words, given):
    start = time.perf_counter()
    done = subprocess.run([program, *words], input=given, stdout=subprocess.PIPE, check=True)
    return done.stdout, time.perf_counter() - start


def peak_of(session):
    """The greatest amount of memory that the session held, in KB."""
    with open(f'/proc/{session.pid}/status', encoding='ascii') as it:
        return next(int(line.split()[1]) for line in it if line.startswith('VmHWM'))


def tries(name, lines, frames):
    store, extract = os.path.join(folder, 'store'), ''.join(lines).encode()
    for end in '.a', '.b':
        if os.path.exists(store + end):
            os.remove(store + end)
    run([store, 'create', '1'], extract)
    _, compiled = run(['-', 'compile'], extract)
    session = subprocess.Popen([program, store, 'session'], stdin=subprocess.PIPE, stdout=subprocess.PIPE)

    def ask(message):
        start = time.perf_counter()
        session.stdin.write(message)
        session.stdin.flush()
        return session.stdout.readline(), time.perf_counter() - start

    ask(b'state\n')
    opened = peak_of(session)
    took = []
    for number, lines in enumerate(frames, 2):
        reply, clock = ask(f'#seq {number}\n{"".join(lines)}#end\n'.encode())
        if reply != b'applied %d\n' % number:
            sys.exit(f'{name}: {reply}')
        took.append(clock)
    peak = peak_of(session)
    head, _ = ask(b'graph\n')
    graph = session.stdout.read(int(head.split()[1]))
    session.stdin.close()
    session.wait()
    if graph != run([store, 'graph'], b'')[0]:
        sys.exit(f'{name}: the graph that was followed is not the one that is compiled')
    print(f'  {name}: compiled in {1000 * compiled:.0f} ms; frames '
          + ', '.join(f'{1000 * clock:.1f}' for clock in took) + f' ms; {opened} KB opened, {peak} KB behind them')


tries('a node of 10,000 ways, deleted', star(10000), [['n1 v2 dD\n']])
tries('a restriction of 65,535 members, new and gone', grid(200), [
    [f'r1 v1 Ttype=restriction,restriction=no_u_turn M{members(79600)}\n'], ['r1 v2 dD\n']])
tries('every way touched', grid(200), [[f'w{k} v2 Thighway=service N\n' for k in range(1, 79601, 40)]])
tries('one object two thousand times', grid(200), [[f'n1 v{k} x8.{k:07} y50\n' for k in range(2, 2002)]])
tries('100,000 nodes moved', grid(400), [[f'n{k} v2 x8.{k:07} y51\n' for k in range(1, 100001)]])
