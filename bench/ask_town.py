#!/usr/bin/env python3
"""Asks a session on a store of a town, and prints how long each kind of message takes by the clock, from the first byte
sent to the last byte of its reply. Use: ask_town.py PROGRAM STORE TOWN.opl CHANGES.opl; bench/session_town.sh calls it.
"""
import random
import subprocess
import sys
import time

sys.dont_write_bytecode = True      # the import below leaves no folder beside the scripts
from town_nodes import Town         # noqa: E402

program, store, town, changes = sys.argv[1:]
session = subprocess.Popen([program, store, 'session'], stdin=subprocess.PIPE, stdout=subprocess.PIPE)


def ask(message):
    """The reply to a message that gets one line, and how many milliseconds it took."""
    start = time.perf_counter()
    session.stdin.write(message.encode())
    session.stdin.flush()
    reply = session.stdout.readline().decode()
    return reply, 1000 * (time.perf_counter() - start)


def middle(found):
    return sorted(found)[len(found) // 2]


def tell(name, times):
    print(f'  {name:44} {len(times):5} times  middle {middle(times):9.2f} ms  longest {max(times):9.2f} ms')


opened = ask('state\n')
print(f'  {opened[0].strip()}, {opened[1]:.0f} ms by the clock')
draws = random.Random(1)
nodes = Town(town, draws)
far, near, apart, steps_far = [], [], [], []
for _ in range(100):
    reply, took = ask('reach {} {}\n'.format(*nodes.across()))
    if reply.startswith('drive'):
        far.append(took)
        steps_far.append(reply.count(' '))
    else:
        apart.append(took)
for _ in range(100):
    near.append(ask('reach {} {}\n'.format(*nodes.nearby()))[1])
tell('reach across the town, found', far)
tell('reach across the town, none', apart or [0])
tell('reach nearby', near)
print(f'  steps of drives across the town: middle {middle(steps_far)}, longest {max(steps_far)}')

# a legal drive of 100,000 steps, there and back between two nodes
drive = []
while not drive:
    here, there = draws.choice(nodes.low), draws.choice(nodes.low)
    out, back = (ask(f'reach {a} {b}\n')[0] for a, b in ((here, there), (there, here)))
    if out.startswith('drive') and back.startswith('drive') and here != there:
        once = out.split()[1:] + back.split()[1:]
        if ask('drive ' + ' '.join(once * 2) + '\n')[0] == 'legal\n':
            drive = (once * (100000 // len(once) + 1))[:100000]
verdict, took = ask('drive ' + ' '.join(drive) + '\n')
print(f'  drive of {len(drive)} steps: {verdict.strip()}')
tell('drive of 100,000 steps', [ask('drive ' + ' '.join(drive) + '\n')[1] for _ in range(5)])

with open(changes, encoding='utf-8') as lines:
    events = lines.read().splitlines()
frames = []
for number in range(2, 7):
    part = events[20 * (number - 2):20 * (number - 1)]
    reply, took = ask(f'#seq {number}\n' + '\n'.join(part) + '\n#end\n')
    assert reply == f'applied {number}\n', reply
    frames.append(took)
tell('a frame of 20 events', frames)
session.stdin.close()
session.wait()
