#!/usr/bin/env python3
"""Sends frames to a session on a store of a town, and prints how long each takes, from its first byte sent to the last
byte of its reply: by the clock, and as the session's own processor time. Use:
frames.py PROGRAM STORE TOWN.opl KIND FRAMES [EVENTS]; bench/frames.sh calls it. A frame has 20 events, or as many as
is told. The kinds are

  changed   events of objects that are there: nodes moved, tagged and deleted, ways tagged, cut short and deleted,
            restrictions changed and deleted
  new       half of the events are new: nodes, ways between distant nodes, short ways, restrictions; half as above

The number of a new way or node is above all others or below them, in turn.
"""
import os
import random
import re
import subprocess
import sys
import time

EVENTS = 20


class Town:
    """What frames are made of: all ways and restrictions, and one node of eight."""

    def __init__(self, path):
        self.nodes, self.ways, self.rules = {}, {}, {}
        self.last = {'n': 0, 'w': 0, 'r': 0}
        keep = random.Random(7)
        with open(path, encoding='utf-8') as lines:
            for line in lines:
                fields = line.split()
                kind, number = line[0], int(fields[0][1:])
                self.last[kind] = max(self.last[kind], number)
                version = int(fields[1][1:])
                data = {field[0]: field for field in fields[2:]}
                if kind == 'n' and keep.randrange(8) == 0:
                    self.nodes[number] = [version, data.get('T', 'T'), data['x'], data['y']]
                elif kind == 'w' and 'highway=' in data.get('T', ''):
                    self.ways[number] = [version, data['T'], data['N'][1:].split(',')]
                elif kind == 'r':
                    self.rules[number] = [version, data['T'], data['M']]
        self.lists = {'n': list(self.nodes), 'w': list(self.ways), 'r': list(self.rules)}
        self.low = -1

    def draw(self, kind, draws):
        """A number that isn't deleted yet, or None."""
        objects = {'n': self.nodes, 'w': self.ways, 'r': self.rules}[kind]
        for _ in range(50):
            number = draws.choice(self.lists[kind])
            if number in objects:
                return number
        return None

    def new(self, kind):
        if kind != 'r' and self.last[kind] % 2:
            self.last[kind] += 1
            self.low -= 1
            return self.low
        self.last[kind] += 1
        return self.last[kind]


def degrees(text, by):
    return f'{float(text) + by:.7f}'


def changed(town, draws):
    """One event of an object that is there."""
    what = draws.choices(
        ['move', 'tag node', 'drop node', 'tag way', 'cut way', 'drop way', 'change rule', 'drop rule'],
        [35, 10, 5, 20, 10, 5, 10, 5])[0]
    kind = 'r' if 'rule' in what else 'w' if 'way' in what else 'n'
    number = town.draw(kind, draws)
    if number is None:
        return None
    if kind == 'n':
        node = town.nodes[number]
        node[0] += 1
        if what == 'drop node':
            del town.nodes[number]
            return f'n{number} v{node[0]} dD'
        if what == 'move':
            node[2] = 'x' + degrees(node[2][1:], draws.uniform(-2e-5, 2e-5))
        else:
            node[1] = draws.choice(['T', 'Thighway=crossing', 'Tbarrier=gate', 'Tbarrier=bollard'])
        return f'n{number} v{node[0]} dV {node[1]} {node[2]} {node[3]}'
    if kind == 'w':
        way = town.ways[number]
        way[0] += 1
        if what == 'drop way':
            del town.ways[number]
            return f'w{number} v{way[0]} dD'
        if what == 'tag way':
            way[1] = 'Thighway=' + draws.choice(['residential', 'residential,oneway=yes', 'service', 'footway'])
        elif len(way[2]) > 2:
            way[2] = way[2][:-1]
        return f'w{number} v{way[0]} dV {way[1]} N{",".join(way[2])}'
    rule = town.rules[number]
    rule[0] += 1
    if what == 'drop rule':
        del town.rules[number]
        return f'r{number} v{rule[0]} dD'
    rule[1] = 'Ttype=restriction,restriction=' + draws.choice(['no_left_turn', 'no_u_turn', 'only_straight_on'])
    return f'r{number} v{rule[0]} dV {rule[1]} {rule[2]}'


def new(town, draws):
    """One event of a new object."""
    what = draws.choices(['node', 'far', 'near', 'rule'], [30, 30, 20, 20])[0]
    if what == 'node':
        number = town.new('n')
        like = town.nodes[town.draw('n', draws)]
        town.nodes[number] = [1, 'T', 'x' + degrees(like[2][1:], 1e-5), 'y' + degrees(like[3][1:], 1e-5)]
        town.lists['n'].append(number)
        return f'n{number} v1 dV T {town.nodes[number][2]} {town.nodes[number][3]}'
    if what == 'rule':
        number = town.new('r')
        like = town.rules[town.draw('r', draws)]
        town.rules[number] = [1, 'Ttype=restriction,restriction=no_u_turn', like[2]]
        town.lists['r'].append(number)
        return f'r{number} v1 dV {town.rules[number][1]} {like[2]}'
    number = town.new('w')
    if what == 'far':
        refs = [f'n{town.draw("n", draws)}' for _ in range(draws.randrange(2, 5))]
    else:
        like = town.ways[town.draw('w', draws)]
        refs = [like[2][0], f'n{town.draw("n", draws)}']
    town.ways[number] = [1, 'Thighway=residential', refs]
    town.lists['w'].append(number)
    return f'w{number} v1 dV {town.ways[number][1]} N{",".join(refs)}'


def frame(kind, town, draws, count=EVENTS):
    events = []
    while len(events) < count:
        event = new(town, draws) if kind == 'new' and draws.randrange(2) else changed(town, draws)
        if event:
            events.append(event)
    return events


def processor_time(process):
    """In seconds, by the nanosecond."""
    with open(f'/proc/{process.pid}/schedstat', encoding='ascii') as it:
        return int(it.read().split()[0]) / 1e9


def main():
    program, store, path, kind, count, *more = sys.argv[1:]
    events = int(more[0]) if more else EVENTS
    town, draws = Town(path), random.Random(3)
    session = subprocess.Popen([program, store, 'session'], stdin=subprocess.PIPE, stdout=subprocess.PIPE)

    def ask(message):
        session.stdin.write(message)
        session.stdin.flush()
        return session.stdout.readline()

    kept = int(re.match(rb'state sequence (\d+) ', ask(b'state\n')).group(1))
    clock, own = [], []
    for number in range(kept + 1, kept + 1 + int(count)):
        message = f'#seq {number}\n' + '\n'.join(frame(kind, town, draws, events)) + '\n#end\n'
        before, start = processor_time(session), time.perf_counter()
        reply = ask(message.encode())
        clock.append(1000 * (time.perf_counter() - start))
        own.append(1000 * (processor_time(session) - before))
        if reply != b'applied %d\n' % number:
            sys.exit(f'{reply} for the frame {number}')
    with open(f'/proc/{session.pid}/status', encoding='ascii') as it:
        peak = next(line.split()[1] for line in it if line.startswith('VmHWM'))
    tenth = max(1, len(clock) // 10)
    mean = lambda times: sum(times) / len(times)
    print(f'  {kind:8} {len(clock)} frames of {events}: mean {mean(clock):.2f} ms, longest {max(clock):.2f} ms, '
          f'processor time {mean(own):.2f} ms; the first tenth {mean(clock[:tenth]):.2f} ms, '
          f'the last {mean(clock[-tenth:]):.2f} ms; {peak} KB')
    # the graph that was followed is the one that is compiled from what is kept
    head = ask(b'graph\n')
    graph = session.stdout.read(int(head.split()[1]))
    session.stdin.close()
    session.wait()
    anew = subprocess.run([program, store, 'graph'], stdout=subprocess.PIPE, check=True).stdout
    if graph != anew:
        sys.exit(f'the graph that was followed, of {len(graph)} bytes, is not the one that is compiled, of {len(anew)}')
    os.write(1, f'  {kind:8} the graph that was followed is the one that is compiled: {len(anew)} bytes\n'.encode())


if __name__ == '__main__':
    main()
