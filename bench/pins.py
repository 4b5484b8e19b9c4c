#!/usr/bin/env python3
"""Measures what readers cost who pin states of a session (docs/SESSION.md): beside the session in which they pin it
holds one in which nobody does, sends both the same frames of 20 events, in an order that is drawn for each, and prints
both. Times are by the clock, from the first byte sent to the last of the reply, or the session's own processor time.
Use: pins.py PROGRAM STORE TOWN.opl KIND FRAMES; the town is one of gen_town.py, the kinds are those of frames.py, and
FRAMES is how many are sent with pins taken and released all along, and behind one pin. bench/pins.sh calls it.
"""
import os
import random
import re
import shutil
import subprocess
import sys
import time

sys.dont_write_bytecode = True                              # the imports below leave no folder beside the scripts
import frames as frames_of                                  # noqa: E402
from frames import frame, processor_time                    # noqa: E402
from town_nodes import Town as Nodes                        # noqa: E402

READERS = 64
CYCLES, BEHIND, HELD = 40, 5, 16


def mean(times):
    return sum(times) / len(times)


def middle(times):
    return sorted(times)[len(times) // 2]


class Session:
    """A session on a copy of the store."""

    def __init__(self, program, store, name):
        self.store = f'{store}-{name}'
        for ending in 'ab':
            if os.path.exists(f'{store}.{ending}'):
                shutil.copyfile(f'{store}.{ending}', f'{self.store}.{ending}')
        self.process = subprocess.Popen([program, self.store, 'session'], stdin=subprocess.PIPE, stdout=subprocess.PIPE)
        self.number = int(re.match(rb'state sequence (\d+) ', self.ask('state')[0])[1])

    def ask(self, message, reply=None):
        """The reply to a message, the milliseconds that it took by the clock, and of the processor."""
        before, start = processor_time(self.process), time.perf_counter()
        self.process.stdin.write(message.encode() + b'\n')
        self.process.stdin.flush()
        line = self.process.stdout.readline()
        if line.startswith(b'graph '):
            line += self.process.stdout.read(int(line.split()[1]))
        took = 1000 * (time.perf_counter() - start)
        own = 1000 * (processor_time(self.process) - before)
        if reply is not None and line != reply.encode() + b'\n':
            sys.exit(f'{message[:100]} gets {line[:100]}, and not {reply}')
        return line, took, own

    def memory(self):
        """The memory that it holds, in MB."""
        with open(f'/proc/{self.process.pid}/status', encoding='ascii') as it:
            return next(int(line.split()[1]) for line in it if line.startswith('VmRSS')) / 1024

    def close(self):
        self.process.stdin.close()
        return self.process.stdout.read() or self.process.wait()


class Pair:
    """A session with readers and one without, which follow the same frames."""

    def __init__(self, program, store, path, kind):
        self.town, self.draws, self.kind = frames_of.Town(path), random.Random(3), kind
        self.read, self.plain = (Session(program, store, name) for name in ('read', 'plain'))
        self.number = self.read.number

    def follow(self):
        """Sends both a frame; what it took of the processor with readers and without, and by the clock."""
        self.number += 1
        events = '\n'.join(frame(self.kind, self.town, self.draws))
        took = {}
        for session in self.draws.sample([self.read, self.plain], 2):
            _, clock, own = session.ask(f'#seq {self.number}\n{events}\n#end', f'applied {self.number}')
            took[session] = own, clock
        return [took[session][at] for at in (0, 1) for session in (self.read, self.plain)]

    def pin(self, reader):
        return self.read.ask(f'pin {reader}', f'pinned {reader} sequence {self.number}')[1]

    def release(self, reader):
        return self.read.ask(f'release {reader}', f'released {reader}')[1]

    def tell_memory(self, what):
        read, plain = self.read.memory(), self.plain.memory()
        print(f'  {what}: {read:.0f} MB with readers, {plain:.0f} MB without: {read - plain:.1f} MB more', flush=True)


def tell(what, took):
    """Of some frames, each as `follow` answers it."""
    read, plain, read_clock, plain_clock = (list(times) for times in zip(*took))
    print(f'  {what}: processor time {mean(read):.2f} and {mean(plain):.2f} ms, {mean(read) / mean(plain):.2f} times, '
          f'{mean(read) - mean(plain):+.2f} ms; middles {middle(read):.2f} and {middle(plain):.2f} ms; by the clock '
          f'{mean(read_clock):.2f} and {mean(plain_clock):.2f} ms, longest {max(read_clock):.1f} and '
          f'{max(plain_clock):.1f} ms', flush=True)


def many_readers_of_one_state(pair):
    pinned = [pair.pin(reader) for reader in range(READERS)]
    pair.read.ask('pin 64', 'pins full')
    released = [pair.release(reader) for reader in range(READERS)]
    for what, times in ('pin', pinned), ('release', released):
        print(f'  {what} of the newest state, {READERS} times by the clock: middle {middle(times):.3f} ms, longest '
              f'{max(times):.3f} ms', flush=True)


def behind_a_pin(pair):
    """The first frame behind a pin, and those that follow it, each cycle; then the pin is released."""
    took, pins, releases = [[] for _ in range(BEHIND)], [], []
    for _ in range(CYCLES):
        pins.append(pair.pin(1))
        for place in range(BEHIND):
            took[place].append(pair.follow())
        releases.append(pair.release(1))
    tell('the first frame behind a pin', took[0])
    for place in range(1, BEHIND):
        tell(f'frame {place + 1} behind a pin', took[place])
    print(f'  pin behind frames: middle {middle(pins):.3f} ms, longest {max(pins):.3f} ms; release behind frames: '
          f'middle {middle(releases):.3f} ms, longest {max(releases):.3f} ms', flush=True)


def many_states(pair):
    pair.tell_memory('before')
    took = []
    for reader in range(READERS):
        pair.pin(reader)
        took.append(pair.follow())
    tell(f'a frame behind each of {READERS} pins', took)
    pair.tell_memory(f'{READERS} states pinned')
    tell(f'a frame with {READERS} states pinned', [pair.follow() for _ in range(CYCLES)])
    took = [pair.release(reader) for reader in pair.draws.sample(range(READERS), READERS)]
    print(f'  release of a state: middle {middle(took):.3f} ms, longest {max(took):.3f} ms', flush=True)
    pair.tell_memory('released')


def questions(pair, path):
    """What is asked of a pinned state, beside the same of the newest one: the pinned one lies ten frames behind."""
    pair.pin(1)
    for _ in range(10):
        pair.follow()
    nodes = Nodes(path, random.Random(1))
    kinds = {'reach across the town': [nodes.across() for _ in range(40)], 'reach nearby': [
        nodes.nearby() for _ in range(40)]}
    for what, pairs in kinds.items():
        took = {'': [], 'ask 1 ': []}
        for a, b in pairs:
            for asks in pair.draws.sample(sorted(took), 2):
                took[asks].append(pair.read.ask(f'{asks}reach {a} {b}')[1])
        print(f'  {what}: {mean(took[""]):.3f} ms of the newest state, {mean(took["ask 1 "]):.3f} ms of a pinned one',
              flush=True)
    for message in 'state', 'graph':
        took = {'': [], 'ask 1 ': []}
        for _ in range(5):
            for asks in pair.draws.sample(sorted(took), 2):
                took[asks].append(pair.read.ask(asks + message)[1])
        print(f'  {message}: {middle(took[""]):.1f} ms of the newest state, {middle(took["ask 1 "]):.1f} ms of a '
              'pinned one', flush=True)
    pair.plain.ask('graph')         # takes its memory too
    pair.release(1)


def tell_tenths(what, took, memory):
    """The first tenth of the frames, that in the middle, and the last one, with the memory of both sessions."""
    tenth = max(1, len(took) // 10)
    for which, begin in ('first', 0), ('middle', len(took) // 2), ('last', len(took) - tenth):
        tell(f'{what}, the {which} tenth', took[begin:begin + tenth])
        read, plain = (mean(side) for side in zip(*memory[begin:begin + tenth]))
        print(f'    memory {read:.0f} and {plain:.0f} MB', flush=True)


def one_held(pair, count):
    """Frames behind one pin, which stays."""
    took, memory = [], []
    pair.pin(1)
    for _ in range(count):
        took.append(pair.follow())
        memory.append((pair.read.memory(), pair.plain.memory()))
    tell_tenths(f'{count} frames behind one pin', took, memory)
    print(f'  its release: {pair.release(1):.3f} ms', flush=True)
    tell('frames behind its release', [pair.follow() for _ in range(CYCLES)])


def all_along(pair, count):
    """Frames, each behind a pin of its own, which is released some frames later: so at each moment somebody reads."""
    took, memory = [], []
    for number in range(count):
        if number >= HELD:
            pair.release(number % HELD)
        pair.pin(number % HELD)
        took.append(pair.follow())
        memory.append((pair.read.memory(), pair.plain.memory()))
    tell_tenths(f'{count} frames with {HELD} pins all along', took, memory)
    for reader in range(HELD):
        pair.release(reader)
    for times in 'behind them all', 'behind these':
        tell(f'frames {times}, without pins', [pair.follow() for _ in range(CYCLES)])
    pair.tell_memory('all released')


def compare_and_close(pair):
    """Both have come to the same graph and files."""
    same = pair.read.ask('graph')[0] == pair.plain.ask('graph')[0]
    status = pair.read.close(), pair.plain.close()
    files = []
    for session in pair.read, pair.plain:
        with open(f'{session.store}.a', 'rb') as file:
            files.append(file.read())
    if not same or status != (0, 0) or files[0] != files[1]:
        sys.exit('the session with readers came to another graph or other files than the one without')
    print('  graph and files of both are the same', flush=True)


def main():
    program, store, path, kind, count = sys.argv[1:]
    pair = Pair(program, store, path, kind)
    print(f'{kind}: each first with readers, then without')
    pair.tell_memory('opened')
    tell('no pins at all', [pair.follow() for _ in range(CYCLES)])
    many_readers_of_one_state(pair)
    behind_a_pin(pair)
    many_states(pair)
    many_states(pair)
    questions(pair, path)
    compare_and_close(pair)
    # what the readers before have let go would hide what these take
    for measure in all_along, one_held:
        pair = Pair(program, store, path, kind)
        pair.tell_memory('opened anew')
        measure(pair, int(count))
        compare_and_close(pair)


main()
