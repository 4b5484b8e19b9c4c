#!/usr/bin/env python3
"""Ends sessions, and in every fourth round a `raise`, at random moments, always on the same store, and looks at the
store after each: it loads, it keeps no number below the last `applied` that was read and none above the last frame that
was sent whole, and its graph is the one that `- compile` makes, under the store's profile, of the objects that those
changes leave. A `raise` leaves that number, and the store's profile or profile 2: the latter where its line was read.
In the first half of the rounds the store is put back behind each `raise`, so that the next one finds profile 1 again.
Use: kill.py PROGRAM STORE EXTRACT TIMES; bench/kill.sh calls it.
"""
import os
import random
import re
import shutil
import signal
import struct
import subprocess
import sys
import threading
import time

program, store, extract, times = sys.argv[1:]
draws = random.Random(5)


class Objects:
    """The line of each object that stands, by its first field, with its version."""

    def __init__(self, path):
        self.lines = {}
        with open(path, encoding='utf-8') as lines:
            for line in lines:
                self.take(line)

    def take(self, line):
        """Of each object the first line of the greatest version stands."""
        name, version = line.split()[:2]
        version = int(version[1:])
        if name not in self.lines or version > self.lines[name][0]:
            self.lines[name] = (version, line)

    def text(self):
        return ''.join(line for _, line in self.lines.values()).encode()


def event(objects, changed):
    """A change of an object, or a new one, behind the changes of this session."""
    name = draws.choice(objects) if draws.randrange(8) else f'n{draws.randrange(10 ** 6, 10 ** 7)}'
    version, line = changed(name)
    if line is None:
        return f'{name} v1 dV T x{draws.uniform(8, 9):.7f} y{draws.uniform(50, 51):.7f}\n'
    data = line.split()[2:]
    if draws.randrange(10) == 0:
        return f'{name} v{version + 1} dD\n'
    if name[0] == 'w' and draws.randrange(2):
        data = [draws.choice(['Thighway=residential', 'Thighway=footway', 'Thighway=residential,oneway=yes'])
                if field[0] == 'T' else field for field in data]
    return f'{name} v{version + 1} ' + ' '.join(data) + '\n'


def run(*words, given=b''):
    done = subprocess.run([program, *words], input=given, stdout=subprocess.PIPE, check=False)
    return done.returncode, done.stdout


def kept():
    """The number that the store keeps."""
    status, said = run(store, 'apply', '0')
    found = re.fullmatch(rb'sequence 0 kept (\d+)\n', said)
    if status != 5 or not found:
        sys.exit(f'FAILED: the store says {said} with status {status}')
    return int(found.group(1))


def profile_of_store():
    """That of the live file, which is of the open bases the one of the greater generation: the number behind the magic
    of eight bytes (docs/STORE.md). The system loses nothing where a program alone is killed, so an open gate has its
    base behind it."""
    found = []
    for ending in 'ab':
        if os.path.exists(f'{store}.{ending}'):
            with open(f'{store}.{ending}', 'rb') as file:
                head = file.read(21)
            if len(head) == 21 and head.startswith(b'\x01OSMJRNL1'):
                profile, generation = struct.unpack_from('<IQ', head, 9)
                found.append((generation, ending == 'a', profile))
    return max(found)[2]


def copy_store(name, other):
    """The other store becomes as this one is."""
    for ending in 'ab':
        if os.path.exists(f'{name}.{ending}'):
            shutil.copyfile(f'{name}.{ending}', f'{other}.{ending}')
        elif os.path.exists(f'{other}.{ending}'):
            os.remove(f'{other}.{ending}')


def time_of_raise():
    """How long a whole `raise` takes, in seconds; the store stays as it was."""
    copy_store(store, f'{store}.kept')
    begun = time.monotonic()
    if run(store, 'raise')[1] != b'profile 2 sequence %d\n' % number:
        sys.exit('FAILED: the store isn\'t raised')
    took = time.monotonic() - begun
    copy_store(f'{store}.kept', store)
    return took


def end_raise(after):
    """Ends `raise` after so many seconds, looks at what it leaves, and says whether it had come to its line."""
    before = profile_of_store()
    process = subprocess.Popen([program, store, 'raise'], stdin=subprocess.DEVNULL, stdout=subprocess.PIPE)
    time.sleep(after)
    process.send_signal(signal.SIGKILL)
    said = process.communicate()[0]
    line = b'profile 2 sequence %d\n' % number
    profile = profile_of_store()
    if not line.startswith(said) or profile not in (before, 2) or said == line and profile != 2:
        sys.exit(f'FAILED: {said} was put, and the store is of profile {profile} behind {before}')
    if kept() != number or profile_of_store() != profile:
        sys.exit(f'FAILED: {kept()} is kept behind {number}, of profile {profile_of_store()} behind {profile}')
    return said == line


class Session:
    """A session that is fed with frames until it ends."""

    def __init__(self, objects, number):
        self.objects, self.number = objects, number
        self.frames, self.replies = [], b''
        self.process = subprocess.Popen([program, store, 'session'], stdin=subprocess.PIPE, stdout=subprocess.PIPE)
        self.reader = threading.Thread(target=self.read)
        self.writer = threading.Thread(target=self.write)

    def read(self):
        self.replies = self.process.stdout.read()

    def write(self):
        names, changed = list(self.objects.lines), {}

        def newest(name):
            return changed.get(name) or self.objects.lines.get(name) or (0, None)

        try:
            while True:
                lines = [event(names, newest) for _ in range(draws.randrange(1, 30))]
                for line in lines:
                    fields = line.split()
                    changed[fields[0]] = (int(fields[1][1:]), line)
                self.number += 1
                self.frames.append(lines)
                self.process.stdin.write(f'#seq {self.number}\n{"".join(lines)}#end\n'.encode())
                self.process.stdin.flush()
        except (BrokenPipeError, ValueError, OSError):
            pass

    def end(self, after):
        self.writer.start()
        self.reader.start()
        time.sleep(after)
        self.process.send_signal(signal.SIGKILL)
        self.process.wait()
        self.writer.join()
        self.reader.join()
        found = re.findall(rb'applied (\d+)\n', self.replies)
        if self.replies and not re.fullmatch(rb'(applied \d+\n)*(a[a-z]* ?\d*)?', self.replies):
            sys.exit(f'FAILED: {self.replies[-200:]} was put')
        return int(found[-1]) if found else None


status, said = run(store, 'create', '1', given=open(extract, 'rb').read())
if said != b'created 1\n':
    sys.exit(f'FAILED: {said} with status {status}')
objects, number, applied, inside = Objects(extract), 1, 0, 0


def look():
    """The graph is that of the objects, under the profile of the store."""
    profile = profile_of_store()
    words = ['-', 'compile'] if profile == 1 else ['-', 'compile', str(profile)]
    compiled, graph = run(*words, given=objects.text()), run(store, 'graph')
    if compiled[0] or compiled != graph:
        sys.exit(f'FAILED: the graph behind {number} is another one, under profile {profile}')


longest = 1.2 * time_of_raise()
raises = {'told': 0, 'untold on profile 1': 0, 'untold on profile 2': 0}
for round_number in range(int(times)):
    if round_number % 4 == 3:
        copy_store(store, f'{store}.kept')
        told = end_raise(draws.uniform(0, longest))
        look()
        raises['told' if told else f'untold on profile {profile_of_store()}'] += 1
        if round_number < int(times) // 2:
            copy_store(f'{store}.kept', store)
        continue
    session = Session(objects, number)
    acknowledged = session.end(draws.uniform(0, 0.08))
    now = kept()
    if now < max(acknowledged or 0, number) or now > session.number:
        sys.exit(f'FAILED: {now} is kept, {acknowledged} was told, {session.number} was sent')
    applied += now - number
    inside += acknowledged != now and now > number
    for lines in session.frames[:now - number]:
        for line in lines:
            objects.take(line)
    number = now
    look()
    # the journal stays short, so that a session opens in a moment
    if round_number % 20 == 18 and run(store, 'checkpoint')[1] != b'checkpoint %d\n' % number:
        sys.exit(f'FAILED: no checkpoint behind {number}')
print(f'{times} programs ended by SIGKILL: {applied} changes kept, {inside} times one more than was told; `raise` '
      + ', '.join(f'{count} times {how}' for how, count in raises.items()) + ': the store stands each time')
