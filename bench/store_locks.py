#!/usr/bin/env python3
"""Runs programs beside one another on one store, in rounds of five kinds:

- a session that waits, and another program beside it, which has to end with status 3 and leave both files as they are;
- a session that takes frames as fast as it can, and other programs beside it meanwhile;
- the same, and the session is ended by SIGKILL: the next program has to get the store at once;
- commands at the same time, of which each is done or refused;
- commands `create` at the same time, of which one makes the store.

A program that is refused has status 3 and puts nothing. After each round the store keeps the last number that was
acknowledged (or where a session was killed one that was sent behind it), and its graph is the one that `- compile`
makes of the extract and the changes up to that number. Use: store_locks.py PROGRAM STORE EXTRACT ROUNDS;
bench/store_locks.sh calls it.
"""
import os
import random
import re
import signal
import subprocess
import sys
import threading
import time
from collections import Counter

program, store, extract_file, rounds = sys.argv[1:]
draws = random.Random(11)
with open(extract_file, 'rb') as file:
    extract = file.read()
counts = Counter()


def fail(said):
    sys.exit(f'FAILED: {said}')


def start(*words):
    return subprocess.Popen([program, *words], stdin=subprocess.PIPE, stdout=subprocess.PIPE)


def finish(process, given=b''):
    said = process.communicate(given)[0]
    return process.returncode, said


def run(*words, given=b''):
    return finish(start(*words), given)


def files():
    """The bytes of both files of the store."""
    found = []
    for ending in '.a', '.b':
        try:
            with open(store + ending, 'rb') as file:
                found.append(file.read())
        except FileNotFoundError:
            found.append(None)
    return found


def change(number):
    """A change of a node of the town, and a new node."""
    return f'n1 v{number + 100} x8.{number} y50\nn{10 ** 6 + number} v1 x8.1 y50.{number}\n'.encode()


class Store:
    """What was acknowledged: the number, and all that was compiled up to it."""

    def __init__(self):
        self.make([(1, extract)])

    def make(self, bases):
        """Commands `create` at the same time, of these numbers and extracts. One of them makes the store."""
        for ending in '.a', '.b':
            if os.path.exists(store + ending):
                os.remove(store + ending)
        ends = together([(['create', str(number)], given) for number, given in bases])
        made = [base for base, end in zip(bases, ends) if end == (0, b'created %d\n' % base[0])]
        if len(made) != 1 or any(end not in ((3, b''), (7, b'store exists\n')) for end in ends if end[0] != 0):
            fail(f'{ends} of programs that create at once')
        self.number, self.text = made[0]

    def take(self, number):
        """These changes were kept too."""
        while self.number < number:
            self.number += 1
            self.text += change(self.number)
            counts['changes kept'] += 1

    def check(self, most=None):
        """The store keeps the number, or up to `most` one behind it, and has its graph."""
        status, said = run(store, 'apply', '0')
        found = re.fullmatch(rb'sequence 0 kept (\d+)\n', said)
        if status != 5 or not found or not self.number <= int(found[1]) <= (most or self.number):
            fail(f'{said} with status {status}, where {self.number} was acknowledged')
        self.take(int(found[1]))
        if run(store, 'graph') != run('-', 'compile', given=self.text):
            fail(f'the graph behind {self.number} is another one')


def together(commands):
    """How commands end that are begun at the same time, each with its input, on the store."""
    processes = [(start(store, *words), given) for words, given in commands]
    ends = [None] * len(commands)

    def end(at):
        ends[at] = finish(*processes[at])

    threads = [threading.Thread(target=end, args=(at,)) for at in range(len(commands))]
    for thread in threads:
        thread.start()
    for thread in threads:
        thread.join()
    return ends


def other(number):
    """A command, with its input, that is right behind this number."""
    return draws.choice([
        (['graph'], b''), (['audit'], b''), (['apply', '0'], b''), (['checkpoint'], b''), (['create', '1'], extract),
        (['apply', str(number + 1)], change(number + 1)), (['session'], b'state\n'),
        (['session'], b'#seq %d\n%s#end\n' % (number + 1, change(number + 1))),
    ])


def refused(words, end):
    if end != (3, b''):
        fail(f'{words} beside another program: {end[1][:100]} with status {end[0]}')
    counts['programs refused'] += 1


class Session:
    """A session, from the reply to its first message on."""

    def __init__(self):
        self.process = start(store, 'session')
        self.send(b'state\n')
        if not self.process.stdout.readline().startswith(b'state '):
            fail('a session without a reply')

    def send(self, message):
        self.process.stdin.write(message)
        self.process.stdin.flush()

    def frames(self, number):
        """Changes behind this number, each sent once the one before is acknowledged, until the session ends."""
        try:
            while not self.ending:
                number += 1
                self.sent = number
                self.send(b'#seq %d\n%s#end\n' % (number, change(number)))
                if self.process.stdout.readline() != b'applied %d\n' % number:
                    return
                self.acknowledged = number
        except BrokenPipeError:
            pass

    def begin(self, number):
        self.ending, self.sent, self.acknowledged = False, number, number
        self.writer = threading.Thread(target=self.frames, args=(number,))
        self.writer.start()

    def end(self):
        """Its input ends behind a frame."""
        self.ending = True
        self.writer.join()
        self.close()

    def close(self):
        status, said = finish(self.process)
        if status or said:
            fail(f'a session ends with status {status}, and {said[:100]} is put')

    def kill(self):
        self.process.send_signal(signal.SIGKILL)
        self.process.wait()


def waiting(kept):
    """A session that waits, and one program beside it."""
    session = Session()
    before, (words, given) = files(), other(kept.number)
    refused(words, run(store, *words, given=given))
    if files() != before:
        fail(f'{words} beside a session changed the files')
    session.close()
    kept.check()


def busy(kept, is_killed=False):
    """A session that takes frames, and programs beside it. Where it is killed the last one comes right behind."""
    session = Session()
    session.begin(kept.number)
    commands = [other(kept.number) for _ in range(draws.randrange(1, 5))]
    for (words, _), end in zip(commands, together(commands)):
        refused(words, end)
    if not is_killed:
        session.end()
        kept.take(session.acknowledged)
        kept.check()
        return
    time.sleep(draws.uniform(0, 0.02))
    session.kill()
    opened = run(store, 'audit')
    if opened[0] != 0:
        fail(f'behind a session that was killed: {opened[1]} with status {opened[0]}')
    session.writer.join()
    kept.take(session.acknowledged)
    kept.check(session.sent)
    counts['sessions killed'] += 1


def killed(kept):
    busy(kept, True)


def commands_at_once(kept):
    """Commands at the same time. One that isn't refused is done, and only one takes the next change."""
    commands = [other(kept.number) for _ in range(draws.randrange(2, 5))]
    applied = 0
    for (words, _), (status, said) in zip(commands, together(commands)):
        if status == 3:
            refused(words, (status, said))
        elif said == b'applied %d\n' % (kept.number + 1):
            applied += 1
        elif status not in (0, 5, 7):
            fail(f'{words} beside other commands: {said[:100]} with status {status}')
    if applied > 1:
        fail(f'{kept.number + 1} was applied {applied} times')
    kept.take(kept.number + applied)
    kept.check()


def made_at_once(kept):
    """Several commands `create`, each with another number and a node of its own."""
    many = range(1, draws.randrange(3, 6))
    kept.make([(n, extract + b'n%d v1 x8 y50\n' % (2 * 10 ** 6 + n)) for n in many])
    kept.check()


kept = Store()
for n in range(int(rounds)):
    if n % 20 == 0:
        kept.make([(1, extract)])
    kind = draws.choice([waiting, busy, killed, commands_at_once, made_at_once])
    kind(kept)
print(f'{rounds} rounds, ' + ', '.join(f'{counts[what]} {what}' for what in counts) + ': the store stands each time')
