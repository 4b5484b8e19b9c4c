#!/usr/bin/env python3
"""Tries readers that pin states of a session, against stores that were stopped at these states.

A small map is drawn, and sixty changes of it. Of each number a store is made that holds just the changes up to it, and
a session on it, in which nobody pins, is asked for its graph, its state, drives and ways to nodes. Then

- all lists of LENGTH steps `pin`, `ask`, `release` and a change, over three readers and three changes (readers that
  only exchange their numbers count once), with all readers and the newest state asked behind each: many lists in one
  session, which begins again on the first store when its changes run out;
- long sessions of drawn steps, with up to 80 readers of any numbers, refused frames and lines that are no message;
- such sessions, ended by SIGKILL at drawn moments.

Each reply must be what the rule of pins says, and each answer to a reader that of the store stopped at the number that
it pinned, byte for byte. Behind each session the files must be those of the store stopped there, and behind a kill
those of a store with the changes told, or one more.

Use: try_pins.py PROGRAM [MAPS [FIRST [LENGTH]]], with 3 maps where left out, of the seeds from FIRST on, and lists of 5
steps. It prints how much was tried; its status is 1 where something isn't as it must be, with the messages up to there.
"""
import itertools
import os
import random
import re
import shutil
import signal
import subprocess
import sys
import tempfile
import threading
import time

sys.dont_write_bytecode = True      # the import below leaves no folder beside the scripts
from try_routes import drawn_map    # noqa: E402

CHANGES = 60
FIRST_NUMBER = 7
MOST_READERS = 64
UNKNOWN = ['ask', 'ask 1', 'pin', 'pin 1 2', 'pin 4294967296', 'release -1', 'ask 1 route 1 2', 'ask 2 pin 3',
           'ask 1 drive', 'ask 0 #seq 8', 'ask 1 ask 1 state', 'ask 5 reach 1']


class Wrong(Exception):
    pass


# ------------------------------------------------------------------------------------------- a map, its changes, stores


def drawn_changes(draw, lines):
    """Changes of a map, each with the lines of one to four objects."""
    objects = {line.split()[0]: line.split()[2:] for line in lines.decode().splitlines()}
    versions = dict.fromkeys(objects, 1)
    for _ in range(CHANGES):
        change = []
        for name in draw.sample(sorted(objects), min(len(objects), draw.choice([1, 1, 2, 4]))):
            versions[name] += 1
            fields = ['dD'] if draw.random() < 0.4 else altered(draw, name, objects[name])
            change.append(f'{name} v{versions[name]} ' + ' '.join(fields))
        yield change


def altered(draw, name, fields):
    """The object as it was at first, or with other tags or references."""
    if name[0] == 'w':
        tag = draw.choice(['Thighway=residential', 'Thighway=service,oneway=yes', 'Thighway=footway', fields[0]])
        nodes = fields[1][1:].split(',')
        return [tag, 'N' + ','.join(draw.choice([nodes, nodes, nodes[::-1], nodes[:-1]]))]
    if name[0] == 'r':
        kind = draw.choice(['no_left_turn', 'only_straight_on', 'no_u_turn'])
        return [f'Ttype=restriction,restriction={kind}', fields[1]]
    return fields


def text_of(change):
    return ''.join(f'{line}\n' for line in change)


def questions(nodes, ways):
    """What each state is asked, without the word `ask` and a reader."""
    pairs = [(nodes[0], nodes[-1]), (nodes[-1], nodes[0]), (nodes[0], 99)]
    return ['state', 'graph', *[f'reach {a} {b}' for a, b in pairs],
            *[f'drive {" ".join(f"w{way}.0+" for way in ways[at:at + 2])}' for at in range(min(3, len(ways)))]]


def run(*words, given=b''):
    done = subprocess.run(words, input=given, stdout=subprocess.PIPE, check=False)
    return done.returncode, done.stdout


def read_files(store):
    """The bytes of the store's first file; a store without a checkpoint has no other."""
    if os.path.exists(f'{store}.b') and os.path.getsize(f'{store}.b'):
        raise Wrong('the other file of the store is written')
    with open(f'{store}.a', 'rb') as file:
        return file.read()


def replies(output):
    """The replies of which the output consists, each with the bytes behind it."""
    at, found = 0, []
    while at < len(output):
        end = output.index(b'\n', at) + 1
        head = output[at:end].split()
        if head[0] == b'graph':
            end += int(head[1])
        found.append(output[at:end])
        at = end
    return found


class Stopped:
    """A map with its changes, and of each number what a store that was stopped there answers, and its file."""

    def __init__(self, program, room, seed):
        lines, nodes = drawn_map(seed)
        self.draw, self.program, self.room = random.Random(seed), program, room
        self.changes = [text_of(change) for change in drawn_changes(self.draw, lines)]
        ways = [int(line.split()[0][1:]) for line in lines.decode().splitlines() if line[0] == 'w']
        self.questions = questions(list(nodes), ways)
        self.answers, self.files = {}, {}
        store, last = os.path.join(room, 'stopped'), FIRST_NUMBER + len(self.changes)
        self.must(run(program, store, 'create', str(FIRST_NUMBER), given=lines), f'created {FIRST_NUMBER}\n')
        for number in range(FIRST_NUMBER, last + 1):
            if number > FIRST_NUMBER:
                change = self.changes[number - FIRST_NUMBER - 1].encode()
                self.must(run(program, store, 'apply', str(number), given=change), f'applied {number}\n')
            self.files[number] = read_files(store)
            status, said = run(program, store, 'session', given=text_of(self.questions).encode())
            if status:
                raise Wrong(f'status {status} of the session that was stopped at {number}')
            self.answers[number] = dict(zip(self.questions, replies(said)))

    @staticmethod
    def must(got, wanted):
        if got != (0, wanted.encode()):
            raise Wrong(f'{got} in place of {wanted!r}')

    def new_store(self, name):
        """A copy of the store with no change, as it was made."""
        store = os.path.join(self.room, name)
        with open(f'{store}.a', 'wb') as file:
            file.write(self.files[FIRST_NUMBER])
        if os.path.exists(f'{store}.b'):
            os.remove(f'{store}.b')
        return store


# ------------------------------------------------------------------------------------------------- what must be replied


class Conversation:
    """Messages with the replies that the rule of pins says: a state is the kept number, and the readers' numbers."""

    def __init__(self, stopped):
        self.stopped, self.number, self.pins = stopped, FIRST_NUMBER, {}
        self.messages, self.replies = [], []

    def says(self, message, reply):
        self.messages.append(message.encode() + b'\n')
        self.replies.append(reply if isinstance(reply, bytes) else reply.encode() + b'\n')

    def pin(self, reader):
        if reader in self.pins:
            self.says(f'pin {reader}', f'pin {reader} busy')
        elif len(self.pins) == MOST_READERS:
            self.says(f'pin {reader}', 'pins full')
        else:
            self.pins[reader] = self.number
            self.says(f'pin {reader}', f'pinned {reader} sequence {self.number}')

    def ask(self, reader, question):
        pinned = self.pins.get(reader)
        answer = f'no pin {reader}' if pinned is None else self.stopped.answers[pinned][question]
        self.says(f'ask {reader} {question}', answer)

    def ask_all(self, reader):
        for question in self.stopped.questions:
            self.ask(reader, question)

    def release(self, reader):
        pinned = self.pins.pop(reader, None)
        self.says(f'release {reader}', f'no pin {reader}' if pinned is None else f'released {reader}')

    def ask_newest(self):
        for question in self.stopped.questions:
            self.says(question, self.stopped.answers[self.number][question])

    def change(self):
        self.number += 1
        self.frame(self.number, self.stopped.changes[self.number - FIRST_NUMBER - 1], f'applied {self.number}')

    def frame(self, number, lines, reply):
        self.says(f'#seq {number}\n{lines}#end', reply)

    def left(self):
        """How many changes are left."""
        return FIRST_NUMBER + len(self.stopped.changes) - self.number

    def compare(self, output):
        """That the output is the replies; else with the messages up to the first that has another one."""
        wanted = b''.join(self.replies)
        if output == wanted:
            return
        at = 0
        for count, reply in enumerate(self.replies, 1):
            if output[at:at + len(reply)] != reply:
                before = b''.join(self.messages[max(0, count - 60):count]).decode()
                raise Wrong(f'{before}gets {output[at:at + len(reply) + 20]!r}\nand not {reply!r}')
            at += len(reply)
        raise Wrong(f'{output[at:][:200]!r} behind all replies')

    def try_it(self, name):
        """Holds the conversation, and compares replies and files."""
        store = self.stopped.new_store(name)
        status, output = run(self.stopped.program, store, 'session', given=b''.join(self.messages))
        self.compare(output)
        if status:
            raise Wrong(f'status {status}')
        if read_files(store) != self.stopped.files[self.number]:
            raise Wrong('the file of the store is another one than without readers')
        return len(self.messages)


# ------------------------------------------------------------------------------------------------------------ all lists


def lists_of_steps(length):
    """All lists of steps over three readers and three changes, where readers come in the order of their numbers."""
    kinds = [('change', None)] + [(kind, reader) for reader in range(3) for kind in ('pin', 'ask', 'release')]
    for steps in itertools.product(kinds, repeat=length):
        readers = list(dict.fromkeys(reader for _, reader in steps if reader is not None))
        if readers == list(range(len(readers))) and steps.count(kinds[0]) <= 3:
            yield steps


def try_all_lists(stopped, length):
    lists = messages = 0
    talk = Conversation(stopped)
    for steps in lists_of_steps(length):
        if talk.left() < 3:
            messages += talk.try_it('lists')
            talk = Conversation(stopped)
        for kind, reader in steps:
            if kind == 'change':
                talk.change()
            elif kind == 'pin':
                talk.pin(reader)
            elif kind == 'ask':
                talk.ask_all(reader)
            else:
                talk.release(reader)
        for reader in range(3):
            talk.ask_all(reader)
        talk.ask_newest()
        for reader in range(3):
            talk.release(reader)
        lists += 1
    return lists, messages + talk.try_it('lists')


# ------------------------------------------------------------------------------------------------------- long sessions


def drawn_conversation(stopped, draw, changes):
    """A long one, with so many changes at most."""
    talk = Conversation(stopped)
    readers = draw.sample(range(1000), draw.choice([3, 20, 80])) + [0, 2 ** 32 - 1]
    last = min(stopped.answers) + changes
    chances = {'pin': draw.choice([20, 60]), 'ask': 30, 'release': draw.choice([5, 20]), 'change': draw.choice([2, 10]),
               'newest': 5, 'refused': 3, 'faulty': 2, 'unknown': 3}
    for _ in range(1500):
        what = draw.choices(list(chances), list(chances.values()))[0]
        reader = draw.choice(readers)
        if what == 'change' and talk.number < last:
            talk.change()
        elif what == 'pin':
            talk.pin(reader)
        elif what == 'ask':
            talk.ask(draw.choice([reader, *talk.pins]), draw.choice(stopped.questions))
        elif what == 'release':
            talk.release(draw.choice([reader, *talk.pins]))
        elif what == 'newest':
            talk.ask_newest()
        elif what == 'refused':
            other = draw.choice([0, talk.number, talk.number + 2, 2 ** 64 - 1])
            talk.frame(other, 'n1 v99 dD\n', f'refused {other} sequence {talk.number}')
        elif what == 'faulty':
            number = talk.number + 1
            talk.frame(number, 'n1 v99 dD\nq1 v1\n', f'refused {number} line 2 field 1 UnknownLine')
        elif what == 'unknown':
            talk.says(draw.choice(UNKNOWN), 'unknown')
    return talk


def try_long(stopped, draw, times):
    return sum(drawn_conversation(stopped, draw, len(stopped.changes)).try_it('long') for _ in range(times))


# -------------------------------------------------------------------------------------------------------------- kills


def try_kill(stopped, draw, longest):
    """Ends a session at a drawn moment, and looks at what was put and what is kept."""
    talk = drawn_conversation(stopped, draw, len(stopped.changes))
    store = stopped.new_store('killed')
    words = [stopped.program, store, 'session']
    with subprocess.Popen(words, stdin=subprocess.PIPE, stdout=subprocess.PIPE) as session:
        output = []
        reader = threading.Thread(target=lambda: output.append(session.stdout.read()))
        writer = threading.Thread(target=feed, args=(session.stdin, b''.join(talk.messages)))
        reader.start()
        writer.start()
        time.sleep(draw.uniform(0, longest))
        session.send_signal(signal.SIGKILL)
        reader.join()
        writer.join()
    wanted = b''.join(talk.replies)
    if not wanted.startswith(output[0]):
        raise Wrong(f'{output[0][-200:]!r} was put before the kill')
    told = last_told(talk.replies, len(output[0]))
    status, said = run(stopped.program, store, 'apply', '0')
    found = re.fullmatch(rb'sequence 0 kept (\d+)\n', said)
    kept = int(found[1]) if found and status == 5 else None
    if kept not in (told, told + 1):
        raise Wrong(f'{said!r} behind a kill, where {told} was told')
    status, said = run(stopped.program, store, 'session', given=text_of(stopped.questions).encode())
    if status or said != b''.join(stopped.answers[kept].values()) or read_files(store) != stopped.files[kept]:
        raise Wrong(f'the store behind a kill is another one than that of {kept}')
    return 0 < len(output[0]) < len(wanted)


def last_told(replies, size):
    """The last number that is acknowledged by a reply that lies whole in so many bytes."""
    told = FIRST_NUMBER
    for reply in replies:
        size -= len(reply)
        if size >= 0 and reply.startswith(b'applied '):
            told = int(reply.split()[1])
    return told


def feed(pipe, data):
    try:
        pipe.write(data)
        pipe.close()
    except OSError:
        pass


def time_of_a_session(stopped, draw):
    begun = time.monotonic()
    drawn_conversation(stopped, draw, len(stopped.changes)).try_it('timed')
    return time.monotonic() - begun


def main(program, maps=3, first=0, length=5):
    program = shutil.which(program) or program
    for seed in range(int(first), int(first) + int(maps)):
        with tempfile.TemporaryDirectory(dir='/dev/shm' if os.path.isdir('/dev/shm') else None) as room:
            try:
                stopped = Stopped(program, room, seed)
                draw = random.Random(seed)
                lists, messages = try_all_lists(stopped, int(length))
                long = try_long(stopped, draw, 40)
                longest = time_of_a_session(stopped, draw)
                inside = sum(try_kill(stopped, draw, longest) for _ in range(60))
            except Wrong as wrong:
                print(f'map {seed}: {wrong}')
                return 1
        print(f'map {seed}: {lists} lists of {length} steps in {messages} messages, 40 long sessions in {long}, and 60 '
              f'kills, {inside} of them inside', flush=True)
    return 0


if __name__ == '__main__':
    sys.exit(main(*sys.argv[1:]))
