#!/usr/bin/env python3
"""Talks to `osmroad NAME session` (docs/SESSION.md): a module for programs and a command for people.

Use: session.py STORE               < MESSAGES   sends the messages one at a time and prints each reply
     session.py STORE state                      the kept number, and how many ways, pieces, contexts and arcs there are
     session.py STORE reach A B                  some legal drive from node A to node B
     session.py STORE route A B                  what a drive from node A to node B costs at least, and such a drive
     session.py STORE zone-reach A B             some legal drive from node A to node B through no road for destinations
     session.py STORE certify A B FILE           writes a certificate of that to the file, which graph.py checks
     session.py STORE drive STEP ..              whether a drive is legal: steps such as w12.3+, w12.4+, w13.0-
     session.py STORE drive-at MOMENT STEP ..    whether it is at a moment such as 2024-05-06T23:00
     session.py STORE zone-drive STEP ..         whether it is legal and goes through no road for destinations
     session.py STORE graph FILE                 writes the graph to the file
     session.py STORE frame N FILE               sends the lines of the file as change N

Of the first use: `--graph FILE` behind STORE names the file to which the messages `graph` and `ask K graph` write.
There `pin K` pins the newest state for reader K, `ask K MESSAGE` asks that state, and `release K` lets it go.
STORE is a store's name: that of its files NAME.a and NAME.b, without the ending.
The program is that of the variable OSMROAD, else crates/osmroad/out/osmroad beside tools/, else osmroad on the PATH.

Status 0: all messages were answered. 1: other arguments, or a message that has no answer here. 2: a file, or standard
input, can't be read. 3: a file, or standard output, can't be written, or the store's files can't be used. 4: change N
is in fault, or the messages end inside a frame. 5: N isn't the next number. 6 to 10: as in the README's table.
127: there is no program. 128 and a signal's number: the program was killed by it. Each but 0 comes with one line on
standard error.

As a module:

    with session.Session('town') as town:
        print(town.state().ways, town.kept())
        print(town.reach(101, 104))                     # ['w201.0+', 'w201.1+', 'w202.0+'], or None
        print(town.route(101, 104))                     # Route(cost=20002, steps=['w201.0+', ..]), or None
        print(town.drive(['w201.0+', 'w202.0+']))       # Verdict(legal=False, step=2, rule='apart')
        with town.pin() as reader:                      # a state that stays while the map goes on
            town.frame(town.kept() + 1, ['n105 v2 dD'])     # returns when the change is kept
            print(reader.reach(101, 104))               # of the map as it was when it was pinned
"""
import collections
import itertools
import os
import re
import shutil
import signal
import subprocess
import sys
import threading

State = collections.namedtuple('State', 'sequence ways pieces contexts arcs')
# step and rule are None where the drive is legal; else step, counted from 1, is the first that breaks a rule
Verdict = collections.namedtuple('Verdict', 'legal step rule')
# a drive of least cost; of units of 1e-7 degree of latitude (docs/SESSION.md)
Route = collections.namedtuple('Route', 'cost steps')

HERE = os.path.dirname(os.path.realpath(__file__))
BESIDE = os.path.join(HERE, '..', 'crates', 'osmroad', 'out', 'osmroad')
LARGEST = 2 ** 64 - 1
LARGEST_READER = 2 ** 32 - 1

ENDS = {
    1: 'usage: the name of a store is not empty and does not begin with -',
    2: 'the program could not read its standard input',
    3: 'the program could not write its output or use the files of the store: look if their folder is there, if you may'
       ' read and write them, if there is space on the disk, and if another program holds the store',
    4: 'the messages ended inside a frame, which is not kept',
    6: 'there is no store: `osmroad NAME create N` makes one',
    8: 'the store is damaged: something else wrote to its files',
    9: 'a limit is passed: 2^24 bytes in a line, 2^30 in a frame, 2^40 in a session or in a file of the store',
    10: 'memory ended',
}
# a line that the program puts last, in place of a reply
LAST_LINE = re.compile('limit|no store|damaged .*|usage: .*')
KILLED = {
    'SIGKILL': ': maybe memory ended',
    'SIGSEGV': ': maybe its stack ended',
    'SIGXFSZ': ': the limit on the size of a file (ulimit -f) is passed',
}


class SessionError(Exception):
    """The session ended, or did not begin. `status` is that of the program: the negative number of a signal that
    killed it, 127 where there is none to start, None where it has not ended but a reply was cut short."""

    def __init__(self, status, text):
        super().__init__(text)
        self.status = status
        self.text = text


class UnknownMessage(Exception):
    """The program answered `unknown`: it has no such message, or a number or a step is not in form."""


class NoNode(Exception):
    """The node is not visible, or has no location."""

    def __init__(self, node):
        super().__init__(f'no node {node} that is visible and has a location')
        self.node = node


class PinBusy(Exception):
    """The reader has pinned a state already, and keeps it."""

    def __init__(self, reader):
        super().__init__(f'reader {reader} has pinned a state')
        self.reader = reader


class PinsFull(Exception):
    """As many readers have pinned a state as may."""

    def __init__(self):
        super().__init__('64 readers have pinned a state')


class NoPin(Exception):
    """The reader has no state pinned: it was released."""

    def __init__(self, reader):
        super().__init__(f'reader {reader} has no state pinned')
        self.reader = reader


class Refused(Exception):
    """A frame was refused. It has changed nothing, and the session goes on."""


class OutOfSequence(Refused):
    """Its number is not the next one behind `kept`."""

    def __init__(self, number, kept):
        super().__init__(f'change {number} is not the next one: the store keeps {kept}')
        self.kept = kept


class Faulty(Refused):
    """Its first fault: the line, counted from 1, the field (0 is the whole line) and the kind (docs/FORMATS.md)."""

    def __init__(self, number, line, field, kind):
        super().__init__(f'change {number} is in fault at line {line}, field {field}: {kind}')
        self.line, self.field, self.kind = line, field, kind


# ---------------------------------------------------------------------------------------------------------- the program


def default_program():
    """The program that is meant where none is named."""
    beside = BESIDE if os.path.exists(BESIDE) else None
    return os.environ.get('OSMROAD') or beside or shutil.which('osmroad') or 'osmroad'


def end_text(status, said=''):
    """What a session's end means, in one line. `said` is the last line that the program put."""
    if status < 0:
        name = signal.Signals(-status).name if -status in list(signal.Signals) else f'signal {-status}'
        return f'the program was killed by {name}' + KILLED.get(name, '')
    text = ENDS.get(status, f'the session ended with status {status}')
    return f'{text} ({said})' if status == 8 and said else text


# --------------------------------------------------------------------------------------------------------- the messages


def words_of(line):
    """The words of a message's line, which ends in no newline."""
    text = line[:-1] if line.endswith('\r') else line
    return [word for word in re.split('[ \t]', text) if word]


def number_of_frame(words):
    """The number of the frame that a line of these words begins; None where it begins none."""
    if len(words) == 2 and words[0] == '#seq' and re.fullmatch('[0-9]+', words[1]) and int(words[1]) <= LARGEST:
        return int(words[1])
    return None


def asks_for_bytes(words):
    """Whether the reply to a line of these words may have bytes behind it."""
    return asks_for_graph(words) or len(words) == 3 and words[0] == 'certify'


def asks_for_graph(words):
    """Whether they ask for a graph, of the newest state or of a pinned one."""
    return words == ['graph'] or len(words) == 3 and words[0] == 'ask' and words[2] == 'graph'


def encoded(line):
    return line if isinstance(line, bytes) else line.encode('utf-8', 'surrogateescape')


def decoded(line):
    """The text of a line of bytes, without its newline."""
    return line.removesuffix(b'\n').decode('utf-8', 'surrogateescape')


def change_bytes(lines):
    """The lines of a change, each with its newline. None of them may end the frame."""
    if isinstance(lines, (bytes, str)):
        change = encoded(lines)
        change += b'\n' if change and not change.endswith(b'\n') else b''
    else:
        parts = [encoded(line) for line in lines]
        change = b''.join(part if part.endswith(b'\n') else part + b'\n' for part in parts)
    ends = re.search(rb'^[ \t]*#end[ \t]*\r?\n', change, re.MULTILINE)
    if ends:
        raise ValueError(f'line {change.count(bytes([10]), 0, ends.start()) + 1} of the change is #end')
    return change


class Answers:
    """What the newest state and a pinned one are asked alike: by the words of a message (`_asked`), and by those of one
    whose reply has bytes behind it (`_with_bytes`)."""

    def state(self):
        """The number of the last change, and how many ways, pieces, contexts and arcs the graph has."""
        return State(*[int(word) for word in self._asked('state')[2::2]])

    def graph(self):
        """The bytes of the graph (docs/FORMATS.md), which tools/graph.py reads."""
        return self._with_bytes('graph')[1]

    def drive(self, steps):
        """Whether the drive of these steps is legal, and else which step breaks which rule, as 'no 303' or 'apart'."""
        return self._verdict('drive', *steps)

    def _verdict(self, *words):
        words = self._asked(*words)
        return Verdict(True, None, None) if words == ['legal'] else Verdict(False, int(words[1]), ' '.join(words[2:]))

    def reach(self, start, goal):
        """The steps of some legal drive from a node to another; None where there is none."""
        return self._reached('reach', start, goal)

    def _reached(self, message, start, goal):
        words = self._asked(message, str(start), str(goal))
        if words[0] == 'no-node':
            raise NoNode(int(words[1]))
        return words[1:] if words[0] == 'drive' else None


class Session(Answers):
    """A session over a store. Its methods may be called from several threads: they take turns.

    A message is sent whole, and then its reply is read. That can't block for good: the program reads all of a message,
    of a frame too, before it puts a byte, and here nothing more is sent before the reply was read.
    """

    def __init__(self, store, program=None):
        self.store = store
        self.turn = threading.RLock()
        self.status = None
        self.said = ''
        self.owed = False
        self.readers = {}
        try:
            self.process = subprocess.Popen([program or default_program(), store, 'session'],
                                            stdin=subprocess.PIPE, stdout=subprocess.PIPE)
        except (OSError, ValueError) as error:
            raise SessionError(127, f'cannot start {program or default_program()}: {error}') from None
        self.number = self.state().sequence

    def __enter__(self):
        return self

    def __exit__(self, kind, value, trace):
        status = self.close()
        if kind is None and status != 0:
            raise SessionError(status, end_text(status, self.said))

    def close(self):
        """Ends the input, waits for the program, and returns its status."""
        with self.turn:
            if self.status is not None:
                return self.status
            try:
                self.process.stdin.close()
            except OSError:
                pass            # the program had ended, and what was not yet sent is lost
            while line := self.process.stdout.readline():
                self.said = decoded(line)
            self.process.stdout.close()
            self.status = self.process.wait()
            return self.status

    def _ended(self):
        """The error that tells how the program ended."""
        status = self.close()
        return SessionError(status, end_text(status, self.said))

    def _exchange(self, message):
        """Sends the bytes of one message, which has a reply, and returns the line of the reply."""
        if self.process.stdin.closed:
            raise SessionError(self.status, 'the session is closed')
        if self.owed:
            raise SessionError(None, 'an earlier message was interrupted, and its reply may still come: close it')
        self.owed = True
        try:
            self.process.stdin.write(message)
            self.process.stdin.flush()
        except OSError:
            raise self._ended() from None
        line = self.process.stdout.readline()
        if not line.endswith(b'\n'):
            raise self._ended()
        self.said = decoded(line)
        if LAST_LINE.fullmatch(self.said):
            raise self._ended()
        self.owed = False
        return self.said

    def _asked(self, *words):
        """Sends a message of these words, and returns the words of the reply."""
        reply = self.ask(' '.join(words))
        if reply == 'unknown':
            raise UnknownMessage(f'the program does not know the message: {" ".join(words)[:200]}')
        return reply.split(' ')

    def ask(self, line):
        """The reply to one line, which begins no frame and asks for no bytes, as `graph` and `certify A B` do, and
        `ask K graph`."""
        words = words_of(line)
        if '\n' in line or not words or asks_for_bytes(words) or number_of_frame(words) is not None:
            raise ValueError('not one line with a reply of one line')
        with self.turn:
            return self._exchange(encoded(line) + b'\n')

    def kept(self):
        """The number of the last change that the store keeps."""
        return self.number

    def _with_bytes(self, *words):
        """The words of the reply to a message, and the bytes behind it, whose number is the last of the words."""
        with self.turn:
            reply = self._exchange(' '.join(words).encode() + b'\n').split(' ')
            if reply[0] not in ('graph', 'certificate'):
                return reply, b''
            self.owed = True        # of the reply the bytes
            data = self.process.stdout.read(int(reply[1]))
            if len(data) < int(reply[1]):
                raise self._ended()
            self.owed = False
            return reply, data

    def certify(self, start, goal):
        """The bytes of a certificate of what `route` answers (docs/SESSION.md), which tools/graph.py checks."""
        words, data = self._with_bytes('certify', str(start), str(goal))
        if words[0] == 'unknown':
            raise UnknownMessage('the program does not know the message: certify')
        if words[0] == 'no-node':
            raise NoNode(int(words[1]))
        return data

    def drive(self, steps, moment=None):
        """Whether the drive of these steps is legal, and else which step breaks which rule, as 'no 303' or 'apart'; at
        a moment, if one is given, such as '2024-05-06T23:00'."""
        return self._verdict(*(['drive'] if moment is None else ['drive-at', moment]), *steps)

    def zone_drive(self, steps):
        """Whether the drive of these steps is legal and goes through no road that is for destination traffic alone, and
        else which step breaks which rule, 'through' where it is that."""
        return self._verdict('zone-drive', *steps)

    def zone_reach(self, start, goal):
        """The steps of some such drive from a node to another; None where there is none."""
        return self._reached('zone-reach', start, goal)

    def route(self, start, goal):
        """The cost and the steps of a legal drive from a node to another than which none costs less; None where there
        is no drive."""
        words = self._asked('route', str(start), str(goal))
        if words[0] == 'no-node':
            raise NoNode(int(words[1]))
        return Route(int(words[1]), words[3:]) if words[0] == 'cost' else None

    def pin(self, reader=None):
        """Pins the newest state, and returns a Reader of it; `reader` is its number, the least that isn't pinned here
        where none is given."""
        with self.turn:
            if reader is None:
                reader = next(number for number in itertools.count() if number not in self.readers)
            elif not 0 <= reader <= LARGEST_READER:
                raise ValueError('a number of 32 bits is wanted')
            words = self._asked('pin', str(reader))
            if words == ['pins', 'full']:
                raise PinsFull()
            if words[0] == 'pin':
                raise PinBusy(reader)
            self.readers[reader] = Reader(self, reader, int(words[3]))
            return self.readers[reader]

    def frame(self, number, lines):
        """Sends a change, as bytes or as lines. Where it returns, the change is kept, whatever stops then."""
        change = change_bytes(lines)
        if not 0 <= number <= LARGEST:
            raise ValueError('a number of 64 bits is wanted')
        with self.turn:
            self._framed(b'#seq %d\n%s#end\n' % (number, change))

    def _framed(self, message):
        """Sends a frame as it stands, and returns the reply where the frame is kept."""
        reply = self._exchange(message)
        words = reply.split(' ')
        if words[0] == 'applied':
            self.number = int(words[1])
        elif words[2] == 'sequence':
            raise OutOfSequence(int(words[1]), int(words[3]))
        else:
            raise Faulty(int(words[1]), int(words[3]), int(words[5]), words[6])
        return reply


class Reader(Answers):
    """A reader of the state that was the newest one when it was pinned: it is answered from that, whatever the session
    follows since, until it is released or the session ends. `sequence` is the number of the state's last change."""

    def __init__(self, session, number, sequence):
        self.session, self.number, self.sequence = session, number, sequence

    def __enter__(self):
        return self

    def __exit__(self, kind, value, trace):
        if self.session.status is None and not self.session.owed:
            self.release()

    def _asked(self, *words):
        return self._pinned(lambda: self.session._asked('ask', str(self.number), *words))

    def _with_bytes(self, *words):
        return self._pinned(lambda: self.session._with_bytes('ask', str(self.number), *words))

    def _pinned(self, ask):
        """What is asked, where the state is still pinned."""
        with self.session.turn:
            if self.session.readers.get(self.number) is not self:
                raise NoPin(self.number)
            reply = ask()
            if self.session.said == f'no pin {self.number}':
                raise NoPin(self.number)
            return reply

    def release(self):
        """Lets the state go. One that was released stays so."""
        with self.session.turn:
            if self.session.readers.get(self.number) is self:
                self.session._asked('release', str(self.number))
                del self.session.readers[self.number]


# ---------------------------------------------------------------------------------------------------------- the command


class Trouble(Exception):
    """What ends the command, in one line, and its status."""

    def __init__(self, status, text):
        super().__init__(text)
        self.status = status


def say(text):
    try:
        print(text, flush=True)
    except OSError as error:
        raise Trouble(3, f'standard output: {error.strerror}') from None


def tell(text):
    """A line on standard error, where there is one."""
    try:
        if sys.stderr is not None:
            print(text, file=sys.stderr, flush=True)
    except OSError:
        pass            # the status tells that there was something


def write_file(name, data):
    try:
        with open(name, 'wb') as file:
            file.write(data)
    except OSError as error:
        raise Trouble(3, f'{name}: {error.strerror}') from None


def read_file(name):
    try:
        with open(name, 'rb') as file:
            return file.read()
    except OSError as error:
        raise Trouble(2, f'{name}: {error.strerror}') from None


def read_lines():
    """The lines of standard input, as they come."""
    try:
        os.set_blocking(sys.stdin.fileno(), True)
        yield from sys.stdin.buffer
    except OSError as error:
        raise Trouble(2, f'standard input: {error.strerror}') from None


def save_graph(session, words, name):
    """Sends a message that asks for a graph, and writes the graph to the file, where the reply has one."""
    words, graph = session._with_bytes(*words)
    if words[0] == 'graph':
        write_file(name, graph)
    say(session.said)


def save_certificate(session, start, goal, name):
    try:
        certificate = session.certify(start, goal)
    except NoNode:
        say(session.said)
    else:
        write_file(name, certificate)
        say(session.said)


def talk_frame(session, first, lines):
    """Sends the frame that this line begins, as it stands."""
    parts = [first]
    for line in lines:
        parts.append(line)
        if words_of(decoded(line)) == ['#end']:
            break
    else:
        session.process.stdin.write(b''.join(parts))
        status = session.close()
        say(session.said)
        raise Trouble(status, end_text(status, session.said))
    frame = b''.join(parts)
    try:
        say(session._framed(frame if frame.endswith(b'\n') else frame + b'\n'))
    except Refused:
        say(session.said)


def talk(session, graph_file):
    """Sends the messages of standard input one at a time. The status is 1 where one has no answer here."""
    status = 0
    lines = read_lines()
    for line in lines:
        text = decoded(line)
        words = words_of(text)
        if number_of_frame(words) is not None:
            talk_frame(session, line, lines)
        elif asks_for_graph(words) and graph_file is not None:
            save_graph(session, words, graph_file)
        elif asks_for_bytes(words):
            named = '--graph FILE' if asks_for_graph(words) else 'session.py STORE certify A B FILE'
            tell(f'session.py: name a file for the bytes: {named}')
            status = 1
        elif words:
            say(session.ask(text))
    return status


def answer(session, words):
    """One message as words of the command line."""
    if words[0] == 'graph':
        save_graph(session, words[:1], words[1])
    elif words[0] == 'certify':
        save_certificate(session, *words[1:])
    elif words[0] == 'frame':
        number = int(words[1])
        try:
            session.frame(number, read_file(words[2]))
        except ValueError as error:
            raise Trouble(4, f'{words[2]}: {error}') from None
        except OutOfSequence as error:
            raise Trouble(5, error) from None
        except Faulty as error:
            raise Trouble(4, error) from None
        say(session.said)
    else:
        session._asked(*words)
        say(session.said)
    return 0


def is_command(words):
    """Whether the words behind STORE are one of the uses."""
    wanted = {'state': 1, 'reach': 3, 'zone-reach': 3, 'route': 3, 'certify': 4, 'graph': 2, 'frame': 3, '--graph': 2}
    if not words or words[0] in ('drive', 'zone-drive'):
        return len(words) != 1
    if words[0] == 'drive-at':
        return len(words) > 2
    if words[0] == 'frame' and (len(words) < 2 or number_of_frame(['#seq', words[1]]) is None):
        return False
    return wanted.get(words[0]) == len(words)


def exit_status(error):
    """The status of a command that a session's error ends; 3 where the program left without an answer or a status."""
    if error.status is not None and error.status < 0:
        return 128 - error.status
    return error.status or 3


def run(store, words):
    with Session(store) as session:
        if not words or words[0] == '--graph':
            return talk(session, words[1] if words else None)
        return answer(session, words)


def main(words):
    if '--help' in words or '-h' in words:
        say(__doc__.strip())
        return 0
    if sys.stdin is None or sys.stdout is None:
        raise Trouble(2 if sys.stdin is None else 3, 'standard input or output is closed')
    if not words or not is_command(words[1:]):
        raise Trouble(1, 'other arguments are wanted: session.py --help tells them')
    try:
        return run(words[0], words[1:])
    except UnknownMessage as error:
        raise Trouble(1, error) from None
    except SessionError as error:
        raise Trouble(exit_status(error), error) from None


def end_command(name, run_main):
    """Ends the process with the status of a command's main; where it raised, with one line on standard error too."""
    try:
        status = run_main(sys.argv[1:])
    except Trouble as trouble:
        status = trouble.status
        tell(f'{name}: {trouble}')
    except KeyboardInterrupt:
        status = 128 + signal.SIGINT
    os._exit(status)    # without a second try to flush a standard output that is closed or full


if __name__ == '__main__':
    end_command('session.py', main)
