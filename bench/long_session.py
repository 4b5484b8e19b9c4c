#!/usr/bin/env python3
"""Holds sessions that are long or large, and compares each reply and status with what docs/SESSION.md says. Use:
long_session.py PROGRAM FOLDER MESSAGES SECONDS [PART..]; bench/long_session.sh calls it. The parts are

  million   MESSAGES messages: each tenth asks for the state and each other third moves a node; the others are drives
  endless   input that doesn't end: it is followed for SECONDS, or to its limit
  lines     lines of 2^24 bytes, outside a frame and in one, and of one byte more
  frames    frames of 2^30 bytes, and of one more
  files     live files of 2^40 bytes, with holes, and of one more
  numbers   numbers at the ends of their ranges, and one beyond
  short     little memory
  total     a session of 2^40 bytes, and of one more: tried only where it is named, since it takes half an hour or so

Times are the processor time of the session, and then those by the clock.
"""
import fcntl
import os
import resource
import subprocess
import sys
import threading
import time

program, folder, messages, seconds, *parts = sys.argv[1:]
messages, seconds = int(messages), float(seconds)
store = os.path.join(folder, 'store')
LINE, FRAME, FILE, TOTAL = 2 ** 24, 2 ** 30, 2 ** 40, 2 ** 40
F_SETPIPE_SZ = 1031
I64, U64 = 2 ** 63, 2 ** 64
failed = 0

STREET = 'n1 v1 x8 y50\nn2 v1 x8.001 y50\nw10 v1 Thighway=residential Nn1,n2\n'
STATE = 'state sequence {} ways 1 pieces 2 contexts 2 arcs 2\n'


def fail(what):
    global failed
    failed = 1
    print(f'FAILED: {what}', flush=True)


def run(*words, given=b''):
    done = subprocess.run([program, *words], input=given, stdout=subprocess.PIPE, check=False)
    return done.returncode, done.stdout


def make(extract=STREET, number=1):
    for end in '.a', '.b':
        if os.path.exists(store + end):
            os.remove(store + end)
    if run(store, 'create', str(number), given=extract.encode()) != (0, b'created %d\n' % number):
        sys.exit('FAILED: no store')


def kept():
    return run(store, 'apply', '0')


class Session:
    """A session on the store. What it puts is gathered beside, its first and last bytes and how many there are."""

    def __init__(self, limit=resource.RLIM_INFINITY):
        self.start = time.perf_counter()
        self.process = subprocess.Popen([program, store, 'session'], stdin=subprocess.PIPE, stdout=subprocess.PIPE,
                                        preexec_fn=lambda: resource.setrlimit(resource.RLIMIT_AS, (limit, limit)))
        self.output, self.size, self.peak, self.sent = b'', 0, 0, 0
        self.reader = threading.Thread(target=self.read)
        self.watcher = threading.Thread(target=self.watch)
        self.reader.start()
        self.watcher.start()

    def read(self):
        while part := os.read(self.process.stdout.fileno(), 1 << 16):
            self.size += len(part)
            self.output = (self.output + part)[-4096:]

    def memory(self):
        """The peak memory until now, in KB, and the memory now."""
        found = {}
        try:
            with open(f'/proc/{self.process.pid}/status', encoding='ascii') as it:
                for line in it:
                    if line.startswith(('VmHWM', 'VmRSS')):
                        found[line[:5]] = int(line.split()[1])
        except (FileNotFoundError, ProcessLookupError):
            pass
        self.peak = max(self.peak, found.get('VmHWM', 0))
        return self.peak, found.get('VmRSS', 0)

    def watch(self):
        while self.process.returncode is None:
            self.memory()
            time.sleep(0.01)

    def send(self, piece):
        """Whether the session takes it."""
        try:
            self.process.stdin.write(piece)
            self.process.stdin.flush()
            self.sent += len(piece)
            return True
        except BrokenPipeError:
            return False

    def end(self):
        try:
            self.process.stdin.close()
        except BrokenPipeError:
            pass
        self.reader.join()
        _, status, used = os.wait4(self.process.pid, 0)
        self.process.returncode = os.waitstatus_to_exitcode(status)
        self.watcher.join()
        self.took = f'{used.ru_utime + used.ru_stime:.1f} s of {time.perf_counter() - self.start:.1f}'
        return self.process.returncode


def wants(name, pieces, status, output, number=None, limit=resource.RLIM_INFINITY):
    """A session on the store: with this input it ends so, with this output; then so much is kept. Pieces are bytes, or
    bytes and how often they stand."""
    session = Session(limit)
    for piece in pieces:
        part, times = piece if isinstance(piece, tuple) else (piece, 1)
        together = max(1, min(times, (1 << 20) // max(1, len(part))))
        block = part * together
        for _ in range(times // together):
            if not session.send(block):
                break
        if times % together:
            session.send(part * (times % together))
    got = session.end()
    if (got, session.output) != (status, output.encode()):
        fail(f'{name}: status {got} for {status}, with the replies {session.output[-200:]!r} for {output!r}')
    elif number is not None and kept() != (5, b'sequence 0 kept %d\n' % number):
        fail(f'{name}: the store says {kept()}, and {number} is to be kept')
    else:
        print(f'  ok: {name}: status {status}, {session.took}, peak {session.peak / 1024:.1f} MB', flush=True)


# ---- a million messages

class Streets:
    """Streets that don't meet, of two nodes each, of which frames move one node at a time, to and fro."""

    def __init__(self, count):
        self.count, self.kept, self.versions, self.at = count, 1, {}, 0

    def extract(self):
        return ''.join(self.node(k) for k in range(1, 2 * self.count + 1)) + ''.join(
            f'w{k} v1 Thighway=residential Nn{2 * k - 1},n{2 * k}\n' for k in range(1, self.count + 1))

    def node(self, number):
        version = self.versions.get(number, 1)
        return f'n{number} v{version} x8.{number:07} y50.000000{version % 2}\n'

    def message(self, number):
        """A message and its reply."""
        self.at = (self.at * 75 + 74) % 65537
        way = 1 + self.at % self.count
        if number % 10 == 9:
            return 'state\n', (f'state sequence {self.kept} ways {self.count} pieces {2 * self.count} '
                               f'contexts {2 * self.count} arcs {2 * self.count}\n')
        if number % 3 == 0:
            moved = 1 + self.at % (2 * self.count)
            self.versions[moved] = self.versions.get(moved, 1) + 1
            self.kept += 1
            return f'#seq {self.kept}\n{self.node(moved)}#end\n', f'applied {self.kept}\n'
        return [(f'drive w{way}.0+ w{way}.0-\n', 'legal\n'),
                (f'drive w{way}.0+ w{way}.0+\n', 'broken 2 apart\n'),
                (f'reach {2 * way - 1} {2 * way}\n', f'drive w{way}.0+\n'),
                (f'drive w{way}.1-\n', 'broken 1 no-step\n')][self.at % 4]


def million():
    print(f'a session of {messages} messages')
    streets = Streets(1500)
    make(streets.extract())
    session = subprocess.Popen([program, store, 'session'], stdin=subprocess.PIPE, stdout=subprocess.PIPE)
    start, peaks, frames = time.perf_counter(), [], 0
    memory = lambda: [int(line.split()[1]) for line in open(f'/proc/{session.pid}/status', encoding='ascii')
                      if line.startswith(('VmHWM', 'VmRSS'))]
    step = min(10000, messages)

    def exchange(sent, wanted):
        writer = threading.Thread(target=lambda: (session.stdin.write(sent), session.stdin.flush()))
        writer.start()
        got = session.stdout.read(len(wanted))
        writer.join()
        return got

    for number in range(0, messages, step):
        pairs = [streets.message(k) for k in range(number, min(messages, number + step))]
        sent, wanted = (''.join(texts).encode() for texts in zip(*pairs))
        if (got := exchange(sent, wanted)) != wanted:
            at = next(k for k in range(len(wanted)) if got[k:k + 1] != wanted[k:k + 1])
            fail(f'{got[max(0, at - 60):at + 60]!r} for {wanted[max(0, at - 60):at + 60]!r}')
            session.kill()
            return
        peaks.append(memory())
    took = time.perf_counter() - start
    head = exchange(b'graph\n', b'graph 123456\n')
    while not head.endswith(b'\n') and b'\n' not in head:
        head += session.stdout.read(1)
    first, _, graph = head.partition(b'\n')
    graph += session.stdout.read(int(first.split()[1]) - len(graph))
    session.stdin.close()
    rest = session.stdout.read()
    _, status, used = os.wait4(session.pid, 0)
    session.returncode = os.waitstatus_to_exitcode(status)
    if rest or status:
        fail(f'the session of {messages} messages ends with status {session.returncode}')
    if graph != run('-', 'compile', given=streets.extract().encode())[1]:
        fail('the graph behind a million messages is another one')
    size = os.path.getsize(store + '.a')
    start = time.perf_counter()
    if run(store, 'graph') != (0, graph):
        fail('the graph of the store behind a million messages is another one')
    loads = time.perf_counter() - start
    for name, k in ('beginning', 0), ('after a tenth', len(peaks) // 10), ('middle', len(peaks) // 2), ('end', -1):
        print(f'  {name}: peak {peaks[k][0]} KB, {peaks[k][1]} KB then')
    print('  peaks by tenths: ' + ', '.join(str(peaks[k * (len(peaks) - 1) // 10][0]) for k in range(11)))
    if peaks[-1][0] > peaks[len(peaks) // 10][0] + 256:
        fail('memory grows with the session')
    print(f'  {streets.kept - 1} frames were applied, in {used.ru_utime + used.ru_stime:.0f} s of {took:.0f} for all; '
          f'the live file has {size} bytes, and `graph` takes {loads:.1f} s', flush=True)


# ---- input that doesn't end

def endless():
    print('input that does not end')
    for name, begin, block, status, output, number in [
            ('blank lines', b'', b'\n' * (1 << 20), 0, b'', 1),
            ('lines of blanks', b'', (b' ' * 1023 + b'\n') * 1024, 0, b'', 1),
            ('drives', b'', b'drive w10.0+\n' * 1024, 0, b'legal\n', 1),
            ('unknown lines', b'', b'\xff\xfe\n' * 1024, 0, b'unknown\n', 1),
            ('stale frames', b'', b'#seq 1\nn1 v9 x8 y50\n#end\n' * 1024, 0, b'refused 1 sequence 1\n', 1),
            ('a line', b'', b'a' * (1 << 20), 9, b'limit\n', 1),
            ('a line in a frame', b'#seq 2\n', b'#' * (1 << 20), 9, b'limit\n', 1),
            ('a frame of comments', b'#seq 2\n', (b'#' * 63 + b'\n') * (1 << 14), 9, b'limit\n', 1),
            ('a frame whose first line is in fault', b'#seq 2\nq\n', b'n1 v2 x8 y50\n' * (1 << 16), 9, b'limit\n', 1),
            ('a stale frame of deletions', b'#seq 1\n', b'n1 v2 dD c1 t2020-05-01T10:00:00Z i7 uanna T x y' + b' ' * 970
             + b'\n', 9, b'limit\n', 1)]:
        make()
        session, until, first = Session(), time.perf_counter() + seconds, None
        session.send(begin)
        while (status == 9 or time.perf_counter() < until) and session.send(block):
            first = first or session.sent > 1 << 24 and session.memory()
        got = session.end()
        replies = session.sent // len(block) * block.count(b'\n') if status == 0 and output else 0
        if name == 'stale frames':
            replies //= 3
        wanted = output if status else output * replies
        if (got, session.size, session.output) != (status, len(wanted), wanted[-4096:]) and not (
                session.size == len(wanted) and wanted.endswith(session.output)):
            fail(f'{name}: status {got} for {status}, {session.size} bytes of replies for {len(wanted)}')
        elif kept() != (5, b'sequence 0 kept %d\n' % number):
            fail(f'{name}: the store says {kept()}')
        else:
            early = (first or session.memory())[0]
            print(f'  ok: {name}: status {got} behind {session.sent / 2 ** 20:.0f} MB, {session.took}, peak '
                  f'{early / 1024:.1f} MB behind 16 MB, {session.peak / 1024:.1f} MB at the end', flush=True)


# ---- lines and frames at their limits

def lines():
    print('lines of 2^24 bytes, and of one more')
    state = STATE.format(1)
    for name, pieces, status, output in [
            ('2^24 bytes', [(b'a', LINE), b'\nstate\n'], 0, 'unknown\n' + state),
            ('one more', [b'state\n', (b'a', LINE + 1)], 9, state + 'limit\n'),
            ('one more, in a second line', [(b'a', LINE), b'\n', (b'a', LINE + 1), b'\n'], 9,
             'unknown\nlimit\n'),
            ('2^24 bytes, and the input ends', [(b'a', LINE)], 0, 'unknown\n'),
            ('2^24 bytes, the last a carriage return', [b'state', (b' ', LINE - 6), b'\r\n'], 0, state),
            ('2^24 bytes, and a carriage return', [b'state', (b' ', LINE - 5), b'\r\n'], 9, 'limit\n'),
            ('2^24 blanks', [(b' ', LINE), b'\nstate\n'], 0, state),
            ('2^24 bytes that are no text', [(b'\xff', LINE), b'\n'], 0, 'unknown\n'),
            ('a drive of 2,396,744 steps', [b'drive', (b' w10.0+ w10.0-', (LINE - 5) // 14), b' ' * 3, b'\n'], 0,
             'legal\n'),
            ('a drive that breaks at its last step',
             [b'drive', (b' w10.0+ w10.0-', (LINE - 12) // 14), b' w10.1+\n'], 0,
             f'broken {(LINE - 12) // 14 * 2 + 1} no-step\n'),
            ('a number of a frame with 16,777,210 zeros', [b'#seq ', (b'0', LINE - 6), b'2\n#end\n'], 0, 'applied 2\n'),
            ('a number of a node with 16,777,207 zeros', [b'reach 1 ', (b'0', LINE - 9), b'2\n'], 0, 'drive w10.0+\n')]:
        make()
        wants(name, pieces, status, output, 2 if 'applied' in output else 1)
    print('in a frame')
    way = b'w10 v2 Thighway=residential N'
    for name, pieces, status, output in [
            ('a comment of 2^24 bytes', [b'#', (b'a', LINE - 1), b'\n#end\n'], 0, 'applied 2\n'),
            ('one more', [b'#', (b'a', LINE)], 9, 'limit\n'),
            ('2^24 blanks', [(b' ', LINE), b'\n#end\n'], 0, 'applied 2\n'),
            ('one more', [(b' ', LINE + 1), b'\n#end\n'], 9, 'limit\n'),
            ('an #end of 2^24 bytes', [b'#end', (b' ', LINE - 4), b'\n'], 0, 'applied 2\n'),
            ('an #end of 2^24 bytes, where the input ends', [b'#end', (b'\t', LINE - 4)], 0, 'applied 2\n'),
            ('one more', [b'#end', (b' ', LINE - 3), b'\n'], 9, 'limit\n'),
            ('a tag of 16,777,202 bytes', [b'n1 v2 x8 y50 Tk=', (b'v', LINE - 16), b'\n#end\n'], 0, 'applied 2\n'),
            ('one more', [b'n1 v2 x8 y50 Tk=', (b'v', LINE - 15), b'\n#end\n'], 9, 'limit\n'),
            ('a line that is no text', [(b'\xff', LINE), b'\n#end\n'], 0, 'refused 2 line 1 field 0 NotUtf8\n'),
            ('65,535 references', [way, (b'n3,n4,', 32767), b'n3\n#end\n'], 0, 'applied 2\n'),
            ('65,536 references', [way, (b'n3,n4,', 32767), b'n3,n4\n#end\n'], 0,
             'refused 2 line 1 field 4 TooMany\n')]:
        make()
        wants(name, [b'#seq 2\n', *pieces], status, output, 2 if 'applied' in output else 1)
    make()
    wants('one more byte in a line of a stale frame', [b'#seq 7\n', (b'#', LINE + 1)], 9, 'limit\n', 1)


def tags(more):
    """64 lines with long tags, and the line that ends the frame: 2^30 bytes, and so many more."""
    pieces, left = [], FRAME - len(b'#end\n') + more
    for number in range(1, 65):
        head = b'n%d v2 x8 y50 Tnote=' % number
        length = min(LINE, left - 1)
        pieces += [head, (b'v', length - len(head)), b'\n']
        left -= length + 1
    return [*pieces, b'#end\n']


def frames():
    print('frames of 2^30 bytes, and of one more')
    comment = b'#' * (2 ** 20 - 1) + b'\n'
    for name, first, times, more, end, status, output in [
            ('comments, 2^30 bytes', b'', 1023, 0, b'#end\n', 0, 'applied 2\nunknown\n'),
            ('comments, one more', b'', 1023, 1, b'#end\n', 9, 'limit\n'),
            ('comments, 2^30 bytes and no newline', b'', 1023, 0, b' #end', 0, 'applied 2\n'),
            ('comments, one more and no newline', b'', 1023, 1, b' #end', 9, 'limit\n'),
            ('an event and comments', b'n1 v2 x8 y50\n', 1023, 0, b'#end\n', 0, 'applied 2\nunknown\n'),
            ('a line in fault and comments', b'q1 v2\n', 1023, 0, b'#end\n', 0,
             'refused 2 line 1 field 1 UnknownLine\nunknown\n'),
            ('a line in fault, one more', b'q1 v2\n', 1023, 1, b'#end\n', 9, 'limit\n')]:
        make()
        last = 2 ** 20 - len(first) - len(end) + more
        wants(name, [b'#seq 2\n', first, (comment, times), b'#' * (last - 1) + b'\n', end]
              + [b'behind\n'] * end.endswith(b'\n'), status, output, 2 if 'applied' in output else 1)
    for name, more, status, output in ('blank lines, 2^30 bytes', 0, 0, 'applied 2\n'), ('one more', 1, 9, 'limit\n'):
        make()
        wants(name, [b'#seq 2\n', (b'\n', FRAME - 5 + more), b'#end\n'], status, output, 2 - more)
    for name, more, status, output in ('tags, 2^30 bytes', 0, 0, 'applied 2\nunknown\n'), ('one more', 1, 9, 'limit\n'):
        make()
        wants(name, [b'#seq 2\n', *tags(more), b'behind\n'], status, output, 2 - more)
    make()
    wants('one object in each line, two million lines', [b'#seq 2\n', (b'n1 v2 dD\n', 2000000), b'#end\nstate\n'], 0,
          'applied 2\nstate sequence 2 ways 0 pieces 0 contexts 0 arcs 0\n', 2)


# ---- little memory

def short():
    print('little memory')
    state, deletions = STATE.format(1), (b'n1 v2 dD\n', 50000000)
    for name, megabytes, pieces, output, number in [
            ('a line of 2^24 bytes', 8, [b'state\n', (b'a', LINE), b'\n'], state, 1),
            ('a frame of 2^30 bytes', 512, [b'state\n#seq 2\n', deletions], state, 1),
            ('such a frame behind a good one', 512, [b'#seq 2\nn1 v2 x8 y50.1\n#end\n#seq 3\n', deletions],
             'applied 2\n', 2)]:
        make()
        wants(f'{name}, {megabytes} MB of memory', pieces, 10, output, number, megabytes << 20)
    # frames of streets, with more and more memory: the session goes on for longer and longer
    texts = [''.join(f'n{k} v1 x8.{k:07} y50\nn{k + 1} v1 x8.{k:07} y51\nw{k} v1 Thighway=residential Nn{k},n{k + 1}\n'
                     for k in range(number * 1000, number * 1000 + 1000, 2)) for number in range(2, 32)]
    sent = [f'#seq {number}\n{text}#end\n'.encode() for number, text in enumerate(texts, 2)]
    graphs, ends = {}, {0: 0, 10: 0}
    for kilobytes in range(4096, 40961, 256):
        make()
        session = Session(kilobytes << 10)
        for frame in sent:
            session.send(frame)
        status = session.end()
        replies = session.output.decode().splitlines()
        told = int(replies[-1].split()[1]) if replies else 1
        found, said = kept()
        now = int(said.split()[-1]) if found == 5 else -1
        if now not in graphs:
            graphs[now] = run('-', 'compile', given=(STREET + ''.join(texts[:now - 1])).encode())
        if (status not in ends or replies != [f'applied {k}' for k in range(2, told + 1)] or not told <= now <= told + 1
                or (told == 31) != (status == 0) or run(store, 'graph') != graphs[now]):
            fail(f'{kilobytes} KB: status {status}, {told} was told, and the store says {said}')
        else:
            ends[status] += 1
    print(f'  ok: 30 frames with 4 to 40 MB of memory: {ends[10]} times status 10, {ends[0]} times status 0; from '
          f'{min(graphs) - 1} to {max(graphs) - 1} of them were kept', flush=True)


# ---- a session of 2^40 bytes

def total():
    print('a session of 2^40 bytes, and of one more')
    make()
    session = Session()
    line, ending = b'\xff' * LINE + b'\n', b'state\n'
    fcntl.fcntl(session.process.stdin, F_SETPIPE_SZ, 1 << 20)
    whole, rest = divmod(TOTAL - len(ending), len(line))
    for _ in range(whole):
        session.send(line)
    session.send(b' ' * (rest - 1) + b'\n' + ending)
    wanted = len(b'unknown\n') * whole + len(STATE.format(1))
    while session.size < wanted and session.process.poll() is None:
        time.sleep(0.1)
    if session.size != wanted or not session.output.endswith(STATE.format(1).encode()) or session.sent != TOTAL:
        fail(f'behind 2^40 bytes: {session.size} bytes of replies for {wanted}: {session.output[-100:]}')
    session.send(b'\n')
    status = session.end()
    if (status, session.output[-6:], session.size) != (9, b'limit\n', wanted + 6):
        fail(f'one byte more: status {status}, {session.output[-100:]}')
    else:
        print(f'  ok: status {status}, {session.took}, peak {session.peak / 1024:.1f} MB')


# ---- live files

def files():
    print('live files of 2^40 bytes, and of one more')
    make()
    size = os.path.getsize(store + '.a')
    os.truncate(store + '.a', FILE)
    wants('2^40 bytes', [b'state\n'], 0, STATE.format(1), 1)
    if os.path.getsize(store + '.a') != size:
        fail(f'the file of 2^40 bytes has {os.path.getsize(store + ".a")} bytes, and not {size}, once it was loaded')
    for words, status, said in [('session', 9, b'limit\n'), ('graph', 9, b'limit\n'), ('audit', 9, b'limit\n'),
                                ('checkpoint', 9, b'limit\n'), ('raise', 9, b'limit\n'), ('apply 2', 9, b'limit\n'),
                                ('apply 5', 9, b'limit\n'), ('create 1', 7, b'store exists\n')]:
        os.truncate(store + '.a', FILE + 1)
        if run(store, *words.split(), given=b'state\n') != (status, said):
            fail(f'one byte more: {words}: {run(store, *words.split(), given=b"state")}')
        elif os.path.getsize(store + '.a') != FILE + 1:
            fail(f'{words} cuts a file that is too large')
        else:
            print(f'  ok: one byte more: {words}: status {status}')
    # a file that isn't live counts for nothing, however long it is
    make()
    with open(store + '.b', 'wb') as it:
        it.truncate(FILE + 1)
    wants('another file of one byte more', [b'state\n'], 0, STATE.format(1), 1)


# ---- numbers

def numbers():
    print('numbers at the ends of their ranges')
    make(number=U64 - 3)
    wants('the last frames', [
        f'#seq {U64 - 2}\n#end\n#seq {U64 - 1}\nn1 v2 x8 y50\n#end\nstate\n'.encode(),
        f'#seq {U64}\n#seq {U64 - 1}\n#end\n#seq 0\n#end\n#end\n'.encode()], 0,
        f'applied {U64 - 2}\napplied {U64 - 1}\n' + STATE.format(U64 - 1)
        + f'unknown\nrefused {U64 - 1} sequence {U64 - 1}\nrefused 0 sequence {U64 - 1}\nunknown\n', U64 - 1)
    for words, status, said in [(f'apply {U64 - 1}', 5, f'sequence {U64 - 1} kept {U64 - 1}\n'),
                                (f'apply {U64}', 1, None), ('checkpoint', 0, f'checkpoint {U64 - 1}\n'),
                                ('raise', 0, f'profile 2 sequence {U64 - 1}\n')]:
        got = run(store, *words.split())
        if got[0] != status or said is not None and got[1] != said.encode():
            fail(f'{words}: {got}')
        else:
            print(f'  ok: {words} there: status {status}')
    make()
    wants('frames', [f'#seq {U64 - 1}\nn1 v9\n#end\n#seq {U64}\n#seq -1\n#seq +2\n#seq 2 2\n#seq\n'.encode()], 0,
          f'refused {U64 - 1} sequence 1\n' + 5 * 'unknown\n', 1)
    steps = [f'w{I64 - 1}.{2 ** 32 - 1}+', f'w-{I64}.{2 ** 32 - 1}-', f'w{I64}.0+', f'w-{I64 + 1}.0+',
             f'w10.{2 ** 32}+', f'w10.{2 ** 64}+', 'w10.-0+', 'w+10.0+', 'w-0.0+', 'w10.0', 'w10.0+-', 'w10.0.0+',
             f'w{10:022}.{0:011}+']
    wants('steps', [''.join(f'drive {step}\n' for step in steps).encode()], 0,
          2 * 'broken 1 no-step\n' + 6 * 'unknown\n' + 'broken 1 no-step\n' + 3 * 'unknown\n' + 'legal\n', 1)
    places = [f'-{I64} {I64 - 1}', f'1 {I64 - 1}', f'{I64} 1', f'1 {I64}', f'-{I64 + 1} 1', f'1 -{I64 + 1}',
              f'{U64} {U64}', '+1 2', '-1 2']
    wants('places to reach', [''.join(f'reach {ends}\n' for ends in places).encode()], 0,
          f'no-node -{I64}\nno-node {I64 - 1}\n' + 6 * 'unknown\n' + 'no-node -1\n', 1)
    ends = (f'n-{I64} v4294967294 x-180 y-90\nn{I64 - 1} v1 x180 y90\n'
            f'w-{I64} v1 Thighway=residential Nn-{I64},n{I64 - 1}\n'
            f'w{I64 - 1} v1 Thighway=residential Nn{I64 - 1},n1\nn1 v1 x0 y0\n'
            f'r{I64 - 1} v1 Ttype=restriction,restriction=no_u_turn Mw-{I64}@from,n{I64 - 1}@via,w{I64 - 1}@to\n')
    make(ends)
    wants('objects at both ends', [
        f'drive w-{I64}.0+ w{I64 - 1}.0+\ndrive w{I64 - 1}.0- w-{I64}.0-\nreach -{I64} {I64 - 1}\n'
        f'#seq 2\nn-{I64} v4294967295 x-180 y-90\nr{I64 - 1} v4294967295 dD\n#end\n'
        f'drive w-{I64}.0+ w{I64 - 1}.0+\nreach -{I64} 1\n#seq 3\nn1 v4294967296\n#end\n#seq 3\nn{I64} v1\n#end\n'
        f'#seq 3\nn-{I64 + 1} v1\n#end\n#seq 3\nw-{I64} v2 Thighway=service Nn-{I64},n{I64}\n#end\n'.encode()], 0,
        f'broken 2 no {I64 - 1}\nlegal\ndrive w-{I64}.0+\napplied 2\nlegal\ndrive w-{I64}.0+ w{I64 - 1}.0+\n'
        'refused 3 line 1 field 2 BadNumber\n' + 2 * 'refused 3 line 1 field 1 BadNumber\n'
        + 'refused 3 line 1 field 4 BadRef\n', 2)


for part in [million, endless, lines, frames, files, numbers, short, total]:
    if part.__name__ in parts or not parts and part is not total:
        part()
sys.exit(failed)
