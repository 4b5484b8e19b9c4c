#!/usr/bin/env python3
"""Follows a folder of change files, as the servers of OpenStreetMap lay them out, with a store (docs/FOLLOW.md).

    FOLDER/state.txt                    a line sequenceNumber=N: the changes up to N are there
    FOLDER/000/001/234.osc.gz           the change 1234

From the number that the store keeps on, each file is read whole, made to lines by `osmium cat`, and sent as one change
of a session. It ends at the first file that isn't there, is cut short or is refused; begun again, after any stop, it
goes on behind the last change that the store keeps.
"""
import argparse
import gzip
import os
import re
import subprocess
import sys
import time
import zlib

sys.dont_write_bytecode = True      # the import below leaves no folder beside the tools
import session      # noqa: E402
from session import Trouble, say    # noqa: E402

USAGE = 'follow.py [--wait SECONDS] [--checkpoint N] [--map FILE] NAME FOLDER'
EXAMPLES = """
examples:
  osmroad town create 4711 < town.opl         a store of the whole extract, under the number of its last change
  follow.py town updates                      what has come since then
  follow.py town updates --wait 3600          the same, and what comes until nothing came for an hour
  follow.py town updates --map town.opl       tells of each deletion that is no newer than what it deletes

status:
  0  up to date: the next change is beyond the sequenceNumber of state.txt
  1  other arguments
  2  a file can't be read, or state.txt has no sequenceNumber
  3  standard output can't be written, or the store's files can't be used: look at the folder, what you may read and
     write, the space on the disk, and if another program holds the store
  4  a change is refused: its lines are in fault
  5  a file is missing that state.txt counts, or there is no state.txt to tell
  6, 8, 9, 10  no store; it is damaged; a limit is passed; memory ended
  11 a file is cut short, or osmium can't read it
  127  there is no osmium or no osmroad; 128 and a signal's number: osmroad was killed by it
"""
BUSY_SECONDS = 3        # how long a store is tried that another program holds
LOOK_SECONDS = 1        # between two looks for a file
TOLD_LINES = 20         # how many of those that are passed over are told


def warn(text):
    session.tell(f'follow.py: {text}')


class NotYet(Trouble):
    """What may change by waiting."""


# ----------------------------------------------------------------------------------------------------------- the folder


def change_file(folder, number):
    """Where the change of this number lies."""
    name = f'{number:09}'
    return os.path.join(folder, name[:-6], name[-6:-3], name[-3:] + '.osc.gz')


def read_bytes(name):
    try:
        with open(name, 'rb') as file:
            return file.read()
    except OSError as error:
        raise Trouble(2, f'{name}: {error.strerror}') from None


def latest_number(folder):
    """The sequenceNumber of state.txt; None where there is no such file."""
    name = os.path.join(folder, 'state.txt')
    if not os.path.exists(name):
        return None
    found = re.search(rb'^sequenceNumber=([0-9]{1,20})\s*$', read_bytes(name), re.MULTILINE)
    if not found:
        raise NotYet(2, f'{name}: no line sequenceNumber=N')
    return int(found.group(1))


def no_file(folder, name, number):
    """What it means that the next file isn't there."""
    if not os.path.isdir(folder):
        return Trouble(2, f'{folder}: no such folder')
    latest = latest_number(folder)
    if latest is None:
        return NotYet(5, f'{name} is missing, and there is no {os.path.join(folder, "state.txt")}')
    if number > latest:
        return NotYet(0, f'up to date: the store keeps {number - 1}, and state.txt has {latest}')
    return NotYet(5, f'{name} is missing, and state.txt has {latest}')


def read_change(folder, number):
    """The XML of a change, from a file that is whole."""
    name = change_file(folder, number)
    if not os.path.exists(name):
        raise no_file(folder, name, number)
    try:
        xml = gzip.decompress(read_bytes(name))
    except (EOFError, gzip.BadGzipFile, zlib.error) as error:
        raise NotYet(11, f'{name} is cut short: {error}') from None
    if not xml:
        raise NotYet(11, f'{name} is empty')
    return xml


# -------------------------------------------------------------------------------------------------- osmium and versions


def osmium_failed(name, status, said):
    lines = said.decode('utf-8', 'replace').strip().splitlines() or [f'status {status}']
    return NotYet(11, f'{name}: osmium: {lines[-1]}')


def opl_of_change(xml, name):
    """The lines of a change. They come from memory, so that what was found whole is what is read."""
    done = subprocess.run(['osmium', 'cat', '-F', 'osc', '-f', 'opl', '-'], input=xml, capture_output=True, check=False)
    if done.returncode != 0:
        raise osmium_failed(name, done.returncode, done.stderr)
    return done.stdout


def lines_of_map(name):
    """The lines of an extract, one by one."""
    if name.endswith('.opl'):
        try:
            with open(name, 'rb') as file:
                yield from file
        except OSError as error:
            raise Trouble(2, f'{name}: {error.strerror}') from None
        return
    command = ['osmium', 'cat', '-f', 'opl,add_metadata=version', name]
    with subprocess.Popen(command, stdout=subprocess.PIPE, stderr=subprocess.PIPE) as osmium:
        yield from osmium.stdout
        said = osmium.stderr.read()
    if osmium.returncode != 0:
        raise osmium_failed(name, osmium.returncode, said)


OBJECT = re.compile(rb'^[ \t]*([nwr]-?[0-9]+)(?=[ \t\r\n])')
VERSION = re.compile(rb'[ \t]v([0-9]+)(?=[ \t\r\n]|$)')
DELETED = re.compile(rb'[ \t]dD(?=[ \t\r\n]|$)')


class Versions:
    """The greatest version of each object in the lines that were seen, and the lines that are passed over: deletions no
    newer than what they delete, and objects that come again no newer than their deletion."""

    def __init__(self):
        self.known = {}         # an object's name to its version, negative where that is a deletion
        self.stale = 0          # lines that are passed over
        self.doubtful = 0       # deletions of version 1 of what is not known, since objects begin with version 1

    def see(self, line):
        """Sees a line, and returns what is to be told of it."""
        found = OBJECT.match(line)
        if not found:
            return None
        name = found.group(1)
        version = VERSION.search(line)
        version = int(version.group(1)) if version else 0
        deleted = DELETED.search(line) is not None
        before = self.known.get(name)
        if before is None or version > abs(before):
            self.known[name] = -version if deleted else version
        judge = self.deletion if deleted else self.object
        return judge(name.decode(), version, before)

    def deletion(self, name, version, before):
        """What is to be told of a deletion, of an object that had the version `before`."""
        if before is None and version == 1:
            self.doubtful += 1
            return f'{name} is deleted with version 1, with which objects begin: maybe it stays'
        if version <= (before or 0):
            self.stale += 1
            return f'{name} is deleted with version {version}, and has version {before or 0}: it stays'
        return None

    def object(self, name, version, before):
        if before is not None and before < 0 and version <= -before:
            self.stale += 1
            return f'{name} comes with version {version}, and was deleted with version {-before}: it stays deleted'
        return None

    def see_change(self, lines):
        """Sees the lines of a change, and returns what is to be told, as far as there wasn't much before."""
        room = max(0, TOLD_LINES - self.stale - self.doubtful)
        return [text for text in map(self.see, lines) if text][:room]

    def summary(self):
        """How many lines were passed over; None where none was."""
        if not self.stale and not self.doubtful:
            return None
        return (f'passed over for their version: {self.stale} lines, and maybe {self.doubtful} deletions of version 1'
                f' (osmium derive-changes needs --increment-version)')


# --------------------------------------------------------------------------------------------------------- the follower


def patiently(call):
    """Calls again, for some seconds, while another program may hold the store: the session of a follower that was
    killed, for example."""
    until = time.monotonic() + BUSY_SECONDS
    while True:
        try:
            return call()
        except session.SessionError as error:
            if error.status != 3:
                raise
            if time.monotonic() >= until:
                raise NotYet(3, error) from None
        time.sleep(0.1)


class Follower:
    """A store, the folder that it follows, and the session where one is open."""

    def __init__(self, store, folder, every, versions):
        self.store = store
        self.folder = folder
        self.every = every
        self.versions = versions
        self.session = None
        self.kept = None        # as it was when the session last told

    def open(self):
        """Opens a session, where none is open."""
        if self.session is None:
            self.session = patiently(lambda: session.Session(self.store))
        self.kept = self.session.kept()

    def close(self):
        if self.session is not None:
            open_session, self.session = self.session, None
            open_session.close()

    def step(self):
        """Applies the change behind the last one that is kept."""
        if self.kept is None:
            self.open()
        number = self.kept + 1
        name = change_file(self.folder, number)
        opl = opl_of_change(read_change(self.folder, number), name)
        self.open()
        if self.kept + 1 != number:
            return              # another program has applied it, while no session was open
        self.send(number, opl, name)
        lines = opl.split(b'\n')[:-1]
        for text in self.versions.see_change(lines):
            warn(f'{name}: {text}')
        say(f'applied {number} lines {len(lines)} deletions {sum(1 for line in lines if DELETED.search(line))}')
        if self.every and number % self.every == 0:
            self.checkpoint()

    def send(self, number, opl, name):
        try:
            self.session.frame(number, opl)
        except session.OutOfSequence as error:
            raise Trouble(5, error) from None
        except ValueError as error:
            raise Trouble(4, f'{name} is refused: {error}') from None
        except session.Faulty as error:
            line = opl.split(b'\n', error.line)[error.line - 1][:200].decode('utf-8', 'replace')
            raise Trouble(4, f'{name} is refused: line {error.line} field {error.field} {error.kind}: {line}') from None
        self.kept = number

    def checkpoint(self):
        """Writes the store anew, between two sessions."""
        self.close()
        say(patiently(self.write_checkpoint))

    def write_checkpoint(self):
        done = subprocess.run([session.default_program(), self.store, 'checkpoint'], stdin=subprocess.DEVNULL,
                              capture_output=True, check=False)
        said = done.stdout.decode('utf-8', 'replace').strip()
        if done.returncode != 0:
            raise session.SessionError(done.returncode, f'checkpoint: {session.end_text(done.returncode, said)}')
        return said


def follow(follower, wait):
    """Applies changes until there is none, and was none for so many seconds."""
    until = time.monotonic() + wait
    while True:
        try:
            follower.step()
            until = time.monotonic() + wait
        except NotYet:
            follower.close()        # while it waits, others may use the store
            left = until - time.monotonic()
            if left <= 0:
                raise
            time.sleep(min(LOOK_SECONDS, left))


# ---------------------------------------------------------------------------------------------------------- the command


class Parser(argparse.ArgumentParser):
    def error(self, message):
        raise Trouble(1, f'{message}: follow.py --help tells what is wanted')


def make_parser():
    parser = Parser(prog='follow.py', description=__doc__, epilog=EXAMPLES, add_help=False, usage=USAGE,
                    formatter_class=argparse.RawDescriptionHelpFormatter)
    parser.add_argument('store', metavar='NAME', help='the store, as osmroad takes it')
    parser.add_argument('folder', metavar='FOLDER', help='the folder of the change files')
    parser.add_argument('--wait', metavar='SECONDS', type=float, default=0,
                        help='where the next file is missing or cut short, or the store is held by another program,'
                             ' look again for so long (inf: for ever); others may use the store meanwhile')
    parser.add_argument('--checkpoint', metavar='N', type=int, default=1000,
                        help='write the store anew behind each change whose number is a multiple of N (default 1000;'
                             ' 0: never)')
    parser.add_argument('--map', metavar='FILE',
                        help='the extract of which the store was made (OPL, or what osmium reads): its versions are'
                             ' compared with those of deletions; takes some 100 bytes of memory an object')
    return parser


def arguments(words):
    given = make_parser().parse_args(words)
    if not given.wait >= 0 or given.checkpoint < 0:
        raise Trouble(1, '--wait and --checkpoint take numbers of 0 and more')
    return given


def known_versions(name):
    versions = Versions()
    if name is not None:
        for line in lines_of_map(name):
            versions.see(line)
        versions.stale = versions.doubtful = 0
    return versions


def run(given):
    versions = known_versions(given.map)
    follower = Follower(given.store, given.folder, given.checkpoint, versions)
    try:
        follow(follower, given.wait)
    finally:
        follower.close()
        if versions.summary():
            warn(versions.summary())


def main(words):
    if sys.stdout is None:
        raise Trouble(3, 'standard output is closed')
    if '--help' in words or '-h' in words:
        say(make_parser().format_help().rstrip())
        return 0
    try:
        run(arguments(words))
    except NotYet as end:
        if end.status != 0:
            raise
        say(end)
    except session.SessionError as error:
        raise Trouble(session.exit_status(error), error) from None
    except (FileNotFoundError, PermissionError) as error:
        raise Trouble(127, f'{error.filename}: {error.strerror}: install osmium-tool') from None
    return 0


if __name__ == '__main__':
    session.end_command('follow.py', main)
