#!/usr/bin/env python3
"""Measures how much longer frames take in a session that has followed many than in one that has just been opened. The
first follows some frames; then the other is opened on a copy of its store, and both are sent the same frames, in an
order that is drawn for each, on one processor: so what else the machine does falls on both alike. Prints the session's
own processor time a frame, on average, of both. Use: paired_frames.py PROGRAM TOWN.opl KIND BEFORE FRAMES; the town is
one of gen_town.py, and the kinds are those of frames.py.
"""
import os
import random
import re
import shutil
import subprocess
import sys
import tempfile

from frames import Town, frame, processor_time


class Session:
    def __init__(self, program, folder):
        self.process = subprocess.Popen(
            [program, os.path.join(folder, 'store'), 'session'], stdin=subprocess.PIPE, stdout=subprocess.PIPE)
        self.kept = int(re.match(rb'state sequence (\d+) ', self.ask(b'state\n')).group(1))
        self.took = []

    def ask(self, message):
        self.process.stdin.write(message)
        self.process.stdin.flush()
        return self.process.stdout.readline()

    def follow(self, number, message):
        before = processor_time(self.process)
        reply = self.ask(message)
        self.took.append(1000 * (processor_time(self.process) - before))
        if reply != b'applied %d\n' % number:
            sys.exit(f'{reply} for the frame {number}')

    def close(self):
        self.process.stdin.close()
        self.process.wait()


def main():
    program, path, kind, before, count = sys.argv[1:]
    os.sched_setaffinity(0, {max(os.sched_getaffinity(0))})
    town, draws = Town(path), random.Random(3)
    with tempfile.TemporaryDirectory(dir='/dev/shm') as long, tempfile.TemporaryDirectory(dir='/dev/shm') as fresh:
        with open(path, 'rb') as extract:
            subprocess.run([program, os.path.join(long, 'store'), 'create', '1'], stdin=extract,
                           stdout=subprocess.DEVNULL, check=True)
        sessions = [Session(program, long)]
        number = sessions[0].kept
        for step in range(int(before) + int(count)):
            if step == int(before):
                for name in os.listdir(long):
                    shutil.copy(os.path.join(long, name), fresh)
                sessions[0].took = []
                sessions.append(Session(program, fresh))
            number += 1
            message = f'#seq {number}\n' + '\n'.join(frame(kind, town, draws)) + '\n#end\n'
            for session in random.sample(sessions, len(sessions)):
                session.follow(number, message.encode())
        for session in sessions:
            session.close()
    old, new = (sum(session.took) / len(session.took) for session in sessions)
    print(f'  {kind:8} {count} frames behind {before}: {old:.2f} ms in the session that followed these, '
          f'{new:.2f} ms in one that was opened then: {old / new:.2f} times')


main()
