#!/usr/bin/env python3
"""Tries walks over a graph file against the judging of drives: by tools/graph_file.py it goes over the arcs of a graph from
contexts of one piece, by the names and targets in the file alone, and asks a session on the same objects whether the
steps of each walk are a legal drive; and of each walk with a piece behind it that begins where it ends, but to which no
arc leads, that they aren't one.

Use: walks.py PROGRAM EXTRACT.opl [PIECES] [MOST], with walks of up to PIECES pieces, 4 where left out, and at most MOST
walks, chosen evenly, 200,000 where left out. It prints how many were tried; its status is 1 where one isn't as it must
be.
"""
import os
import subprocess
import sys
import tempfile
import threading

sys.dont_write_bytecode = True      # the import below leaves no folder beside the tools
sys.path.insert(0, os.path.join(os.path.dirname(os.path.realpath(__file__)), '../tools'))
from graph_file import Network, spelled     # noqa: E402

program, extract = sys.argv[1:3]
pieces_in_walk = int(sys.argv[3]) if len(sys.argv) > 3 else 4
most = int(sys.argv[4]) if len(sys.argv) > 4 else 200000


def steps_of(network, piece):
    way, index, direction = network.name(piece)
    end = network.ends[piece]
    order = range(index, end) if direction == 0 else range(end - 1, index - 1, -1)
    return [f'w{way}.{i}{"+-"[direction]}' for i in order]


def walks_of(network):
    """Each walk with the piece that is put behind it, and whether an arc leads there."""
    leaving = {}
    for piece in range(len(network.keys)):
        leaving.setdefault(network.place(piece, 0)[0], []).append(piece)
    level = [((piece,), network.first_contexts[piece]) for piece in range(len(network.keys))]
    for _ in range(pieces_in_walk - 1):
        further = []
        for walk, context in level:
            arcs = {network.owners[target]: target for target in network.arcs_of(context)}
            for piece in leaving.get(network.place(walk[-1], network.last(walk[-1]))[0], []):
                yield walk + (piece,), piece in arcs
                if piece in arcs:
                    further.append((walk + (piece,), arcs[piece]))
        level = further


def main():
    with tempfile.TemporaryDirectory() as room:
        store = os.path.join(room, 'store')
        with open(extract, 'rb') as source:
            subprocess.run([program, store, 'create', '1'], stdin=source, stdout=subprocess.DEVNULL, check=True)
        data = subprocess.run([program, store, 'graph'], stdout=subprocess.PIPE, check=True).stdout
        network = Network(data)
        tried = list(walks_of(network))
        tried = tried[::max(1, len(tried) // most)]
        steps = [' '.join(steps_of(network, piece)) for piece in range(len(network.keys))]
        with subprocess.Popen([program, store, 'session'], stdin=subprocess.PIPE, stdout=subprocess.PIPE) as session:
            def send():
                for walk, _ in tried:
                    session.stdin.write(('drive ' + ' '.join(steps[piece] for piece in walk) + '\n').encode())
                session.stdin.close()
            sender = threading.Thread(target=send)
            sender.start()
            wrong = 0
            for walk, leads in tried:
                reply = session.stdout.readline()
                if (reply == b'legal\n') != leads:
                    wrong += 1
                    if wrong <= 5:
                        told = 'an arc leads' if leads else 'no arc leads'
                        print(f'{spelled(network, *walk)}: {reply!r}, and {told} there')
            sender.join()
        legal = sum(leads for _, leads in tried)
        print(f'{len(tried)} walks of up to {pieces_in_walk} pieces: {legal} along arcs, {len(tried) - legal} not')
        print(f'{wrong} judged otherwise')
        return 1 if wrong else 0


sys.exit(main())
