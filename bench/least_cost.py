#!/usr/bin/env python3
"""Finds a drive of least cost by a graph file, with Dijkstra's algorithm over its contexts and in whole numbers: what
`route` and `certify` of a session are compared with. Nothing of the program is in it, and of tools/ the reading of a
graph and what a step costs.

Use: least_cost.py GRAPH A B [CERTIFICATE]. It prints what `route A B` has to say of the cost, with a drive of that
cost, or `none`, also where the graph has no such node; and writes a certificate, if a file is named.
"""
import heapq
import os
import sys
from array import array

sys.dont_write_bytecode = True      # the imports below leave no folder beside the tools
sys.path.insert(0, os.path.join(os.path.dirname(os.path.realpath(__file__)), '../tools'))
from certificate import NOTHING, costs_along    # noqa: E402
from graph_file import Network                  # noqa: E402


class Costs:
    """What a search over a graph needs of its pieces: what each costs, and which of them a node stands on."""

    def __init__(self, network):
        self.network = network
        self.whole = array('Q', (costs_along(network, piece)[-1] for piece in range(len(network.keys))))
        self.standing = {}
        for piece in range(len(network.keys)):
            for at, place in enumerate(network.places(piece)):
                self.standing.setdefault(place[0], []).append((piece, at))

    def between(self, piece, first, last):
        along = costs_along(self.network, piece)
        return along[last] - along[first]

    def least(self, start, goal):
        """The least cost of a drive, its stretches of pieces, and for each context the least cost of a drive from the
        start that ends with it, at its end; NOTHING in the place of a cost that there isn't."""
        network, best, came = self.network, [NOTHING] * len(self.network.owners), {}
        ends, queue, found = {}, [], (NOTHING, None)
        for piece, at in self.standing.get(goal, []):
            ends.setdefault(piece, []).append(at)
        for piece, at in self.standing.get(start, []):
            for end in ends.get(piece, []):
                if at < end:
                    found = min(found, (self.between(piece, at, end), (piece, at, end, None)))
            context, cost = network.first_contexts[piece], self.between(piece, at, network.last(piece))
            if at < network.last(piece) and cost < best[context]:
                best[context], came[context] = cost, (at, None)
                heapq.heappush(queue, (cost, context))
        while queue:
            cost, context = heapq.heappop(queue)
            for target in network.arcs_of(context) if cost == best[context] else ():
                piece = network.owners[target]
                for end in ends.get(piece, []):
                    if end and cost + self.between(piece, 0, end) < found[0]:
                        found = cost + self.between(piece, 0, end), (piece, 0, end, context)
                if cost + self.whole[piece] < best[target]:
                    best[target], came[target] = cost + self.whole[piece], (0, context)
                    heapq.heappush(queue, (best[target], target))
        return found[0], self.stretches(found[1], came), best

    def stretches(self, last, came):
        """The pieces of a drive, each with the positions from which and up to which it is driven."""
        if last is None:
            return []
        piece, first, end, context = last
        drive = [(piece, first, end)]
        while context is not None:
            piece = self.network.owners[context]
            first, context = came[context]
            drive.append((piece, first, self.network.last(piece)))
        return drive[::-1]


def steps_of(network, stretches):
    """The steps of stretches of pieces, spelled."""
    steps = []
    for piece, first, last in stretches:
        way, index, direction = network.name(piece)
        at = (lambda place: network.ends[piece] - 1 - place) if direction else (lambda place: index + place)
        steps += [f'w{way}.{at(place)}{"+-"[direction]}' for place in range(first, last)]
    return steps


def reply_of(network, cost, stretches):
    """What `route` says of such a drive."""
    return f'cost {cost} drive {" ".join(steps_of(network, stretches))}' if stretches else 'none'


def spelled(potentials):
    """The bytes of a certificate."""
    return b''.join(b'\0' if number == NOTHING else b'\1' + number.to_bytes(16, 'little') for number in potentials)


def main(graph, start, goal, file=None):
    with open(graph, 'rb') as source:
        network = Network(source.read())
    cost, stretches, potentials = Costs(network).least(int(start), int(goal))
    print(reply_of(network, cost, stretches))
    if file:
        with open(file, 'wb') as target:
            target.write(spelled(potentials))


if __name__ == '__main__':
    main(*sys.argv[1:])
