"""Checks what osmroad answers to `route`, by the bytes of a graph and of a certificate alone; needs nothing but Python.

A certificate gives to each context of the graph, in the order of its file, a number, its potential, or nothing. Where
the four conditions of `broken_condition` hold, each legal drive from the one node to the other costs at least what is
checked: a potential is then at most the cost of any drive from the first node that ends with its context, at its end,
so that no drive can come to the second node for less. docs/GRAPH.md tells it at length. Nothing here searches, and no
rule of the road stands here but the arcs of the graph.
"""
import math
import re
from array import array
from itertools import accumulate

from graph_file import Refusal, spelled

NOTHING = math.inf              # in the place of a number: it is greater than each
HALF, TURN = 1800000000, 3600000000     # of longitudes, in units of 1e-7 degree
STEP = re.compile(r'w(-?)0*([0-9]{1,19})\.0*([0-9]{1,10})([+-])')


def step_cost(place, other):
    """What a step costs: 1 more than its length in units of 1e-7 degree of latitude, rounded down. The longitudes are
    drawn together by Bhaskara's fraction for the cosine, at the middle of the two latitudes."""
    (_, lon, lat), (_, other_lon, other_lat) = place, other
    east = abs(lon - other_lon)
    east = min(east, TURN - east)
    twice = (lat + other_lat) ** 2
    east = east * (TURN ** 2 - 4 * twice) // (TURN ** 2 + twice)
    return 1 + math.isqrt(east * east + (lat - other_lat) ** 2)


def costs_along(network, piece):
    """What the steps of a piece cost together, from its beginning up to each of its places."""
    places = network.places(piece)
    return list(accumulate(map(step_cost, places, places[1:]), initial=0))


def read_potentials(data, contexts):
    """The potentials that a certificate spells: for each context a byte 0, or a byte 1 and a number of 16 bytes."""
    potentials, at = [], 0
    for _ in range(contexts):
        kind = data[at:at + 1]
        if kind not in (b'\0', b'\1') or kind == b'\1' and len(data) < at + 17:
            raise Refusal(f'not a certificate of this graph: neither nothing nor a number at byte {at}')
        potentials.append(int.from_bytes(data[at + 1:at + 17], 'little') if kind == b'\1' else NOTHING)
        at += 17 if kind == b'\1' else 1
    if at < len(data):
        raise Refusal(f'not a certificate of this graph: bytes behind its last context at byte {at}')
    return potentials


def broken_condition(network, potentials, start, goal, cost):
    """Which condition doesn't hold first, and where, as a line; None where all four do. A cost of NOTHING stands for no
    drive at all. What a condition says is told where it is looked at.
    """
    whole, to_goal = array('Q'), {}
    for piece in range(len(network.keys)):
        places, along, since = network.places(piece), costs_along(network, piece), None
        for at in range(len(places) - 1):
            since = along[at] if places[at][0] == start else since
            if places[at + 1][0] == goal:
                to_goal.setdefault(piece, along[at + 1])
                # from start to goal within one piece a drive costs at least as much
                if since is not None and along[at + 1] - since < cost:
                    return f'within a piece: over {spelled(network, piece)} alone a drive costs {along[at + 1] - since}'
        whole.append(along[-1])
        # whoever begins within a piece comes to its end for at least its context's potential
        if since is not None and potentials[network.first_contexts[piece]] > along[-1] - since:
            return f'at the beginning: over {spelled(network, piece)} a drive comes to its end for {along[-1] - since}'
    for context, potential in enumerate(potentials):
        for target in network.arcs_of(context):
            piece = network.owners[target]
            # an arc adds at most the cost of its piece
            if potentials[target] > potential + whole[piece]:
                return f'at an arc: {arc(network, context, target)} comes to its end for {potential + whole[piece]}'
            # whoever comes to goal on an arc's piece has paid at least as much
            if potential + to_goal.get(piece, NOTHING) < cost:
                return f'at the end: {arc(network, context, target)} comes there for {potential + to_goal[piece]}'
    return None


def arc(network, context, target):
    return ' to '.join(spelled(network, *network.pieces(each)) for each in (context, target))


def read_step(network, word):
    """The piece of a step, and which of its steps it is, in order of travel."""
    form = STEP.fullmatch(word)
    found = form and network.find_step(int(form[1] + form[2]), int(form[3]), '+-'.index(form[4]))
    if not found:
        raise Refusal(f'no piece of the graph has the step {word[:40]}')
    return found


def drive_cost(network, words, start, goal):
    """What a drive of these steps costs. It is refused where it isn't legal by the graph, or has other ends."""
    steps = [read_step(network, word) for word in words]
    piece, at = steps[0]
    context, total = network.first_contexts[piece], 0
    if network.place(piece, at)[0] != start:
        raise Refusal(f'the drive begins at node {network.place(piece, at)[0]}')
    for number, step in enumerate(steps):
        if number and step != (piece, at + 1):
            onward = [target for target in network.arcs_of(context) if (network.owners[target], 0) == step]
            if at + 1 != network.last(piece) or not onward:
                raise Refusal(f'the drive: nothing leads on to step {number + 1}, {words[number]}')
            context = onward[0]
        piece, at = step
        total += step_cost(network.place(piece, at), network.place(piece, at + 1))
    if network.place(piece, at + 1)[0] != goal:
        raise Refusal(f'the drive ends at node {network.place(piece, at + 1)[0]}')
    return total


def read_reply(text):
    """The cost and the steps of a reply to `route`, or to `reach`, which says no cost; no steps where it says none."""
    words = text.split()
    if words == ['none']:
        return NOTHING, []
    cost = None
    if words[:1] == ['cost'] and re.fullmatch('[0-9]{1,39}', ''.join(words[1:2])):
        cost, words = int(words[1]), words[2:]
    if words[:1] == ['drive'] and len(words) > 1:
        return cost, words[1:]
    if cost is not None and not words:
        return cost, []
    raise Refusal(f'no reply to route, which is none, or cost C drive STEP ..: {text[:40]!r}')


def check(network, data, start, goal, reply):
    """Refuses a reply to `route` that isn't right, or whose certificate doesn't show that it is."""
    cost, steps = read_reply(reply)
    if cost is None:
        raise Refusal('a reply with its cost is wanted')
    broken = broken_condition(network, read_potentials(data, len(network.owners)), start, goal, cost)
    if broken:
        raise Refusal(f'not certified {broken}')
    if steps:
        costs = drive_cost(network, steps, start, goal)
        if costs != cost:
            raise Refusal(f'the drive costs {costs}')
