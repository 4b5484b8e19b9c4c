#!/usr/bin/env python3
"""Measures how far the cost of a drive, taken as metres, is from its length on the ellipsoid WGS84, by Vincenty's
inverse formula (Survey Review XXIII 176, 1975). One unit of cost is taken as 1e-7 degree on the sphere of 6371 km that
graph.py takes.

Use: metres_of_costs.py GRAPH FILE.. prints for each file with a reply to `route` what its drive costs and how long it
is. metres_of_costs.py alone prints for several latitudes how far steps are off: one of 300 m due north and one due
east, and the least and the greatest of a thousand drawn ones; and then those of 60,000 drawn between 80 degrees south
and 80 degrees north.
"""
import math
import os
import random
import sys

sys.dont_write_bytecode = True      # the imports below leave no folder beside the tools
sys.path.insert(0, os.path.join(os.path.dirname(os.path.realpath(__file__)), '../tools'))
from certificate import read_reply, read_step, step_cost    # noqa: E402
from graph_file import Network                              # noqa: E402

UNIT = 6371000 * math.radians(1e-7)       # metres
AXIS, FLATTENING = 6378137.0, 1 / 298.257223563
LATITUDES = (0, 15, 30, 45, 60, 75, 80, 85, 89)


def reduced(latitude):
    """Sine and cosine of the reduced latitude."""
    angle = math.atan((1 - FLATTENING) * math.tan(latitude))
    return math.sin(angle), math.cos(angle)


def length(place, other):
    """Metres of the shortest line between two places that are near to each other."""
    (_, x, y), (_, u, v) = ((node, *(math.radians(number / 1e7) for number in at)) for node, *at in (place, other))
    (sin_1, cos_1), (sin_2, cos_2) = reduced(y), reduced(v)
    east = angle = u - x
    for _ in range(100):
        sine = math.hypot(cos_2 * math.sin(angle), cos_1 * sin_2 - sin_1 * cos_2 * math.cos(angle))
        if sine == 0:
            return 0.0
        cosine = sin_1 * sin_2 + cos_1 * cos_2 * math.cos(angle)
        arc = math.atan2(sine, cosine)
        azimuth = cos_1 * cos_2 * math.sin(angle) / sine
        squared = 1 - azimuth ** 2
        middle = cosine - 2 * sin_1 * sin_2 / squared if squared > 1e-12 else 0.0
        share = FLATTENING / 16 * squared * (4 + FLATTENING * (4 - 3 * squared))
        before = angle
        inner = middle + share * cosine * (2 * middle ** 2 - 1)
        angle = east + (1 - share) * FLATTENING * azimuth * (arc + share * sine * inner)
        if abs(angle - before) < 1e-15:
            break
    return on_ellipsoid(squared, arc, sine, cosine, middle)


def on_ellipsoid(squared, arc, sine, cosine, middle):
    """The length of an arc of the auxiliary sphere."""
    polar = AXIS * (1 - FLATTENING)
    bulge = squared * (AXIS ** 2 - polar ** 2) / polar ** 2
    scale = 1 + bulge / 16384 * (4096 + bulge * (-768 + bulge * (320 - 175 * bulge)))
    ripple = bulge / 1024 * (256 + bulge * (-128 + bulge * (74 - 47 * bulge)))
    third = ripple / 6 * middle * (4 * sine ** 2 - 3) * (4 * middle ** 2 - 3)
    less = ripple * sine * (middle + ripple / 4 * (cosine * (2 * middle ** 2 - 1) - third))
    return polar * scale * (arc - less)


def off(cost, metres):
    """How much more than the metres a cost says, in percent."""
    return f'{100 * (cost * UNIT / metres - 1):+.2f} %'


def tell_drive(network, file):
    with open(file, encoding='ascii') as reply:
        _, steps = read_reply(reply.read())
    places = [network.places(piece, at, at + 1) for piece, at in (read_step(network, step) for step in steps)]
    cost, metres = (sum(call(*ends) for ends in places) for call in (step_cost, length))
    print(f'{file}: {len(steps)} steps cost {cost}, which is {cost * UNIT:.1f} m; on the ellipsoid {metres:.1f} m, '
          f'{off(cost, metres)}')


def to(degrees, metres, heading):
    """A place that is about so many metres from the one at longitude 0 and a latitude."""
    north, east = (metres * turn(heading) / UNIT for turn in (math.cos, math.sin))
    return (None, 0, round(degrees * 1e7)), \
        (None, round(east / math.cos(math.radians(degrees))), round(degrees * 1e7 + north))


def least_and_greatest(steps):
    found = [100 * (step_cost(*ends) * UNIT / length(*ends) - 1) for ends in steps]
    return f'{min(found):+.2f} to {max(found):+.2f} %'


def tell_latitudes():
    draws = random.Random(1)

    def drawn(degrees, least):
        return to(degrees, draws.uniform(least, 500), draws.uniform(0, 2 * math.pi))

    for degrees in LATITUDES:
        due = [off(step_cost(*ends), length(*ends)) for ends in (to(degrees, 300, 0), to(degrees, 300, math.pi / 2))]
        print(f'| {degrees} | {" | ".join(due)} | {least_and_greatest(drawn(degrees, 2) for _ in range(1000))} |')
    for least in (2, 10):
        said = least_and_greatest(drawn(draws.uniform(-80, 80), least) for _ in range(60000))
        print(f'steps of {least} to 500 m between 80 degrees south and north: {said}')


if len(sys.argv) > 2:
    with open(sys.argv[1], 'rb') as source:
        graph = Network(source.read())
    for name in sys.argv[2:]:
        tell_drive(graph, name)
else:
    tell_latitudes()
