#!/usr/bin/env python3
"""Tries graphs at a moment: on the drawn maps of bench/try_routes.py, whose ways get conditional access keys with drawn
values, in form and out of it, `osmroad NAME graph MOMENT` must give the bytes that `osmroad - compile` gives of the map
as bench/at_moment.py writes it for that moment; and so of a file, if one is named. Then the store is raised, and the
same holds of `osmroad - compile 2`, with the marks of that moment.

Use: try_moments.py PROGRAM [MAPS [FIRST [FILE.opl]]], with 200 maps where left out, of the seeds from FIRST on. It
prints how many graphs were compared and how many differ from the one without a moment; its status is 1 where one isn't
as it must be, with the map's seed and the moment.
"""
import os
import random
import subprocess
import sys
import tempfile

sys.dont_write_bytecode = True      # the import below leaves no folder beside the scripts
from at_moment import DAYS, KEYS        # noqa: E402
from try_routes import drawn_map        # noqa: E402

HERE = os.path.dirname(os.path.realpath(__file__))
TIMES = ['00:00', '06:00', '07:30', '12:00', '22:00', '23:59', '24:00', '8:00', '12:60']


def drawn_condition(draw):
    days = ','.join('-'.join(draw.choices(DAYS, k=draw.choice([1, 1, 2]))) for _ in range(draw.choice([1, 1, 2])))
    times = ','.join('-'.join(draw.choices(TIMES[:draw.choice([6, 7, 9])], k=2)) for _ in range(draw.choice([1, 1, 2])))
    return draw.choice([days, times, f'{days} {times}', f'{days} {times}', 'PH', f'{days}  {times}'])


def drawn_value(draw):
    """A value of one to three parts, most of them in form."""
    parts = []
    for _ in range(draw.choice([1, 1, 2, 3])):
        condition = drawn_condition(draw)
        at = draw.choice(['@', ' @ ', ' @ ', '  @', ' '] if draw.random() < 0.2 else [' @ '])
        parts.append(draw.choice(['no', 'yes', 'destination', 'private']) + at
                     + draw.choice([condition, f'({condition})', f'({condition})']))
    return draw.choice([';', '; ', '; ']).join(parts)


def with_conditions(lines, draw):
    """A map whose ways have conditional keys, and some of them plain ones too."""
    out = []
    for line in lines.decode().splitlines():
        if line.startswith('w'):
            for key in draw.sample(KEYS, draw.choice([0, 1, 1, 2])):
                value = ''.join(letter if letter.isalnum() else f'%{ord(letter):x}%' for letter in drawn_value(draw))
                plain = draw.choice(['', '', f',{key}=no', f',{key}=yes'])
                line = line.replace('=residential', f'=residential,{key}:conditional={value}{plain}')
        out.append(line + '\n')
    return ''.join(out).encode()


def drawn_moment(draw):
    time = draw.choice(['00:00', '05:59', '06:00', '07:30', '12:00', '21:59', '22:00', '23:59'])
    return f'{draw.choice(["2024-05", "2023-12", "0000-02", "9999-12"])}-{draw.randint(1, 28):02}T{time}'


def output(words, data):
    return subprocess.run(words, input=data, stdout=subprocess.PIPE, check=True).stdout


def compare(program, lines, moments):
    """The moments at which the graphs aren't one, and at how many the graph is another one than without a moment."""
    with tempfile.TemporaryDirectory() as room:
        store = os.path.join(room, 'store')
        output([program, store, 'create', '1'], lines)
        thens = {moment: output([sys.executable, os.path.join(HERE, 'at_moment.py'), moment], lines)
                 for moment in moments}
        wrong, others = [], 0
        for profile in [], ['2']:
            plain = output([program, '-', 'compile', *profile], lines)
            for moment, then in thens.items():
                graph = output([program, store, 'graph', moment], b'')
                wrong += [moment] if graph != output([program, '-', 'compile', *profile], then) else []
                others += graph != plain
            output([program, store, 'raise'], b'')
        return wrong, others


def main(program, maps=200, first=0, file=None):
    named = [(f'map {seed}', seed) for seed in range(int(first), int(first) + int(maps))]
    compared = altered = 0
    for name, seed in named + ([(file, 0)] if file else []):
        draw = random.Random(seed)
        if name == file:
            with open(file, 'rb') as source:
                lines = source.read()
        else:
            lines = with_conditions(drawn_map(seed)[0], draw)
        wrong, others = compare(program, lines, [drawn_moment(draw) for _ in range(5)])
        compared, altered = compared + 10, altered + others
        if wrong:
            print(f'{name} at {wrong[0]}: another graph than that of the map at this moment')
            return 1
    print(f'{compared} graphs at a moment, {altered} of them others than without one')
    return 0


sys.exit(main(*sys.argv[1:]))
