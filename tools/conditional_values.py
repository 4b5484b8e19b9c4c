#!/usr/bin/env python3
"""Counts how many values of conditional access keys of ways a map has, and how many of them are read.

    conditional_values.py FILE.opl ..

The keys are those that may decide on access to a way, with `:conditional` behind them, as
`motor_vehicle:forward:conditional`. What is read stands in docs/PROFILE.md; this script goes by that page alone. For
each file it prints how many values are read and how many aren't, and then each value that isn't, with its count.
"""
import re
import sys
from collections import Counter

KEYS = {f'{name}{side}:conditional'
        for name in ('motorcar', 'motor_vehicle', 'vehicle', 'access') for side in ('', ':forward', ':backward')}

DAY = '(?:Mo|Tu|We|Th|Fr|Sa|Su)'
DAYS = f'{DAY}(?:-{DAY})?(?:,{DAY}(?:-{DAY})?)*'
FROM = '(?:[01][0-9]|2[0-3]):[0-5][0-9]'
UNTIL = f'(?:{FROM}|24:00)'
TIMES = f'{FROM}-{UNTIL}(?:,{FROM}-{UNTIL})*'
CONDITION = f'(?:{DAYS}|{TIMES}|{DAYS} {TIMES})'
PART = re.compile(rf' *[^ @;]+ *@ *(?:{CONDITION}|\({CONDITION}\)) *')
SAME = re.compile('([0-9]{2}:[0-9]{2})-\\1')

ESCAPE = re.compile('%([0-9a-fA-F]{1,6})%')


def is_read(value):
    return all(PART.fullmatch(part) and not SAME.search(part.split('@')[1]) for part in value.split(';'))


def text(escaped):
    return ESCAPE.sub(lambda code: chr(int(code[1], 16)), escaped)


def conditional_values(lines):
    """The values of the keys, of the ways among the lines."""
    for line in lines:
        if line.startswith('w'):
            for field in re.split('[ \t]', line.rstrip('\r\n')):
                if field.startswith('T'):
                    for tag in field[1:].split(','):
                        key, _, value = tag.partition('=')
                        if text(key) in KEYS:
                            yield text(value)


def main(names):
    if not names or names[0].startswith('-'):
        sys.exit(__doc__)
    for name in names:
        with open(name, encoding='utf-8', newline='\n') as lines:
            values = list(conditional_values(lines))
        unread = Counter(value for value in values if not is_read(value))
        print(f'{name}: read {len(values) - unread.total()}, unread {unread.total()}')
        for value, count in unread.most_common():
            print(f'  {count} {value}')


main(sys.argv[1:])
