#!/usr/bin/env python3
"""Writes a map as it is at a moment: of each way each access key `KEY:conditional` (docs/PROFILE.md) is read, and where
a part of its value applies then, KEY gets the value of the last such part. So `osmroad - compile` of what is written
gives the graph that `osmroad NAME graph MOMENT` gives of what is read. It is a second reading of conditional values,
with nothing of the program in it, to compare with.

Use: at_moment.py MOMENT < MAP.opl > THEN.opl, with a moment such as 2024-05-06T23:00. With --count in the place of the
moment it puts how many such values there are and how many of them can be read.
"""
import datetime
import re
import sys

KEYS = [f'{vehicle}{side}' for vehicle in ('motorcar', 'motor_vehicle', 'vehicle', 'access')
        for side in (':forward', ':backward', '')]
DAYS = ['Mo', 'Tu', 'We', 'Th', 'Fr', 'Sa', 'Su']
DAY, TIME = '(?:Mo|Tu|We|Th|Fr|Sa|Su)', '[0-9]{2}:[0-9]{2}'
LIST_OF_DAYS, LIST_OF_TIMES = (f'{one}(?:,{one})*' for one in (f'{DAY}(?:-{DAY})?', f'{TIME}-{TIME}'))
CONDITION = f'(?:{LIST_OF_DAYS}|{LIST_OF_TIMES}|{LIST_OF_DAYS} {LIST_OF_TIMES})'
PART = re.compile(fr'([^ @;]+) *@ *(?:\(({CONDITION})\)|({CONDITION}))')


class Unread(Exception):
    """A value isn't in form."""


def minutes(text, most):
    hours, minute = int(text[:2]), int(text[3:])
    if minute > 59 or 60 * hours + minute > most:
        raise Unread
    return 60 * hours + minute


def days_of(text):
    """The days that a list of days means."""
    found = set()
    for one in text.split(','):
        first, last = DAYS.index(one[:2]), DAYS.index(one[-2:])
        found |= {day % 7 for day in range(first, last + 1 if first <= last else last + 8)}
    return found


def times_of(text):
    ranges = []
    for one in text.split(','):
        begin, end = one.split('-')
        ranges.append((minutes(begin, 1439), minutes(end, 1440)))
        if ranges[-1][0] == ranges[-1][1]:
            raise Unread
    return ranges


def applies(condition, day, minute):
    words = condition.split(' ')
    days = days_of(words[0]) if words[0][:2] in DAYS else set(range(7))
    if ':' not in words[-1]:
        return day in days
    return any(day in days and begin <= minute < end if begin < end else
               day in days and begin <= minute or (day - 1) % 7 in days and minute < end
               for begin, end in times_of(words[-1]))


def value_at(value, day, minute):
    """The value of the last part that applies; None where none does."""
    last = None
    for part in value.split(';'):
        form = PART.fullmatch(part.strip(' '))
        if not form:
            raise Unread
        last = form[1] if applies(form[2] or form[3], day, minute) else last
    return last


def parse_moment(text):
    """The day of a moment, Monday 0, and its minute."""
    if not re.fullmatch('[0-9]{4}-[0-9]{2}-[0-9]{2}T[0-9]{2}:[0-9]{2}', text):
        raise ValueError(text)
    # the calendar comes again after 400 years, and datetime knows no year 0
    date = datetime.date(int(text[:4]) or 400, int(text[5:7]), int(text[8:10]))
    minute = minutes(text[11:], 1439)
    return date.weekday(), minute


# ---------------------------------------------------------------------------------------------------------------- lines


def unescaped(text):
    return re.sub('%([0-9a-fA-F]{1,6})%', lambda found: chr(int(found[1], 16)), text)


def tags_then(field, day, minute, counts):
    """A field of tags, with what its conditional keys say at the moment."""
    tags = dict(reversed([tuple(tag.split('=')) for tag in field.split(',') if tag]))   # of keys the first one counts
    known = {unescaped(key): value for key, value in reversed(tags.items())}
    for key in KEYS:
        if f'{key}:conditional' in known:
            counts[0] += 1
            try:
                value = value_at(unescaped(known[f'{key}:conditional']), day, minute)
                counts[1] += 1
            except Unread:
                value = None
            if value is not None:
                known[key] = ''.join(f'%{ord(letter):x}%' for letter in value)
    return ','.join(f'{key.replace("%", "%25%").replace(",", "%2c%").replace("=", "%3d%").replace(" ", "%20%")}={value}'
                    for key, value in known.items())


def main(word):
    day, minute = (0, 0) if word == '--count' else parse_moment(word)
    counts = [0, 0]
    for line in sys.stdin:
        if line.startswith('w') and ':conditional' in line:
            line = re.sub('(?<= T)[^ \n]+', lambda found: tags_then(found[0], day, minute, counts), line)
        if word != '--count':
            sys.stdout.write(line)
    if word == '--count':
        print(f'{counts[0]} conditional values of access keys, {counts[1]} of them read')


if __name__ == '__main__':
    main(sys.argv[1])
