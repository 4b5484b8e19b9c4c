#!/usr/bin/env python3
"""In the place of osmium, for .ci/cells: the calls that tools/cells/step makes, on files of OPL whatever their names
say, in memory and slowly. What each call takes is told by bench/cell_model.py and by what stands here; how osmium does
it is tried by bench/cells_promises.py."""
import json
import os
import sys

sys.dont_write_bytecode = True      # the imports below leave no folder beside the scripts
import cell_model                                       # noqa: E402
from cell_model import Map                              # noqa: E402

FIELDS = {'n': 'Txy', 'w': 'TN', 'r': 'TM'}
VALUED = {'-o', '-f', '-F', '-c', '-d', '-i', '-t'}     # options with a word behind them


def read(path):
    with open(path, encoding='utf-8') as lines:
        return Map(lines)


def written(line):
    """A line as osmium writes it without metadata."""
    name, *fields = line.split(' ')
    held = {field[0]: field for field in fields if field}
    return ' '.join([name, *(held.get(letter, letter) for letter in FIELDS[name[0]])]) + '\n'


def put(made, options):
    """The objects into the file that the options name, or to standard output."""
    lines = map(written, made.lines.values())
    if '-o' not in options:
        sys.stdout.writelines(lines)
        return
    with open(options['-o'], 'w', encoding='utf-8') as file:
        file.writelines(lines)


def keys_in(path):
    with open(path, encoding='utf-8') as lines:
        return {cell_model.key_of(line.strip()) for line in lines}


def with_referenced(whole, keys):
    """The keys, and all that they refer to."""
    rules = {key for key in keys if key[0] == 'r'}
    keys = keys | {member for _, rule in rules for member in whole.members.get(rule, ())}
    return keys | {('n', node) for letter, way in keys if letter == 'w' for node in whole.ways.get(way, ())}


def tags_filter(options, path, *_):
    whole = read(path)
    keys = {('w', way) for way in whole.highways}
    if '-R' not in options:
        keys = with_referenced(whole, keys | {('r', rule) for rule in whole.restrictions})
    put(whole.part(keys), options)


def fileinfo(_, path):
    whole = read(path)
    numbers = {kind: [number for letter, number in whole.lines if letter == kind[0]] or [0]
               for kind in ('node', 'way', 'relation')}
    order = [('nwr'.index(letter), number) for letter, number in whole.lines]
    with open(path, encoding='utf-8') as lines:
        twice = len(whole.lines) != sum(1 for _ in lines)
    print('Header:\n  With history: no\nData:')
    print('  Objects ordered (by type and id):', 'yes' if order == sorted(order) else 'no')
    print('  Multiple versions of same object:', 'yes' if twice else 'no')
    for kind, of_kind in numbers.items():
        print(f'  Smallest {kind} ID: {min(of_kind)}\n  Largest {kind} ID: {max(of_kind)}')


def cat(options, path):
    whole, kind = read(path), options.get('-t')
    put(whole if kind is None else whole.part({key for key in whole.lines if key[0] == kind[0]}), options)


def extract(options, path):
    whole = read(path)
    with open(options['-c'], encoding='utf-8') as file:
        extracts = json.load(file)['extracts']
    for one in extracts:
        area = [round(one['bbox'][edge] * 1e7) for edge in ('left', 'bottom', 'right', 'top')]
        put(cell_model.cut(whole, area), {'-o': os.path.join(options['-d'], one['output'])})


def getid(options, path):
    whole, keys = read(path), keys_in(options['-i'])
    found = with_referenced(whole, keys)
    put(whole.part(found), options)
    sys.exit(not all(map(whole.has, found)))


def getparents(options, path):
    whole, keys = read(path), keys_in(options['-i'])
    parents = {('w', way) for way, nodes in whole.ways.items() if any(('n', node) in keys for node in nodes)}
    parents |= {('r', rule) for rule, members in whole.members.items() if not keys.isdisjoint(members)}
    put(whole.part(parents | keys), options)


def main(command, *words):
    options, names, words = {}, [], list(words)
    while words:
        word = words.pop(0)
        if word.startswith('-'):
            valued = word in VALUED or (command, word) == ('extract', '-s')
            options[word] = words.pop(0) if valued else None
        else:
            names.append(word)
    commands = {'tags-filter': tags_filter, 'fileinfo': fileinfo, 'cat': cat, 'extract': extract, 'getid': getid,
                'getparents': getparents}
    commands[command](options, *names)


if __name__ == '__main__':
    main(*sys.argv[1:])
