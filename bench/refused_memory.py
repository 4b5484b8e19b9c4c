#!/usr/bin/env python3
"""Refuses each allocation of a run in turn, and looks at how the run ends and at what it leaves. Use:
refused_memory.py PROGRAM SHIM FOLDER TOWN.opl VILLAGE.opl; bench/refused_memory.sh builds SHIM and calls it.

A run ends as it does where nothing is refused, with all its output; or with status 10, or with 3 where a write found no
memory, and with the replies until then. Then the store loads, keeps no number below the last one that was told and at
most the next one, and its graph is the one that `- compile` makes of the objects which these changes leave; behind a
`raise` that wasn't told it may be the one that `- compile 2` makes of them, and behind one that was it has to be.
"""
import os
import re
import shutil
import subprocess
import sys
import tempfile
from collections import Counter

program, shim, folder, *extracts = sys.argv[1:]
store, kept_store = os.path.join(folder, 'store'), os.path.join(folder, 'kept')
counted = os.path.join(folder, 'count')
BASE = 7


def run(words, given=b'', **refusals):
    """The status and the output; a signal is a status below 0."""
    environment = dict(os.environ, LD_PRELOAD=shim, REFUSE_COUNT=counted, **refusals) if refusals else None
    # a pipe would give the input in other parts each time, and the run would ask for memory another number of times
    with tempfile.TemporaryFile() as source:
        source.write(given)
        source.seek(0)
        done = subprocess.run([program, *words], stdin=source, stdout=subprocess.PIPE, stderr=subprocess.PIPE,
                              env=environment, check=False)
    return done.returncode, done.stdout


def calls():
    """How many allocations the last run asked for, if it came to its end."""
    with open(counted, encoding='ascii') as it:
        return int(it.read())


def objects_of(texts):
    """Of each object the first line of the greatest version, as an extract."""
    lines = {}
    for text in texts:
        for line in text.splitlines():
            if line.strip() and not line.startswith('#'):
                name, version = line.split()[:2]
                if name not in lines or int(version[1:]) > lines[name][0]:
                    lines[name] = (int(version[1:]), line)
    return ''.join(f'{line}\n' for _, line in lines.values()).encode()


def put_back(name):
    """The store's files, as they were kept under this name; none without one."""
    for end in '.a', '.b':
        if os.path.exists(store + end):
            os.remove(store + end)
        if name and os.path.exists(f'{name}{end}'):
            shutil.copyfile(f'{name}{end}', store + end)


def boundaries(output):
    """Where in the output of a session replies end."""
    ends, at = {0}, 0
    while at < len(output):
        end = output.index(b'\n', at) + 1
        head = re.fullmatch(rb'graph (\d+)\n', output[at:end])
        at = end + (int(head.group(1)) if head else 0)
        ends.add(at)
    return ends


class Case:
    """A command with its input, the store on which it begins, and the graph of each number that may then be kept; and
    of `raise` the graph under profile 2."""

    def __init__(self, name, words, given=b'', on=None, graphs=None, raised=None):
        self.name, self.words, self.given, self.on, self.graphs = name, words, given, on, graphs or {}
        self.raised = raised

    def fails(self, number, how, what):
        sys.exit(f'FAILED: {self.name}, allocation {number} refused {how}: {what}')

    def told(self, output):
        """The last number that the output says to be kept; the one with which the store began where it says none."""
        found = re.findall(rb'^(?:applied|created|checkpoint|profile 2 sequence) (\d+)\n', output, re.M)
        return int(found[-1]) if found else BASE if self.on else None

    def look(self, number, how, output):
        """How much more is kept than was told."""
        told, (status, said) = self.told(output), run([store, 'apply', '0'])
        if said == b'no store\n' and told is None and status == 6:
            return 0
        found = re.fullmatch(rb'sequence 0 kept (\d+)\n', said)
        if status != 5 or not found:
            self.fails(number, how, f'the store says {said} with status {status}')
        kept = int(found.group(1))
        if kept not in (BASE,) if told is None else not told <= kept <= told + 1:
            self.fails(number, how, f'{told} was told, and {kept} is kept')
        graphs = [] if self.raised and output.startswith(b'profile') else [self.graphs.get(kept)]
        if run([store, 'graph']) not in [(0, graph) for graph in graphs + [self.raised] if graph]:
            self.fails(number, how, f'the graph behind {kept} is another one')
        return kept - (BASE - 1 if told is None else told)

    def ends(self, number, how, usual, got):
        """What the end of the run is called, if it is one that may be."""
        (status, output), (usual_status, usual_output) = got, usual
        if got == usual:
            return 'as without'
        fronts = boundaries(usual_output) if self.words[-1] == 'session' else {0}
        if status == 10 and usual_output.startswith(output) and len(output) in fronts:
            return 'status 10'
        if status == 3 and usual_output.startswith(output):
            return 'status 3'
        self.fails(number, how, f'status {status} for {usual_status}, with {len(output)} bytes: {output[-80:]}')
        return None

    def tries(self):
        put_back(self.on)
        usual = run(self.words, self.given, REFUSE_AT='0')
        count, ends, more = calls(), Counter(), 0
        if usual[0] != 0 or self.on and self.look(0, 'never', usual[1]):
            self.fails(0, 'never', usual)
        for how in 'once', 'for good':
            for number in range(1, count + 1):
                put_back(self.on)
                for_good = {'REFUSE_ON': '1'} if how == 'for good' else {}
                got = run(self.words, self.given, REFUSE_AT=str(number), **for_good)
                if got[0] >= 0 and calls() < number:
                    self.fails(number, how, f'the run asked for {calls()} only')
                ends[how, self.ends(number, how, usual, got)] += 1
                if self.words[0] == store:
                    more += self.look(number, how, got[1])
        print(f'  {self.name}: {count} allocations, each refused once and for good', flush=True)
        for how in 'once', 'for good':
            print(f'    {how}: ' + ', '.join(f'{n} {end}' for (at, end), n in sorted(ends.items()) if at == how))
        if more:
            print(f'    {more} times one change more was kept than was told')
        return 2 * count


def frames_of(texts, first):
    return ''.join(f'#seq {n}\n{text}#end\n' for n, text in enumerate(texts, first))


def hostile(extract):
    """The node that most ways name is deleted; every way comes anew; and one node is moved a hundred times."""
    ways = [line.split() for line in extract.splitlines() if line.startswith('w')]
    named = Counter(node for way in ways for node in set(way[-1][1:].split(',')))
    hub = max(named, key=lambda node: (named[node], node))
    return [
        f'{hub} v99 dD\n',
        ''.join(f'{way[0]} v150 Thighway=service {way[-1]}\n' for way in ways),
        ''.join(f'n37 v{version} x8.0001 y50.{version:07}\n' for version in range(100, 200)),
    ]


def main():
    extract = ''
    for path in extracts:
        with open(path, encoding='utf-8') as it:
            extract += it.read()
    # a node of the village moves, and one gets a bollard; a way of the town is cut, another deleted, and a new one
    # leads from one to the other; a restriction goes, and one over a via way comes, behind a line that is read in two
    # parts
    changes = [
        'n103 v3 x8.502 y50.1001\n'
        'n37 v99 Tbarrier=bollard,bicycle=yes x8.0001 y50.0002\n',
        'w5 v99 Thighway=residential Nn9,n45,n10\n'
        'w1 v99 dD\n'
        'w205 v1 Thighway=residential,name=Querstra%df%e Nn105,n109,n9\n'
        'n109 v1 x8.504 y50.1\n',
        f'#{" a long comment" * 5000}\n'
        'r303 v2 dD\n'
        'r304 v1 Ttype=restriction,restriction=only_straight_on Mw201@from,w203@via,w205@to\n',
        *hostile(extract),
    ]
    graphs = {}
    for behind in range(len(changes) + 1):
        status, graphs[BASE + behind] = run(['-', 'compile'], objects_of([extract, *changes[:behind]]))
        if status:
            sys.exit(f'FAILED: no graph: status {status}')
    if len(set(graphs.values())) != len(graphs):
        sys.exit('FAILED: two of the histories have one graph')
    queries = ('state\ndrive w201.0+ w201.1+ w202.0+\ndrive w201.0+ w201.1+ w203.0+ w203.0-\nreach 101 104\n'
               'reach 101 9\nreach 101 109\nreach 101\n')
    asks = [f'ask {reader} {question}\n' for reader in (1, 2, 3) for question in queries.splitlines()[:4]]
    session = (queries + 'pin 1\n' + frames_of(changes[:1], 8) + queries + frames_of(changes[:1], 8) + 'pin 2\n'
               + '#seq 9\nn1 v9 x8\nn2 x5\nw3 v1 dX\n#end\n' + frames_of(changes[1:2], 9) + queries + 'graph\n'
               + ''.join(asks) + 'ask 1 graph\nrelease 1\npin 3\n#seq 12\nn1 v9\n#end\n' + frames_of(changes[2:], 10)
               + queries + ''.join(asks) + '\xff\n\n' + 'graph\n').encode()

    if run([kept_store, 'create', str(BASE)], extract.encode())[0]:
        sys.exit('FAILED: no store')
    graph = {BASE: graphs[BASE]}
    refused = sum(case.tries() for case in [
        Case('session', [store, 'session'], session, kept_store, graphs),
        Case('create', [store, 'create', str(BASE)], extract.encode(), None, graph),
        Case('apply', [store, 'apply', str(BASE + 1)], changes[0].encode(), kept_store, graphs),
        Case('checkpoint', [store, 'checkpoint'], b'', kept_store, graph),
        Case('raise', [store, 'raise'], b'', kept_store, graph, run(['-', 'compile', '2'], extract.encode())[1]),
        Case('graph', [store, 'graph'], b'', kept_store, graph),
        Case('audit', [store, 'audit'], b'', kept_store, graph),
        Case('compile', ['-', 'compile'], extract.encode()),
        Case('compile 2', ['-', 'compile', '2'], extract.encode()),
        Case('inspect', ['-', 'inspect'], graphs[BASE]),
    ])
    print(f'{refused} allocations refused: each run ended as it may, and each store stands')


main()
