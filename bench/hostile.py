#!/usr/bin/env python3
"""Writes one extract that asks much of a compiler for its size, as OPL.

Use: hostile.py CASE > OUT.opl

CASE is one of
  twice       a way of 65,535 references that passes each of its nodes but the last twice
  star        a node with 1,000 ways
  comb        a way of 65,535 references, and a way of a lower number that leads off at each of its nodes
  ends        1,000 rules from a way of 65,535 references to the 1,000 ways at its end
  vias        a rule over 16 via ways of 64 steps each, all nodes junctions
  prefix      500 rules that share a prefix of 16 via ways
  shared      10,000 rules from one-way streets, each over a street of its own and then over one way that all share
  onward      10,000 rules from one way, each over a one-way street of its own
  onward_twice       20,000 of them
  rules       a million restrictions from one way to another
  members     a restriction of 65,535 members
  turns       16 from and 16 to members at one node
  turns_at_one_node  1,000 such restrictions at that node
  turns_apart        1,000 such restrictions, each at a node of its own
  via_members        a restriction over 16,000 via ways, each another, that lead on
  from_members       a restriction of 16,000 from members, each another way, the last of which leads to the via node
  other_members      a restriction with 20,000 members of another role, each another way
  long_except        a restriction with an `except` of a megabyte and 2,000 members of another role
  same_ways          100 restrictions over the same 3,000 via ways
  long_way           400 restrictions that name a way of 65,535 references 16 times as from and 16 times as to
"""
import sys

write = sys.stdout.write


def node(n):
    write('n%d v1 x%d.%07d y1\n' % (n, n // 10**7, n % 10**7))


def nodes(first, last):
    for n in range(first, last + 1):
        node(n)


def way(number, refs):
    write('w%d v1 Thighway=residential N%s\n' % (number, ','.join('n%d' % r for r in refs)))


def rule(number, value, members):
    write('r%d v1 Ttype=restriction,restriction=%s M%s\n' % (number, value, ','.join(members)))


def ways(numbers, role):
    return ['w%d@%s' % (n, role) for n in numbers]


# the ways numbers[0], numbers[1], .. along the nodes first, first + 1, ..
def street(numbers, first):
    for i, n in enumerate(numbers):
        way(n, [first + i, first + i + 1])


# as many ways as there are numbers, none of which touches another; the first node of each is first, first + 2, ..
def streets_apart(numbers, first):
    nodes(first, first + 2 * len(numbers) - 1)
    for i, n in enumerate(numbers):
        way(n, [first + 2 * i, first + 2 * i + 1])


def twice():
    half = 65535 // 2
    nodes(1, half + 1)
    way(1, list(range(1, half + 1)) + list(range(1, half + 1)) + [half + 1])


def star():
    nodes(1, 1001)
    for i in range(1000):
        way(i + 1, [1, i + 2])


def comb():
    nodes(1, 2 * 65535)
    for n in range(1, 65536):
        way(n, [n, 65535 + n])
    way(10**6, range(1, 65536))


def ends():
    nodes(1, 65535 + 1000)
    for i in range(1000):
        way(1 + i, [65535, 65536 + i])
    way(10**6, range(1, 65536))
    for i in range(1000):
        rule(1 + i, 'no_left_turn', ['w1000000@from', 'n65535@via', 'w%d@to' % (1 + i)])


# from node 1 by way 1 to node 2, then 16 ways of 64 steps each, and ways that lead off at the end; each node of these
# is a junction
def chain(offs):
    nodes(1, 3 + 16 * 64 + offs)
    end = 2 + 16 * 64
    way(1, [1, 2])
    for v in range(16):
        way(2 + v, range(2 + 64 * v, 2 + 64 * (v + 1) + 1))
    for i in range(offs):
        way(100 + i, [end, end + 1 + i])
    # side streets that make each node a junction
    first = 10**6
    for n in range(2, end + 1):
        node(first + n)
        way(10000 + n, [n, first + n])


def vias():
    chain(1)
    rule(1, 'no_u_turn', ['w1@from'] + ['w%d@via' % (2 + v) for v in range(16)] + ['w100@to'])


def prefix():
    chain(500)
    for i in range(500):
        rule(1 + i, 'no_u_turn', ['w1@from'] + ['w%d@via' % (2 + v) for v in range(16)] + ['w%d@to' % (100 + i)])


def shared():
    nodes(1, 3 + 2 * 10**4)
    way(1, [1, 2])
    way(2, [2, 3])
    for i in range(10**4):
        first, second = 4 + 2 * i, 5 + 2 * i
        for number, refs in ((first, [first, second]), (second, [second, 1])):
            write('w%d v1 Thighway=residential,oneway=yes N%s\n' % (number, ','.join('n%d' % r for r in refs)))
        rule(1 + i, 'no_u_turn', ['w%d@from' % first, 'w%d@via' % second, 'w1@via', 'w2@to'])


def onward(count=10**4):
    nodes(1, 2 + 2 * count)
    way(1, [1, 2])
    for i in range(count):
        first, second = 3 + 2 * i, 4 + 2 * i
        for number, refs in ((first, [2, first]), (second, [first, second])):
            write('w%d v1 Thighway=residential,oneway=yes N%s\n' % (number, ','.join('n%d' % r for r in refs)))
        rule(1 + i, 'no_u_turn', ['w1@from', 'w%d@via' % first, 'w%d@to' % second])


def onward_twice():
    onward(2 * 10**4)


def rules():
    nodes(1, 3)
    way(1, [1, 2])
    way(2, [2, 3])
    for i in range(10**6):
        rule(1 + i, 'no_left_turn', ['w1@from', 'n2@via', 'w2@to'])


def members():
    nodes(1, 3)
    way(1, [1, 2])
    way(2, [2, 3])
    rule(1, 'no_entry', ['w1@from'] * 65533 + ['n2@via', 'w2@to'])


# 16 ways to the node and 16 from it, with numbers and nodes from `first` on; the members that name them
def crossing(at, first):
    nodes(first, first + 31)
    for i in range(16):
        way(first + i, [first + i, at])
        way(first + 16 + i, [at, first + 16 + i])
    return ways(range(first, first + 16), 'from') + ['n%d@via' % at] + ways(range(first + 16, first + 32), 'to')


def turns(count=1):
    node(1)
    members = crossing(1, 101)
    for i in range(count):
        rule(1 + i, 'no_exit', members)


def turns_at_one_node():
    turns(10**3)


def turns_apart():
    for i in range(10**3):
        at = 1 + 100 * i
        node(at)
        rule(1 + i, 'no_exit', crossing(at, at + 1))


# a way to node 3, a street of ways from there on, and a way behind it; restrictions over the whole street
def over_street(length, count):
    nodes(1, 4 + length)
    way(1, [1, 3])
    street(range(10, 10 + length), 3)
    way(2, [3 + length, 4 + length])
    for i in range(count):
        rule(1 + i, 'no_u_turn', ['w1@from'] + ways(range(10, 10 + length), 'via') + ['w2@to'])


def via_members():
    over_street(16 * 10**3, 1)


def same_ways():
    over_street(3 * 10**3, 100)


# a turn from way 1 to way 2, with further members
def turn_with(more, tags=''):
    nodes(1, 3)
    way(1, [1, 2])
    way(2, [2, 3])
    write('r1 v1 Ttype=restriction,restriction=no_left_turn%s M%s\n'
          % (tags, ','.join(more + ['w1@from', 'n2@via', 'w2@to'])))


def from_members():
    numbers = range(10, 10 + 16 * 10**3)
    streets_apart(numbers, 10)
    turn_with(ways(numbers, 'from'))


def other_members():
    numbers = range(10, 10 + 20 * 10**3)
    streets_apart(numbers, 10)
    turn_with(ways(numbers, 'location_hint'))


def long_except():
    numbers = range(10, 10 + 2 * 10**3)
    streets_apart(numbers, 10)
    turn_with(ways(numbers, 'location_hint'), ',except=' + 'bus;' * 2**18)


def long_way():
    nodes(1, 65536)
    way(1, range(1, 65536))
    way(2, [65535, 65536])
    for i in range(400):
        rule(1 + i, 'no_exit', ['w1@from'] * 16 + ['n65535@via'] + ['w1@to'] * 16)


cases = {f.__name__: f for f in (
    twice, star, comb, ends, vias, prefix, shared, onward, onward_twice, rules, members, turns, turns_at_one_node,
    turns_apart, via_members, from_members, other_members, long_except, same_ways, long_way)}
if len(sys.argv) != 2 or sys.argv[1] not in cases:
    sys.exit(__doc__)
cases[sys.argv[1]]()
