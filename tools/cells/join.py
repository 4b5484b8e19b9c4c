#!/usr/bin/env python3
"""Joins graph files whose ways ascend over all of them: the count of all blocks, and the blocks behind one another.

join.py OUT GRAPH..
"""
import shutil
import struct
import sys

HEAD = struct.Struct('<8sIQ')       # magic, profile, count


def main(out, *names):
    heads = []
    for name in names:
        with open(name, 'rb') as graph:
            heads.append(HEAD.unpack(graph.read(HEAD.size)))
    (kind,) = {head[:2] for head in heads}
    with open(out, 'wb') as joined:
        joined.write(HEAD.pack(*kind, sum(count for _, _, count in heads)))
        for name in names:
            with open(name, 'rb') as graph:
                graph.seek(HEAD.size)
                shutil.copyfileobj(graph, joined, 1 << 20)


if __name__ == '__main__':
    main(*sys.argv[1:])
