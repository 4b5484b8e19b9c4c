"""The nodes of a town that gen_town.py wrote, and the places between which a session is asked for drives."""
import math
import re


def nodes_of(path):
    """The nodes with their places."""
    found = {}
    with open(path, encoding='utf-8') as lines:
        for line in lines:
            if line[0] != 'n':
                break
            number = int(line[1:line.index(' ')])
            x, y = re.search(r' x(\S+) y(\S+)', line).groups()
            found[number] = (float(x), float(y))
    return found


def ends_of_ways(path):
    ends = []
    with open(path, encoding='utf-8') as lines:
        for line in lines:
            if line[0] == 'w' and 'highway=' in line:
                refs = re.findall(r'n(\d+)', line.rsplit(' N', 1)[1])
                ends += [int(refs[0]), int(refs[-1])]
    return sorted(set(ends))


class Town:
    """The ends of a town's ways, and draws of pairs of them."""

    def __init__(self, path, draws):
        self.draws, self.places = draws, nodes_of(path)
        self.ends = [node for node in ends_of_ways(path) if node in self.places]
        west, east = (pick(place[0] for place in self.places.values()) for pick in (min, max))
        south, north = (pick(place[1] for place in self.places.values()) for pick in (min, max))
        self.low = self.corner(west, south, (east - west) / 10)
        self.high = self.corner(east, north, (east - west) / 10)

    def corner(self, lon, lat, far):
        """The ends that are near to a corner of the town."""
        return [node for node in self.ends
                if abs(self.places[node][0] - lon) < far and abs(self.places[node][1] - lat) < far]

    def across(self):
        return self.draws.choice(self.low), self.draws.choice(self.high)

    def nearby(self):
        """A node, and the nearest of some others that are drawn."""
        node = self.draws.choice(self.ends)
        others = (self.draws.choice(self.ends) for _ in range(4000))
        return node, min(others, key=lambda other: math.dist(self.places[other], self.places[node]))
