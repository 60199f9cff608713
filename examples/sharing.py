"""Which transactions share objects, and how they are shared out among parts that share none."""

import heapq

from writing import steps_in


class Groups:
    """Sets of numbers that grow together (union by the least number, with path halving)."""

    def __init__(self, count):
        self.above = list(range(count))

    def find(self, one):
        while self.above[one] != one:
            self.above[one] = one = self.above[self.above[one]]
        return one

    def join(self, one, other):
        one, other = sorted((self.find(one), self.find(other)))
        self.above[other] = one
        return one


def shared_out(document, most):
    """The part of each object and of each transaction. What touches nothing is in the first part."""
    places = {one["name"]: place for place, one in enumerate(document["objects"])}
    touched = [[places[step["op"][0]] for step in steps_in(block) if "op" in step] for block in document["transactions"]]
    groups, weights = Groups(len(places)), {}
    for first, *others in filter(None, touched):
        for other in others:
            groups.join(first, other)
    for calls in filter(None, touched):
        root = groups.find(calls[0])
        weights[root] = weights.get(root, 0) + len(calls)
    # The group with the most operations first, each to the part that has the fewest so far.
    loads = [(0, part) for part in range(min(most, len(weights)) or 1)]
    parts = {}
    for root in sorted(weights, key=lambda root: (-weights[root], root)):
        load, parts[root] = loads[0]
        heapq.heapreplace(loads, (load + weights[root], parts[root]))
    return ([parts.get(groups.find(place), 0) for place in range(len(places))],
            [parts[groups.find(calls[0])] if calls else 0 for calls in touched])
