"""Complexes that flips are made on, for the generators of inputs.

Facets are kept per vertex, and a flip is tested by the rules of a bistellar flip, so that these generators share nothing
with the program.
"""
import itertools


class Complex:
    def __init__(self, dim):
        self.dim = dim
        self.star = {}
        self.facets = []
        self.place = {}
        for facet in itertools.combinations(range(1, dim + 3), dim + 1):
            self.add(frozenset(facet))

    def add(self, facet):
        self.place[facet] = len(self.facets)
        self.facets.append(facet)
        for label in facet:
            self.star.setdefault(label, set()).add(facet)

    def remove(self, facet):
        at = self.place.pop(facet)
        last = self.facets.pop()
        if last is not facet and last != facet:
            self.facets[at] = last
            self.place[last] = at
        for label in facet:
            self.star[label].discard(facet)
            if not self.star[label]:
                del self.star[label]

    def over(self, face):
        star = min((self.star.get(label, set()) for label in face), key=len)
        return [facet for facet in star if face <= facet]

    def flip(self, a, b):
        for facet in self.over(a):
            self.remove(facet)
        for label in a:
            self.add((a - {label}) | b)

    def subdivide(self, face, label):
        """The stellar subdivision of a face by a new label."""
        for facet in self.over(face):
            self.remove(facet)
            for gone in face:
                self.add((facet - {gone}) | {label})

    def is_legal(self, a, b):
        if len(a) + len(b) != self.dim + 2 or a & b:
            return False
        over = set(self.over(a))
        return bool(over) and over == {a | (b - {label}) for label in b} and not self.over(b)

    def drawn_flip(self, draw):
        """A legal flip whose A is a drawn face of a drawn facet and no facet itself, or nothing."""
        facet = draw.choice(self.facets)
        a = frozenset(draw.sample(sorted(facet), draw.randint(1, self.dim)))
        b = frozenset().union(*self.over(a)) - a
        return (a, b) if self.is_legal(a, b) else None

    def text(self):
        facets = sorted(sorted(facet) for facet in self.facets)
        return "[" + ",".join("[" + ",".join(map(str, facet)) + "]" for facet in facets) + "]\n"


def flip_text(a, b):
    return " ".join(map(str, sorted(a))) + " | " + " ".join(map(str, sorted(b)))
