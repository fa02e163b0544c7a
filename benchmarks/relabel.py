"""Writes a complex, and behind it a copy with drawn labels, or one that is a flip away from such a copy.

usage: relabel.py INPUT SEED copy|near > input

A copy has the numbers of `INPUT`, and so has a complex that is one flip away from it where the flip leaves as many facets.
"""
import itertools
import json
import random
import sys

from complexes import Complex


def main():
    path, seed, kind = sys.argv[1:]
    draw = random.Random(int(seed))
    with open(path) as text:
        facets = json.load(text)
    labels = sorted(set(itertools.chain.from_iterable(facets)))
    others = draw.sample(range(1, 60001), len(labels))
    names = dict(zip(labels, others))
    copy = Complex(len(facets[0]) - 1)
    for facet in list(copy.facets):
        copy.remove(facet)
    for facet in facets:
        copy.add(frozenset(names[label] for label in facet))
    if kind == "near":
        flips = (copy.drawn_flip(draw) for _ in range(100000))
        # One that leaves as many facets where there is one, else any that brings no label in.
        found = next((flip for flip in flips if flip and len(flip[1]) > 1), None)
        if found is None:
            sys.exit("no flip was found")
        copy.flip(*found)
    sys.stdout.write(json.dumps(facets, separators=(",", ":")) + "\n" + copy.text())


main()
