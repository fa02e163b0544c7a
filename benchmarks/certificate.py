"""Makes a sphere with many facets, and a certificate of many flips that leads it back to a simplex boundary.

usage: certificate.py DIM FACETS FLIPS SEED > input

First a simplex boundary is grown to FACETS facets, then random flips are made, and then all of it is taken back.
"""
import random
import sys

from complexes import Complex, flip_text


def main():
    dim, facets, flips, seed = map(int, sys.argv[1:])
    draw = random.Random(seed)
    complex = Complex(dim)
    free = list(range(60000, dim + 2, -1))

    def subdivide():
        a, b = draw.choice(complex.facets), frozenset([free.pop()])
        complex.flip(a, b)
        return a, b

    def wander():
        flip = complex.drawn_flip(draw)
        if flip:
            complex.flip(*flip)
            if len(flip[0]) == 1:
                free.extend(flip[0])
        return flip

    made = []
    while len(complex.facets) < facets:
        made.append(subdivide())
    start = complex.text()
    wandered = []
    while 2 * len(wandered) + len(made) < flips:
        flip = subdivide() if len(complex.facets) < facets else wander()
        if flip:
            wandered.append(flip)
    lines = wandered + [(b, a) for a, b in reversed(made + wandered)]
    write = sys.stdout.write
    write(f"{start}bistellar 1 sphere\nflips {len(lines)}\n")
    for a, b in lines:
        write(flip_text(a, b) + "\n")


main()
