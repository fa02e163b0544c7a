"""Makes a complex with many facets.

usage: spheres.py KIND DIM FACETS SEED > input

stacked      a sphere: the boundary of a simplex, grown by stellar subdivisions of drawn facets
subdivided   a sphere: the same, grown by stellar subdivisions of drawn faces of drawn sizes
cyclic       a sphere of dimension 3: the boundary of a cyclic polytope, in which any two vertices are joined by an edge
product      a product of DIM polygons of about equal length, each cell of it cut into DIM! simplices
two-spheres  a product of two stacked spheres of about equally many facets, the dimensions of which differ by one at most
torus-sphere a product of the torus on seven labels with a stacked sphere. DIM is 3 or more
join         a sphere: the join of (DIM + 1) / 2 polygons of about equal length, with two points more where DIM is even. Each edge of a
             polygon lies in many facets, so no flip leaves fewer of them, and a descent stops at once
drawn        drawn facets
"""
import itertools
import math
import random
import sys

from complexes import Complex

LABELS = 4096


def stacked_sphere(dim, facets, draw):
    complex = Complex(dim)
    label = dim + 2
    while len(complex.facets) < facets:
        label += 1
        complex.flip(draw.choice(complex.facets), frozenset([label]))
    return complex


def stacked(dim, facets, draw):
    return stacked_sphere(dim, facets, draw).text()


def subdivided(dim, facets, draw):
    complex = Complex(dim)
    label = dim + 2
    while len(complex.facets) < facets:
        label += 1
        facet = draw.choice(complex.facets)
        complex.subdivide(frozenset(draw.sample(sorted(facet), draw.randint(2, dim + 1))), label)
    return complex.text()


def text(facets):
    return "[" + ",".join("[" + ",".join(map(str, facet)) + "]" for facet in sorted(facets)) + "]\n"


def product(dim, facets, draw):
    cells = facets
    for factor in range(2, dim + 1):
        cells //= factor
    side = max(3, round(cells ** (1 / dim)))
    sides = [side] * (dim - 1) + [max(3, round(cells / side ** (dim - 1)))]

    def label(point):
        number = 0
        for at, length in zip(point, sides):
            number = number * length + at % length
        return number + 1

    made = set()
    for corner in itertools.product(*map(range, sides)):
        for order in itertools.permutations(range(dim)):
            point, path = list(corner), [label(corner)]
            for axis in order:
                point[axis] += 1
                path.append(label(point))
            made.add(tuple(sorted(path)))
    return text(made)


def product_of(first, second):
    """The product of two complexes, each cell of it cut along the paths that rise in one of the two at a time."""
    width = max(map(max, second))
    made = set()
    for one, other in itertools.product(map(sorted, first), map(sorted, second)):
        steps = len(one) + len(other) - 2
        for rises in itertools.combinations(range(steps), len(one) - 1):
            at, beside, path = 0, 0, [(0, 0)]
            for step in range(steps):
                at, beside = (at + 1, beside) if step in rises else (at, beside + 1)
                path.append((at, beside))
            made.add(tuple((one[at] - 1) * width + other[beside] for at, beside in path))
    return text(made)


def two_spheres(dim, facets, draw):
    low, high = dim // 2, dim - dim // 2
    each = math.isqrt(facets // math.comb(dim, low))
    # A subdivision of a facet adds as many facets as the dimension.
    return product_of(stacked_sphere(low, each - low + 1, draw).facets, stacked_sphere(high, each - high + 1, draw).facets)


def torus_sphere(dim, facets, draw):
    torus = [[(at + step) % 7 + 1 for step in steps] for at in range(7) for steps in ((0, 1, 3), (0, 2, 3))]
    each = facets // (14 * math.comb(dim, 2))
    return product_of(torus, stacked_sphere(dim - 2, each - (dim - 2) + 1, draw).facets)


def cyclic(dim, facets, draw):
    vertices = 5
    while vertices * (vertices - 3) // 2 < facets:
        vertices += 1
    pairs = [(at, at % vertices + 1) for at in range(1, vertices + 1)]
    made = {tuple(sorted({*one, *other})) for one, other in itertools.combinations(pairs, 2)}
    return text({facet for facet in made if len(facet) == 4})


def join(dim, facets, draw):
    parts, label = [], 0
    if dim % 2 == 0:
        parts.append([(1,), (2,)])
        label, facets = 2, facets // 2
    polygons = (dim + 1) // 2
    side = max(4, round(facets ** (1 / polygons)))
    for _ in range(polygons):
        parts.append([(label + at + 1, label + (at + 1) % side + 1) for at in range(side)])
        label += side
    return text({tuple(sorted(sum(facet, ()))) for facet in itertools.product(*parts)})


def drawn(dim, facets, draw):
    made = set()
    while len(made) < facets:
        made.add(tuple(sorted(draw.sample(range(1, LABELS + 1), dim + 1))))
    return text(made)


def main():
    kind, dim, facets, seed = sys.argv[1], *map(int, sys.argv[2:])
    makers = {
        "stacked": stacked,
        "subdivided": subdivided,
        "cyclic": cyclic,
        "product": product,
        "two-spheres": two_spheres,
        "torus-sphere": torus_sphere,
        "join": join,
        "drawn": drawn,
    }
    sys.stdout.write(makers[kind](dim, facets, random.Random(seed)))


main()
