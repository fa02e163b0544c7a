"""Makes large texts that are read and not replayed.

usage: texts.py complex BYTES SEED > input
       texts.py certificate BYTES SEED > input

The complex is a list of facets of dimension 6 as people paste it, with a name, blanks, line feeds and repeated facets, and
nothing behind it. The certificate has a list of flips for one vertex.
"""
import random
import sys

FACETS = 20000
LABELS = 4096


def complex_text(size, draw):
    facets = [draw.sample(range(1, LABELS + 1), 7) for _ in range(FACETS)]
    parts = []
    left = size
    while left > 60:
        facet = draw.choice(facets)
        draw.shuffle(facet)
        part = "[ " + ", ".join(map(str, facet)) + " ]"
        parts.append(part)
        left -= len(part) + 2
    return "K := [" + ",\n".join(parts) + "];\n"


def certificate(size, draw):
    lines = []
    for _ in range(1000):
        labels = draw.sample(range(1, 65001), 5)
        lines.append(" ".join(map(str, labels[:3])) + " | " + " ".join(map(str, labels[3:])) + "\n")
    block = "".join(lines)
    count = max(1, size // len(block))
    sys.stdout.write(f"[[1,2,3],[1,2,4],[1,3,4],[2,3,4]]\nbistellar 1 manifold\nvertices 1\nvertex 1\nflips {1000 * count}\n")
    for _ in range(count):
        sys.stdout.write(block)


def main():
    kind, size, seed = sys.argv[1], int(sys.argv[2]), int(sys.argv[3])
    draw = random.Random(seed)
    if kind == "complex":
        sys.stdout.write(complex_text(size, draw))
    else:
        certificate(size, draw)


main()
