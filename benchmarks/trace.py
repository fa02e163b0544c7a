"""Makes a trace of several workers on a sphere: each claims the labels of a flip, makes it, and commits it or rolls it back.

usage: trace.py DIM FACETS BYTES SEED > input

The workers take turns in a drawn order, so their claims, flips and commits interleave. No event of it is refused.
"""
import random
import sys

from complexes import Complex, flip_text

WORKERS = 4
ROOM = 1000


class Trace:
    def __init__(self, dim, facets, size, seed):
        self.draw = random.Random(seed)
        self.complex = Complex(dim)
        self.owner = {}
        label = dim + 2
        while len(self.complex.facets) < facets:
            label += 1
            self.complex.flip(self.draw.choice(self.complex.facets), frozenset([label]))
        self.free = list(range(label + 1, label + ROOM + 1))
        self.left = size
        self.events = 0
        self.write(f"{self.complex.text()}workers {WORKERS}\nroom {ROOM}\n")

    def write(self, text):
        self.left -= len(text)
        sys.stdout.write(text)

    def event(self, text):
        self.events += 1
        self.write(text + "\n")

    def proposal(self):
        """A legal flip of which no worker holds a label: a new vertex, or one of the other kinds."""
        if self.free and self.draw.random() < 0.3:
            flip = self.draw.choice(self.complex.facets), frozenset([self.free[-1]])
        else:
            flip = self.complex.drawn_flip(self.draw)
        if not flip or any(label in self.owner for label in flip[0] | flip[1]):
            return None
        return flip

    def commit(self, worker, flip):
        self.event(f"claim {worker} 0")
        self.event(f"commit {worker}")
        self.complex.flip(*flip)
        for label in flip[1]:
            if label in self.free:
                self.free.remove(label)
        if len(flip[0]) == 1:
            self.free.extend(flip[0])

    def turns(self, worker):
        """What a worker does, one turn after another."""
        while True:
            flip = self.proposal()
            if flip:
                labels = sorted(flip[0] | flip[1])
                for label in labels:
                    self.owner[label] = worker
                    self.event(f"claim {worker} {label}")
                yield
                self.event(f"flip {worker} {flip_text(*flip)}")
                yield
                if self.draw.random() < 0.8:
                    self.commit(worker, flip)
                else:
                    self.event(f"rollback {worker}")
                yield
                for label in labels:
                    del self.owner[label]
                    self.event(f"release {worker} {label}")
            yield

    def run(self):
        workers = [self.turns(worker) for worker in range(1, WORKERS + 1)]
        while self.left > 400:
            next(self.draw.choice(workers))
        # What is still pending at the end is rolled back.
        for worker in range(1, WORKERS + 1):
            self.event(f"rollback {worker}")
        print(self.events, file=sys.stderr)


Trace(*map(int, sys.argv[1:])).run()
