"""Runs two programs in turn on the same inputs and words, and prints the processor seconds of both, their ratio, and whether their texts are the same.

usage: beside.py PROGRAM OTHER [FACETS [SEEDS]]

Searches with one worker and the recommended plan of each dimension, descents, `info` and `replay`, on subdivided spheres, joins of polygons and cross
polytopes with FACETS facets (300). A search runs with the seeds from 1 to SEEDS (3). The last lines are the geometric means of the ratios.
"""
import math
import os
import subprocess
import sys
import tempfile

from plan import PLANS

HERE = os.path.dirname(os.path.abspath(__file__))


def seconds_of(command, path):
    """The processor seconds of a command with a file as its standard input, and what it wrote."""
    before = os.times()
    with open(path, "rb") as stdin:
        ran = subprocess.run(command, stdin=stdin, stdout=subprocess.PIPE)
    after = os.times()
    return after.children_user + after.children_system - before.children_user - before.children_system, ran.stdout


class Race:
    def __init__(self, program, other, room):
        self.program, self.other, self.room = program, other, room
        self.ratios, self.differ = {}, 0

    def input(self, kind, dim, facets):
        path = os.path.join(self.room, f"{kind}-{dim}-{facets}")
        if not os.path.exists(path):
            with open(path, "w") as out:
                subprocess.run([sys.executable, os.path.join(HERE, "spheres.py"), kind, str(dim), str(facets), "1"], stdout=out, check=True)
        return path

    def run(self, group, name, path, words):
        own, text = seconds_of([self.program, *words], path)
        others, other_text = seconds_of([self.other, *words], path)
        same = text == other_text
        self.differ += not same
        ratio = max(own, 0.01) / max(others, 0.01)
        self.ratios.setdefault(group, []).append((ratio, own))
        print(f"{name}: {own:.2f} s, {others:.2f} s, ratio {ratio:.1f}, {'the same text' if same else 'ANOTHER TEXT'}", flush=True)
        return text

    def means(self):
        for group, ratios in self.ratios.items():
            mean = math.exp(sum(math.log(ratio) for ratio, _ in ratios) / len(ratios))
            print(f"{group}: geometric mean {mean:.1f} over {len(ratios)} runs, {sum(own for _, own in ratios):.1f} s")
        print(f"texts that differ: {self.differ}")


def main():
    program, other = sys.argv[1:3]
    facets = int(sys.argv[3]) if len(sys.argv) > 3 else 300
    seeds = int(sys.argv[4]) if len(sys.argv) > 4 else 3
    with tempfile.TemporaryDirectory() as room:
        race = Race(program, other, room)
        for dim, plan in PLANS.items():
            for kind, count in [("join", 1 << (dim + 1)), ("join", facets), ("subdivided", facets)]:
                path = race.input(kind, dim, count)
                for seed in range(1, seeds + 1):
                    words = ["sphere", "--workers", "1", "--seed", str(seed), *plan.split()]
                    race.run(f"searches of dimension {dim}", f"{kind}, dimension {dim}, {count} facets, seed {seed}", path, words)
        for dim in PLANS:
            for kind, count in [("subdivided", 20 * facets), ("stacked", 20 * facets)]:
                count = min(count, 8000) if dim == 2 else count
                path = race.input(kind, dim, count)
                text = race.run("descents", f"descent, {kind}, dimension {dim}, {count} facets", path, ["sphere", "--rounds", "0"])
                race.run("info", f"info, {kind}, dimension {dim}, {count} facets", path, ["info"])
                if text.startswith(b"yes"):
                    judged = os.path.join(room, "judged")
                    with open(path, "rb") as complex, open(judged, "wb") as out:
                        out.write(complex.read() + b"".join(text.splitlines(keepends=True)[2:]))
                    race.run("replay", f"replay, {kind}, dimension {dim}, {count} facets", judged, ["replay"])
        race.means()


main()
