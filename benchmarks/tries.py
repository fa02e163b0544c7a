"""Runs `sphere` with one worker on a complex, and prints facets, answer, rounds, seconds and tries a second.

usage: tries.py INPUT ROUNDS TRIES PROGRAM

The seconds are those of a run with rounds less those of one without. They hold the descents between the rounds.
"""
import subprocess
import sys
import time

path, rounds, tries, program = sys.argv[1:]


def run(*words):
    with open(path, "rb") as stdin:
        began = time.monotonic()
        ran = subprocess.run([program, "sphere", *words], stdin=stdin, stdout=subprocess.PIPE)
        return time.monotonic() - began, ran.stdout.decode().split("\n")


before, _ = run("--rounds", "0")
after, lines = run("--workers", "1", "--rounds", rounds, "--tries", tries)
made = next((int(line.split()[1]) for line in lines if line.startswith("rounds ")), None)
with open(path) as text:
    facets = text.read().count("[") - 1
if not made:
    sys.exit(f"{facets} facets, {lines[0]}: no rounds were made")
count, seconds = made * int(tries), max(after - before, 1e-3)
print(f"{facets} facets, {lines[0]}, {made} rounds, {seconds:.2f} s, {count / seconds:.0f} tries a second")
