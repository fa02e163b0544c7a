"""Runs `manifold` on a complex with some workers, and prints facets, vertices, workers, answer, open links, flips, seconds in all and a link, and peak memory.

usage: manifold.py INPUT PROGRAM WORKERS [OPTION ..]
"""
import itertools
import json
import resource
import subprocess
import sys
import time

path, program, workers, *options = sys.argv[1:]
with open(path, "rb") as stdin:
    began = time.monotonic()
    ran = subprocess.run([program, "manifold", "--workers", workers, *options], stdin=stdin, stdout=subprocess.PIPE)
    seconds = time.monotonic() - began
peak = resource.getrusage(resource.RUSAGE_CHILDREN).ru_maxrss / 1024
with open(path) as text:
    facets = json.load(text)
vertices = len(set(itertools.chain.from_iterable(facets)))
lines = [line.split() for line in ran.stdout.decode().split("\n") if line]
answer = lines[0][0] if lines else "nothing"
left = sum(len(line) - 1 for line in lines if line[0] == "open")
flips = sum(int(line[1]) for line in lines if line[0] == "flips")
print(
    f"{len(facets)} facets, {vertices} vertices, {workers} workers: {answer}, status {ran.returncode}, {left} links open, {flips} flips,"
    f" {seconds:.2f} s, {1000 * seconds / vertices:.2f} ms a link, peak {peak:.0f} MB"
)
