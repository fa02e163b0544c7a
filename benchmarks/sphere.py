"""Runs `sphere` on a complex with some workers, and prints facets, workers, answer, rounds, flips, seconds and peak memory.

usage: sphere.py INPUT PROGRAM WORKERS [OPTION ..]
"""
import resource
import subprocess
import sys
import time

path, program, workers, *options = sys.argv[1:]
with open(path, "rb") as stdin:
    began = time.monotonic()
    ran = subprocess.run([program, "sphere", "--workers", workers, *options], stdin=stdin, stdout=subprocess.PIPE)
    seconds = time.monotonic() - began
peak = resource.getrusage(resource.RUSAGE_CHILDREN).ru_maxrss / 1024
lines = ran.stdout.decode().split("\n")
told = {line.split()[0]: line.split()[1] for line in lines if line.split()[:1] and line.split()[0] in ("rounds", "flips")}
with open(path) as text:
    facets = text.read().count("[") - 1
print(
    f"{facets} facets, {workers} workers: {lines[0]}, status {ran.returncode}, {told.get('rounds', 'no')} rounds,"
    f" {told.get('flips', 'no')} flips, {seconds:.2f} s, peak {peak:.0f} MB"
)
