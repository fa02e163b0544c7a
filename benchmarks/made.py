"""Runs `make`, and prints how many facets and labels the complex has, seconds, draws a second and peak memory.

usage: made.py PROGRAM OPTION .., with --draws N among the options
"""
import itertools
import json
import resource
import subprocess
import sys
import time

program, *options = sys.argv[1:]
began = time.monotonic()
ran = subprocess.run([program, "make", *options], stdin=subprocess.DEVNULL, stdout=subprocess.PIPE)
seconds = time.monotonic() - began
peak = resource.getrusage(resource.RUSAGE_CHILDREN).ru_maxrss / 1024
if ran.returncode != 0:
    sys.exit(f"status {ran.returncode}")
facets = json.loads(ran.stdout)
labels = len(set(itertools.chain.from_iterable(facets)))
draws = int(options[options.index("--draws") + 1])
print(f"{len(facets)} facets, {labels} labels, {seconds:.2f} s, {draws / seconds:.0f} draws a second, peak {peak:.0f} MB")
