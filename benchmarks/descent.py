"""Runs `sphere --rounds 0` on a complex, and prints facets, answer, flips, seconds and peak memory.

usage: descent.py INPUT PROGRAM
"""
import resource
import subprocess
import sys
import time

path, program = sys.argv[1:]
with open(path, "rb") as stdin:
    began = time.monotonic()
    ran = subprocess.run([program, "sphere", "--rounds", "0"], stdin=stdin, stdout=subprocess.PIPE)
    seconds = time.monotonic() - began
peak = resource.getrusage(resource.RUSAGE_CHILDREN).ru_maxrss / 1024
lines = ran.stdout.decode().split("\n")
flips = next((line.split()[1] for line in lines if line.startswith("flips ")), "none")
with open(path) as text:
    facets = text.read().count("[") - 1
print(f"{facets} facets, {lines[0]}, status {ran.returncode}, {flips} flips, {seconds:.2f} s, peak {peak:.0f} MB")
