"""Runs a program on a file as standard input, and prints its answer, its seconds and its peak memory.

usage: measure.py FILE COUNT UNIT PROGRAM WORD..
"""
import resource
import subprocess
import sys
import time

path, count, unit, command = sys.argv[1], float(sys.argv[2]), sys.argv[3], sys.argv[4:]
with open(path, "rb") as stdin:
    began = time.monotonic()
    ran = subprocess.run(command, stdin=stdin, stdout=subprocess.PIPE)
    seconds = time.monotonic() - began
peak = resource.getrusage(resource.RUSAGE_CHILDREN).ru_maxrss / 1024
print(f"answer {ran.stdout.decode().split()[0]}, status {ran.returncode}, {seconds:.2f} s, {count / seconds:.0f} {unit} a second, peak {peak:.0f} MB")
