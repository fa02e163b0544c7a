#!/bin/sh
# What the gate costs, crate by crate.
# Usage: benchmarks/gate.sh run [WORD ..] >LOG   runs rt ci --anew (or rt ci WORD ..), each line with its time, with a line for each process that ends
#        benchmarks/gate.sh LOG                  prints the table of a log
set -eu
top=$(CDPATH= cd -- "$(dirname -- "$0")/.." && pwd)
exec python3 "$top/benchmarks/gate.py" "$top" "$@"
