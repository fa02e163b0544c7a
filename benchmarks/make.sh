#!/bin/sh
# How fast complexes are made: spheres of the dimensions 2 to 6 by ever more draws, up to 100,000, the most that there can be. A sphere has at most 20,000
# facets and 4,096 labels, so draws that would pass that change nothing.
# Usage: benchmarks/make.sh [OPTION ..], with options of `make` such as --seed and --kind
set -eu
top=$(CDPATH= cd -- "$(dirname -- "$0")/.." && pwd)
"$top/bistellar" replay <"$top/examples/tetrahedron.txt" >/dev/null
for dim in 2 3 4 5 6; do
    for draws in 1000 10000 100000; do
        printf 'dimension %s, %s draws: ' "$dim" "$draws"
        python3 "$top/benchmarks/made.py" "$top/crates/bistellar/out/bistellar" --dim "$dim" --draws "$draws" "$@"
    done
done
