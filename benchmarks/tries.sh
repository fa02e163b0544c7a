#!/bin/sh
# How fast one worker makes tries: on joins of polygons with some thousand facets, which need rounds, in the dimensions 2 to 6.
# Usage: benchmarks/tries.sh [FACETS [ROUNDS [TRIES]]]
set -eu
top=$(CDPATH= cd -- "$(dirname -- "$0")/.." && pwd)
facets=${1:-2000}
rounds=${2:-10}
tries=${3:-200}
room=$(mktemp -d)
trap 'rm -rf "$room"' EXIT
"$top/bistellar" replay <"$top/examples/tetrahedron.txt" >/dev/null
for dim in 2 3 4 5 6; do
    python3 "$top/benchmarks/spheres.py" join "$dim" "$facets" 1 >"$room/input"
    printf 'dimension %s: ' "$dim"
    python3 "$top/benchmarks/tries.py" "$room/input" "$rounds" "$tries" "$top/crates/bistellar/out/bistellar"
done
