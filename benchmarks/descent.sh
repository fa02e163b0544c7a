#!/bin/sh
# How fast complexes descend: spheres and products whose numbers of facets double, without rounds.
# Usage: benchmarks/descent.sh
set -eu
top=$(CDPATH= cd -- "$(dirname -- "$0")/.." && pwd)
room=$(mktemp -d)
trap 'rm -rf "$room"' EXIT
"$top/bistellar" replay <"$top/examples/tetrahedron.txt" >/dev/null
descend() {
    python3 "$top/benchmarks/spheres.py" "$1" "$2" "$3" 1 >"$room/input"
    printf '%s, dimension %s: ' "$1" "$2"
    python3 "$top/benchmarks/descent.py" "$room/input" "$top/crates/bistellar/out/bistellar"
}
for facets in 1000 2000 4000 8000; do descend stacked 2 "$facets"; done
for kind in stacked subdivided cyclic product; do
    for facets in 1200 2400 4800 9600; do descend "$kind" 3 "$facets"; done
done
for facets in 1200 2400 4800 9600 19200; do descend subdivided 4 "$facets"; done
for facets in 4800 9600 19200; do descend subdivided 6 "$facets"; done
