#!/bin/sh
# How fast complexes are described: spheres of dimensions 2, 3 and 6, and drawn facets of dimension 6, which have the most faces.
# Usage: benchmarks/info.sh
set -eu
top=$(CDPATH= cd -- "$(dirname -- "$0")/.." && pwd)
room=$(mktemp -d)
trap 'rm -rf "$room"' EXIT
"$top/bistellar" replay <"$top/examples/tetrahedron.txt" >/dev/null
describe() {
    python3 "$top/benchmarks/spheres.py" "$1" "$2" "$3" 1 >"$room/input"
    printf '%s, dimension %s, %s facets: ' "$1" "$2" "$3"
    python3 "$top/benchmarks/measure.py" "$room/input" "$3" facets "$top/crates/bistellar/out/bistellar" info
}
describe stacked 2 8000
describe stacked 3 12000
describe stacked 6 20000
describe drawn 6 20000
