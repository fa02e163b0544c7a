#!/bin/sh
# How fast maps are found: copies with drawn labels, and complexes one flip away from them, of subdivided spheres, tori (products of polygons), joins of
# polygons and cross polytopes. Each line comes after one of `info` on the first complex alone, which is read there too.
# Usage: benchmarks/iso.sh
set -eu
top=$(CDPATH= cd -- "$(dirname -- "$0")/.." && pwd)
room=$(mktemp -d)
trap 'rm -rf "$room"' EXIT
program="$top/crates/bistellar/out/bistellar"
"$top/bistellar" replay <"$top/examples/tetrahedron.txt" >/dev/null
map() {
    kind=$1 dim=$2 facets=$3
    python3 "$top/benchmarks/spheres.py" "$kind" "$dim" "$facets" 1 >"$room/input"
    printf '%s, dimension %s, %s facets, info: ' "$kind" "$dim" "$facets"
    python3 "$top/benchmarks/measure.py" "$room/input" "$facets" facets "$program" info
    for other in copy near; do
        if python3 "$top/benchmarks/relabel.py" "$room/input" 1 "$other" >"$room/both" 2>/dev/null; then
            printf '%s, dimension %s, %s facets, %s: ' "$kind" "$dim" "$facets" "$other"
            python3 "$top/benchmarks/measure.py" "$room/both" "$facets" facets "$program" iso
        fi
    done
}
for facets in 100 1000 8000; do map subdivided 2 "$facets"; done
for facets in 100 1000 8000; do map product 2 "$facets"; done
for dim in 3 4 5 6; do
    for facets in 100 2000 20000; do map subdivided "$dim" "$facets"; done
done
for dim in 3 5; do map join "$dim" 2000; done
for dim in 2 3 4 5 6; do map join "$dim" $((1 << (dim + 1))); done
