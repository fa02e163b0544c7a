#!/bin/sh
# How fast spheres are found: spheres whose numbers of facets double, by 1, 2 and 4 workers. A descent leads the subdivided ones down a part of
# the way, and the joins not at all.
# Usage: benchmarks/sphere.sh [OPTION ..], with options of `sphere` such as --rounds and --tries
#        benchmarks/sphere.sh --beside OTHER [FACETS [SEEDS]], with another program for the same words: both in turn, with one worker
set -eu
top=$(CDPATH= cd -- "$(dirname -- "$0")/.." && pwd)
room=$(mktemp -d)
trap 'rm -rf "$room"' EXIT
"$top/bistellar" replay <"$top/examples/tetrahedron.txt" >/dev/null
if [ "${1:-}" = --beside ]; then
    shift
    exec python3 "$top/benchmarks/beside.py" "$top/crates/bistellar/out/bistellar" "$@"
fi
search() {
    kind=$1 dim=$2 facets=$3
    shift 3
    python3 "$top/benchmarks/spheres.py" "$kind" "$dim" "$facets" 1 >"$room/input"
    for workers in 1 2 4; do
        printf '%s, dimension %s: ' "$kind" "$dim"
        python3 "$top/benchmarks/sphere.py" "$room/input" "$top/crates/bistellar/out/bistellar" "$workers" "$@"
    done
}
for dim in 2 3 4 5; do
    for facets in 2450 4900 9800 19600; do
        # A complex has at most 4,096 labels.
        if [ "$dim" != 2 ] || [ "$facets" -lt 8000 ]; then
            search subdivided "$dim" "$facets" "$@"
            search join "$dim" "$facets" "$@"
        fi
    done
done
