#!/bin/sh
# What the recommended plan of each dimension finds with one worker, beside the plan of the defaults: cross polytopes, joins of polygons and subdivided
# spheres, with three seeds each.
# Usage: benchmarks/plans.sh [FACETS]
set -eu
top=$(CDPATH= cd -- "$(dirname -- "$0")/.." && pwd)
facets=${1:-400}
room=$(mktemp -d)
trap 'rm -rf "$room"' EXIT
"$top/bistellar" replay <"$top/examples/tetrahedron.txt" >/dev/null
plan() {
    PYTHONPATH="$top/benchmarks" python3 -c "import plan; print(plan.PLANS[$1])"
}
search() {
    kind=$1 dim=$2 count=$3
    python3 "$top/benchmarks/spheres.py" "$kind" "$dim" "$count" 1 >"$room/input"
    for seed in 1 2 3; do
        printf '%s, dimension %s, plan: ' "$kind" "$dim"
        python3 "$top/benchmarks/sphere.py" "$room/input" "$top/crates/bistellar/out/bistellar" 1 --seed "$seed" $(plan "$dim")
        printf '%s, dimension %s, defaults: ' "$kind" "$dim"
        python3 "$top/benchmarks/sphere.py" "$room/input" "$top/crates/bistellar/out/bistellar" 1 --seed "$seed"
    done
}
for dim in 2 3 4 5 6; do
    # The cross polytope is the join of squares, with two points more where the dimension is even.
    search join "$dim" $((1 << (dim + 1)))
    search join "$dim" "$facets"
    search subdivided "$dim" "$facets"
done
