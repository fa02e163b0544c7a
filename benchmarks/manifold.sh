#!/bin/sh
# How fast manifolds are recognised: cross polytopes, products of two spheres, products of a torus with a sphere, and spheres that `make` makes, in the
# dimensions 3 to 6, with up to 20,000 facets, by 1, 2 and 4 workers. The links of all vertices are searched.
# Usage: benchmarks/manifold.sh [OPTION ..], with options of `manifold` such as --rounds and --tries
set -eu
top=$(CDPATH= cd -- "$(dirname -- "$0")/.." && pwd)
room=$(mktemp -d)
trap 'rm -rf "$room"' EXIT
program="$top/crates/bistellar/out/bistellar"
"$top/bistellar" replay <"$top/examples/tetrahedron.txt" >/dev/null
recognise() {
    name=$1
    shift
    for workers in 1 2 4; do
        printf '%s: ' "$name"
        python3 "$top/benchmarks/manifold.py" "$room/input" "$program" "$workers" "$@"
    done
}
for dim in 3 4 5 6; do
    python3 "$top/benchmarks/spheres.py" join "$dim" $((1 << (dim + 1))) 1 >"$room/input"
    recognise "cross polytope, dimension $dim" "$@"
    # The smallest products have 36, 96, 200 and 500 facets, and 126, 336, 700 and 1,260 with the torus.
    for facets in 100 3000 20000; do
        for kind in two-spheres torus-sphere; do
            python3 "$top/benchmarks/spheres.py" "$kind" "$dim" "$facets" 1 >"$room/input"
            recognise "$kind, dimension $dim" "$@"
        done
    done
    # How many facets come of so many draws depends on the dimension; a line has their number.
    for draws in 1000 10000 100000; do
        "$program" make --dim "$dim" --draws "$draws" >"$room/input"
        recognise "made by $draws draws, dimension $dim" "$@"
    done
done
