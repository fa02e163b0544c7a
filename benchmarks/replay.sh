#!/bin/sh
# How fast certificates are judged: 100,000 flips over some thousand facets, in dimensions 2 and 3.
# Usage: benchmarks/replay.sh [FLIPS [FACETS]]
set -eu
top=$(CDPATH= cd -- "$(dirname -- "$0")/.." && pwd)
flips=${1:-100000}
facets=${2:-5000}
room=$(mktemp -d)
trap 'rm -rf "$room"' EXIT
"$top/bistellar" replay <"$top/examples/tetrahedron.txt" >/dev/null
for dim in 2 3; do
    python3 "$top/benchmarks/certificate.py" "$dim" "$facets" "$flips" 1 >"$room/input"
    printf 'dimension %s, %s facets, %s bytes: ' "$dim" "$facets" "$(wc -c <"$room/input")"
    python3 "$top/benchmarks/measure.py" "$room/input" "$flips" flips "$top/crates/bistellar/out/bistellar" replay
done
