#!/bin/sh
# How fast traces are run: the events of four workers on some thousand facets, in dimensions 2 and 3, in the largest input.
# Usage: benchmarks/trace.sh [BYTES [FACETS]]
set -eu
top=$(CDPATH= cd -- "$(dirname -- "$0")/.." && pwd)
bytes=${1:-4194304}
facets=${2:-1000}
room=$(mktemp -d)
trap 'rm -rf "$room"' EXIT
"$top/bistellar" replay <"$top/examples/tetrahedron.txt" >/dev/null
for dim in 2 3; do
    python3 "$top/benchmarks/trace.py" "$dim" "$facets" "$bytes" 1 >"$room/input" 2>"$room/events"
    events=$(cat "$room/events")
    printf 'dimension %s, %s facets, %s bytes, %s events: ' "$dim" "$facets" "$(wc -c <"$room/input")" "$events"
    python3 "$top/benchmarks/measure.py" "$room/input" "$events" events "$top/crates/bistellar/out/bistellar" trace
done
