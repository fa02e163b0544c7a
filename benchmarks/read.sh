#!/bin/sh
# How fast texts are read: the text of a complex, and a certificate that is read and not replayed.
# Usage: benchmarks/read.sh [COMPLEX_BYTES [CERTIFICATE_BYTES]]
set -eu
top=$(CDPATH= cd -- "$(dirname -- "$0")/.." && pwd)
complex=${1:-4000000}
certificate=${2:-256000000}
room=$(mktemp -d)
trap 'rm -rf "$room"' EXIT
"$top/bistellar" replay <"$top/examples/tetrahedron.txt" >/dev/null
for kind in complex certificate; do
    [ "$kind" = complex ] && size=$complex || size=$certificate
    python3 "$top/benchmarks/texts.py" "$kind" "$size" 1 >"$room/input"
    bytes=$(wc -c <"$room/input")
    printf '%s, %s bytes: ' "$kind" "$bytes"
    python3 "$top/benchmarks/measure.py" "$room/input" "${bytes}e-6" MB "$top/crates/bistellar/out/bistellar" replay
done
