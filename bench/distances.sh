#!/usr/bin/env bash
# Times distances on three designs at the limits: bench/distances.sh [RUNS]
#
# Makes a copy of the crates that ap_dist stands on, and of bench/distances.txt as a static library beside them, proves what isn't proved
# there yet, and runs bench/distances.c, which calls the library. It needs a C compiler, and some minutes where nothing is kept.
set -euo pipefail
top=$(cd "$(dirname "$0")/.." && pwd)
room=$(mktemp -d)
trap 'rm -rf "$room"' EXIT
crates="ap_text ap_bits ap_desc ap_enc ap_image ap_model ap_dist"
for crate in $crates; do
  mkdir -p "$room/crates/$crate"
  cp -r "$top/crates/$crate/src" "$top/crates/$crate/specs" "$top/crates/$crate/proofs" "$room/crates/$crate/" 2>/dev/null || true
  grep "^$crate:" "$top/crates.txt" >> "$room/crates.txt"
done
echo "distance_bench staticlib: ap_bits ap_desc ap_dist" >> "$room/crates.txt"
cp "$top/HANDLES" "$room/"
mkdir -p "$room/crates/distance_bench/src"
cp "$top/bench/distances.txt" "$room/crates/distance_bench/src/lib.rt"
cd "$room" && git init -q
cd crates/distance_bench && rt lib > "$room/log" 2>&1 || { tail -20 "$room/log"; exit 1; }
kit=$(dirname "$(rt doc)")
cc -O2 -o "$room/distances" "$top/bench/distances.c" out/libdistance_bench.a "$kit/c/liblibc_c.a"
"$room/distances" "${1:-5}"
