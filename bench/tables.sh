#!/usr/bin/env bash
# Times the tables of paths, slots and selections on designs at the limits: bench/tables.sh [RUNS]
#
# Makes a copy of the crates that ap_pipe and ap_merge stand on, and of bench/tables.txt as a static library beside them, proves what isn't proved
# there yet, and runs bench/tables.c, which calls the library. It needs a C compiler, and some minutes where nothing is kept.
set -euo pipefail
top=$(cd "$(dirname "$0")/.." && pwd)
room=$(mktemp -d)
trap 'rm -rf "$room"' EXIT
crates="ap_text ap_bits ap_desc ap_ports ap_image ap_model ap_path ap_pipe ap_merge"
for crate in $crates; do
  mkdir -p "$room/crates/$crate"
  cp -r "$top/crates/$crate/src" "$top/crates/$crate/specs" "$top/crates/$crate/proofs" "$room/crates/$crate/" 2>/dev/null || true
  grep "^$crate:" "$top/crates.txt" >> "$room/crates.txt"
done
echo "table_bench staticlib: ap_bits ap_desc ap_path ap_pipe ap_merge" >> "$room/crates.txt"
cp "$top/HANDLES" "$room/"
mkdir -p "$room/crates/table_bench/src"
cp "$top/bench/tables.txt" "$room/crates/table_bench/src/lib.rt"
cd "$room" && git init -q
cd crates/table_bench && rt lib --jobs 1 > "$room/log" 2>&1 || { tail -20 "$room/log"; exit 1; }
kit=$(dirname "$(rt doc)")
cc -O2 -o "$room/tables" "$top/bench/tables.c" out/libtable_bench.a "$kit/c/liblibc_c.a"
"$room/tables" "${1:-5}"
