#!/usr/bin/env bash
# Times the assembler on programs of 60,000, 30,000 and 15,000 lines: bench/assembling.sh [RUNS]
#
# Makes a copy of the crates that ap_asm stands on, and of bench/assembling.txt as a static library beside them, proves what isn't proved
# there yet, and runs bench/assembling.c, which calls the library. It needs a C compiler, and some minutes where nothing is kept.
set -euo pipefail
top=$(cd "$(dirname "$0")/.." && pwd)
room=$(mktemp -d)
trap 'rm -rf "$room"' EXIT
crates="ap_text ap_bits ap_desc ap_enc ap_image ap_model ap_dist ap_program ap_asm"
for crate in $crates; do
  mkdir -p "$room/crates/$crate"
  cp -r "$top/crates/$crate/src" "$top/crates/$crate/specs" "$top/crates/$crate/proofs" "$room/crates/$crate/" 2>/dev/null || true
  grep "^$crate:" "$top/crates.txt" >> "$room/crates.txt"
done
echo "assembler_bench staticlib: ap_bits ap_desc ap_asm" >> "$room/crates.txt"
cp "$top/HANDLES" "$room/"
mkdir -p "$room/crates/assembler_bench/src"
cp "$top/bench/assembling.txt" "$room/crates/assembler_bench/src/lib.rt"
cd "$room" && git init -q
cd crates/assembler_bench && rt lib > "$room/log" 2>&1 || { tail -20 "$room/log"; exit 1; }
kit=$(dirname "$(rt doc)")
cc -O2 -o "$room/assembling" "$top/bench/assembling.c" out/libassembler_bench.a "$kit/c/liblibc_c.a"
"$room/assembling" "${1:-5}"
