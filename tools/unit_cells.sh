#!/usr/bin/env bash
# Counts the cells of units in Yosys, and their depth: each unit is flattened and mapped to AND, OR, XOR, MUX and NOT.
#   tools/unit_cells.sh [KIND ..]
# It prints a row for each kind and width, as bench/units.md has them; where bench/ has a plain circuit of the same latency,
# written by hand, a row for that follows. It ends with 1 where a unit couldn't be read, and else with 0, also where Yosys
# isn't there.
set -u
top=$(CDPATH='' cd -- "$(dirname -- "$0")/.." && pwd) || exit 1
command -v yosys >/dev/null || { echo "yosys: not there, skipped"; exit 0; }
program=$top/crates/kinds/out/kinds
[ -x "$program" ] || (cd "$top/crates/kinds" && rt run -- avg 8 >/dev/null) || exit 1
[ $# -gt 0 ] || set -- alu shift count avg mul div
work=$(mktemp -d) || exit 1
trap 'rm -rf "$work"' EXIT
map='synth -flatten -top top; abc -g AND,OR,XOR,MUX; opt_clean; tee -q -o cells stat; tee -q -o depth ltp -noff'

# measure NAME TEXT [COMMAND]: the row of a text, after a command of Yosys' own
measure() {
    (cd "$work" && rm -f cells depth && yosys -q -f verilog -p "${3:-} $map" "$2") || { echo "$1: Yosys FAILS" >&2; exit 1; }
    lines=$(wc -l <"$2")
    all=$(sed -n 's/ *Number of cells: *//p' "$work/cells" | tail -n 1)
    registers=$(awk '/DFF/ { bits += $2 } END { print bits + 0 }' "$work/cells")
    depth=$(sed -n 's/.*Longest topological path.*length=\([0-9]*\).*/\1/p' "$work/depth" | tail -n 1)
    echo "| $1 | $lines | $((all - registers)) | $registers | $depth |"
}

# bits W: how many bits the number W has
bits() {
    k=0
    n=$1
    while [ "$n" -gt 0 ]; do
        n=$((n / 2))
        k=$((k + 1))
    done
    echo "$k"
}

echo "| unit | lines | cells | registers | depth |"
echo "|---|---|---|---|---|"
for kind in "$@"; do
    plain=$top/bench/plain_$kind.v
    widths='8 32 64'
    [ ! -f "$plain" ] || widths='8 16 32 64'
    for w in $widths; do
        "$program" "$kind" "$w" >"$work/unit.v"
        measure "$kind $w" "$work/unit.v"
        [ ! -f "$plain" ] || measure "plain $kind $w" "$plain" "chparam -set W $w -set K $(bits "$w") top;"
    done
done
