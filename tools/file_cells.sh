#!/usr/bin/env bash
# Counts the cells of register files in Yosys, and their depth, beside plain ones that are written by hand (bench/): each is
# flattened and mapped to AND, OR, XOR, MUX and NOT.
#   tools/file_cells.sh
# It prints the rows of bench/units.md. It ends with 1 where a file couldn't be read, and else with 0, also where Yosys isn't there.
set -u
top=$(CDPATH='' cd -- "$(dirname -- "$0")/.." && pwd) || exit 1
command -v yosys >/dev/null || { echo "yosys: not there, skipped"; exit 0; }
program=$top/crates/files/out/files
[ -x "$program" ] || (cd "$top/crates/files" && rt run -- 2 1 1 1 >/dev/null) || exit 1
work=$(mktemp -d) || exit 1
trap 'rm -rf "$work"' EXIT
map='synth -flatten -top top; abc -g AND,OR,XOR,MUX; opt_clean; tee -q -o cells stat; tee -q -o depth ltp -noff'

# measure NAME TEXT [COMMAND]: the row of a text, after a command of Yosys' own
measure() {
    (cd "$work" && rm -f cells depth && yosys -q -f verilog -p "${3:-} $map" "$2" >/dev/null) || { echo "$1: Yosys FAILS" >&2; exit 1; }
    lines=$(wc -l <"$2")
    all=$(sed -n 's/ *Number of cells: *//p' "$work/cells" | tail -n 1)
    registers=$(awk '/DFF/ { bits += $2 } END { print bits + 0 }' "$work/cells")
    depth=$(sed -n 's/.*Longest topological path.*length=\([0-9]*\).*/\1/p' "$work/depth" | tail -n 1)
    echo "| $1 | $lines | $((all - registers)) | $registers | $depth |"
}

echo "| file | lines | cells | registers | depth |"
echo "|---|---|---|---|---|"
for cells in 16 32; do
    for writes in 1 2; do
        stages=3
        [ "$writes" = 1 ] || stages='3 2'
        bits=4
        [ "$cells" = 16 ] || bits=5
        # shellcheck disable=SC2086
        "$program" "$cells" 16 2 $stages >"$work/file.v"
        measure "$cells cells, $writes written" "$work/file.v"
        measure "plain $cells cells, $writes written" "$top/bench/plain_file_$writes.v" "chparam -set C $cells -set K $bits top;"
    done
done
