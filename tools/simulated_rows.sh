#!/usr/bin/env bash
# The rows that `sim` writes for the texts in examples/simulated are those stored there, which Icarus Verilog showed.
#
#   tools/simulated_rows.sh [PROGRAM]    compares; PROGRAM is ./asip
#   tools/simulated_rows.sh --icarus     has Icarus show them anew, and compares those
set -u
cd "$(dirname "$0")/.."
top=$PWD
made=$(mktemp -d)
trap 'rm -rf "$made"' EXIT
program=${1:-$top/asip}
[ "$program" = --icarus ] || program=$(realpath "$program")
cd examples/simulated
status=0
while read -r name netlist image trace cycles; do
    case $name in ''|'#'*) continue ;; esac
    if [ "$program" = --icarus ]; then
        python3 "$top/bench/sim.py" --rows "$netlist" "$image" "$trace" "$cycles" > "$made/$name"
    else
        "$program" sim "$netlist" "$image" "$trace" "$cycles" "$made/$name"
    fi || status=1
    if cmp -s "$name.rows" "$made/$name"; then
        echo "$name: $cycles rows, as they are due"
    else
        echo "$name: the rows differ"
        status=1
    fi
done < cases
exit $status
