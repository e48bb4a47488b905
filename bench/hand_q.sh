#!/usr/bin/env bash
# A processor that was written by hand beside others of the same description: that they show the rows that are due, and what they cost.
#
#   bench/hand_q.sh [TEXT ..]     TEXT is a processor of examples/four_stages.desc in Verilog, as examples/simulated/Q.v
#
# First Icarus Verilog runs bench/hand_q.v, and each TEXT, on the images and traces that examples/simulated/cases lists for Q.v, and
# what they show is compared with the rows stored there. Then Yosys flattens each, maps it to AND, OR, XOR, MUX and NOT, and a row
# says how many gates without NOT it has, how many with it, how many flip-flops of one bit, and how many gates the longest path has.
# A tool that isn't there is skipped. It ends with 1 where rows differ or a text can't be read.
set -u
given=()
for text in "$@"; do given+=("$(realpath "$text")") || exit 1; done
cd "$(dirname "$0")/.." || exit 1
top=$PWD
work=$(mktemp -d) || exit 1
trap 'rm -rf "$work"' EXIT
texts=("$top/bench/hand_q.v" ${given[@]+"${given[@]}"})
status=0

# rows TEXT: whether Icarus shows the rows that are due
rows() {
    while read -r name netlist image trace cycles; do
        [ "$netlist" = Q.v ] || continue
        python3 "$top/bench/sim.py" --rows "$1" "$image" "$trace" "$cycles" >"$work/rows" && cmp -s "$name.rows" "$work/rows" && continue
        echo "$(basename "$1"): the rows of $name differ"
        return 1
    done <cases
    echo "$(basename "$1"): all rows, as they are due"
}

# figures TEXT: its row of the table
figures() {
    map='synth -flatten -top top; abc -g AND,OR,XOR,MUX; opt_clean; tee -q -o cells stat; tee -q -o depth ltp -noff'
    (cd "$work" && rm -f cells depth && yosys -q -f verilog -p "$map" "$1") || { echo "$1: Yosys FAILS" >&2; return 1; }
    count() { awk -v kind="$1" '$1 ~ kind { n += $2 } END { print n + 0 }' "$work/cells"; }
    depth=$(sed -n 's/.*Longest topological path.*length=\([0-9]*\).*/\1/p' "$work/depth" | tail -n 1)
    gates=$(count '^\$_(AND|OR|XOR|MUX)_$')
    echo "| $(basename "$1") | $gates | $((gates + $(count '^\$_NOT_$'))) | $(count 'DFF') | $depth |"
}

if command -v iverilog >/dev/null; then
    cd examples/simulated || exit 1
    for text in "${texts[@]}"; do rows "$text" || status=1; done
else
    echo "iverilog: not there, skipped"
fi
if command -v yosys >/dev/null; then
    echo "| text | gates | with NOT | flip-flops | depth |"
    echo "|---|---|---|---|---|"
    for text in "${texts[@]}"; do figures "$text" || status=1; done
else
    echo "yosys: not there, skipped"
fi
exit $status
