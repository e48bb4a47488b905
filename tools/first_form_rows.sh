#!/bin/sh
# Runs the text of crates/asip/data/B1.desc in Icarus Verilog, with tools/first_form_bench.v as the world around it,
# and compares the rows with those due.
#   tools/first_form_rows.sh [FILE.v]
# Without a file it has ./asip write the text. It ends with 1 where the rows differ, with 2 where there was nothing to
# compare, and else with 0, also where Icarus isn't there.
set -u
top=$(CDPATH='' cd -- "$(dirname -- "$0")/.." && pwd) || exit 2
if ! command -v iverilog >/dev/null; then
    echo "iverilog: not there, skipped"
    exit 0
fi
work=$(mktemp -d) || exit 2
trap 'rm -rf "$work"' EXIT
text=${1:-$work/B1.v}
if [ $# -eq 0 ]; then
    "$top/asip" gen "$top/crates/asip/data/B1.desc" "$text" || exit 2
fi

# The register has 8 bits and starts at 3; the word 1 adds 250. So it becomes 253, and then 503 - 256.
cat >"$work/due" <<'END'
0 run
1 run R=253
2 run R=247
3 run
END
iverilog -g2005 -s first_form_bench -o "$work/bench" "$top/tools/first_form_bench.v" "$text" || exit 2
vvp -n "$work/bench" >"$work/rows" || exit 2
if diff "$work/due" "$work/rows"; then
    echo "iverilog: the rows of $text are those due"
else
    echo "iverilog: the rows of $text DIFFER from those due" >&2
    exit 1
fi
