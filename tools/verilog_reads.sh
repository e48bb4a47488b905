#!/bin/sh
# Has Icarus Verilog, Verilator and Yosys read Verilog texts, each text by itself with the top module `top`.
#   tools/verilog_reads.sh FILE.v ..
# It prints one line for each tool and text; a tool that isn't there is skipped. It ends with 1 where a tool found an
# error (for Verilator a warning is one too), with 2 where no text was named, and else with 0.
set -u
[ $# -gt 0 ] || { echo "usage: tools/verilog_reads.sh FILE.v .." >&2; exit 2; }
work=$(mktemp -d) || exit 2
trap 'rm -rf "$work"' EXIT
status=0

# reads TEXT TOOL WORD ..
reads() {
    text=$1
    shift
    if ! command -v "$1" >/dev/null; then
        echo "$1: not there, skipped"
    elif "$@" >"$work/said" 2>&1; then
        echo "$1: reads $text"
    else
        echo "$1: FAILS on $text"
        cat "$work/said" >&2
        status=1
    fi
}

for file in "$@"; do
    reads "$file" iverilog -g2005 -t null -s top "$file"
    reads "$file" verilator --lint-only --Mdir "$work/verilator" --top-module top "$file"
    reads "$file" yosys -q -f verilog -p 'hierarchy -check -top top; proc; check -assert' "$file"
done
exit $status
