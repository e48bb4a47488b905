#!/usr/bin/env bash
# The programs in examples/ show the rows that are stored beside them.
#
#   tools/example_rows.sh [ASIP] [PLAIN_ROWS]
#
# ASIP, which is ./asip, assembles each program for its description. Then PLAIN_ROWS, which is what `rt run` makes of
# crates/plain_rows, and tools/machine.py, which was written apart from it, each print the rows of the machine, and both are
# compared with the stored ones. It ends with 1 where rows differ or a program isn't assembled.
set -u
cd "$(dirname "$0")/.." || exit 1
top=$PWD
asip=$(realpath "${1:-$top/asip}") || exit 1
plain=${2:-$top/crates/plain_rows/out/plain_rows}
[ -x "$plain" ] || (cd "$top/crates/plain_rows" && rt run >/dev/null)
plain=$(realpath "$plain") || exit 1
made=$(mktemp -d) || exit 1
trap 'rm -rf "$made"' EXIT
cd examples || exit 1
: >"$made/trace"
status=0
while read -r program description; do
    rows=$program.rows
    count=$(wc -l <"$rows")
    said=$("$asip" asm "$description.desc" "$program.asm" "$made/image" "$made/list") || { echo "$program: $said"; status=1; continue; }
    "$plain" "$description.desc" "$made/image" "$made/trace" "$count" >"$made/plain"
    python3 "$top/tools/machine.py" "$description.desc" "$made/image" "$made/trace" "$count" >"$made/machine"
    if cmp -s "$rows" "$made/plain" && cmp -s "$rows" "$made/machine"; then
        echo "$program: $count rows, as they are due"
    else
        echo "$program: the rows differ"
        status=1
    fi
done <<'PROGRAMS'
gcd risc
dot risc
euclid euclid
PROGRAMS
exit $status
