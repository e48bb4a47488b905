#!/usr/bin/env bash
# Makes each allocation of the stored run fail in turn: every run has to end with status 7 or 0. It stops after three runs
# in a row that end with 0, since then no allocation is left to fail. Four runs go side by side; each takes about a minute.
#   tools/each_allocation.sh [FIRST]
set -u
cd "$(dirname "$0")/../crates/asip" || exit 1
command -v rt >/dev/null || { echo "rt: isn't here, skipped"; exit 0; }

first=${1:-1}
try() {
    rt try --fail-alloc "$1" --data B1.desc=data/B1.desc -- gen B1.desc B1.v 2>&1 | sed -n 's/^checked: ended status=//p'
}
zeros=0
while :; do
    folder=$(mktemp -d)
    for n in $(seq "$first" $((first + 3))); do try "$n" >"$folder/$n" & done
    wait
    for n in $(seq "$first" $((first + 3))); do
        status=$(cat "$folder/$n")
        case $status in
            7) zeros=0 ;;
            0) zeros=$((zeros + 1)) ;;
            *) echo "allocation $n: the run ended with ${status:-no status}"; exit 1 ;;
        esac
        [ $zeros -lt 3 ] || { echo "allocations 1 to $((n - 3)): each run ended with 7 or 0"; exit 0; }
    done
    rm -r "$folder"
    first=$((first + 4))
done
