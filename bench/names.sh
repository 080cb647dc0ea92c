#!/usr/bin/env bash
# Calls on names over a store in memory, which looks through a plain list, beside the same calls over the
# tree on a table of nodes, and what a call over the tree reads and writes.
#
# A program that asks for names makes them first, so the time in which they are made is taken off.
. "$(dirname "${BASH_SOURCE[0]}")/common.bash"

crate=$top/crates/hm_calls_bench
program=$crate/out/hm_calls_bench
if [ ! -x "$program" ]; then
    (cd "$crate" && rt run -- tree touch 200) >"$room/build" 2>&1 </dev/null
    [ -x "$program" ] || stop "the program is not built: $(tail -n 3 "$room/build")"
fi

# How long the calls of an operation took over a store, in microseconds a call, into $took.
took() {
    local store=$1 operation=$2 names=$3 first= before=0 calls
    case $operation in
        stat | ls) first=touch ;;
        now | past) first=relink ;;
    esac
    if [ -n "$first" ]; then
        measure_best "$program" "$store" "$first" "$names"
        before=$seconds
    fi
    measure_best "$program" "$store" "$operation" "$names"
    [ "$status" -eq 0 ] || stop "$store $operation $names ended with status $status"
    calls=$(sed -n 's/^calls \([0-9]*\), refused 0$/\1/p' "$room/out")
    [ -n "$calls" ] || stop "$store $operation $names: $(head -n 1 "$room/out")"
    took=$(awk -v s="$seconds" -v b="$before" -v n="$calls" 'BEGIN { printf "%.1f", (s - b) * 1000000 / n }')
}

# What the program printed of nodes or payloads after these words.
told() {
    sed -n "s/.*$1 \([0-9.]*\).*/\1/p" "$room/out"
}

echo "| Calls | Names | MemStore, µs | BTree, µs | Nodes read a call | Nodes written a call | Payloads read a call |"
echo "|---|---|---|---|---|---|---|"
while read -r operation names stores; do
    memory=-
    if [ "$stores" = both ]; then
        took memory "$operation" "$names"
        memory=$took
    fi
    took tree "$operation" "$names"
    echo "| $operation | $names | $memory | $took | $(told 'nodes read a call') | $(told written) | $(told 'payloads read a call') |"
done <<'ROWS'
touch 1000 both
touch 10000 both
touch 100000 tree
mkdir 1000 both
mkdir 10000 both
mkdir 100000 tree
stat 1000 both
stat 10000 both
stat 100000 tree
ls 4096 both
relink 1000 both
relink 10000 tree
now 1000 both
now 10000 tree
past 1000 both
past 10000 tree
ROWS
