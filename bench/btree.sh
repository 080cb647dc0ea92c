#!/usr/bin/env bash
# Calls of the tree beside the standard library's ordered map: inserts, lookups, searches for the last element
# up to a key, and removals of 10,000, 100,000 and 1,000,000 elements, in random and in rising order, and what a
# call reads and writes.
#
# A program that looks up or removes inserts first, so the time of its inserts is taken off.
. "$(dirname "${BASH_SOURCE[0]}")/common.bash"

rounds=5
command -v rustc >/dev/null || stop "rustc is not there"
crate=$top/crates/hm_bench
tree=$crate/out/hm_bench
map=$room/btree_map
rustc -O -o "$map" "$top/bench/btree_map.rs" || stop "the map's program is not built"
if [ ! -x "$tree" ]; then
    (cd "$crate" && rt run) >"$room/build" 2>&1 </dev/null
    [ -x "$tree" ] || stop "the tree's program is not built: $(tail -n 3 "$room/build")"
fi

# How long the calls of a program took, in microseconds a call, into $took.
took() {
    local program=$1 operation=$2 order=$3 elements=$4 calls=$4 inserts=0
    if [ "$operation" != insert ]; then
        measure_best "$program" insert "$order" "$elements"
        inserts=$seconds
    fi
    [ "$operation" = remove ] && calls=$((elements - elements / 100))
    measure_best "$program" "$operation" "$order" "$elements"
    [ "$status" -eq 0 ] || stop "$program ended with status $status"
    took=$(awk -v s="$seconds" -v i="$inserts" -v n="$calls" 'BEGIN { printf "%.2f", (s - i) * 1000000 / n }')
}

# What the tree's program printed after a word, as `read` or `written`.
told() {
    sed -n "s/^$1 a call \([0-9.]*\), at most \([0-9]*\)\$/\1 (\2)/p" "$room/out"
}

echo "| Calls | Order | Elements | Tree, µs | BTreeMap, µs | Ratio | Read a call (most) | Written a call (most) | Levels |"
echo "|---|---|---|---|---|---|---|---|---|"
for operation in insert lookup last remove; do
    for order in random rising; do
        for elements in 10000 100000 1000000; do
            took "$map" "$operation" "$order" "$elements"
            plain=$took
            took "$tree" "$operation" "$order" "$elements"
            levels=$(sed -n 's/^levels \([0-9]*\),.*/\1/p' "$room/out")
            ratio=$(awk -v t="$took" -v p="$plain" 'BEGIN { if (p > 0) printf "%.1f", t / p; else print "-" }')
            echo "| $operation | $order | $elements | $took | $plain | $ratio | $(told read) | $(told written) | $levels |"
        done
    done
done
