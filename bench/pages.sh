#!/usr/bin/env bash
# The store of pages beside the standard library's hash map of boxed pages: so many new pages, which the
# store takes in calls of 1,000 that are kept, frozen and committed every 10,000. The time is processor
# time; the memory is the most that was held at one time.
. "$(dirname "${BASH_SOURCE[0]}")/common.bash"

command -v rustc >/dev/null || stop "rustc is not there"
crate=$top/crates/hm_pages_bench
store=$crate/out/hm_pages_bench
map=$room/page_map
rustc -O -o "$map" "$top/bench/page_map.rs" || stop "the map's program is not built"
if [ ! -x "$store" ]; then
    (cd "$crate" && rt run -- 10000) >"$room/build" 2>&1 </dev/null
    [ -x "$store" ] || stop "the store's program is not built: $(tail -n 3 "$room/build")"
fi

# The time of a program on so many pages, in seconds, into $seconds, and its memory, in bytes, into $peak.
took() {
    measure_best "$1" "$2"
    [ "$status" -eq 0 ] || stop "$1 ended with status $status"
    measure_peak "$1" "$2"
}

echo "| Pages | Store, s | HashMap, s | Ratio | Store, MB | HashMap, MB | Ratio |"
echo "|---|---|---|---|---|---|---|"
for pages in 10000 100000; do
    took "$map" "$pages"
    plain=$seconds plain_peak=${peak:-0}
    took "$store" "$pages"
    awk -v n="$pages" -v s="$seconds" -v p="$plain" -v m="${peak:-0}" -v q="$plain_peak" 'BEGIN {
        time = p > 0 ? sprintf("%.1f", s / p) : "-"; room = q > 0 ? sprintf("%.2f", m / q) : "-"
        printf "| %d | %.3f | %.3f | %s | %.1f | %.1f | %s |\n", n, s, p, time, m / 1e6, q / 1e6, room }'
done
