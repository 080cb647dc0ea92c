#!/usr/bin/env bash
# The freemap of a volume of 1,048,576 big-blocks over a store of pages: counting the free big-blocks,
# letting zone 8 begin a new one, and refusing a call that needs more than is free. The time is
# processor time; that of a run without calls, which makes the volume, is taken off.
. "$(dirname "${BASH_SOURCE[0]}")/common.bash"

crate=$top/crates/hm_freemap_bench
program=$crate/out/hm_freemap_bench
if [ ! -x "$program" ]; then
    (cd "$crate" && rt run -- count 1) >"$room/build" 2>&1 </dev/null
    [ -x "$program" ] || stop "the program is not built: $(tail -n 3 "$room/build")"
fi

# How long so many calls took, in seconds, into $seconds.
took() {
    measure_best "$program" "$1" "$2"
    [ "$status" -eq 0 ] || stop "$1 ended with status $status"
}

took count 0
made=$seconds

echo "| Call | Calls | A call, ms | Pages read a call |"
echo "|---|---|---|---|"
while read -r call calls; do
    took "$call" "$calls"
    reads=$(sed -n 's/^found [0-9]*, pages read \([0-9]*\)$/\1/p' "$room/out")
    awk -v c="$call" -v n="$calls" -v s="$seconds" -v m="$made" -v r="$reads" 'BEGIN {
        printf "| %s | %d | %.4f | %.1f |\n", c, n, (s - m) * 1000 / n, r / n }'
done <<'CALLS'
count 20
refuse 20
renew 100
renew 4000
CALLS
