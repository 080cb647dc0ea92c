#!/usr/bin/env bash
# Prunes: the time of one that removes 100,000 elements of 200,000, and of one that removes twice as many of twice as
# many, beside a statement of the library of SQLite that deletes as many rows of a table with the same keys and an index
# on the id by which they were closed; and which syncs and bytes either makes. Then the time of the first and of each
# later `pfs-master` of a run, where there are 10 pseudo file systems and 60,000. Last, over the tree in memory alone, of a
# prune and of as many removals in the same order, each a call of its own. Processor time, user and system, the best of
# five, each on a fresh copy; an opening is taken off, and a sync does nothing in the runs that are timed.
. "$(dirname "${BASH_SOURCE[0]}")/common.bash"

cc=${CC:-cc}
"$cc" -O2 -o "$room/sqlite_prune" "$top/bench/sqlite_prune.c" -lsqlite3 2>"$room/err" ||
    stop "the program over SQLite was not built: is libsqlite3-dev there?"
build_nosync
prepare
hammer=$top/crates/hm_shell/out/hm_shell
base=$room/base
: >"$room/nothing"
echo 'prune-everything /' >"$room/prune"

sqlite() { "$room/sqlite_prune" "$base" "$1"; }
restore_base() { rm -f "$base"*; cp "$room/table-before" "$base"; }

# A volume of so many files, each an inode and an entry, of which each second one is removed; and the table beside it.
make_both() {
    "$hammer" "$volume" --newfs 200 <"$room/nothing" || stop 'no volume'
    awk -v n="$1" 'BEGIN { for (i = 0; i < n; i++) printf "touch /f%08d\n", i }' | run_lines
    awk -v n="$1" 'BEGIN { for (i = 1; i < n; i += 2) printf "rm /f%08d\n", i }' | run_lines
    cp --sparse=always "$volume" "$room/volume-before"
    rm -f "$base"*
    "$room/sqlite_prune" "$base" make "$1" || stop 'no table'
    cp "$base" "$room/table-before"
}

printf '%-10s %10s %10s %7s\n' removed hammer SQLite ratio
once=
for files in 100000 200000; do
    make_both "$files"
    time_beyond restore_volume run_unsynced "$room/nothing" run_unsynced "$room/prune"
    mine=$seconds
    tail -n 1 "$room/out" | grep -q ' ok 0x[0-9a-f]* done$' || stop 'the prune did not end with done'
    time_beyond restore_base sqlite open sqlite prune
    [ "$(tail -n 1 "$room/out")" -eq "$files" ] || stop 'another number of rows was deleted'
    awk -v n="$files" -v a="$mine" -v b="$seconds" 'BEGIN { printf "%-10d %8s s %8s s %7.2f\n", n, a, b, a / b }'
    if [ -z "$once" ]; then
        once=$mine
        restore_volume
        # shellcheck disable=SC2016
        calls=$(count_calls bash -c '"$0" "$1" <"$2"' "$hammer" "$volume" "$room/prune")
        restore_base
        beside=$(SYNCHRONOUS=NORMAL count_calls "$room/sqlite_prune" "$base" prune)
    fi
done
awk -v a="$mine" -v b="$once" 'BEGIN { printf "twice as many take %.2f times as long, of at most 2.30\n", a / b }'
echo "hammer, the first prune:  $calls"
echo "SQLite, NORMAL, the same: $beside"

later=5000
one() { echo "pfs-master /$1 00000000000000aa"; }
one first >"$room/first"
{ one first; for ((i = 0; i < later; i++)); do one "later$i"; done; } >"$room/later"
printf '%-10s %12s %12s\n' PFS 'the first' 'each later'
for count in 10 60000; do
    "$hammer" "$volume" --newfs 200 <"$room/nothing" || stop 'no volume'
    awk -v n="$count" 'BEGIN { for (i = 0; i < n; i++) printf "pfs-master /p%05d 00000000000000aa\n", i }' | run_lines
    cp --sparse=always "$volume" "$room/volume-before"
    time_beyond restore_volume run_unsynced "$room/nothing" run_unsynced "$room/first"
    first=$seconds
    time_beyond restore_volume run_unsynced "$room/first" run_unsynced "$room/later"
    awk -v n="$count" -v a="$first" -v b="$seconds" -v m="$later" \
        'BEGIN { printf "%-10d %9.0f µs %9.1f µs\n", n, (a > 0) ? a * 1e6 : 0, b * 1e6 / m }'
done

program=$top/crates/hm_calls_bench/out/hm_calls_bench
if [ ! -x "$program" ]; then
    (cd "$top/crates/hm_calls_bench" && rt run -- dead make 2) >"$room/build" 2>&1 </dev/null
    [ -x "$program" ] || stop "the program is not built: $(tail -n 3 "$room/build")"
fi

# How long the dead elements of a tree in memory take to go in this way, each second one of so many, into $seconds.
dead() {
    local made
    rounds=5 measure_best "$program" dead make "$2"
    made=$seconds
    rounds=5 measure_best "$program" dead "$1" "$2"
    [ "$status" -eq 0 ] || stop "dead $1 $2 ended with status $status"
    seconds=$(awk -v a="$seconds" -v b="$made" 'BEGIN { printf "%.3f", a - b }')
}

printf '%-10s %10s %10s %7s\n' 'in memory' prune removals ratio
for gone in 100000 200000; do
    dead prune $((2 * gone))
    pruned=$seconds
    dead remove $((2 * gone))
    awk -v n="$gone" -v a="$pruned" -v b="$seconds" 'BEGIN { printf "%-10d %8s s %8s s %7.2f\n", n, a, b, a / b }'
done
