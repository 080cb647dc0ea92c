#!/usr/bin/env bash
# Files in one directory: the time to make and to look up 10,000 of them in one run each, and 100,000 in
# two runs each, the time to open the volume then, and the memory, beside the library of SQLite, which
# does the same on a table, without syncs and with `synchronous = NORMAL`. Processor time, user and system,
# the best of three. Where strace is there, a plain program makes the calls of the flushes again that the
# second run of 50,000 made.
. "$(dirname "${BASH_SOURCE[0]}")/common.bash"

cc=${CC:-cc}
"$cc" -O2 -o "$room/sqlite_files" "$top/bench/sqlite_files.c" -lsqlite3 2>"$room/err" ||
    stop "the program over SQLite was not built: is libsqlite3-dev there?"
prepare
hammer=$top/crates/hm_shell/out/hm_shell
base=$room/base

# A script of lines `touch` or `stat` for so many files from one on.
lines() {
    awk -v what="$1" -v from="$2" -v count="$3" \
        'BEGIN { for (i = from; i < from + count; i++) printf "%s /f%08d\n", what, i }'
}
for part in 'a 0 10000' 'b 0 50000' 'c 50000 50000'; do
    read -r name from count <<<"$part"
    lines touch "$from" "$count" >"$room/touch-$name"
    lines stat "$from" "$count" >"$room/stat-$name"
done
: >"$room/nothing"

# Adds what one run takes to $total, and looks whether each of its lines was answered.
add() {
    local want=$1
    shift
    measure "$@"
    [ "$status" -eq 0 ] || stop "$* ended with status $status"
    [ "$(grep -c ' ok' "$room/out")" -ge "$want" ] || [ "$(grep -c '^ok' "$room/out")" -ge "$want" ] ||
        stop "$*: not each line was answered"
    total=$(awk -v a="$total" -v b="$seconds" 'BEGIN { printf "%.3f", a + b }')
}
over() { "$hammer" "$volume" <"$1"; }
make_volume() { "$hammer" "$volume" --newfs 100 <"$room/nothing"; }
synced() { SYNCHRONOUS=NORMAL "$room/sqlite_files" "$room/synced" "$@"; }

# One round over both at a size: the runs that make, and those that look.
round() {
    local names=$1 each=$2 name from=0
    make_volume
    rm -f "$base"*
    total=0; for name in $names; do add "$each" over "$room/touch-$name"; done; hammer_touch=$total
    total=0; for name in $names; do add "$each" over "$room/stat-$name"; done; hammer_stat=$total
    total=0; from=0; for name in $names; do add "$each" "$room/sqlite_files" "$base" touch "$from" "$each"; from=$((from + each)); done; sqlite_touch=$total
    total=0; from=0; for name in $names; do add "$each" "$room/sqlite_files" "$base" stat "$from" "$each"; from=$((from + each)); done; sqlite_stat=$total
    rm -f "$room/synced"*
    total=0; from=0; for name in $names; do add "$each" synced touch "$from" "$each"; from=$((from + each)); done; sqlite_synced=$total
    total=0; add 0 over "$room/nothing"; hammer_open=$total
    total=0; add 0 "$room/sqlite_files" "$base" check; sqlite_open=$total
}
best() { awk -v a="${1:-1e9}" -v b="$2" 'BEGIN { printf "%.3f", (a < b) ? a : b }'; }

printf '%-8s %-28s %10s %10s %7s\n' files what hammer SQLite ratio
for size in '10000 10000 a' '100000 50000 b c'; do
    read -r files each names <<<"$size"
    ht='' hs='' ho='' st='' ss='' so='' sn=''
    for _ in 1 2 3; do
        round "$names" "$each"
        ht=$(best "$ht" "$hammer_touch") hs=$(best "$hs" "$hammer_stat") ho=$(best "$ho" "$hammer_open")
        st=$(best "$st" "$sqlite_touch") ss=$(best "$ss" "$sqlite_stat") so=$(best "$so" "$sqlite_open")
        sn=$(best "$sn" "$sqlite_synced")
    done
    for row in "touch_of_each $ht $st" "the_same,_SQLite_NORMAL $ht $sn" "stat_of_each $hs $ss" "an_empty_script,_a_check $ho $so"; do
        read -r what a b <<<"$row"
        printf '%-8d %-28s %8s s %8s s %7s\n' "$files" "${what//_/ }" "$a" "$b" \
            "$(awk -v a="$a" -v b="$b" 'BEGIN { if (b > 0) printf "%.2f", a / b; else print "-" }')"
    done
done
# shellcheck disable=SC2016
measure_peak bash -c 'exec "$0" "$1" <"$2"' "$hammer" "$volume" "$room/stat-c"
echo "memory of the last run of 50,000 looks: ${peak:-unknown} bytes"

# The calls of the flushes of one run: what it reads and syncs once its first line is answered, and what it writes
# but for payloads, which are written as their calls are run.
command -v strace >/dev/null || { echo 'no strace: the calls of the flushes were not measured'; exit 0; }
"$cc" -O2 -o "$room/plain_calls" "$top/bench/plain_calls.c" 2>"$room/err" || stop "the plain program was not built"
make_volume
over "$room/touch-b" >"$room/out"
cp "$volume" "$room/before"
record_calls "$hammer" "$room/touch-c"
awk '$1 == "a" { begun = 1; next } begun && !($1 == "w" && $3 < 256)' "$room/calls" >"$room/flushes"
mv "$room/flushes" "$room/calls"
restore() { cp "$room/before" "$volume"; }
over_last() { over "$room/touch-c"; }
beside_plain_calls 'flushes of 50,000 touch' restore over_last
