#!/usr/bin/env bash
# Reblocks: the time of one that empties 20 big-blocks which are half in use by blocks of 16,384 bytes, beside a plain C
# program that reads and writes as many pieces of a file; and of one that empties a big-block which is half in use by the
# inodes and entries of files, beside the time in which `touch` makes as many. Then the same of twice as many, and all of
# it on a volume with a million other elements. Processor time, user and system, the best of five, each on a fresh copy; an
# opening is taken off, and a sync does nothing in the runs that are timed. Needs strace, which counts what is moved.
. "$(dirname "${BASH_SOURCE[0]}")/common.bash"

command -v strace >/dev/null || stop 'needs strace'
cc=${CC:-cc}
"$cc" -O2 -o "$room/plain_moves" "$top/bench/plain_moves.c" 2>"$room/err" || stop 'the plain program was not built'
build_nosync
prepare
hammer=$top/crates/hm_shell/out/hm_shell
touches=50000
: >"$room/nothing"
echo 'reblock 60' >"$room/reblock"
awk -v n=$touches 'BEGIN { for (i = 0; i < n; i++) printf "touch /t%08d\n", i }' >"$room/touch"

# A new volume with so many files, which have two elements each.
begin() {
    "$hammer" "$volume" --newfs 200 <"$room/nothing" || stop 'no volume'
    [ "$1" -eq 0 ] || awk -v n="$1" 'BEGIN { for (i = 0; i < n; i++) printf "touch /m%08d\n", i }' | run_lines
    cp --sparse=always "$volume" "$room/begun"
}

# So many big-blocks of blocks of 16,384 bytes, each of which takes 127 lines `fill`: each second line stays.
halve_large() {
    awk -v n=$((127 * $1 + 1)) 'BEGIN {
        print "touch /g"
        for (i = 0; i < n; i++) {
            file = int(i / 480)
            if (i % 480 == 0) print "touch /k" file
            if (i % 2 == 0) print "fill /k" file " " i / 2 % 240 * 65536 " 65536 61"
            else print "fill /g 0 65536 62"
        }
        print "rm /g\nprune-everything /"
    }' | run_lines
}

# So many big-blocks of inodes and entries: a `touch` of a name of nine bytes takes 64 bytes, so that they take up to
# 129,025 each. Each second file stays.
halve_small() {
    awk -v n=$((129025 * $1 + 50)) 'BEGIN {
        for (i = 0; i < n; i++) printf "touch /f%08d\n", i
        for (i = 1; i < n; i += 2) printf "rm /f%08d\n", i
        print "prune-everything /"
    }' | run_lines
}

# How long a reblock takes, into $mine, and how many extents it moves, into $moved: payloads are written by a call each,
# and pages, entries of the log and headers have other sizes.
reblock() {
    time_beyond restore_volume run_unsynced "$room/nothing" run_unsynced "$room/reblock"
    mine=$seconds
    tail -n 1 "$room/out" | grep -q ' ok 0x[0-9a-f]* done$' || stop 'the reblock did not end with done'
    restore_volume
    strace -s 0 -e trace=pwrite64 -o "$room/trace" "$hammer" "$volume" <"$room/reblock" >"$room/out" ||
        stop 'the run under strace failed'
    moved=$(grep -c -v -E '= (1|4096|4128|16383)$|^\+' "$room/trace")
}

restore_plain() { cp "$room/plain-before" "$room/plain"; }
plain_move() { "$room/plain_moves" "$room/plain" move "$1"; }

beside_large() {
    rm -f "$room/plain-before"
    "$room/plain_moves" "$room/plain-before" make "$moved" || stop 'no plain file'
    time_beyond restore_plain plain_move 0 plain_move "$moved"
}

# Files that are made on the same volume: two extents and two elements each.
beside_small() {
    time_beyond restore_volume run_unsynced "$room/nothing" run_unsynced "$room/touch"
    seconds=$(awk -v s="$seconds" -v n="$moved" -v t=$((2 * touches)) 'BEGIN { printf "%.3f", s * n / t }')
}

# Measures so many big-blocks of a kind, and once more as many.
compare() {
    local kind=$1 count once=
    for count in "$2" $((2 * $2)); do
        cp --sparse=always "$room/begun" "$volume"
        "halve_$kind" "$count"
        cp --sparse=always "$volume" "$room/volume-before"
        reblock
        "beside_$kind"
        awk -v k="$kind" -v b="$count" -v n="$moved" -v a="$mine" -v c="$seconds" 'BEGIN {
            printf "%-8s %10d %10d %8s s %8.2f µs %8s s %7.2f\n", k, b, n, a, a * 1e6 / n, c, a / c }'
        once=${once:-$mine}
    done
    awk -v a="$mine" -v b="$once" 'BEGIN { printf "twice as many take %.2f times as long, of at most 2.30\n", a / b }'
}

for others in 0 516200; do
    begin "$others"
    printf '\n%s other elements\n' $((2 * others))
    printf '%-8s %10s %10s %10s %11s %10s %7s\n' pieces big-blocks moved hammer 'each' beside ratio
    compare large 20
    compare small 1
done
