#!/usr/bin/env bash
# The bytes of files: a file of 15,728,640 bytes written, read, and overwritten with both versions read,
# beside plain pwrite and pread; overwriting at random places, and reading the present and the past; many
# short appends; and 1,000 files of 20,000 bytes, beside the library of SQLite, a row a block, without syncs
# and with `synchronous = NORMAL`. Processor time, user and system, the best of three, and of ten where the
# digits are taken off.
. "$(dirname "${BASH_SOURCE[0]}")/common.bash"

cc=${CC:-cc}
"$cc" -O2 -o "$room/plain_bytes" "$top/bench/plain_bytes.c" 2>"$room/err" ||
    stop "the program over pwrite and pread was not built"
"$cc" -O2 -o "$room/sqlite_blobs" "$top/bench/sqlite_blobs.c" -lsqlite3 2>"$room/err" ||
    stop "the program over SQLite was not built: is libsqlite3-dev there?"
prepare
hammer=$top/crates/hm_shell/out/hm_shell
size=15728640
: >"$room/nothing"

# Lines `write` of a whole file in pieces of 65,536 bytes, each of this byte as two digits.
writes() {
    awk -v path="$1" -v byte="$2" -v size=$size 'BEGIN {
        digits = byte
        while (length(digits) < 131072) digits = digits digits
        for (at = 0; at < size; at += 65536) print "write " path " " at " " digits
    }'
}

# Lines `cat` of a whole file in pieces of 16,384 bytes.
reads() {
    awk -v path="$1" -v size=$size 'BEGIN { for (at = 0; at < size; at += 16384) print "cat " path " " at " 16384" }'
}

# So many lines with a random place each, always the same ones: what stands before the place, and after it.
at_random() {
    awk -v before="$1" -v after="$2" -v count="$3" -v most=$((size - 4096)) 'BEGIN {
        srand(1)
        for (i = 0; i < count; i++) print before " " int(rand() * (most + 1)) " " after
    }'
}

over() { "$hammer" "$volume" <"$1"; }
make_volume() { "$hammer" "$volume" --newfs 100 <"$room/nothing" >"$room/out" || stop 'no volume'; }

# Runs the words, of which so many lines are to be answered by this text; the time goes to $seconds.
timed() {
    local want=$1 text=$2 came
    shift 2
    measure "$@"
    came=$(grep -c -E "^(0x[0-9a-f]{16} )?$text" "$room/out")
    [ "$status" -eq 0 ] && [ "$came" -ge "$want" ] || stop "$*: status $status, $came lines in place of $want"
}

# Keeps the least time of each name, in the array `least`.
declare -A least
keep() {
    local old=${least[$1]:-1e9}
    least[$1]=$(awk -v a="$seconds" -v b="$old" 'BEGIN { printf "%.3f", (a < b) ? a : b }')
}
calculate() { awk "BEGIN { printf \"$1\", ($2) }"; }

# One file, whole. A write into a directory and a read of a hole take the same digits, and no bytes of
# the volume.
{ echo 'touch /f'; writes /f 61; } >"$room/write"
writes /f 62 >"$room/overwrite"
writes /d 61 >"$room/no_write"
reads /f >"$room/read"
{ reads /f; reads /@@0x00000000000000f2/f; } >"$room/read_both"
reads /h >"$room/no_read"
{ reads /h; reads /h; } >"$room/no_read_both"
printf 'mkdir /d\ntouch /h\ntruncate /h %d\n' $size >"$room/others"
for _ in {1..10}; do
    make_volume
    rm -f "$room/plain"
    timed 241 ok over "$room/write"; keep write
    timed 960 ok over "$room/read"; keep read
    timed 240 ok over "$room/overwrite"; keep overwrite
    timed 1920 ok over "$room/read_both"; keep read_both
    timed 3 ok over "$room/others"
    timed 240 'is a directory' over "$room/no_write"; keep no_write; keep no_overwrite
    timed 960 ok over "$room/no_read"; keep no_read
    timed 1920 ok over "$room/no_read_both"; keep no_read_both
    timed 240 ok "$room/plain_bytes" "$room/plain" write 0 $size 65536; keep plain_write
    timed 960 ok "$room/plain_bytes" "$room/plain" read 0 $size 16384; keep plain_read
    timed 240 ok "$room/plain_bytes" "$room/plain" write $size $size 65536; keep plain_overwrite
    timed 1920 ok "$room/plain_bytes" "$room/plain" read 0 $((2 * size)) 16384; keep plain_read_both
done
printf '%-34s %10s %14s %12s %7s\n' "$size bytes" hammer 'digits alone' plain ratio
for row in 'write in pieces of 65,536|write' 'read in pieces of 16,384|read' 'overwrite once|overwrite' \
    'read both versions|read_both'; do
    name=${row#*|}
    a=${least[$name]} b=${least[no_$name]} c=${least[plain_$name]}
    printf '%-34s %8s s %12s s %10s s %7s\n' "${row%|*}" "$a" "$b" "$c" \
        "$(calculate %.1f "$c > 0 ? ($a - $b) / $c : 0")"
done

# Overwriting at random places. The past ids are those after 2,500, 5,000 and 7,500 overwrites.
awk -v size=$size 'BEGIN {
    print "touch /f"
    for (at = 0; at < size; at += 65536) print "fill /f " at " 65536 61"
}' >"$room/base"
at_random 'fill /f' '4096 62' 10000 >"$room/scatter"
rounds=20
repeat() { for ((i = 0; i < rounds; i++)); do at_random "cat $1" 4096 100; done; }
repeat /f >"$room/cats-now"
for overwrites in 2500 5000 7500; do
    id=$(printf '%016x' $((242 + overwrites)))
    repeat "/@@0x$id/f" >"$room/cats-$overwrites"
done
for _ in 1 2 3; do
    make_volume
    rm -f "$room/plain"
    timed 241 ok over "$room/base"
    timed 0 ok over "$room/nothing"; keep open_base
    timed 10000 ok over "$room/scatter"; keep scatter
    timed 0 ok over "$room/nothing"; keep open_scatter
    for past in now 2500 5000 7500; do
        timed $((100 * rounds)) ok over "$room/cats-$past"; keep "cats_$past"
    done
    timed 240 ok "$room/plain_bytes" "$room/plain" write 0 $size 65536
    timed 10000 ok "$room/plain_bytes" "$room/plain" scatter $size 4096 10000; keep plain_scatter
done
each() { calculate %.1f "($1 - $2) * 1000000 / $3"; }
echo
echo 'of a call, its volume open already'
printf '%-50s %8s us\n' '10,000 overwrites of 4,096 bytes, each' \
    "$(each "${least[scatter]}" "${least[open_base]}" 10000)"
printf '%-50s %8s us\n' 'the same by pwrite' "$(each "${least[plain_scatter]}" 0 10000)"
for past in now 2500 5000 7500; do
    label="cat of 4,096 bytes as of $past overwrites"
    [ $past = now ] && label='cat of 4,096 bytes, now'
    printf '%-50s %8s us\n' "$label" \
        "$(each "${least[cats_$past]}" "${least[open_scatter]}" $((100 * rounds)))"
done

# Appends of 100 bytes, each a call. Each run of them has the volume to open first.
appends() {
    awk -v from="$1" -v to="$2" 'BEGIN { for (i = from; i < to; i++) print "fill /f " i * 100 " 100 61" }'
}
appends 0 1000 >"$room/first"
appends 1000 9000 >"$room/middle"
appends 9000 10000 >"$room/last"
echo 'touch /f' >"$room/touch"
# One block that grew by 163 appends, and one that was overwritten as often.
{
    printf 'touch /grown\ntouch /whole\nfill /whole 0 16384 61\n'
    awk 'BEGIN {
        for (i = 0; i < 163; i++) print "fill /grown " i * 100 " 100 61"
        for (i = 0; i < 163; i++) print "fill /whole " i * 100 " 100 62"
    }'
} >"$room/blocks"
for file in grown whole; do
    for ((i = 0; i < 2000; i++)); do echo "cat /$file 0 16300"; done >"$room/cat-$file"
done
for _ in 1 2 3; do
    make_volume
    timed 1 ok over "$room/touch"
    timed 0 ok over "$room/nothing"; keep open_first
    timed 1000 ok over "$room/first"; keep first
    timed 8000 ok over "$room/middle"
    timed 0 ok over "$room/nothing"; keep open_last
    timed 1000 ok over "$room/last"; keep last
    make_volume
    timed 329 ok over "$room/blocks"
    timed 0 ok over "$room/nothing"; keep open_blocks
    timed 2000 ok over "$room/cat-grown"; keep grown
    timed 2000 ok over "$room/cat-whole"; keep whole
done
printf '%-50s %8s us\n' 'the first thousand of 10,000 appends of 100 bytes' \
    "$(each "${least[first]}" "${least[open_first]}" 1000)"
printf '%-50s %8s us\n' 'the last thousand of them' "$(each "${least[last]}" "${least[open_last]}" 1000)"
printf '%-50s %8s us\n' 'cat of a block after 163 appends' \
    "$(each "${least[grown]}" "${least[open_blocks]}" 2000)"
printf '%-50s %8s us\n' 'cat of a block after 163 overwrites' \
    "$(each "${least[whole]}" "${least[open_blocks]}" 2000)"

# Files of 20,000 bytes, each made and filled by a call of its own.
awk 'BEGIN { for (i = 0; i < 1000; i++) printf "touch /f%04d\nfill /f%04d 0 20000 61\n", i, i }' >"$room/files"
sqlite() { rm -f "$room/base.db"*; "$room/sqlite_blobs" "$room/base.db" fill 1000 20000; }
synced() { SYNCHRONOUS=NORMAL sqlite; }
for _ in 1 2 3; do
    make_volume
    timed 0 ok over "$room/nothing"; keep open_files
    timed 2000 ok over "$room/files"; keep files
    timed 2000 ok sqlite; keep sqlite
    timed 2000 ok synced; keep synced
done

# The bytes that the words write to files, into $bytes, where strace can tell.
count_bytes() {
    bytes=unknown
    command -v strace >/dev/null || return
    strace -f -e trace=write,pwrite64 -o "$room/calls" "$@" >"$room/out" 2>"$room/err" || return
    bytes=$(awk 'match($0, /(write|pwrite64)\([0-9]+/) {
        split(substr($0, RSTART, RLENGTH), call, "(")
        if (call[2] > 2 && match($0, /= [0-9]+$/)) sum += substr($0, RSTART + 2)
    } END { print sum + 0 }' "$room/calls")
}
make_volume
# shellcheck disable=SC2016
count_bytes bash -c 'exec "$0" "$1" <"$2"' "$hammer" "$volume" "$room/files"
hammer_bytes=$bytes
rm -f "$room/base.db"*
count_bytes "$room/sqlite_blobs" "$room/base.db" fill 1000 20000
echo
printf '%-34s %10s %14s %12s %12s\n' '1,000 files of 20,000 bytes' hammer 'opening of it' SQLite 'SQLite NORMAL'
printf '%-34s %8s s %12s s %10s s %11s s\n' 'touch and fill of each' "${least[files]}" "${least[open_files]}" \
    "${least[sqlite]}" "${least[synced]}"
printf '%-34s %10s %14s %12s\n' 'bytes written to files' "$hammer_bytes" '' "$bytes"
