# What the scripts of this folder share; bash reads it, and it runs nothing by itself.

export LC_ALL=C
top=$(cd "$(dirname "${BASH_SOURCE[0]}")/.." && pwd)
room=$(mktemp -d) || exit 1
volume=$room/volume
trap 'rm -rf "$room"' EXIT

stop() {
    echo "$(basename "$0"): $1" >&2
    exit 1
}

# Builds the program where that is due, so that no build falls into a figure.
prepare() {
    "$top/hammer" "$volume" --newfs 24 </dev/null || stop "an empty script ended with status $?"
}

# Runs the words once: the processor time that they took, user and system, in seconds, into $seconds,
# and their status into $status. Their output goes to the file $room/out.
measure() {
    local TIMEFORMAT='%3U %3S' user system
    { time "$@" >"$room/out" 2>"$room/err"; } 2>"$room/time"
    status=$?
    read -r user system <"$room/time"
    seconds=$(awk -v u="$user" -v s="$system" 'BEGIN { printf "%.3f", u + s }')
}

# The same, as the best of three runs, or of as many as $rounds says.
measure_best() {
    local best= i
    for ((i = 0; i < ${rounds:-3}; i++)); do
        measure "$@"
        if [ -z "$best" ] || awk -v a="$seconds" -v b="$best" 'BEGIN { exit !(a < b) }'; then
            best=$seconds
        fi
    done
    seconds=$best
}

# Runs the words once: the most memory that they held at one time, in bytes, into $peak. It is empty
# where nothing here can tell.
measure_peak() {
    peak=
    if /usr/bin/time -f %M true >/dev/null 2>&1; then
        /usr/bin/time -o "$room/peak" -f %M "$@" >"$room/out" 2>"$room/err"
        peak=$(($(tail -n 1 "$room/peak") * 1024))
    elif command -v python3 >/dev/null; then
        peak=$(python3 -c '
import resource, subprocess, sys
subprocess.run(sys.argv[1:], stdout=subprocess.DEVNULL, stderr=subprocess.DEVNULL)
unit = 1 if sys.platform == "darwin" else 1024
print(resource.getrusage(resource.RUSAGE_CHILDREN).ru_maxrss * unit)' "$@")
    fi
}

# Runs a program over $volume with an empty script or one from a file, and writes the calls that it makes on
# the volume to $room/calls, as bench/plain_calls.c reads them. The file descriptor is that of the last file
# that was opened to be written.
record_calls() {
    strace -s 0 -e trace=openat,read,write,pread64,pwrite64,fsync,fdatasync -o "$room/trace" \
        "$1" "$volume" <"$2" >"$room/out" 2>"$room/err" || stop 'the run under strace failed'
    awk -F'[(), ]+' '
        $1 == "openat" && /O_RDWR/ { file = $NF }
        $1 == "write" && $2 == 1 { print "a" }
        $2 != file { next }
        $1 == "pread64" { print "r", $5, $4 }
        $1 == "pwrite64" { print "w", $5, $4 }
        $1 == "fsync" || $1 == "fdatasync" { print "s" }' "$room/trace" >"$room/calls"
}

# The least processor time and the least time by the clock of five runs of some words, each after $1, into
# $best and $clock, in seconds.
least_after() {
    local prepare_one=$1 round before after
    shift
    best='' clock=''
    for round in 1 2 3 4 5; do
        "$prepare_one"
        before=$(date +%s%N)
        measure "$@"
        after=$(date +%s%N)
        [ "$status" -eq 0 ] || stop "$*: status $status"
        best=$(awk -v a="${best:-1e9}" -v b="$seconds" 'BEGIN { printf "%.3f", (a < b) ? a : b }')
        clock=$(awk -v a="${clock:-1e9}" -v b=$((after - before)) 'BEGIN { b /= 1e9; printf "%.3f", (a < b) ? a : b }')
    done
}

# Compares a run with a plain program that makes its calls again, each after $2, and counts the calls.
beside_plain_calls() {
    local what=$1 prepare_one=$2 mine my_clock
    shift 2
    least_after "$prepare_one" "$@"
    mine=$best my_clock=$clock
    least_after "$prepare_one" "$room/plain_calls" "$volume" "$room/calls"
    awk -v what="$what" -v a="$mine" -v b="$best" -v c="$my_clock" -v d="$clock" 'BEGIN {
        printf "%-28s %10s %10s %7s\n", what, "hammer", "plain C", "ratio"
        printf "%-28s %10.3f %10.3f %7.2f\n", "processor time", a, b, a / b
        printf "%-28s %10.3f %10.3f %7.2f\n", "by the clock", c, d, c / d
    }'
    awk '
        $1 == "r" { reads++; in_bytes += $3 }
        $1 == "w" { writes++; out_bytes += $3 }
        $1 == "s" { syncs++ }
        END { printf "%d reads of %d bytes, %d writes of %d bytes, %d syncs\n", reads, in_bytes, writes, out_bytes, syncs }' "$room/calls"
}

# Builds syncs that do nothing, for `run_unsynced`.
build_nosync() {
    echo 'int fsync(int file) { return -(file < 0); } int fdatasync(int file) { return -(file < 0); }' |
        "${CC:-cc}" -O2 -shared -fPIC -o "$room/nosync.so" -x c - 2>"$room/err" || stop 'the syncs that do nothing were not built'
}

# Runs the program with the script in a file over the volume, with syncs that do nothing.
run_unsynced() { LD_PRELOAD=$room/nosync.so "$hammer" "$volume" <"$1"; }

# Makes the volume anew, as it was kept.
restore_volume() { cp --sparse=always "$room/volume-before" "$volume"; }

# Runs a script of these lines, in runs of at most 50,000, each of which must be answered ok.
run_lines() {
    rm -f "$room"/part-*
    split -l 50000 - "$room/part-"
    for part in "$room"/part-*; do
        run_unsynced "$part" >"$room/out" || stop "a run ended with status $?"
        [ "$(grep -c ' ok' "$room/out")" -eq "$(wc -l <"$part")" ] || stop "not each line of $part was answered"
    done
}

# The time of some words, less that of others, each after $1, into $seconds.
time_beyond() {
    local first
    least_after "$1" "${@:2:2}"
    first=$best
    least_after "$1" "${@:4:2}"
    seconds=$(awk -v a="$best" -v b="$first" 'BEGIN { printf "%.3f", a - b }')
}

# How many bytes and syncs the words make, as strace counts them.
count_calls() {
    command -v strace >/dev/null || { echo 'unknown, without strace'; return; }
    strace -f -s 0 -e trace=write,pwrite64,fsync,fdatasync -o "$room/trace" "$@" >"$room/out" 2>"$room/err" ||
        stop "$*: failed under strace"
    awk '
        / (write|pwrite64)\([12],/ { next }
        / (write|pwrite64)\(/ && match($0, /= [0-9]+$/) { bytes += substr($0, RSTART + 2); writes++ }
        / f(data)?sync\(/ { syncs++ }
        END { printf "%d writes of %d bytes, %d syncs\n", writes, bytes, syncs }' "$room/trace"
}
