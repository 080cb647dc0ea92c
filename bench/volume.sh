#!/usr/bin/env bash
# Writing a volume: the writes and the syncs of a run that adds 1,000 directories to a volume of 24
# big-blocks, as strace counts them: payloads as the lines are run, and the log, pages and two headers at
# the end.
. "$(dirname "${BASH_SOURCE[0]}")/common.bash"

command -v strace >/dev/null || stop "strace is not there"
directories=1000
script=$room/script
awk -v n="$directories" 'BEGIN { for (i = 1; i <= n; i++) printf "mkdir /%08d\n", i }' >"$script"

prepare
program=$top/crates/hm_shell/out/hm_shell
strace -f -e trace=open,openat,write,pwrite64,fsync,fdatasync -o "$room/calls" \
    "$program" "$volume" <"$script" >"$room/out" || stop "the run ended with status $?"
[ "$(grep -c ' ok$' "$room/out")" -eq "$directories" ] || stop "not each line was answered ok"

# What each directory adds: an inode of 32 bytes, and an entry of 8 bytes and its name, of 8 bytes.
payloads=$((directories * (32 + 16)))
awk -v volume="$volume" -v directories="$directories" -v payloads="$payloads" '
    index($0, "\"" volume "\"") && match($0, /= [0-9]+$/) { fd = substr($0, RSTART + 2) }
    fd != "" && ($0 ~ " (write|pwrite64)\\(" fd ",") && match($0, /= [0-9]+$/) {
        written = substr($0, RSTART + 2)
        writes++
        bytes += written
        if (written == 4096) pages++; else if (written == 4128) entries++; else small += written
    }
    fd != "" && ($0 ~ " f(data)?sync\\(" fd "\\)") { syncs++ }
    END {
        printf "directories       %d more, with %d bytes of inodes and entries\n", directories, payloads
        printf "writes            %d to the volume, %d bytes\n", writes, bytes
        printf "pages             %d of them, of 4,096 bytes\n", pages
        printf "entries           %d of them, of 4,128 bytes\n", entries
        printf "the others        %d bytes\n", small
        printf "syncs             %d\n", syncs
    }' "$room/calls"
