#!/usr/bin/env bash
# Names that come and go, and files that are saved by a new one that takes the name of the old: the time of a
# run of each beside one of as many plain lines. Processor time, user and system, the best of three; an
# opening is taken off.
. "$(dirname "${BASH_SOURCE[0]}")/common.bash"

prepare
hammer=$top/crates/hm_shell/out/hm_shell

# The seconds that a script takes on a new volume with these lines before it, into $seconds.
script() {
    local before=$1 lines=$2
    measure_best new_volume "$room/$before"
    local base=$seconds
    cat "$room/$before" "$room/$lines" >"$room/both"
    measure_best new_volume "$room/both"
    [ "$(grep -c ' ok' "$room/out")" -eq "$(wc -l <"$room/both")" ] || stop "$lines: not each line was answered"
    seconds=$(awk -v a="$seconds" -v b="$base" 'BEGIN { printf "%.3f", a - b }')
}
new_volume() { "$hammer" "$volume" --newfs 100 <"$1"; }
row() {
    script "$2" "$3"
    printf '%-66s %8s s\n' "$1" "$seconds"
}

: >"$room/nothing"
echo 'touch /doc' >"$room/doc"
awk 'BEGIN { for (i = 0; i < 16000; i++) print "touch /lock\nrm /lock" }' >"$room/one"
awk 'BEGIN { for (i = 0; i < 16000; i++) printf "touch /l%d\nrm /l%d\n", i, i }' >"$room/many"
awk 'BEGIN { for (i = 0; i < 4000; i++) print "touch /doc.new\nwrite /doc.new 0 616263\nmv /doc.new /doc" }' >"$room/saves"
awk 'BEGIN { for (i = 0; i < 4000; i++) print "write /doc 0 616263" }' >"$room/writes"
row 'touch and rm of one name, 16,000 times' nothing one
row 'the same of 16,000 different names' nothing many
row '4,000 times touch /doc.new, write /doc.new, mv /doc.new /doc' doc saves
row '4,000 times write /doc' doc writes
