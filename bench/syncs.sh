#!/usr/bin/env bash
# Syncs: 500 lines `touch`, each followed by `sync`, beside a plain program that makes the same reads,
# writes and syncs on a copy of the volume. Processor time, user and system, and time by the clock, the best
# of five; and how many calls, bytes and syncs the run makes. Needs strace.
. "$(dirname "${BASH_SOURCE[0]}")/common.bash"

command -v strace >/dev/null || stop 'needs strace'
cc=${CC:-cc}
"$cc" -O2 -o "$room/plain_calls" "$top/bench/plain_calls.c" 2>"$room/err" || stop "the plain program was not built"
prepare
hammer=$top/crates/hm_shell/out/hm_shell
: >"$room/nothing"
awk 'BEGIN { for (i = 0; i < 500; i++) printf "touch /f%08d\nsync\n", i }' >"$room/script"

make_volume() { rm -f "$volume"; "$hammer" "$volume" --newfs 24 <"$room/nothing" || stop 'no volume'; }
run_script() { "$hammer" "$volume" <"$room/script"; }

make_volume
record_calls "$hammer" "$room/script"
[ "$(grep -c ' ok$' "$room/out")" -eq 1000 ] || stop 'not each line was answered'
[ "$(grep -c '^s' "$room/calls")" -ge 4000 ] || stop 'the calls of the run were not read'
beside_plain_calls '500 touch, 500 sync' make_volume run_script
