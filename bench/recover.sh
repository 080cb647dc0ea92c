#!/usr/bin/env bash
# Recovery: a volume whose header names 16,128 entries of the UNDO log, the most that a group has, is opened,
# beside a plain program that makes the same reads, writes and syncs; and the same volume once it was recovered.
# Processor time, user and system, and time by the clock, the best of five. Needs strace and python3.
. "$(dirname "${BASH_SOURCE[0]}")/common.bash"

command -v strace >/dev/null || stop 'needs strace'
cc=${CC:-cc}
"$cc" -O2 -o "$room/plain_calls" "$top/bench/plain_calls.c" 2>"$room/err" || stop "the plain program was not built"
prepare
hammer=$top/crates/hm_shell/out/hm_shell
: >"$room/nothing"

# A volume of 24 big-blocks, whose counting header names entries for pages where nothing lies.
"$hammer" "$room/armed" --newfs 24 <"$room/nothing" || stop 'no volume'
PYTHONPATH="$top/.ci" python3 - "$room/armed" <<'END' || stop 'no range was laid out'
import os
import sys

from volume import BIGBLOCK, LOG_ENTRY, PAGE, SLOT, TREE, Disk, counting_slot, log_begin, number_in, undo_entry

path, count = sys.argv[1], 16128
disk = Disk.of(path)
slot = counting_slot(disk)
body = bytearray(disk.read(SLOT * slot, SLOT - 1))
generation = number_in(body, 16, 8)
body[40:44], body[44:48] = bytes(4), count.to_bytes(4, 'little')
log = log_begin(24) * BIGBLOCK
with open(path, 'r+b', buffering=0) as file:
    for i in range(count):
        at = TREE + 15 * BIGBLOCK + i * PAGE
        os.pwrite(file.fileno(), undo_entry(at, generation, bytes([i % 251]) * PAGE), log + i * LOG_ENTRY)
    os.pwrite(file.fileno(), bytes(body), SLOT * slot)
END

take_armed() { cp "$room/armed" "$volume" && sync "$volume"; }
take_recovered() { cp "$room/recovered" "$volume" && sync "$volume"; }
open_it() { "$hammer" "$volume" <"$room/nothing"; }

take_armed
record_calls "$hammer" "$room/nothing"
[ "$(grep -c '^w' "$room/calls")" -ge 16128 ] || stop 'no range was put back'
cp "$volume" "$room/recovered"
least_after take_recovered open_it
echo "opened without a range: $best s of the processor, $clock s by the clock"
beside_plain_calls '16,128 entries' take_armed open_it
