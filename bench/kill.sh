#!/usr/bin/env bash
# Runs that are killed: 200 rounds on one volume, or as many as are asked for. Each kills a run of a random
# script in its midst. After it the volume opens, and has the names that the script's lines up to the last
# id make; that id is no earlier than the boundary that the last `synctid` whose line was printed told.
. "$(dirname "${BASH_SOURCE[0]}")/common.bash"
rounds=${1:-200}
lines=6000 # of a script

# The script of a round: files that are made, filled and removed, with a sync after 30 lines or so.
script_of() {
    awk -v n="$lines" -v round="$1" 'BEGIN {
        srand(round)
        for (i = 1; i <= n; i++) {
            draw = rand()
            if (draw < 0.03) print "synctid"
            else if (draw < 0.5 || !made) { name[made++] = i; printf "touch /%d-%d\n", round, i }
            else if (draw < 0.6) printf "fill /%d-%d %d 300 6b\n", round, name[made - 1], rand() * 900
            else printf "rm /%d-%d\n", round, name[--made]
        }
    }'
}

# Opens the volume: the last id before it, and how many names there are.
look() {
    local id ok
    echo 'ls /' | "$program" "$volume" >"$room/looked" || stop "round $round: the next run ended with status $?"
    read -r id ok names _ <"$room/looked"
    [ "$ok" = ok ] || stop "round $round: the next run answered $ok"
    last=$((id - 1))
}

# A number in the volume's file.
number() {
    od -An -v -tu"$2" -j "$1" -N "$2" "$volume" | tr -d ' '
}

# Whether the header that counts names entries of the log, so that the volume has to be recovered.
is_armed() {
    local slot=0
    [ "$(number 16383 1)" -ne 165 ] && slot=16384
    [ "$(number 32767 1)" -eq 165 ] && [ "$(number 16400 8)" -eq $(($(number 16 8) + 1)) ] && slot=16384
    [ "$(number $((slot + 44)) 4)" -gt 0 ]
}

prepare
program=$top/crates/hm_shell/out/hm_shell
"$program" "$volume" --newfs 64 </dev/null || stop "no volume was made"
round=0 killed=0 armed=0 syncs=0 lost=0
look
for ((round = 1; round <= rounds; round++)); do
    first=$((last + 2)) before=$names
    script_of "$round" >"$room/script"
    "$program" "$volume" <"$room/script" >"$room/out" &
    run=$!
    until [ -s "$room/out" ]; do sleep 0.01; done
    sleep "$(awk -v seed="$round" 'BEGIN { srand(seed); printf "%.3f", rand() * 0.3 }')"
    kill -9 "$run" 2>"$room/err"
    wait "$run" 2>"$room/err"
    [ $? -eq 137 ] && killed=$((killed + 1))
    is_armed && armed=$((armed + 1))
    look
    read -r told answered < <(awk '$2 == "ok" && $3 { told = $3; syncs++ } END { print told ? told : 0, syncs + 0 }' "$room/out")
    [ "$last" -ge $((told)) ] || stop "round $round: the last id is $last, and a sync told $told"
    wanted=$(head -n $((last - first + 1)) "$room/script" |
        awk -v names="$before" '/^touch/ { names++ } /^rm/ { names-- } END { print names + 0 }')
    [ $((last - first + 1)) -gt 0 ] || wanted=$before
    [ "$names" -eq "$wanted" ] || stop "round $round: $names names up to the id $last, and not $wanted"
    syncs=$((syncs + answered)) lost=$((lost + $(wc -l <"$room/out") - (last - first + 1)))
done
printf 'rounds            %d, of which %d were killed\n' "$rounds" "$killed"
printf 'recovered         %d of the volumes that they left\n' "$armed"
printf 'syncs             %d that were acknowledged, and all held\n' "$syncs"
printf 'lost              %d lines that were answered after the last flush\n' "$lost"
