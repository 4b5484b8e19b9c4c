#!/usr/bin/env bash
# Measures a session on a store of a town as osmium would write it: opening it, up to its first reply, beside
# `osmium cat` on the town in the same run, on one core, the best of five by processor time, with the peak memory in
# kilobytes. Then, by the clock, what a message takes: drives across the town and within it, a node that can't be
# reached, a drive of 100,000 steps, and a frame of 20 events. Wants python3, GNU time, osmium-tool, taskset, a second
# core, and the program as `rt run` builds it. Its arguments are the first two of gen_town.py, 400 and 4 where left out.
set -eu
. "$(dirname "$0")/program.sh"

# NAME COMMAND..: the best of five
best() {
    local name=$1
    shift
    rm -f "$room/times"
    for _ in 1 2 3 4 5; do
        taskset -c 1 /usr/bin/time -q -f '%U %S %M' -a -o "$room/times" "$@" >"$room/out"
    done
    awk -v name="$name" -v cat="${cat:-0}" '
        { s = $1 + $2; if (NR == 1 || s < best) { best = s; memory = $3 } }
        END {
            printf "  %-20s %6.2f s %8d KB", name, best, memory
            if (cat > 0) printf "  %.2f times osmium cat", best / cat
            printf "\n"
        }' "$room/times"
}

python3 "$here/gen_town.py" "${1:-400}" "${2:-4}" "$room/town.opl" "$room/changes.opl" >/dev/null
store="$room/store"
"$program" "$store" create 1 <"$room/town.opl" >/dev/null
cat=
line=$(best "osmium cat" osmium cat -O -f opl -o /dev/null "$room/town.opl")
echo "$line"
cat=$(echo "$line" | awk '{ print $3 }')
best "open, and state" bash -c "echo state | exec '$program' '$store' session"
python3 "$here/ask_town.py" "$program" "$store" "$room/town.opl" "$room/changes.opl"
