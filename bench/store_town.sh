#!/usr/bin/env bash
# Measures `create`, `apply` of a small change, `graph` and `audit` on a store of a town as osmium would write it, each
# beside `osmium cat` on the town in the same run: on one core, the best of five by processor time, with the peak memory
# in kilobytes. Wants python3, GNU time, osmium-tool, taskset, a second core, and the program as `rt run` builds it. Its
# arguments are the first two of gen_town.py, 400 and 4 where left out.
set -eu
. "$(dirname "$0")/program.sh"

# NAME BEFORE COMMAND..: the best of five, before each of which BEFORE is run
best() {
    local name=$1 before=$2
    shift 2
    rm -f "$room/times"
    for _ in 1 2 3 4 5; do
        eval "$before"
        taskset -c 1 /usr/bin/time -q -f '%U %S %M' -a -o "$room/times" "$@" >"$room/out"
    done
    awk -v name="$name" -v cat="${cat:-0}" '
        { s = $1 + $2; if (NR == 1 || s < best) { best = s; memory = $3 } }
        END {
            printf "  %-20s %6.2f s %8d KB", name, best, memory
            if (cat > 0) printf "  %.2f times osmium cat", best / cat
            printf "\n"
        }' "$room/times"
}

python3 "$here/gen_town.py" "${1:-400}" "${2:-4}" "$room/town.opl" "$room/all.opl" >/dev/null
head -n 20 "$room/all.opl" >"$room/change.opl"
store="$room/store"
cat=
line=$(best "osmium cat" : osmium cat -O -f opl -o /dev/null "$room/town.opl")
echo "$line"
cat=$(echo "$line" | awk '{ print $3 }')
best "create" "rm -f '$store'.?" bash -c "exec '$program' '$store' create 1 <'$room/town.opl'"
cp "$store.a" "$room/made.a"
best "apply" "cp '$room/made.a' '$store.a'" bash -c "exec '$program' '$store' apply 2 <'$room/change.opl'"
best "graph" : "$program" "$store" graph
best "audit" : "$program" "$store" audit
