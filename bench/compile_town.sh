#!/usr/bin/env bash
# Measures `osmroad - compile` on a town as osmium would write it, without its relations and whole, and on a quarter of
# it, each beside `osmium cat` on the same file in the same run: on one core, the best of five by processor time, with
# the peak memory in kilobytes, and what the graph has. Then what reading alone takes: the town with a line in fault at
# its end. Wants python3, GNU time, osmium-tool, taskset, a second core, and the program as `rt run` builds it. Its
# arguments are the first two of gen_town.py, 400 and 4 where left out; the first one is even and at least 12.
set -eu
. "$(dirname "$0")/program.sh"

best() {
    local name=$1
    shift
    rm -f "$room/times"
    for _ in 1 2 3 4 5; do
        taskset -c 1 /usr/bin/time -q -f '%U %S %M' -a -o "$room/times" "$@" >"$room/out" || true
    done
    awk -v name="$name" -v cat="${cat:-0}" '
        { s = $1 + $2; if (NR == 1 || s < best) { best = s; memory = $3 } }
        END {
            printf "  %-20s %6.2f s %8d KB", name, best, memory
            if (cat > 0) printf "  %.2f times osmium cat", best / cat
            printf "\n"
        }' "$room/times"
}

# what compiling this file takes, and what its graph has
measure() {
    echo "$1, $(wc -c <"$2") bytes"
    cat=
    local line
    line=$(best "osmium cat" osmium cat -O -f opl -o /dev/null "$2")
    echo "$line"
    cat=$(echo "$line" | awk '{ print $3 }')
    best "compile" bash -c "exec '$program' - compile <'$2'"
    python3 "$here/../tools/graph.py" counts <"$room/out" | sed 's/^/  /'
}

size=${1:-400}
python3 "$here/gen_town.py" "$size" "${2:-4}" "$room/town.opl" "$room/change.opl" >/dev/null
grep -v '^r' "$room/town.opl" >"$room/roads.opl"
python3 "$here/gen_town.py" "$((size / 2))" "${2:-4}" "$room/quarter.opl" "$room/change.opl" >/dev/null
measure "the town without its relations" "$room/roads.opl"
measure "the town" "$room/town.opl"
{ cat "$room/town.opl"; echo z; } >"$room/faulty.opl"
best "read alone" bash -c "exec '$program' - compile <'$room/faulty.opl'"
measure "a quarter of the town" "$room/quarter.opl"
