#!/usr/bin/env bash
# Measures routes of least cost on a town as osmium would write it, beside `compile` of it and `reach`: by the clock,
# what `route` and `certify` take across the town and nearby; how many times a compilation (on one core, the best of
# five by processor time) and how many times `reach` that is; and what tools/graph.py takes to check such a certificate.
# Wants python3, GNU time, taskset, a second core, and the program as `rt run` builds it. Its arguments are the first
# two of gen_town.py, 400 and 4 where left out.
set -eu
. "$(dirname "$0")/program.sh"

python3 "$here/gen_town.py" "${1:-400}" "${2:-4}" "$room/town.opl" "$room/changes.opl" >/dev/null
for _ in 1 2 3 4 5; do
    taskset -c 1 /usr/bin/time -q -f '%U %S' -a -o "$room/times" "$program" - compile <"$room/town.opl" >"$room/graph"
done
compiled=$(awk '{ s = $1 + $2; if (NR == 1 || s < best) best = s } END { print best }' "$room/times")
echo "  compile $compiled s"
"$program" "$room/store" create 1 <"$room/town.opl" >/dev/null
python3 "$here/route_town.py" "$program" "$room/store" "$room/town.opl" "$room/graph" "$compiled"
