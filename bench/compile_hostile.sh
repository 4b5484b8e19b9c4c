#!/usr/bin/env bash
# Measures `osmroad - compile` on each extract of hostile.py: on one core, processor time and peak memory in kilobytes,
# the status, and how many bytes were put. Wants python3, GNU time, taskset, a second core, and the program as `rt run`
# builds it.
set -eu
. "$(dirname "$0")/program.sh"

cases=(twice star comb ends vias prefix shared onward onward_twice rules members turns turns_at_one_node turns_apart)
cases+=(via_members from_members other_members long_except same_ways long_way)
for case in "${cases[@]}"; do
    python3 "$here/hostile.py" "$case" >"$room/extract.opl"
    status=0
    taskset -c 1 /usr/bin/time -q -f '%U %S %M' -o "$room/times" \
        "$program" - compile <"$room/extract.opl" >"$room/out" || status=$?
    awk -v name="$case" -v bytes="$(wc -c <"$room/extract.opl")" -v put="$(wc -c <"$room/out")" -v status="$status" '{
            printf "  %-17s %9d bytes %6.2f s %8d KB", name, bytes, $1 + $2, $3
            printf "  status %d, %d bytes put\n", status, put
        }' "$room/times"
done
