#!/usr/bin/env bash
# Measures the frames of a session on a store of a town, on a tmpfs: a thousand frames of 20 events that change what is
# there, and a thousand that also make ways between distant places; on the town, and on one four times as large. Behind
# each thousand the graph that was followed is compared with the one that is compiled. Then frames of 1 to 20,000 events
# on the town, where it has so many objects (400 by 400 junctions or more), and hostile ones (hostile_frames.py). Wants
# python3 and the program as `rt run` builds it. Its arguments are the first two of gen_town.py, 400 and 4 where left
# out, and how many frames.
set -eu
. "$(dirname "$0")/program.sh"
memory=$(mktemp -d -p /dev/shm)
trap 'rm -rf "$room" "$memory"' EXIT
size=${1:-400}
for junctions in "$size" $((2 * size)); do
    python3 "$here/gen_town.py" "$junctions" "${2:-4}" "$room/town.opl" "$room/changes.opl" >/dev/null
    echo "a town of $junctions by $junctions junctions"
    for kind in changed new; do
        rm -f "$memory"/*
        "$program" "$memory/store" create 1 <"$room/town.opl" >/dev/null
        python3 "$here/frames.py" "$program" "$memory/store" "$room/town.opl" "$kind" "${3:-1000}"
    done
done
echo "frames of other sizes"
python3 "$here/gen_town.py" "$size" "${2:-4}" "$room/town.opl" "$room/changes.opl" >/dev/null
for frames in '1000 1' '100 200' '20 2000' '3 20000'; do
    # a small town hasn't so many objects
    [ "$size" -ge 400 ] || break
    for kind in changed new; do
        rm -f "$memory"/*
        "$program" "$memory/store" create 1 <"$room/town.opl" >/dev/null
        # shellcheck disable=SC2086
        python3 "$here/frames.py" "$program" "$memory/store" "$room/town.opl" "$kind" $frames
    done
done
echo "hostile frames"
rm -f "$memory"/*
python3 "$here/hostile_frames.py" "$program" "$memory"
