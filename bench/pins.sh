#!/usr/bin/env bash
# Measures readers that pin states of a session on a store of a town, on a tmpfs, beside a session without readers that
# follows the same frames: what `pin` takes, frames behind pins, the memory of 64 pinned states, what is asked of a
# pinned state beside the newest one, and frames with pins taken and released all along. Wants python3 and the program
# as `rt run` builds it. Its arguments are the first two of gen_town.py, 400 and 4 where left out, and how many frames.
set -eu
. "$(dirname "$0")/program.sh"
memory=$(mktemp -d -p /dev/shm)
trap 'rm -rf "$room" "$memory"' EXIT
python3 "$here/gen_town.py" "${1:-400}" "${2:-4}" "$room/town.opl" "$room/changes.opl" >/dev/null
for kind in changed new; do
    rm -f "$memory"/*
    "$program" "$memory/store" create 1 <"$room/town.opl" >/dev/null
    python3 "$here/pins.py" "$program" "$memory/store" "$room/town.opl" "$kind" "${3:-1000}"
done
