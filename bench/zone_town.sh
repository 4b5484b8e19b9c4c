#!/usr/bin/env bash
# Measures drives that go through no zone on a town as osmium would write it, of whose ways a tenth is for destination
# traffic: what `zone-reach` takes beside `reach` in a session on a store of profile 2, across the town and nearby, and
# from a gated street into another one; and what `zone-drive` takes of a long drive. Wants python3, and the program as
# `rt run` builds it. Its arguments are the first two of gen_town.py, 400 and 4 where left out.
set -eu
. "$(dirname "$0")/program.sh"

python3 "$here/gen_town.py" "${1:-400}" "${2:-4}" "$room/plain.opl" "$room/changes.opl" >/dev/null
python3 "$here/zone_town.py" gate "${1:-400}" "$room/plain.opl" >"$room/town.opl"
"$program" "$room/store" create 1 <"$room/town.opl" >/dev/null
"$program" "$room/store" raise >/dev/null
python3 "$here/zone_town.py" ask "$program" "$room/store" "$room/town.opl" "${1:-400}"
