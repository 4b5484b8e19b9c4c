#!/usr/bin/env bash
# Runs programs beside one another on one store, so many rounds (1000 where left out), as store_locks.py tells. Wants
# python3, and the program as `rt run` builds it.
set -u
. "$(dirname "$0")/program.sh"
python3 "$here/gen_town.py" 8 2 "$room/town.opl" "$room/change.opl" >/dev/null
python3 "$here/store_locks.py" "$program" "$room/store" "$room/town.opl" "${1:-1000}"
