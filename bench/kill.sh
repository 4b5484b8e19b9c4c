#!/usr/bin/env bash
# Ends sessions that another process feeds with frames, and `raise`, by SIGKILL at random moments, so many times (1000
# where left out) on the same store, and looks at the store after each (kill.py): a killed `raise` leaves the same
# objects and number, under profile 1 or 2, and no mixture. Then sessions that end on a full disk, with a reader
# that goes, and where memory ends: each by its status, and the store keeps no number below the last `applied` that was
# read. Wants python3, root for a small disk, and the program as `rt run` builds it.
set -u
. "$(dirname "$0")/program.sh"
failed=0

fail() {
    echo "FAILED: $1"
    failed=1
}

python3 "$here/gen_town.py" 20 4 "$room/town.opl" "$room/changes.opl" >/dev/null
# under profile 1 this restriction is of no use, since it lists its via ways backward; under profile 2 it counts
echo 'r900 v1 Ttype=restriction,restriction=no_straight_on Mw1@from,w3@via,w2@via,w4@to' >>"$room/town.opl"
python3 "$here/kill.py" "$program" "$room/store" "$room/town.opl" "${1:-1000}" || failed=1

# FROM TO EVENTS: frames of so many new nodes each
frames() {
    for ((n = $1; n <= $2; n++)); do
        echo "#seq $n"
        for ((k = 0; k < $3; k++)); do echo "n$((1000000 + n * $3 + k)) v1 x8.$((n % 1000)) y50.$((k % 1000))"; done
        echo "#end"
    done
}

# WHAT STORE REPLIES: the store keeps no number below the last that was told
stands() {
    local told said
    told=$(grep -a '^applied [0-9]*$' "$3" | tail -n 1 | cut -d' ' -f2)
    said=$("$program" "$2" apply 0 </dev/null)
    if [ "${said% *}" = "sequence 0 kept" ] && [ "${said##* }" -ge "${told:-1}" ] &&
        "$program" "$2" graph >/dev/null; then
        echo "ok: $1: ${told:-nothing} was told, ${said##* } is kept"
    else
        fail "$1: ${told:-nothing} was told, and the store says $said"
    fi
}

mkdir "$room/disk"
if mount -t tmpfs -o size=1m tmpfs "$room/disk" 2>/dev/null; then
    trap 'umount "$room/disk"; rm -rf "$room"' EXIT
    "$program" "$room/disk/store" create 1 <"$here/../examples/village/extract.opl" >/dev/null
    status=0
    frames 2 2000 20 | "$program" "$room/disk/store" session >"$room/replies" || status=$?
    [ "$status" -eq 3 ] || fail "a full disk ends a session with status $status"
    stands "a full disk" "$room/disk/store" "$room/replies"
else
    fail "a full disk wasn't tried: it wants root"
fi

"$program" "$room/pipe" create 1 <"$here/../examples/village/extract.opl" >/dev/null
frames 2 2000 20 >"$room/input"
("$program" "$room/pipe" session <"$room/input"; echo $? >"$room/status") 2>/dev/null | head -n 5 >"$room/replies"
case $(cat "$room/status") in
    3 | 141) ;;
    *) fail "a closed pipe ends a session with status $(cat "$room/status")" ;;
esac
stands "a closed pipe" "$room/pipe" "$room/replies"

"$program" "$room/memory" create 1 <"$here/../examples/village/extract.opl" >/dev/null
status=0
frames 2 800 500 >"$room/input"
(ulimit -v 40000; exec "$program" "$room/memory" session <"$room/input" >"$room/replies") || status=$?
[ "$status" -eq 10 ] || fail "a session whose memory ends has status $status"
stands "memory that ends" "$room/memory" "$room/replies"
exit "$failed"
