#!/usr/bin/env bash
# Ends `create`, `apply` and `checkpoint` by SIGKILL at random moments, until so many were (300 where left out), and
# looks at the store after each run: it loads, or there is none yet; it keeps the last number whose `applied` was put,
# or the next one; and its graph is that which `- compile` makes of the changes up to that number. Wants the program as
# `rt run` builds it.
set -u
. "$(dirname "$0")/program.sh"
times=${1:-300}
python3 "$here/gen_town.py" 60 4 "$room/town.opl" "$room/change.opl" >/dev/null
store="$room/store"
kept=
failed=0
ended=0
checkpoints=0

fail() {
    echo "FAILED: $1"
    failed=1
}

# runs the command, and ends it at a random moment of the time that such a command takes
stopped() {
    "$@" &
    local process=$!
    sleep "0.$(printf '%03d' $((RANDOM % 25)))"
    stopped=0
    kill -9 "$process" 2>/dev/null && stopped=1 && ended=$((ended + 1))
    wait "$process" 2>/dev/null
}

# the number that the store keeps; nothing where there is no store
number() {
    local said
    said=$("$program" "$store" apply 0 </dev/null)
    case $said in
    "no store") ;;
    "sequence 0 kept "*) echo "${said##* }" ;;
    *) echo "$said" ;;
    esac
}

for ((n = 1; ended < times; n++)); do
    : >"$room/said"
    if [ -z "$kept" ]; then
        cp "$room/town.opl" "$room/all.opl"
        stopped sh -c "exec '$program' '$store' create 1 <'$room/town.opl' >'$room/said'" 2>/dev/null
        wanted=1
    elif [ $((RANDOM % 2)) -eq 0 ]; then
        stopped sh -c "exec '$program' '$store' checkpoint >'$room/said'" 2>/dev/null
        [ "$stopped" -eq 1 ] && checkpoints=$((checkpoints + 1))
        wanted=$kept
    else
        wanted=$((kept + 1))
        sed "s/ v[0-9]* / v$((wanted + 99)) /" "$room/change.opl" >"$room/next.opl"
        stopped sh -c "exec '$program' '$store' apply $wanted <'$room/next.opl' >'$room/said'" 2>/dev/null
    fi
    now=$(number)
    if [ "$now" != "$kept" ] && [ "$now" != "$wanted" ]; then
        fail "$now is kept behind ${kept:-nothing}"
        break
    fi
    if [ -s "$room/said" ] && [ "$now" != "$wanted" ]; then
        fail "$(cat "$room/said") was put, and ${now:-nothing} is kept"
    fi
    if [ "$now" = "$wanted" ] && [ "$now" != "$kept" ] && [ "$wanted" -gt 1 ]; then
        cat "$room/next.opl" >>"$room/all.opl"
    fi
    kept=$now
    if [ -n "$kept" ] && ! cmp -s <("$program" - compile <"$room/all.opl") <("$program" "$store" graph); then
        fail "the graph behind $kept is another one"
    fi
    # every tenth time the store is made anew
    if [ $((n % 10)) -eq 0 ]; then
        rm -f "$store.a" "$store.b"
        kept=
    fi
done
[ "$failed" -eq 0 ] && stands='each store stands' || stands='FAILED'
echo "$((n - 1)) runs, $ended of them ended by SIGKILL, $checkpoints in a checkpoint: $stands"
exit "$failed"
