#!/usr/bin/env bash
# Compiles a town in cells, by Snakemake and by parallel.sh in turn, and kills by SIGKILL at random moments, so often as
# its argument says, 40 times where left out: one of the processes that a step has started; or what starts the steps,
# alone, so that its steps run on, or with all of them. Then it is started again in the same folder. Each run that comes
# to its end must have the graph of the whole town, byte for byte. Wants python3, osmium-tool, parallel, snakemake,
# setsid, and the programs `osmroad` and `cells` as `rt run` builds them, or as OSMROAD and CELLS name them.
set -u
. "$(dirname "$0")/program.sh"
. "$(dirname "$0")/cells_program.sh"
RANDOM=1 failed=0 finished=0 kills=0 rounds=${1:-40}
run="$room/run"
python3 "$here/gen_town.py" 40 4 "$room/town.opl" "$room/change.opl" >/dev/null
osmium cat --no-progress -o "$room/town.osm.pbf" "$room/town.opl"
"$program" - compile <"$room/town.opl" >"$room/whole.graph"

# by Snakemake, or by parallel.sh: the next process is it, whose descendants are all that it starts
by_snakemake() {
    exec setsid snakemake -s "$tools/Snakefile" -j 4 --resources mem_mb=16000 --directory "$run" --nolock \
        --rerun-incomplete --config input="$room/town.osm.pbf" nodes=4000 metres=400 memory=3000 ways=200 bytes=200000 \
        cells="$cells"
}
by_parallel() {
    export NODES=4000 METRES=400 MEMORY=3000 WAYS=200 BYTES=200000 CELLS=$cells
    exec setsid "$tools/parallel.sh" "$room/town.osm.pbf" "$run"
}

# PROCESS: the processes below it
below() {
    local child
    for child in $(pgrep -P "$1"); do
        echo "$child"
        below "$child"
    done
}

# PROCESS: kills at a random moment, if it runs for so long; what is killed belongs to this run
kill_some() {
    local mine victim
    sleep "$((RANDOM % ${SECONDS_AT_MOST:-12})).$((RANDOM % 10))"
    mapfile -t mine < <(below "$1")
    kill -0 "$1" 2>/dev/null || return
    kills=$((kills + 1))
    case $((RANDOM % 4)) in
        0) kill -KILL "$1" "${mine[@]}" ;;
        1) kill -KILL "$1" ;;
        *) victim=${mine[RANDOM % (${#mine[@]} + 1)]:-}
            [ -z "$victim" ] || kill -KILL "$victim" ;;
    esac 2>/dev/null
}

while [ "$kills" -lt "$rounds" ] || [ -e "$run" ]; do
    if [ $((finished % 2)) -eq 0 ]; then by_snakemake; else by_parallel; fi >"$room/said" 2>&1 &
    started=$!
    [ "$kills" -ge "$rounds" ] || kill_some "$started"
    status=0
    wait "$started" 2>/dev/null || status=$?
    if [ "$status" -eq 0 ]; then
        finished=$((finished + 1))
        cmp -s "$run/out.graph" "$room/whole.graph" || { echo "FAILED: run $finished has another graph"; failed=1; }
        left=$(find "$run" -name '*.[0-9]*.new' | head -n 1)
        [ -z "$left" ] || echo "  run $finished left ${left#"$run"/}, which a step that ran on had begun"
        rm -rf "$run"
    elif [ "$kills" -ge "$rounds" ] && [ "${last:-}" ]; then
        echo "FAILED: not killed, and no graph: $(tail -n 3 "$room/said")"
        exit 1
    elif [ "$kills" -ge "$rounds" ]; then
        last=1
    fi
done
echo "$kills kills, $finished runs came to their end"
exit "$failed"
