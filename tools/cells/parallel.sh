#!/usr/bin/env bash
# The road graph of a map of any size, compiled in cells by GNU parallel: what the Snakefile beside this does, for who
# has no Snakemake. docs/CELLS.md tells of both.
#
#   parallel.sh INPUT RUN      INPUT is a file that osmium reads, RUN the folder of the run, which may be there already
#
# What it may be told, by variables: JOBS at once (4), PROFILE (1), NODES (4000000), METRES (3000), MEMORY (15000), WAYS
# (2000), BYTES (600000000), as in the Snakefile; CELLS and CACHE, as in `step`; and OPTIONS of parallel, as
# `--sshlogin a,b,c`, where RUN and this folder have the same path on all hosts, and RUN is shared by them.
# Run again with the same words it goes on where it stopped: a step whose file is there isn't made again.
set -euo pipefail
[ $# -eq 2 ] || { sed -n '2,/^set/s/^# \{0,1\}//p' "${BASH_SOURCE[0]}"; [ "${1:-}" = --help ]; exit; }
step=$(cd "$(dirname "${BASH_SOURCE[0]}")" && pwd)/step
input=$(realpath "$1")
mkdir -p "$2"
cd "$2"
profile=${PROFILE:-1} memory=${MEMORY:-15000}
export CELLS=${CELLS:-cells} CACHE=${CACHE:-}

# FILE WORDS..: a step, unless what it makes is there
once() {
    [ -e "$1" ] || "$step" "${@:2}"
}

# JOBS BEFORE BEHIND WORDS..: a step for each number or name of standard input whose file, or folder, isn't there
each() {
    local name
    while read -r name; do
        [ -e "$2$name$3" ] || echo "$name"
    done | parallel -q -j "$1" --halt soon,fail=1 --workdir "$PWD" --env CELLS --env CACHE ${OPTIONS:-} \
        "$step" "${@:4}"
}

once roads.osm.pbf roads "$input"
once plan.txt plan "${NODES:-4000000}" "${METRES:-3000}" "$memory"
count=$(cat boxes.txt) number=$(wc -l <cells.txt)
batches=$(((number - 1) / count + 1))
seq "$(((batches - 1) / count + 1))" | each 1 region/ '' region {} "$memory"
seq "$batches" | each 1 cut/ '' cut {} "$memory"
seq "$number" | each "${JOBS:-4}" part/ .graph cell {} "$profile"
once lists lists "${WAYS:-2000}"
lists=$(ls lists | wc -l)
[ "$lists" -eq 0 ] || once near.osm.pbf near
seq "$lists" | each "${JOBS:-4}" part/rest- .graph rest {} "$profile"
once bounds.txt bounds "${BYTES:-600000000}"
{ seq "$number"; seq -f 'rest-%.0f' "$lists"; } | each "${JOBS:-4}" split/ '' split {}
seq "$(wc -l <bounds.txt)" | each "${JOBS:-4}" merged/ .graph merge {}
once ledger.txt ledger
once out.graph join
