#!/usr/bin/env bash
# Compiles maps in about 4, 16 and 64 cells, under both profiles, and compares the graphs with those that `osmroad -
# compile` makes of the whole, byte for byte: under profile 1 by tools/cells/parallel.sh, under profile 2 by Snakemake.
# Its arguments are files that osmium reads. It prints what each run had, and its status is 1 where a graph is another.
# Wants osmium-tool, parallel, snakemake, and the programs `osmroad` and `cells` as `rt run` builds them, or as OSMROAD
# and CELLS name them. METRES (500) is how far the areas reach beyond their cells at least, JOBS (4) how many steps run
# at once, and AMOUNTS ("4 16 64") of how many cells maps are made.
set -eu
. "$(dirname "$0")/program.sh"
. "$(dirname "$0")/cells_program.sh"
metres=${METRES:-500} failed=0

# AMOUNT: how many places an area may have, that a plan has at least so many cells with a place
places_for() {
    local most found=0
    most=$(wc -l <"$room/nodes.opl")
    while [ "$found" -lt "$1" ] && [ "$most" -gt 1 ]; do
        most=$((most * 4 / 5))
        found=$("$cells" plan "$most" "$metres" <"$room/nodes.opl" | grep -vc ' 0$' || true)
    done
    echo "$most"
}

# RUN PROFILE AMOUNT: what a run had, and whether its graph is that of the whole
look() {
    local same=same
    cmp -s "$1/out.graph" "$room/whole.$2" || { same=ANOTHER; failed=1; }
    printf '  profile %s: %d cells, %d of %d highways fail, %d lists, %d ranges, %.2f times the places, %s graph\n' \
        "$2" "$(wc -l <"$1/cells.txt")" "$(cat "$1"/fails/* | wc -l)" "$(cat "$1"/own/* | wc -l)" \
        "$(ls "$1/lists" | wc -l)" "$(wc -l <"$1/bounds.txt")" "$(growth "$1")" "$same"
}

# RUN: how many places all cuts have, for each place of the roads
growth() {
    local file
    cat "$1"/cut/*/*.opl | grep -c '^n' | awk -v all="$(wc -l <"$room/nodes.opl")" '{ print $1 / all }'
}

for map in "$@"; do
    echo "$map"
    osmium cat --no-progress -O -o "$room/map.osm.pbf" "$map"
    osmium tags-filter --no-progress -O -o "$room/roads.osm.pbf" "$room/map.osm.pbf" w/highway r/type=restriction
    osmium cat --no-progress -O -f opl,add_metadata=false -t node -o "$room/nodes.opl" "$room/roads.osm.pbf"
    osmium cat --no-progress -f opl "$room/map.osm.pbf" | "$program" - compile >"$room/whole.1"
    osmium cat --no-progress -f opl "$room/map.osm.pbf" | "$program" - compile 2 >"$room/whole.2"
    bytes=$(($(wc -c <"$room/whole.1") / 5 + 1))
    for amount in ${AMOUNTS:-4 16 64}; do
        places=$(places_for "$amount")
        rm -rf "$room/run"
        NODES=$places METRES=$metres MEMORY=6000 WAYS=500 BYTES=$bytes CELLS=$cells JOBS=${JOBS:-4} \
            "$tools/parallel.sh" "$room/map.osm.pbf" "$room/run"
        look "$room/run" 1
        rm -rf "$room/run"
        snakemake -s "$tools/Snakefile" -j "${JOBS:-4}" --resources mem_mb=16000 --directory "$room/run" --quiet all \
            --notemp --config input="$room/map.osm.pbf" nodes="$places" metres="$metres" memory=6000 ways=500 \
            bytes="$bytes" profile=2 cells="$cells" 2>"$room/said" || { cat "$room/said"; exit 1; }
        look "$room/run" 2
    done
done
exit "$failed"
