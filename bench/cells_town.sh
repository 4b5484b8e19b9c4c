#!/usr/bin/env bash
# Compiles a town in about so many cells, 24 where left out, one step after the other, and prints what each kind of step
# takes: how often it runs, seconds by the clock in all and at most, seconds of the processor in all, and the peak
# memory of one of its processes in megabytes; beside what the whole town takes from the same file, its roads filtered
# and spelled by osmium (`filter`) and compiled by `osmroad - compile` (`whole`), whose graph must be the same. Its
# further arguments are the first two of gen_town.py, 800 and 4 where left out. Wants python3, GNU time, osmium-tool, 6
# GB of disk, and the programs `osmroad` and `cells` as `rt run` builds them, or as OSMROAD and CELLS name them.
set -eu
. "$(dirname "$0")/program.sh"
. "$(dirname "$0")/cells_program.sh"
amount=${1:-24} metres=${METRES:-3000} memory=${MEMORY:-6000}
export CELLS=$cells
run="$room/run"
mkdir "$run"

# NAME COMMAND..: the command, in the folder of the run
timed() {
    (cd "$run" && exec /usr/bin/time -q -f "$1 %e %U %S %M" -a -o "$room/times" "${@:2}")
}

# STEP WORDS..: a step
step() {
    timed "$1" "$tools/step" "$@"
}

# the table of all that was timed, in the order in which it began
table() {
    printf '  %-10s %5s %9s %9s %9s %7s\n' '' times clock longest processor memory
    awk '
        !($1 in count) { order[++kinds] = $1 }
        { ++count[$1]; clock[$1] += $2; spent[$1] += $3 + $4 }
        $2 > longest[$1] { longest[$1] = $2 }
        $5 > memory[$1] { memory[$1] = $5 }
        END {
            for (at = 1; at <= kinds; ++at) {
                name = order[at]
                printf "  %-10s %5d %7.1f s %7.1f s %7.1f s %4d MB\n", name, count[name], clock[name], longest[name],
                    spent[name], memory[name] / 1024
                if (name == "filter" || name == "whole") whole += spent[name]; else cells += spent[name]
            }
            printf "in cells %.1f s of the processor, in one run %.1f s: %.2f times\n", cells, whole, cells / whole
        }' "$room/times"
}

python3 "$here/gen_town.py" "${2:-800}" "${3:-4}" "$room/town.opl" "$room/change.opl"
osmium cat --no-progress -o "$room/town.osm.pbf" "$room/town.opl"
rm "$room/town.opl"
timed filter osmium tags-filter --no-progress -f opl,add_metadata=false -o "$room/roads.opl" "$room/town.osm.pbf" \
    w/highway r/type=restriction
timed whole bash -c "exec '$program' - compile <'$room/roads.opl' >'$room/whole.graph'"
step roads "$room/town.osm.pbf"
nodes=$(grep -c '^n' "$room/roads.opl")
echo "$nodes nodes of roads, $(wc -c <"$room/roads.opl") bytes of OPL, $(wc -c <"$run/roads.osm.pbf") of PBF," \
    "$(wc -c <"$room/whole.graph") of graph"
most=$((nodes * 2)) found=0
while [ "$found" -lt "$amount" ]; do
    most=$((most * 4 / 5))
    [ "$most" -gt 100 ] || { echo "no plan has $amount cells"; exit 1; }
    found=$("$cells" plan "$most" "$metres" <"$room/roads.opl" | grep -vc ' 0$' || true)
done
rm "$room/roads.opl"
step plan "$most" "$metres" "$memory"
found=$(wc -l <"$run/cells.txt")
count=$(cat "$run/boxes.txt") batches=$(((found - 1) / count + 1))
for pass in $(seq $(((batches - 1) / count + 1))); do step region "$pass" "$memory"; done
for batch in $(seq "$batches"); do step cut "$batch" "$memory"; done
for cell in $(seq "$found"); do step cell "$cell" 1; done
step lists 2000
lists=$(ls "$run/lists" | wc -l)
[ "$lists" -eq 0 ] || step near
for list in $(seq "$lists"); do step rest "$list" 1; done
step bounds "${BYTES:-600000000}"
for part in $(seq "$found") $(seq -f 'rest-%.0f' "$lists"); do step split "$part"; done
for range in $(seq "$(wc -l <"$run/bounds.txt")"); do step merge "$range"; done
step ledger
step join
table
echo "$found cells of at most $most nodes, $(cat "$run"/fails/* | wc -l) of $(cat "$run"/own/* | wc -l) ways fail," \
    "$(wc -l <"$run/bounds.txt") ranges"
cmp "$run/out.graph" "$room/whole.graph" && echo "the same graph"
