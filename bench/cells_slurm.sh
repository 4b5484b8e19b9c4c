#!/usr/bin/env bash
# Compiles a town in cells by Snakemake over Slurm: a Slurm of this machine alone, which it starts with a configuration
# of its own and ends again. The graph must be that of the whole town, byte for byte. Wants python3, osmium-tool,
# snakemake, Debian's slurmctld, slurmd, slurm-client and munge, root, and the programs `osmroad` and `cells` as `rt
# run` builds them, or as OSMROAD and CELLS name them. Without accounting, which wants a database, Snakemake's own
# `--slurm` can't be used; so jobs are handed on by `--cluster sbatch`.
set -eu
. "$(dirname "$0")/program.sh"
. "$(dirname "$0")/cells_program.sh"
host=$(hostname -s)
chmod 755 "$room"

# the daemons that were started, by the files that have their numbers
stop() {
    local file
    for file in slurmd slurmctld munged; do
        [ ! -e "$room/$file.pid" ] || kill "$(cat "$room/$file.pid")" 2>/dev/null || true
    done
    sleep 2
    rm -rf "$room"
}
trap stop EXIT

head -c 1024 /dev/urandom >"$room/key"
chmod 600 "$room/key"
munged --force --key-file="$room/key" --socket="$room/munge" --pid-file="$room/munged.pid" \
    --log-file="$room/munged.log" --seed-file="$room/seed"
cat >"$room/slurm.conf" <<CONFIGURATION
ClusterName=one
SlurmctldHost=$host
SlurmUser=root
AuthInfo=socket=$room/munge
StateSaveLocation=$room/state
SlurmdSpoolDir=$room/spool
SlurmctldPidFile=$room/slurmctld.pid
SlurmdPidFile=$room/slurmd.pid
SlurmctldLogFile=$room/slurmctld.log
SlurmdLogFile=$room/slurmd.log
SlurmctldPort=16817
SlurmdPort=16818
ProctrackType=proctrack/pgid
TaskPlugin=task/none
SelectType=select/cons_tres
SelectTypeParameters=CR_CPU_Memory
NodeName=$host CPUs=$(nproc) RealMemory=16000 State=UNKNOWN
PartitionName=all Nodes=ALL Default=YES MaxTime=INFINITE State=UP
CONFIGURATION
mkdir "$room/state" "$room/spool"
export SLURM_CONF="$room/slurm.conf"
slurmctld
slurmd
for _ in 1 2 3 4 5 6 7 8 9; do
    sinfo -h -t idle -o %n | grep -q . && break
    sleep 1
done

python3 "$here/gen_town.py" "${1:-40}" "${2:-4}" "$room/town.opl" "$room/change.opl" >/dev/null
osmium cat --no-progress -o "$room/town.osm.pbf" "$room/town.opl"
"$program" - compile <"$room/town.opl" >"$room/whole.graph"
snakemake -s "$tools/Snakefile" -j "$(nproc)" --directory "$room/run" \
    --cluster "sbatch --parsable --mem={resources.mem_mb} -o $room/%j.log" \
    --config input="$room/town.osm.pbf" nodes=4000 metres=400 memory=3000 ways=200 bytes=200000 cells="$cells" \
    >"$room/said" 2>&1 || { tail "$room/said"; exit 1; }
cmp "$room/run/out.graph" "$room/whole.graph"
echo "$(wc -l <"$room/run/cells.txt") cells, $(ls "$room"/*.log | grep -c '/[0-9]*.log') jobs, the same graph"
