#!/usr/bin/env bash
# Tries `osmroad` on stores where the outside fails: a folder that isn't there, or may not be written; a full disk; a
# limit on the size of files; standard output that is closed or full. Each run has to end with status 3, and the store
# has to stand for what it stood for; only a change whose `applied` couldn't be put is there all the same. Wants the
# program as `rt run` builds it, and root, for the user nobody and a small disk.
set -u
. "$(dirname "$0")/program.sh"
chmod 755 "$room"
extract="$here/../examples/rule_lifted/extract.opl"
change="$here/../examples/rule_lifted/change.8.opl"
failed=0

fail() {
    echo "FAILED: $1"
    failed=1
}

# STATUS WHAT COMMAND..: the command has to end with this status
wants() {
    local wanted=$1 what=$2 status=0
    shift 2
    "$@" >"$room/out" 2>"$room/err" </dev/null || status=$?
    if [ "$status" -ne "$wanted" ]; then
        fail "$what: status $status for $wanted: $(head -c 100 "$room/out" "$room/err")"
    else
        echo "ok: $what"
    fi
}

# NAME: a store of the extract under the number 7
make() {
    rm -f "$1.a" "$1.b"
    "$program" "$1" create 7 <"$extract" >/dev/null || fail "no store $1"
}

# NAME NUMBER: the number that the store keeps
keeps() {
    local said
    said=$("$program" "$1" apply 0 </dev/null)
    [ "$said" = "sequence 0 kept $2" ] || fail "$1: $said, and $2 was kept"
}

wants 3 "create in a folder that isn't there" sh -c "'$program' '$room/none/town' create 7 <'$extract'"
[ ! -e "$room/none" ] || fail "a folder was made"

mkdir "$room/read"
make "$room/read/town"
chmod 555 "$room/read"
chmod 444 "$room/read/town.a"
as_nobody() { su nobody -s /bin/sh -c "$1"; }
wants 3 "create in a folder that may not be written" as_nobody "'$program' '$room/read/other' create 7 <'$extract'"
wants 3 "apply to a file that may not be written" as_nobody "'$program' '$room/read/town' apply 8 <'$change'"
keeps "$room/read/town" 7

wants 3 "create past a limit on files" sh -c "ulimit -f 1; trap '' XFSZ; '$program' '$room/small' create 7 <'$extract'"
[ "$("$program" "$room/small" graph)" = "no store" ] || fail "a store is there that could not be written"

store="$room/town"
make "$store"
"$program" "$store" graph >"$room/before"
for n in $(seq 1000); do echo "n$((100 + n)) v1 T x9 y9"; done >"$room/long"
wants 3 "apply past a limit on files" sh -c "ulimit -f 1; trap '' XFSZ; '$program' '$store' apply 8 <'$room/long'"
keeps "$store" 7
for output in '>&-' '>/dev/full'; do
    wants 3 "graph $output" sh -c "'$program' '$store' graph $output"
    wants 3 "audit $output" sh -c "'$program' '$store' audit $output"
    wants 3 "create over a store $output" sh -c "'$program' '$store' create 7 <'$extract' $output"
    keeps "$store" 7
    "$program" "$store" graph | cmp -s - "$room/before" || fail "graph $output changed the store"
    wants 3 "apply $output" sh -c "'$program' '$store' apply 8 <'$change' $output"
    keeps "$store" 8
    make "$store"
    wants 3 "create $output" sh -c "'$program' '$room/new' create 7 <'$extract' $output"
    keeps "$room/new" 7
    rm -f "$room/new.a"
done

mkdir "$room/disk"
if mount -t tmpfs -o size=64k tmpfs "$room/disk" 2>/dev/null; then
    trap 'umount "$room/disk"; rm -rf "$room"' EXIT
    make "$room/disk/town"
    head -c 1M /dev/zero >"$room/disk/filler" 2>/dev/null
    wants 3 "apply on a full disk" sh -c "'$program' '$room/disk/town' apply 8 <'$room/long'"
    keeps "$room/disk/town" 7
    wants 3 "create on a full disk" sh -c "'$program' '$room/disk/other' create 7 <'$extract'"
    rm "$room/disk/filler"
    wants 0 "apply once there is room" sh -c "'$program' '$room/disk/town' apply 8 <'$room/long'"
    keeps "$room/disk/town" 8
else
    fail "a full disk wasn't tried: it wants root"
fi
exit "$failed"
