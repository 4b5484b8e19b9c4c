#!/usr/bin/env bash
# Sessions that are long, large or short of memory: a million messages; input that doesn't end; lines of 2^24 bytes and
# frames of 2^30, and of one more; live files of 2^40 bytes, and of one more; numbers at the ends of 64 bits; and 4 to
# 40 MB of memory. Each reply is compared with what docs/SESSION.md says, and times and peak memory are printed
# (long_session.py). Wants python3, 6 GB of memory, and the program as `rt run` builds it. Its arguments are how many
# messages, a million where left out; how many seconds an input that no limit ends is followed, 20 where left out; and
# the parts to be tried, all where left out but `total`, a session of 2^40 bytes.
set -eu
. "$(dirname "$0")/program.sh"
memory=$(mktemp -d -p /dev/shm)
trap 'rm -rf "$room" "$memory"' EXIT
messages=${1:-1000000}
seconds=${2:-20}
[ $# -gt 2 ] && shift 2 || set --
python3 "$here/long_session.py" "$program" "$memory" "$messages" "$seconds" "$@"
