# What the measuring scripts begin with: the program as `rt run` builds it, or as OSMROAD names it, and a folder that goes
# when they end.
here=$(cd "$(dirname "${BASH_SOURCE[0]}")" && pwd)
program=${OSMROAD:-$here/../crates/osmroad/out/osmroad}
[ -x "$program" ] || { echo "build the program first: (cd crates/osmroad && rt run -- - compile </dev/null)"; exit 1; }
room=$(mktemp -d)
trap 'rm -rf "$room"' EXIT
