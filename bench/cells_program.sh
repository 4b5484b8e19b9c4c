# What the scripts that compile maps in cells begin with, behind program.sh: the program `cells` as `rt run` builds it,
# or as CELLS names it, and the folder of the tools beside it.
cells=$(realpath -m "${CELLS:-$here/../crates/cells/out/cells}")
[ -x "$cells" ] || { echo "build the program first: (cd crates/cells && rt run -- merge </dev/null)"; exit 1; }
tools=$(cd "$here/../tools/cells" && pwd)
