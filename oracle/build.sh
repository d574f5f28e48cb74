# Read by `run` and `speed`, which name a profile in `profile`: builds the reference and the comparison, and stays in this folder.
#   ORACLE_REF   the folder of the reference's sources that holds engine/ and mix/
#   ORACLE_LIB   the folder of libmixer.a; where it is not set, `rt lib` in crates/mixer proves and builds the library first
here=$(dirname "$0")
said=$(mktemp) || exit 2
trap 'rm -f "$said" "$said".*' EXIT

# Runs one stage quietly, and ends with what it said and its name where it fails.
stage() {
    name=$1
    shift
    "$@" >"$said" 2>&1 && return
    cat "$said"
    echo "oracle: FAILED: $name"
    exit 1
}

if [ ! -f "${ORACLE_REF:-}/engine/plan.rs" ]; then
    echo 'oracle: FAILED: ORACLE_REF names no folder with engine/plan.rs'
    exit 2
fi
ORACLE_REF=$(cd "$ORACLE_REF" && pwd)
if [ -z "${ORACLE_LIB:-}" ]; then
    stage 'rt lib of crates/mixer' sh -c 'cd "$1/../crates/mixer" && rt lib' sh "$here"
    ORACLE_LIB=$here/../crates/mixer/out
fi
ORACLE_LIB=$(cd "$ORACLE_LIB" && pwd)
export ORACLE_REF ORACLE_LIB
cd "$here" || exit 2
stage 'cargo build' cargo build --profile "$profile" --offline --locked
