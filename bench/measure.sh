# shellcheck shell=bash
# Read by the scripts that measure programs of the repository. They go on at its top, and `scratch` is a folder for what they
# make, which goes when they end. Times are user times.
set -eu
cd "$(dirname "${BASH_SOURCE[0]}")/.."
top=$PWD
# shellcheck source=tools/build.sh
. tools/build.sh
scratch=$(mktemp -d)
trap 'rm -rf "$scratch"' EXIT
TIMEFORMAT='%U'

# Compiles bench/NAME.rs to $scratch/NAME.
plain() {
    rustc -O --edition 2021 -o "$scratch/$1" "bench/$1.rs"
}

# Proves and builds the program of crates/NAME, where that wasn't done, and sets `program`.
use_program() {
    build "$1" || exit 1
    program=crates/$1/out/$1
}

# Prints what a program prints, and after it the least user time of five runs.
measure() {
    local line best=
    for _ in 1 2 3 4 5; do
        { time line=$("$@"); } 2>"$scratch/time"
        best=$(sort -n <(echo "${best:-1000}") "$scratch/time" | head -1)
    done
    echo "$line $best"
}
