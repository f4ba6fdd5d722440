#!/usr/bin/env bash
# Times the join of 5,000 leaves by 5,000 conditions over 512 points, beside the same join in plain Rust (rustc -O).
# Both make the same random rows, and both print the number of leaves of their tree; behind it stands the least time of
# five runs. Its words, where it has some, are the numbers of points, of leaves and of conditions.
. "$(dirname "$0")/measure.sh"
points=${1:-512} leaves=${2:-5000} conditions=${3:-5000}
plain unify
use_program bench_parts
printf 'sy_unify: %s s\n' "$(measure "$program" unify "$points" "$leaves" "$conditions")"
printf 'plain Rust: %s s\n' "$(measure "$scratch/unify" "$points" "$leaves" "$conditions")"
