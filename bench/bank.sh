#!/usr/bin/env bash
# Builds a bank of ten operators over four arguments of 32 bits at 64 points, beside the same in plain Rust (rustc -O).
# It prints rows that were tried a second, and how many times as long the proved bank takes.
# Its words, where it has some, are the number of points and that of sizes.
. "$(dirname "$0")/measure.sh"
points=${1:-64} sizes=${2:-7}
plain bank
use_program bench_parts
read -r _ tried _ kept proved <<<"$(measure "$program" bank "$points" "$sizes" 1000000)"
read -r _ plain_tried _ plain_kept plain <<<"$(measure "$scratch/bank" "$points" "$sizes")"
[ "$tried $kept" = "$plain_tried $plain_kept" ] || echo "the counts differ: $tried $kept and $plain_tried $plain_kept"
awk -v n="$tried" -v k="$kept" -v a="$proved" -v b="$plain" 'BEGIN {
    printf "%d rows tried, %d terms kept: %.2f million rows a second; plain Rust %.2f; %.2f times as long\n",
        n, k, n / a / 1e6, n / b / 1e6, a / b }'
