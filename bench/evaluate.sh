#!/usr/bin/env bash
# Evaluates a term of 1,000 nodes 10,000 times over integers and over vectors of 64 bits, beside a tree walker in plain
# Rust (rustc -O) over the same term. It prints nodes a second, and how many times as long the proved evaluation takes.
# Its words, where it has some, are the number of leaves of the term and that of evaluations.
. "$(dirname "$0")/measure.sh"
leaves=${1:-478} rounds=${2:-10000}
plain evaluate
use_program bench_parts
for theory in bv lia; do
    read -r _ nodes _ sum proved <<<"$(measure "$program" evaluate "$theory" "$leaves" "$rounds")"
    read -r _ _ _ plain_sum plain <<<"$(measure "$scratch/evaluate" "$theory" "$leaves" "$rounds")"
    [ "$sum" = "$plain_sum" ] || echo "$theory: the sums differ: $sum and $plain_sum"
    awk -v t="$theory" -v n="$nodes" -v r="$rounds" -v a="$proved" -v b="$plain" 'BEGIN {
        printf "%s: %d nodes, %.1f million nodes a second; plain Rust %.1f; %.2f times as long\n",
            t, n, n * r / a / 1e6, n * r / b / 1e6, a / b }'
done
