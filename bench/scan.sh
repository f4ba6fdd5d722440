#!/usr/bin/env bash
# Times the search for combinations of random numbers of 64 bits that have a wanted value at three points, which none has:
# how many are judged a second by `bvand` and by `bvmul`, 20 million of 4,472 numbers each, and how many second parts of a
# sum are looked up a second, a million in a table of as many that is made first.
. "$(dirname "$0")/measure.sh"
use_program bench_parts
row() {
    read -r _ _ seconds <<<"$(measure "$program" scan "$1" "$2")"
    awk -v o="$1" -v n="$3" -v s="$seconds" 'BEGIN { printf "%s: %s s, %.0f million a second\n", o, s, n / s }'
}
row and 4472 20
row mul 4472 20
row add 1000000 1
