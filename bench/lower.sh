#!/usr/bin/env bash
# Times the lowering of a query of 39,999 divisions of one variable by different numbers, which weighs 399,993.
# It prints the number of variables of the lowering; behind it stands the least time of five runs. Its word, where it has one, is
# the number of divisions.
. "$(dirname "$0")/measure.sh"
count=${1:-39999}
use_program bench_parts
printf 'sy_lower: %s s\n' "$(measure "$program" lower "$count")"
