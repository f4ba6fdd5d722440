#!/usr/bin/env bash
# Times the simplex method on a chain of 300 variables and 300 forms, beside the same method in plain Rust (rustc -O).
# Both print the value of the last variable; behind it stands the least time of five runs.
# Its word, where it has one, is the number of variables and forms.
. "$(dirname "$0")/measure.sh"
count=${1:-300}
plain simplex
use_program bench_parts
printf 'sy_simplex: %s s\n' "$(measure "$program" simplex "$count")"
printf 'plain Rust: %s s\n' "$(measure "$scratch/simplex" "$count")"
