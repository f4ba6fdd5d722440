#!/usr/bin/env bash
# Times the derivation of bodies of 500, 1,000 and 2,000 nodes from a grammar of 64 nonterminals and 1,024 rules, which
# has cycles of chain rules and many derivations of each sum; and of as large bodies that have no derivation. What the
# program takes to make its input is timed with it, and so is the least time of five runs that is printed.
# Its words, where it has some, are the numbers of nonterminals, of rules for each, and of nodes.
. "$(dirname "$0")/measure.sh"
use_program bench_parts
derived() {
    printf '%s nonterminals, %s rules for each, %s nodes: %s s\n' "$1" "$2" "$3" "$(measure "$program" derive "$@")"
}
if [ $# -gt 0 ]; then
    derived "$@"
else
    for nodes in 500 1000 2000; do
        derived 64 16 "$nodes"
    done
fi
