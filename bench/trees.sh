#!/usr/bin/env bash
# Times looking at a query under a path, and checking refutation trees, each beside half of its nodes and half of its
# path in the same run. What the program takes to make its input is timed with it, and so is the least time of five runs
# that is printed.
# Its words, where it has some, are the number of nodes of the query, that of facts and the depth of the tree.
. "$(dirname "$0")/measure.sh"
use_program bench_parts
timed() {
    printf 'query of %s nodes, %s facts, tree of depth %s: %s s\n' "$1" "$2" "$3" "$(measure "$program" trees "$@")"
}
if [ $# -gt 0 ]; then
    timed "$@"
else
    for nodes in 0 5000 10000; do
        timed "$nodes" 100 0
    done
    timed 10000 200 0
    for depth in 10 11 12; do
        timed 0 100 "$depth"
    done
    timed 0 50 11
    timed 0 200 11
fi
