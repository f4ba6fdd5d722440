#!/usr/bin/env bash
# Times the reading of a file of 4,000 variables and 100,000 constraints, and, as the baseline, of its text alone: the least
# time of five runs each. `sygus` reads both whole and solves nothing: the file ends with a command that there is none of, and
# for the text alone all commands stand in one of these. Its words, where it has some, are the numbers of variables and of
# constraints. Without words the worst files follow, by worst.py, whose status is that of the script.
. "$(dirname "$0")/measure.sh"
use_program sygus
variables=${1:-4000} constraints=${2:-100000}
# each constraint is an equation of two of the variables
commands() {
    awk -v variables="$variables" -v constraints="$constraints" 'BEGIN {
        printf "(set-logic BV)(synth-fun f () Bool)"
        for (number = 0; number < variables; number++) printf "(declare-var x%d (_ BitVec 32))", number
        for (number = 0; number < constraints; number++)
            printf "(constraint (= x%d x%d))", number % variables, number * 7 % variables
        printf "(no-command)" }'
}
commands >"$scratch/file"
{ echo '(no-command' && commands && echo ')'; } >"$scratch/text"
quietly() {
    "$@" >/dev/null 2>&1 || true
}
# Times the reading of a file, which is to be refused for its command of this number.
timed() {
    said=$("$program" "$scratch/$1" 2>&1) || true
    case $said in
    "refused: command $2 "*" CommandNotInProfile") ;;
    *) echo "$1: $said" >&2 && exit 1 ;;
    esac
    printf '%s of %s variables and %s constraints:%s s\n' \
        "$1" "$variables" "$constraints" "$(measure quietly "$program" "$scratch/$1")"
}
timed text 1
timed file $((variables + constraints + 3))
[ $# -gt 0 ] || bench/worst.py
