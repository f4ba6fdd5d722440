# shellcheck shell=sh
# Read by ./sygus, which sets `top`, the repository's folder. `preview [OPTIONS] FILE ..` runs the program by `rt try`, which
# proves nothing and keeps nothing: each call builds anew, and a call with several files builds once. Of one file
# tools/explain says what is wrong with it, or what to try.
# The status is the program's own, or with several files 0 where it ended on each; 4 where a file can't be read; 70 where it
# didn't end.

# Runs `rt try` with these arguments, shows what it says, and gives the program's status.
try() (
    said=$(mktemp) || exit 70
    trap 'rm -f "$said"' EXIT
    trap 'exit 130' INT TERM HUP
    (cd "$top/crates/sygus" && rt try "$@") 2>"$said"
    status=$?
    cat "$said" >&2
    if ! tail -n 1 "$said" | grep -Eq '^(run=ended|cases=).* proved=no$'; then
        echo "sygus: the program wasn't run to its end: rt try ended with status $status" >&2
        exit 70
    fi
    [ -z "$file" ] || explain
    exit "$status"
)

# What tools/explain makes of the line of a refusal or of a `fail` that was said, where Python is there.
explain() {
    line=$(grep -Em 1 '^(refused|reply refused|fail): ' "$said") && command -v python3 >/dev/null 2>&1 || return 0
    echo "$line" >"$said"
    # shellcheck disable=SC2086
    SAID=$said "$top/tools/explain" $options -- "$file" >&2 </dev/null
}

# Runs it on copies of several files, each under its number and name.
try_each() (
    cases=$(mktemp -d) || exit 70
    trap 'rm -rf "$cases"' EXIT
    trap 'exit 130' INT TERM HUP
    number=100
    for file in "$@"; do
        number=$((number + 1))
        cp "$file" "$cases/${number#1}-${file##*/}" || exit 70
    done
    # shellcheck disable=SC2086
    try --cases "$cases" -- $options - </dev/null
)

# Says which of these files can't be read, before a build is begun for it.
unread() {
    case "$options " in
    *' --mode drill '* | *' --mode=drill '*) return 1 ;;
    esac
    for name in "$@"; do
        if [ -d "$name" ]; then
            echo "sygus: $name is a folder; its files are named by $name/*.sl" >&2
        elif [ "$name" != - ] && [ ! -r "$name" ]; then
            echo "sygus: $name: there is no such file, or it can't be read" >&2
        else
            continue
        fi
        return 0
    done
    return 1
}

preview() {
    options='' file=''
    while :; do
        case ${1-} in
        --*=* | --proofs) options="$options $1" ;;
        --?*)
            options="$options $1 ${2-}"
            [ $# -eq 1 ] || shift
            ;;
        *) break ;;
        esac
        shift
    done
    [ "${1-}" != -- ] || shift
    if [ $# -eq 0 ]; then
        echo "usage: ./sygus --preview [OPTIONS] FILE .." >&2
        return 3
    fi
    if unread "$@"; then
        return 4
    fi
    if ! command -v rt >/dev/null 2>&1; then
        echo "sygus: Rattle's toolchain is needed to build the program: there is no rt on the path" >&2
        return 70
    fi
    echo "sygus: an unproved preview, in some three minutes or more; ./sygus FILE proves the program and its answer" >&2
    if [ $# -gt 1 ]; then
        try_each "$@"
    elif [ "$1" != - ] && [ -e "$1" ]; then
        # what isn't there to be read again isn't explained
        [ ! -f "$1" ] || file=$1
        # shellcheck disable=SC2086
        try -- $options - <"$1"
    else
        # shellcheck disable=SC2086
        try -- $options "$1"
    fi
    status=$?
    echo "sygus: that was a preview, and isn't proved; ./sygus FILE proves the program, and then its answer" >&2
    return "$status"
}
