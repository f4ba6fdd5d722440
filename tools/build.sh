# shellcheck shell=sh
# Read by ./sygus and bench/measure.sh, which set `top`, the repository's folder. `build NAME` proves and builds the program
# of crates/NAME, where that wasn't done or a source changed, with what it depends on and nothing else: by `rt ci` over a copy
# of these crates, so rt keeps what is proved for later calls and for the gate. It gives 1 where it couldn't be built.
# SYGUS_JOBS says how many crates are proved side by side.

say() {
    echo "$name: $*" >&2
}

# The crates that the program depends on, directly or not, and itself, the lowest first.
plan() {
    awk -v last="$name" '
        /^[a-z]/ { split($0, side, ":"); split(side[1], word, " "); below[word[1]] = side[2] }
        function visit(name, names, count, i) {
            if (name in seen) return
            seen[name] = 1
            count = split(below[name], names, " ")
            for (i = 1; i <= count; i++) if (names[i] in below) visit(names[i])
            print name
        }
        END { visit(last) }' "$top/crates.txt"
}

is_current() (
    cd "$top" && [ -x "$out/$name" ] || exit 1
    changed=$(for crate in $crates; do
        echo "crates/$crate/src crates/$crate/specs crates/$crate/proofs"
    done | xargs sh -c 'find crates.txt "$@" -newer "$0" 2>/dev/null' "$out/$name" | head -n 1)
    [ -z "$changed" ]
)

# Copies the crates to the room, and what the program is run on once it is built.
furnish() {
    mkdir "$room/.git" && cp "$top/HANDLES" "$room" || return 1
    for crate in $crates; do
        mkdir -p "$room/crates/$crate" || return 1
        for part in src specs proofs; do
            [ ! -d "$top/crates/$crate/$part" ] || cp -R "$top/crates/$crate/$part" "$room/crates/$crate" || return 1
        done
        grep "^$crate[ :]" "$top/crates.txt" || return 1
    done >"$room/crates.txt"
    for part in args stdin stdout status data; do
        [ ! -e "$top/crates/$name/$part" ] || cp -R "$top/crates/$name/$part" "$room/crates/$name" || return 1
    done
}

# The crates as tools/estimate.awk reads them, with the sizes of their sources.
weigh() {
    for crate in $crates; do
        bytes=$(find "$top/crates/$crate/src" -name '*.rt' -exec cat {} + | wc -c)
        sed -n "s/^$crate\\( [^:]*\\)*:/$crate: $((bytes))/p" "$top/crates.txt"
    done
}

# How many seconds ago the build began.
age() {
    echo "$(($(date +%s) - begun))"
}

# Notes the load of the machine, which an estimate asks for.
note_load() {
    echo "load $(age) $(cut -d ' ' -f 1 /proc/loadavg 2>/dev/null || echo 0)" >>"$room/told"
}

# How many minutes are left by what was told so far, and what part of the work is done, in percent.
estimate() {
    {
        echo "$weights"
        cat "$room/told"
    } | awk -v processors="$processors" -v seconds="$(age)" -f "$top/tools/estimate.awk"
}

# What is said of the rest: the minutes that it takes once a third of the work has shown the pace.
rest() {
    estimate | {
        read -r minutes percent
        if [ "$percent" -lt 33 ]; then echo "$percent % of the work"; else echo "some $minutes minutes left"; fi
    }
}

# Says which crates are proved, as the log tells it, and what the rest takes, until the room has a file `ended`.
tell() {
    told=0 turns=0 is_over=''
    while [ -z "$is_over" ]; do
        sleep 1
        turns=$((turns + 1))
        [ $((turns % 15)) -ne 0 ] || note_load
        [ ! -e "$room/ended" ] || is_over=yes
        awk -v told="$told" '/^rt: [a-z_]+ (proved$|is kept:)/ && ++count > told {
            print $2, ($3 == "is" ? "kept" : "proved")
        }' "$log" >"$room/found"
        while read -r crate how; do
            told=$((told + 1))
            echo "$crate $how $(age)" >>"$room/told"
            say "[$told of $total] $crate; $(rest)"
        done <"$room/found"
    done
}

# Ends what goes on. What was proved of whole crates is kept.
end_all() {
    trap '' INT TERM HUP
    # the teller that has just begun has no number yet, and ends by this
    : >"$room/ended"
    kill $child $teller 2>/dev/null
    wait
    rm -rf "$room" "$out/build.pid"
}

build_in_room() {
    furnish >"$log" 2>&1 || return 1
    weights=$(weigh) begun=$(date +%s)
    : >"$room/told"
    say "proving and building $total crates: some $(estimate | cut -d ' ' -f 1) minutes on an idle machine, less where rt has kept some"
    say "how long it takes on this one is said when a third of the work is done"
    note_load
    [ "$name" != sygus ] || say "an unproved answer in some three minutes, beside this: ./sygus --preview FILE"
    (cd "$room" && exec env ${SYGUS_JOBS:+RT_JOBS="$SYGUS_JOBS"} rt ci) >"$log" 2>&1 </dev/null &
    child=$!
    tell &
    teller=$!
    wait "$child"
    is_built=$?
    : >"$room/ended"
    wait "$teller"
    # as old as the copy, so that a source that changed meanwhile is newer
    [ "$is_built" -eq 0 ] && cp "$room/crates/$name/out/$name" "$out/$name.new" &&
        touch -r "$room/HANDLES" "$out/$name.new" && mv "$out/$name.new" "$out/$name"
}

build_anew() {
    if ! command -v rt >/dev/null 2>&1; then
        say "Rattle's toolchain is needed to build the program: there is no rt on the path"
        return 1
    fi
    mkdir -p "$out" || return 1
    if [ -e "$out/build.pid" ] && kill -0 "$(cat "$out/build.pid")" 2>/dev/null; then
        say "process $(cat "$out/build.pid") is building the program already, by $out/build.pid"
        return 1
    fi
    child='' teller='' room=$(mktemp -d) && echo $$ >"$out/build.pid" || return 1
    trap 'end_all; exit 130' INT TERM HUP
    total=$(($(echo "$crates" | wc -l)))
    processors=${SYGUS_JOBS:-$(getconf _NPROCESSORS_ONLN 2>/dev/null || echo 1)}
    build_in_room
    built=$?
    if [ "$built" -ne 0 ]; then
        failed=$(awk '/^rt: [a-z_]+ NOT PROVED/ { print $2; exit }' "$log")
        say "${failed:-the program} couldn't be built; the log is $log"
    fi
    end_all
    trap - INT TERM HUP
    return $built
}

build() {
    name=$1 out=$top/crates/$1/out
    log=$out/build.log
    crates=$(plan)
    is_current || build_anew
}
