# How many minutes the rest of a build takes, by what is done and the pace so far, and what part of the work is done, in percent:
#     awk -v processors=N -v seconds=N -f estimate.awk
# The minutes say little before a third of the work is done: with nothing done they are those of an idle machine, and no pace
# at the beginning foresees what begins beside it.
# `seconds` is the time since the build began. It reads a line `NAME: BYTES LIBRARY ..` of each crate, the lowest first, with
# the size of its source and the libraries that it depends on; then a line `NAME proved SECOND` or `NAME kept SECOND` of each
# that is done, and now and then a line `load SECOND LOAD` with the load of the machine. The last crate is the program.
# A crate takes some 12 units of work and one for each 210 bytes of its source, the program some 350 more. A crate that rt
# has kept takes none, is no part of the work, and tells nothing of the pace.
$1 ~ /:$/ {
    name = substr($1, 1, length($1) - 1)
    names[++count] = name
    work[name] = 12 + $2 / 210
    libraries[name] = $0
    next
}
# What was long ago counts less: a third of what it does now after 15 minutes.
$1 == "load" {
    # the part of the processors that is the build's, where all that runs takes turns
    share = processors / ($3 > processors ? $3 : processors)
    had += share * ($2 - last) * exp(($2 - seconds) / 900)
    last = $2
    next
}
$1 in work {
    units = work[$1] + ($1 == names[count] ? 350 : 0)
    if ($2 == "proved") {
        proved += units
        done += units * exp(($3 - seconds) / 900)
    }
    is_done[$1] = 1
}
END {
    if (!share) share = 1
    had += share * (seconds - last)
    work[names[count]] += 350
    for (i = count; i > 0; i--) {
        if (names[i] in is_done) continue
        rest += work[names[i]]
        chain = work[names[i]] + behind[names[i]]
        if (chain > longest) longest = chain
        parts = split(libraries[names[i]], below)
        for (k = 3; k <= parts; k++) if (chain > behind[below[k]]) behind[below[k]] = chain
    }
    part = proved + rest > 0 ? proved / (proved + rest) : 1
    # while the program is built no other crate is left: one processor works alone
    if (!(names[count] in is_done)) rest += (processors - 1) * work[names[count]]
    if (processors * longest > rest) rest = processors * longest
    # of each crate under way half of a middling one is done
    under_way = 45 * processors
    if (under_way > processors * had / 2) under_way = processors * had / 2
    # beside what was done count five minutes in which a processor does 1.1 units a second
    had += 300
    pace = share * (done + under_way + 330 * processors) / had
    printf "%d %d\n", rest / pace / 60 + 0.5, 100 * part
}
