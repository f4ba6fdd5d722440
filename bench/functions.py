#!/usr/bin/env python3
"""Lists the functions whose proofs take longest, while a check or a whole run of the gate goes on.

    bench/functions.py [--watch PID] [--every SECONDS] [--quiet SECONDS] [--most N]

rattle writes each part of a proof as a file into /tmp/rattle-logic-built-locked-PID-*, in the order in which it proves
them, so what a part took is the time between its file and the one before. Each 4 seconds, or each --every, this looks at
the names and times of these files; it opens none, starts nothing, and leaves what goes on alone. It ends with the process
of `--watch PID`, which is that of the check or of `rt ci` or one above it, or else when no file was written for --quiet
seconds, 300 without it; Ctrl-C prints what is known so far. It takes all checks of the machine, each from its beginning,
but no folder left behind by one that was cut off, whose files are older than --quiet. What a check writes in its last
seconds it may miss.

It prints the --most N dearest functions, 40 without it: the seconds of each; of these the walk of its code (`Lts`), the
goals without an answer (`Proof`, `Named`), those with one (`Answers`), the joints (`Tie`, `Met`) and the others; and in how
many checks it was seen, whose seconds are summed up: the must-fail edits of a crate check it again. `+NAME` is a group of
functions that call each other. Below stand the sums of all functions, and of what belongs to none, such as the libraries
that are read. How the seconds of a crate are shared among its functions, and by columns, is right only at one job a crate,
as in a whole run of `rt ci` or with `--jobs 1`: of several that are proved at once, all the time goes to the one whose file
comes next. Times are those of this machine under its load.
"""
import argparse
import collections
import glob
import os
import sys
import time

FOLDERS = "/tmp/rattle-logic-built-locked-*"
COLUMNS = {"walk": ["Lts"], "unanswered": ["Proof", "Named"], "answered": ["Answers"], "joints": ["Tie", "Met"]}
COLUMNS["others"] = "Carried Code Given Goals Invariants Kinds Layout Reads Statement Symbol TheLink".split()
COLUMN_OF = {kind: column for column, kinds in COLUMNS.items() for kind in kinds}


def listed():
    """The times of the files in the folder of each check that goes on, by their names."""
    found = {}
    for folder in glob.glob(FOLDERS):
        files = found[folder] = {}
        try:
            with os.scandir(folder) as entries:
                for it in entries:
                    if it.name.endswith(".oantt"):
                        files[it.name] = it.stat(follow_symlinks=False).st_mtime
        except OSError:
            # it is being removed, or a file of it: what is left is seen the next time
            continue
    return found


class Watch:
    """What was seen of the checks: the times of the files of each."""

    def __init__(self, start, quiet):
        self.going, self.checks, self.last, self.quiet = {}, [], start, quiet

    def look(self, folders, now):
        """Takes down what is listed at one moment; False once nothing was written for long."""
        # a number of a process may come again, so a folder that went and came is another check
        self.going = {it: files for it, files in self.going.items() if it in folders}
        for folder, files in folders.items():
            newest = max(files.values(), default=0)
            if folder not in self.going and now - newest < self.quiet:
                self.going[folder] = {}
                self.checks.append(self.going[folder])
            if folder in self.going:
                self.going[folder].update(files)
                self.last = max(self.last, newest)
        return now - self.last < self.quiet


def part_of(name):
    """The crate, the function and the column to which a file of this name counts; the function is empty where it has none."""
    crate, _, rest = name.removeprefix("Rattle-").removesuffix(".oantt").partition("-proofs.")
    parts = rest.split(".")
    kinds = [it.partition("-")[0] for it in parts]
    # types may have the names of kinds, and are followed by a function; a function's own name begins with no capital
    places = [it for it in range(1, len(parts)) if kinds[it] in COLUMN_OF and not parts[it - 1][:1].isupper()]
    crate = crate.partition("-")[0].partition(".")[0]
    return (crate, ".".join(parts[:places[-1]]), COLUMN_OF[kinds[places[-1]]]) if places else (crate, "", "others")


def sums(checks):
    """The seconds of each crate's functions by column, and in how many checks each was seen."""
    spent, times = collections.defaultdict(collections.Counter), collections.Counter()
    for files in checks:
        # a joint is written right behind its proof, and both may have the same time
        written = sorted((when, ".Met." in name, name) for name, when in files.items())
        before, seen = written[0][0] if written else 0, set()
        for when, _, name in written:
            crate, function, column = part_of(name)
            spent[crate, function][column] += when - before
            before = when
            seen.add((crate, function))
        times.update(seen)
    return spent, times


def table(checks, most):
    """The lines that are printed."""
    spent, times = sums(checks)
    functions = sorted((it for it in spent if it[1]), key=lambda it: (-spent[it].total(), it))
    shown = functions[:most]
    crates, names = (max([len(it[place]) for it in shown], default=0) + 2 for place in (0, 1))
    width = max(crates + names, 26)

    def line(name, seconds, last):
        return f"{name:{width}}" + "".join(f"{it:>11}" for it in seconds) + last

    def row(name, counts, last=""):
        return line(name, [f"{it:.1f}" for it in (counts.total(), *(counts[it] for it in COLUMNS))], last)

    lines = [line("seconds", ["sum", *COLUMNS], "   checks")]
    lines += [row(f"{it[0]:{crates}}{it[1]}", spent[it], f"{times[it]:9}") for it in shown]
    lines.append(row(f"{len(functions)} functions", sum((spent[it] for it in functions), collections.Counter())))
    lines.append(row("what belongs to none", sum((it for key, it in spent.items() if not key[1]), collections.Counter())))
    return lines


def main():
    parser = argparse.ArgumentParser(description=__doc__, formatter_class=argparse.RawDescriptionHelpFormatter)
    parser.add_argument("--watch", metavar="PID", type=int)
    parser.add_argument("--every", metavar="SECONDS", type=float, default=4.0)
    parser.add_argument("--quiet", metavar="SECONDS", type=float, default=300.0)
    parser.add_argument("--most", metavar="N", type=int, default=40)
    given = parser.parse_args()
    watch = Watch(time.time(), given.quiet)
    try:
        while True:
            is_busy = watch.look(listed(), time.time())
            if not (os.path.exists(f"/proc/{given.watch}") if given.watch else is_busy):
                break
            time.sleep(given.every)
    except KeyboardInterrupt:
        print("cut off")
    if not watch.checks:
        print("no check was seen")
    else:
        print("\n".join(table(watch.checks, given.most)))


if __name__ == "__main__":
    sys.exit(main())
