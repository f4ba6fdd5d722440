#!/usr/bin/env python3
"""Measures a run of the gate: the processor minutes of each crate's proof, of its tests and of its must-fail edits.

    bench/gate.py [--watch PID] [--every SECONDS] [NAME ..]

With no words it clones what is committed into a temporary folder and runs `rt ci --anew` there, so that all is proved from
nothing (plain `rt ci` with a kit that knows no `--anew`: it keeps nothing between runs); it ends with rt's status, and rt's
own output is kept in a file that the first line names. With names of crates it does so for these and those below them alone
(`rt ci --anew NAME..`). It looks at /proc each second, or each --every. `--watch PID` measures a run of `rt ci` that goes
on already, from now to its end, and leaves it alone: PID is its process or one above it, and what runs at that moment
counts whole. Ctrl-C prints what is known so far (and stops a run of its own). The table is sorted by the sum of a row, and
ends with the seconds of a must-fail edit, with its share of the check that all begin with, and their number; then those of
the dearest check behind that first one. Below it stand the sums, what was spent on linking and on running programs and
tests, the wall time, and the longest chain of crates, each of which stands on the one before, by the seconds of their
proofs. Times are those of this machine under its load. It runs on Linux alone.
"""
import argparse
import collections
import glob
import os
import re
import subprocess
import sys
import tempfile
import time

TICKS = os.sysconf("SC_CLK_TCK")
KINDS = ("proof", "tests", "edits")
TOLD = re.compile(r"NOT (PROVED|REFUSED|TRIED)|BAD EDIT|FAILED")

# a process as /proc has it: its parent, when it began, its own time, and that of its children which have ended, in seconds
Stat = collections.namedtuple("Stat", "parent began own ended")


class Task:
    """A command of the run: a check, a build, a link or a run of a program."""

    def __init__(self, crate, kind, now):
        self.crate, self.kind, self.first, self.last = crate, kind, now, now
        self.spent, self.is_over = 0.0, False


def stats():
    """Every process of the machine, by its number."""
    found = {}
    for name in os.listdir("/proc"):
        if name.isdigit():
            try:
                with open(f"/proc/{name}/stat", errors="replace") as file:
                    fields = file.read().rpartition(")")[2].split()
            except OSError:
                continue
            own, ended = (int(fields[11]) + int(fields[12])) / TICKS, (int(fields[13]) + int(fields[14])) / TICKS
            found[int(name)] = Stat(int(fields[1]), int(fields[19]), own, ended)
    return found


def words_of(pid):
    try:
        with open(f"/proc/{pid}/cmdline", errors="replace") as file:
            return file.read().split("\0")[:-1]
    except OSError:
        return []


def folder_of(pid):
    try:
        return os.readlink(f"/proc/{pid}/cwd")
    except OSError:
        return ""


def children(found):
    below = collections.defaultdict(list)
    for pid, stat in found.items():
        below[stat.parent].append(pid)
    return below


def spent(pid, found, below):
    """The seconds of a process and of all below it."""
    return found[pid].own + found[pid].ended + sum(spent(it, found, below) for it in below[pid])


def sort_of(pid):
    """The crate for which a child of rt works, and on what."""
    words, folder = words_of(pid), folder_of(pid)
    if "--crate-name" in words[:-1]:
        crate = words[words.index("--crate-name") + 1]
        if os.path.basename(folder).startswith("rt-edit"):
            return crate, "edits"
        return crate, "tests" if "--test" in words else "proof"
    ran = next((it for it in words if "/rt-run-" in it), "")
    if ran:
        return os.path.basename(ran), "runs"
    if any(it.endswith("rattle-link") for it in words):
        return os.path.basename(folder), "links"
    return "", "other"


def gate_at(pid, below):
    """The process of rt ci, at this one or below it."""
    lower = next((it for it in (gate_at(child, below) for child in below[pid]) if it), None)
    words = words_of(pid)
    is_gate = any(os.path.basename(it) == "rt" and after == "ci" for it, after in zip(words, words[1:]))
    return lower or (pid if is_gate else None)


class Watch:
    """What is known of a run of rt ci."""

    def __init__(self, pid, found):
        self.pid, self.began, self.tasks = pid, found[pid].began, {}
        self.start = self.now = time.time()
        self.ended = found[pid].ended
        self.own_before = self.own = found[pid].own
        self.other = 0.0

    def look(self, found):
        """Takes down one moment; False once the run has ended."""
        rt = found.get(self.pid)
        if rt is None or rt.began != self.began:
            return False
        self.now, below, there = time.time(), children(found), set()
        for child in below[self.pid]:
            key = child, found[child].began
            there.add(key)
            task = self.tasks.get(key)
            if task is None or task.kind == "other":
                task = self.tasks[key] = Task(*sort_of(child), task.first if task else self.now)
            task.last, task.spent = self.now, max(task.spent, spent(child, found, below))
        self.share(rt, there)
        return True

    def share(self, rt, there):
        """Gives what ended tasks spent after they were last seen to them: rt's own count of ended children has all of it."""
        gone = [task for key, task in self.tasks.items() if key not in there and not task.is_over]
        unseen = max(rt.ended - self.ended - sum(it.spent for it in gone), 0)
        for task in gone:
            task.is_over = True
            task.spent += unseen / len(gone)
        if not gone:
            self.other += unseen
        self.ended, self.own = rt.ended, rt.own

    def sums(self):
        """The seconds of each crate and kind."""
        found = collections.Counter()
        for task in self.tasks.values():
            found[task.crate, task.kind] += task.spent
        return found

    def walls(self):
        """For how long each crate was being proved."""
        found = collections.Counter()
        for task in self.tasks.values():
            if task.kind == "proof":
                found[task.crate] += task.last - task.first
        return found


def libraries(folder):
    """The libraries of the repository on which each crate stands."""
    listed = {}
    with open(f"{folder}/crates.txt") as file:
        for line in file:
            name, colon, rest = line.partition("#")[0].partition(":")
            if colon:
                listed[name.split()[0]] = rest.split()
    return {name: [it for it in rest if it in listed] for name, rest in listed.items()}


def dearest_later(watch, crate):
    """The most seconds that a check of an edit of the crate took behind the first one, from which the later ones take what it proved."""
    checks = sorted((it.first, it.spent) for it in watch.tasks.values() if (it.crate, it.kind) == (crate, "edits"))
    return max((spent for _, spent in checks[1:]), default=0)


def edits_of(folder, crates):
    """How many must-fail edits each crate has."""
    return {it: len(glob.glob(f"{folder}/crates/{it}/must-fail/*.edit")) for it in crates}


def longest(below, walls):
    """The chain of crates whose proofs took longest, lowest first."""
    chains = {}

    def chain(name):
        if name not in chains:
            under = max((chain(it) for it in below[name]), key=lambda it: it[0], default=(0, []))
            chains[name] = under[0] + walls[name], [*under[1], name]
        return chains[name]

    return max((chain(it) for it in below), default=(0, []))


def print_table(watch, below, edits):
    sums = watch.sums()
    crates = {crate for crate, kind in sums if kind in KINDS}
    rows = sorted(((sum(sums[it, kind] for kind in KINDS), it) for it in crates), reverse=True)
    print(f"{'processor minutes':34}" + "".join(f"{it:>9}" for it in (*KINDS, "sum")) + "   seconds an edit")
    for total, crate in rows:
        line = f"{crate:34}" + "".join(f"{it / 60:9.2f}" for it in (*(sums[crate, kind] for kind in KINDS), total))
        if edits.get(crate):
            line += f"{sums[crate, 'edits'] / edits[crate]:9.0f} x {edits[crate]}, later ones {dearest_later(watch, crate):.0f}"
        print(line)
    totals = [sum(sums[it, kind] for it in crates) for kind in KINDS]
    print(f"{f'{len(crates)} crates':34}" + "".join(f"{it / 60:9.2f}" for it in (*totals, sum(totals))))
    for kind, name in (("links", "linking"), ("runs", "running programs and tests")):
        print(f"{name:34}{sum(it for key, it in sums.items() if key[1] == kind) / 60:36.2f}")
    other = watch.other + sum(it for key, it in sums.items() if key[1] == "other")
    print(f"{'rt itself, layout and others':34}{(other + watch.own - watch.own_before) / 60:36.2f}")
    print(f"{'wall minutes':34}{(watch.now - watch.start) / 60:36.2f}")
    walls = watch.walls()
    total, chain = longest(below, walls)
    print(f"longest chain: {total:.0f} seconds: " + ", ".join(f"{it} {walls[it]:.0f}" for it in chain if walls[it]))


def follow(pid, every, is_over=lambda: False):
    """Watches rt ci at or below this process to its end, and prints what it spent."""
    found = stats()
    while pid in found and gate_at(pid, children(found)) is None and not is_over():
        time.sleep(every)
        found = stats()
    gate = gate_at(pid, children(found)) if pid in found else None
    if gate is None:
        print(f"no rt ci was seen at process {pid} or below it")
        return
    folder = folder_of(gate)
    below = libraries(folder)
    edits = edits_of(folder, below)
    watch = Watch(gate, found)
    try:
        while not is_over() and watch.look(stats()):
            time.sleep(every)
    except KeyboardInterrupt:
        print("cut off")
    print_table(watch, below, edits)


def from_nothing():
    """The words for rt with which it proves all from nothing, where it might keep something between runs."""
    told = subprocess.run(["rt", "help"], capture_output=True, text=True)
    return ["--anew"] if "--anew" in told.stdout + told.stderr else []


def run(names, every):
    """Runs the gate from nothing on a clone of what is committed, and returns its status."""
    top = subprocess.check_output(["git", "rev-parse", "--show-toplevel"], text=True).strip()
    handle, log = tempfile.mkstemp(prefix="gate-", suffix=".log")
    with os.fdopen(handle, "w+", errors="replace") as out, tempfile.TemporaryDirectory(prefix="gate-") as room:
        print(f"rt's output: {log}", flush=True)
        subprocess.check_call(["git", "clone", "-q", top, f"{room}/repository"])
        how = {"cwd": f"{room}/repository", "stdin": subprocess.DEVNULL, "stdout": out, "stderr": subprocess.STDOUT}
        with subprocess.Popen(["rt", "ci", *from_nothing(), *names], **how) as started:
            try:
                follow(started.pid, every, lambda: started.poll() is not None)
            finally:
                if started.poll() is None:
                    started.terminate()
        out.seek(0)
        lines = out.read().splitlines()
    print("\n".join([*(it for it in lines[:-1] if TOLD.search(it)), *lines[-1:]]))
    return started.returncode


def main():
    parser = argparse.ArgumentParser(description=__doc__, formatter_class=argparse.RawDescriptionHelpFormatter)
    parser.add_argument("--watch", metavar="PID", type=int)
    parser.add_argument("--every", metavar="SECONDS", type=float, default=1.0)
    parser.add_argument("names", metavar="NAME", nargs="*")
    given = parser.parse_args()
    if given.watch:
        if given.names:
            parser.error("--watch goes without names")
        follow(given.watch, given.every)
        return 0
    return run(given.names, given.every)


if __name__ == "__main__":
    sys.exit(main())
