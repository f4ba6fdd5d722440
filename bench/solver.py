#!/usr/bin/env python3
"""Runs `sy_cdcl` beside minisat without preprocessing and restarts, and beside CaDiCaL without these and without deletion
of clauses, on the same files in turn.

    bench/solver.py [--program PROGRAM] [FOLDER]

With no folder it makes the files of bench/make_cnf.py. With `--program` nothing is proved or built, and PROGRAM is run in
place of `bench_parts`. Each program runs three times a file, and the least processor time counts. `sy_cdcl` measures its
time in `solve` and in `check`; the others' is that of the whole process. How many clauses `sy_cdcl` learns and how often it
propagates is counted by bench/propagations.py, which needs rustc; the others learn a clause by each conflict. The last
columns are the time of `sy_cdcl` by that of the other, for a learned clause, for a propagation and in all. Last stands how
much longer a propagation takes than minisat's where `sy_cdcl` learns fewer than 10,000 clauses. A solver that isn't
installed is left out.
"""
import argparse
import os
import re
import shutil
import statistics
import sys
import tempfile

import make_cnf
import propagations
from runs import measured, run

RUNS = 3
LIMIT = 600
FEW = 10_000


def solve(program, path):
    """The verdict, the microseconds of solving and of checking, and the learned clauses, which a model doesn't tell."""
    best = None
    for _ in range(RUNS):
        text = run([program, "cdcl", path, "100000000", "times"], LIMIT).output
        count = {name: int(number) for number, name in re.findall(r"(\d+) (\w+)", text)}
        if "accepted" in text and "true accepted" not in text:
            sys.exit(f"{path}: the log is refused")
        found = text.split()[0], count["solving"], count.get("checking"), count.get("learned")
        if best is None or found[1] < best[1]:
            best = found
    return best


def other(words, path):
    """The verdict, the microseconds, the conflicts, and the propagations of another solver."""
    best = None
    for _ in range(RUNS):
        ended = run([*words, path], LIMIT)
        text = ended.output + ended.errors
        count = {name: float(value) for name, value in re.findall(r"(conflicts|propagations) *: *([0-9]+)", text)}
        verdict = "UNSAT" if "UNSATISFIABLE" in text else "SAT"
        found = verdict, 1e6 * ended.seconds, count["conflicts"], count["propagations"]
        if best is None or found[1] < best[1]:
            best = found
    return best


OTHERS = {
    "minisat": ["minisat", "-no-pre", "-rfirst=2000000000"],
    "cadical": ["cadical", "--plain", "--restart=0", "--reduce=0"],
}


def numbers(time, learned, propagated):
    """A solver's milliseconds, its learned clauses, its propagations, and the nanoseconds that one of these takes."""
    return f"{time / 1000:.1f}", f"{learned:.0f}", f"{propagated:.0f}", f"{1000 * time / max(propagated, 1):.0f}"


def show(cells):
    print("| " + " | ".join(cells) + " |", flush=True)


def measure(program, counter, path, others):
    """Prints the row of a file; how many clauses were learned, and by solver how much longer a propagation takes."""
    name = os.path.basename(path)[:-4]
    verdict, time, checking, learned = solve(program, path)
    counted, lessons, propagated, _ = propagations.counts(counter, path)
    if counted != verdict or learned not in (None, lessons):
        sys.exit(f"{name}: {verdict} with {learned} learned clauses, and the counting copy says {counted} with {lessons}")
    cells = [name, verdict, *numbers(time, lessons, propagated)]
    cells.insert(3, "" if checking is None else f"{checking / 1000:.1f}")
    ratios = {}
    for solver, words in others.items():
        answer, other_time, conflicts, other_propagated = other(words, path)
        if verdict != answer:
            sys.exit(f"{name}: {verdict}, and {solver} says {answer}")
        ratios[solver] = (time / max(propagated, 1)) / (other_time / max(other_propagated, 1))
        each = (time / max(lessons, 1)) / (other_time / max(conflicts, 1))
        cells += numbers(other_time, conflicts, other_propagated)
        cells += f"{each:.1f}" if conflicts else "", f"{ratios[solver]:.1f}", f"{time / max(other_time, 1):.1f}"
    show(cells)
    return lessons, ratios


def show_sums(ratios, solver):
    """Says how much longer a propagation takes; the ratios are by file."""
    if not ratios:
        return
    most = max(ratios, key=ratios.get)
    over = [f"{name} {ratio:.1f}" for name, ratio in ratios.items() if ratio > 3]
    print(f"\n{len(ratios)} files with fewer than {FEW} learned clauses: a propagation takes at most {ratios[most]:.2f} times as "
          f"long as {solver}'s ({most}), the middle is {statistics.median(ratios.values()):.2f}; over 3 times: "
          f"{', '.join(over) or 'none'}")


def main():
    options = argparse.ArgumentParser(description=__doc__, formatter_class=argparse.RawDescriptionHelpFormatter)
    options.add_argument("--program", metavar="PROGRAM")
    options.add_argument("folder", metavar="FOLDER", nargs="?")
    options = options.parse_args()
    program = options.program or measured("bench_parts")
    others = {name: words for name, words in OTHERS.items() if shutil.which(words[0])}
    with tempfile.TemporaryDirectory() as scratch:
        counter = propagations.build(scratch)
        folder = options.folder
        if folder is None:
            folder = os.path.join(scratch, "formulas")
            os.mkdir(folder)
            make_cnf.write_all(folder)
        heads = ["Formula", "answer", "`sy_cdcl` ms", "`check` ms", "learned", "propagations", "ns each"]
        for name in others:
            heads += [f"{name} ms", "learned", "propagations", "ns each", "a clause", "a propagation", "in all"]
        show(heads)
        print("|" + "---|" * len(heads))
        found = {}
        for name in sorted(os.listdir(folder), key=lambda n: [int(p) if p.isdigit() else p for p in re.split(r"(\d+)", n)]):
            found[name[:-4]] = measure(program, counter, os.path.join(folder, name), others)
    for solver in others:
        show_sums({name: ratios[solver] for name, (learned, ratios) in found.items() if learned < FEW}, solver)


if __name__ == "__main__":
    main()
