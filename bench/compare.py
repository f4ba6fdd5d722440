#!/usr/bin/env python3
"""Runs two builds of `sygus` in turn on problems, and says which files take longer by the second one.

    bench/compare.py [--runs COUNT] [--limit SECONDS] OLD NEW [FILE ..]

Without files it takes those of examples/, with its folders advice and gallery, and of bench/problems/. A file counts where
OLD answers it within so many processor seconds, 20 without --limit: by definitions, or that there are none. Each program
runs COUNT times in turn, 5 without --runs, and its least processor time counts. A file takes longer where NEW needs more
than a twentieth above the time of OLD, and at least a millisecond more. Such a file is run as often again before it is
named, so that one busy moment doesn't count; and where a run takes more than two seconds, each program runs three times. A
comment line `; words: WORDS` of a file holds words for `sygus`. Answers aren't checked; `answers.py` does that. Both
programs should be built the same way. Last stand the middle of the ratios and the files that take longer. The status is 1
where there are such, or where NEW doesn't answer what OLD answers.
"""
import argparse
import os
import statistics
import sys

from runs import answer, name_of, problems, run, text_of, words_of

# What may be added before a file takes longer: this part of the time before, and so many seconds at least.
PART = 0.05
NOISE = 0.001
# From so many seconds on a file is run less often.
LONG = 2.0
FEW = 3


class Pair:
    """The times of two programs on a file."""

    def __init__(self, programs, file, limit):
        self.commands, self.limit = [[program, *words_of(text_of(file)), file] for program in programs], limit
        self.name = name_of(file)
        self.answers, self.times = [], [[], []]
        self.first(0)

    def first(self, place):
        ended = run(self.commands[place], self.limit)
        self.answers.append(answer(ended))
        self.times[place].append(ended.seconds)

    def is_answered(self):
        return self.answers[0] in ("definitions", "infeasible")

    def is_lost(self):
        return self.answers[1] != self.answers[0]

    def measure(self, runs):
        """Runs both in turn; a file that takes longer as often again."""
        self.first(1)
        if self.is_lost():
            return
        most = max(times[0] for times in self.times)
        runs = min(runs, FEW) if most > LONG else runs
        self.repeat(runs - 1)
        if self.is_longer():
            self.repeat(runs)

    def repeat(self, runs):
        for _ in range(runs):
            for times, command in zip(self.times, self.commands):
                ended = run(command, self.limit)
                if not ended.is_over:
                    times.append(ended.seconds)

    def least(self):
        return [min(times) for times in self.times]

    def ratio(self):
        old, new = self.least()
        return new / max(old, NOISE)

    def is_longer(self):
        old, new = self.least()
        return new - old > max(NOISE, PART * old)

    def show(self):
        if self.is_lost():
            print(f"| {self.name:24} | {1000 * self.times[0][0]:>9.1f} | {'':>9} | {'':>6} | {self.answers[1]:10} |", flush=True)
            return
        old, new = self.least()
        note = "longer" if self.is_longer() else ""
        print(f"| {self.name:24} | {1000 * old:>9.1f} | {1000 * new:>9.1f} | {self.ratio():>6.2f} | {note:10} |", flush=True)


def sums(pairs):
    """Prints what the files come to, and whether none of them is worse."""
    lost = [pair for pair in pairs if pair.is_lost()]
    both = [pair for pair in pairs if not pair.is_lost()]
    longer = [pair for pair in both if pair.is_longer()]
    if both:
        old, new = (sum(pair.least()[place] for pair in both) for place in (0, 1))
        middle = statistics.median(pair.ratio() for pair in both)
        print(f"\n{len(pairs)} files that OLD answers, {len(both)} of them by NEW too: {old:.2f} s and {new:.2f} s; the middle ratio is {middle:.2f}")
        print(f"{len(longer)} take longer by more than a twentieth and a millisecond" + (":" if longer else ""))
    for pair in sorted(longer, key=lambda pair: -pair.ratio()):
        old, new = pair.least()
        print(f"  {pair.name}: {1000 * old:.1f} ms, then {1000 * new:.1f} ms, {pair.ratio():.2f} times")
    for pair in lost:
        print(f"  {pair.name}: {pair.answers[0]}, then {pair.answers[1]}")
    return not longer and not lost


def main():
    options = argparse.ArgumentParser(description=__doc__, formatter_class=argparse.RawDescriptionHelpFormatter)
    options.add_argument("--runs", metavar="COUNT", type=int, default=5)
    options.add_argument("--limit", metavar="SECONDS", type=int, default=20)
    options.add_argument("old", metavar="OLD")
    options.add_argument("new", metavar="NEW")
    options.add_argument("files", metavar="FILE", nargs="*")
    options = options.parse_args()
    programs = [os.path.abspath(options.old), os.path.abspath(options.new)]
    print(f"| {'File':24} | {'old ms':>9} | {'new ms':>9} | {'ratio':>6} | {'':10} |")
    print(f"|{'-' * 26}|{'-' * 10}:|{'-' * 10}:|{'-' * 7}:|{'-' * 12}|")
    pairs = []
    for file in problems(options.files):
        pair = Pair(programs, file, options.limit)
        if pair.is_answered():
            pair.measure(options.runs)
            pair.show()
            pairs.append(pair)
    sys.exit(0 if sums(pairs) else 1)


if __name__ == "__main__":
    main()
