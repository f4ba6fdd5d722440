#!/usr/bin/env python3
"""Says which settings of `sygus` answer problems that the default limits don't, and which few of them answer the most.

    bench/settings.py [--sygus PROGRAM] [--limit SECONDS] [--jobs N] [--keep FILE] [FILE ..]

Without files it takes those of bench/problems. Each run has a limit of processor seconds, 20 without --limit, and N
of them go on at a time, as many as there are processors without --jobs. On a file that the default limits don't
answer it tries the settings that can come to another end: those with a larger limit of the option that its `fail`
names, and mode `least`; `Size` and `Bank` count as one. A comment line `; words: WORDS` holds words for `sygus`,
which a setting's own replace. What came of each run is in --keep, a file of JSON, and isn't run again. It prints for
each such file the settings that answer it, with their seconds, and then the settings in an order: each is the one
that answers most of what those before it don't, of several the quickest. SETTINGS of tools/portfolio has the first of
them.
"""
import argparse
import concurrent.futures
import glob
import json
import os
import re
import shlex

from runs import TOP, line_of, name_of, run, sygus, text_of, words_of
from sygus_client import outcome_of

OTHERS = "--clauses 400000 --weight 1000000 --rounds 1024 --points 1024 --nodes 8000 --pivots 100000"
CANDIDATES = [
    "--bank 40000",
    "--size 14",
    "--size 16",
    "--size 20",
    "--size 24",
    "--bank 40000 --size 16",
    "--bank 40000 --size 20",
    "--bank 40000 --size 32",
    "--mode least",
    "--mode least --size 20",
    "--mode least --bank 40000 --size 20",
    OTHERS,
    f"--size 24 {OTHERS}",
    f"--bank 40000 --size 32 {OTHERS}",
    f"--mode least --bank 40000 --size 32 {OTHERS}",
]
# What `fail` names, and the options whose larger limits may change the end.
RAISED = {"Size": "--size --bank", "Bank": "--size --bank", "Nodes": "--nodes --pivots", "Pivots": "--nodes --pivots"}
ANSWERED = ("definitions", "infeasible")


def pairs(words):
    return dict(zip(words[::2], words[1::2]))


def merged(file, setting):
    """The words of a setting on a file."""
    return [word for pair in {**pairs(words_of(text_of(file))), **pairs(shlex.split(setting))}.items() for word in pair]


def can_differ(setting, outcome):
    """Whether a setting may come to another end than this one of the default limits."""
    causes = re.findall(r"fail (\w+)", outcome)
    raised = {option for cause in causes for option in RAISED.get(cause, f"--{cause.lower()}").split()}
    return "--mode" in setting or not raised.isdisjoint(setting.split())


class Tried:
    """What came of the settings on the files, as `--keep` has it: the outcome and the processor seconds."""

    def __init__(self, program, limit, path):
        self.program, self.limit, self.path, self.known = program, limit, path, {}
        if path and os.path.exists(path):
            with open(path) as opened:
                self.known = json.load(opened)

    def run(self, task):
        file, setting = task
        name = f"{name_of(file)} {self.limit} {setting}"
        if name not in self.known:
            ended = run([self.program, *merged(file, setting), file], self.limit)
            outcome = "no answer" if ended.is_over else outcome_of(ended.status, ended.output, ended.errors)
            self.known[name] = [outcome, round(ended.seconds, 2)]
        return task, self.known[name]

    def all(self, tasks, jobs):
        try:
            with concurrent.futures.ThreadPoolExecutor(jobs) as pool:
                return dict(pool.map(self.run, tasks))
        finally:
            if self.path:
                with open(self.path, "w") as opened:
                    json.dump(self.known, opened, indent=0, sort_keys=True)


def ordered(answers):
    """The settings, each of which answers most of what those before it don't, with these files and the seconds."""
    left = {file: dict(by) for file, by in answers.items() if by}
    while left:
        settings = {setting for by in left.values() for setting in by}

        def worth(setting):
            own = [by[setting] for by in left.values() if setting in by]
            return len(own), -sum(own), -len(setting), setting

        best = max(settings, key=worth)
        own = {file: by[best] for file, by in left.items() if best in by}
        yield best, own
        left = {file: by for file, by in left.items() if file not in own}


def main():
    parser = argparse.ArgumentParser(description=__doc__, formatter_class=argparse.RawDescriptionHelpFormatter)
    parser.add_argument("--sygus", metavar="PROGRAM")
    parser.add_argument("--limit", metavar="SECONDS", type=int, default=20)
    parser.add_argument("--jobs", metavar="N", type=int, default=os.cpu_count())
    parser.add_argument("--keep", metavar="FILE")
    parser.add_argument("files", metavar="FILE", nargs="*")
    given = parser.parse_args()
    files = given.files or sorted(glob.glob(f"{TOP}/bench/problems/*.sl"))
    tried = Tried(sygus(given.sygus), given.limit, given.keep)
    asked = [file for file in files if not line_of(text_of(file), "answer")]
    default = {file: end for (file, _), end in tried.all([(file, "") for file in asked], given.jobs).items()}
    open_ones = {file: end for file, end in default.items() if end[0] not in ANSWERED}
    print(f"the default limits answer {len(asked) - len(open_ones)} of {len(asked)} files within {given.limit} s")
    tasks = [(file, it) for file, (outcome, _) in open_ones.items() for it in CANDIDATES if can_differ(it, outcome)]
    answers = {file: {} for file in open_ones}
    for (file, setting), (outcome, seconds) in tried.all(tasks, given.jobs).items():
        if outcome in ANSWERED:
            answers[file][setting] = seconds
    for file, by in answers.items():
        told = "; ".join(f"{setting}: {seconds:.2f} s" for setting, seconds in sorted(by.items(), key=lambda it: it[1]))
        print(f"| `{name_of(file)}` | {default[file][0]}, {default[file][1]:.2f} s | {told or 'none'} |")
    for setting, own in ordered(answers):
        print(f"{setting}: {len(own)} more, the median {sorted(own.values())[len(own) // 2]:.2f} s")


if __name__ == "__main__":
    main()
