#!/usr/bin/env python3
"""Runs `sygus`, and cvc5 where it is installed, on problems, and prints a table of their processor times.

    bench/answers.py [--sygus PROGRAM] [--limit SECONDS] [--cvc5 TIMES] [--judge] [FILE ..]

Without files it takes those of examples/, with its folders advice and gallery, and of bench/problems/. Without --sygus
it builds the program by ./sygus. Each run has a limit of processor seconds, 20 without --limit, and 6 GB. A comment
line `; words: WORDS` of a file holds words for `sygus`, as `--size 15`. Each answer of `sygus` is checked: it is
definitions of the functions of the file, in order, with their arguments and sorts; and where z3 is installed, z3 finds
no values at which they violate the problem; what z3 doesn't decide in a minute is told. A line `; answer: fail CAUSE`
says that no definitions are wanted, and why; so does `; answer: infeasible`. A line `; leaves: N` has the least number
of leaves that is known of the conditional trees of an answer, beside which that of `sygus` is shown. At the end stand
the counts and times of each class of problems, and the problems that cvc5 alone answers, with what `sygus` says. With
--cvc5 the times of cvc5 stand in that file of JSON: those that are there aren't taken again, and the others are added.
With --judge mode `check` judges the answers of both, beside z3: at the end stand how many hold, are refuted, aren't in
the grammar, or aren't decided, and whether z3 says the same; a body outside a default grammar is judged again as a rule
of its own. The status is 1 where an answer is wrong, and with --judge where z3 says otherwise.
"""
import argparse
import collections
import importlib.machinery
import importlib.util
import json
import os
import re
import shutil
import statistics
import subprocess
import sys
import tempfile

from runs import TOP, line_of, name_of, problems, run, sygus, text_of, words_of
from sygus_client import read_items, write_item

# The classes of problems, by how the path of a file begins below TOP; the first that fits counts.
CLASSES = [
    ("examples/advice/", "pairs of advice"),
    ("examples/gallery/", "the gallery"),
    ("examples/", "those of examples/"),
    ("bench/problems/int_inv_", "invariants over integers"),
    ("bench/problems/int_examples_", "closed examples over integers"),
    ("bench/problems/int_parity_", "parity and divisibility"),
    ("bench/problems/int_div_", "quotients, remainders and absolute values"),
    ("bench/problems/int_two_", "several functions over integers"),
    ("bench/problems/int_three_", "several functions over integers"),
    ("bench/problems/int_", "functions over integers"),
    ("bench/problems/tree_", "conditional trees"),
    ("bench/problems/table_", "tables of examples"),
    ("bench/problems/twelve_", "identities with twelve operators"),
    ("bench/problems/examples_", "closed examples"),
    ("bench/problems/hd_", "Hacker's Delight with twelve operators"),
    ("bench/problems/rows_", "closed examples with twelve operators"),
    ("bench/problems/two_", "two functions"),
    ("bench/problems/inv_", "invariants"),
    ("bench/problems/", "identities"),
    ("", "others"),
]

# How long z3 may take for an answer, and what it says where it doesn't decide it, as of a quotient and a product.
Z3_SECONDS = 60
UNDECIDED = ("timeout", "unknown")


class Problem:
    """What stands before a `check-synth`, as SMT-LIB."""

    def __init__(self):
        self.before, self.functions, self.arguments, self.sorts = [], [], {}, {}
        self.variables, self.assumed, self.wanted, self.count = [], [], [], 0
        self.logic = "BV"

    def take(self, command):
        name = command[0]
        if name == "set-logic":
            self.logic = command[1]
        elif name == "declare-var":
            self.variables.append(["declare-const", *command[1:]])
        elif name in ("define-fun", "define-sort"):
            if name == "define-sort" and len(command) == 3:
                command = [command[0], command[1], [], command[2]]
            if name == "define-sort":
                self.sorts[command[1]] = self.resolved(command[3])
            if name == "define-fun":
                self.arguments[command[1]] = command[2]
            self.before.append(command)
        elif name in ("synth-fun", "synth-inv"):
            sort = command[3] if name == "synth-fun" else "Bool"
            arguments = [[argument, self.resolved(given)] for argument, given in command[2]]
            self.functions.append(["define-fun", command[1], arguments, self.resolved(sort)])
            self.arguments[command[1]] = command[2]
        elif name == "assume":
            self.assumed.append(command[1])
        elif name == "constraint":
            self.wanted.append(command[1])
        elif name == "inv-constraint":
            self.take_invariant(*command[1:])

    def resolved(self, sort):
        return self.sorts.get(sort, sort) if isinstance(sort, str) else sort

    def take_invariant(self, inv, pre, trans, post):
        rows = [[], []]
        for row in rows:
            for _, sort in self.arguments[inv]:
                self.count += 1
                row.append(f"row_{self.count}")
                self.variables.append(["declare-const", row[-1], sort])
        here, there = rows
        call = lambda f, args: [f, *args] if args else f
        self.wanted += [
            ["=>", call(pre, here), call(inv, here)],
            ["=>", ["and", call(inv, here), call(trans, here + there)], call(inv, there)],
            ["=>", call(inv, here), call(post, here)],
        ]

    def fault(self, reply):
        """What is wrong with a reply, or None."""
        heads = [definition[:4] for definition in reply]
        if [write_item(head) for head in heads] != [write_item(head) for head in self.functions]:
            return "not the definitions that were asked"
        if not shutil.which("z3"):
            return None
        found = self.violated(reply)
        if found in UNDECIDED:
            print(f"z3 doesn't decide whether these hold: {write_item(reply)[:200]}", file=sys.stderr)
            return None
        return None if found == "unsat" else f"z3: {found}"

    def violated(self, reply):
        """What z3 says of values at which a reply's definitions violate the problem: `unsat` where there are none."""
        lines = [f"(set-logic QF_{self.logic})", *map(write_item, self.before), *map(write_item, reply)]
        lines += map(write_item, self.variables)
        lines += [f"(assert {write_item(term)})" for term in self.assumed]
        wanted = ["and", "true", *self.wanted]
        lines += [f"(assert (not {write_item(called(wanted, self.arguments))}))", "(check-sat)"]
        found = subprocess.run(["z3", "-in", f"-T:{Z3_SECONDS}"], input="\n".join(lines), capture_output=True, text=True).stdout
        return found.strip()[:60]


def called(term, arguments):
    """The term with `(f)` written `f` where f takes no arguments."""
    if isinstance(term, str):
        return term
    if len(term) == 1 and isinstance(term[0], str) and arguments.get(term[0]) == []:
        return term[0]
    return [called(part, arguments) for part in term]


def asked_in(text):
    """What each `check-synth` of a file asks, one after another."""
    problem = Problem()
    for command in read_items(text):
        if command[0] == "check-synth":
            yield problem
        else:
            problem.take(command)


def fault_of(text, output):
    """What is wrong with the answers to a file, or None."""
    replies = read_items(output)
    for problem in asked_in(text):
        if not replies:
            return "an answer is missing"
        reply = replies.pop(0)
        if isinstance(reply, str):
            return reply
        fault = problem.fault(reply)
        if fault:
            return fault
    return "more than the answers" if replies else None


def leaves_of(term):
    """How many leaves the choices at the top of a term have."""
    return leaves_of(term[2]) + leaves_of(term[3]) if term[0] == "ite" and len(term) == 4 else 1


def leaves_in(output):
    """How many leaves the bodies of all replies have."""
    return sum(leaves_of(definition[4]) for reply in read_items(output) for definition in reply)


def answer_of(text, ended):
    """What `sygus` answered, and whether that is right."""
    if ended.is_over:
        return "no answer within the limit", True
    if ended.status < 0:
        return f"WRONG: ended by signal {-ended.status}", False
    wanted = line_of(text, "answer")
    if ended.output.startswith("infeasible"):
        return "infeasible", wanted in ("", "infeasible")
    if ended.output.startswith("fail"):
        cause = ended.errors.strip().split(" ")[-1]
        return f"fail {cause}", wanted in ("", f"fail {cause}")
    if ended.errors.startswith("refused: "):
        return f"refused {ended.errors.split()[-1]}", False
    fault = fault_of(text, ended.output)
    if fault:
        return f"WRONG: {fault} {ended.errors}".strip(), False
    return ("definitions", True) if not wanted else ("WRONG: definitions", False)


def shown(seconds):
    return "-" if seconds is None else f"{seconds:.2f}"


def class_of(file):
    path = os.path.relpath(os.path.abspath(file), TOP)
    return next(name for start, name in CLASSES if path.startswith(start))


class Beside:
    """cvc5, and the times that it took before, where these are kept."""

    def __init__(self, limit, times):
        self.program, self.limit, self.times = shutil.which("cvc5"), limit, times
        self.known, self.output = {}, ""
        if times and os.path.exists(times):
            with open(times) as opened:
                self.known = json.load(opened)

    def seconds(self, file, anew):
        """The seconds in which cvc5 answers the file; None where it doesn't within the limit.

        Where it is asked anew, or that isn't known, `output` is what it prints.
        """
        name, self.output = f"{os.path.basename(file)} {self.limit}", ""
        if self.program and (anew or name not in self.known):
            ended = run([self.program, "--lang=sygus2", "--dag-thresh=0", file], self.limit)
            is_answered = "define-fun" in ended.output and not ended.is_over
            self.output = ended.output if is_answered else ""
            self.known.setdefault(name, ended.seconds if is_answered else None)
            self.keep()
        return self.known.get(name)

    def keep(self):
        if self.times:
            with open(self.times, "w") as opened:
                json.dump(self.known, opened, indent=0, sort_keys=True)


# What is counted of answers that mode `check` judges, by how its verdict begins.
VERDICTS = {
    "holds": "hold", "outside": "hold as rules of their own", "refuted": "refuted",
    "not in grammar": "not in the grammar", "budget": "not decided", "refused": "refused",
}


class Judge:
    """Mode `check`, which judges answers beside z3, and what came of it."""

    def __init__(self, program, limit):
        loader = importlib.machinery.SourceFileLoader("judge", os.path.join(TOP, "tools", "judge"))
        self.judge = importlib.util.module_from_spec(importlib.util.spec_from_loader("judge", loader))
        loader.exec_module(self.judge)
        self.program, self.limit, self.counts, self.faults = program, limit, {}, []

    def checked(self, words, text):
        with tempfile.NamedTemporaryFile("w", suffix=".sl") as file:
            file.write(text)
            file.flush()
            ended = run([self.program, "--mode", "check", *words, file.name], self.limit)
        return ended.status, ended.output.splitlines(), ended.errors.splitlines()

    def take(self, solver, file, output):
        """Judges what a solver printed for a file, and counts it."""
        text = text_of(file)
        replies = self.judge.replies_of(output)
        found = self.judge.verdicts(lambda it: self.checked(words_of(text), it), text, replies)[1]
        found = found or [("refused", None)] * len(replies)
        for problem, reply, (verdict, other) in zip(asked_in(text), replies, found):
            if isinstance(reply, list):
                verdict = "outside" if other == "holds" else other or verdict
                self.count(solver, f"{solver}, {name_of(file)}", verdict, problem.violated(reply))

    def count(self, solver, name, verdict, z3):
        kind = next(kind for kind in VERDICTS if verdict.startswith(kind))
        wanted = {"holds": "unsat", "outside": "unsat", "refuted": "sat"}.get(kind)
        counts = self.counts.setdefault(solver, collections.Counter())
        counts[kind] += 1
        counts[f"z3 {wanted == z3}" if wanted and z3 in ("sat", "unsat") else "z3 none"] += 1
        if wanted not in (None, z3) or kind not in ("holds", "outside"):
            self.faults.append(f"{name}: {verdict}; z3: {z3}")

    def show(self):
        """Prints the counts, and what neither holds nor is plain. Whether z3 says the same of all."""
        titles = [*VERDICTS.values(), "z3 says the same", "says otherwise", "isn't asked or doesn't know"]
        print(f"\n| Answers of | {' | '.join(titles)} |\n|{'---|' * (len(titles) + 1)}")
        for solver, counts in self.counts.items():
            kinds = [*VERDICTS, "z3 True", "z3 False", "z3 none"]
            print(f"| {solver} | {' | '.join(str(counts[kind]) for kind in kinds)} |")
        print(*self.faults, sep="\n")
        return not any(counts["z3 False"] for counts in self.counts.values())


def asked(file, program, beside, judge, limit):
    """What came of a problem: the row of the table, and what `sums` adds up."""
    text = text_of(file)
    ended = run([program, *words_of(text), file], limit)
    seconds = None if ended.is_over else ended.seconds
    answer, is_right = answer_of(text, ended)
    found = answer == "definitions"
    other = beside.seconds(file, judge is not None)
    if judge and found:
        judge.take("`sygus`", file, ended.output)
    if judge and beside.output:
        judge.take("cvc5", file, beside.output)
    ratio = seconds / max(other, 0.005) if found and other is not None else None
    least = int(line_of(text, "leaves") or 0)
    leaves = (leaves_in(ended.output), least) if found and least else None
    name = name_of(file)
    tree = f"{leaves[0]}, {leaves[1]}" if leaves else ""
    print(f"| {name:24} | {answer:26} | {shown(seconds):>8} | {shown(other):>8} | {shown(ratio):>7} | {tree:>7} |", flush=True)
    return {"class": class_of(file), "name": name, "answer": answer, "found": found, "right": is_right, "wanted": line_of(text, "answer"), "seconds": seconds, "other": other, "ratio": ratio, "leaves": leaves}


def middle(numbers):
    return shown(statistics.median(numbers)) if numbers else "-"


def summary(rows):
    """What the rows of a class come to, as a row."""
    both = [row for row in rows if row["ratio"] is not None]
    ours, theirs = sum(row["seconds"] for row in both), sum(row["other"] for row in both)
    less = sum(row["seconds"] < row["other"] for row in both)
    trees = [row["leaves"] for row in rows if row["leaves"]]
    counts = f"{len(rows)} | {sum(row['found'] for row in rows)} | {sum(row['other'] is not None for row in rows)} | {len(both)}"
    return f"{counts} | {ours:.2f} | {theirs:.2f} | {less} | {middle([row['ratio'] for row in both])} | {middle([leaves / least for leaves, least in trees])} |"


def sums(rows):
    print("\n| Problems | Files | `sygus` finds definitions | cvc5 finds some | both | `sygus` s on these | cvc5 s | `sygus` takes less in | middle ratio | leaves by the least known |")
    print("|---|---|---|---|---|---|---|---|---|---|")
    for name in dict.fromkeys(name for _, name in CLASSES):
        of_class = [row for row in rows if row["class"] == name]
        if of_class:
            print(f"| {name} | {summary(of_class)}")
    print(f"| all | {summary(rows)}")
    for row in rows:
        if row["other"] is not None and not row["found"] and not row["wanted"]:
            print(f"cvc5 alone answers {row['name']}: {shown(row['other'])} s; sygus: {row['answer']}, {shown(row['seconds'])} s")


def main():
    options = argparse.ArgumentParser(description=__doc__, formatter_class=argparse.RawDescriptionHelpFormatter)
    options.add_argument("--sygus", metavar="PROGRAM")
    options.add_argument("--limit", metavar="SECONDS", type=int, default=20)
    options.add_argument("--cvc5", metavar="TIMES")
    options.add_argument("--judge", action="store_true")
    options.add_argument("files", metavar="FILE", nargs="*")
    options = options.parse_args()
    program = sygus(options.sygus)
    print(f"| {'File':24} | {'Answer':26} | {'sygus s':>8} | {'cvc5 s':>8} | {'ratio':>7} | {'leaves':>7} |")
    print(f"|{'-' * 26}|{'-' * 28}|{'-' * 9}:|{'-' * 9}:|{'-' * 8}:|{'-' * 8}:|")
    beside = Beside(options.limit, options.cvc5)
    if not shutil.which("z3"):
        print("z3 isn't installed: of definitions only names, arguments and sorts are checked", file=sys.stderr)
    judge = Judge(program, options.limit) if options.judge else None
    rows = [asked(file, program, beside, judge, options.limit) for file in problems(options.files)]
    sums(rows)
    agrees = judge.show() if judge else True
    sys.exit(0 if agrees and all(row["right"] for row in rows) else 1)


if __name__ == "__main__":
    main()
