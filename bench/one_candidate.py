#!/usr/bin/env python3
"""Runs `sygus` beside cvc5 on problems of one candidate, which is right, and whose query is a hard one.

    bench/one_candidate.py [--sygus PROGRAM] [--limit SECONDS] [--first BITS] [--last BITS]
                           [--write FOLDER] FAMILY [FAMILY ..]

A grammar has one body, so that a run is the time of one query. The families:

    ring       an invariant of a ring buffer: the place that is read next, the one that is written next, and how many
               are in use, of a number of places that is a variable; over 8 to 32 bits. A place moves on in four ways,
               so each width has four files.
    division   laws of a quotient and a remainder of two variables, over 4 to 16 bits: five files a width.

Each program runs once a file, with so many processor seconds, 20 without --limit. The last lines have how many files
each answers, and the times in sum and at most; the status is 1 where `sygus` doesn't answer a file. A solver that isn't
installed is left out. --write puts the files into a folder and runs nothing.
"""
import argparse
import os
import shutil
import sys
import tempfile

from runs import answer, run, sygus

# how a place of the ring moves on from x, where `next` is (bvadd x 1)
STEPS = {
    "equal": "(ite (= {next} n) {zero} {next})",
    "below": "(ite (bvult {next} n) {next} {zero})",
    "last": "(ite (= {x} (bvsub n {one})) {zero} {next})",
    "subtract": "(ite (bvuge {next} n) (bvsub {next} n) {next})",
}
LAWS = {
    "law": "(= a (bvadd (bvmul (bvudiv a b) b) (bvurem a b)))",
    "remainder": "(= (bvurem a b) (bvsub a (bvmul (bvudiv a b) b)))",
    "less": "(or (= b {zero}) (bvult (bvurem a b) b))",
    "product": "(or (= b {zero}) (bvule (bvmul (bvudiv a b) b) a))",
    "quotient": "(bvule (bvudiv a b) (ite (= b {zero}) (bvnot {zero}) a))",
}
RING = """(set-logic BV)
(synth-fun inv ({now}) Bool ((B Bool)) ((B Bool ({candidate}))))
(define-fun pre ({now}) Bool (and (= h {zero}) (= t {zero}) (= c {zero}) (bvult {zero} n)))
(define-fun trans ({now} {then}) Bool (or
  (and (bvult c n) (= t1 {write}) (= c1 (bvadd c {one})) (= h1 h) (= n1 n))
  (and (bvult {zero} c) (= h1 {read}) (= c1 (bvsub c {one})) (= t1 t) (= n1 n))))
(define-fun post ({now}) Bool {candidate})
(inv-constraint inv pre trans post)
(check-synth)
"""
DIVISION = """(set-logic BV)
(synth-fun f () Bool ((Body Bool)) ((Body Bool (true))))
(declare-var a (_ BitVec {width}))
(declare-var b (_ BitVec {width}))
(constraint {law})
(check-synth)
"""


def ring(way, width):
    """The problem of the ring's invariant, whose places move on in this way."""
    zero, one = f"(_ bv0 {width})", f"(_ bv1 {width})"
    read, write = (STEPS[way].format(x=x, next=f"(bvadd {x} {one})", zero=zero, one=one) for x in "ht")
    now, then = (" ".join(f"({name}{end} (_ BitVec {width}))" for name in "htcn") for end in ("", "1"))
    candidate = "(and (bvult h n) (bvult t n) (bvule c n))"
    return RING.format(now=now, then=then, candidate=candidate, zero=zero, one=one, read=read, write=write)


def division(law, width):
    """The problem whose constraint is the law."""
    return DIVISION.format(width=width, law=LAWS[law].format(zero=f"(_ bv0 {width})"))


# what makes a family's files, of which names, and the widths
FAMILIES = {"ring": (ring, STEPS, range(8, 33)), "division": (division, LAWS, range(4, 17))}


def write_files(folder, families, first, last):
    """The names of the files, in order."""
    for family in families:
        make, names, widths = FAMILIES[family]
        for name in names:
            for width in widths:
                if first <= width <= last:
                    path = os.path.join(folder, f"{family}_{name}_{width}.sl")
                    with open(path, "w") as file:
                        file.write(make(name, width))
                    yield path


def told(ended, limit):
    """The time of a run that answers, or why there is none."""
    if ended.is_over:
        return f"over {limit} s"
    return f"{ended.seconds:.2f}" if answer(ended) == "definitions" else ended.errors.strip().split("\n")[-1]


def main():
    parser = argparse.ArgumentParser(description=__doc__, formatter_class=argparse.RawDescriptionHelpFormatter)
    parser.add_argument("--sygus", metavar="PROGRAM")
    parser.add_argument("--limit", metavar="SECONDS", type=int, default=20)
    parser.add_argument("--first", metavar="BITS", type=int, default=1)
    parser.add_argument("--last", metavar="BITS", type=int, default=64)
    parser.add_argument("--write", metavar="FOLDER")
    parser.add_argument("families", metavar="FAMILY", nargs="+", choices=list(FAMILIES))
    options = parser.parse_args()
    if options.write:
        os.makedirs(options.write, exist_ok=True)
        print(len(list(write_files(options.write, options.families, options.first, options.last))), "files")
        return
    commands = {"sygus": [sygus(options.sygus)]}
    if shutil.which("cvc5"):
        commands["cvc5"] = ["cvc5", "--lang=sygus2"]
    print("| File | " + " | ".join(f"`{name}` s" for name in commands) + " |")
    print("|---|" + "---|" * len(commands))
    ends = {name: [] for name in commands}
    with tempfile.TemporaryDirectory() as folder:
        for path in write_files(folder, options.families, options.first, options.last):
            for name, command in commands.items():
                ends[name].append(run([*command, path], options.limit))
            cells = [told(list_of[-1], options.limit) for list_of in ends.values()]
            print(f"| {os.path.basename(path).removesuffix('.sl')} | " + " | ".join(cells) + " |", flush=True)
    print()
    for name, list_of in ends.items():
        answered = [ended.seconds for ended in list_of if answer(ended) == "definitions"]
        most = max(answered, default=0)
        print(f"{name}: {len(answered)} of {len(list_of)}, {sum(answered):.2f} s in sum, {most:.2f} s at most")
    sys.exit(any(answer(ended) != "definitions" for ended in ends["sygus"]))


if __name__ == "__main__":
    main()
