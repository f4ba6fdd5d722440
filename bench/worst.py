#!/usr/bin/env python3
"""Times how long sygus takes to read, accept or refuse the worst files of up to 4 MiB that were thought of.

    bench/worst.py [--sygus PROGRAM] [--limit SECONDS] [--keep FOLDER] [NAME ..]

Without names it takes all of them, and without --sygus it builds the program by ./sygus. None of them is solved: they ask
for nothing, or end with a fault. It prints for each its bytes, the status, the processor seconds and the memory, and leaves
the files in --keep. The status is 1 where one takes more than --limit seconds, 2 if nothing is said, or ends otherwise than
by the cause of refusal that stands beside it, or none.
"""
import argparse
import pathlib
import sys
import tempfile

from runs import run, sygus

LONGEST = 4_194_304
# the most processor seconds of a run, whatever --limit says
MOST = 60
DIGITS = "abcdefghijklmnopqrstuvwxyz0123456789"


def name(number):
    """A short name of its own for each number, which isn't reserved."""
    text = ""
    while number:
        number, digit = divmod(number, 36)
        text = DIGITS[digit] + text
    return "q" + text


def vector(*lines):
    return "\n".join(["(set-logic BV)", "(define-sort W () (_ BitVec 8))", "(declare-var x W)", *lines])


def bindings(numbers, bound):
    return "".join(f"({name(number)} {bound})" for number in numbers)


def let_wide():
    """One let of 400,000 names, and an inner term that names each hundredth."""
    inner = " ".join(name(number) for number in range(0, 400_000, 100))
    return vector(f"(constraint (let ({bindings(range(400_000), 'x')}) (distinct x (bvadd {inner}))))")


def let_used():
    """One let of 200,000 names, each of which is named once in the inner term."""
    inner = " ".join(map(name, range(200_000)))
    return vector(f"(constraint (let ({bindings(range(200_000), 'x')}) (distinct x (bvadd {inner}))))")


def let_twice():
    """One let of 400,000 names whose last is its first again."""
    return vector(f"(constraint (let ({bindings([*range(400_000), 0], 'x')}) (= x x)))"), "NameTaken"


def let_nested():
    """1,000 lets, one in the other, each of 400 names that no other binds."""
    begin = "".join(f"(let ({bindings(range(400 * at, 400 * at + 400), 'x')}) " for at in range(1000))
    return vector(f"(constraint {begin}(= x {name(0)}{')' * 1000}))")


def let_hidden():
    """1,000 lets, one in the other, each of the same 400 names."""
    begin = f"(let ({bindings(range(400), 'x')}) " + f"(let ({bindings(range(400), name(399))}) " * 999
    return vector(f"(constraint {begin}(= x x){')' * 1000})")


def let_repeated():
    """20,000 lets beside each other, each of 20 names."""
    one = f"(let ({bindings(range(20), 'x')}) {name(7)})"
    return vector(*[f"(constraint (= x {one}))"] * 20_000)


def constraints():
    """100,000 constraints over 2,000 variables."""
    return vector(*[f"(declare-var y{number} W)" for number in range(2000)], *[f"(constraint (= y{number % 2000} y{number * 7 % 2000}))" for number in range(100_000)])


def chains():
    """Grammars of 64 nonterminals with 1,024 chain rules, four times."""
    names = [f"S{number}" for number in range(64)]
    declared = " ".join(f"({it} W)" for it in names)
    groups = " ".join(f"({it} W (x {' '.join(names[(at + step) % 64] for step in range(1, 16))}))" for at, it in enumerate(names))
    return vector(*[f"(synth-fun f{number} ((x W)) W ({declared}) ({groups}))" for number in range(4)])


def products():
    """Grammars of 64 nonterminals over integers with 1,024 products, each by a nonterminal of a later group."""
    names = [f"S{number}" for number in range(64)]
    declared = " ".join(f"({it} Int)" for it in names)
    groups = " ".join(f"({it} Int ({' '.join(f'(* {names[(at + step) % 63]} S63)' for step in range(15))} x))" for at, it in enumerate(names[:-1]))
    return "\n".join(["(set-logic LIA)", *[f"(synth-fun f{number} ((x Int)) Int ({declared}) ({groups} (S63 Int (1 2 (- 3)))))" for number in range(4)]])


def rules():
    """Grammars of 1,024 rules, each as long as it may be."""
    rule = "(bvadd " + "S " * 480 + "x)"
    return vector(*[f"(synth-fun f{number} ((x W)) W ((S W)) ((S W ({' '.join([rule] * 1020)}))))" for number in range(4)])


def arguments():
    """4,000 definitions of 64 arguments, and calls of them."""
    given = " ".join(f"(a{at} W)" for at in range(64))
    return vector(*[f"(define-fun f{number} ({given}) W a{number % 64})" for number in range(4000)], *[f"(constraint (= x (f{number} {'x ' * 64})))" for number in range(4000)])


def long_names():
    """4,000 variables whose names of 900 bytes differ in the last ones."""
    return vector(*[f"(declare-var {'n' * 895}{number:05} W)" for number in range(4000)])


def long_arguments():
    """A definition of 64 arguments with names of 900 bytes that differ in the last ones, whose body names the first, over and over."""
    names = ["n" * 898 + f"{at:02}" for at in range(64)]
    return vector(f"(define-fun f ({' '.join(f'({it} W)' for it in names)}) W (bvadd {' '.join([names[0]] * 4500)}))")


def sorts():
    """4,000 names of sorts, each for the one before."""
    return vector("(define-sort W0 () W)", *[f"(define-sort W{number + 1} () W{number})" for number in range(4000)], *["(constraint (let ((y x)) (= x y)))"] * 50_000)


def calls():
    """4,000 definitions, each of which calls the one before twice."""
    return vector("(define-fun f0 ((y W)) W y)", *[f"(define-fun f{number + 1} ((y W)) W (bvadd (f{number} y) (f{number} y)))" for number in range(4000)]), "TooMany"


def tower():
    """1,190 definitions, each of which calls the one before, and 30,000 calls of the last."""
    return vector("(define-fun f0 ((y W)) W y)", *[f"(define-fun f{number + 1} ((y W)) W (f{number} y))" for number in range(1190)], *["(constraint (= x (f1190 x)))"] * 30_000)


def nodes():
    """A constraint of 999,000 nodes."""
    return vector(f"(constraint (= {'x ' * 998_990}))")


def nested():
    """Terms that are 1,190 deep."""
    return vector(*[f"(constraint (= x {'(bvnot ' * 1190}x{')' * 1190}))"] * 400)


def invariants():
    """An invariant of 64 variables, 30 times."""
    state = " ".join(f"(a{at} W)" for at in range(64))
    return vector(f"(synth-inv inv ({state}))", f"(define-fun pre ({state}) Bool true)", *["(inv-constraint inv pre pre pre)"] * 30), "InvShape"


def questions():
    """16 questions about 50,000 constraints, and a fault behind them."""
    return vector("(synth-fun f () Bool)", *["(constraint (= x x))"] * 50_000, *["(check-synth)"] * 16, "(end)"), "CommandNotInProfile"


def numeral():
    """A numeral of 4 MiB."""
    return "(set-info :a " + "9" * (LONGEST - 20) + ")", "LiteralRange"


def atoms():
    """2,000,000 atoms in one command."""
    return "(set-info :a (" + "b " * 2_000_000 + "))"


def brackets():
    """1,000 open lists, over and over."""
    return "(set-info :a (" + ("(" * 1000 + ")" * 1000) * 2000 + "))"


FILES = [let_wide, let_used, let_twice, let_nested, let_hidden, let_repeated, constraints, chains, products, rules, arguments, long_names, long_arguments, sorts, calls, tower, nodes, nested, invariants, questions, numeral, atoms, brackets]


def main():
    parser = argparse.ArgumentParser(description=__doc__, formatter_class=argparse.RawDescriptionHelpFormatter)
    parser.add_argument("--sygus", metavar="PROGRAM")
    parser.add_argument("--limit", metavar="SECONDS", type=float, default=2)
    parser.add_argument("--keep", metavar="FOLDER")
    parser.add_argument("names", metavar="NAME", nargs="*")
    options = parser.parse_args()
    unknown = set(options.names) - {make.__name__ for make in FILES}
    if unknown:
        parser.error(f"no such file: {', '.join(sorted(unknown))}")
    program = sygus(options.sygus)
    bad = 0
    print("| File | bytes | status | s | MiB |")
    print("|---|---|---|---|---|")
    with tempfile.TemporaryDirectory() as folder:
        for make in FILES:
            if options.names and make.__name__ not in options.names:
                continue
            made = make()
            text, wanted = made if isinstance(made, tuple) else (made, None)
            file = pathlib.Path(options.keep or folder) / f"{make.__name__}.sl"
            file.write_text(text)
            assert file.stat().st_size <= LONGEST, f"{make.__name__}: {file.stat().st_size} bytes"
            ended = run([program, file], MOST)
            cause = (ended.errors.split() or [""])[-1]
            is_right = (ended.status, cause) == ((2, wanted) if wanted else (0, ""))
            bad += not is_right or ended.seconds > options.limit
            print(f"| {make.__name__}: {make.__doc__[0].lower()}{make.__doc__[1:-1]} | {file.stat().st_size:,} | {ended.status} {cause}{'' if is_right else ' WRONG'} | {ended.seconds:.2f} | {ended.memory >> 10} |", flush=True)
    return 1 if bad else 0


if __name__ == "__main__":
    sys.exit(main())
