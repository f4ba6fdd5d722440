#!/usr/bin/env python3
"""Times deciding queries over integers that are made by number, and says how many nodes that takes.

    bench/intsolve.py [--sygus PROGRAM] [FAMILY NUMBER]

The families: `max`, that the greatest of so many numbers, found one by one, isn't one of them or is below one;
`step`, that a bound of so many variables, of which a step raises any one that is below the bound and keeps the
others, doesn't last a step; `parity`, that twice a sum of so many numbers is odd; `bounds`, that a number isn't at
least each of so many bounds that it is at least; `remainder`, that the remainder of a sum by the number isn't that of
the remainders' sum; `round`, that rounding a quotient by the number up isn't what either of two ways makes; `bits`,
that a remainder by two to the number isn't the sum of so many bits; `digits`, the same of decimal digits; `below`,
that a remainder by the number isn't from 0 to less than it; `whole`, that the parts of a division aren't the
dividend; `halved`, that dividing by 2 and then by the number isn't dividing by its double; `inner`, that a remainder
by the number isn't that of the remainder by five times the number; `common`, that a multiple of the number and of the
one two above isn't one of their least common multiple; `chinese`, that remainders of 1 and 2 by these, which are odd,
don't tell the remainder by their product; `leap`, that a year isn't a leap year as it is so many years later;
`middle`, that a mean that counts the lesser number so often isn't between; `steps`, that a multiple of the number
isn't one after a step of it; `wheel`, that a counter modulo the number leaves its bounds; `absolute`, that the
absolute value of a sum of so many numbers is above the sum of theirs. Each query is a problem whose constraint is its
negation and whose function has one body, so that `sygus` answers by that body where its solver of integers refutes
the query. The least processor time of five runs of the whole program is printed, and the least `--nodes` with which
it answers. Without words 33 queries are decided; without --sygus it builds the program by ./sygus.
"""
import argparse
import math
import os
import tempfile

from runs import answer, run, sygus

RUNS = 5
MOST = 8_000
ROWS = [
    ("max", 3), ("max", 5), ("max", 7), ("step", 2), ("step", 4), ("step", 6), ("parity", 2), ("parity", 20),
    ("bounds", 100), ("bounds", 1000), ("remainder", 10), ("remainder", 1000), ("round", 8), ("bits", 3), ("bits", 4),
    ("digits", 3), ("below", 10), ("whole", 10), ("halved", 3), ("inner", 12), ("common", 4), ("common", 9),
    ("chinese", 3), ("chinese", 7), ("leap", 400), ("middle", 1), ("steps", 2), ("steps", 3), ("steps", 4),
    ("steps", 7), ("wheel", 12), ("absolute", 2), ("absolute", 5),
]


def named(first, count):
    return [f"x{place}" for place in range(first, first + count)]


def joined(operator, terms):
    return f"({operator} {' '.join(terms)})"


def greatest(count):
    """That the greatest of the numbers, found one by one, is one of them, and at least each."""
    found = f"m{count - 1}"
    is_least = [f"(>= {found} {name})" for name in named(0, count)]
    term = joined("and", [*is_least, joined("or", [f"(= {found} {name})" for name in named(0, count)])])
    for place in reversed(range(count)):
        before, name = f"m{place - 1}", f"x{place}"
        so_far = f"(ite (>= {before} {name}) {before} {name})" if place else name
        term = f"(let ((m{place} {so_far})) {term})"
    return count, term


def step(count):
    """That the bound lasts a step."""
    old, new = named(0, count), named(count, count)
    steps = []
    for raised in range(count):
        after = [f"(= {b} {f'(+ {a} 1)' if place == raised else a})" for place, (a, b) in enumerate(zip(old, new))]
        steps.append(joined("and", [f"(< {old[raised]} 10)", *after]))
    bounded = [joined("and", [f"(<= {name} 10)" for name in names]) for names in (old, new)]
    return 2 * count, f"(=> (and {bounded[0]} {joined('or', steps)}) {bounded[1]})"


def parity(count):
    """That twice the sum isn't odd."""
    twice = f"(* 2 {joined('+', ['0', *named(0, count)])})"
    return count + 1, f"(not (= {twice} (+ (* 2 x{count}) 1)))"


def bounds(count):
    """That the number is at least each bound that it is at least."""
    return 1, joined("and", [f"(=> (>= x0 {bound}) (>= x0 {bound}))" for bound in range(count)])


def remainder(divisor):
    """That the remainder of a sum is that of the remainders' sum."""
    parts = [f"(mod {name} {divisor})" for name in named(0, 2)]
    return 2, f"(= (mod (+ x0 x1) {divisor}) (mod {joined('+', parts)} {divisor}))"


def rounded(divisor):
    """That a quotient is rounded up by a test of the remainder, and by turning the dividend round twice."""
    found = f"(div (+ x0 {divisor - 1}) {divisor})"
    tested = f"(ite (= 0 (mod x0 {divisor})) (div x0 {divisor}) (+ (div x0 {divisor}) 1))"
    return 1, f"(and (= {found} {tested}) (= {found} (- (div (- x0) {divisor}))))"


def bits(count):
    """That the remainder by two to the number is the sum of so many bits."""
    digits = [f"(* {2 ** place} (mod {f'(div x0 {2 ** place})' if place else 'x0'} 2))" for place in range(count)]
    return 1, f"(= (mod x0 {2 ** count}) {joined('+', digits)})"


def digits(count):
    """That the remainder by ten to the number is the sum of so many digits."""
    others = [f"(* {10 ** place} (mod (div x0 {10 ** place}) 10))" for place in range(1, count)]
    return 1, f"(= (mod x0 {10 ** count}) {joined('+', ['(mod x0 10)', *others])})"


def below(divisor):
    """That a remainder is from 0 to less than the divisor."""
    return 1, f"(and (< (mod x0 {divisor}) {divisor}) (>= (mod x0 {divisor}) 0))"


def whole(divisor):
    """That quotient and remainder make the dividend."""
    return 1, f"(= (+ (* {divisor} (div x0 {divisor})) (mod x0 {divisor})) x0)"


def halved(divisor):
    """That one divides by a product by dividing by its factors."""
    return 1, f"(= (div (div x0 2) {divisor}) (div x0 {2 * divisor}))"


def inner(divisor):
    """That the remainder by a multiple keeps the remainder."""
    return 1, f"(= (mod (mod x0 {5 * divisor}) {divisor}) (mod x0 {divisor}))"


def common(divisor):
    """That a multiple of both is one of the least common multiple."""
    both = [f"(= (mod x0 {it}) 0)" for it in (divisor, divisor + 2)]
    return 1, f"(=> {joined('and', both)} (= (mod x0 {math.lcm(divisor, divisor + 2)}) 0))"


def chinese(divisor):
    """That the remainders by both tell the one by the product."""
    product = divisor * (divisor + 2)
    told = next(it for it in range(product) if it % divisor == 1 and it % (divisor + 2) == 2)
    both = f"(and (= (mod x0 {divisor}) 1) (= (mod x0 {divisor + 2}) 2))"
    return 1, f"(=> {both} (= (mod x0 {product}) {told}))"


def leap(years):
    """That a year is a leap year as it is so many years later."""
    def is_leap(year):
        by = {divisor: f"(= (mod {year} {divisor}) 0)" for divisor in (4, 100, 400)}
        return f"(or (and {by[4]} (not {by[100]})) {by[400]})"
    return 1, f"(= {is_leap('x0')} {is_leap(f'(+ x0 {years})')})"


def middle(weight):
    """That a mean that counts the lesser number so often is at least that number and below the greater one."""
    mean = f"(div {joined('+', ['x0'] * weight + ['x1'])} {weight + 1})"
    return 2, f"(=> (< x0 x1) (and (<= x0 {mean}) (< {mean} x1)))"


def lasting(begin, step, end, invariant):
    """That the invariant, of `a`, holds at the beginning, holds after a step from `a` to `b`, and has the end."""
    def at(term, *names):
        return f"(let ({' '.join(f'({own} {name})' for own, name in zip('ab', names))}) {term})"
    before = at(invariant, "x0")
    lasts = f"(=> (and {before} {at(step, 'x0', 'x1')}) {at(invariant, 'x1')})"
    return 2, f"(and (=> {at(begin, 'x0')} {before}) {lasts} (=> {before} {at(end, 'x0')}))"


def steps(number):
    """That a multiple of the number is one after a step of it."""
    step = f"(and (< a 100) (= b (+ a {number})))"
    return lasting("(= a 0)", step, f"(not (= a {30 * number + 1}))", f"(= (mod a {number}) 0)")


def wheel(number):
    """That a counter modulo the number keeps its bounds."""
    step = f"(= b (mod (+ a 1) {number}))"
    return lasting("(= a 0)", step, f"(< a {number})", f"(and (>= a 0) (< a {number}))")


def absolute(count):
    """That the absolute value of a sum is at most the sum of the absolute values."""
    return count, f"(<= (abs {joined('+', named(0, count))}) {joined('+', [f'(abs {name})' for name in named(0, count)])})"


FAMILIES = {
    "max": greatest, "step": step, "parity": parity, "bounds": bounds, "remainder": remainder, "round": rounded,
    "bits": bits, "digits": digits, "below": below, "whole": whole, "halved": halved, "inner": inner, "common":
    common, "chinese": chinese, "leap": leap, "middle": middle, "steps": steps, "wheel": wheel, "absolute": absolute,
}


def file_of(family, number):
    """The file whose constraint is the negation of the query."""
    count, term = FAMILIES[family](number)
    declared = "".join(f"(declare-var {name} Int)\n" for name in named(0, count))
    return f"(set-logic LIA)\n(synth-fun f () Bool ((Body Bool)) ((Body Bool (true))))\n{declared}(constraint {term})\n(check-synth)\n"


def decided(program, path, nodes):
    """A run with at most so many nodes."""
    return run([program, "--nodes", str(nodes), path])


def least(program, path):
    """The least number of nodes with which the query is refuted."""
    fails, works = 0, MOST
    while works - fails > 1:
        nodes = (fails + works) // 2
        if answer(decided(program, path, nodes)) == "definitions":
            works = nodes
        else:
            fails = nodes
    return works


def measure(program, path):
    """What the program says of the file, the nodes that it takes, and the least time."""
    ended = [decided(program, path, MOST) for _ in range(RUNS)]
    if answer(ended[0]) != "definitions":
        return f"not refuted, {answer(ended[0])}"
    return f"refuted with --nodes {least(program, path)} in {min(it.seconds for it in ended):.3f} s"


def main():
    parser = argparse.ArgumentParser(description=__doc__, formatter_class=argparse.RawDescriptionHelpFormatter, usage="intsolve.py [-h] [--sygus PROGRAM] [FAMILY NUMBER]")
    parser.add_argument("--sygus", metavar="PROGRAM")
    parser.add_argument("family", metavar="FAMILY", nargs="?", choices=[*FAMILIES, None])
    parser.add_argument("number", metavar="NUMBER", nargs="?", type=int)
    options = parser.parse_args()
    if options.family and options.number is None:
        parser.error("a family has a number")
    program = sygus(options.sygus)
    with tempfile.TemporaryDirectory() as folder:
        path = os.path.join(folder, "query.sl")
        for family, number in [(options.family, options.number)] if options.family else ROWS:
            with open(path, "w") as file:
                file.write(file_of(family, number))
            print(f"{family} {number}: {measure(program, path)}", flush=True)


if __name__ == "__main__":
    main()
