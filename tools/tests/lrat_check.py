#!/usr/bin/env python3
"""Checks a proof in the form LRAT, whose hints lead to a contradiction by unit propagation alone.

    tools/tests/lrat_check.py CNF LRAT

CNF is a formula in the form DIMACS. It says `verified`, with status 0, or what is wrong in which line, with status 1.
"""
import argparse
import pathlib
import sys


class Wrong(Exception):
    """The proof isn't one."""


def formula(text):
    """The clauses of a formula by their numbers, from 1 on."""
    lines = [line.split() for line in text.splitlines() if line and line[0] != "c"]
    if not lines or lines[0][:2] != ["p", "cnf"]:
        raise Wrong("no formula")
    variables, count = map(int, lines[0][2:])
    numbers = [int(word) for line in lines[1:] for word in line]
    clauses, clause = {}, []
    for number in numbers:
        if abs(number) > variables:
            raise Wrong(f"variable {abs(number)} of {variables}")
        if number:
            clause.append(number)
        else:
            clauses[len(clauses) + 1] = clause
            clause = []
    if clause or len(clauses) != count:
        raise Wrong(f"{len(clauses)} clauses and not {count}")
    return clauses


def follows(clause, clauses, hints):
    """Whether the hints, one after another, are unit where the clause is false, and the last one is false there."""
    false = set(clause)
    for place, hint in enumerate(hints):
        if hint not in clauses:
            raise Wrong(f"there is no clause {hint}")
        left = [literal for literal in clauses[hint] if literal not in false]
        if not left:
            return place == len(hints) - 1
        if len(set(left)) > 1:
            return False
        false.add(-left[0])
    return False


def check(clauses, lines):
    """Checks the lines, the last of which derives the empty clause."""
    for line in lines:
        words = line.split()
        if len(words) > 1 and words[1] == "d":
            for word in words[2:-1]:
                clauses.pop(int(word), None)
            continue
        number, *rest = map(int, words)
        end = rest.index(0)
        clause, hints = rest[:end], rest[end + 1:]
        if number in clauses or hints[-1:] != [0]:
            raise Wrong(f"line {number}: its number or its end")
        if not follows(clause, clauses, hints[:-1]):
            raise Wrong(f"line {number}: its hints don't show it")
        clauses[number] = clause
        if not clause:
            return
    raise Wrong("no line is empty")


def main():
    options = argparse.ArgumentParser(description=__doc__, formatter_class=argparse.RawDescriptionHelpFormatter)
    options.add_argument("cnf", metavar="CNF", type=pathlib.Path)
    options.add_argument("lrat", metavar="LRAT", type=pathlib.Path)
    options = options.parse_args()
    try:
        check(formula(options.cnf.read_text()), options.lrat.read_text().splitlines())
    except (Wrong, ValueError) as wrong:
        print(wrong)
        return 1
    print("verified")
    return 0


if __name__ == "__main__":
    sys.exit(main())
