#!/usr/bin/env python3
"""Runs `sygus` on invariants over integers, without a grammar and with that of docs/USAGE.md, and prints a table.

    bench/invariants.py [--sygus PROGRAM] [--limit SECONDS] [FILE ..]

Without files it takes those of bench/problems whose names begin with int_inv_. Each run has a limit of processor
seconds, 20 without --limit. The grammar has comparisons under `and`; its numbers are the variables of the loop, the
numerals that stand in the file, 0 and 1, and their sums. Of each way there are the answer and its seconds, and at the
end how many files have definitions.
"""
import argparse
import glob
import re
import tempfile

from runs import TOP, name_of, run, sygus, text_of
from sygus_client import outcome_of, read_items, write_item

# The ways: their names, whether the file gets the grammar, and the words for sygus.
WAYS = [
    ("without a grammar", False, []),
    ("`--bank 40000 --size 20`", False, ["--bank", "40000", "--size", "20"]),
    ("the grammar", True, []),
    ("the grammar, `--size 20`", True, ["--size", "20"]),
]


def grammar(variables, numerals):
    """The grammar of docs/USAGE.md for these variables and numerals, as the text of its two lists."""
    leaves = " ".join([*variables, *numerals])
    rules = f"((B Bool (A (and A B))) (A Bool ((<= E E) (= E E))) (E Int ({leaves} (+ E E))))"
    return f"((B Bool) (A Bool) (E Int)) {rules}"


def with_grammar(text):
    """The text of a file whose synth-inv has the grammar."""
    commands = read_items(text)
    numerals = sorted({int(it) for it in re.findall(r"(?<![\w.])\d+(?![\w.])", text)} | {0, 1})
    lines = []
    for command in commands:
        line = write_item(command)
        if command[0] == "synth-inv":
            line = f"{line[:-1]} {grammar([name for name, _ in command[2]], map(str, numerals))})"
        lines.append(line)
    return "\n".join([*lines, ""])


def asked(program, file, way, limit):
    """What came of a file by one of the ways: whether there are definitions, and a cell of the table."""
    _, has_grammar, words = way
    text = text_of(file)
    with tempfile.NamedTemporaryFile("w", suffix=".sl") as problem:
        problem.write(with_grammar(text) if has_grammar else text)
        problem.flush()
        ended = run([program, *words, problem.name], limit)
    outcome = "no answer" if ended.is_over else outcome_of(ended.status, ended.output, ended.errors)
    return outcome == "definitions", f"{'found' if outcome == 'definitions' else outcome}, {ended.seconds:.2f}"


def main():
    parser = argparse.ArgumentParser(description=__doc__, formatter_class=argparse.RawDescriptionHelpFormatter)
    parser.add_argument("--sygus", metavar="PROGRAM")
    parser.add_argument("--limit", metavar="SECONDS", type=int, default=20)
    parser.add_argument("files", metavar="FILE", nargs="*")
    given = parser.parse_args()
    files = given.files or sorted(glob.glob(f"{TOP}/bench/problems/int_inv_*.sl"))
    program = sygus(given.sygus)
    print(f"| File | {' | '.join(name for name, _, _ in WAYS)} |\n|---{'|---' * len(WAYS)}|")
    counts = [0] * len(WAYS)
    for file in files:
        found = [asked(program, file, way, given.limit) for way in WAYS]
        counts = [count + is_found for count, (is_found, _) in zip(counts, found)]
        print(f"| `{name_of(file)}` | {' | '.join(cell for _, cell in found)} |", flush=True)
    print(f"| of {len(files)} | {' | '.join(map(str, counts))} |")


if __name__ == "__main__":
    main()
