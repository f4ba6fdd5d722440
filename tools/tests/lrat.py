"""Tests of tools/lrat, over clauses that a program in place of sygus says, and of the checker lrat_check.py."""
import os
import pathlib
import subprocess
import tempfile

from scripts import loaded

HERE = pathlib.Path(__file__).resolve().parent
LRAT, CHECK = HERE.parent / "lrat", HERE / "lrat_check.py"
# Three pigeons in two holes: variable 2 p + h is that pigeon p sits in hole h.
PIGEONS = "p cnf 6 9\n1 2 0\n3 4 0\n5 6 0\n-1 -3 0\n-1 -5 0\n-3 -5 0\n-2 -4 0\n-2 -6 0\n-4 -6 0\n"
CLASH = "p cnf 1 2\n1 0\n-1 0\n"
# Clauses, and a log that refutes them.
LOGS = [
    (CLASH, "(log (0 0 1))"),
    (CLASH, "(log (1 0 0))"),
    (CLASH, "( log\n (1\t0 0)\n)"),
    (CLASH, "(log (0) (1) (2 0 3))"),
    (PIGEONS, "(log (4 4 2 5 8 3 1 2 3) (0 0 9) (7 5 2 4 5 2 1 3 6 1 10))"),
    (PIGEONS, "(log (4 4 2 5 8 3 1 2 3) (7 5 2 4 5 2 1 3 6 1 0 0 9))"),
    (PIGEONS, "(log (4 4 2) (9 5 8) (10 3 1 2 3) (0 0 11) (12 1 6) (12 1 7) (2 5 14) (5 4 15) (1 2 16) (17 3 13))"),
]
# Clauses, a log that isn't one of them or doesn't refute them, and what is said of it.
REFUSED = [
    (CLASH, "(log)", "a log that doesn't end with the empty clause"),
    (CLASH, "(log (0 0 0))", "a step without a resolvent"),
    (CLASH, "(log (0 1 1))", "a step without a resolvent"),
    (CLASH, "(log (0 0 2))", "a line that names a later one"),
    (CLASH, "(log (0 0))", "a line of a log with half a step"),
    (CLASH, "(log (0 0 1) (0))", "a log that doesn't end with the empty clause"),
    (CLASH, "(log (0 0 1) 5)", "a log of another form"),
    (CLASH, "(log (0 0 (1)))", "a log of another form"),
    (PIGEONS, "(log (0 0 3))", "a log that doesn't end with the empty clause"),
]
# A proof over CLASH or PIGEONS in the form LRAT that isn't one, and what is said of it.
WRONG = [
    (CLASH, "", "no line is empty"),
    (CLASH, "3 0 1 0\n", "line 3: its hints don't show it"),
    (CLASH, "3 0 1 1 0\n", "line 3: its hints don't show it"),
    (CLASH, "3 0 1 2 2 0\n", "line 3: its hints don't show it"),
    (CLASH, "3 0 1 4 0\n", "there is no clause 4"),
    (CLASH, "2 0 1 2 0\n", "line 2: its number or its end"),
    (CLASH, "3 d 1 0\n4 0 1 2 0\n", "there is no clause 1"),
    (PIGEONS, "10 -1 0 4 2 9 3 0\n", "line 10: its hints don't show it"),
    (PIGEONS, "10 -1 0 4 9 2 3 5 0\n", "line 10: its hints don't show it"),
    (PIGEONS, "10 -1 0 4 2 9 3 5 0\n", "no line is empty"),
    (PIGEONS.replace("9", "8", 1), "", "9 clauses and not 8"),
    (PIGEONS.replace("6", "5", 1), "", "variable 6 of 5"),
]


def spelled(folder, said, replies):
    """A run of tools/lrat where sygus says this: its status, its output, and what it wrote."""
    program, text = folder / "sygus", folder / "text"
    text.write_text(said)
    program.write_text(f"#!/bin/sh\ncat >{folder}/given\ncat {text}\n")
    program.chmod(0o755)
    environment = {**os.environ, "SYGUS": str(program)}
    ended = subprocess.run([LRAT, "-", folder], input=replies, capture_output=True, text=True, env=environment)
    return ended.returncode, ended.stdout + ended.stderr


def checked(folder, number):
    ended = subprocess.run([CHECK, folder / f"{number}.cnf", folder / f"{number}.lrat"], capture_output=True, text=True)
    return ended.returncode, ended.stdout


def proofs(folder):
    for place, (clauses, log) in enumerate(LOGS):
        status, said = spelled(folder, f"check-synth 1 clauses\n{clauses}", f"(check-synth)\n() {log}\n")
        is_written = (status, said) == (0, f"check-synth 1 {folder}/1.cnf, {folder}/1.lrat\n")
        yield f"lrat of log {place}", is_written and checked(folder, 1) == (0, "verified\n")
    for clauses, log, why in REFUSED:
        status, said = spelled(folder, f"check-synth 1 clauses\n{clauses}", f"(check-synth)\n() {log}\n")
        yield f"lrat refuses {log}", (status, said) == (1, f"check-synth 1 refused: {why}\n")
    check = loaded(CHECK)
    for clauses, lines, why in WRONG:
        try:
            check.check(check.formula(clauses), lines.splitlines())
            said = "verified"
        except check.Wrong as wrong:
            said = str(wrong)
        yield f"lrat_check of {lines!r}", said == why


def files(folder):
    """Several questions, of which some have no clauses, and files that aren't understood."""
    said = f"check-synth 1 no definitions\ncheck-synth 2 not in grammar f\ncheck-synth 3 clauses\n{CLASH}"
    asked = "(check-synth) (check-synth) (check-synth)\nfail\n((define-fun f () Bool true))\n"
    status, lines = spelled(folder, said, f"{asked}(log (0))()\n(log (0 0 1)) ; the end\n")
    others = "check-synth 1 no definitions\ncheck-synth 2 not in grammar f\n"
    wanted = f"{others}check-synth 3 {folder}/3.cnf, {folder}/3.lrat\n"
    yield "lrat of several questions", (status, lines) == (1, wanted) and checked(folder, 3) == (0, "verified\n")
    yield "lrat: what sygus is given", (folder / "given").read_text() == f"{asked}()\n ; the end\n"
    status, lines = spelled(folder, f"check-synth 1 clauses\n{CLASH}", "(check-synth)\n()\n")
    yield "lrat of no log", (status, lines) == (1, "check-synth 1 refused: a log of another form\n")
    for text in (")", "(", '"', "\\"):
        yield f"lrat of {text}", spelled(folder, "", text)[0] == 2


def tests():
    with tempfile.TemporaryDirectory() as name:
        yield from proofs(pathlib.Path(name))
        yield from files(pathlib.Path(name))
