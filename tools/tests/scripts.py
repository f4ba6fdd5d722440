"""Tests of the scripts beside the program: what their help says, the tables that they print, and what their checks find."""
import contextlib
import importlib.machinery
import importlib.util
import io
import os
import pathlib
import re
import shutil
import subprocess
import sys
import tempfile
import unittest.mock

TOP = pathlib.Path(__file__).resolve().parent.parent.parent
sys.path[:0] = [str(TOP / "bench"), str(TOP / "tools")]
import answers
import drill
import functions
from runs import Run

# What a script is for is said in the lines at its head; these have no words of their own.
PARTS = ["runs.py", "measure.sh"]

PROBLEM = """(set-logic BV)
(define-sort Byte () (_ BitVec 8))
(synth-fun f ((x Byte)) Byte)
(synth-fun c () Bool)
(declare-var x Byte)
(constraint (bvule (f x) x))
(constraint (c))
(check-synth)
"""
# Replies to it, what is wrong with them, and whether it takes z3 to see that.
REPLIES = [
    ("(\n(define-fun f ((x (_ BitVec 8))) (_ BitVec 8) (bvlshr x #x01))\n(define-fun c () Bool true)\n)\n", None, False),
    ("(\n(define-fun f ((x (_ BitVec 8))) (_ BitVec 8) (bvshl x #x01))\n(define-fun c () Bool true)\n)\n", "z3: sat", True),
    ("(\n(define-fun f ((x (_ BitVec 8))) (_ BitVec 8) x)\n(define-fun c () Bool false)\n)\n", "z3: sat", True),
    ("(\n(define-fun f ((y (_ BitVec 8))) (_ BitVec 8) y)\n(define-fun c () Bool true)\n)\n", "not the definitions that were asked", False),
    ("(\n(define-fun f ((x (_ BitVec 16))) (_ BitVec 8) #x00)\n(define-fun c () Bool true)\n)\n", "not the definitions that were asked", False),
    ("(\n(define-fun f ((x (_ BitVec 8))) (_ BitVec 8) x)\n)\n", "not the definitions that were asked", False),
    ("", "an answer is missing", False),
    (")(\n", ")", False),
    ("(\n(define-fun f ((x (_ BitVec 8))) (_ BitVec 8) x)\n(define-fun c () Bool true)\n)\nfail\n", "more than the answers", False),
]
# How runs end, what of it answers.py shows, and whether that is right.
ENDS = [
    (Run(0, 0.1, REPLIES[0][0], "", 0, False), "definitions", True),
    (Run(1, 0.1, "fail\n", "fail: check-synth 1 Bank\n", 0, False), "fail Bank", True),
    (Run(-24, 20.0, "", "", 0, True), "no answer within the limit", True),
    (Run(-11, 0.1, "", "", 0, False), "WRONG: ended by signal 11", False),
    (Run(2, 0.1, "", "refused: command 1 line 1 column 1 cause 2 Shape\n", 0, False), "refused Shape", False),
    (Run(6, 0.1, "", "want of memory\n", 0, False), "WRONG: an answer is missing want of memory", False),
]
# The status, the output and the error output of runs on (f), and whether tools/fuzz finds nothing wrong with them.
RUNS = [
    ((0, "", ""), True),
    ((0, "(\n(define-fun f () Int 1)\n)\ninfeasible\n", ""), True),
    ((1, "fail\n(\n(define-fun f () Int 1)\n)\n", "fail: check-synth 1 Size\n"), True),
    ((2, "", "refused: command 1 line 1 column 2 cause 2 CommandNotInProfile\n"), True),
    ((2, "", "refused: command 1 line 1 column 2 cause 1 Text Unclosed\n"), True),
    ((0, "fail\n", "fail: check-synth 1 Size\n"), False),
    ((1, "infeasible\n", ""), False),
    ((1, "fail\n", "fail: check-synth 2 Size\n"), False),
    ((1, "fail\n", "fail: check-synth 1 Sizes\n"), False),
    ((1, "fail\nfail\n", "fail: check-synth 1 Size\n"), False),
    ((0, "(\n(define-fun f () Int 1)\n", ""), False),
    ((0, "(\n)\n", ""), False),
    ((2, "fail\n", "refused: command 1 line 1 column 2 cause 2 CommandNotInProfile\n"), False),
    ((2, "", "refused: command 1 line 1 column 2 cause 3 CommandNotInProfile\n"), False),
    ((2, "", "refused: command 1 line 1 column 2 cause 2 CommandNotInProfile Unclosed\n"), False),
    ((2, "", "refused: command 1 line 3 column 1 cause 2 CommandNotInProfile\n"), False),
    ((2, "", "refused: command 1 line 1 column 5 cause 2 CommandNotInProfile\n"), False),
    ((2, "", "refused: input longer than 4194304 bytes\n"), False),
    ((3, "", "refused: words\n"), False),
    ((-11, "", ""), False),
    ((None, "", ""), False),
]
# The status, the output and the error output of mode `recheck` on a proof of tools/tests/proofs/, and whether tools/fuzz
# finds nothing wrong with them; in the last two rows the proof is spoilt.
RECHECKED = [
    ((0, "check-synth 1 accepted\n", ""), True),
    ((1, "check-synth 1 proof rejected\n", ""), True),
    ((1, "check-synth 1 not in grammar |a b|\n", ""), True),
    ((1, "check-synth 1 budget Range\n", ""), True),
    ((7, "", "reply refused: check-synth 1 line 1 column 2 cause 27 ProofShape\n"), True),
    ((2, "", "refused: command 1 line 1 column 2 cause 2 CommandNotInProfile\n"), True),
    ((1, "check-synth 1 accepted\n", ""), False),
    ((0, "check-synth 1 proof rejected\n", ""), False),
    ((0, "check-synth 2 accepted\n", ""), False),
    ((1, "check-synth 1 budget Nodes\n", ""), False),
    ((7, "check-synth 1 accepted\n", "reply refused: check-synth 1 line 1 column 2 cause 27 ProofShape\n"), False),
    ((7, "", ""), False),
    ((-11, "", ""), False),
    ((1, "check-synth 1 proof rejected\n", ""), True),
    ((0, "check-synth 1 accepted\n", ""), False),
]
# What a solver prints for JUDGED, what mode `check` says of that, and what tools/judge makes of it: its status, and what its
# last line begins with.
JUDGED = "(set-logic LIA)\n(synth-fun f ((x Int)) Int)\n(declare-var y Int)\n(constraint (>= (f y) y))\n(check-synth)\n"
SOLVED = [
    ("feasible\n(\n(define-fun f ((x Int)) Int x)\n)\n", ["check-synth 1 holds"], 0, "check-synth 1 holds"),
    ("unsat\n(define-fun f ((x Int)) Int x)\n", ["check-synth 1 holds"], 0, "check-synth 1 holds"),
    ("(\n(define-fun f ((x Int)) Int 0)\n)\n", ["check-synth 1 refuted at 1"], 1, "check-synth 1 refuted: the definitions violate the problem at y = 1."),
    ("(\n(define-fun f ((x Int)) Int (- 1))\n)\n", ["check-synth 1 refuted at (- 7)"], 1, "check-synth 1 refuted: the definitions violate the problem at y = (- 7)."),
    ("(\n(define-fun f ((x Int)) Int (ite (>= x 0) x 0))\n)\n", ["check-synth 1 not in grammar f", "check-synth 1 holds"], 0, "check-synth 1 solves the problem; the body of f is not in our default grammar."),
    ("(\n(define-fun f ((x Int)) Int (ite (>= x 0) x 9))\n)\n", ["check-synth 1 not in grammar f", "check-synth 1 refuted at 9"], 1, "check-synth 1 the body of f is not in our default grammar, and with it as a rule: refuted"),
    ("(\n(define-fun f ((x Int)) Int (* x x))\n)\n", ["check-synth 1 budget Nodes"], 1, "check-synth 1 not decided: the limit --nodes was reached."),
    ("infeasible\n", ["check-synth 1 no definitions"], 1, "check-synth 1 no definitions"),
    ("", [], 10, "printf: it ended without an answer"),
    ("feasible\n", [], 10, "The solver gave no answer."),
    ("I don't know (yet\n", [], 12, "The output isn't an answer: I don't know (yet"),
    ("unknown\n", [], 12, "The output isn't an answer: unknown"),
]
# What mode `check` says of definitions for JUDGED, and as rules of their own; what z3 says; and whether both say the same.
COUNTED = [
    (["holds"], "unsat", True), (["holds"], "sat", False), (["refuted at 1"], "sat", True), (["refuted at 1"], "unsat", False),
    (["not in grammar f", "holds"], "unsat", True), (["not in grammar f", "holds"], "sat", False),
    (["not in grammar f", "refuted at 1"], "sat", True), (["not in grammar f", "budget Nodes"], "sat", True),
    (["budget Nodes"], "unsat", True), (["holds"], "timeout", True),
]
# Terms with `let`, and what they are when it is written out.
BINDINGS = [
    ("(let ((a x)) a)", "x"),
    ("(let ((a (+ x 1)) (b x)) (let ((a b) (b a)) (- a b)))", "(- x (+ x 1))"),
    ("(let ((|a b| x)) (f |a b| a))", "(f x a)"),
    ("(ite (let ((x y)) (<= x 0)) x y)", "(ite (<= y 0) x y)"),
]
# Names of files that rattle writes, and the crate, the function and the column to which bench/functions.py counts them.
FILES = [
    ("Rattle-sy_a-proofs.m.f.Lts.oantt", ("sy_a", "m.f", "walk")),
    ("Rattle-sy_a-proofs.m.f.Lts.View.oantt", ("sy_a", "m.f", "walk")),
    ("Rattle-sy_a-proofs.m.+f.Lts-g.Given.oantt", ("sy_a", "m.+f", "walk")),
    ("Rattle-sy_a-proofs.m.T.f.Named.oantt", ("sy_a", "m.T.f", "unanswered")),
    ("Rattle-sy_a-proofs.m.Code.f.Answers.oantt", ("sy_a", "m.Code.f", "answered")),
    ("Rattle-sy_a-proofs.m.fn.f.all+FnMut.call_mut.Met.oantt", ("sy_a", "m.fn.f.all+FnMut.call_mut", "joints")),
    ("Rattle-sy_a-proofs.+sy_b-m-drop.Code.+sy_b++m++T+Destruct-drop.oantt", ("sy_a", "+sy_b-m-drop", "others")),
    ("Rattle-sy_a-proofs.m.f.Kinds-2-0.oantt", ("sy_a", "m.f", "others")),
    ("Rattle-sy_a-proofs.m.TheLinks.sy_a-m-f.oantt", ("sy_a", "", "others")),
    ("Rattle-sy_a-specs.contracts.m.f.oantt", ("sy_a", "", "others")),
    ("Rattle-sy_a.below.sy_b.proofs.m.f.Met.oantt", ("sy_a", "", "others")),
    ("Rattle-sy_a-proofs.oantt", ("sy_a", "", "others")),
]
# Listings, each with its moment: a folder that was left behind, a check that goes on, and a later one of the same number.
LISTINGS = [
    (100, {"left": {"Rattle-sy_a-proofs.m.f.Lts.oantt": 20}, "7": {"Rattle-sy_a-specs.oantt": 60, "Rattle-sy_a-proofs.m.f.Lts.oantt": 70}}),
    (104, {"left": {"Rattle-sy_a-proofs.m.f.Lts.oantt": 20}, "7": {"Rattle-sy_a-specs.oantt": 60, "Rattle-sy_a-proofs.m.f.Lts.oantt": 70, "Rattle-sy_a-proofs.m.g.Proof.oantt": 102}}),
    (108, {}),
    (112, {"7": {"Rattle-sy_a-proofs.m.f.Code.oantt": 109, "Rattle-sy_a-proofs.m.f.Tie.oantt": 111.5, "Rattle-sy_a-proofs.m.f.Met.oantt": 112, "Rattle-sy_a-proofs.m.f.Proof.oantt": 112}}),
    (160, {"7": {}}),
    (163, {}),
]
# What is printed of them.
LISTED = """
seconds                           sum       walk unanswered   answered     joints     others   checks
sy_a  m.g                        32.0        0.0       32.0        0.0        0.0        0.0        1
sy_a  m.f                        13.0       10.0        0.5        0.0        2.5        0.0        2
2 functions                      45.0       10.0       32.5        0.0        2.5        0.0
what belongs to none              0.0        0.0        0.0        0.0        0.0        0.0
"""


def loaded(path):
    """A script as a module."""
    loader = importlib.machinery.SourceFileLoader(path.name, str(path))
    module = importlib.util.module_from_spec(importlib.util.spec_from_loader(path.name, loader))
    loader.exec_module(module)
    return module


def scripts():
    """All scripts in Python."""
    named = [TOP / "tools" / name for name in ("explain", "from_csv", "fuzz", "lrat", "many", "portfolio", "recheck")]
    tests = [TOP / "tools" / "tests" / name for name in ("lrat_check.py", "run")]
    return [*sorted((TOP / "bench").glob("*.py")), *sorted((TOP / "tools").glob("*.py")), *named, *tests]


def helps():
    """The words that a script's head names are those of its help."""
    for path in scripts():
        if path.name not in PARTS:
            said = subprocess.run([sys.executable, path, "--help"], capture_output=True, text=True).stdout
            usage, _, rest = said.removeprefix("usage: ").partition("\n\n")
            taken = " ".join(usage.split()).replace(" [-h]", "").replace("...", "..")
            head = re.search(r"^    (?:\S+/)?(.*(?:\n {8,}\[.*)*)$", rest, re.M)
            is_same = head is not None and taken == " ".join(head[1].split())
            yield f"help of {path.name}", path.stat().st_mode & 0o111 != 0 and is_same


def measured():
    """bench/README.md has each script, and an end for what is measured."""
    text = (TOP / "bench" / "README.md").read_text()
    for path in sorted([*(TOP / "bench").glob("*.sh"), *(TOP / "bench").glob("*.py")]):
        yield f"{path.name} in bench/README.md", f"`{path.name}`" in text


def vectors():
    """The rows of operators' values, of whole runs and of the crate of examples, are what the scripts print, where z3 is there."""
    for name in ["integer", "word"] if shutil.which("z3") else []:
        table = (TOP / "crates" / "sy_vectors" / "src" / f"{name}s.rt").read_text().partition("= \"\\\n")[2].partition("\";")[0]
        called = table.replace("|", " ").splitlines()
        asked = (TOP / "tools" / "tests" / "questions" / f"{name}s.txt").read_text().splitlines()
        printed = subprocess.run([TOP / "tools" / f"{name}_vectors.py"], capture_output=True, text=True).stdout.splitlines()
        yield f"table of {name} vectors", [row for row in printed if row in called] == called
        yield f"questions of {name} vectors", [row for row in printed if row in asked] == asked and {*printed} == {*called, *asked}


def checks():
    """What bench/answers.py finds wrong with replies."""
    for place, (reply, fault, takes_z3) in enumerate(REPLIES):
        if shutil.which("z3") or not takes_z3:
            yield f"check of reply {place}", answers.fault_of(PROBLEM, reply) == fault
    for ended, shown, is_right in ENDS:
        yield f"check of {shown}", answers.answer_of(PROBLEM, ended) == (shown, is_right)


def drilled():
    """What bench/drill.py finds wrong with the answer to the file of a number."""
    body = "(\n(define-fun f ((x (_ BitVec 8))) (_ BitVec 8) (ite (bvult x %s) (bvnot x) (bvadd x #x01)))\n)\n"
    yield "drill: the first example", next(drill.examples_of(128)) == (0x3C, 0xC3)
    yield "drill: a right answer", drill.is_right(body % "#x80", 128)
    yield "drill: another bound", not drill.is_right(body % "#x81", 128)
    yield "drill: no answer", not drill.is_right("fail\n", 128)


def fuzzed():
    """What tools/fuzz finds wrong with runs, and that its files are the same each time."""
    fuzz = loaded(TOP / "tools" / "fuzz")
    fuzz.CAUSES, fuzz.BUDGETS = fuzz.causes(), fuzz.budgets()
    for place, (ended, is_right) in enumerate(RUNS):
        yield f"fuzz: run {place}", (fuzz.fault(b"(f)\n", *ended) is None) == is_right
    fuzz.RECHECK = fuzz.script("recheck")
    whole = (TOP / "tools" / "tests" / "proofs" / "max.sl").read_bytes()
    for place, (ended, is_right) in enumerate(RECHECKED):
        text = whole if place < len(RECHECKED) - 2 else whole.replace(b"farkas 1 1", b"farkas 1 2")
        yield f"fuzz: recheck {place}", (fuzz.rechecked(text, *ended) is None) == is_right
    parts = [whole.partition(b"(check-synth)\n")]
    proofs = [(front + asked, answer) for front, asked, answer in parts]
    files = [[fuzz.spoilt(proofs, 1, number) for number in range(50)] for _ in range(2)]
    yield "fuzz: spoilt files", files[0] == files[1] and len({*files[0]}) > 30
    pool = [PROBLEM.encode()]
    yield "fuzz: files", all(fuzz.file_of(pool, 1, number) == fuzz.file_of(pool, 1, number) for number in range(50))


def dearest():
    """Which functions bench/functions.py finds dear by listings of files."""
    for name, wanted in FILES:
        yield f"functions: {name}", functions.part_of(name) == wanted
    watch = functions.Watch(100, 50)
    yield "functions: the end", [watch.look(folders, now) for now, folders in LISTINGS] == [True] * 5 + [False]
    yield "functions: the table", functions.table(watch.checks, 40) == LISTED.strip().splitlines()
    yield "functions: the dearest alone", functions.table(watch.checks, 1) == [it for it in LISTED.strip().splitlines() if "m.f" not in it]
    yield "functions: no check", [it.split()[-1] for it in functions.table([], 40)] == ["checks", "0.0", "0.0"]


def plotted():
    """What bench/plot.py draws of a table, and what it says where gnuplot isn't there."""
    row = "| {:24} | {:26} | {:>8} | {:>8} | {:>7} | {:>7} |"
    cells = [("first", "definitions", "0.00", "0.02"), ("loop", "definitions", "0.10", "-"), ("greater", "fail Bank", "0.40", "0.30")]
    table = "\n".join(["| File | Answer |", *(row.format(*it, "", "") for it in cells), row.format("ones", "fail Size", "0.01", "-", "", ""), ""])
    with tempfile.TemporaryDirectory() as folder:
        (pathlib.Path(folder) / "table.md").write_text(table)
        words = [sys.executable, TOP / "bench" / "plot.py", "--table", f"{folder}/table.md", "--folder", f"{folder}/plots"]
        ended = subprocess.run(words, env={**os.environ, "PATH": "/nowhere"}, capture_output=True, text=True)
        yield "plot: without gnuplot", (ended.returncode, "apt-get install gnuplot-nox" in ended.stderr) == (70, True)
        if shutil.which("gnuplot"):
            ended = subprocess.run(words, capture_output=True, text=True)
            drawn = [path.read_text() for path in sorted(pathlib.Path(folder, "plots").glob("*.svg"))]
            yield "plot: pictures", (ended.returncode, ended.stderr, len(drawn)) == (0, "", 2)
            yield "plot: kinds", all(f"{kind}: {count} file" in drawn[0] for kind, count in [("examples", 1), ("invariants", 1), ("integers", 1)])
            yield "plot: folder that can't be made", subprocess.run([*words[:-1], "/dev/null/there"], capture_output=True).returncode == 5
        (pathlib.Path(folder) / "table.md").write_text("")
        yield "plot: no rows", not shutil.which("gnuplot") or subprocess.run(words, capture_output=True).returncode == 2


def crates_in_order():
    """What tools/index.py makes of a list of crates, and what it refuses in one."""
    index = loaded(TOP / "tools" / "index.py")
    text = "## Low: a\n\n# a\nsy_a: sy_a_in\nsy_a_in: std\n\n## High: b\n\n# b\nsy_b: sy_a\n"
    wanted = text.replace("sy_a: sy_a_in\nsy_a_in: std\n", "sy_a_in: std\nsy_a: sy_a_in\n")
    yield "index: order of crates", (index.sorted_crates(text), index.sorted_crates(wanted)) == (wanted, wanted)
    yield "index: layers", not [*index.upside_down(text)]
    yield "index: a layer above", [*index.upside_down(text.replace("std", "sy_b"))] == [("sy_a_in", "sy_b")]
    checkers = (TOP / "crates.txt").read_text().replace("sy_gates:", "sy_gates: sy_cdcl")
    yield "index: a solver below a checker", "sy_cdcl" in index.solvers_below(checkers)


def judged():
    judge = loaded(TOP / "tools" / "judge")
    for term, wanted in BINDINGS:
        yield f"judge {term}", judge.text_of(judge.put(judge.items_of(term)[0], {})) == wanted
    with tempfile.TemporaryDirectory() as folder:
        problem, program = pathlib.Path(folder) / "p.sl", pathlib.Path(folder) / "sygus"
        problem.write_text(JUDGED)
        program.touch(mode=0o755)
        for said, verdicts, status, last in SOLVED:
            # a program that says the one verdict at its first call and the other at its second
            program.write_text(f"#!/bin/sh\nif [ -e {program}.called ]; then echo '{verdicts[-1] if verdicts else ''}'; else echo '{verdicts[0] if verdicts else ''}'; fi\ntouch {program}.called\nexit 1\n")
            pathlib.Path(f"{program}.called").unlink(missing_ok=True)
            ended = subprocess.run([TOP / "tools" / "judge", problem, "--", "printf", said.replace("%", "%%") + "%.0s"], env={**os.environ, "SYGUS": str(program)}, capture_output=True, text=True)
            yield f"judge {said!r}", ended.returncode == status and ended.stdout.rstrip().split("\n")[-1].startswith(last)
        ended = subprocess.run([TOP / "tools" / "judge", "--seconds", "0.2", problem, "--", "sh", "-c", "sleep 5"], capture_output=True, text=True)
        yield "judge after its time", ended.returncode == 11 and "no answer within" in ended.stdout
        ended = subprocess.run([TOP / "tools" / "judge", problem, "--", "no_such_solver"], capture_output=True, text=True)
        yield "judge without a solver", ended.returncode == 13


def counted():
    """What bench/answers.py counts of verdicts beside z3."""
    for verdicts, z3, agrees in COUNTED:
        judge, said = answers.Judge("no program", 1), iter(verdicts)
        judge.checked = lambda words, text: (0, [f"check-synth 1 {next(said)}"], [])
        told = unittest.mock.patch.object(answers.Problem, "violated", lambda *_: z3)
        with tempfile.NamedTemporaryFile("w", suffix=".sl") as file, told:
            file.write(JUDGED)
            file.flush()
            judge.take("one", file.name, "(\n(define-fun f ((x Int)) Int x)\n)\n")
        with contextlib.redirect_stdout(io.StringIO()):
            yield f"answers: {verdicts} and {z3}", judge.show() == agrees and sum(judge.counts["one"].values()) == 2


def tests():
    yield from counted()
    yield from crates_in_order()
    yield from helps()
    yield from measured()
    yield from vectors()
    yield from checks()
    yield from drilled()
    yield from fuzzed()
    yield from dearest()
    yield from plotted()
    yield from judged()
