"""Proofs behind answers: what `--proofs` writes is accepted by mode `recheck`, and what isn't that is rejected."""
import os
import pathlib
import resource
import subprocess
import sys
import tempfile

TOP = pathlib.Path(__file__).resolve().parent.parent.parent
# The most bytes of an input.
LONGEST = 4194304
# Limits within which each file of examples/ is answered, or given up, in seconds.
BOUNDS = "--bank 5000 --weight 50000 --clauses 3000 --nodes 300".split()


def files():
    for folder in (TOP / "examples", TOP / "tools" / "tests" / "runs"):
        yield from sorted(folder.rglob("*.sl"))


def is_proof(line):
    return line.startswith(("(log", "(tree"))


def verdicts(out):
    """The verdicts on replies with their proofs."""
    kinds = [line for line in out.splitlines() if line in (")", "fail", "infeasible")]
    return "".join(f"check-synth {number} {'accepted' if kind == ')' else 'no definitions'}\n" for number, kind in enumerate(kinds, 1))


def accepted(run, program):
    """Each file has the answers that it has without proofs, and all proofs are accepted."""
    for path in files():
        text = path.read_text()
        plain = run(program, [*BOUNDS, str(path)])
        status, out, err = run(program, [*BOUNDS, "--proofs", str(path)])
        without = "".join(line for line in out.splitlines(True) if not is_proof(line))
        yield f"{path.name} without its proofs", (status, without, err) == plain
        if status < 2 and len(text) + len(out) <= LONGEST:
            wanted = verdicts(out)
            status = 0 if all(line.endswith(" accepted") for line in wanted.splitlines()) else 1
            yield f"{path.name} with its proofs", run(program, ["--mode", "recheck", "-"], input=text + out) == (status, wanted, "")


def spoilt(run, program):
    """A proof without its last node or line is rejected."""
    for name, cut in [("max.sl", "(tree"), ("vector_own_inverse.sl", "(log")]:
        path = TOP / "tools" / "tests" / "runs" / name
        status, out, err = run(program, ["--proofs", str(path)])
        body, begin, proof = out.rpartition(cut)
        parts = proof.rstrip().removesuffix(")").rpartition(" (")
        changed = f"{body}{begin}{parts[0]})\n"
        judged = run(program, ["--mode", "recheck", "-"], input=path.read_text() + changed)
        yield f"{name} with a part of its proof", status == 0 and judged == (1, "check-synth 1 proof rejected\n", "")


def clauses(run, program):
    """The clauses of an answer over vectors are a text of DIMACS: as many clauses as it says, over as many variables."""
    path = TOP / "tools" / "tests" / "runs" / "vector_own_inverse.sl"
    answer = run(program, [str(path)])[1]
    status, out, err = run(program, ["--mode", "clauses", "-"], input=path.read_text() + answer)
    said, head, *rows = out.splitlines()
    numbers = [[int(word) for word in row.split()] for row in rows]
    kind, variables, count = head.split()[1:]
    well = kind == "cnf" and len(rows) == int(count) and all(row[-1] == 0 and 0 not in row[:-1] for row in numbers)
    within = all(abs(number) <= int(variables) for row in numbers for number in row)
    yield "clauses as DIMACS", (status, said, err) == (0, "check-synth 1 clauses", "") and well and within


def kept(run, program):
    """The answers with proofs that are kept in examples/proofs/ are accepted, over integers by tools/recheck too, over
    vectors by what checks tools/lrat's files."""
    tools = TOP / "tools"
    for path in sorted((TOP / "examples" / "proofs").glob("*.answer")):
        text = (TOP / "examples" / f"{path.stem}.sl").read_text() + path.read_text()
        yield f"{path.name} is accepted", run(program, ["--mode", "recheck", "-"], input=text) == (0, "check-synth 1 accepted\n", "")
        with tempfile.TemporaryDirectory() as folder:
            words = [tools / "recheck", "-"] if "(tree" in text else [tools / "lrat", "-", folder]
            told = subprocess.run(words, input=text, capture_output=True, text=True, env={**os.environ, "SYGUS": str(program)})
            well = told.returncode == 0
            for cnf in sorted(pathlib.Path(folder).glob("*.cnf")):
                checker = [sys.executable, tools / "tests" / "lrat_check.py", cnf, cnf.with_suffix(".lrat")]
                well = well and subprocess.run(checker, capture_output=True).returncode == 0
            yield f"{path.name} is accepted by others", well


def deep(program):
    """A tree of as many inner nodes as one may have, each below the other, is checked on half of the usual stack."""
    problem = "(set-logic LIA)(synth-fun f ((x Int)) Int)(declare-var x Int)(constraint (>= (f x) x))(check-synth)\n"
    body = "(\n(define-fun f ((x Int)) Int x)\n)\n"
    nodes = {"split": "(split (atleast 0 (0 1)))", "branch": "(branch 0 5)"}
    for name, node in nodes.items():
        left = f"(tree {node * 8000}{'(shown)' * 8001})\n"
        right = f"(tree {f'{node}(shown)' * 8000}(shown))\n"
        for side, tree in [("left", left), ("right", right)]:
            begin = lambda: resource.setrlimit(resource.RLIMIT_STACK, (2**22, 2**22))
            words = [program, "--mode", "recheck", "-"]
            ended = subprocess.run(words, input=problem + body + tree, capture_output=True, text=True, preexec_fn=begin)
            yield f"8,000 nodes, each a {name} on the {side}", (ended.returncode, ended.stdout) == (0, "check-synth 1 accepted\n")


def tests(run, program):
    yield from deep(program)
    for part in (accepted, spoilt, clauses, kept):
        yield from part(run, program)
