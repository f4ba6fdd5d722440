"""Tests of docs/HOW_IT_WORKS.md: each file that it names is there, and has the name beside it; who looks for a part of the
solver by the field's words is led to its file."""
import pathlib
import re
import subprocess
import sys

TOP = pathlib.Path(__file__).resolve().parent.parent.parent
PAGE = TOP / "docs" / "HOW_IT_WORKS.md"
# a path below crates/, and after it perhaps a name
PLACE = re.compile(r"`(\w+/(?:src|specs|proofs)/[\w/]+\.(?:rt|antt))`(?: `(\w+)`)?")

# What one may look for, by words that a line of docs/ has to have, and the file that the line leads to.
LOOKED_FOR = [
    ("query bit-blasted", "sy_bits_circuit/src/circuit.rt"),
    ("representative merged", "sy_bank/src/offering.rt"),
    ("branch whole", "sy_intsolve/src/open.rt"),
    ("CEGIS loop", "sy_loop/src/round.rt"),
    ("counterexamples list", "sy_points/src/stored.rt"),
    ("decision tree built", "sy_unify/src/join_tree.rt"),
    ("clause learned", "sy_cdcl/src/solver.rt"),
    ("pivot Bland", "sy_simplex/src/choice.rt"),
    ("cut checked", "sy_intsolve_cuts/src/checking.rt"),
    ("verification query", "sy_query/src/queries.rt"),
    ("infeasible decided", "sy_loop_claims/src/outcome.rt"),
    ("observational equivalence", "sy_bank_level/src/filling.rt"),
]


def has(path, name):
    """Whether the file is there, and a line of it declares the name or, where it is code, a clause or function of that name."""
    file = TOP / "crates" / path
    if not file.is_file():
        return False
    declared = rf"\bfn {name}\b|\bensures {name} |^\s*(?:\w+ )*{name}\b(?!\.)" if name else ""
    return re.search(declared, file.read_text(), re.M) is not None


def tests():
    for row in PAGE.read_text().splitlines():
        for path, name in PLACE.findall(row):
            yield f"HOW_IT_WORKS.md: {path} {name}", has(path, name)
    lines = [line for page in (TOP / "docs").glob("*.md") for line in page.read_text().splitlines()]
    for words, path in LOOKED_FOR:
        leads = any(path in line and all(word in line for word in words.split()) for line in lines)
        yield f"docs/ lead to: {words}", leads
    yield "trusted definitions", subprocess.run([sys.executable, TOP / "tools" / "trusted.py", "--check"]).returncode == 0
