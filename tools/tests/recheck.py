"""Tests of tools/recheck: it accepts the proofs of proofs/, and refuses each of these once it is spoilt."""
import pathlib
import subprocess

from scripts import loaded

HERE = pathlib.Path(__file__).resolve().parent
RECHECK = HERE.parent / "recheck"
# A proof, what is put in place of what, and why it is refused.
SPOILT = [
    # multipliers and divisors
    ("max", "(farkas 1 1)", "(farkas 1 2)", "node 4: the combination isn't a negative constant"),
    ("max", "(farkas 1 1)", "(farkas 0 0)", "node 4: the combination isn't a negative constant"),
    ("max", "(farkas 1 1)", "(farkas 1 (- 1))", "node 4: a multiplier is negative"),
    ("max", "(farkas 1 1)", "(farkas 1)", "node 4: there isn't one multiplier for each form"),
    ("max", "(farkas 1 1)", "(farkas 1 1 0)", "node 4: there isn't one multiplier for each form"),
    ("max", "(farkas 1 1)", "(farkas (/ 2 2) 1)", "node 4: a fraction that isn't in lowest terms"),
    ("max", "(farkas 1 1)", "(farkas (/ 1 1) 1)", "node 4: a fraction"),
    ("max", "(farkas 1 1)", "(farkas (- 0) 1)", "node 4: a number"),
    ("max", "(farkas 1 1)", "(farkas min 1)", "node 4: a multiplier is negative"),
    ("half", "(/ 1 2)", "(/ 1 3)", "the combination isn't a negative constant"),
    ("odd", "(cut 2 1 0)", "(cut 2 0 1)", "node 3: the combination isn't a negative constant"),
    ("odd", "(cut 2 1 0)", "(cut 4 1 0)", "node 2: a cut whose coefficients aren't whole"),
    ("odd", "(cut 2 1 0)", "(cut (- 2) 1 0)", "node 2: a divisor below 1"),
    ("odd", "(cut 2 1 0)", "(cut 0 1 0)", "node 2: a divisor below 1"),
    ("odd", "(cut 2 1 0)", "(cut 1 1 0)", "node 3: the combination isn't a negative constant"),
    ("odd", "(cut 2 1 0)", "(cut 2 1)", "node 2: there isn't one multiplier for each form"),
    ("odd", "(cut 2 1 0)", "(cut)", "node 2: "),
    # nodes
    ("max", " (farkas 1 1)", "", "a node is missing"),
    ("max", "(shown) (farkas 1 1)", "(shown)", "a node is missing"),
    ("max", "(farkas 1 1)", "(farkas 1 1) (shown)", "node 5: a node behind the last one"),
    ("max", "(farkas 1 1)", "(shown)", "node 4: the facts don't show that the query is false"),
    ("max", "(tree (split", "(tree (shown) (split", "node 0: the facts don't show that the query is false"),
    ("max", "(farkas 1 1)", "(unfinished)", "node 4: an unknown node"),
    ("max", "(farkas 1 1)", "(shown 1)", "node 4: an unknown node"),
    ("max", "(farkas 1 1)", "shown", "node 4: an unknown node"),
    ("max", "(tree (split", "(log (split", "no tree"),
    ("max", "(farkas 1 1)", "(branch 1 0) (farkas 1 1 0) (farkas 1 1)", "node 6: there isn't one multiplier for each"),
    # sides exchanged
    ("max", "(shown) (farkas 1 1)", "(farkas 1 1) (shown)", "node 3: the combination isn't a negative constant"),
    ("between", "(farkas 1 0 2) (farkas 0 1 2)", "(farkas 0 1 2) (farkas 1 0 2)", "node 3: the combination isn't a negative"),
    # tests and bounds
    ("max", "(0 1) (1 (- 1))", "(0 (- 1)) (1 1)", "node 4: the combination isn't a negative constant"),
    ("max", "(atleast 0 (0 1)", "(atleast 1 (0 1)", "the facts don't show that the query is false"),
    ("max", "(atleast 0 (0 1)", "(atleast 0 (2 1)", "node 2: a variable of sort Int"),
    ("flags", "(holds 0)", "(holds 1)", "a variable of sort Bool"),
    ("flags", "(holds 0)", "(holds 3)", "a variable of sort Bool"),
    ("flags", "(holds 0)", "(holds 2)", "the facts don't show that the query is false"),
    ("flags", "(1 1)", "(0 1)", "a variable of sort Int"),
    ("between", "(branch 0 0)", "(branch 0 1)", "the combination isn't a negative constant"),
    ("between", "(branch 0 0)", "(branch 1 0)", "a variable of sort Int"),
    ("between", "(branch 0 0)", "(branch 0 0 0)", "the parts of a branch"),
    # another body or problem
    ("max", "(ite (<= x y) y x))\n)", "(ite (<= x y) x y))\n)", "the facts don't show that the query is false"),
    ("max", "(ite (<= x y) y x))\n)", "(ite (<= y x) x y))\n)", "the facts don't show that the query is false"),
    ("max", "(ite (<= x y) y x))\n)", "y)\n)", "the facts don't show that the query is false"),
    ("max", "(>= (f x y) y)", "(> (f x y) y)", "the facts don't show that the query is false"),
    ("odd", "(+ (* 2 y) 1)", "(* 2 y)", "the facts don't show that the query is false"),
    ("rest", "(mod (f x) 3) 5", "(mod (f x) 6) 5", "the facts don't show that the query is false"),
    ("rest", "3) 5)", "3) 2)", "the facts don't show that the query is false"),
    ("half", "(- 2) (- 1)", "(- 2) 1", "the facts don't show that the query is false"),
    ("half", "(assume (<= 0 y))", "", "the facts don't show that the query is false"),
    ("count", "(<= x n))\n)", "(< x n))\n)", "the facts don't show that the query is false"),
    # definitions
    ("max", "(define-fun f ((x Int) (y Int))", "(define-fun g ((x Int) (y Int))", "the definition of g"),
    ("max", "(define-fun f ((x Int) (y Int))", "(define-fun f ((x Int))", "the arguments of f"),
    ("max", "(define-fun f ((x Int) (y Int)) Int", "(define-fun f ((x Int) (y Int)) Bool", "the sort of f"),
    ("max", "(ite (<= x y) y x))\n)", "(<= x y))\n)", "the sort of f"),
    ("max", "(ite (<= x y) y x))\n)", "(ite (<= x z) y x))\n)", "z is no function"),
    ("max", "(ite (<= x y) y x))\n)", "(f x y))\n)", "f is no function"),
    ("max", "(ite (<= x y) y x))\n)", "(+ x (<= x y)))\n)", "the sorts of the arguments of +"),
    ("max", "(ite (<= x y) y x))\n)", "(truth x))\n)", "truth is no function"),
    ("max", "(define-fun f ((x Int) (y Int)) Int (ite (<= x y) y x))\n", "", "a definition is missing"),
    ("rest", "Int z)", "Int (div z z))", "div of what varies"),
    ("odd", "Int 0)", "Int (* x x))", "* of what varies"),
]
# What isn't understood: a proof, what is put in place of what, and what is said.
UNKNOWN = [
    ("max", "LIA", "BV", "the logic, which isn't LIA"),
    ("max", "(check-synth)", "(check-sinth)", "the command check-sinth"),
    ("max", "(tree", ") (tree", "a bracket closes nothing"),
    ("max", "(tree", "((tree", "a bracket isn't closed"),
    ("max", "(tree", "\\ (tree", "byte "),
    ("max", "(tree", f"{'(' * 1201}{')' * 1201} (tree", "more than 1,200 lists are open"),
    ("max", "(tree", "(tree) (tree", "a reply too much"),
    ("max", "(declare-var x Int)", "(declare-var x Real)", "a sort"),
]


def put(name, old, new):
    """A file of proofs/ with something else in place of something that it has."""
    text = (HERE / "proofs" / f"{name}.sl").read_text()
    assert old in text, (name, old)
    return text.replace(old, new)


def tests():
    said = loaded(RECHECK).told
    for path in sorted((HERE / "proofs").glob("*.sl")):
        ended = subprocess.run([RECHECK, path], capture_output=True, text=True)
        yield f"recheck accepts {path.name}", (ended.returncode, ended.stdout) == (0, "check-synth 1 accepted\n")
    for name, old, new, why in SPOILT:
        status, lines = said(put(name, old, new))
        yield f"recheck of {name} with {new}", status == 1 and "rejected: " in lines[0] and why in lines[0]
    for name, old, new, why in UNKNOWN:
        status, lines = said(put(name, old, new))
        yield f"recheck doesn't read {name} with {new}", status == 2 and lines[0].startswith(f"not understood: {why}")
    whole = (HERE / "proofs" / "max.sl").read_text()
    two = whole.replace("(check-synth)\n", "(check-synth)\n(check-synth)\ninfeasible\n")
    yield "recheck of two questions", said(two) == (1, ["check-synth 1 no definitions", "check-synth 2 accepted"])
    cut = [said(whole[:end]) for end in range(len(whole) - 2)]
    yield "recheck of what is cut off", all("accepted" not in line for _, lines in cut for line in lines)
