#!/usr/bin/env python3
"""Runs `sygus` on problems of kinds whose banks are apt to fill before a solution is found, and prints how many are answered.

    bench/stages.py [--sygus PROGRAM] [--old PROGRAM] [--limit SECONDS] [--cvc5] [--write FOLDER] [FAMILY ..]

The families, over vectors of 16 and 32 bits and over integers, each by the default grammar and by a small one:

    ring       invariants of a buffer of 10 and of 25 places, which is filled and emptied by turns
    counters   invariants of two numbers that a loop moves at once
    search     invariants of the two bounds of a binary search
    tricks     functions of masks and shifts, over 16 and 32 bits, by a grammar of ten operators
    tables     functions given by 40 rows, by the default grammar alone

Each file runs once with so many processor seconds, 20 without --limit; --cvc5 runs cvc5 beside it, and --old another
build of `sygus`, and says how many are answered of those that end by `Bank` with it. --write puts the files into a folder
and runs nothing. The problems are always the same. The status is 1 where fewer than a third are answered: with --old, of
those that end by `Bank` with it.
"""
import argparse
import os
import sys
import tempfile

from runs import answer, run, sygus


class Numbers:
    """How numbers of a sort are written."""

    def __init__(self, width):
        self.width = width
        self.name = f"{width}" if width else "int"
        self.logic = "BV" if width else "LIA"
        self.sort = f"(_ BitVec {width})" if width else "Int"
        names = ("bvadd", "bvsub", "bvult", "bvule") if width else ("+", "-", "<", "<=")
        self.add, self.sub, self.less, self.most = names

    def number(self, n):
        if self.width:
            return f"(_ bv{n % (1 << self.width)} {self.width})"
        return f"{n}" if n >= 0 else f"(- {-n})"

    def text(self, formula):
        """The formula with this sort's operators, and its numerals as constants of the sort."""
        words = {"+": self.add, "-": self.sub, "<": self.less, "<=": self.most}
        tokens = formula.replace("(", " ( ").replace(")", " ) ").split()
        return " ".join(self.number(int(it)) if it.isdigit() else words.get(it, it) for it in tokens)

    def half(self, x):
        return f"(bvlshr {x} {self.number(1)})" if self.width else f"(div {x} 2)"

    def conditions(self, variables, numerals):
        """A small grammar of conditions."""
        leaves = " ".join([*variables, *map(self.number, numerals)])
        return (f"((B Bool) (A Bool) (E {self.sort})) ((B Bool (A (and A B)))"
                f" (A Bool (({self.most} E E) ({self.less} E E) (= E E))) (E {self.sort} ({leaves} ({self.add} E E) ({self.sub} E E))))")


SORTS = [Numbers(16), Numbers(32), Numbers(0)]


def invariant(numbers, small, variables, numerals, pre, trans, post):
    """The problem of an invariant; a name with 1 behind it is the variable's next value."""
    now = " ".join(f"({name} {numbers.sort})" for name in variables)
    then = " ".join(f"({name}1 {numbers.sort})" for name in variables)
    grammar = " " + numbers.conditions(variables, numerals) if small else ""
    return "\n".join([
        f"(set-logic {numbers.logic})",
        f"(synth-inv inv ({now}){grammar})",
        f"(define-fun pre ({now}) Bool {numbers.text(pre)})",
        f"(define-fun trans ({now} {then}) Bool {trans(numbers)})",
        f"(define-fun post ({now}) Bool {numbers.text(post)})",
        "(inv-constraint inv pre trans post)", "(check-synth)", ""])


RINGS = {"places": "(and (< h {k}) (< t {k}))", "count": "(and (<= c {k}) (< t {k}))",
         "apart": "(or (= (+ h c) t) (= (+ h c) (+ t {k})))"}


def rings():
    for numbers in SORTS:
        for small in (False, True):
            for k in (10, 25):
                for name, post in RINGS.items():
                    def trans(it, k=k):
                        step = "(ite (= (+ {0} 1) {1}) 0 (+ {0} 1))"
                        put = f"(and (< c {k}) (= t1 {step.format('t', k)}) (= c1 (+ c 1)) (= h1 h))"
                        take = f"(and (< 0 c) (= h1 {step.format('h', k)}) (= c1 (- c 1)) (= t1 t))"
                        return it.text(f"(or {put} {take})")
                    text = invariant(numbers, small, ["h", "t", "c"], [0, 1, k], "(and (= h 0) (= t 0) (= c 0))", trans, post.format(k=k))
                    yield f"ring_{name}_{k}_{numbers.name}{'_small' if small else ''}", text


COUNTERS = {
    # both up, by one and by two
    "double": ("(and (= x 0) (= y 0))", "(and (< x 100) (= x1 (+ x 1)) (= y1 (+ y 2)))", "(or (< x 100) (= y 200))", [0, 1, 100]),
    # one up, one down
    "sum": ("(and (= x 0) (= y 50))", "(and (< x 50) (= x1 (+ x 1)) (= y1 (- y 1)))", "(or (< x 50) (= y 0))", [0, 1, 50]),
    # the second follows by three
    "ahead": ("(and (= x 3) (= y 0))", "(and (< y 40) (= x1 (+ x 1)) (= y1 (+ y 1)))", "(or (< y 40) (= x 43))", [0, 1, 3, 40]),
    # by turns
    "turns": ("(and (= x 0) (= y 0))", "(or (and (= x y) (< x 30) (= x1 (+ x 1)) (= y1 y)) (and (< y x) (= x1 x) (= y1 (+ y 1))))", "(<= x 30)", [0, 1, 30]),
    # towards each other
    "meeting": ("(and (= x 0) (= y 60))", "(and (< x y) (= x1 (+ x 1)) (= y1 (- y 1)))", "(or (< x y) (= x 30))", [0, 1, 30, 60]),
    # the second is one ahead, in steps of two
    "paces": ("(and (= x 0) (= y 1))", "(and (< x 80) (= x1 (+ x 2)) (= y1 (+ y 2)))", "(or (< x 80) (= y 81))", [0, 1, 2, 80]),
    # three of the one are one of the other
    "third": ("(and (= x 0) (= y 0))", "(and (< y 20) (= x1 (+ x 3)) (= y1 (+ y 1)))", "(or (< y 20) (= x 60))", [0, 1, 20]),
}


def counters():
    for numbers in SORTS:
        for small in (False, True):
            for name, (pre, trans, post, numerals) in COUNTERS.items():
                text = invariant(numbers, small, ["x", "y"], numerals, pre, lambda it, t=trans: it.text(t), post)
                yield f"counters_{name}_{numbers.name}{'_small' if small else ''}", text


SEARCHES = {"inside": "(and (<= l h) (<= h n))", "below": "(or (= l h) (< l n))"}


def searches():
    for numbers in SORTS:
        for small in (False, True):
            for name, post in SEARCHES.items():
                def trans(it):
                    middle = f"({it.add} l {it.half(f'({it.sub} h l)')})"
                    up = f"(and (= l1 ({it.add} {middle} {it.number(1)})) (= h1 h))"
                    return f"(and ({it.less} l h) (= n1 n) (or {up} (and (= l1 l) (= h1 {middle}))))"
                pre = "(and (= l 0) (= h n) (<= 0 n))"
                yield f"search_{name}_{numbers.name}{'_small' if small else ''}", invariant(numbers, small, ["l", "h", "n"], [0, 1], pre, trans, post)


# what a function is of x, and of y and m; P and Q are masks of every second bit and pair
TRICKS = {
    "swap_bits": "(bvor (bvand (bvlshr x 1) P) (bvshl (bvand x P) 1))",
    "swap_pairs": "(bvor (bvand (bvlshr x 2) Q) (bvshl (bvand x Q) 2))",
    "pair_counts": "(bvadd (bvand x P) (bvand (bvlshr x 1) P))",
    "merge": "(bvxor y (bvand m (bvxor x y)))",
    "choose_three": "(bvor (bvand x y) (bvand m (bvor x y)))",
    "fold_parity": "(bvxor (bvxor x (bvlshr x 1)) (bvlshr (bvxor x (bvlshr x 1)) 2))",
    "clear_two": "(bvand (bvand x (bvsub x 1)) (bvsub (bvand x (bvsub x 1)) 1))",
    "round_mean": "(bvsub (bvor x y) (bvlshr (bvxor x y) 1))",
    "smear_three": "(bvor (bvor x (bvlshr x 1)) (bvlshr (bvor x (bvlshr x 1)) 2))",
    "mask_between": "(bvand (bvnot (bvsub x 1)) (bvsub y 1))",
    "absolute_apart": "(bvsub (bvxor (bvsub x y) (bvashr (bvsub x y) T)) (bvashr (bvsub x y) T))",
    "carry_step": "(bvxor (bvand x y) (bvshl (bvxor x y) 1))",
    "spread": "(bvor (bvshl (bvand x y) 1) (bvlshr (bvand x y) 1))",
    "blend_sum": "(bvadd (bvand x m) (bvand y (bvnot m)))",
    "next_run": "(bvand (bvadd x (bvand x (bvneg x))) (bvnot (bvlshr x 1)))",
}


def tricks():
    for width in (16, 32):
        it = Numbers(width)
        masks = {"P": it.number(0x55555555), "Q": it.number(0x33333333), "T": it.number(width - 1)}
        numerals = " ".join(f"#x{n % (1 << width):0{width // 4}x}" for n in (1, 2, 0x55555555, 0x33333333, width - 1))
        for name, formula in TRICKS.items():
            text = " ".join(masks.get(token, token) for token in it.text(formula).split())
            arguments = " ".join(f"({name} {it.sort})" for name in "xym")
            rules = " ".join(f"({op} S S)" for op in ("bvand", "bvor", "bvxor", "bvadd", "bvsub", "bvshl", "bvlshr", "bvashr"))
            grammar = f"((S {it.sort})) ((S {it.sort} (x y m {numerals} (bvnot S) (bvneg S) {rules})))"
            variables = "\n".join(f"(declare-var {name} {it.sort})" for name in "xym")
            yield f"tricks_{name}_{width}", f"(set-logic BV)\n(synth-fun f ({arguments}) {it.sort} {grammar})\n{variables}\n(constraint (= (f x y m) {text}))\n(check-synth)\n"


TABLES = {
    "steps": lambda x: 10 * (x // 7),
    "bands": lambda x: 3 if x < 9 else 40 if x < 21 else 7 if x < 30 else 90,
    "peak": lambda x: x if x < 20 else 40 - x if x < 40 else 0,
    "fares": lambda x: 5 + 2 * x if x < 15 else 20 + x if x < 33 else 60,
    "mixed": lambda x: (x * 37 + 11) % 101,
    "saw": lambda x: x % 12,
}


def tables():
    for numbers in SORTS:
        for rows in (40,):
            for name, function in TABLES.items():
                lines = [f"(constraint (= (f {numbers.number(x)}) {numbers.number(function(x))}))" for x in range(rows)]
                text = "\n".join([f"(set-logic {numbers.logic})", f"(synth-fun f ((x {numbers.sort})) {numbers.sort})", *lines, "(check-synth)", ""])
                yield f"tables_{name}_{rows}_{numbers.name}", text


FAMILIES = {"ring": rings, "counters": counters, "search": searches, "tricks": tricks, "tables": tables}


def of_families(names):
    """The texts of the families' problems by their names."""
    return {name: text for family in names or FAMILIES for name, text in FAMILIES[family]()}


def write_files(folder, texts):
    """Writes the problems into the folder, and gives the names of the files."""
    os.makedirs(folder, exist_ok=True)
    for name, text in texts.items():
        path = os.path.join(folder, f"{name}.sl")
        with open(path, "w") as file:
            file.write(text)
        yield path


def told(ended, limit):
    """The seconds of an answer, or why there is none."""
    if ended.is_over:
        return f"over {limit} s"
    return f"{ended.seconds:.2f}" if answer(ended) == "definitions" else f"{ended.errors.strip().split(chr(10))[-1]}, {ended.seconds:.2f}"


def count(ends):
    """How many of the runs answer."""
    return sum(answer(ended) == "definitions" for ended in ends)


def main():
    parser = argparse.ArgumentParser(description=__doc__, formatter_class=argparse.RawDescriptionHelpFormatter)
    parser.add_argument("--sygus", metavar="PROGRAM")
    parser.add_argument("--old", metavar="PROGRAM")
    parser.add_argument("--limit", metavar="SECONDS", type=int, default=20)
    parser.add_argument("--cvc5", action="store_true")
    parser.add_argument("--write", metavar="FOLDER")
    parser.add_argument("families", metavar="FAMILY", nargs="*", choices=[[], *FAMILIES])
    options = parser.parse_args()
    texts = of_families(options.families)
    if options.write:
        print(len(list(write_files(options.write, texts))), "files")
        return
    commands = {"sygus": [sygus(options.sygus)]}
    if options.old:
        commands["old"] = [os.path.abspath(options.old)]
    if options.cvc5:
        commands["cvc5"] = ["cvc5", "--lang=sygus2"]
    print("| File | " + " | ".join(f"`{name}` s" for name in commands) + " |")
    print("|---|" + "---|" * len(commands))
    ends = {name: [] for name in commands}
    with tempfile.TemporaryDirectory() as folder:
        for path in write_files(folder, texts):
            for name, command in commands.items():
                ends[name].append(run([*command, path], options.limit))
            cells = [told(list_of[-1], options.limit) for list_of in ends.values()]
            print(f"| {os.path.basename(path).removesuffix('.sl')} | " + " | ".join(cells) + " |", flush=True)
    print()
    for name, list_of in ends.items():
        answered = [ended.seconds for ended in list_of if answer(ended) == "definitions"]
        print(f"{name}: {len(answered)} of {len(list_of)}, {sum(answered):.2f} s, the others {sum(ended.seconds for ended in list_of) - sum(answered):.2f} s")
    asked = ends["sygus"]
    if options.old:
        asked = [ended for ended, old in zip(ends["sygus"], ends["old"]) if old.errors.rstrip().endswith(" Bank")]
        print(f"{len(asked)} end by Bank with the old program, {count(asked)} of them are answered")
    sys.exit(3 * count(asked) < len(asked))


if __name__ == "__main__":
    main()
