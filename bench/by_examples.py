#!/usr/bin/env python3
"""Runs `sygus`, and cvc5 where it is named, on closed examples of known programs, and prints a table.

    bench/by_examples.py [--sygus PROGRAM] [--cvc5 PROGRAM] [--limit SECONDS] [--seed SEED] [--count COUNT]
                         [--set SET] [--keep FOLDER] [--files]

The sets:

    programs   60 files, or as many as --count says, over 64 bits with one argument: 10, 100 and 1,000 examples in turn
               of a program of 8 to 20 nodes, and twelve rules, among them shifts by constants and a choice behind
               definitions
    choices    the same with 10 examples, and the choice written in five ways
    many       10,000 examples of 16 and of 64 bits of a body of size 6, and 2,000 examples over two arguments
    bad        examples of which two contradict each other, among 10 and among 1,000

The files are the same for the same seed. Each run has a limit of processor seconds, 20 without --limit. Every answer
is evaluated at the examples. With --keep the files stay in the folder.
"""
import argparse
import os
import random
import re
import sys
import tempfile

from runs import run, sygus
from sygus_client import outcome_of, read_items

# Of each way to write a choice its definitions, its rule, and a nonterminal more where the rule has one.
CHOICES = {
    "im": ("(define-fun im ((x B) (y B) (z B)) B (ite (= x ONE) y z))", "(im S S S)", ""),
    "ite": ("", "(ite (= S ONE) S S)", ""),
    "if0": ("(define-fun if0 ((x B) (y B) (z B)) B (ite (= x ZERO) y z))", "(if0 S S S)", ""),
    "select": ("(define-fun select ((c Bool) (y B) (z B)) B (ite c y z))", "(select C S S)", "(C Bool ((= S ONE) (bvult S S)))"),
    "nested": (
        "(define-fun is_one ((x B)) Bool (= x ONE))\n"
        "(define-fun other ((c Bool) (y B) (z B)) B (ite (not c) y z))\n"
        "(define-fun pick ((z B) (x B) (y B)) B (other (is_one x) z y))",
        "(pick S S S)",
        "",
    ),
}
SHIFTS = {"smol": ("bvshl", 1), "ehad": ("bvlshr", 1), "arba": ("bvlshr", 4), "shesh": ("bvlshr", 16)}
UNARY = ["bvnot", *SHIFTS]
BINARY = ["bvand", "bvor", "bvxor", "bvadd"]


def numeral(value, width):
    return f"#x{value:0{width // 4}x}"


def head(width, names, choice="im"):
    """The commands in front of the examples."""
    definitions, rule, others = CHOICES[choice]
    shifts = "\n".join(f"(define-fun {name} ((x B)) B ({operator} x {numeral(by, width)}))" for name, (operator, by) in SHIFTS.items())
    rules = f"{' '.join(names)} ZERO ONE (bvnot S) (smol S) (ehad S) (arba S) (shesh S) (bvand S S) (bvor S S) (bvxor S S) (bvadd S S) {rule}"
    nonterminals = f"(S B){' (C Bool)' if others else ''}"
    arguments = " ".join(f"({name} B)" for name in names)
    text = f"{shifts}\n{definitions}\n(synth-fun f ({arguments}) B\n  ({nonterminals})\n  ((S B ({rules})){others}))"
    text = re.sub(r"\bB\b", f"(_ BitVec {width})", text.replace("ZERO", numeral(0, width)).replace("ONE", numeral(1, width)))
    return f"(set-logic BV)\n{text}\n"


def text_of(width, names, examples, choice="im"):
    """A problem of these pairs of arguments and value."""
    rows = [f"(constraint (= (f {' '.join(numeral(it, width) for it in inputs)}) {numeral(value, width)}))\n" for inputs, value in examples]
    return f"{head(width, names, choice)}{''.join(rows)}(check-synth)\n"


def applied(operator, values, width):
    """The value of an operator, or of a definition of a file, at these values."""
    mask = (1 << width) - 1
    if operator in SHIFTS:
        operator, by = SHIFTS[operator]
        values = [values[0], by]
    first, second = values[0], values[1] if len(values) > 1 else 0
    if operator == "bvshl":
        return first << second & mask if second < width else 0
    if operator == "bvlshr":
        return first >> second
    return {
        "bvnot": lambda: ~first & mask,
        "bvand": lambda: first & second,
        "bvor": lambda: first | second,
        "bvxor": lambda: first ^ second,
        "bvadd": lambda: first + second & mask,
        "bvult": lambda: first < second,
        "=": lambda: first == second,
        "not": lambda: not first,
        "ite": lambda: values[1] if first else values[2],
        "im": lambda: values[1] if first == 1 else values[2],
    }[operator]()


def evaluated(term, variables, definitions, width):
    """The value of a term as it is read, under definitions."""
    if isinstance(term, str):
        if term in variables:
            return variables[term]
        return int(term[2:], 16 if term[1] == "x" else 2)
    if term[0] == "let":
        bound = {name: evaluated(value, variables, definitions, width) for name, value in term[1]}
        return evaluated(term[2], {**variables, **bound}, definitions, width)
    values = [evaluated(part, variables, definitions, width) for part in term[1:]]
    if term[0] in definitions:
        arguments, body = definitions[term[0]]
        return evaluated(body, dict(zip(arguments, values)), definitions, width)
    return applied(term[0], values, width)


class Programs:
    """Programs that look random."""

    def __init__(self, seed):
        self.random = random.Random(seed)

    def program(self, size, names):
        """A program of this size, as a tree."""
        if size <= 1:
            return self.random.choice([*names, *names, "zero", "one"])
        kinds = [1] * 5 + [2] * 5 * (size > 2) + [3] * 3 * (size > 3)
        places = self.random.choice(kinds)
        if places == 1:
            return [self.random.choice(UNARY), self.program(size - 1, names)]
        if places == 2:
            left = self.random.randint(1, size - 2)
            return [self.random.choice(BINARY), self.program(left, names), self.program(size - 1 - left, names)]
        first = self.random.randint(1, size - 3)
        second = self.random.randint(1, size - 2 - first)
        condition = self.program(first, names)
        if first > 2 and self.random.random() < 0.7:
            condition = ["bvand", "one", self.program(first - 2, names)]
        return ["im", condition, self.program(second, names), self.program(size - 1 - first - second, names)]

    def value(self, program, variables, width):
        if isinstance(program, str):
            return {"zero": 0, "one": 1}.get(program, variables.get(program, 0))
        return applied(program[0], [self.value(part, variables, width) for part in program[1:]], width)

    def examples(self, program, names, count, width):
        """So many examples, no two at the same arguments."""
        found = {}
        while len(found) < count:
            inputs = tuple(self.random.getrandbits(width) >> self.random.choice([0, 0, 0, 0, width // 2]) for _ in names)
            found[inputs] = self.value(program, dict(zip(names, inputs)), width)
        return list(found.items())

    def interesting(self, size, names, count, width):
        """Examples of a program of this size whose values are neither few nor those of an argument."""
        while True:
            examples = self.examples(self.program(size, names), names, count, width)
            values = {value for _, value in examples}
            if len(values) > count // 3 and all(any(inputs[i] != value for inputs, value in examples) for i in range(len(names))):
                return examples


def programs(seed, count):
    for number in range(count):
        made = Programs(seed * 1000 + number)
        rows = [10, 100, 1000][number % 3]
        size = 8 + number % 13
        yield f"program_{number}_{rows}", text_of(64, ["x"], made.interesting(size, ["x"], rows, 64))


def chosen(made, names, count, width):
    """Examples of a program that chooses by a low bit of a term, and how it is to be chosen."""
    while True:
        parts = [made.program(made.random.randint(2, 4), names) for _ in range(3)]
        program = ["im", ["bvand", "one", parts[0]], parts[1], parts[2]]
        examples = made.examples(program, names, count, width)
        first = sum(made.value(program[1], dict(zip(names, inputs)), width) == 1 for inputs, _ in examples)
        if 3 <= first <= count - 3 and len({value for _, value in examples}) > count - 3:
            return examples


def choices(seed, count):
    for number in range(count):
        made = Programs(seed * 1000 + 500 + number)
        choice = list(CHOICES)[number % len(CHOICES)]
        yield f"choice_{number}_{choice}", text_of(64, ["x"], chosen(made, ["x"], 10, 64), choice)


def many(seed, _count):
    for width in [16, 64]:
        made = Programs(seed * 1000 + 900 + width)
        body = ["bvadd", ["bvxor", "x", ["ehad", "x"]], "x"]
        yield f"many_10000_{width}", text_of(width, ["x"], made.examples(body, ["x"], 10_000, width))
    made = Programs(seed * 1000 + 990)
    body = ["bvor", ["bvand", "x", ["smol", "y"]], ["bvxor", "y", "x"]]
    yield "many_2000_two", text_of(32, ["x", "y"], made.examples(body, ["x", "y"], 2_000, 32))


def bad(seed, _count):
    for count in [10, 1000]:
        made = Programs(seed * 1000 + 800 + count)
        examples = made.interesting(8, ["x"], count, 64)
        inputs, value = examples[count // 2]
        yield f"bad_{count}", text_of(64, ["x"], [*examples, (inputs, value ^ 1)])


SETS = {"programs": programs, "choices": choices, "many": many, "bad": bad}


def wrong_at(text, output):
    """The number of examples at which the answer has another value; None where there is no definition."""
    definitions = {}
    examples = []
    width = 64
    for item in read_items(text):
        if item[0] == "synth-fun":
            width = int(item[3][2])
        elif item[0] == "constraint":
            examples.append(([int(it[2:], 16) for it in item[1][1][1:]], int(item[1][2][2:], 16)))
    for item in [*read_items(text), *read_items(output)]:
        if item and item[0] == "define-fun":
            definitions[item[1]] = [name for name, _ in item[2]], item[4]
    if "f" not in definitions:
        return None
    names, body = definitions["f"]
    return sum(evaluated(body, dict(zip(names, inputs)), definitions, width) != value for inputs, value in examples)


def nodes(term):
    return 1 if isinstance(term, str) else sum(map(nodes, term[1:])) + 1


def size_of(output):
    """How many operators and leaves the answer has."""
    for item in read_items(output):
        if item and item[0] == "define-fun":
            return nodes(item[4])
    return 0


def asked(words, text, path, limit):
    """What came of a file: whether there is a right answer, its seconds, its memory, and a cell of the table."""
    ended = run([*words, path], limit)
    output = ended.output.replace("\n(\n", "\n").removeprefix("(\n").removesuffix(")\n") if "define-fun" in ended.output else ""
    wrong = None if ended.is_over or not output else wrong_at(text, output)
    said = f"size {size_of(output)}" if wrong == 0 else f"WRONG at {wrong}" if wrong else "no answer" if ended.is_over else outcome_of(ended.status, ended.output, ended.errors)
    cause = ended.errors.strip().splitlines()[-1:] or [""]
    cell = f"{said}, {ended.seconds:.2f} s, {ended.memory >> 10} MiB"
    if wrong is None and not ended.is_over:
        cell += f" ({cause[0][:60]})"
    return wrong == 0, ended.seconds, wrong, cell


def table(given, ways, folder):
    """Prints the table and its last lines, and answers whether an answer was wrong."""
    if ways:
        print(f"| File | {' | '.join(name for name, _ in ways)} |\n|---{'|---' * len(ways)}|")
    found = []
    for name in given.set or SETS:
        for file, text in SETS[name](given.seed, given.count):
            path = os.path.join(folder, f"{file}.sl")
            with open(path, "w") as out:
                out.write(text)
            cells = [asked(words, text, path, given.limit) for _, words in ways]
            if cells:
                found.append(cells)
                print(f"| `{file}` | {' | '.join(cell for _, _, _, cell in cells)} |", flush=True)
    both = [it for it in found if all(cell[0] for cell in it)]
    for place, (name, _) in enumerate(ways):
        answered = sum(it[place][0] for it in found)
        print(f"{name}: {answered} of {len(found)} answered, {sum(it[place][1] for it in both):.2f} s on the {len(both)} that all answer")
    return any(cell[2] for it in found for cell in it)


def main():
    parser = argparse.ArgumentParser(description=__doc__, formatter_class=argparse.RawDescriptionHelpFormatter)
    parser.add_argument("--sygus", metavar="PROGRAM")
    parser.add_argument("--cvc5", metavar="PROGRAM")
    parser.add_argument("--limit", metavar="SECONDS", type=int, default=20)
    parser.add_argument("--seed", metavar="SEED", type=int, default=1)
    parser.add_argument("--count", metavar="COUNT", type=int, default=60)
    parser.add_argument("--set", metavar="SET", choices=SETS, action="append")
    parser.add_argument("--keep", metavar="FOLDER")
    parser.add_argument("--files", action="store_true", help="write the files into the folder of --keep, and run nothing")
    given = parser.parse_args()
    ways = [] if given.files else [("sygus", [sygus(given.sygus)])]
    if ways and given.cvc5:
        ways.append(("cvc5", [given.cvc5, "--lang=sygus2"]))
    if given.keep:
        os.makedirs(given.keep, exist_ok=True)
        return table(given, ways, given.keep)
    with tempfile.TemporaryDirectory() as folder:
        return table(given, ways, folder)


if __name__ == "__main__":
    sys.exit(main())
