#!/usr/bin/env python3
"""Runs `sygus`, and cvc5 where it is installed, on invariants of well-known loops, and prints a table.

    bench/loops.py [--sygus PROGRAM] [--limit SECONDS] [--alone] [--check] [--write FOLDER] [NAME ..]

Each loop is written once, over whole numbers or over vectors; its problems are that loop with the default grammar, with
a written one, and over vectors of 8 to 64 bits. NAME is the name of a problem or how it begins; without names all are
taken. Each run has a limit of processor seconds, 20 without --limit. Of each problem there are the seconds of both, and
the size of the answer beside that of an invariant that was written by hand: each operator, argument and constant
counts 1. At the end stand the counts of each family. --alone leaves cvc5 out. --check has the invariants that were
written by hand judged by mode `check`, and does nothing else. --write puts the files into a folder and runs nothing.
The status is 1 where an answer is wrong, or an invariant that was written by hand doesn't hold.
"""
import argparse
import collections
import os
import shutil
import statistics
import sys
import tempfile

from answers import fault_of
from runs import answer, run, sygus
from sygus_client import read_items, write_item

# A loop: its name, its family, its state (`name` or `name:Bool`), how it begins, a step (`x!` is x after it), what is
# wanted at each state, an invariant, and the forms in which it is asked: `int` with the default grammar, `grammar` with
# a written one, and widths of vectors, with a written grammar, or with the default one where a `d` stands before them.
Loop = collections.namedtuple("Loop", "name family state before step wanted invariant forms")

SEARCH, SORT, BUFFER, COUNT, LOCK = "searching", "sorting", "buffers", "counting", "locks and retries"
LOOPS = [
    Loop(
        "binary_search", SEARCH, "lo hi n", "(and (= lo 0) (= hi n) (<= 0 n))",
        """(and (< lo hi) (= n! n) (or (and (< lo lo!) (<= lo! hi) (= hi! hi))
                                       (and (= lo! lo) (<= lo hi!) (< hi! hi))))""",
        "(=> (not (< lo hi)) (and (<= 0 lo) (<= lo n)))",
        "(and (<= 0 lo) (<= lo hi) (<= hi n))", "int grammar 8 32 64",
    ),
    Loop(
        "sentinel_search", SEARCH, "i n found:Bool", "(and (= i 0) (<= 0 n) (not found))",
        "(and (not found) (< i n) (= n! n) (or (and found! (= i! i)) (and (not found!) (= i! (+ i 1)))))",
        "(and (=> found (and (<= 0 i) (< i n))) (=> (and (not found) (not (< i n))) (= i n)))",
        "(and (<= 0 i) (<= i n) (or (not found) (< i n)))", "int 16 d8",
    ),
    Loop(
        "elevator", SEARCH, "floor target n", "(and (= floor 0) (= target 0) (< 0 n))",
        """(and (= n! n) (or (and (= floor target) (= floor! floor) (<= 0 target!) (< target! n))
                             (and (< floor target) (= floor! (+ floor 1)) (= target! target))
                             (and (< target floor) (= floor! (- floor 1)) (= target! target))))""",
        "(and (<= 0 floor) (< floor n))",
        "(and (<= 0 floor) (< floor n) (<= 0 target) (< target n))", "int grammar 8",
    ),
    Loop(
        "window", SEARCH, "left right n k", "(and (= left 0) (= right 0) (<= 0 n) (<= 1 k))",
        """(and (= n! n) (= k! k) (or (and (< right n) (< right (+ left k)) (= right! (+ right 1)) (= left! left))
                                      (and (< left right) (= left! (+ left 1)) (= right! right))))""",
        "(and (<= left n) (<= right (+ left k)))",
        "(and (<= left right) (<= right n) (<= right (+ left k)))", "int grammar",
    ),
    Loop(
        "partition", SORT, "i j n", "(and (= i 0) (= j 0) (<= 0 n))",
        "(and (< j n) (= j! (+ j 1)) (= n! n) (or (= i! i) (= i! (+ i 1))))",
        "(=> (not (< j n)) (and (<= 0 i) (<= i n)))",
        "(and (<= 0 i) (<= i j) (<= j n))", "int grammar 8 32 d16",
    ),
    Loop(
        "partition_ends", SORT, "i j n", "(and (= i 0) (= j n) (<= 0 n))",
        "(and (< i j) (= n! n) (or (and (= i! (+ i 1)) (= j! j)) (and (= i! i) (= j! (- j 1)))))",
        "(=> (not (< i j)) (and (= i j) (<= 0 i) (<= i n)))",
        "(and (<= 0 i) (<= i j) (<= j n))", "int 16",
    ),
    Loop(
        "three_ways", SORT, "low mid high n", "(and (= low 0) (= mid 0) (= high n) (<= 0 n))",
        """(and (< mid high) (= n! n) (or (and (= low! (+ low 1)) (= mid! (+ mid 1)) (= high! high))
                                          (and (= low! low) (= mid! (+ mid 1)) (= high! high))
                                          (and (= low! low) (= mid! mid) (= high! (- high 1)))))""",
        "(=> (not (< mid high)) (and (<= 0 low) (<= low mid) (<= mid n)))",
        "(and (<= 0 low) (<= low mid) (<= mid high) (<= high n))", "int grammar 8",
    ),
    Loop(
        "merge", SORT, "i j k n m", "(and (= i 0) (= j 0) (= k 0) (<= 0 n) (<= 0 m))",
        """(and (= n! n) (= m! m) (= k! (+ k 1)) (or (and (< i n) (= i! (+ i 1)) (= j! j))
                                                     (and (< j m) (= j! (+ j 1)) (= i! i))))""",
        "(=> (and (not (< i n)) (not (< j m))) (= k (+ n m)))",
        "(and (= k (+ i j)) (<= i n) (<= j m))", "int grammar 8 16",
    ),
    Loop(
        "bubble", SORT, "i j n", "(and (= i (- n 1)) (= j 0) (<= 1 n))",
        "(and (= n! n) (or (and (< j i) (= j! (+ j 1)) (= i! i)) (and (<= i j) (< 0 i) (= i! (- i 1)) (= j! 0))))",
        "(=> (< j i) (and (<= 0 j) (< (+ j 1) n)))",
        "(and (<= 0 j) (< i n))", "int grammar 32",
    ),
    Loop(
        "insertion", SORT, "i j n", "(and (= i 1) (= j 1) (<= 1 n))",
        "(and (= n! n) (or (and (< 0 j) (= j! (- j 1)) (= i! i)) (and (< i n) (= i! (+ i 1)) (= j! (+ i 1)))))",
        "(=> (< i n) (and (<= 0 j) (< j n)))",
        "(and (<= 0 j) (<= j i))", "int 8",
    ),
    Loop(
        "compaction", SORT, "from to n", "(and (= from 0) (= to 0) (<= 0 n))",
        "(and (< from n) (= n! n) (= from! (+ from 1)) (or (= to! to) (= to! (+ to 1))))",
        "(=> (not (< from n)) (and (= from n) (<= 0 to) (<= to from)))",
        "(and (<= 0 to) (<= to from) (<= from n))", "int 64",
    ),
    Loop(
        "ring", BUFFER, "tail count size", "(and (= tail 0) (= count 0) (< 0 size))",
        """(and (= size! size) (or (and (< count size) (= count! (+ count 1))
                                        (= tail! (ite (= (+ tail 1) size) 0 (+ tail 1))))
                                   (and (< 0 count) (= count! (- count 1)) (= tail! tail))))""",
        "(=> (< count size) (and (<= 0 tail) (< tail size)))",
        "(and (<= 0 tail) (< tail size))", "int grammar 8 16",
    ),
    Loop(
        "ring_ends", BUFFER, "head tail count size", "(and (= head 0) (= tail 0) (= count 0) (< 0 size))",
        """(and (= size! size) (or (and (< count size) (= count! (+ count 1)) (= head! head)
                                        (= tail! (ite (= (+ tail 1) size) 0 (+ tail 1))))
                                   (and (< 0 count) (= count! (- count 1)) (= tail! tail)
                                        (= head! (ite (= (+ head 1) size) 0 (+ head 1))))))""",
        "(=> (= count 0) (= head tail))",
        """(and (<= 0 head) (< head size) (<= 0 tail) (< tail size)
                (or (= (+ head count) tail) (= (+ head count) (+ tail size))))""", "int",
    ),
    Loop(
        "producer_consumer", BUFFER, "made used stored room", "(and (= made 0) (= used 0) (= stored 0) (<= 0 room))",
        """(and (= room! room) (or (and (< stored room) (= made! (+ made 1)) (= stored! (+ stored 1)) (= used! used))
                                   (and (< 0 stored) (= used! (+ used 1)) (= stored! (- stored 1)) (= made! made))))""",
        "(and (<= used made) (<= made (+ used room)))",
        "(and (= made (+ used stored)) (<= 0 stored) (<= stored room))", "int grammar",
    ),
    Loop(
        "queue_empty", BUFFER, "made used stored room", "(and (= made 0) (= used 0) (= stored 0))",
        """(and (= room! room) (or (and (< stored room) (= made! (+ made 1)) (= stored! (+ stored 1)) (= used! used))
                                   (and (< 0 stored) (= used! (+ used 1)) (= stored! (- stored 1)) (= made! made))))""",
        "(=> (= stored 0) (= made used))",
        "(= made (+ used stored))", "int 8 16 32",
    ),
    Loop(
        "stack", BUFFER, "top pushes pops most", "(and (= top 0) (= pushes 0) (= pops 0) (<= 0 most))",
        """(and (= most! most) (or (and (< top most) (= top! (+ top 1)) (= pushes! (+ pushes 1)) (= pops! pops))
                                   (and (< 0 top) (= top! (- top 1)) (= pushes! pushes) (= pops! (+ pops 1)))))""",
        "(and (=> (= pushes pops) (= top 0)) (<= top most))",
        "(and (= pushes (+ pops top)) (<= top most))", "int 16",
    ),
    Loop(
        "copy_to", BUFFER, "from to n start", "(and (= from 0) (= to start) (<= 0 n))",
        "(and (< from n) (= from! (+ from 1)) (= to! (+ to 1)) (= n! n) (= start! start))",
        "(=> (not (< from n)) (= to (+ start n)))",
        "(and (= to (+ start from)) (<= from n))", "int grammar 8 64",
    ),
    Loop(
        "two_counters", COUNT, "i j n", "(and (= i 0) (= j n) (<= 0 n))",
        "(and (< 0 j) (= i! (+ i 1)) (= j! (- j 1)) (= n! n))",
        "(=> (not (< 0 j)) (= i n))",
        "(and (= (+ i j) n) (<= 0 j))", "int grammar 8 32 64 d8",
    ),
    Loop(
        "by_two", COUNT, "x y n", "(and (= x 0) (= y 0) (<= 0 n))",
        "(and (< y n) (= x! (+ x 2)) (= y! (+ y 1)) (= n! n))",
        "(=> (not (< y n)) (= x (+ n n)))",
        "(and (= x (+ y y)) (<= y n))", "int grammar 16",
    ),
    Loop(
        "gcd", COUNT, "a b n m", "(and (= a n) (= b m) (< 0 n) (< 0 m))",
        """(and (= n! n) (= m! m) (or (and (< b a) (= a! (- a b)) (= b! b))
                                      (and (< a b) (= b! (- b a)) (= a! a))))""",
        "(=> (= a b) (and (< 0 a) (<= a n) (<= b m)))",
        "(and (< 0 a) (< 0 b) (<= a n) (<= b m))", "int grammar 8",
    ),
    Loop(
        "account", COUNT, "balance paid drawn", "(and (= balance 0) (= paid 0) (= drawn 0))",
        """(or (and (= balance! (+ balance 5)) (= paid! (+ paid 5)) (= drawn! drawn))
               (and (< 0 balance) (= balance! (- balance 1)) (= drawn! (+ drawn 1)) (= paid! paid)))""",
        "(<= drawn paid)",
        "(and (= paid (+ drawn balance)) (<= 0 balance))", "int grammar",
    ),
    Loop(
        "rows_and_columns", COUNT, "r c n m", "(and (= r 0) (= c 0) (<= 0 n) (<= 0 m))",
        """(and (< r n) (= n! n) (= m! m) (or (and (< c m) (= c! (+ c 1)) (= r! r))
                                              (and (= c m) (= c! 0) (= r! (+ r 1)))))""",
        "(and (<= 0 r) (<= r n) (=> (not (< c m)) (= c m)))",
        "(and (<= 0 r) (<= r n) (<= c m) (<= 0 m))", "int 8",
    ),
    Loop(
        "up_and_down", COUNT, "pc i n", "(and (= pc 0) (= i 0) (<= 0 n))",
        """(and (= n! n) (or (and (= pc 0) (< i n) (= i! (+ i 1)) (= pc! 0))
                             (and (= pc 0) (not (< i n)) (= i! i) (= pc! 1))
                             (and (= pc 1) (< 0 i) (= i! (- i 1)) (= pc! 1))
                             (and (= pc 1) (not (< 0 i)) (= i! i) (= pc! 2))))""",
        "(and (=> (= pc 2) (= i 0)) (=> (= pc 1) (<= i n)))",
        "(and (<= 0 i) (<= i n) (or (not (= pc 2)) (= i 0)))", "int grammar 8",
    ),
    Loop(
        "retry", LOCK, "tries most done:Bool", "(and (= tries 0) (not done) (<= 0 most))",
        "(and (not done) (< tries most) (= tries! (+ tries 1)) (= most! most))",
        "(and (<= tries most) (=> (not (or done (< tries most))) (= tries most)))",
        "(<= tries most)", "int grammar 8 32",
    ),
    Loop(
        "retry_delay", LOCK, "tries most delay limit",
        "(and (= tries 0) (= delay 1) (<= 1 limit) (<= 0 most))",
        """(and (< tries most) (= tries! (+ tries 1)) (= most! most) (= limit! limit)
                (= delay! (ite (<= delay (- limit delay)) (+ delay delay) limit)))""",
        "(=> (not (< tries most)) (and (= tries most) (<= 1 delay) (<= delay limit)))",
        "(and (<= tries most) (<= 1 delay) (<= delay limit))", "int 8",
    ),
    Loop(
        "lock", LOCK, "held:Bool old new", "(and held (= old new))",
        """(and (not (= old new)) (= old! new) (or (and held! (= new! new)) (and (not held!) (= new! (+ new 1)))))""",
        "(=> (= old new) held)",
        "(or held (not (= old new)))", "int 16 d8",
    ),
    Loop(
        "two_processes", LOCK, "p q lock", "(and (= p 0) (= q 0) (= lock 0))",
        """(or (and (= p 0) (= lock 0) (= p! 1) (= lock! 1) (= q! q)) (and (= p 1) (= p! 0) (= lock! 0) (= q! q))
               (and (= q 0) (= lock 0) (= q! 1) (= lock! 1) (= p! p)) (and (= q 1) (= q! 0) (= lock! 0) (= p! p)))""",
        "(not (and (= p 1) (= q 1)))",
        "(and (= (+ p q) lock) (<= lock 1) (<= 0 p) (<= 0 q))", "int grammar",
    ),
    Loop(
        "two_processes_flags", LOCK, "p:Bool q:Bool lock:Bool", "(and (not p) (not q) (not lock))",
        """(or (and (not p) (not lock) p! lock! (= q! q)) (and p (not p!) (not lock!) (= q! q))
               (and (not q) (not lock) q! lock! (= p! p)) (and q (not q!) (not lock!) (= p! p)))""",
        "(not (and p q))",
        "(and (not (and p q)) (ite lock (or p q) (not (or p q))))", "int d8",
    ),
    Loop(
        "readers_writer", LOCK, "readers writer:Bool", "(and (= readers 0) (not writer))",
        """(or (and (not writer) (= readers! (+ readers 1)) (not writer!))
               (and (< 0 readers) (= readers! (- readers 1)) (= writer! writer))
               (and (= readers 0) (not writer) (= readers! 0) writer!)
               (and writer (= readers! readers) (not writer!)))""",
        "(and (<= 0 readers) (=> writer (= readers 0)))",
        "(and (<= 0 readers) (or (not writer) (= readers 0)))", "int",
    ),
    Loop(
        "permits", LOCK, "free used n", "(and (= free n) (= used 0) (<= 0 n))",
        """(and (= n! n) (or (and (< 0 free) (= free! (- free 1)) (= used! (+ used 1)))
                             (and (< 0 used) (= free! (+ free 1)) (= used! (- used 1)))))""",
        "(and (<= used n) (<= free n))",
        "(and (= (+ free used) n) (<= 0 free) (<= 0 used))", "int grammar",
    ),
]

# what an operator over whole numbers is over vectors
VECTORS = {"<=": "bvule", "<": "bvult", ">=": "bvuge", ">": "bvugt", "+": "bvadd", "-": "bvsub"}
INT_GRAMMAR = """((B Bool) (A Bool) (E Int))
  ((B Bool (A {truths}(and B B) (or B B) (not B)))
   (A Bool ((<= E E) (= E E)))
   (E Int ({leaves} (+ E E) (- E E))))"""
BITS_GRAMMAR = """((B Bool) (A Bool) (E {sort}))
  ((B Bool (A {truths}(and B B) (or B B) (not B)))
   (A Bool ((bvule E E) (bvult E E) (= E E)))
   (E {sort} ({leaves} (bvadd E E) (bvsub E E))))"""
FILE = """; {family}: {loop}
(set-logic {logic})
(synth-inv inv ({now}){grammar})
(define-fun pre ({now}) Bool {before})
(define-fun trans ({now} {then}) Bool {step})
(define-fun post ({now}) Bool {wanted})
(inv-constraint inv pre trans post)
(check-synth)
"""
# A problem: its name, its family, its text, and its invariant that was written by hand.
Problem = collections.namedtuple("Problem", "name family text invariant")


def in_vectors(item, width):
    """An item over whole numbers, over vectors of this width."""
    if isinstance(item, list):
        return [in_vectors(part, width) for part in item]
    if item.isdigit():
        return f"#x{int(item):0{width // 4}x}"
    return VECTORS.get(item, item)


def in_default(item):
    """An item by the one comparison that the default grammar has: `<=` over integers, `bvult` over vectors."""
    if not isinstance(item, list):
        return item
    item = [in_default(part) for part in item]
    other = {"<": "<=", "bvule": "bvult"}.get(item[0])
    return ["not", [other, item[2], item[1]]] if other else item


def in_pairs(item):
    """An item in which `and` and `or` have two arguments, as rules of a grammar have."""
    if not isinstance(item, list):
        return item
    item = [in_pairs(part) for part in item]
    while item[0] in ("and", "or") and len(item) > 3:
        item = [*item[:-2], [item[0], *item[-2:]]]
    return item


def constants_of(item):
    """The numerals of an item, and the vectors."""
    if isinstance(item, list):
        return {constant for part in item for constant in constants_of(part)}
    return {item} if item.isdigit() or item.startswith("#") else set()


def problem(loop, form):
    """The problem of a loop in one of its forms."""
    is_int, is_default = form in ("int", "grammar"), form == "int" or form.startswith("d")
    width = 0 if is_int else int(form.removeprefix("d"))
    sort = "Int" if is_int else f"(_ BitVec {width})"
    state = [(name, kind or sort) for name, _, kind in (part.partition(":") for part in loop.state.split())]
    [before], [step], [wanted], [invariant] = map(read_items, (loop.before, loop.step, loop.wanted, loop.invariant))
    if not is_int:
        before, step, wanted, invariant = (in_vectors(item, width) for item in (before, step, wanted, invariant))
    if is_int or is_default:
        invariant = in_default(invariant)
    names = [name for name, kind in state if kind != "Bool"]
    truths = "".join(f"{name} " for name, kind in state if kind == "Bool")
    zero_and_one = {"0", "1"} if is_int else {f"#x{it:0{width // 4}x}" for it in (0, 1)}
    leaves = " ".join(names + sorted(constants_of([before, step, wanted, invariant]) | zero_and_one))
    grammar = (INT_GRAMMAR if is_int else BITS_GRAMMAR).format(sort=sort, leaves=leaves, truths=truths)
    text = FILE.format(
        family=loop.family,
        loop=loop.name.replace("_", " "),
        logic="LIA" if is_int else "BV",
        now=" ".join(f"({name} {kind})" for name, kind in state),
        then=" ".join(f"({name}! {kind})" for name, kind in state),
        grammar="" if is_default else f"\n  {grammar}",
        before=write_item(before),
        step=write_item(step),
        wanted=write_item(wanted),
    )
    heading = " ".join(f"({name} {kind})" for name, kind in state)
    return Problem(f"{loop.name}_{form}", loop.family, text, (heading, write_item(in_pairs(invariant))))


def size_of(item):
    """How many operators, arguments and constants an item has; a constant below zero is one."""
    if not isinstance(item, list):
        return 1
    if item[0] == "_" or item[0] == "-" and len(item) == 2 and isinstance(item[1], str) and item[1].isdigit():
        return 1
    return 1 + sum(map(size_of, item[1:]))


def size_in(output):
    """The size of the body of an answer."""
    [[definition]] = read_items(output)
    return size_of(definition[4])


def asked(program, words, text, limit):
    """The run of a program on a text."""
    with tempfile.NamedTemporaryFile("w", suffix=".sl") as file:
        file.write(text)
        file.flush()
        return run([program, *words, file.name], limit)


def has_found(ended):
    return not ended.is_over and answer(ended) == "definitions"


def checked(program, problems, limit):
    """Has the invariants that were written by hand judged; whether all hold."""
    holds = 0
    for it in problems:
        heading, body = it.invariant
        reply = f"((define-fun inv ({heading}) Bool {body}))\n"
        ended = asked(program, ["--mode", "check"], it.text + reply, limit)
        if "holds" in ended.output:
            holds += 1
        else:
            print(f"{it.name}: {(ended.output + ended.errors).strip() or 'no verdict'}")
    print(f"{holds} of {len(problems)} hold")
    return holds == len(problems)


def shown(ended):
    """A cell of the table."""
    return f"{ended.seconds:.2f}" if has_found(ended) else "-"


class Table:
    """The counts of each family, and the sizes."""

    def __init__(self):
        self.counts, self.ratios, self.seconds, self.is_right = {}, [], [], True

    def row(self, program, it, limit, beside):
        """Runs both on a problem, and prints its row."""
        ours = asked(program, [], it.text, limit)
        theirs = asked(beside, ["--lang=sygus2"], it.text, limit) if beside else None
        count = self.counts.setdefault(it.family, [0, 0, 0])
        count[0] += 1
        count[1] += has_found(ours)
        count[2] += theirs is not None and has_found(theirs)
        cells = [shown(ours), "" if theirs is None else shown(theirs), "", str(size_of(read_items(it.invariant[1])[0]))]
        if has_found(ours):
            fault = fault_of(it.text, ours.output)
            self.is_right = self.is_right and fault is None
            cells[2] = fault or str(size_in(ours.output))
            self.seconds.append(ours.seconds)
            if not fault:
                self.ratios.append(int(cells[2]) / int(cells[3]))
        else:
            cells[2] = (ours.errors.strip().split(" ") or [""])[-1]
        print(f"| `{it.name}` | {' | '.join(cells)} |", flush=True)

    def summary(self):
        print("\n| Family | Problems | `sygus` | cvc5 |\n|---|---|---|---|")
        for family, count in self.counts.items():
            print(f"| {family} | {' | '.join(map(str, count))} |")
        print(f"| all | {' | '.join(str(sum(column)) for column in zip(*self.counts.values()))} |")
        if self.ratios:
            print(f"\nsizes by those written by hand: mean {statistics.mean(self.ratios):.2f}, most {max(self.ratios):.2f}")
            print(f"seconds: median {statistics.median(self.seconds):.2f}, most {max(self.seconds):.2f}")


def main():
    parser = argparse.ArgumentParser(description=__doc__, formatter_class=argparse.RawDescriptionHelpFormatter)
    parser.add_argument("--sygus", metavar="PROGRAM")
    parser.add_argument("--limit", metavar="SECONDS", type=int, default=20)
    parser.add_argument("--alone", action="store_true")
    parser.add_argument("--check", action="store_true")
    parser.add_argument("--write", metavar="FOLDER")
    parser.add_argument("names", metavar="NAME", nargs="*")
    given = parser.parse_args()
    every = [problem(loop, form) for loop in LOOPS for form in loop.forms.split()]
    problems = [it for it in every if not given.names or it.name.startswith(tuple(given.names))]
    if given.write:
        os.makedirs(given.write, exist_ok=True)
        for it in problems:
            with open(os.path.join(given.write, f"{it.name}.sl"), "w") as file:
                file.write(it.text)
        return
    program = sygus(given.sygus)
    if given.check:
        sys.exit(0 if checked(program, problems, given.limit) else 1)
    table = Table()
    print("| Problem | `sygus` s | cvc5 s | size | by hand |\n|---|---|---|---|---|")
    for it in problems:
        table.row(program, it, given.limit, None if given.alone else shutil.which("cvc5"))
    table.summary()
    sys.exit(0 if table.is_right else 1)


if __name__ == "__main__":
    main()
