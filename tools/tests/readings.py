"""What the program reads of files, and of terms, sorts and rules in a frame.

The tables are readings/*.txt, a row a line: what is read, a colon, and the text. `Idle` and `TooLong` have no command, and more
bytes than a file may have; `Ints(N)` and `Bits(N)` ask N questions; and `Refused(COMMAND, OFFSET, CAUSE)` has its first fault
there, behind the frame. `{12|piece}` stands for twelve pieces: in them `#` is the number of each from 0, and `@` that from 1.
"""
import pathlib
import re

READINGS = pathlib.Path(__file__).resolve().parent / "readings"
CAUSES = """CommandNotInProfile Shape Logic Feature UnknownSort Width UnknownName NameTaken SortMismatch Nonlinear LiteralRange
    FunctionNotHere Predeclared InvShape TooMany""".split()
VARIABLES = "(set-logic LIA)(declare-var x Int)(declare-var y Int)(declare-var b Bool)(define-fun g ((a Int)) Int a)(define-fun c () Int 1)(synth-fun f ((a Int) (e Int)) Int)"
# What stands before and behind each text of a table that has no whole files.
FRAMES = {
    "integer_terms": (VARIABLES + "(constraint (= x ", "))"),
    "vector_terms": ("(set-logic BV)(declare-var x (_ BitVec 4))(declare-var y (_ BitVec 4))(assume (= x ", "))"),
    "bodies": (VARIABLES + "(define-fun h ((u Int) (b Bool)) Int ", ")"),
    "vector_bodies": ("(set-logic BV)(define-fun h ((x (_ BitVec 4)) (y (_ BitVec 4))) (_ BitVec 4) ", ")"),
    "assumptions": (VARIABLES + "(assume (= x ", "))"),
    "integer_sorts": ("(set-logic LIA)(define-sort N Bool)(declare-var v ", ")"),
    "vector_sorts": ("(set-logic BV)(define-sort N Bool)(declare-var v ", ")"),
    "grammars": ("(set-logic LIA)(synth-fun f ", ")"),
    "rules": ("(set-logic LIA)(define-sort N Int)(declare-var x Int)(define-fun g ((a Int)) Int a)(synth-fun f ((a Int) (e Int)) Int)"
              "(synth-fun h ((u Int)) Int ((I Int) (C Int)) ((I Int (u ", ")) (C Int ((Constant Int)))))"),
}


def repeated(piece, count):
    """So many pieces; `#` in them is a number that counts from 0, and `@` the next one."""
    return "".join(piece.replace("#", str(number)).replace("@", str(number + 1)) for number in range(count))


def expanded(text):
    return re.sub(r"\{(\d+)\|([^}]*)\}", lambda found: repeated(found[2], int(found[1])), text)


def refused(text, command, offset, cause):
    """What a run leaves where the file is refused."""
    line = text.count("\n", 0, offset) + 1
    column = offset - text.rfind("\n", 0, offset)
    fault = re.fullmatch(r"Text\((\w+)\(\d+\)\)", cause)
    name = f"1 Text {fault[1]}" if fault else f"{CAUSES.index(cause) + 2} {cause}"
    return 2, "", f"refused: command {command} line {line} column {column} cause {name}\n"


def is_read(left, told, text, head):
    """Whether a run on the text leaves what the row tells."""
    found = re.fullmatch(r"Refused\((\d+), (\d+), (.*)\)", told)
    if found:
        return left == refused(text, found[1], len(head) + int(found[2]), found[3])
    if told == "TooLong":
        return left == (2, "", "refused: input longer than 4194304 bytes\n")
    asked = 0 if told == "Idle" else int(re.fullmatch(r"(?:Ints|Bits)\((\d+)\)", told)[1])
    status, out, err = left
    answers = sum(line in ("(", "fail", "infeasible") for line in out.splitlines())
    return answers == asked and (status, err.count("fail: ")) in ((0, 0), (1, out.splitlines().count("fail")))


def tests(run, program):
    """Each row, by a function that runs the program."""
    for path in sorted(READINGS.glob("*.txt")):
        head, tail = FRAMES.get(path.stem, ("", ""))
        for number, row in enumerate(path.read_text().splitlines(), 1):
            told, _, item = row.partition(": ")
            text = head + expanded(item) + tail
            yield f"row {number} of {path.name}", is_read(run(program, ["-"], input=text), told, text, head)
