"""Whole runs of the program, with what each leaves: its status, its output and its error output.

The tables are runs/*.txt. A row is a command line behind `$`, in the folder runs/, then the lines of its input behind `<`,
those of its output behind `>`, those of its error output behind `!`, and its status behind `=`. Beside them stand command
lines alone (command_lines.txt: what comes of each, a colon, and its words), files at each limit and one above it, files that
are cut off anywhere, inputs that give one byte a read or fail after any byte, and outputs that take no more than so many
bytes; what is read of files (readings.py); what is answered to small questions (questions.py) and to examples
(by_example.py); how replies are judged (replies.py); and proofs (proofs.py).
"""
import os
import pathlib
import resource
import signal
import socket
import subprocess
import sys
import tempfile
import threading

TOP = pathlib.Path(__file__).resolve().parent.parent.parent
RUNS = TOP / "tools" / "tests" / "runs"
sys.path.insert(0, str(TOP / "bench"))
import by_example
import drill
import proofs
import questions
import readings
import replies
from readings import repeated

NEXT = "(\n(define-fun f ((x (_ BitVec 8))) (_ BitVec 8) (bvadd x #x01))\n)\n"
GREATER = "(\n(define-fun f ((x Int) (y Int)) Int (ite (<= x y) y x))\n)\n"
# Files over both logics, with their words and their answers.
ANSWERED = [("vector_next.sl", [], NEXT), ("max.sl", ["--size", "3"], GREATER)]
# The answers to the files that drills make of these numbers.
DRILLED = {0: NEXT, 128: "(\n(define-fun f ((x (_ BitVec 8))) (_ BitVec 8) (ite (bvult x #x80) (bvnot x) (bvadd x #x01)))\n)\n"}
UNREAD = (4, "", "fault: read\n")
REFUSED = (3, "", "refused: words\n")
# Spellings that no option with a number takes.
MISSPELT = ["", "0", "+1", "-1", "01", "1.0", "one"]
# Runs whose error output takes nothing: words, the input, and what is left.
UNTOLD = [
    (["--mode", "least", "--size", "2", "vector_next.sl"], "", (5, "fail\n")),
    (["--mode", "least", "--size", "14", "eight.sl"], "", (5, "fail\n")),
    (["vector_next.sl"], "", (0, NEXT)),
    (["vector_above.sl"], "", (0, "infeasible\n")),
    (["-"], "(set-info :source |ab", (5, "")),
    ([], "", (5, "")),
    (["no_such_file.sl"], "", (5, "")),
]


def run(program, words, **streams):
    """The status of a run in the folder of the tables, its output and its error output, where these are kept."""
    kept = {"stdout": subprocess.PIPE, "stderr": subprocess.PIPE}
    ended = subprocess.run([program, *words], cwd=RUNS, text=True, **{**kept, **streams})
    return ended.returncode, ended.stdout, ended.stderr


def rows(text):
    """The words, the input, and what is left, of each row of a table."""
    for row in text.split("\n\n"):
        lines = {mark: "" for mark in "$<>!="}
        for line in row.splitlines():
            lines[line[0]] += line[2:] + "\n"
        yield lines["$"].split()[1:], lines["<"], (int(lines["="]), lines[">"], lines["!"])


def tables(program):
    for path in sorted(RUNS.glob("*.txt")):
        for number, (words, given, left) in enumerate(rows(path.read_text()), 1):
            yield f"row {number} of {path.name}", run(program, words, input=given) == left


def drilled(program):
    for number, answer in DRILLED.items():
        yield f"the file of drill {number}", run(program, ["-"], input=drill.file_of(number)) == (0, answer, "")


def asked():
    """Command lines in a folder without the file that they name, and what comes of each; one that reads its input finds none."""
    for row in (RUNS.parent / "command_lines.txt").read_text().splitlines():
        told, _, line = row.partition(": ")
        yield told, line.split(" ")
    for name in "size rounds points bank weight clauses nodes pivots".split():
        for spelling in MISSPELT:
            yield "refused", ["sygus", f"--{name}", spelling, "f.sl"]


def command_lines(program):
    wanted = {"unread": UNREAD, "refused": REFUSED, "nothing": (0, "", "")}
    for told, line in asked():
        ended = subprocess.run(line, executable=program, cwd=RUNS, input="", text=True, capture_output=True)
        left = ended.returncode, ended.stdout, ended.stderr
        yield " ".join(line), left[1].startswith(f"{told}: ") if told.startswith("drill") else left == wanted[told]


def refusal(place, cause):
    return 2, "", f"refused: {place} cause {cause}\n"


def declared(count):
    return "(set-logic LIA)\n" + repeated("(declare-var v# Int)\n", count)


def doubled(logic, count, rest=""):
    """Definitions each of which has the one before it twice."""
    return f"(set-logic {logic})\n(define-fun d0 () Bool true)\n" + repeated("(define-fun d@ () Bool (and d# d#))\n", count) + rest


def negated(rest=""):
    return "(set-logic LIA)\n(define-fun g () Bool " + "(not " * 1199 + "true" + ")" * 1199 + ")\n" + rest


def with_arguments(count):
    return "(set-logic LIA)\n(synth-fun f (\n" + repeated("(x# Int)\n", count) + ") Int)\n"


def with_nonterminals(count):
    return "(set-logic LIA)\n(synth-fun f () Int (\n" + repeated("(n# Int)\n", count) + ") (\n" + repeated("(n# Int (0))\n", count) + "))\n"


def with_rules(count):
    return "(set-logic LIA)\n(synth-fun f () Int ((S Int)) ((S Int (\n" + "0\n" * count + "))))\n"


def largest():
    """Files at a limit, and those that are one above it: words, the file, and what is left. The last ones are heavy queries, and the greatest weight that words may name, which lets them through."""
    nothing, heavy = (0, "", ""), "(constraint d17)\n(check-synth)\n"
    yield [], " " * 4194304, nothing
    yield [], " " * 4194305, (2, "", "refused: input longer than 4194304 bytes\n")
    yield [], "(" * 1200, refusal("command 1 line 1 column 1200", "1 Text Unclosed")
    yield [], "(" * 1201, refusal("command 1 line 1 column 1201", "1 Text TooDeep")
    yield [], declared(0), nothing
    yield [], declared(4096), nothing
    yield [], declared(4097), refusal("command 4098 line 4098 column 14", "16 TooMany")
    yield [], "(set-logic LIA)\n" + "(check-synth)\n" * 16, (0, "(\n)\n" * 16, "")
    yield [], "(set-logic LIA)\n" + "(check-synth)\n" * 17, refusal("command 18 line 18 column 2", "16 TooMany")
    yield [], negated(), nothing
    yield [], negated("(constraint g)\n"), refusal("command 3 line 3 column 13", "16 TooMany")
    yield [], with_arguments(64), nothing
    yield [], with_arguments(65), refusal("command 2 line 67 column 1", "16 TooMany")
    yield [], with_nonterminals(64), nothing
    yield [], with_nonterminals(65), refusal("command 2 line 67 column 1", "16 TooMany")
    yield [], with_rules(1024), nothing
    yield [], with_rules(1025), refusal("command 2 line 1027 column 1", "16 TooMany")
    for logic in ("BV", "LIA"):
        yield [], doubled(logic, 17), nothing
        yield [], doubled(logic, 18), refusal("command 20 line 20 column 25", "16 TooMany")
        yield [], doubled(logic, 17, heavy), (1, "fail\n", "fail: check-synth 1 Weight\n")
        yield ["--weight", "1000000"], doubled(logic, 17, heavy), (0, "(\n)\n", "")


def limits(program):
    for number, (words, text, left) in enumerate(largest(), 1):
        yield f"file {number} at a limit", run(program, [*words, "-"], input=text) == left


def cut_off(program):
    """Each beginning of a file is refused for an end inside a command, or has nothing but whole commands."""
    for name, _, _ in ANSWERED:
        text = (RUNS / name).read_text()
        for end in range(len(text) - 1):
            status, out, err = run(program, ["-"], input=text[:end])
            is_refused = status == 2 and out == "" and err.endswith(" cause 1 Text Unclosed\n")
            yield f"{name} cut off at {end}", is_refused or (status, out, err) == (0, "", "")


def failing_source(text):
    """A source that gives the text, and then fails: a socket whose other end is closed before all was read there."""
    near, far = socket.socketpair()
    near.send(b"unread")
    far.sendall(text.encode())
    far.close()
    return near


def unread(program):
    """A source that fails after any byte, or at once."""
    for name, words, _ in ANSWERED:
        text = (RUNS / name).read_text()
        for end in range(len(text) + 1):
            with failing_source(text[:end]) as source:
                yield f"{name} unread from {end} on", run(program, [*words, "-"], stdin=source) == UNREAD
    with failing_source("") as source, open("/dev/full", "w") as full:
        yield "neither read nor told", run(program, ["-"], stdin=source, stderr=full)[:2] == (5, "")


def give(source, text):
    """Gives each byte by itself."""
    with source:
        for byte in text.encode():
            source.send(bytes([byte]))


def slow(program):
    """Sources of which each read gets one byte."""
    for name, words, answer in [*ANSWERED, ("vector_next.sl", ["--mode", "least", "--size", "2"], None)]:
        near, far = socket.socketpair(socket.AF_UNIX, socket.SOCK_SEQPACKET)
        giver = threading.Thread(target=give, args=(far, (RUNS / name).read_text()))
        giver.start()
        with near:
            left = run(program, [*words, "-"], stdin=near)
        giver.join()
        wanted = (0, answer, "") if answer else (1, "fail\n", "fail: check-synth 1 Size\n")
        yield f"{name} byte by byte", left == wanted


def limited(size):
    """Lets files grow to this size, from where writes fail."""
    signal.signal(signal.SIGXFSZ, signal.SIG_IGN)
    resource.setrlimit(resource.RLIMIT_FSIZE, (size, size))


def unwritten(program):
    """An output that takes so many bytes has these, and the run ends by 5; and by its own status where it takes all."""
    lines = [(0, [*words, name], answer) for name, words, answer in ANSWERED]
    for status, words, out in [*lines, (1, ["--mode", "drill", "--size", "1", "128"], "drill 128: fail Size\n")]:
        for size in range(len(out) + 1):
            with tempfile.TemporaryFile("w+") as file:
                ended, _, err = run(program, words, stdout=file, restore_signals=False, preexec_fn=lambda: limited(size))
                file.seek(0)
                wanted = (status if size == len(out) else 5, out[:size], "")
                yield f"{size} bytes of {' '.join(words)}", (ended, file.read(), err) == wanted


def untold(program):
    for words, given, left in UNTOLD:
        with open("/dev/full", "w") as full:
            yield f"{' '.join(words)} untold", run(program, words, input=given, stderr=full)[:2] == left


def tests(program):
    for part in (tables, drilled, command_lines, limits, cut_off, unread, slow, unwritten, untold):
        yield from part(program)
    yield from readings.tests(run, program)
    yield from questions.tests(run, program)
    yield from by_example.tests(run, program)
    yield from replies.tests(program)
    yield from proofs.tests(run, program)
