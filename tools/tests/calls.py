"""Tests of tools/sygus_client.py, tools/many and tools/portfolio, with a stub in place of sygus.

Those of the last two run where GNU parallel is there.
"""
import csv
import json
import os
import pathlib
import re
import shutil
import signal
import subprocess
import sys
import tempfile
import textwrap
import threading
import time

TOP = pathlib.Path(__file__).resolve().parent.parent.parent
TOOLS = TOP / "tools"
sys.path.insert(0, str(TOOLS))
import sygus_client

# Comments of a problem say what the stub does: `; sleep S`, `; ends N`, `; needs OPTION N`, without which it fails by
# that limit, `; two`, that it answers once before, `; infeasible`, `; refused`.
STUB = r"""#!/usr/bin/env python3
import os, re, sys, time
words = [word for word in sys.argv[1:] if word != "--"]
text = (sys.stdin if words[-1] == "-" else open(words[-1])).read()
given = dict(zip(words[:-1:2], words[1:-1:2]))
if not set(given) <= {f"--{name}" for name in "size bank clauses nodes pivots weight rounds points mode".split()}:
    sys.exit(print("refused: words", file=sys.stderr) or 3)
if "; refused" in text:
    sys.exit(print("refused: command 1 line 1 column 1 cause 8 UnknownName", file=sys.stderr) or 2)
if not text:
    sys.exit(0)
if "; two" in text:
    print("(\n(define-fun g () Int 1)\n)", flush=True)
for seconds in re.findall(r"^; sleep (\S+)", text, re.M):
    open(os.environ.get("SLEEPS", os.devnull), "w").close()
    time.sleep(float(seconds))
for status in re.findall(r"^; ends (\d+)", text, re.M):
    sys.exit(int(status))
for option, least in re.findall(r"^; needs (\w+) (\w+)", text, re.M):
    value = given.get(f"--{option}", "0")
    if value != least and not (least.isdigit() and int(value) >= int(least)):
        print(f"fail: check-synth {2 if '; two' in text else 1} {option.capitalize()}", file=sys.stderr)
        sys.exit(print("fail") or 1)
print("infeasible" if "; infeasible" in text else "(\n(define-fun f ((x Int)) Int (+ x 1))\n)")
"""
# Stands for ssh: it runs the words in the folder of the host, and in none where that isn't there.
SSH = """#!/bin/sh
cd "$HOSTS/$1" || exit 255
shift
[ "$1" != -- ] || shift
HOME=$PWD exec sh -c "$*"
"""
FOUND = "(\n(define-fun f ((x Int)) Int (+ x 1))\n)\n"
# Problems by their names, with the status and what came of each in eight seconds.
PROBLEMS = {
    "a.sl": ("(check-synth)\n", "0", "definitions"),
    "b c/d 'e\".sl": ("; needs size 20\n", "1", "fail Size"),
    "b c/f.sl": ("; refused\n", "2", "refused UnknownName"),
    "g.sl": ("; infeasible\n", "0", "infeasible"),
    "h.sl": ("; ends 6\n", "6", "out of memory"),
    "i.sl": ("; two\n; needs bank 30000\n", "1", "definitions, fail Bank"),
    "j.sl": ("; sleep 30\n", "124", "the time was up"),
    "k.sl": ("; ends 139\n", "139", "ended by signal 11"),
}
# The error output of a run, and what is read of it.
REFUSALS = [
    ("refused: command 4 line 6 column 23 cause 8 UnknownName\n", (4, 6, 23, 8, "UnknownName", "")),
    ("refused: command 1 line 1 column 1 cause 1 Text Unclosed\n", (1, 1, 1, 1, "Text", "Unclosed")),
    ("refused: input longer than 4194304 bytes\n", (0, 0, 0, 0, "", "")),
]


class Room:
    """A folder with the stub and the problems."""

    def __init__(self, folder):
        self.folder, self.stub, self.scratch = folder, folder / "stub", folder / "scratch"
        self.scratch.mkdir()
        self.stub.write_text(STUB)
        self.stub.chmod(0o755)
        self.sleeps = folder / "sleeps"
        own = {"SYGUS": self.stub, "TMPDIR": self.scratch, "SLEEPS": self.sleeps}
        self.words = {**os.environ, **{name: str(path) for name, path in own.items()}}
        for name, (text, _, _) in PROBLEMS.items():
            path = folder / "problems" / name
            path.parent.mkdir(parents=True, exist_ok=True)
            path.write_text(text)

    def run(self, name, *words, **streams):
        """The status of a script, its output and its error output."""
        kept = {"stdout": subprocess.PIPE, "stderr": subprocess.PIPE, "stdin": subprocess.DEVNULL}
        given = {**kept, **streams}
        ended = subprocess.run([TOOLS / name, *words], cwd=self.folder, env=self.words, text=True, **given)
        return ended.returncode, ended.stdout, ended.stderr

    def interrupted(self, number, is_time, name, *words):
        """The status of a script that Ctrl-C in a terminal or a signal ends when it is time, and what it printed."""
        self.sleeps.unlink(missing_ok=True)
        streams = {"stdin": subprocess.DEVNULL, "stdout": subprocess.PIPE, "stderr": subprocess.PIPE, "text": True}
        own = {"start_new_session": True, "preexec_fn": lambda: signal.signal(signal.SIGINT, signal.SIG_DFL)}
        begun = subprocess.Popen([TOOLS / name, *words], cwd=self.folder, env=self.words, **streams, **own)
        end = time.monotonic() + 60
        while not is_time() and time.monotonic() < end:
            time.sleep(0.05)
        (os.killpg if number == signal.SIGINT else os.kill)(begun.pid, number)
        out, err = begun.communicate()
        return begun.returncode, out, err

    def is_asleep(self):
        """Whether a run of the stub sleeps."""
        return self.sleeps.exists()

    def logged(self, folder):
        """The lines of a job log."""
        path = self.folder / folder / "joblog"
        return path.read_text().splitlines(keepends=True) if path.exists() else []

    def is_alone(self):
        """Whether no run of the stub goes on, in this folder or of a copy in it, and no folder was left."""
        for _ in range(200):
            lines = subprocess.run(["ps", "-eo", "args"], capture_output=True, text=True).stdout
            if (
                str(self.folder) not in lines.replace(str(pathlib.Path(__file__)), "")
                and "./sygus problems/" not in lines
            ):
                return not list(self.scratch.iterdir())
            time.sleep(0.05)
        return False


def texts():
    """What is read of outputs, whole and cut off after each byte."""
    output, errors = FOUND + "fail\n" + "infeasible\n", "fail: check-synth 2 Bank\n"
    answers = sygus_client.answers_of(output, errors)
    yield "client: kinds of answers", [it.word() for it in answers] == ["definitions", "fail Bank", "infeasible"]
    yield "client: texts of answers", "".join(it.text for it in answers) == output
    found = answers[0].definitions[0]
    yield "client: a definition", (found.name, found.arguments, found.sort, found.body) == (
        "f",
        [("x", "Int")],
        "Int",
        ["+", "x", "1"],
    )
    wholes = [len(sygus_client.answers_of(FOUND[:end] + " ")) for end in range(len(FOUND))]
    yield "client: an answer that is cut off", wholes == [0] * (len(FOUND) - 1) + [1]
    yield "client: names in bars", sygus_client.read_items('(|a ) b| "c "" (") ; )\n d') == [
        ["|a ) b|", '"c "" ("'],
        "d",
    ]
    for errors, wanted in REFUSALS:
        found = sygus_client.refusal_of(errors)
        yield f"client: {errors.strip()}", (
            found.command,
            found.line,
            found.column,
            found.number,
            found.cause,
            found.fault,
        ) == wanted
    yield "client: no refusal", sygus_client.refusal_of("fail: check-synth 1 Size\n") is None
    yield "client: the outcome of a check", sygus_client.outcome_of(
        1, "check-synth 1 holds\ncheck-synth 2 budget Weight\n", ""
    ) == "holds, budget Weight"
    yield "client: advice", [it[:3] for it in sygus_client.advice("Bank")[1:]] == ["1. ", "2. ", "3. "]


def calls(room):
    """`solve`, with a limit of time, cancelled, and where there is no program."""
    program = str(room.stub)
    result = sygus_client.solve("; needs size 20\n", program, size=20)
    yield "client: solves a text", (result.status, result.output, result.causes) == (0, FOUND, [])
    result = sygus_client.solve(room.folder / "problems" / "i.sl", program)
    yield "client: solves a file", (result.status, result.outcome, result.causes) == (
        1,
        "definitions, fail Bank",
        ["Bank"],
    )
    pieces = []
    result = sygus_client.solve("; two\n; sleep 30\n", program, time=5, on_output=pieces.append)
    yield "client: ends when the time is up", result.status == 124 and len(
        result.answers
    ) == 1 and 4 < result.seconds < 20
    yield "client: passes answers on", b"".join(pieces).decode() == result.output
    call = sygus_client.start("; sleep 30\n", program)
    threading.Timer(0.3, call.cancel).start()
    yield "client: is cancelled", call.result().status == 130
    call.cancel()
    yield "client: bounds processor time and memory", sygus_client.solve(
        "", program, processor_time=60, memory=1 << 40
    ).status == 0
    for words, fault in [({"program": "/no/such"}, sygus_client.Missing), ({"program": program, "sise": 3}, TypeError)]:
        try:
            sygus_client.solve("", **words)
            yield f"client: {fault.__name__}", False
        except fault:
            yield f"client: {fault.__name__}", True
    yield "client: leaves nothing", room.is_alone()


def command(room):
    """The client as a command."""
    status, out, err = room.run("sygus_client.py", "problems/i.sl")
    read = json.loads(out)
    yield "client: prints JSON", (status, read["outcome"], read["answers"][1]["cause"]) == (
        1,
        "definitions, fail Bank",
        "Bank",
    )
    yield "client: takes options", room.run("sygus_client.py", "problems/i.sl", "--", "--bank", "30000")[0] == 0
    yield "client: refuses words", room.run("sygus_client.py", "--time", "no", "a")[0] == 3
    yield "client: Ctrl-C", room.interrupted(signal.SIGINT, room.is_asleep, "sygus_client.py", "problems/j.sl")[
        ::2
    ] == (
        130,
        "",
    ) and room.is_alone()
    with open("/dev/full", "w") as full:
        status, _, err = room.run("sygus_client.py", "problems/a.sl", stdout=full)
    yield "client: a full disk", status == 5 and "Traceback" not in err and "No space" in err


def documented(room):
    """The scripts of docs/PYTHON.md run."""
    text = (TOP / "docs" / "PYTHON.md").read_text()
    first, folder = (textwrap.dedent(it) for it in re.findall(r"(?:^    .*\n|^\n)+", text, re.M) if "import" in it)
    (room.folder / "doc" / "problems").mkdir(parents=True)
    for name in ("a", "i"):
        shutil.copy(room.folder / "problems" / f"{name}.sl", room.folder / "doc" / "problems")
    words = {**room.words, "PYTHONPATH": str(TOOLS)}
    for script, wanted in [
        (first.partition("\nf [")[0], "f [('x', 'Int')] ['+', 'x', '1']\n"),
        (
            folder,
            "a.sl definitions (define-fun f ((x Int)) Int (+ x 1))\n"
            "i.sl definitions, fail Bank (define-fun g () Int 1)\n",
        ),
    ]:
        ended = subprocess.run(
            [sys.executable, "-c", script], cwd=room.folder / "doc", env=words, capture_output=True, text=True
        )
        yield f"docs/PYTHON.md: {wanted[:4]}", (ended.stdout, ended.stderr) == (wanted, "")


def many(room):
    """tools/many over the problems: the table, what it refuses, and calls that are interrupted."""
    status, out, err = room.run("many", "--timeout", "8", "problems", "problems/a.sl")
    with open(room.folder / "sygus-results" / "table.csv") as opened:
        rows = {row["file"]: row for row in csv.DictReader(opened)}
    wanted = {f"problems/{name}": (ends, outcome) for name, (_, ends, outcome) in PROBLEMS.items()}
    yield "many: the table as CSV", {name: (row["status"], row["outcome"]) for name, row in rows.items()} == wanted
    yield "many: answers", status == 1 and rows["problems/a.sl"]["answer"] == FOUND
    lines = out.splitlines()
    yield "many: the table as text", all(
        any(it.startswith(name) and outcome in it for it in lines) for name, (_, outcome) in wanted.items()
    )
    yield "many: advice", any(it.startswith("fail Bank: ") for it in lines) and "  2. --bank 40000 --size 20" in lines
    yield "many: is kept", (room.folder / "sygus-results" / "table.txt").read_text() == out
    before = (room.folder / "sygus-results" / "joblog").read_text()
    yield "many: takes no folder of an earlier call", room.run("many", "problems/a.sl")[0] == 3
    yield "many: repeats nothing", room.run("many", "--resume")[:2] == (1, out) and (
        room.folder / "sygus-results" / "joblog"
    ).read_text() == before
    yield "many: goes on with the same files", room.run("many", "--resume", "problems/a.sl")[0] == 3
    yield "many: options", room.run("many", "--results", "o", "problems/b c/d 'e\".sl", "--", "--size", "20")[0] == 0
    yield "many: refuses options", room.run("many", "--results", "n", "problems", "--", "--sise", "20")[0] == 3
    yield "many: misses a file", room.run("many", "--results", "n", "problems/none.sl")[0] == 4
    yield "many: a folder of others", room.run("many", "--results", ".", "problems/a.sl")[0] == 3
    yield "many: no files", room.run("many", "--results", "n")[0] == 3 and not (room.folder / "n").exists()
    status, _, err = room.run("many", "--results", "/proc/none", "problems/a.sl")
    yield "many: a folder that can't be written", status == 5 and "Traceback" not in err
    with open("/dev/full", "w") as full:
        status, _, err = room.run("many", "--results", "f", "problems/a.sl", stdout=full)
    yield "many: a full disk", status == 5 and "Traceback" not in err


def resumed(room):
    """tools/many is interrupted, its job log cut off, and it goes on."""
    words = ["--jobs", "2", "--results", "r", "problems"]
    status, out, err = room.interrupted(signal.SIGINT, lambda: len(room.logged("r")) > 3, "many", *words)
    done = room.logged("r")
    yield "many: Ctrl-C", (status, out) == (130, "") and "--resume" in err and room.is_alone()
    yield "many: Ctrl-C keeps what is done", len(done) > 3
    (room.folder / "r" / "joblog").write_text("".join(done)[:-9])
    status, out, err = room.interrupted(signal.SIGTERM, room.is_asleep, "many", "--resume", *words)
    yield "many: ends by SIGTERM", status == 143 and room.is_alone()
    status, out, err = room.run("many", "--resume", "--timeout", "8", *words)
    lines = out.splitlines()
    yield "many: goes on", status == 1 and all(any(it in line for line in lines) for _, _, it in PROBLEMS.values())
    again = room.logged("r")
    places = sorted(int(line.split("\t")[0]) for line in again[1:])
    yield "many: runs each once", again[: len(done) - 1] == done[:-1] and places == [*range(1, len(PROBLEMS) + 1)]


def unread(room):
    """`--resume` repeats a run whose file couldn't be read, as where a host lost it."""
    (room.folder / "unread.sl").write_text("; ends 4\n")
    first = room.run("many", "--results", "u", "unread.sl"), room.logged("u")
    again = room.run("many", "--results", "u", "--resume"), room.logged("u")
    yield "many: repeats what wasn't read", first[0][0] == again[0][0] == 1 and first[1] != again[1]


def hosts(room):
    """tools/many on two hosts, and where one of them can't be reached."""
    folder = room.folder / "hosts"
    for name in ("one", "two", "bin"):
        (folder / name).mkdir(parents=True)
    (folder / "bin" / "ssh").write_text(SSH)
    (folder / "bin" / "ssh").chmod(0o755)
    (folder / "list").write_text("1/one\n1/two\n1/three\n")
    room.words.update(HOSTS=str(folder), PATH=f"{folder}/bin:{os.environ['PATH']}")
    named = ["a.sl", "b c/d 'e\".sl", "b c/f.sl", "g.sl", "h.sl", "i.sl"]
    files = [f"problems/{name}" for name in named]
    status, out, err = room.run("many", "--hosts", "hosts/list", "--results", "h", *files)
    with open(room.folder / "h" / "table.csv") as opened:
        rows = list(csv.DictReader(opened))
    found = [(row["status"], row["outcome"]) for row in rows]
    yield "many: hosts", (status, found) == (1, [PROBLEMS[name][1:] for name in named])
    yield "many: both hosts", {row["host"] for row in rows} == {"one", "two"}
    yield "many: a host that isn't there", "many: three can't be reached, and is left out\n" in err
    yield "many: leaves nothing on a host", not [*(folder / "one").iterdir(), *(folder / "two").iterdir()]


def portfolio(room):
    """tools/portfolio: who answers, what is said where none does, and calls that are interrupted."""
    yield "portfolio: answers as the program", room.run("portfolio", "problems/a.sl") == (0, FOUND, "")
    status, out, err = room.run("portfolio", "--tell", "problems/b c/d 'e\".sl")
    yield "portfolio: answers by a larger limit", (status, out) == (0, FOUND) and err.startswith(
        "portfolio: "
    ) and "--size" in err
    yield "portfolio: infeasible", room.run("portfolio", "problems/g.sl") == (0, "infeasible\n", "")
    refused = "refused: command 1 line 1 column 1 cause 8 UnknownName\n"
    yield "portfolio: refused", room.run("portfolio", "problems/b c/f.sl") == (2, "", refused)
    status, out, err = room.run("portfolio", "problems/a.sl", "--", "--sise", "3")
    yield "portfolio: refused words", (status, out, err) == (3, "", "refused: words\n")
    status, out, err = room.run("portfolio", "problems/i.sl", "--", "--bank", "3")
    first, *others = err.splitlines()
    yield "portfolio: no setting answers", (status, out, first) == (
        1,
        "(\n(define-fun g () Int 1)\n)\nfail\n",
        "fail: check-synth 2 Bank",
    )
    yield "portfolio: says what each met", len(others) > 3 and all(
        it.startswith("portfolio: ") and "definitions, fail Bank" in it for it in others
    )
    status, out, err = room.run("portfolio", "--time", "8", "-", stdin=None, input="; two\n; sleep 30\n")
    yield "portfolio: the time is up", (status, out) == (
        124,
        "(\n(define-fun g () Int 1)\n)\n",
    ) and "not ended" in err and room.is_alone()
    os.mkfifo(room.folder / "pipe")
    threading.Thread(target=lambda: (room.folder / "pipe").write_text("; needs size 20\n")).start()
    yield "portfolio: a pipe", room.run("portfolio", "pipe") == (0, FOUND, "")
    yield "portfolio: refuses words", room.run("portfolio", "--time", "-1", "a")[0] == 3
    yield "portfolio: Ctrl-C", room.interrupted(signal.SIGINT, room.is_asleep, "portfolio", "problems/j.sl") == (
        130,
        "",
        "",
    ) and room.is_alone()
    with open("/dev/full", "w") as full:
        status, _, err = room.run("portfolio", "problems/a.sl", stdout=full)
    yield "portfolio: a full disk", status == 5 and "Traceback" not in err and room.is_alone()
    room.words["TMPDIR"] = "/proc"
    yield "portfolio: no folder to write in", "Traceback" not in room.run("portfolio", "problems/a.sl")[2]
    room.words["TMPDIR"] = str(room.scratch)


def without_parallel(room):
    """What is said where GNU parallel is missing."""
    path = room.folder / "path"
    path.mkdir()
    for name in ("python3", "env"):
        (path / name).symlink_to(shutil.which(name) if name == "env" else sys.executable)
    before = room.words["PATH"]
    room.words["PATH"] = str(path)
    for name, *words in [("many", "--results", "p", "problems/a.sl"), ("portfolio", "problems/a.sl")]:
        status, out, err = room.run(name, *words)
        yield f"{name}: without parallel", (status, out) == (70, "") and "apt-get install parallel" in err
    yield "many: without parallel no folder is left", not (room.folder / "p").exists()
    room.words["PATH"] = before


def tests():
    yield from texts()
    with tempfile.TemporaryDirectory() as folder:
        room = Room(pathlib.Path(folder))
        yield from calls(room)
        yield from command(room)
        yield from documented(room)
        yield from without_parallel(room)
        if shutil.which("parallel"):
            yield from many(room)
            yield from resumed(room)
            yield from unread(room)
            yield from portfolio(room)
            if shutil.which("rsync"):
                yield from hosts(room)
