#!/usr/bin/env python3
"""Draws what bench/answers.py measured: how many files sygus and cvc5 answer over time, and the times of both beside
each other.

    bench/plot.py [--anew] [--table FILE] [--folder FOLDER] [WORDS ..]

It reads the table that answers.py printed, bench/plots/answers.md without --table, and writes answered.svg and
beside.svg into bench/plots/, or FOLDER. With --anew it runs answers.py before, with the WORDS, and puts what that
prints into the table's file:

    bench/plot.py --anew -- --limit 5 --cvc5 times.json

A file is of the kind `invariants` where it has an inv-constraint, `examples` where it declares no variable, else of its
logic; those whose comment says that no definitions are wanted aren't drawn. A time that the table rounds to 0 is drawn
as 0.01. It takes gnuplot (apt-get install gnuplot-nox).
"""
import pathlib
import re
import shutil
import subprocess
import sys

from runs import TOP, line_of, name_of, problems, text_of

sys.path.insert(0, f"{TOP}/tools")
from sygus_client import Missing, Parser, as_command, say

PLOTS = pathlib.Path(TOP) / "bench" / "plots"
KINDS = ["bit vectors", "integers", "invariants", "examples"]
LEAST = 0.01
ROW = re.compile(r"^\| (\S+) +\| (.*?) +\| +(\S+) \| +(\S+) \|.*\|$")
SOLVERS = {"sygus": ("#1f5fa8", 7), "cvc5": ("#d1651f", 5)}
COLOURS = ["#1f5fa8", "#d1651f", "#2e8b57", "#8b2e6b"]
HEAD = """set terminal svg size {width},{height} font "sans-serif,12" background "white"
set output "{file}"
set grid lc rgb "#dddddd"
set format x "%g"
set border lc rgb "#444444"
"""


class Row:
    """A problem: its kind, and the seconds of both solvers, None where one gives no definitions."""

    def __init__(self, name, kind, ours, theirs):
        self.name, self.kind, self.ours, self.theirs = name, kind, ours, theirs


def kind_of(text):
    if "(inv-constraint " in text:
        return "invariants"
    if "(declare-var " not in text:
        return "examples"
    return "integers" if "(set-logic LIA)" in text else "bit vectors"


def seconds(cell):
    return None if cell == "-" else max(float(cell), LEAST)


def rows_of(table, texts):
    """The rows of a table that one of the solvers answers, by the texts of problems by name."""
    rows = []
    for line in table.splitlines():
        found = ROW.match(line)
        if found and found[1] in texts:
            ours = seconds(found[3]) if found[2] == "definitions" else None
            rows.append(Row(found[1], kind_of(texts[found[1]]), ours, seconds(found[4])))
    return [row for row in rows if row.ours is not None or row.theirs is not None]


def limit_of(rows):
    """A time behind which nothing is answered, as an edge of the pictures."""
    return 1.3 * max(time for row in rows for time in (row.ours, row.theirs) if time is not None)


def block(name, lines):
    return "\n".join([f"${name} << END", *lines, "END"])


def steps(times, limit):
    """How many files are answered by each time, as points of a line with steps."""
    times = sorted(time for time in times if time is not None)
    points = [f"{LEAST} 0", *(f"{time} {count}" for count, time in enumerate(times, 1))]
    return [*points, f"{limit} {len(times)}"]


def answered(rows, file):
    """The commands that draw how many files are answered over time, a picture for each kind."""
    limit = limit_of(rows)
    lines = [
        HEAD.format(width=900, height=680, file=file),
        "set multiplot layout 2,2",
        "set logscale x",
        f"set xrange [{LEAST}:{limit}]",
    ]
    lines += ['set key bottom right', 'set xlabel "seconds"', 'set ylabel "files answered"', "set yrange [0:*]"]
    for place, kind in enumerate(KINDS):
        chosen = [row for row in rows if row.kind == kind]
        lines += [
            block(f"sygus{place}", steps([row.ours for row in chosen], limit)),
            block(f"cvc5{place}", steps([row.theirs for row in chosen], limit)),
        ]
        parts = [
            f'${solver}{place} using 1:2 with steps lw 2 lc rgb "{colour}" title "{solver}"'
            for solver, (colour, _) in SOLVERS.items()
        ]
        lines += [f'set title "{kind}: {len(chosen)} files"', "plot " + ", ".join(parts)]
    return "\n".join([*lines, "unset multiplot", ""])


def beside(rows, file):
    """The commands that draw each file at the times of both, at the edge where one has none."""
    limit = limit_of(rows)
    lines = [
        HEAD.format(width=760, height=680, file=file),
        "set logscale xy",
        f"set xrange [{0.8 * LEAST}:{1.5 * limit}]",
    ]
    lines += [
        f"set yrange [{0.8 * LEAST}:{1.5 * limit}]",
        'set format y "%g"',
        'set xlabel "seconds of cvc5"',
        'set ylabel "seconds of sygus"',
        "set key outside top center horizontal",
    ]
    lines += [
        f'set arrow from {limit},{0.8 * LEAST} to {limit},{1.5 * limit} nohead dt 3 lc rgb "#888888"',
        f'set arrow from {0.8 * LEAST},{limit} to {1.5 * limit},{limit} nohead dt 3 lc rgb "#888888"',
    ]
    lines += [
        f'set label "cvc5 gives no answer" at {1.38 * limit},{1.2 * LEAST} rotate by 90 tc rgb "#666666"',
        f'set label "sygus gives no answer" at {1.2 * LEAST},{1.38 * limit} tc rgb "#666666"',
    ]
    parts = ['x with lines lc rgb "#aaaaaa" title "equal"']
    for place, kind in enumerate(KINDS):
        points = [f"{row.theirs or 1.2 * limit} {row.ours or 1.2 * limit}" for row in rows if row.kind == kind]
        if points:
            lines.append(block(f"kind{place}", points))
            parts.append(
                f'$kind{place} using 1:2 with points pt {place * 2 + 5} ps 0.6 lc rgb "{COLOURS[place]}" title "{kind}"'
            )
    return "\n".join([*lines, "plot " + ", ".join(parts), ""])


def draw(script):
    ended = subprocess.run(["gnuplot"], input=script, capture_output=True, text=True)
    if ended.returncode:
        say(f"plot.py: gnuplot: {ended.stderr.strip()}")
    return ended.returncode


def measure(words, table):
    """Runs answers.py, and puts what it prints into the table's file."""
    table.parent.mkdir(parents=True, exist_ok=True)
    with open(table, "w") as opened:
        ended = subprocess.run([sys.executable, f"{TOP}/bench/answers.py", *words], stdout=opened)
    if ended.returncode:
        say(f"plot.py: answers.py ended with status {ended.returncode}")
    return ended.returncode


def main():
    parser = Parser(__doc__, prog="plot.py", usage="plot.py [--anew] [--table FILE] [--folder FOLDER] [WORDS ..]")
    parser.add_argument("--anew", action="store_true")
    parser.add_argument("--table", type=pathlib.Path, default=PLOTS / "answers.md")
    parser.add_argument("--folder", type=pathlib.Path, default=PLOTS)
    parser.add_argument("words", nargs="*")
    given = parser.parse_args()
    if not shutil.which("gnuplot"):
        raise Missing("gnuplot isn't installed: apt-get install gnuplot-nox")
    if given.anew and measure(given.words, given.table):
        return 1
    if not given.table.is_file():
        say(f"plot.py: {given.table}: there is no table; --anew measures one")
        return 2
    texts = {name_of(file): text_of(file) for file in reversed(problems([]))}
    rows = rows_of(given.table.read_text(), {name: text for name, text in texts.items() if not line_of(text, "answer")})
    if not rows:
        say(f"plot.py: {given.table}: there is no row of a problem that was answered")
        return 2
    given.folder.mkdir(parents=True, exist_ok=True)
    drawn = [draw(answered(rows, given.folder / "answered.svg")), draw(beside(rows, given.folder / "beside.svg"))]
    return 1 if any(drawn) else 0


if __name__ == "__main__":
    as_command(main)
