#!/usr/bin/env python3
"""Measures proofs: their bytes, the time of modes `solve` and `recheck`, and what checkers of others say of each.

    bench/proof_sizes.py [--sygus PROGRAM] [--limit SECONDS] [--table] [FILE ..]

Each file is answered with and without `--proofs`, and the answers of definitions are checked again by mode `recheck`;
over integers by tools/recheck too, over bit vectors by tools/lrat and a checker of LRAT, as tools/tests has it. Without
files these are all problems of the repository, and without --sygus the program is built by ./sygus. A run has at most so
many processor seconds, 20 where --limit is left out. Sums are printed, with --table a line for each file before. The
status is 1 where a proof that fits into an input isn't accepted by all.
"""
import argparse
import os
import statistics
import sys
import tempfile

from runs import TOP, answer, name_of, problems, run, sygus, text_of, words_of

LONGEST = 4_194_304
TOOLS = os.path.join(TOP, "tools")


def outside(logic, program, path, folder, limit):
    """Whether a checker without a line of the program accepts the proofs of a file, and the seconds that it takes."""
    os.environ["SYGUS"] = program
    if logic == "integers":
        checked = run([f"{TOOLS}/recheck", path], limit)
        return checked.status == 0, checked.seconds
    written = run([f"{TOOLS}/lrat", path, folder], limit)
    seconds, accepted = written.seconds, written.status == 0
    for cnf in sorted(name for name in os.listdir(folder) if name.endswith(".cnf")):
        stem = f"{folder}/{cnf.removesuffix('.cnf')}"
        checked = run([sys.executable, f"{TOOLS}/tests/lrat_check.py", f"{stem}.cnf", f"{stem}.lrat"], limit)
        seconds, accepted = seconds + checked.seconds, accepted and checked.status == 0
    return accepted, seconds


def measure(program, file, limit):
    """A row: the logic, the bytes of proofs, the seconds of each run, and who doesn't accept. None where there are none."""
    text = text_of(file)
    words = words_of(text)
    if "--mode" in words:
        return None
    plain = run([program, *words, file], limit)
    if answer(plain) != "definitions":
        return None
    shown = run([program, "--proofs", *words, file], limit)
    logic = "integers" if "(set-logic LIA)" in text else "bit vectors"
    size = len(shown.output) - len(plain.output)
    row = {"logic": logic, "bytes": size, "solve": plain.seconds, "proofs": shown.seconds, "refused": []}
    with tempfile.TemporaryDirectory() as folder:
        path = f"{folder}/both.sl"
        with open(path, "w") as both:
            both.write(text + shown.output)
        if os.path.getsize(path) > LONGEST:
            return {**row, "refused": ["too long"]}
        again = run([program, "--mode", "recheck", *words, path], limit)
        row["recheck"] = again.seconds
        if again.status != 0:
            row["refused"].append("recheck")
        accepted, row["outside"] = outside(logic, program, path, folder, 10 * limit)
        if not accepted:
            row["refused"].append("outside")
    return row


def told(rows):
    """The sums of each logic."""
    heads = ["Over", "files", "bytes, median", "greatest", "`solve` s", "with `--proofs`", "`recheck` s", "outside s"]
    print(f"| {' | '.join(heads)} | not accepted |")
    print("|---|---|---|---|---|---|---|---|---|")
    for logic in ["integers", "bit vectors"]:
        of = [row for row in rows if row["logic"] == logic]
        if not of:
            continue
        sizes = [row["bytes"] for row in of]
        times = [sum(row.get(part, 0) for row in of) for part in ["solve", "proofs", "recheck", "outside"]]
        refused = sum(bool(row["refused"]) for row in of)
        seconds = " | ".join(f"{time:.2f}" for time in times)
        print(f"| {logic} | {len(of)} | {statistics.median(sizes):,.0f} | {max(sizes):,} | {seconds} | {refused} |")


def main():
    options = argparse.ArgumentParser(description=__doc__, formatter_class=argparse.RawDescriptionHelpFormatter)
    options.add_argument("--sygus", metavar="PROGRAM")
    options.add_argument("--limit", metavar="SECONDS", type=float, default=20)
    options.add_argument("--table", action="store_true")
    options.add_argument("files", metavar="FILE", nargs="*")
    options = options.parse_args()
    program = os.path.abspath(sygus(options.sygus))
    rows = []
    for file in problems(options.files):
        row = measure(program, file, options.limit)
        if row is None:
            continue
        rows.append(row)
        if options.table:
            seconds = " | ".join(f"{row.get(part, 0):.3f}" for part in ["solve", "proofs", "recheck", "outside"])
            print(f"| {name_of(file)} | {row['bytes']:,} | {seconds} | {', '.join(row['refused'])} |", flush=True)
    told(rows)
    return 1 if any(set(row["refused"]) - {"too long"} for row in rows) else 0


if __name__ == "__main__":
    sys.exit(main())
