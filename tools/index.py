#!/usr/bin/env python3
"""Orders crates.txt, and writes the index of crates in docs/ARCHITECTURE.md, between its two marker lines.

    tools/index.py [--check]

Within an area of crates.txt each crate is put after those that it depends on. The index has a row for each layer, area and
crate, in that order: the crate's name, the first sentence of its root file, and the files of its specs/. Crates of tests share
one row in each area. With --check nothing is written. The status is 1 where a crate depends on one of a layer above, where a
checker of proofs stands on a solver, or, with --check, where the order or the index isn't that of the crates as they are.
"""
import argparse
import pathlib
import re
import sys

TOP = pathlib.Path(__file__).resolve().parent.parent
PAGE, CRATES = TOP / "docs" / "ARCHITECTURE.md", TOP / "crates.txt"
CHECKERS, SOLVERS = ("sy_verify_proofs",), re.compile("sy_cdcl|sy_simplex|sy_intsolve")
BEGIN, END = "<!-- index of crates, by tools/index.py -->", "<!-- end of the index -->"


def name_of(line):
    """The crate of a line of crates.txt, if it has one."""
    return line.split(":")[0].split()[0] if ":" in line and not line.startswith("#") else None


def ordered(lines):
    """The lines of an area, each after those of the crates that it depends on."""
    rest, found = list(lines), []
    while rest:
        waiting = {name_of(line) for line in rest}
        line = next(line for line in rest if not waiting & set(line.split(":")[1].split()))
        rest.remove(line)
        found.append(line)
    return found


def sorted_crates(text):
    """The text of crates.txt in order."""
    done, area = [], []
    for line in [*text.splitlines(), ""]:
        if name_of(line):
            area.append(line)
        else:
            done += [*ordered(area), line]
            area = []
    return "\n".join(done)


def layers(text):
    """The layers of crates.txt with their areas, and these with the names of their crates, in order."""
    found = []
    for line in text.splitlines():
        if line.startswith("## "):
            found.append((line.removeprefix("## ").strip(), []))
        elif line.startswith("# ") and found:
            found[-1][1].append((line.removeprefix("# ").strip(), []))
        elif name_of(line):
            found[-1][1][-1][1].append(name_of(line))
    return found


def upside_down(text):
    """Which crates depend on which of a layer above."""
    place = {name: number for number, (_, areas) in enumerate(layers(text)) for _, names in areas for name in names}
    for line in filter(name_of, text.splitlines()):
        yield from ((name_of(line), below) for below in line.split(":")[1].split() if place.get(below, 0) > place[name_of(line)])


def solvers_below(text):
    """The crates of solvers that the checkers of proofs depend on, directly or not."""
    libraries = {name_of(line): line.split(":")[1].split() for line in filter(name_of, text.splitlines())}
    found, rest = set(), list(CHECKERS)
    while rest:
        more = set(libraries.get(rest.pop(), [])) - found
        found |= more
        rest += more
    return sorted(filter(SOLVERS.match, found))


def opening(name):
    """The first sentence of the comment at the head of a crate's root file."""
    for root in ("lib.rt", "main.rt"):
        path = TOP / "crates" / name / "src" / root
        if path.is_file():
            break
    else:
        return ""
    words = []
    for line in path.read_text().splitlines():
        if not line.startswith("//"):
            break
        words.append(line.lstrip("/! ").strip())
    return re.split(r"(?<=\.) ", " ".join(words))[0]


def definitions(name):
    """The names of the files of a crate's specs/."""
    found = sorted(path.stem for path in (TOP / "crates" / name / "specs").glob("*.antt"))
    return ", ".join(f"`{stem}`" for stem in found if stem != "Lib")


def linked(name):
    """The crate's name, with a link where it has a README."""
    return f"[`{name}`](../crates/{name}/README.md)" if (TOP / "crates" / name / "README.md").is_file() else f"`{name}`"


def rows(text):
    for number, (layer, areas) in enumerate(layers(text), 1):
        title, _, about = layer.partition(": ")
        yield f"| **{number}. {title}** | {about} | |"
        for area, names in areas:
            yield f"| *{area}* | | |"
            for name in names:
                if not name.endswith("_tests"):
                    yield f"| {linked(name)} | {opening(name)} | {definitions(name)} |"
            tests = [f"`{name}`" for name in names if name.endswith("_tests")]
            if tests:
                yield f"| {', '.join(tests)} | Tests. | |"


def indexed(page, crates):
    """The page with the index of these crates."""
    before, rest = page.split(BEGIN)
    after = rest.split(END)[1]
    table = "\n".join(["| Crate | What it has | Its definitions |", "|---|---|---|", *rows(crates)])
    return f"{before}{BEGIN}\n\n{table}\n\n{END}{after}"


def main():
    options = argparse.ArgumentParser(description=__doc__, formatter_class=argparse.RawDescriptionHelpFormatter)
    options.add_argument("--check", action="store_true")
    options = options.parse_args()
    crates = sorted_crates(CRATES.read_text())
    wrong = list(upside_down(crates))
    for name, below in wrong:
        print(f"crates.txt: {name} depends on {below}, of a layer above")
    for name in solvers_below(crates):
        print(f"crates.txt: a checker of proofs stands on {name}, of a solver")
        wrong.append(name)
    for path, made in [(CRATES, crates), (PAGE, indexed(PAGE.read_text(), crates))]:
        if made != path.read_text():
            if options.check:
                print(f"{path.relative_to(TOP)}: the order or the index isn't current; run tools/index.py")
                wrong.append(path)
            else:
                path.write_text(made)
    return 1 if wrong else 0


if __name__ == "__main__":
    sys.exit(main())
