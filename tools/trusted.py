#!/usr/bin/env python3
"""Writes the trusted definitions into docs/HOW_IT_WORKS.md, between its two marker lines.

    tools/trusted.py [--check]

These are the files of specs/ that the contract of `run` reaches by its imports, directly or not, and the files of src/ in which
the types stand of which these definitions speak. What is proved of the program is as good as they are. With --check nothing is
written, and the status is 1 where the list isn't that of the definitions as they are.
"""
import argparse
import pathlib
import re
import sys

import index

TOP = pathlib.Path(__file__).resolve().parent.parent
PAGE = TOP / "docs" / "HOW_IT_WORKS.md"
ROOT = TOP / "crates" / "sygus_run" / "src" / "program.rt"
BEGIN, END = "<!-- trusted definitions, by tools/trusted.py -->", "<!-- end of the trusted definitions -->"
IMPORT = re.compile(r"^\s*(?:pub )?(?:ghost )?use Rattle\.(\w+)\.specs\.([\w.·-]+)", re.M)


def definition(crate, name):
    """The file of a crate's definitions of that name, which it may have of another crate."""
    path = TOP / "crates" / crate / "specs" / f"{name}.antt"
    if path.is_file():
        return path
    passed_on = re.search(rf"^pub use Rattle\.(\w+)\.specs\.{name}\b", path.with_name("Lib.antt").read_text(), re.M)
    return definition(passed_on[1], name)


def declaration(crate, parts):
    """The file of a crate's source in which the type of that path stands."""
    folder = TOP / "crates" / crate / "src"
    found = [folder / f"{'/'.join(parts[:end])}.rt" for end in range(len(parts), 0, -1)]
    return next((path for path in found if path.is_file()), folder / "lib.rt")


def named(path):
    """The files that a file imports: definitions of specs/, and modules of src/ whose types it names."""
    for crate, rest in IMPORT.findall(path.read_text()):
        if (TOP / "crates" / crate).is_dir():
            first, *parts = rest.rstrip(".").split(".")
            yield declaration(crate, parts) if first in ("declared", "contracts") else definition(crate, first)


def reached():
    """All files that the root reaches by imports of definitions."""
    found, open_ones = set(), [ROOT]
    while open_ones:
        for path in named(open_ones.pop()):
            if path not in found:
                found.add(path)
                # of a module of src/ the types are meant, not what its functions promise
                if path.suffix == ".antt":
                    open_ones.append(path)
    return found


def files(found, crate, part):
    folder = TOP / "crates" / crate / part
    names = sorted(path.relative_to(folder).with_suffix("").as_posix() for path in found if folder in path.parents)
    return ", ".join(f"`{name}`" for name in names)


def lines():
    """The list, layer by layer."""
    found = reached()
    definitions = [path for path in found if path.suffix == ".antt"]
    length = sum(1 for path in definitions for line in path.read_text().splitlines() if line.strip())
    yield f"{len(definitions)} files of definitions with {length:,} lines, and the types of {len(found) - len(definitions)} files."
    yield ""
    yield "| Crate | Definitions, in `specs/` | Types, in `src/` |"
    yield "|---|---|---|"
    for layer, areas in index.layers(index.CRATES.read_text()):
        yield f"| **{layer.partition(':')[0]}** | | |"
        for crate in (name for _, names in areas for name in names):
            cells = files(found, crate, "specs"), files(found, crate, "src")
            if any(cells):
                yield f"| `{crate}` | {cells[0]} | {cells[1]} |"


def main():
    options = argparse.ArgumentParser(description=__doc__, formatter_class=argparse.RawDescriptionHelpFormatter)
    options.add_argument("--check", action="store_true")
    options = options.parse_args()
    page = PAGE.read_text()
    before, rest = page.split(BEGIN)
    after = rest.split(END)[1]
    made = "\n".join([f"{before}{BEGIN}", "", *lines(), "", f"{END}{after}"])
    if made == page:
        return 0
    if options.check:
        print("docs/HOW_IT_WORKS.md: the trusted definitions aren't current; run tools/trusted.py")
        return 1
    PAGE.write_text(made)
    return 0


if __name__ == "__main__":
    sys.exit(main())
