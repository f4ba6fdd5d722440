#!/usr/bin/env python3
"""Counts what the clause-learning solver does on formulas in the DIMACS form, which the proved program doesn't tell.

    bench/propagations.py FILE [FILE ..]

It makes a copy of `sy_cdcl`, and of what it stands on, as Rust: contracts are taken out, a vector gets the methods that
Rattle's has, and three places count. rustc compiles it. For each file it prints the answer, the learned clauses, the
propagations (literals that became true and whose watch lists were visited, as minisat counts them) and the clauses that
were looked at. The search is the program's, so the learned clauses of a refutation are the same.
"""
import argparse
import os
import re
import subprocess
import sys
import tempfile

from runs import TOP

CRATES = os.path.join(TOP, "crates")
# the crates with their modules
PARTS = {
    "sy_seq": ["seq"],
    "sy_clauses": ["checker", "marks"],
    "sy_cdcl_literals": ["entries", "outcomes"],
    "sy_cdcl": ["analysis", "order", "propagation", "shortening", "solver", "store", "trail", "watches"],
}
# a line that stands once in the solver, and what is counted before it
COUNTED = {
    "let falsified = negated(entry.literal);": "PROPAGATIONS",
    "let Some(pair) = watches.pair(number) else {": "LOOKED_AT",
    "let taught = conclude(": "LEARNED",
}
HEAD = """#![allow(warnings)]
use std::sync::atomic::{AtomicU64, Ordering::Relaxed};
static PROPAGATIONS: AtomicU64 = AtomicU64::new(0);
static LOOKED_AT: AtomicU64 = AtomicU64::new(0);
static LEARNED: AtomicU64 = AtomicU64::new(0);
fn count(counter: &AtomicU64) { counter.store(counter.load(Relaxed) + 1, Relaxed) }

mod list {
    #[derive(Clone, Copy)]
    pub struct Global;
    #[derive(Debug)]
    pub struct AllocError;
    pub struct Vec<T>(std::vec::Vec<T>);
    impl<T> Vec<T> {
        pub fn new(_: Global) -> Self { Vec(std::vec::Vec::new()) }
        pub fn push(&mut self, item: T) -> Result<(), AllocError> { self.0.push(item); Ok(()) }
    }
    impl<T> std::ops::Deref for Vec<T> {
        type Target = std::vec::Vec<T>;
        fn deref(&self) -> &Self::Target { &self.0 }
    }
    impl<T> std::ops::DerefMut for Vec<T> {
        fn deref_mut(&mut self) -> &mut Self::Target { &mut self.0 }
    }
    impl<'a, T> IntoIterator for &'a Vec<T> {
        type Item = &'a T;
        type IntoIter = std::slice::Iter<'a, T>;
        fn into_iter(self) -> Self::IntoIter { self.0.iter() }
    }
}
"""
MAIN = """
fn main() {
    let text = std::fs::read_to_string(std::env::args().nth(1).unwrap()).unwrap();
    let cnf = dimacs::read_formula(list::Global, &text).unwrap().unwrap();
    let answer = match sy_cdcl::solve(list::Global, &cnf, 2_000_000_000).unwrap() {
        sy_cdcl::Solved::Refuted(_) => "UNSAT",
        sy_cdcl::Solved::Model(_) => "SAT",
        sy_cdcl::Solved::Fuel(_) => "FUEL",
    };
    println!("{answer} {} {} {}", LEARNED.load(Relaxed), PROPAGATIONS.load(Relaxed), LOOKED_AT.load(Relaxed));
}
"""


def end_of_braces(text, start):
    """The place behind the brace that closes the one at a place."""
    depth = 0
    for place in range(start, len(text)):
        depth += {"{": 1, "}": -1}.get(text[place], 0)
        if depth == 0:
            return place + 1
    sys.exit("a brace isn't closed")


def without(text, pattern):
    """The text without each part that begins by the pattern, whose last character is a brace, and ends by its partner."""
    while found := re.search(pattern, text, re.MULTILINE):
        text = text[:found.start()] + text[end_of_braces(text, found.end() - 1):]
    return text


def as_rust(crate, module, inside):
    """A module of a crate as Rust, which is put inside the module of that name."""
    with open(os.path.join(CRATES, crate, "src", f"{module}.rt")) as file:
        text = re.sub(r"//.*", "", file.read())
    text = without(text, r"^impl(<X>)? Model for [^{]*\{")
    text = without(text, r"^\s*(requires|ensures)( \w+)? \{")
    text = re.sub(r"^\s*ghost .*;$", "", text, flags=re.MULTILINE)
    text = re.sub(r"#!?\[tactic\(.*\)\]", "", text)
    text = text.replace(", Drop)]", ")]").replace("#[derive(Drop)]", "").replace("<X: Drop>", "<X>")
    text = text.replace("use std::marker::Model;", "").replace("use std::alloc::", "use crate::list::")
    text = re.sub(r"\bcrate::(?!list)", f"crate::{inside}::", text)
    return re.sub(r"\buse (sy_\w+)::", r"use crate::\1::", text)


def source():
    """The solver with its counters, as one file."""
    parts = [HEAD]
    for crate, modules in PARTS.items():
        lines = re.sub(r"^mod \w+;$", "", as_rust(crate, "lib", crate), flags=re.MULTILINE)
        inner = "".join(f"pub mod {module} {{\nuse crate::list::Vec;\n{as_rust(crate, module, crate)}\n}}\n" for module in modules)
        parts.append(f"mod {crate} {{\n{lines}\n{inner}}}\n")
    parts.append(f"mod dimacs {{\n{as_rust('bench_parts', 'dimacs', 'dimacs')}\n}}\n{MAIN}")
    text = "".join(parts)
    for line, counter in COUNTED.items():
        if text.count(line) != 1:
            sys.exit(f"not once in the solver: {line}")
        text = text.replace(line, f"crate::count(&crate::{counter});\n{line}")
    return text


def build(folder):
    """The program that counts, made in the folder."""
    name = os.path.join(folder, "propagations")
    with open(name + ".rs", "w") as file:
        file.write(source())
    subprocess.run(["rustc", "-O", "--edition", "2021", "-o", name, name + ".rs"], check=True)
    return name


def counts(program, path):
    """The answer, and how many clauses were learned, propagations made, and clauses looked at."""
    words = subprocess.run([program, path], capture_output=True, text=True, check=True).stdout.split()
    return words[0], *map(int, words[1:])


def main():
    options = argparse.ArgumentParser(description=__doc__, formatter_class=argparse.RawDescriptionHelpFormatter)
    options.add_argument("files", metavar="FILE", nargs="+")
    files = options.parse_args().files
    print(f"{'file':16} {'answer':6} {'learned':>9} {'propagations':>12} {'looked at':>11}")
    with tempfile.TemporaryDirectory() as folder:
        program = build(folder)
        for path in files:
            answer, learned, propagations, looked_at = counts(program, path)
            print(f"{os.path.basename(path):16} {answer:6} {learned:9} {propagations:12} {looked_at:11}", flush=True)


if __name__ == "__main__":
    main()
