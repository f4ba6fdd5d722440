# shellcheck shell=sh
# Read by ./sygus, which sets `top`, the repository's folder: what `./sygus --help` and `./sygus --version` print.

help() {
    cat <<'END'
usage: ./sygus [OPTIONS] FILE
       ./sygus --preview [OPTIONS] FILE ..
       ./sygus --help | --version

Reads a file of the SyGuS Language Standard 2.1 in the logic BV or LIA, and answers each check-synth in it by definitions that
are proved to meet all constraints, by `infeasible`, or by `fail`. FILE `-` is standard input. The first call proves and builds
the program. --preview runs it before that, unproved, in some three minutes.

  --mode MODE   solve (default); least: solutions of the least size; check: the replies behind the problems in FILE are judged;
                recheck: so they are, by the proof behind each; clauses: the clauses are written that have a model where a
                reply is wrong; drill: FILE is a number from 0 to 999999999
  --size N      from 1 to 64, default 12: the sum of the solution's sizes, or the size of each part of a decision tree
  --rounds N    from 1 to 1024, default 256: counterexamples
  --points N    from 1 to 1024, default 512: example inputs (tuples of arguments) of a function
  --bank N      from 1 to 40000, default 20000: enumerated terms that are kept for a function
  --weight N    from 1 to 1000000, default 400000: the weight of a query
  --clauses N   from 1 to 400000, default 100000: learned clauses of a query over bit vectors
  --nodes N     from 1 to 8000, default 4000: cases of a query over integers
  --pivots N    from 1 to 100000, default 10000: steps of the simplex method in one case
  --proofs      behind each solution its proof, a line that mode recheck accepts (mode solve alone)

Status: 0 all is answered, by definitions or `infeasible`; 1 some answer is `fail`; 2 the file is refused; 3 the command line is
refused; 4 a read failed; 5 a write failed; 6 out of memory; 7 the replies are refused (where replies are judged); 70 the program
couldn't be built.

Manual: docs/USAGE.md (how to write a problem, what to do about each answer), docs/PROFILE.md (the language),
docs/HOW_IT_WORKS.md (the method), man docs/sygus.1
END
}

version() {
    commit=$(git -C "$top" describe --always --dirty=', changed since' --abbrev=12 2>/dev/null) || commit=unknown
    echo "sygus, commit $commit"
    rt version 2>/dev/null || echo "no rt on the path"
}
