#!/usr/bin/env bash
# Times the reading of four large inputs: 4 MiB of atoms, of one symbol in bars and of comments, and 1,200 nested lists.
# `sygus` reads each whole and refuses it at its first command, or, where nothing but comments stands there, answers
# nothing. cvc5, where it is installed, only parses a file of the same size that it accepts. The least time of five runs
# is printed.
. "$(dirname "$0")/measure.sh"
./sygus - </dev/null
python3 - "$scratch" <<'PY'
import sys
folder, size = sys.argv[1], 4 << 20
def write(name, text):
    open(f"{folder}/{name}", "w").write(text[:size])
write("atoms", "(" + "ab " * ((size - 2) // 3) + ")")
write("bars", "|" + "a" * (size - 2) + "|")
write("comments", "; a comment of some words\n" * (size // 26))
write("nested", "(" * 1200 + ")" * 1200)
head = "(set-logic LIA)\n"
atoms = head + "(set-info :a \"" + "ab " * ((size - 40) // 3) + "\")\n"
write("atoms.cvc5", atoms)
write("bars.cvc5", head + "(declare-var |" + "a" * (size - 50) + "| Int)\n")
write("comments.cvc5", head + "; a comment of some words\n" * (size // 26 - 1))
write("nested.cvc5", head + "(constraint " + "(not " * 1190 + "true" + ")" * 1190 + ")\n")
PY
quietly() {
    "$@" >/dev/null 2>&1 || true
}
for name in atoms bars comments nested; do
    printf '%s: sygus%s s\n' "$name" "$(measure quietly crates/sygus/out/sygus "$scratch/$name")"
    if command -v cvc5 >/dev/null; then
        printf '%s: cvc5%s s\n' "$name" "$(measure quietly cvc5 --parse-only --lang=sygus2 "$scratch/$name.cvc5")"
    fi
done
