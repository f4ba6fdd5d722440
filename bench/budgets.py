#!/usr/bin/env python3
"""Runs two builds of `sygus` on problems, and says with how few rounds and points each still answers them.

    bench/budgets.py [--limit SECONDS] OLD NEW [FILE ..]

Without files it takes those of examples/, with its folders advice and gallery, and of bench/problems/. A file counts where
both answer it within so many processor seconds, 10 without --limit: by definitions, or that there are none. Then the least
`--rounds` and the least `--points` are sought with which the answer is the same; for the number of counterexamples that a
search stores is one less than the former, and the most tuples of a function are the latter. Files whose words have one of
these options are left out. Last stand the sums of both, in how many files each is less or equal by NEW, the files in
which it is greater, and those that one of them alone answers.

To see what the assignments do that are tried before a search, let `corner_model` of crates/sy_query answer nothing
in a clone, which its contract allows, and take the program of that clone as OLD.
"""
import argparse
import os

from runs import answer, line_of, name_of, problems, run, text_of, words_of

# what the numbers are without the option
MOST = {"rounds": 256, "points": 512}


def is_answered(program, file, limit, *more):
    """Whether the program answers, with these words more: by definitions, or that there are none."""
    ended = run([program, *words_of(text_of(file)), *more, file], limit)
    return answer(ended) in ("definitions", "infeasible")


def least(program, file, limit, option, guess):
    """The least number for the option with which the file is answered; a good guess takes two runs."""
    fails, works = 0, MOST[option]
    place, step = guess, 1
    while works - fails > 1:
        if not fails < place < works:
            place = (fails + works) // 2
        if is_answered(program, file, limit, f"--{option}", str(place)):
            works, place = place, place - step
        else:
            fails, place = place, place + step
        step *= 2
    return works


def has_option(file):
    words = line_of(text_of(file), "words")
    return any(f"--{option}" in words for option in MOST)


def show_sums(option, pairs):
    """Prints the sums for an option, and the files in which it grows."""
    old, new = (sum(pair[place] for pair in pairs.values()) for place in (0, 1))
    more = [f"{name} {pair[0]} to {pair[1]}" for name, pair in pairs.items() if pair[1] > pair[0]]
    less = sum(pair[1] < pair[0] for pair in pairs.values())
    equal = len(pairs) - len(more) - less
    print(f"\n{option}: {old}, then {new}; less in {less} files, equal in {equal}, greater in {len(more)}: {', '.join(more)}")


def main():
    options = argparse.ArgumentParser(description=__doc__, formatter_class=argparse.RawDescriptionHelpFormatter)
    options.add_argument("--limit", metavar="SECONDS", type=int, default=10)
    options.add_argument("old", metavar="OLD")
    options.add_argument("new", metavar="NEW")
    options.add_argument("files", metavar="FILE", nargs="*")
    options = options.parse_args()
    programs = [os.path.abspath(options.old), os.path.abspath(options.new)]
    print("| File | rounds | by the new one | points | by the new one |\n|---|---|---|---|---|")
    found = {option: {} for option in MOST}
    alone = []
    for file in problems(options.files):
        if has_option(file):
            continue
        name = name_of(file)
        answered = [is_answered(program, file, options.limit) for program in programs]
        if not all(answered):
            alone += [f"{name} by {which}" for which, yes in zip(("OLD", "NEW"), answered) if yes]
            continue
        cells = [name]
        guess = 2
        for option, pairs in found.items():
            pair = []
            for program in programs:
                guess = least(program, file, options.limit, option, guess)
                pair.append(guess)
            pairs[name] = pair
            cells += map(str, pair)
            guess = max(pair[0] - 1, 1)
        print("| " + " | ".join(cells) + " |", flush=True)
    for option, pairs in found.items():
        show_sums(option, pairs)
    print(f"\nanswered by one alone: {', '.join(alone) or 'none'}")


if __name__ == "__main__":
    main()
