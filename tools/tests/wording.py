"""Tests that the documents use the field's words: none of them has a word that such a word replaced.

`python3 tools/tests/wording.py` prints each place. What is between code marks, as what the program prints, isn't counted.
"""
import pathlib
import re

TOP = pathlib.Path(__file__).resolve().parent.parent.parent
# Words that we used, each with what to write instead.
REPLACED = [
    (r"want of memory", "out of memory, memory ran out"),
    (r"written anew", "rewritten, normalised"),
    (r"the middle of (?:the |their |all )?(?:times|seconds|figures)|middle times?", "median"),
    (r"dear(?:er|est|ly)?", "expensive, costs more"),
    (r"st(?:ands?|anding|ood) in", "is in, is given in"),
]
CODE = re.compile(r"```.*?```|`[^`]*`", re.S)


def pages():
    """README, docs/, and the READMEs of bench/, of examples/ and of crates."""
    found = [TOP / "README.md", *TOP.glob("docs/*.md"), *TOP.glob("bench/README.md"), *TOP.glob("*/*/README.md")]
    return sorted(page for page in found if page.is_file())


def places(text):
    """Where a text has a replaced word: the line, the word, and what to write instead."""
    prose = CODE.sub(lambda code: re.sub(r"[^\n]", " ", code[0]), text)
    for word, instead in REPLACED:
        for found in re.finditer(rf"\b(?:{word})\b".replace(" ", r"\s+"), prose, re.I):
            yield prose.count("\n", 0, found.start()) + 1, " ".join(found[0].split()), instead


def tests():
    for page in pages():
        yield f"words of {page.relative_to(TOP)}", not list(places(page.read_text()))
    yield "a replaced word is found", [it[:2] for it in places("It\nstands\nin `it stands in` the dearest.")] == [(3, "dearest"), (2, "stands in")]


if __name__ == "__main__":
    for page in pages():
        for line, word, instead in places(page.read_text()):
            print(f"{page.relative_to(TOP)}:{line}: {word}: {instead}")
