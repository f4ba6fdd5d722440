"""What the program answers to small questions, each a row of a table: what operators and terms are worth, which operators are the
same at two points at once, and what queries have.

The tables are questions/*.txt. In a row of values stand a term and its value, `none` where a number on the way leaves 128 bits,
or `mismatch` where the term has no sort; in a row of queries, with bars between them, the sorts of its variables, its body, a
limit or more, and the answer. Terms are words, each before what it takes: a value; a variable, `a` to `e`; a call of the
definition, `D`; a binding of terms for the one after them, `let`; or an operator. How many terms it takes stands after a slash;
all, where nothing does. In queries a sign stands for each word.
"""
import pathlib

QUESTIONS = pathlib.Path(__file__).resolve().parent / "questions"
LEAST, MOST = -2**127, 2**127 - 1
# What stands before the questions of each table of values: a logic, and its definitions.
HEADS = {
    "words": "(set-logic BV)\n",
    "integers": "(set-logic LIA)\n",
    "vector_terms": "(set-logic BV)\n(define-fun a () (_ BitVec 8) #xf9)\n(define-fun b () (_ BitVec 8) #x02)\n(define-fun c () (_ BitVec 8) #x00)\n"
                    "(define-fun D ((x (_ BitVec 8))) (_ BitVec 8) (bvnot x))\n",
    "integer_terms": f"(set-logic LIA)\n(define-fun a () Int {MOST})\n(define-fun b () Int 5)\n(define-fun D ((x Int)) Int (+ x 1))\n",
}
# How many variables are in force in each of these tables.
VARIABLES = {"vector_terms": 3, "integer_terms": 2}
# The words of signs over vectors, where a digit and `F` are vectors of four bits; and over integers, where `M` is the greatest
# number of 128 bits, `N` the least, and `m` is -1.
SIGNS = dict(A="a", B="b", C="c", T="true")
NUMERALS = "0123456789"
CONNECTIVES = {"!": "not/1", "&": "and/2", "v": "or/2", "^": "xor/2", "i": "=>/2", "?": "ite/3", "=": "=/2"}
VECTORS = SIGNS | CONNECTIVES | {sign: f"4:{sign}" for sign in NUMERALS} | {
    "F": "4:15", "L": "let/1", "#": "distinct/2", "~": "bvnot/1", "n": "bvneg/1", "w": "bvand/2", "o": "bvor/2", "x": "bvxor/2", "W": "bvnand/2",
    "O": "bvnor/2", "X": "bvxnor/2", "+": "bvadd/2", "-": "bvsub/2", "*": "bvmul/2", "P": "bvadd/3", "M": "bvmul/3", "/": "bvudiv/2", "%": "bvurem/2",
    "d": "bvsdiv/2", "r": "bvsrem/2", "m": "bvsmod/2", "l": "bvshl/2", "g": "bvlshr/2", "a": "bvashr/2", "<": "bvult/2", ">": "bvugt/2", "u": "bvule/2",
    "U": "bvuge/2", "s": "bvslt/2", "S": "bvsgt/2", "t": "bvsle/2", "G": "bvsge/2", "p": "bvcomp/2", "c": "concat/2", "e": "extract,6,3/1",
    "z": "rotate_left,1/1", "y": "rotate_right,3/1", "Z": "zero_extend,4/1", "N": "sign_extend,4/1", "R": "repeat,2/1",
}
INTEGERS = SIGNS | CONNECTIVES | {sign: sign for sign in NUMERALS} | {
    "M": str(MOST), "N": str(LEAST), "m": "-1", "l": "let/1", "+": "+/2", "-": "-/2", "*": "*/2", "<": "</2", "L": "<=/2", ">": ">/2", "G": ">=/2",
}
LETTERS = "abcde"


def value(word):
    """A value's word as SMT-LIB writes it; the empty text where the word is none."""
    width, colon, number = word.rpartition(":")
    if colon:
        return f"(_ bv{number} {width})"
    if word in ("true", "false"):
        return word
    if not word.lstrip("-").isdecimal():
        return ""
    number = int(word)
    if number == LEAST:
        return f"(- (- {MOST}) 1)"
    return str(number) if number >= 0 else f"(- {-number})"


def operator(name):
    """An operator as it stands in SMT-LIB, with its indices."""
    word, *indices = name.split(",")
    return f"(_ {word} {' '.join(indices)})" if indices else {"neg": "-"}.get(word, word)


def taken(words, place, known):
    """The term that begins at this place, where so many variables are known, and the place behind it."""
    word, place = words[place], place + 1
    if value(word):
        return value(word), place
    name, slash, count = word.partition("/")
    if name in LETTERS:
        return name, place
    terms = []
    while len(terms) < int(count) if slash else place < len(words):
        term, place = taken(words, place, known)
        terms.append(term)
    if name != "let":
        return f"({operator(name)} {' '.join(terms)})", place
    bound = " ".join(f"({LETTERS[known + number]} {term})" for number, term in enumerate(terms))
    inner, place = taken(words, place, known + len(terms))
    return f"(let ({bound}) {inner})", place


def term(words, known):
    return taken(words, 0, known)[0]


def overflows_lowered(words):
    """Whether a division has a number at an end of 128 bits: the conditions on its quotient and remainder overflow, so its value isn't
    proved. That it differs from the value is infeasible all the same, by evaluation."""
    return words[0] in ("div", "mod") and any(word in (str(LEAST), str(-MOST), str(MOST)) for word in words)


def valued(head, text, told, overflows=False):
    """A file that asks for the value of a term, and what a run leaves of it."""
    if told == "none":
        return f"{head}(constraint (= {text} {text}))\n(check-synth)\n", (1, "fail\n", "fail: check-synth 1 Range\n")
    if told == "mismatch":
        line = head.count("\n") + 1
        return f"{head}(constraint (= {text} {text}))\n(check-synth)\n", (2, "", f"refused: command {line} line {line} column 16 cause 10 SortMismatch\n")
    asked = [f"(constraint ({word} {text} {value(told)}))\n(check-synth)\n" for word in ("=", "distinct")]
    left = (1, "fail\ninfeasible\n", "fail: check-synth 1 Range\n") if overflows else (0, "(\n)\ninfeasible\n", "")
    return head + "".join(asked), left


def values(stem, row):
    *words, told = row.split(" ")
    return [], *valued(HEADS[stem], term(words, VARIABLES.get(stem, 0)), told, overflows_lowered(words))


def circuit(row):
    """The value of an operator at two vectors of four bits, of which the last ones of the table take one: by variables, so that there are no constants to begin with."""
    name, first, second, told = row.split("|")
    arguments = "s" if "," in name else "s t"
    width = 2 if name.startswith("extract") else 4
    head = ("(set-logic BV)\n(declare-var s (_ BitVec 4))\n(declare-var t (_ BitVec 4))\n"
            f"(assume (and (= s (_ bv{first} 4)) (= t (_ bv{second} 4))))\n")
    return [], *valued(head, f"({operator(name)} {arguments})", f"{width}:{told}")


# The sorts of the values of operators of two vectors, where they aren't vectors of eight bits.
OTHER_SORTS = {"concat": "(_ BitVec 16)", "bvcomp": "(_ BitVec 1)"} | {name: "Bool" for name in
               "= distinct bvult bvule bvugt bvuge bvslt bvsle bvsgt bvsge".split()}


def pair(name):
    """A function of two vectors with one operator, which is to have at two pairs the values of that operator at each."""
    byte, sort = "(_ BitVec 8)", OTHER_SORTS.get(name, "(_ BitVec 8)")
    asked = [f"(constraint (= (f {pair}) ({name} {pair})))\n" for pair in ("#xc8 #x07", "#x07 #x00")]
    begin = f"(define-fun f ((x {byte}) (y {byte})) {sort} ("
    text = (f"(set-logic BV)\n(synth-fun f ((x {byte}) (y {byte})) {sort} ((S {sort}) (X {byte}) (Y {byte})) ((S {sort} (({name} X Y))) (X {byte} (x)) (Y {byte} (y))))\n"
            f"{''.join(asked)}(check-synth)\n")
    return [], text, (0, f"(\n{begin}{name} x y))\n)\n", "")


def sort(sign):
    """The sort of a sign: `b` for truth values, `i` for integers, a digit for vectors of so many bits, and `@` and `p` for those of 16 and 64."""
    return {"b": "Bool", "i": "Int"}.get(sign) or f"(_ BitVec {ord(sign) - ord('0')})"


def words_of(body, signs):
    """The words of a body, which stand there themselves where there are spaces."""
    return body.split(" ") if " " in body else [signs[sign] for sign in body]


def declared(logic, sorts):
    return f"(set-logic {logic})\n" + "".join(f"(declare-var {name} {sort(sign)})\n" for name, sign in zip(LETTERS, sorts))


def model(numbers, sorts):
    """The numbers of a model, 1 for true, as a term."""
    parts = []
    for name, sign, number in zip(LETTERS, sorts, numbers):
        word = {"b": "true" if number == "1" else "false", "i": value(number)}.get(sign) or f"(_ bv{number} {ord(sign) - ord('0')})"
        parts.append(f"(= {name} {word})")
    return f"(and {' '.join(parts)})" if parts else "true"


def answered(words, head, sorts, told):
    """Files that ask whether an assumption can't be met, and what is left of each. A model is known by being the only one."""
    kind, *said = told.split()
    left = (1, "fail\n", f"fail: check-synth 1 {said[0]}\n") if kind == "spent" else (0, "(\n)\n" if kind == "never" else "infeasible\n", "")
    yield words, head + "(constraint false)\n(check-synth)\n", left
    if kind == "model":
        yield [], f"{head}(constraint {model(said, sorts)})\n(check-synth)\n", (0, "(\n)\n", "")


def vector_query(row):
    sorts, body, clauses, told = row.split("|")
    head = f"{declared('BV', sorts)}(assume {term(words_of(body, VECTORS), len(sorts))})\n"
    return answered(["--clauses", clauses], head, sorts, told)


def integer_query(row):
    sorts, body, nodes, pivots, told = row.split("|")
    if sorts == "deep":
        sorts, words = "i", ["and", *(word for number in range(int(body)) for word in (">/2", "a", str(number))), "<=/2", "a", body]
    else:
        words = words_of(body, INTEGERS)
    head = f"{declared('LIA', sorts)}(assume {term(words, len(sorts))})\n"
    return answered(["--nodes", nodes, "--pivots", pivots], head, sorts, told)


def weight(row):
    """What a query weighs, by the least `--weight` that lets a problem through that violates nothing where it is assumed, which weighs 3 more."""
    sorts, body, number = row.split("|")
    logic, signs = ("LIA", INTEGERS) if "i" in sorts else ("BV", VECTORS)
    text = f"{declared(logic, sorts)}(assume {term(words_of(body, signs), len(sorts))})\n(check-synth)\n"
    yield ["--weight", str(int(number) + 2)], text, (1, "fail\n", "fail: check-synth 1 Weight\n")
    yield ["--weight", str(int(number) + 3)], text, (0, "(\n)\n", "")


def asked(stem, row):
    """The runs of a row: words, a file, and what is left."""
    kinds = {"circuits": circuit, "pairs": pair}
    many = {"vector_queries": vector_query, "integer_queries": integer_query, "weights": weight}
    if stem in many:
        return many[stem](row)
    return [kinds[stem](row) if stem in kinds else values(stem, row)]


def tests(run, program):
    """Each row, by a function that runs the program."""
    for path in sorted(QUESTIONS.glob("*.txt")):
        for number, row in enumerate(path.read_text().splitlines(), 1):
            done = [run(program, [*words, "-"], input=text) == left for words, text, left in asked(path.stem, row)]
            yield f"row {number} of {path.name}", all(done)
