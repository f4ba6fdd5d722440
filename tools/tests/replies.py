"""Replies in mode `check`: each broken form is refused at its exact place and by its cause, of two faults the first
counts, and a reply that is cut off anywhere neither crashes the program nor holds."""
import subprocess

# Problems, behind which replies stand.
ONE = """(set-logic LIA)
(define-sort Number () Int)
(define-fun next ((x Int)) Int (+ x 1))
(synth-fun f ((x Int) (b Bool)) Int ((S Int)) ((S Int (0 x (next S)))))
(declare-var y Int)
(check-synth)
"""
TWICE = """(set-logic BV)
(synth-fun f ((x (_ BitVec 8))) (_ BitVec 8))
(synth-fun g () Bool)
(check-synth)
(check-synth)
"""
NONE = "(set-logic LIA)\n(check-synth)\n(check-synth)\n"
LATE = "(set-logic LIA)\n(synth-fun f () Int)\n(check-synth)\n(define-fun g () Int 1)\n"
# What @ stands for in replies to ONE and to TWICE.
HEADS = {ONE: "define-fun f ((x Int) (b Bool)) Int", TWICE: "define-fun f ((x (_ BitVec 8))) (_ BitVec 8)"}
# Replies, with a caret in front of the fault; the number of the check-synth; and the cause.
REFUSED = [
    # their number
    (ONE, "fail\n^fail", 2, "26 ReplyCount"),
    (ONE, "fail\n^(5)", 2, "26 ReplyCount"),
    (ONE, "fail\n^(check-synth)", 2, "26 ReplyCount"),
    (NONE, "fail\n; no more\n^", 2, "26 ReplyCount"),
    (NONE, "() infeasible ^()", 3, "26 ReplyCount"),
    # the text
    (ONE, "fail\n((@ ^,x))", 2, "21 ReplyText BadByte"),
    (ONE, "fail\n((@ ^170141183460469231731687303715884105728))", 2, "21 ReplyText LiteralRange"),
    (ONE, "((@ x))\n^)", 2, "21 ReplyText Stray"),
    (ONE, "fail\n^(fail", 2, "21 ReplyText Unclosed"),
    (ONE, "fail ^|fail", 2, "21 ReplyText Unclosed"),
    (ONE, "fail 0^1", 2, "21 ReplyText BadByte"),
    (ONE, f"fail {'(' * 1200}^(", 2, "21 ReplyText TooDeep"),
    (NONE, "() ^(()", 2, "21 ReplyText Unclosed"),
    # their form
    (ONE, "(^5)", 1, "22 ReplyShape"),
    (ONE, "^0", 1, "22 ReplyShape"),
    (ONE, "^:fail", 1, "22 ReplyShape"),
    (ONE, "^\"fail\"", 1, "22 ReplyShape"),
    (ONE, "^Fail", 1, "22 ReplyShape"),
    (ONE, "(^())", 1, "22 ReplyShape"),
    (ONE, "(^(@))", 1, "22 ReplyShape"),
    (ONE, "(^(@ x x))", 1, "22 ReplyShape"),
    (ONE, "(^(define-fun 5 ((x Int) (b Bool)) Int x))", 1, "22 ReplyShape"),
    (ONE, "(^(define-fun f x Int x))", 1, "22 ReplyShape"),
    (ONE, "(^(define-fun f ((x Int) b) Int x))", 1, "22 ReplyShape"),
    (ONE, "(^(define-fun f ((x Int) (b)) Int x))", 1, "22 ReplyShape"),
    (ONE, "(^(define-fun f ((x Int) (5 Bool)) Int x))", 1, "22 ReplyShape"),
    (ONE, "(^(define-fun f ((x Int) (b Bool Bool)) Int x))", 1, "22 ReplyShape"),
    (ONE, "(^(define-const f Int 5))", 1, "22 ReplyShape"),
    (ONE, "(^((@ x)))", 1, "22 ReplyShape"),
    (ONE, "((@ x) ^fail)", 1, "22 ReplyShape"),
    # names
    (ONE, "((define-fun ^g ((x Int) (b Bool)) Int x))", 1, "23 ReplyName"),
    (ONE, "((define-fun ^next ((x Int)) Int x))", 1, "23 ReplyName"),
    (ONE, "((define-fun ^y () Int 0))", 1, "23 ReplyName"),
    (ONE, "((define-fun ^let () Int 0))", 1, "23 ReplyName"),
    (ONE, "((@ x)\n(define-fun ^f ((x Int) (b Bool)) Int x))", 1, "23 ReplyName"),
    (ONE, "; nothing\n^()", 1, "23 ReplyName"),
    (TWICE, "^((define-fun g () Bool true))\nfail", 1, "23 ReplyName"),
    # signatures
    (ONE, "(^(define-fun f () Int 0))", 1, "24 ReplySignature"),
    (ONE, "(^(define-fun f ((x Int)) Int x))", 1, "24 ReplySignature"),
    (ONE, "(^(define-fun f ((x Int) (b Bool) (c Int)) Int x))", 1, "24 ReplySignature"),
    (ONE, "(^(define-fun f ((b Bool) (x Int)) Int x))", 1, "24 ReplySignature"),
    (ONE, "(^(define-fun f ((x Int) (x Bool)) Int x))", 1, "24 ReplySignature"),
    (ONE, "(^(define-fun f ((x Int) (let Bool)) Int x))", 1, "24 ReplySignature"),
    (ONE, "(^(define-fun f ((x Int) (+ Bool)) Int x))", 1, "24 ReplySignature"),
    (ONE, "(^(define-fun f ((x Int) (|true| Bool)) Int x))", 1, "24 ReplySignature"),
    (ONE, "(^(define-fun f ((x Number) (b Bool)) Int x))", 1, "24 ReplySignature"),
    (ONE, "(^(define-fun f ((x Int) (b Bool)) Number x))", 1, "24 ReplySignature"),
    (ONE, "(^(define-fun f ((x Int) (b Bool)) (_ BitVec 8) x))", 1, "24 ReplySignature"),
    (ONE, "(^(define-fun f ((x Int) (b 5)) Int x))", 1, "24 ReplySignature"),
    # bodies
    (ONE, "((@ ^y))", 1, "25 ReplyTerm UnknownName"),
    (ONE, "((@ (^Start x)))", 1, "25 ReplyTerm UnknownName"),
    (ONE, "((@ (^Constant Int)))", 1, "25 ReplyTerm UnknownName"),
    (ONE, "((@ ^b))", 1, "25 ReplyTerm SortMismatch"),
    (ONE, "((@ ^(+ x b)))", 1, "25 ReplyTerm SortMismatch"),
    (ONE, "((@ ^#xff))", 1, "25 ReplyTerm SortMismatch"),
    (ONE, "((@ (^f x b)))", 1, "25 ReplyTerm FunctionNotHere"),
    (ONE, "((@ ^(* x x)))", 1, "25 ReplyTerm Nonlinear"),
    (ONE, "((@ ^(div x 0)))", 1, "25 ReplyTerm Nonlinear"),
    (ONE, "((@ ^:x))", 1, "25 ReplyTerm Shape"),
    (ONE, "((@ ^()))", 1, "25 ReplyTerm Shape"),
    (ONE, "((@ (let ((^let x)) x)))", 1, "25 ReplyTerm NameTaken"),
    (TWICE, "((@ ^(_ bv256 8)) (define-fun g () Bool true))\nfail", 1, "25 ReplyTerm LiteralRange"),
    (TWICE, "((@ ((_ extract 7 0) x)) (define-fun g () Bool ^x))\nfail", 1, "25 ReplyTerm UnknownName"),
    (LATE, "((@ ^g))", 1, "25 ReplyTerm UnknownName"),
    # two faults: of each definition its form, name, signature and body come before the next one's
    (TWICE, "((@ ^y)\n (define-fun h () Bool))\nfail", 1, "25 ReplyTerm UnknownName"),
    (TWICE, "(^(define-fun f ((x Bool)) (_ BitVec 8) y)\n (define-fun f () Bool true))\nfail", 1, "24 ReplySignature"),
    (TWICE, "((define-fun ^h ((x Bool)) Int (y)) 5)\nfail", 1, "23 ReplyName"),
    (TWICE, "(^(define-fun h ((x)) Int y))\nfail", 1, "22 ReplyShape"),
    (TWICE, "((define-fun g () Bool ^x))\nfail", 1, "25 ReplyTerm UnknownName"),
    (TWICE, "^((define-fun g () Bool true))\nunsat", 1, "23 ReplyName"),
    (TWICE, "((define-fun g () Bool true) ^unsat)\nfail", 1, "22 ReplyShape"),
    (TWICE, "((define-fun g () Bool ^x)\n(@ x))\n(5 (", 1, "25 ReplyTerm UnknownName"),
    (TWICE, "fail\n(5 ^(", 2, "21 ReplyText Unclosed"),
    (TWICE, "fail\nfail\n^fail 01", 3, "26 ReplyCount"),
    (TWICE, "fail\nfail\n^(fail", 3, "21 ReplyText Unclosed"),
]
# Files whose problem is refused, though replies follow: a caret in front of the fault, the command's number, and the
# cause. A fault of the text in the first reply is one of a command.
FRONTS = [
    ("(set-logic LIA)\n(check-synth)\n^(fail", 3, "1 Text Unclosed"),
    ("(set-logic LIA)\n(check-synth)\n((define-fun f () Int 0^1))", 3, "1 Text BadByte"),
    ("(set-logic LIA)\n(check-synth)\n^)", 3, "1 Text Stray"),
    ("(set-logic LIA)\n^(constraint )\n(check-synth)\nfail", 2, "3 Shape"),
    ("(set-logic LIA)\n(constraint ^x)\n(check-synth)\nfail\n(5", 2, "8 UnknownName"),
    ("(^check-synth)\nfail\n", 1, "4 Logic"),
    ("(set-logic LIA)\n(^define-rec f () Int 0)\nfail\n", 2, "2 CommandNotInProfile"),
]
# Files with replies: verdicts, and the status.
SMALL = "(set-logic LIA)\n(synth-fun f () Int ((S Int)) ((S Int (0 1 (+ S S)))))\n"
STEPS = """(set-logic LIA)
(define-fun g ((x Int)) Int (+ x 1))
(synth-fun f ((x Int)) Int ((S Int)) ((S Int (x (g S)))))
"""
JUDGED = [
    # exchanged
    (SMALL + "(constraint (= (f) 0))\n(check-synth)\n(constraint (= 0 1))\n(check-synth)\n"
     "((define-fun f () Int 1)) ((define-fun f () Int 0))", ["refuted at", "refuted at"], 1),
    # a definition that nothing names behind its check-synth
    (SMALL + "(constraint (= f 1))\n(check-synth)\n(define-fun g () Int 1)\n(check-synth)\n"
     "infeasible ; none\n((define-fun f () Int (+ 0 1)))", ["no definitions", "holds"], 1),
    # bars, other names of arguments, and comments between items
    (STEPS + "(declare-var x Int)\n(constraint (> (f x) x))\n(check-synth)\n; a comment\n"
     "(;another\n(define-fun |f| ((|a b| Int)) Int (g |a b|)))\n; the last", ["holds"], 0),
    # no functions
    ("(set-logic LIA)\n(declare-var x Int)\n(constraint (distinct x 6))\n(check-synth)\n()", ["refuted at 6"], 1),
    ("(set-logic LIA)\n(constraint true)\n(check-synth)\n()", ["holds"], 0),
    # values of all sorts
    ("(set-logic BV)\n(declare-var x (_ BitVec 5))\n(declare-var y (_ BitVec 64))\n(declare-var z Bool)\n"
     "(assume (and (= x #b01010) (= y #xfedcba9876543210) z))\n(constraint (not z))\n(check-synth)\n()",
     ["refuted at #b01010 #xfedcba9876543210 true"], 1),
    ("(set-logic LIA)\n(declare-var x Int)\n(constraint (distinct x (- 7)))\n(check-synth)\n()",
     ["refuted at (- 7)"], 1),
]
# Files whose replies hold, which no beginning of them does.
WHOLE = [
    STEPS + "(declare-var x Int)\n(constraint (> (f x) x))\n(check-synth)\n"
    "(\n(define-fun f ((y Int)) Int (g (g y)))\n)",
    TWICE.replace("(check-synth)\n", "(constraint (g))\n(check-synth)\n", 1)
    + "((define-fun g () Bool (not false)) ; the other\n(define-fun f ((|x| (_ BitVec 8))) (_ BitVec 8) #xaB))\n"
    "((define-fun g () Bool true)\t(define-fun f ((x (_ BitVec 8))) (_ BitVec 8) (bvadd x x)))",
]


def judged(program, text):
    """The status of mode `check`, its output and its error output, where the text is what is read."""
    ended = subprocess.run([program, "--mode", "check", "-"], input=text, capture_output=True, text=True)
    return ended.returncode, ended.stdout, ended.stderr


def placed(text):
    """The text without its caret, and the line and column where this stood."""
    before, _, after = text.partition("^")
    return before + after, f"line {before.count(chr(10)) + 1} column {len(before) - before.rfind(chr(10))}"


def tests(program):
    for problem, reply, check, cause in REFUSED:
        text, place = placed(problem + reply.replace("@", HEADS.get(problem, "define-fun f () Int")))
        wanted = 7, "", f"reply refused: check-synth {check} {place} cause {cause}\n"
        yield f"reply {reply[:60]!r}", judged(program, text) == wanted
    for text, command, cause in FRONTS:
        whole, place = placed(text)
        wanted = 2, "", f"refused: command {command} {place} cause {cause}\n"
        yield f"front {text!r}", judged(program, whole) == wanted
    for text, verdicts, status in JUDGED:
        lines = "".join(f"check-synth {number} {verdict}\n" for number, verdict in enumerate(verdicts, 1))
        yield f"judged {text[-40:]!r}", judged(program, text) == (status, lines, "")
    for place, text in enumerate(WHOLE):
        yield f"reply {place} holds", judged(program, text)[0] == 0
        for end in range(len(text)):
            status, out, _ = judged(program, text[:end])
            yield f"reply {place} cut off at {end}", status in (2, 7) and out == "" or status == 0 and out == ""
