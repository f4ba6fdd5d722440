"""What is answered to closed examples: many of them, choices in five spellings, rules that look like choices, and pairs that
contradict each other. Each definition is evaluated at the examples."""
import by_examples

# A rule of three places that doesn't choose: its value is at most points, but not at all, that of the first or second place.
MAJORITY = ("(define-fun most ((x B) (y B) (z B)) B (bvor (bvand x y) (bvor (bvand x z) (bvand y z))))", "(most S S S)", "")


def answered(run, program, text):
    """The status of a run, and at how many examples its definition is wrong, None without one."""
    status, output, _ = run(program, ["-"], input=text)
    found = output.removeprefix("(\n").removesuffix(")\n") if "define-fun" in output else ""
    return status, by_examples.wrong_at(text, found) if found else None


def tests(run, program):
    """The name of each test, and whether it went well."""
    for name, text in [*by_examples.choices(2, 10), *by_examples.many(2, 0)]:
        yield f"examples {name}", answered(run, program, text) == (0, 0)
    for name, text in by_examples.bad(2, 0):
        yield f"examples {name}", answered(run, program, text) == (1, None)
    by_examples.CHOICES["most"] = MAJORITY
    text = by_examples.text_of(64, ["x"], by_examples.chosen(by_examples.Programs(7), ["x"], 10, 64), "most")
    yield "a majority is no choice", answered(run, program, text) in [(0, 0), (1, None)]
    del by_examples.CHOICES["most"]
    # the wanted choice alone has its sides exchanged: no other rule joins the two
    rows = [((value,), value if value & 1 else value ^ 255) for value in range(0, 256, 25)]
    head = by_examples.head(8, ["x"], "nested").replace("(bvxor S S) (bvadd S S) ", "")
    rows = [f"(constraint (= (f #x{inputs[0]:02x}) #x{value:02x}))\n" for inputs, value in rows]
    yield "sides exchanged", answered(run, program, f"{head}{''.join(rows)}(check-synth)\n") == (0, 0)
