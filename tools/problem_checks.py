#!/usr/bin/env python3
"""Looks for what is wrong with a problem that sygus takes, by its text and by small questions to sygus itself.

    tools/problem_checks.py [--seconds SECONDS] FILE

It finds rows with the same arguments and different values; nonterminals that derive no term; assumptions that can't
hold together; an assignment at which no value of the functions meets the constraints; an argument that a function
lacks; and, for an inv-constraint, a run of up to ten steps from `pre` to where `post` is false. What it finds is proved
by sygus, or seen in the text; what it doesn't find may be wrong all the same. It takes at most 20 seconds, or SECONDS.
FILE `-` is standard input. tools/explain makes these checks where an answer is `fail` or `infeasible`, or by its word
--look. The status is 0 where nothing was found, and 1 where something was; as of sygus where the file isn't taken. The
program is found as sygus_client.py says.
"""
import itertools
import re
import sys
import time

from sygus_client import Call, Parser, answers_of, as_command, find_program, say, write_item

SYMBOL = set(b"abcdefghijklmnopqrstuvwxyzABCDEFGHIJKLMNOPQRSTUVWXYZ0123456789~!@$%^&*_-+=<>.?/")
BLANK = set(b"\t\n\r ")
# As many functions to synthesise a file may have: so many variables get a value in one question.
MOST_VALUES = 4
MOST_STEPS = 10
MOST_NODES = 20_000
SECONDS = 20
# The limits of one question.
LIMITS = "--size 24 --clauses 10000 --nodes 2000 --bank 10000".split()
QUESTION_SECONDS = 4
# The last line of what is found where some of it shows that there is no solution.
UNSOLVABLE = "So there is no solution, and larger limits don't help."


# Text with places


class Item:
    """An atom or a list, with the offsets of its first byte and behind its last. Lists have items, atoms a text."""

    def __init__(self, kind, at, end, text="", items=()):
        self.kind, self.at, self.end, self.text, self.items = kind, at, end, text, list(items)

    def named(self, text):
        return self.kind == "symbol" and self.text == text


class Broken(Exception):
    """What was read so far, where the text can't be read on: whole commands, and the lists that are open."""

    def __init__(self, done, opened):
        super().__init__()
        self.done, self.opened = done, opened


def atom_end(text, at):
    """The offset behind the atom at a place, as far as it goes well."""
    if text[at] in b'|"':
        end = text.find(text[at : at + 1], at + 1)
        while end >= 0 and text[at] == 34 and text[end + 1 : end + 2] == b'"':
            end = text.find(b'"', end + 2)
        return end + 1 if end >= 0 else None
    end = at + 1
    while end < len(text) and text[end] in SYMBOL:
        end += 1
    return end


def atom(text, at, end):
    word = text[at:end].decode("utf-8", "replace")
    if word.startswith("|"):
        return Item("symbol", at, end, word[1:-1])
    if word.startswith('"'):
        return Item("text", at, end, word)
    if word.startswith("#"):
        return Item("bits", at, end, word)
    if word.startswith(":"):
        return Item("keyword", at, end, word)
    if word[0].isdigit():
        return Item("decimal" if "." in word else "numeral", at, end, word)
    return Item("symbol", at, end, word)


def read(text, stop=None):
    """The commands of a text up to the offset `stop`. `Broken` where something is open there."""
    done, opened, at = [], [], 0
    stop = len(text) if stop is None else stop
    while at < stop:
        byte = text[at]
        if byte in BLANK:
            at += 1
        elif byte == 59:
            while at < len(text) and text[at] not in b"\r\n":
                at += 1
        elif byte == 40:
            opened.append(Item("list", at, None))
            at += 1
        elif byte == 41 and opened:
            last = opened.pop()
            last.end = at + 1
            (opened[-1].items if opened else done).append(last)
            at += 1
        else:
            end = atom_end(text, at)
            if end is None or byte == 41:
                raise Broken(done, opened)
            (opened[-1].items if opened else done).append(atom(text, at, end))
            at = end
    if opened:
        raise Broken(done, opened)
    return done


def line_of(text, at):
    return text.count(b"\n", 0, at) + 1


def spelled(item):
    """An item as text, names without their bars."""
    return item.text if item.kind != "list" else "(" + " ".join(map(spelled, item.items)) + ")"


# Problems


class Function:
    """A function to synthesise: its arguments with their sorts, its own sort, and its groups of rules, where they are
    written.
    """

    def __init__(self, name, arguments, sort, groups, line):
        self.name, self.arguments, self.sort, self.groups, self.line = name, arguments, sort, groups, line


class Problem:
    """What stands before a `check-synth`. Terms are strings, and lists of terms; those of constraints and assumptions
    have their lines.
    """

    def __init__(self, text, count=1):
        self.text, self.logic, self.definitions, self.variables, self.functions = text, "BV", [], {}, {}
        self.constraints, self.assumptions, self.invariants, self.signatures = [], [], [], {}
        for command in read(text):
            parts = self.plain(command)
            if parts[0] == "check-synth":
                count -= 1
                if count == 0:
                    return
            self.take(parts, line_of(text, command.at))

    def plain(self, item):
        if item.kind != "list":
            return f"|{item.text}|" if item.kind == "symbol" and not bare(item.text) else item.text
        return [self.plain(it) for it in item.items]

    def take(self, parts, line):
        name = parts[0]
        if name == "set-logic":
            self.logic = parts[1]
        elif name == "declare-var":
            self.variables[parts[1]] = parts[2]
        elif name in ("define-sort", "define-fun"):
            self.definitions.append(parts)
            if name == "define-fun":
                self.signatures[parts[1]] = parts[2]
        elif name in ("synth-fun", "synth-inv"):
            sort, rest = ("Bool", parts[3:]) if name == "synth-inv" else (parts[3], parts[4:])
            self.functions[parts[1]] = Function(parts[1], parts[2], sort, rest[1] if len(rest) == 2 else [], line)
        elif name in ("constraint", "assume"):
            (self.constraints if name == "constraint" else self.assumptions).append((without_lets(parts[1]), line))
        elif name == "inv-constraint":
            self.invariants.append((parts[1:], line))


def bare(name):
    return name != "" and all(byte in SYMBOL for byte in name.encode()) and not name[0].isdigit()


def size(term):
    return 1 if isinstance(term, str) else 1 + sum(map(size, term))


class TooLarge(Exception):
    """A term is too large once its names are written out."""


def without_lets(term, known=None):
    """The term with each name of a `let` written out."""
    known = known or {}
    if isinstance(term, str):
        return known.get(term, term)
    if len(term) == 3 and term[0] == "let":
        inner = {name: without_lets(value, known) for name, value in term[1]}
        return without_lets(term[2], {**known, **inner})
    found = [without_lets(part, known) for part in term]
    if known and size(found) > MOST_NODES:
        raise TooLarge
    return found


def names_in(term, names):
    """Which of these names a term has."""
    if isinstance(term, str):
        return {term} & names
    return set().union(*(names_in(part, names) for part in term)) if term else set()


def conjunction(terms):
    return "true" if not terms else terms[0] if len(terms) == 1 else ["and", *terms]


def negated(term):
    return ["not", term]


class Calls:
    """The calls of functions to synthesise in terms, each with a name that stands for its value."""

    def __init__(self, problem):
        self.functions, self.values, self.problem, self.shown = problem.functions, {}, problem, []

    def abstracted(self, term):
        """The term with each call replaced by the name of its value."""
        if isinstance(term, str):
            return self.value(term, [], term) if term in self.functions and not self.functions[term].arguments else term
        parts = [term[0] if isinstance(term[0], str) else self.abstracted(term[0]), *map(self.abstracted, term[1:])]
        return (
            self.value(parts[0], parts[1:], term) if isinstance(parts[0], str) and parts[0] in self.functions else parts
        )

    def value(self, name, arguments, term):
        key = write_item([name, *arguments])
        if key not in self.values:
            self.values[key] = (fresh(self.problem, f"value_{len(self.values) + 1}"), name, arguments)
            self.shown.append(write_item(term))
        return self.values[key][0]

    def declared(self):
        return [(value, self.functions[name].sort) for value, name, _ in self.values.values()]

    def are(self):
        """The calls in words, with the verb."""
        if len(self.shown) > 4:
            return "the values of the functions are"
        return (
            f"{self.shown[0]} is" if len(self.shown) == 1 else f"{', '.join(self.shown[:-1])} and {self.shown[-1]} are"
        )

    def same(self):
        """That calls of one function with the same arguments have the same value."""
        found = []
        for (first, name, before), (second, other, after) in itertools.combinations(self.values.values(), 2):
            if name == other and len(found) < 200:
                equal = conjunction([["=", *pair] for pair in zip(before, after)])
                found.append(["=>", equal, ["=", first, second]])
        return found


def fresh(problem, name):
    while name.encode() in problem.text:
        name += "_"
    return name


# Questions


class Asker:
    """Asks sygus small questions about a problem, until its time is up."""

    def __init__(self, program, seconds=SECONDS):
        self.program, self.deadline, self.count = program, time.monotonic() + seconds, 0

    def answer(self, text, seconds):
        """The answer to the one `check-synth` of a text, or None where there is none in time."""
        left = self.deadline - time.monotonic()
        if left <= 0:
            return None
        self.count += 1
        result = Call([self.program, *LIMITS, "-"], text, min(left, seconds)).result()
        return result.answers[0] if result.status == 0 and result.answers else None

    def always(self, problem, variables, term):
        """Whether a term without calls is true for all values of the variables; None where that isn't known."""
        lines = [*head(problem), *(["declare-var", *it] for it in variables), ["constraint", term], ["check-synth"]]
        answer = self.answer("\n".join(map(write_item, lines)) + "\n", QUESTION_SECONDS)
        return None if answer is None else answer.kind == "definitions"

    def values(self, problem, wanted, variables, terms, seconds=QUESTION_SECONDS):
        """Values of the wanted variables with which the terms are true for all values of the others, by name; None
        where none are found.
        """
        if len(wanted) > MOST_VALUES:
            return None
        lines = [*head(problem), *(constant(*it) for it in wanted), *(["declare-var", *it] for it in variables)]
        lines += [*(["constraint", term] for term in terms), ["check-synth"]]
        answer = self.answer("\n".join(map(write_item, lines)) + "\n", seconds)
        if answer is None or answer.kind != "definitions":
            return None
        return {found.name: write_item(found.body) for found in answer.definitions}


def head(problem):
    return [["set-logic", problem.logic], *problem.definitions]


def constant(name, sort):
    return ["synth-fun", name, [], sort, [["S", sort]], [["S", sort, [["Constant", sort]]]]]


def least_part(parts, holds):
    """A smallest part of a list for which something holds still, by leaving out halves, then quarters and so on."""
    step = max(1, len(parts) // 2)
    while step:
        place = 0
        while place < len(parts) and len(parts) > 1:
            rest = parts[:place] + parts[place + step :]
            if rest and holds(rest):
                parts = rest
            else:
                place += step
        step //= 2
    return parts


# Checks by the text


def literal(term):
    """The value of a literal, as something that compares, or None."""
    if isinstance(term, str):
        if re.fullmatch("[0-9]+", term):
            return int(term)
        if term in ("true", "false"):
            return term
        if re.fullmatch("#x[0-9a-fA-F]+", term):
            return int(term[2:], 16), 4 * (len(term) - 2)
        return (int(term[2:], 2), len(term) - 2) if re.fullmatch("#b[01]+", term) else None
    if len(term) == 2 and term[0] == "-" and isinstance(literal(term[1]), int):
        return -literal(term[1])
    if len(term) == 3 and term[0] == "_" and isinstance(term[1], str) and re.fullmatch("bv[0-9]+", term[1]):
        return int(term[1][2:]), int(term[2])
    return None


def example(problem, term):
    """The call, as text, the values of its arguments, and the value, where a term is an example of a function; else
    None.
    """
    if isinstance(term, list) and len(term) == 3 and term[0] == "=":
        for call, value in ((term[1], term[2]), (term[2], term[1])):
            found = called(problem, call)
            if found and literal(value) is not None:
                return write_item(call), found, write_item(value), literal(value)
    is_negative = isinstance(term, list) and len(term) == 2 and term[0] == "not"
    found = called(problem, term[1] if is_negative else term)
    value = "false" if is_negative else "true"
    return (write_item(term[1] if is_negative else term), found, value, value) if found else None


def called(problem, term):
    """A function to synthesise and the values of its arguments, where the term calls one with literals."""
    parts = [term] if isinstance(term, str) else term
    if not parts or not isinstance(parts[0], str) or parts[0] not in problem.functions:
        return None
    values = [literal(it) for it in parts[1:]]
    return None if None in values else (parts[0], *values)


def different_rows(problem):
    """Rows with the same arguments and different values."""
    seen, found = {}, []
    for term, line in problem.constraints:
        row = example(problem, term)
        if row:
            call, key, shown, value = row
            before = seen.setdefault(key, (shown, value, line))
            if before[1] != value:
                found.append(
                    f"Lines {before[2]} and {line}: {call} is to be {before[0]} and {shown}. A function has one value"
                    " at the same arguments."
                )
    return found


def nonterminals_in(term, names):
    return names_in(term, names)


def endless(problem):
    """Nonterminals that derive no term."""
    found = []
    for function in problem.functions.values():
        names = {group[0] for group in function.groups}
        ends, grown = set(), True
        while grown:
            more = {
                name for name, _, rules in function.groups for rule in rules if nonterminals_in(rule, names) <= ends
            }
            grown, ends = not more <= ends, ends | more
        for name, _, _ in function.groups:
            if name not in ends:
                found.append(
                    f"{function.name} of line {function.line}: {name} derives no term, since each of its rules needs a"
                    f" term of {name} or of another such nonterminal. It lacks a leaf: an argument, or a constant."
                )
    return found


def unused(function):
    """The arguments of a function that no rule has."""
    rules = [rule for _, _, rules in function.groups for rule in rules]
    if not rules:
        return []
    sorts = [
        write_item(rule[1]) for rule in rules if isinstance(rule, list) and rule[0] == "Variable" and len(rule) == 2
    ]
    left = [
        name for name, sort in function.arguments if not any(names_in(rule, {name}) for rule in rules) and not sorts
    ]
    return [
        f"{function.name} of line {function.line}: its argument {name} is in no rule, so no body uses it."
        for name in left
    ]


# Checks by questions


def can_hold(problem, ask, assumptions):
    """Whether some values of the variables meet these assumptions; None where that isn't known."""
    if not assumptions:
        return True
    never = negated(conjunction([term for term, _ in assumptions]))
    fails = ask.always(problem, list(problem.variables.items()), never)
    return None if fails is None else not fails


def vacuous(problem, ask):
    """Which of the assumptions can't hold together, where they can't."""
    parts = least_part(problem.assumptions, lambda rest: can_hold(problem, ask, rest) is False)
    return [
        f"{lines_of(parts, 'assumption')} can't hold: no values of the variables are left, so every function is a"
        " solution."
    ]


def lines_of(parts, word):
    lines = [str(line) for _, line in parts]
    if len(lines) == 1:
        return f"The {word} of line {lines[0]}"
    return f"The {word}s of lines {', '.join(lines[:-1])} and {lines[-1]} together"


def relevant(problem, terms):
    found = set().union(*(names_in(term, set(problem.variables)) for term in terms)) if terms else set()
    return [(name, sort) for name, sort in problem.variables.items() if name in found]


def refuted(problem, ask, parts, copies=()):
    """An assignment at which no values of the functions meet these constraints, and the calls; the variables `copies`
    are doubled.
    """
    twice = {name: fresh(problem, f"{name.strip('|')}_2") for name in copies}
    calls = Calls(problem)
    terms = [calls.abstracted(term) for term, _ in parts]
    assumed = [term for term, _ in problem.assumptions]
    if twice:
        terms += [calls.abstracted(renamed(term, twice)) for term, _ in parts]
        assumed += [renamed(term, twice) for term in assumed if names_in(term, set(twice))]
    if not calls.values:
        return None
    wanted = relevant(problem, [term for term, _ in parts] + [term for term, _ in problem.assumptions])
    wanted += [(twice[name], problem.variables[name]) for name in copies]
    impossible = negated(conjunction([*calls.same(), *terms]))
    values = ask.values(problem, wanted, calls.declared(), [*assumed, impossible])
    return None if values is None else (values, calls)


def renamed(term, names):
    return names.get(term, term) if isinstance(term, str) else [renamed(part, names) for part in term]


def groups_of(problem):
    """The constraints in groups that are looked at together: all where they have few variables, else each alone."""
    if len(relevant(problem, [term for term, _ in problem.constraints + problem.assumptions])) <= MOST_VALUES:
        return [problem.constraints]
    return [[part] for part in problem.constraints]


def impossible(problem, ask):
    """Constraints that no values of the functions meet at one assignment."""
    for group in groups_of(problem):
        if group and refuted(problem, ask, group):
            parts = least_part(group, lambda rest: refuted(problem, ask, rest))
            found = refuted(problem, ask, parts)
            if found:
                return [
                    f"{lines_of(parts, 'constraint')} can't be met{shown_at(found[0])}: whatever"
                    f" {found[1].are()} there, something fails."
                ]
    return []


def shown_at(values):
    return " at " + ", ".join(f"{name} = {value}" for name, value in values.items()) if values else ""


def lacking(problem, ask):
    """A variable on which the value depends, where the function doesn't get it."""
    for part in problem.constraints:
        calls = Calls(problem)
        calls.abstracted(part[0])
        given = [argument for _, _, arguments in calls.values.values() for argument in arguments]
        for name, _ in relevant(problem, [part[0]]):
            if not calls.values or names_in(given, {name}):
                continue
            found = refuted(problem, ask, [part], [name])
            if found:
                return [missing_argument(problem, part, name, found)]
    return []


def missing_argument(problem, part, name, found):
    values, calls = found
    second = values.pop(fresh(problem, f"{name.strip('|')}_2"))
    first = values.pop(name)
    return (
        f"{lines_of([part], 'constraint')} asks for different values of {calls.shown[0]}{shown_at(values)}, for"
        f" {name} = {first} and for {name} = {second}. The function lacks an argument: hand {name} over."
    )


# Runs of a loop


class Run:
    """A run of a loop from `pre` to where `post` is false, of which the values are looked for one after another."""

    def __init__(self, problem, ask, names, sorts, formula):
        self.problem, self.ask, self.variables, self.formula, self.values = (
            problem,
            ask,
            list(zip(names, sorts)),
            formula,
            {},
        )

    def may_be(self, term):
        """Whether a run with the values so far meets the term; None where that isn't known."""
        fixed = [["=", name, value] for name, value in self.values.items()]
        always = self.ask.always(self.problem, self.variables, negated(["and", *fixed, self.formula, term]))
        return None if always is None else not always

    def state(self, trans, before, row, sorts):
        """The values of a row, after those of the row before it; None where they aren't found in time."""
        if before and (
            next_row := self.ask.values(self.problem, list(zip(row, sorts)), [], [[trans, *before, *row]], 1)
        ):
            if self.may_be(conjunction([["=", *it] for it in next_row.items()])):
                self.values.update(next_row)
                return [next_row[name] for name in row]
        state = []
        for place, (name, sort) in enumerate(zip(row, sorts)):
            value = self.find(name, sort, guesses(before[place]) if before else [])
            if value is None:
                return None
            self.values[name] = value
            state.append(value)
        return state

    def find(self, name, sort, guesses):
        """A value of a variable, as text; None where it isn't found in time."""
        for guess in guesses:
            if self.may_be(["=", name, guess]):
                return guess
        if sort == "Bool":
            return "true" if self.may_be(name) else "false"
        if sort == "Int":
            return self.least(["<=", "0", name], str) or self.least(
                ["<=", "0", ["-", name]], lambda number: f"(- {number})"
            )
        bits = int(sort[2])
        return self.least(["bvule", name], lambda number: number_of(number, bits), 2**bits - 1)

    def least(self, order, shown, most=2**40):
        """The least number, as it is shown, behind which the order may end; None where none is found up to the most."""
        at_most = lambda number: self.may_be([*order, shown(number).removeprefix("(- ").removesuffix(")")])
        low = high = 0
        while not (fits := at_most(high)):
            if fits is None or high == most:
                return None
            low, high = high + 1, min(2 * high + 1, most)
        while low < high:
            middle = (low + high) // 2
            low, high = (low, middle) if at_most(middle) else (middle + 1, high)
        return shown(high)


def number_of(number, bits):
    return f"#x{number:0{bits // 4}x}" if bits % 4 == 0 else f"#b{number:0{bits}b}"


def resolved(problem, sort):
    """A sort without the names of define-sort."""
    known = {parts[1]: parts[-1] for parts in problem.definitions if parts[0] == "define-sort"}
    while isinstance(sort, str) and sort in known:
        sort = known[sort]
    return sort


def unrolled(invariant, rows):
    """That the rows are a run from `pre` to where `post` is false."""
    _, pre, trans, post = invariant
    call = lambda name, arguments: [name, *arguments] if arguments else name
    steps = [call(trans, before + after) for before, after in zip(rows, rows[1:])]
    return conjunction([call(pre, rows[0]), *steps, negated(call(post, rows[-1]))])


def rows_of(problem, arguments, steps):
    return [[fresh(problem, f"{name.strip('|')}_at_{step}") for name, _ in arguments] for step in range(steps + 1)]


def bad_runs(problem, ask):
    """Runs of loops that no invariant allows."""
    found = []
    for invariant, line in problem.invariants:
        arguments = problem.signatures[invariant[1]]
        sorts = [resolved(problem, sort) for _, sort in arguments]
        for steps in range(MOST_STEPS + 1):
            rows = rows_of(problem, arguments, steps)
            names = [name for row in rows for name in row]
            formula = unrolled(invariant, rows)
            if ask.always(problem, list(zip(names, sorts * len(rows))), negated(formula)) is False:
                run = Run(problem, ask, names, sorts * len(rows), formula)
                found += shown_run(invariant, line, arguments, rows, sorts, run)
                break
    return found


def shown_run(invariant, line, arguments, rows, sorts, run):
    _, pre, _, post = invariant
    steps = len(rows) - 1
    reached = "already where it begins" if steps == 0 else f"after {steps} step{'s' if steps > 1 else ''}"
    lines = [f"No invariant exists for line {line}: the loop reaches a state where {post} is false, {reached}."]
    before = []
    for step, row in enumerate(rows):
        state = run.state(invariant[2], before, row, sorts)
        if state is None:
            return lines
        shown = ", ".join(f"{name} = {value}" for (name, _), value in zip(arguments, state))
        note = f" ({pre} is true)" if step == 0 else ""
        lines.append(f"  step {step}: {shown}{note}{f' ({post} is false)' if step == steps else ''}")
        before = state
    return lines


def guesses(before):
    """Values that are tried first: the one before the step, one more and one less."""
    if before in ("true", "false"):
        return []
    value = literal(before if not before.startswith("(") else ["-", before[3:-1]])
    if isinstance(value, tuple):
        number, bits = value
        return [number_of((number + step) % 2**bits, bits) for step in (0, 1, -1)]
    return [str(it) if it >= 0 else f"(- {-it})" for it in (value, value + 1, value - 1)]


# All checks


def findings(text, ask, count=1):
    """What is wrong with a problem, as lines: the one of check-synth number `count` of a text that sygus takes."""
    try:
        problem = Problem(text, count)
        found = endless(problem)
        unsolvable = contradictions(problem, ask, not found)
    except (TooLarge, RecursionError, Broken):
        return []
    for function in problem.functions.values():
        found += unused(function)
    return found + unsolvable


def contradictions(problem, ask, has_terms):
    """Why there is no solution, as lines, the last of which says so; or why every function is one. Where it isn't known
    whether the assumptions can hold, rows with different values are told, and nothing is said to follow from them.
    """
    holds = can_hold(problem, ask, problem.assumptions)
    if holds is False:
        return vacuous(problem, ask)
    rows = different_rows(problem)
    shown = rows if holds else []
    if not shown and has_terms:
        shown = impossible(problem, ask) or lacking(problem, ask)
    if holds:
        shown = shown + bad_runs(problem, ask)
    return [*shown, UNSOLVABLE] if shown else rows


def main():
    parser = Parser(__doc__, prog="problem_checks.py", usage="problem_checks.py [--seconds SECONDS] FILE")
    parser.add_argument("--seconds", type=float, default=SECONDS)
    parser.add_argument("file", metavar="FILE")
    given = parser.parse_args()
    program = find_program()
    try:
        text = sys.stdin.buffer.read() if given.file == "-" else open(given.file, "rb").read()
    except OSError as error:
        say(f"problem_checks.py: {given.file}: {error.strerror}")
        return 4
    taken = Call([program, "-"], re.sub(rb"\(\s*check-synth\s*\)", b"", text)).result()
    if taken.status:
        say(taken.errors.strip(), "\ntools/explain says more")
        return taken.status
    found = findings(text, Asker(program, given.seconds))
    print("\n".join(found) or "Nothing was found.")
    return 1 if found else 0


if __name__ == "__main__":
    as_command(main)
