#!/usr/bin/env python3
"""Inputs of shorten and what it prints, computed from the customer's document alone.

Writes crates/shorten_cases/stdin (the cases) and crates/shorten_cases/stdout (the lines).
A case is the length of an input (two bytes) and the input: the length of a table, the table, an expression.

Nothing here is taken from the engine. The forms come from tests/reduction_cases.py, their text from
tests/printer_cases.py. That a step takes out a standing term, whose letters are the rule's and M's, is from
tests/shortening_cases.py; here every way to write such a step is listed.

Which step comes next is free. So only such forms are cases from which all steps to fewer terms are by one
rule and reach one form, each time until there is none. What is left is how such a step is written: its
letters may change places where that only turns the sign of M. The one with the least letters is expected.
The first and the last form must have the same value by components under random assignments.
"""
import itertools
import pathlib
import random

from check_cases import LETTERS, reached, sides, terms
from printer_cases import LONGEST, name, refused, text, whole
from reduction_cases import (
    A, B, C, D, E, F, LIMIT, NOTHING, SMALL, ZERO, Refused, add, constant, demand, dotted, letter, lines_to_try, neg, read, record, record_value, sub,
    terms_of, times, total, triple, wedged, work,
)
from shortening_cases import VECTORS, letters_of, lots, shorter, terms_of_letters, without

SIX = bytes([1] * 6 + [0, 0])  # a to f are vectors, g h scalars


def steps(kind, form):
    """Every step to fewer terms, however it is written, and the form that it reaches."""
    for lot in lots(form):
        others = {m: c for m, c in form.items() if m not in lot}
        scalars, letters = letters_of(next(iter(lot)))
        for rule, count in LETTERS.items():
            for order in set(itertools.permutations(letters, count)):
                for factors, part in terms_of_letters(without(letters, order)):
                    try:
                        brought = reached(VECTORS, (kind, {}), (rule, bytes(order), (1, factors, part)))[1]
                    except Refused:
                        continue
                    for after, coef, _ in shorter(lot, {(p, scalars + f): c for (p, f), c in brought.items()}):
                        yield (rule, order, (coef, scalars + factors, part)), others | after


def shortened(kind, form):
    """The lines of the steps, and the last form."""
    lines = []
    while True:
        found = list(steps(kind, form))
        if not found:
            return lines, form
        assert len({step[0] for step, _ in found}) == 1, "more than one rule"
        assert len({frozenset(after.items()) for _, after in found}) == 1, "more than one form"
        rule, letters, m = min(step for step, _ in found)
        assert sum(step[:2] == (rule, letters) for step in {step for step, _ in found}) == 1
        lines.append(f"rule {rule}: {' '.join(map(name, letters))}, M = {text([m])}")
        form = found[0][1]


def same_value(table, first, last):
    chance = random.Random(7)
    for _ in range(8):
        sigma = [tuple(chance.randint(-9, 9) if table[n] or i == 0 else 0 for i in range(3)) for n in range(len(table))]
        assert record_value(sigma, first) == record_value(sigma, last)


def printed(data):
    try:
        demand(data and len(data) > data[0], 1)
        table, expression = data[1: 1 + data[0]], data[1 + data[0]:]
        demand(1 <= len(table) <= 24 and all(b <= 1 for b in table), 1)
        kind, form = work(table, read(table, expression))
        lines, last = shortened(kind, form)
        ends = record(kind, form), record(kind, last)
        same_value(table, *ends)
        return [text(terms_of(ends[0])), *lines, text(terms_of(ends[1]))]
    except Refused as refusal:
        return [f"R{refusal.args[0]}"]


def expression_of(some):
    """The sum of terms of vector letters."""
    def product(coef, factors, part):
        x = letter(part[0]) if len(part) == 1 else wedged(*map(letter, part))
        for f in factors:
            x = times((dotted if len(f) == 2 else triple)(*map(letter, f)), x)
        return times(constant(coef), x)

    return total([product(*t) for t in some])


def of_rules():
    """Both sides of each rule, the right side alone, and both with M before them."""
    multipliers = {
        1: [constant(2), constant(-3), letter(6), dotted(letter(4), letter(5)), dotted(letter(0), letter(0))],
        2: [constant(-2), times(letter(6), letter(7)), dotted(letter(4), letter(5))],
        3: [constant(5), letter(5), letter(2), times(letter(6), letter(5))],
        4: [constant(-1), times(constant(LIMIT), letter(7))],
        5: [constant(2), letter(6), times(letter(6), letter(7))],
    }
    for rule, count in LETTERS.items():
        left, right = sides(rule, range(count))
        yield SIX, sub(left, right)
        yield SIX, right
        yield SIX, neg(right)
        for m in multipliers[rule]:
            yield SIX, times(m, sub(left, right))
            yield SIX, times(m, right)
        left, right = sides(rule, range(count - 1, -1, -1))
        yield SIX, add(right, right)


def inputs():
    # the form of the lines to try that rule 2 empties, and every other line
    for table, x in lines_to_try():
        yield whole(table, x)
    for table, x in of_rules():
        yield whole(table, x)
    # no step: the empty forms, constants, single terms, sums
    for x in (ZERO, NOTHING, constant(1), constant(-7), A, E, neg(times(E, F)), dotted(A, B), wedged(A, B), triple(A, B, C), times(triple(A, B, C), D),
              add(A, B), sub(E, constant(1)), add(A, wedged(B, C)), times(triple(A, B, C), triple(B, C, D)), sub(times(triple(A, B, C), D), times(triple(A, B, D), C))):
        yield whole(SMALL, x)
    # rule 2 first, which makes the term that rule 1 then needs
    _, right = sides(2, range(4))
    yield whole(SMALL, sub(right, add(times(dotted(D, A), wedged(B, C)), times(dotted(D, B), wedged(C, A)))))
    # four steps, each of which makes the next one possible
    for text_of_form in ("(a.e)(bde)*c-(a.b)(cde)*e+(a.e)(bcd)*e-(b.d)(ace)*e+(c.e)(abd)*e+(b.c)(e.e)*(a^d)-(b.c)(d.e)*(a^e)-(a.e)(c.e)*(b^d)+(a.e)(c.d)*(b^e)",
                         "(a.e)(cdf)*b-(b.c)(adf)*e+(b.c)(ade)*f+(b.f)(d.e)*(a^c)-(b.f)(c.e)*(a^d)+(b.c)(d.f)*(a^e)-(b.c)(d.e)*(a^f)+(a.e)(b.d)*(c^f)-(a.f)(b.c)*(d^e)"):
        yield whole(SIX, expression_of(terms(text_of_form)))
    # a step that would give a coefficient beyond the limit is no step
    left, right = sides(1, range(4))
    yield whole(SMALL, times(constant(LIMIT), add(left, right)))
    most = add(left, add(times(dotted(D, A), wedged(B, C)), times(dotted(D, B), wedged(C, A))))
    yield whole(SMALL, times(constant(LIMIT // 2), most))
    yield whole(SMALL, times(constant(LIMIT // 2 + 1), most))
    # equal letters
    yield whole(SMALL, sub(*sides(1, (0, 1, 2, 0))))
    yield whole(SMALL, sides(4, (0, 1, 2, 0, 1))[1])
    yield whole(SMALL, sub(*sides(4, (0, 1, 2, 0, 3))))
    yield whole(SMALL, sub(*sides(5, (0, 1, 2, 0, 1, 3))))
    # the table: missing, cut, empty, too long, of another kind
    for data in (b"", b"\x00", b"\x01", b"\x03\x01\x01", b"\x18" + bytes(23), b"\x19" + bytes(25) + A, b"\xff" * 600, b"\x01\x02" + A, b"\x02\x01\x01"):
        yield data
    yield from refused(False)
    yield LONGEST


def main():
    home = pathlib.Path(__file__).resolve().parent.parent / "crates" / "shorten_cases"
    data = list(inputs())
    lines = [printed(x) for x in data]
    stdin = b"".join(len(x).to_bytes(2, "big") + x for x in data)
    assert len(stdin) <= 65536
    for number in (1, 3, 4, 5, 6, 7, 8, 9, 10):
        assert [f"R{number}"] in lines, number
    for rule in LETTERS:
        assert any(line.startswith(f"rule {rule}:") for case in lines for line in case), rule
    (home / "stdin").write_bytes(stdin)
    (home / "stdout").write_text("".join(line + "\n" for case in lines for line in case))
    print(f"{len(lines)} inputs, {len(stdin)} bytes, {sum(len(case) - 2 for case in lines if len(case) > 1)} steps")


if __name__ == "__main__":
    main()
