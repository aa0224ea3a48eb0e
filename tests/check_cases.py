#!/usr/bin/env python3
"""Cases of the log checker and their answers, computed from the customer's document alone.

Writes crates/check_cases/stdin (the cases) and crates/check_cases/stdout (the answers).
A case is the length of a table (one byte), the table, the length of a log (two bytes), the log. Its
answer is a line: the word accepted, where the first form ends, where the last form begins and the
number of steps; or R and a number, and the step.

Nothing here is taken from the engine. A log is cut where its bit maps and counts say, and each piece
must be what tests/value_cases.py takes for a form. The sides of a rule are expressions, worked by
tests/reduction_cases.py; a form is a dictionary from monomials to coefficients and is put in order only
when it is written.

Each case says what its answer is meant to be, and that is compared; only those by chance and those with one
byte raised do not. The first and the last form of every accepted log must have the same value by components
under random assignments, and so must the two sides of each rule.

With --header, the logs that tests/benchmark.c measures are printed as C instead.
"""
import collections
import functools
import itertools
import pathlib
import random
import re
import sys

import reduction_cases as expressions
import value_cases as forms
from reduction_cases import Refused, demand, dotted, letter, sub, times, total, triple, wedged

LIMIT = forms.LIMIT


# ════ the five rules

# The letters of a rule, and its left and right side as expressions of them.
LETTERS = {1: 4, 2: 4, 3: 5, 4: 5, 5: 6}
SIDES = {
    1: lambda a, b, c, d: (times(triple(a, b, c), d),
                           total([times(dotted(d, a), wedged(b, c)), times(dotted(d, b), wedged(c, a)), times(dotted(d, c), wedged(a, b))])),
    2: lambda a, b, c, d: (times(triple(a, b, c), d),
                           total([times(triple(d, b, c), a), times(triple(a, d, c), b), times(triple(a, b, d), c)])),
    3: lambda a, b, c, d, h: (times(dotted(d, h), triple(a, b, c)),
                              total([times(dotted(d, a), triple(h, b, c)), times(dotted(d, b), triple(a, h, c)), times(dotted(d, c), triple(a, b, h))])),
    4: lambda a, b, c, d, h: (times(triple(a, b, c), wedged(d, h)),
                              total([times(triple(d, h, a), wedged(b, c)), times(triple(d, h, b), wedged(c, a)), times(triple(d, h, c), wedged(a, b))])),
    5: lambda a, b, c, d, g, h: (times(triple(a, b, c), triple(d, g, h)),
                                 total([times(dotted(wedged(b, c), wedged(d, g)), dotted(a, h)), times(dotted(wedged(c, a), wedged(d, g)), dotted(b, h)),
                                        times(dotted(wedged(a, b), wedged(d, g)), dotted(c, h))])),
}


def sides(rule, letters):
    return SIDES[rule](*map(letter, letters))


@functools.lru_cache(maxsize=None)
def left_minus_right(table, rule, letters):
    """The rule's kind and a dictionary."""
    return expressions.work(table, expressions.read(table, sub(*sides(rule, letters))))


# ════ the shape: a form is a kind and terms, a step is a rule, letters and a term

def cut_form(data):
    """The form that the bytes begin with, and the bytes behind it."""
    rest = data[2:]
    for _ in range(data[1] if len(data) > 1 else 0):
        demand(rest, 11)
        rest = forms.cut_term(rest)[1]
    form = forms.read(data[:len(data) - len(rest)])
    demand(form, 11)
    return form, rest


def cut_step(data):
    """The step that the bytes begin with, and the bytes behind it."""
    demand(data and data[0] in LETTERS, 11)
    end = 1 + LETTERS[data[0]]
    demand(len(data) > end, 11)
    (_, _, part), rest = forms.cut_term(data[end:])
    form = forms.read(bytes([part != (), 1]) + data[end:len(data) - len(rest)])  # M is a term if it makes a form
    demand(form, 11)
    return (data[0], data[1:end], form[1][0]), rest


def cut_log(log):
    """The first form, the steps, the last form; where the first ends and where the last begins."""
    demand(len(log) <= 3013, 11)
    first, rest = cut_form(log)
    end = len(log) - len(rest)
    demand(rest and rest[0] <= 64, 11)
    count, rest, steps = rest[0], rest[1:], []
    for _ in range(count):
        step, rest = cut_step(rest)
        steps.append(step)
    last = forms.read(rest)
    demand(last, 11)
    return first, steps, last, end, len(log) - len(rest)


# ════ the replay

def gathered(form):
    kind, terms = form
    return kind, {(part, factors): coef for coef, factors, part in terms}


def reached(table, current, step):
    """The form that a step leads to from the current one."""
    kind, form = current
    rule, letters, (coef, factors, part) = step
    rule_kind, difference = left_minus_right(table, rule, letters)
    demand(not (rule_kind and part), 6)
    demand(kind == (rule_kind or len(part) > 0), 6)
    demand(expressions.vector_letters((part, factors)) + len(letters) <= 6, 8)
    added = [(coef * c, factors + m[1], part + m[0]) for m, c in difference.items()]
    return expressions.gathered(kind, expressions.raw(form) + added)


def answer(table, log):
    """('accepted', where the first form ends, where the last begins, steps) or ('refused', number, step)."""
    step = 0
    try:
        demand(1 <= len(table) <= 24 and max(table) <= 1, 1)
        first, steps, last, end, start = cut_log(log)
        # the letters of a rule are vectors, as those of a vector part are
        parts = [first[1]] + [[(1, (), letters), m] for _, letters, m in steps] + [last[1]]
        for step, terms in enumerate(parts):
            number = forms.letters_refused(table, terms)
            demand(number == 0, number)
        current = gathered(first)
        for step, taken in enumerate(steps, 1):
            current = reached(table, current, taken)
        step = len(steps) + 1
        demand(current == gathered(last), 13)
    except Refused as refusal:
        return "refused", refusal.args[0], step
    return "accepted", end, start, len(steps)


def line(result):
    return " ".join(map(str, result)).replace("refused ", "R")


# ════ logs from texts

# a to f are vectors, g to x scalars; most tables end with i
WHOLE = bytes([1] * 6 + [0] * 18)
TABLE = WHOLE[:9]


def numbers(text):
    return tuple(ord(c) - ord("a") for c in text if c.isalpha())


def terms(text):
    """Terms as the printer writes them, but in any order: 2g(a.b)*c-(b^a)."""
    found = []
    for sign, size, rest in re.findall(r"([+-]?)(\d*)((?:\([^)]*\)|[a-x*])*)", text)[:-1]:  # the last is empty
        factors, part = (), ()
        for piece in re.findall(r"\([^)]*\)|[a-x]", rest):
            letters = numbers(piece)
            if "^" in piece or len(letters) == 1 and WHOLE[letters[0]]:
                part = letters
            else:
                factors += (letters,)
        found.append((int(sign + (size or "1")), factors, part))
    return found


def form(kind, text):
    return expressions.record(*expressions.gathered(kind, terms(text)))


def scalar(text):
    return form(0, text)


def vector(text):
    return form(1, text)


def step(rule, letters, m):
    return bytes([rule, *numbers(letters)]) + form(0, m)[2:]


def log(first, steps, last):
    return first + bytes([len(steps)]) + b"".join(steps) + last


def closed(first, steps, table=WHOLE):
    """The log that ends in the form reached."""
    current = gathered(forms.read(first))
    for s in steps:
        current = reached(table, current, cut_step(s)[0])
    return log(first, steps, expressions.record(*current))


def last_of(whole):
    return whole[cut_log(whole)[4]:]


def step_record(rule, letters, m):
    return bytes([rule, *letters]) + forms.record(0, [m])[2:]


def backwards(whole):
    """The same steps from the last form to the first, each M negated."""
    _, steps, _, end, start = cut_log(whole)
    back = [step_record(rule, letters, (-coef, factors, part)) for rule, letters, (coef, factors, part) in reversed(steps)]
    return log(whole[start:], back, whole[:end])


# ════ the logs that are measured

def longest_log():
    """64 steps and 2,565 bytes: every term and every step has 16, and the forms on the way have 44 to 48 terms.

    For each of 12 dots stand the four terms that rule 2 has at a b c d, as they are in the rule. A step of rule 2 changes
    their coefficients, or takes all four out; then there is room for rule 1's terms, which have to go before the last form.
    """
    dots = list(itertools.combinations_with_replacement("abcdef", 2))[:12]
    orders = ["".join(p) for p in itertools.permutations("abcd")]

    def turn(letters):
        return expressions.in_order(letters)[1]

    def rule_2(i, coef, letters):
        return step(2, letters, "{:+d}gh({}.{})".format(turn(letters) * coef, *dots[i]))

    def rule_1(i, coef, letters):
        return step(1, letters, "{:+d}gh({}.{})".format(turn(letters[:3]) * coef, *dots[i]))

    first, steps = "", []
    for i, (x, y) in enumerate(dots):
        first += "{0:+d}gh({2}.{3})(abc)*d{1:+d}gh({2}.{3})(bcd)*a{0:+d}gh({2}.{3})(acd)*b{1:+d}gh({2}.{3})(abd)*c".format(i + 2, -i - 2, x, y)
        last = "abcd"[i % 4]
        three = "abcd".replace(last, "")
        steps += [rule_2(i, -i - 2, orders[i]), rule_1(i, i - 20, three + last), rule_1(i, 20 - i, three[::-1] + last), rule_2(i, LIMIT - i, orders[23 - i])]
    steps += [rule_2(i % 12, -1000 - i, orders[i]) for i in range(16)]
    return TABLE, closed(vector(first), steps)


def log_of_eight_steps():
    """From 19 terms to 6, with rules 1 to 4."""
    short = vector("2(abc)*d+g(abd)*(c^e)-3h(b.e)(acf)*d+5i(abe)*f+g(a.b)(cde)*f+h(abc)*(a^d)")
    return TABLE, backwards(closed(short, [
        step(1, "abcd", "-2"), step(4, "abdce", "-g"), step(3, "acfbe", "3h*d"), step(2, "abef", "-5i"),
        step(1, "abfe", "-5i"), step(1, "befa", "-5i"), step(2, "cdef", "-g(a.b)"), step(4, "abcad", "-h")]))


# ════ the cases: a table, a log, and what its answer is meant to be

ACCEPTED = "accepted"
NOTHING = {0: scalar("0"), 1: vector("0")}
RULE_2 = "(abc)*d-(bcd)*a+(acd)*b-(abd)*c"  # left minus right of rule 2 at a b c d


def many(kind, count):
    """So many terms of few bytes, without dots and triples."""
    if kind:
        some = [f"{s}*{v}" for v in "abcdef" for s in "ghijklmn"]
    else:
        some = list("ghijklmnopqrstuvwx") + [s + t for s, t in itertools.combinations("ghijklmnopqrstuvwx", 2)]
    return "+".join(some[:count])


def log_of_one_step(first, one, meant):
    """The log that ends in the form reached, or in the first one where the step is not meant to be taken."""
    return closed(first, [one]) if meant == ACCEPTED else log(first, [one], first)


def lines_to_try():
    """The document's line, and the same with other last forms and other M."""
    first = vector("(bcd)*a-(acd)*b+(abd)*c-(abc)*d")
    one = step(2, "abcd", "1")
    yield TABLE, log(first, [one], vector("0")), ACCEPTED
    yield TABLE, log(first, [one], scalar("0")), "R13 2"
    yield TABLE, log(first, [one], first), "R13 2"
    yield TABLE, log(first, [step(2, "abcd", "-1")], vector("2(bcd)*a-2(acd)*b+2(abd)*c-2(abc)*d")), ACCEPTED
    yield TABLE, log(first, [one, one], vector(RULE_2)), ACCEPTED
    yield TABLE, log(vector("0"), [one], vector(RULE_2)), ACCEPTED


def no_steps():
    """A log of no steps is accepted exactly when its two forms are the same."""
    some = [scalar("0"), vector("0"), scalar("1"), scalar("-1"), vector("a"), vector("2*a"), vector("-2(a.b)*(c^d)"), vector("a-2(a.b)*(c^d)"), scalar("g"), scalar("(abc)(def)")]
    for x in some:
        yield TABLE, log(x, [], x), ACCEPTED
    for x, y in itertools.pairwise(some):
        yield TABLE, log(x, [], y), "R13 1"
        yield TABLE, log(y, [], x), "R13 1"
    yield WHOLE, log(scalar(many(0, 48)), [], scalar(many(0, 48))), ACCEPTED


def each_rule():
    """Each rule at different letters, written out by hand; its letters in other orders; other M."""
    by_hand = [
        (1, "abcd", 1, "(abc)*d-(a.d)*(b^c)+(b.d)*(a^c)-(c.d)*(a^b)"),
        (2, "abcd", 1, RULE_2),
        (3, "abcde", 0, "(d.e)(abc)-(a.d)(bce)+(b.d)(ace)-(c.d)(abe)"),
        (4, "abcde", 1, "(abc)*(d^e)-(ade)*(b^c)+(bde)*(a^c)-(cde)*(a^b)"),
        (5, "abcdef", 0, "(abc)(def)-(a.f)(b.d)(c.e)+(a.f)(b.e)(c.d)-(a.e)(b.f)(c.d)+(a.d)(b.f)(c.e)-(a.d)(b.e)(c.f)+(a.e)(b.d)(c.f)"),
    ]
    for rule, letters, kind, difference in by_hand:
        yield TABLE, log(NOTHING[kind], [step(rule, letters, "1")], form(kind, difference)), ACCEPTED
        yield TABLE, log(form(kind, difference), [step(rule, letters, "-1")], NOTHING[kind]), ACCEPTED
        yield TABLE, log(NOTHING[kind], [step(rule, letters, "-1")], form(kind, difference)), "R13 2"
        yield TABLE, log(form(kind, difference), [step(rule, letters, "1")] * 2, NOTHING[kind]), "R13 3"
        # another rule of as many letters
        if rule != 5:
            other = {1: 2, 2: 1, 3: 4, 4: 3}[rule]
            yield TABLE, log(NOTHING[kind], [step(other, letters, "1")], form(kind, difference)), "R13 2" if rule < 3 else "R6 1"
        # a and b exchanged turn all signs
        exchanged = letters[1] + letters[0] + letters[2:]
        yield TABLE, log(form(kind, difference), [step(rule, exchanged, "1")], NOTHING[kind]), ACCEPTED
    chance = random.Random(1)
    for rule in LETTERS:
        for _ in range(3):
            letters = "".join(chance.sample("abcdef", LETTERS[rule]))
            yield TABLE, closed(NOTHING[rule in (1, 2, 4)], [step(rule, letters, "1")]), ACCEPTED
    for rule, letters, ms in ((1, "fbad", "-1 7 g gh -2147483647gi (a.b) 3gh(d.f) -(c.c)"), (2, "cdfe", "-1 2g hh (a.f) -5ii(b.c)"), (3, "dacfb", "-1 gh -5g f -4gg*a h*d"),
                              (4, "fedab", "-1 2h gi"), (5, "acebdf", "-1 -9hi 2147483647g")):
        for m in ms.split():
            kind = int(rule in (1, 2, 4) or terms(m)[0][2] != ())
            yield TABLE, closed(NOTHING[kind], [step(rule, letters, m)]), ACCEPTED


def patterns(count):
    """Every way in which so many letters can be equal."""
    found = [""]
    for _ in range(count):
        found = [p + c for p in found for c in "abcdef"[:len(set(p)) + 1]]
    return found


def together(first, steps):
    """Logs that take the steps one after the other, each as many as the limits allow."""
    taken = []
    for s in steps:
        try:
            demand(len(taken) < 64, 11)
            closed(first, taken + [s])
        except Refused:
            yield closed(first, taken)
            taken = []
        taken.append(s)
    yield closed(first, taken)


def equal_letters():
    """Every pattern of equal letters, for rule 5 every third: one a log for rules 1 and 2, many a log for the others."""
    for rule in (1, 2):
        for letters in patterns(4):
            yield TABLE, closed(vector("0"), [step(rule, letters, "1")]), ACCEPTED
    for kind, rule, some in ((0, 3, patterns(5)), (1, 4, patterns(5)), (0, 5, patterns(6)[::3])):
        for whole in together(NOTHING[kind], [step(rule, letters, str(k)) for k, letters in enumerate(some, 1)]):
            yield TABLE, whole, ACCEPTED
    # both sides are equal, or all vanishes: the form is left as it is, though M added to it would be beyond the limit
    kept = {0: scalar("2147483647(a.d)(abc)-g"), 1: vector("-2147483647(abc)*a+(abc)*(a^b)")}
    for kind, rule, letters, m in ((0, 3, "abcda", "1"), (0, 3, "abcda", "2147483647"), (0, 3, "aabcd", "gh"), (0, 3, "aaaaa", "-7"), (1, 2, "abca", "-2147483647"), (1, 2, "aabb", "g(e.f)"),
                                   (1, 4, "abcab", "2147483647"), (1, 4, "aabbb", "3"), (1, 3, "abcdb", "g*f"), (1, 1, "aaaa", "2147483647gh(a.a)"), (0, 5, "aabccd", "5"), (0, 5, "aaaaaa", "g")):
        yield TABLE, log(kept[kind], [step(rule, letters, m)] * 2, kept[kind]), ACCEPTED


def kinds_and_letters():
    """6 and 8 of a step: every rule with M of each make, from the empty form of each kind."""
    vector_letters = {"-3gh": 0, "(a.b)": 2, "g(abc)": 3, "(a.a)(b.b)(c.c)": 6, "a": 1, "2h*f": 1, "(a^b)": 2, "(c.d)*e": 3, "-5(a.b)(c.d)*(e^f)": 6}
    for kind, rule, (m, count) in itertools.product((0, 1), LETTERS, vector_letters.items()):
        part = terms(m)[0][2] != ()
        letters = "fdbace"[:LETTERS[rule]]
        fits = kind == 1 and not part if rule in (1, 2, 4) else kind == part
        meant = "R6 1" if not fits else "R8 1" if count + len(letters) > 6 else ACCEPTED
        yield TABLE, log_of_one_step(NOTHING[kind], step(rule, letters, m), meant), meant
    # 8 counts the letters though all of it would vanish
    for rule, letters, m in ((1, "aaaa", "(abc)"), (2, "abca", "(a.b)(c.d)"), (4, "aaaaa", "(a.a)")):
        yield TABLE, log(vector("a"), [step(rule, letters, m)], vector("a")), "R8 1"
    for rule, letters, m in ((3, "abcda", "(a.a)"), (5, "aaaaaa", "(a.a)")):
        yield TABLE, log(scalar("g"), [step(rule, letters, m)], scalar("g")), "R8 1"
    yield TABLE, log(vector("a"), [step(5, "aaaaaa", "a")], vector("a")), "R8 1"


def coefficients():
    """9: gathered coefficients at the limit and beyond, partial sums beyond, products with M beyond."""
    top = LIMIT
    for n, m, meant in ((top - 1, 1, ACCEPTED), (top, 1, "R9 1"), (1 - top, -1, ACCEPTED), (-top, -1, "R9 1"), (0, top, ACCEPTED), (0, -top, ACCEPTED), (1, top, "R9 1"), (-1, top, ACCEPTED),
                        (-1, -top, "R9 1"), (1, -top, ACCEPTED), (top, -top, ACCEPTED), (-top, top, ACCEPTED), (top, top, "R9 1"), (-top, -top, "R9 1"), (-top, 1, ACCEPTED), (top, -1, ACCEPTED)):
        yield TABLE, log_of_one_step(vector(f"{n}(abc)*d"), step(2, "abcd", str(m)), meant), meant
    # the same at each term of the right side: there M is taken off, with the term's sign
    for term, turn in (("(bcd)*a", -1), ("(acd)*b", 1), ("(abd)*c", -1)):
        for n, meant in ((turn * top, "R9 1"), (-turn * top, ACCEPTED), (turn * (top - 1), ACCEPTED)):
            yield TABLE, log_of_one_step(vector(f"{n}{term}"), step(2, "abcd", "1"), meant), meant
    # (abc)(abc) has 2(a.b)(a.c)(b.c) on the right: M alone within the limits, twice M beyond
    half = 1 << 30
    for n, m, meant in ((0, half - 1, ACCEPTED), (0, half, "R9 1"), (0, -half, "R9 1"), (1, half, ACCEPTED), (-1, -half, ACCEPTED), (-1, half, "R9 1"), (top, top, ACCEPTED), (-top, -top, ACCEPTED),
                        (top - 1, top, "R9 1"), (0, top, "R9 1"), (-top, top, "R9 1")):
        yield TABLE, log_of_one_step(scalar(f"{n}(a.b)(a.c)(b.c)"), step(5, "abcabc", str(m)), meant), meant
    # one of several steps goes beyond
    big, less, same = step(2, "abcd", str(top)), step(2, "abcd", "-1"), step(2, "abcd", "1")
    start = vector("0")
    yield TABLE, closed(start, [big, less, same, less]), ACCEPTED
    yield TABLE, log(start, [big, same], start), "R9 2"
    yield TABLE, log(start, [big, less, same, same], start), "R9 4"
    yield TABLE, log(start, [big, less, same, same, less], vector(RULE_2)), "R9 4"
    yield TABLE, log(start, [same, big, less], start), "R9 2"
    yield TABLE, log(start, [less, big, same, big], start), "R9 4"
    # from one limit to the other, by exchanged letters
    yield TABLE, closed(start, [big, step(2, "bacd", str(top)), big]), ACCEPTED
    yield TABLE, log(start, [big, step(2, "bcad", "1")], start), "R9 2"
    # like terms are told apart by a scalar letter
    yield TABLE, closed(start, [big, step(2, "abcd", f"{top}g"), step(2, "abcd", f"{top}gh")]), ACCEPTED


def numbers_of_terms():
    """10: 48 terms and 49, after gathering and never before; 9 before 10 at one step."""
    for kind, rule, letters, new in ((0, 3, "abcde", 4), (0, 5, "abcdef", 7), (1, 1, "abcd", 4), (1, 2, "abcd", 4), (1, 4, "abcde", 4), (0, 5, "abcabc", 6)):
        one = step(rule, letters, "1")
        yield WHOLE, log(form(kind, many(kind, 49 - new)), [one], NOTHING[kind]), "R10 1"
        if rule in (1, 5):
            yield WHOLE, closed(form(kind, many(kind, 48 - new)), [one]), ACCEPTED
    one, back = step(2, "abcd", "1"), step(2, "abcd", "-1")
    start = vector("0")
    # terms that go make room in the same step
    yield WHOLE, closed(vector(many(1, 46) + "-(abc)*d+(bcd)*a"), [one]), ACCEPTED
    yield WHOLE, log(vector(many(1, 46) + "-(abc)*d-(bcd)*a"), [one], start), "R10 1"
    yield WHOLE, log(vector(many(1, 47) + "-(abc)*d"), [one], start), "R10 1"
    yield WHOLE, closed(vector(many(1, 44) + "+" + RULE_2), [back]), ACCEPTED
    full = vector(many(1, 48))
    yield WHOLE, log(full, [step(2, "abca", "7g(a.b)"), step(4, "aaaaa", "1")], full), ACCEPTED
    yield WHOLE, log(full, [one, back], full), "R10 1"
    # not at the first step
    grown, other = vector(many(1, 44)), step(1, "abce", "1")
    yield WHOLE, log(grown, [one, other], start), "R10 2"
    yield WHOLE, log(grown, [one, back, one, step(2, "abcd", "g")], start), "R10 4"
    # 9 before 10 at one step, whatever comes first in the form; an earlier step's 10 before a later one's 9
    heavy = vector(many(1, 46) + f"+{LIMIT}(abc)*d")
    yield WHOLE, log(heavy, [one], start), "R9 1"
    yield WHOLE, log(heavy, [other, one], start), "R10 1"
    yield WHOLE, log(vector(many(1, 46) + f"-{LIMIT}(abd)*c"), [one], start), "R9 1"


# Steps from the empty vector form: the fifth to the seventh take out what the first three brought in, by two letters exchanged.
EIGHT = [step(1, "abcd", "1"), step(4, "bcdae", "g"), step(3, "abcde", "f"), step(2, "dbca", "-2"), step(1, "cbad", "1"), step(4, "bdcae", "g"), step(3, "acbde", "f"), step(4, "abcad", "3")]


def numbers_of_steps():
    """Logs of 0, 1, 2, 8 and 64 steps, growing and shrinking; the longest that is accepted and the longest in shape."""
    start = vector("0")
    for n in (1, 2, 3, 8):
        whole = closed(start, EIGHT[:n])
        yield TABLE, whole, ACCEPTED
        yield TABLE, backwards(whole), ACCEPTED
    yield *log_of_eight_steps(), ACCEPTED
    small = step(2, "abcd", "1")
    whole = closed(start, [small] * 64)
    yield TABLE, whole, ACCEPTED
    yield TABLE, log(start, [small] * 64, vector(RULE_2)), "R13 65"
    yield TABLE, log(start, [small] * 63 + [step(2, "abcd", "(abc)")], start), "R8 64"
    yield TABLE, log(start, [small] * 63 + [step(2, "abcj", "1")], start), "R5 64"
    yield TABLE, log(start, [small] * 64, vector("j*a")), "R5 65"
    yield TABLE, whole[:2] + bytes([65]) + small + whole[3:], "R11 0"
    table, longest = longest_log()
    assert len(longest) == 2565
    yield table, longest, ACCEPTED
    _, _, _, end, begin = cut_log(longest)
    in_shape = log(longest[:end], [bytes([5, *range(6)]) + longest[2:18]] * 64, longest[begin:])
    assert len(in_shape) == 3013
    yield table, in_shape, "R8 1"


def wrong_step():
    """One wrong step at each place of a log of eight: it is refused there, or, where it can be taken, another form is reached."""
    start = vector("0")
    last = last_of(closed(start, EIGHT))
    for k in range(8):
        yield TABLE, log(start, EIGHT[:k] + [step(3, "abcde", "g")] + EIGHT[k + 1:], start), f"R6 {k + 1}"
        yield TABLE, log(start, EIGHT[:k] + [step(2, "abcd", "(abc)")] + EIGHT[k + 1:], start), f"R8 {k + 1}"
        changed = EIGHT[k][:1] + bytes([5]) + EIGHT[k][2:]  # f for the rule's first letter
        yield TABLE, log(start, EIGHT[:k] + [changed] + EIGHT[k + 1:], last), "R13 9"
    yield TABLE, log(start, EIGHT[:7], last), "R13 8"
    yield TABLE, log(start, EIGHT[1:], last), "R13 8"
    # at the limit, one step beyond
    near = vector(f"{LIMIT - 4}(abc)*d")
    ones = [step(2, "abcd", "1")] * 4
    yield TABLE, closed(near, ones), ACCEPTED
    for k in range(4):
        yield TABLE, log(near, ones[:k] + [step(2, "abcd", "7")] + ones[k:], near), f"R9 {k + 1}"


def order_of_steps():
    """The same steps in another order reach the same form, unless one of them is refused on the way."""
    start = vector("0")
    last = last_of(closed(start, EIGHT))
    for k in (1, 3, 6):
        yield TABLE, log(start, EIGHT[k:] + EIGHT[:k], last), ACCEPTED
    yield TABLE, log(start, EIGHT[::-1], last), ACCEPTED
    up, down = step(2, "abcd", "2"), step(2, "abcd", "-2")
    near = vector(f"{LIMIT - 1}(abc)*d")
    for order, meant in (((down, up), ACCEPTED), ((up, down), "R9 1"), ((down, up, down, up), ACCEPTED), ((down, up, up, down), "R9 3"), ((down, down, up, up), ACCEPTED), ((up, down, down, up), "R9 1")):
        yield TABLE, log(near, order, near), meant
    out, other = step(2, "abcd", "-1"), step(1, "abce", "g")
    full = vector(many(1, 44) + "+" + RULE_2)
    yield WHOLE, closed(full, [out, other]), ACCEPTED
    yield WHOLE, log(full, [other, out], vector("0")), "R10 1"
    # a step that was right where the form had its kind
    yield TABLE, log(scalar("0"), [step(3, "abcde", "1"), step(3, "abcde", "f")], scalar("0")), "R6 2"
    yield TABLE, log(start, [step(3, "abcde", "f"), step(3, "abcde", "1")], start), "R6 2"


def last_form():
    """13: the last form is not the one reached."""
    two = [step(3, "abcde", "2"), step(3, "abcad", "-1")]
    first = scalar("g-2(d.e)(abc)")
    good = closed(first, two)
    yield TABLE, good, ACCEPTED
    right = forms.read(last_of(good))[1]
    others = [first, last_of(closed(first, two[:1])), scalar("0"), vector("0"), forms.record(0, right[:-1]), forms.record(0, right[1:]),
              forms.record(0, [(-coef, factors, part) for coef, factors, part in right]), forms.record(0, [(1, (), ())] + right)]
    for k in (0, 3, len(right) - 1):
        coef, factors, part = right[k]
        others.append(forms.record(0, right[:k] + [(3 * coef, factors, part)] + right[k + 1:]))
    for last in others:
        yield TABLE, log(first, two, last), "R13 3"
    # first and last of unlike kind, empty ones too
    for x, y in ((scalar("0"), vector("0")), (vector("0"), scalar("0")), (scalar("g"), vector("g*a")), (vector("a"), scalar("(a.a)"))):
        yield TABLE, log(x, [], y), "R13 1"
        yield TABLE, log(x, [step(3, "aaaaa", "f" if x[0] else "1")] * 3, y), "R13 4"
    yield TABLE, log(vector(RULE_2), [step(2, "abcd", "-1")], scalar("0")), "R13 2"


# Bytes of a term that is not in shape, and the kind of a form that has it.
BAD_TERMS = [(kind, bytes.fromhex(x)) for kind, x in (
    # bits 6 and 7, bits 4 and 5 together
    (0, "40"), (0, "80"), (1, "30000001"),
    # a coefficient of 0, of 1, beyond
    (0, "0100000000"), (0, "0100000001"), (0, "0180000000"), (1, "110000000100"),
    # counts of 0
    (0, "0200"), (0, "0400"), (0, "0800"),
    # too many letters
    (0, "0203060606"), (0, "04040000000000000000"), (0, "0c020000000001000102"), (1, "180200010200010203"), (1, "24030000000000000405"),
    # letters and factors out of order, equal letters in a triple and a wedge
    (0, "02020706"), (0, "04010100"), (0, "040200010000"), (0, "0801000001"), (0, "0801000201"), (0, "0802000103000102"), (1, "200100"), (1, "200000"),
)]

# Bytes that are not a form: cut, a kind, a count, terms of the other kind, terms out of order, like terms, a byte left over.
BAD_FORMS = [bytes.fromhex(x) for x in (
    "", "00", "01", "0200", "ff00", "0031", "0001", "00011000", "010100", "0002020107020106", "00020202060704010001", "01022000011005", "010210011000",
    "0002020106020106", "000202010603000000020106", "000102010600")]


def shape():
    """11: a fault in each field of each part; the step is 0 wherever it is."""
    first, one, two = scalar("g"), step(3, "abcde", "h"), step(5, "abcdef", "1")
    good = log(first, [one, two], first)
    yield TABLE, good, "R13 3"
    for k, (kind, term) in enumerate(BAD_TERMS):
        bad = bytes([kind, 1]) + term
        yield TABLE, log(first, [one, two], bad) if k % 2 else log(bad, [one, two], first), "R11 0"
        yield TABLE, log(first, [one[:6] + term, two] if k % 2 else [one, two[:7] + term], first), "R11 0"
    for bad in BAD_FORMS:
        yield TABLE, log(bad, [one, two], first), "R11 0"
        yield TABLE, log(first, [one, two], bad), "R11 0"
    yield WHOLE, log(first, [one, two], forms.record(0, sorted(terms(many(0, 49)), key=forms.position))), "R11 0"
    # the count byte
    at = len(first)
    for count in (0, 1, 3, 64, 65, 255):
        yield TABLE, good[:at] + bytes([count]) + good[at + 1:], "R11 0"
    yield TABLE, log(first, [], first) + b"\0", "R11 0"
    yield TABLE, first + bytes([65]) + first, "R11 0"
    # the rule's number, one letter too few or too many
    for rule in (0, 1, 2, 4, 5, 6, 128, 255):
        wrong = bytes([rule]) + one[1:]
        yield TABLE, log(first, [wrong, two], first), "R6 1" if rule == 4 else "R11 0"
        yield TABLE, log(first, [two, wrong], first), "R6 2" if rule == 4 else "R11 0"
    for rule, count in itertools.product((0, 6), (0, 4, 6, 7)):
        yield TABLE, log(first, [bytes([rule]) + bytes(count) + one[6:]], first), "R11 0"
    for wrong in (one[:5] + one[6:], one[:6] + b"\0" + one[6:], one[:6], one[:1], b""):
        yield TABLE, first + b"\1" + wrong + first, "R11 0"
    # bytes left over
    for more in (b"\0", b"\1", first, good):
        yield TABLE, good + more, "R11 0"
    for data in (bytes(3), bytes(4), bytes(6), bytes(range(40)), bytes([255] * 40)):
        yield TABLE, data, "R11 0"


def cut_anywhere():
    """A log of two steps that leave the form, cut at every byte; and each of its bytes raised by one, where the answer depends on the byte."""
    kept = vector("-2g*c")
    whole = log(kept, [step(2, "abca", "(e.f)"), step(3, "abcdb", "3h*f")], kept)
    yield TABLE, whole, ACCEPTED
    for n in range(len(whole)):
        yield TABLE, whole[:n], "R11 0"
        yield TABLE, whole[:n] + bytes([(whole[n] + 1) % 256]) + whole[n + 1:], ""


# Factors and a vector part with a letter that is absent from TABLE or of the wrong kind, and the number of the first.
BAD_LETTERS = [
    (((9,),), (), 5), (((0,),), (), 6), (((6,), (24,)), (), 5), (((0,), (9,)), (), 6),
    (((0, 9),), (), 5), (((0, 6),), (), 6), (((6, 255),), (), 6), (((9, 9),), (), 5),
    (((0, 1, 9),), (), 5), (((0, 1, 8),), (), 6), (((0, 6, 9),), (), 6), (((9, 10, 11),), (), 5),
    ((), (9,), 5), ((), (6,), 6), ((), (0, 9), 5), ((), (0, 6), 6), ((), (6, 9), 6),
    (((9,), (0, 6)), (), 5), (((0,), (0, 9)), (), 6), (((0, 9), (0, 1, 6)), (), 5), (((0, 6), (0, 1, 9)), (), 6), (((0, 1, 6),), (9,), 6), (((0, 1, 9),), (0, 6), 5),
    (((0, 9), (1, 6)), (), 5), (((0, 6), (1, 9)), (), 6), (((0, 1, 9), (0, 2, 6)), (), 5),
]


def letters_of_the_table():
    """5 and 6 of letters: each field of each part, with its step."""
    first, one, two = scalar("g"), step(3, "abcde", "h"), step(5, "abcdef", "1")
    for k, (factors, part, number) in enumerate(BAD_LETTERS):
        bad = forms.record(int(part != ()), [(1, factors, part)])
        yield TABLE, log(bad, [one, two], first), f"R{number} 0"
        yield TABLE, log(first, [one, two[:7] + bad[2:]] if k % 2 else [one[:6] + bad[2:], two], first), f"R{number} {k % 2 + 1}"
        yield TABLE, log(first, [one, two], bad), f"R{number} 3"
    for rule, count in LETTERS.items():
        kind = int(rule in (1, 2, 4))
        good = step(rule, "abcdef"[:count], "1")
        for k in range(count):
            x, number = (9 + 7 * k, 5) if (k + rule) % 2 else (6 + k % 3, 6)
            wrong = good[:1 + k] + bytes([x]) + good[2 + k:]
            yield TABLE, log(NOTHING[kind], [good] * (k % 3) + [wrong], NOTHING[kind]), f"R{number} {k % 3 + 1}"
    for wrong, number in ((bytes([0, 9, 6, 1, 2]), 5), (bytes([0, 6, 9, 1, 2]), 6)):
        yield TABLE, log(first, [one, one[:1] + wrong + one[6:]], first), f"R{number} 2"
    # the last letter of the table is in it
    yield WHOLE, log(scalar("x"), [], scalar("x")), ACCEPTED
    yield WHOLE[:23], log(scalar("x"), [], scalar("x")), "R5 0"
    yield WHOLE[:23], log(scalar("w"), [], scalar("x")), "R5 1"
    yield bytes([1] * 24), closed(vector("0"), [step(2, "abcd", "1")]), ACCEPTED
    yield bytes(24), closed(vector("0"), [step(2, "abcd", "1")]), "R6 1"
    yield bytes([1] * 3), closed(vector("0"), [step(2, "abcd", "1")]), "R5 1"
    yield bytes([1] * 4), closed(vector("0"), [step(2, "abcd", "1")]), ACCEPTED


def order_of_refusals():
    """Two faults in one log: the table, the shape of all, letters in byte order, then step by step, then the last form."""
    absent, wrong = forms.record(0, [(7, ((9,),), ())]), forms.record(0, [(7, ((0,),), ())])
    first, one = scalar("g"), step(3, "abcde", "h")

    def parts(faults):
        """A log with an absent letter (5) or one of the wrong kind (6) at the places named."""
        term = {5: absent, 6: wrong}
        rule = [one[:2] + bytes([{5: 200, 6: 7}[faults[p]]]) + one[3:6] if p in faults else one[:6] for p in (1, 3)]
        ms = [term[faults[p]][2:] if p in faults else one[6:] for p in (2, 4)]
        ends = [term[faults[p]] if p in faults else first for p in (0, 5)]
        return log(ends[0], [rule[0] + ms[0], rule[1] + ms[1]], ends[1])

    steps_of = (0, 1, 1, 2, 2, 3)  # first form, rule and M of step 1, rule and M of step 2, last form
    for p, q in itertools.combinations(range(6), 2):
        for x, y in ((5, 6), (6, 5)):
            yield TABLE, parts({p: x, q: y}), f"R{x} {steps_of[p]}"
    # the shape of the end before letters at the beginning
    for p in range(6):
        yield TABLE, parts({p: 5}) + b"\0", "R11 0"
        yield TABLE, parts({p: 6})[:-1], "R11 0"
    # a table before all
    for table in (b"", bytes(25), bytes([1] * 8 + [2]), bytes([255])):
        for data in (b"", parts({}), parts({0: 5}), parts({5: 6}) + b"\0"):
            yield table, data, "R1 0"
    # letters anywhere before any step, a step's own refusal before the next step's, at one step 6 before 8 before 9, and 13 last
    small, heavy = vector(f"{LIMIT}(abc)*d"), vector(many(1, 46) + f"+{LIMIT}(abc)*d")
    own = {6: step(3, "abcde", "1"), 8: step(1, "abcd", "(def)"), 9: step(2, "abcd", "1"), 10: step(2, "abce", "1")}
    for x, y in itertools.permutations(own, 2):
        yield WHOLE, log(heavy if 10 in (x, y) else small, [own[x], own[y]], vector("0")), f"R{x} 1"
    for x in own:
        first = heavy if x == 10 else small
        yield WHOLE[:14], log(first, [own[x]], vector("o*a")), "R5 2"
        yield WHOLE[:14], log(first, [own[x], step(2, "abcg", "1")], vector("0")), "R6 2"
        yield WHOLE[:14], log(first, [own[x]], vector("0")) + b"\0", "R11 0"
    yield TABLE, log(small, [step(3, "abcde", "(a.a)")], small), "R6 1"
    yield TABLE, log(small, [step(1, "abcd", "(abc)*d")], small), "R6 1"
    yield TABLE, log(small, [step(2, "abcd", "2147483647(abc)")], small), "R8 1"
    yield TABLE, log(small, [step(2, "abcd", "1")], scalar("0")), "R9 1"
    # the kinds are compared though both sides are equal
    yield TABLE, log(scalar("0"), [step(2, "abca", "1")], scalar("0")), "R6 1"
    yield TABLE, log(small, [step(2, "abcd", "-1"), step(2, "abcd", "1"), own[6]], scalar("0")), "R6 3"
    yield TABLE, log(small, [own[8], own[9]], vector("j*a")), "R5 3"
    yield TABLE, log(small, [own[9], step(2, "abcj", "1"), own[6]], vector("0")), "R5 2"
    yield TABLE, log(small, [own[9], own[6], step(2, "abcd", "j")], vector("0")), "R5 3"


# ════ by chance

def any_coefficient(chance):
    return chance.choice((1, 1, 1, -1, -1, 2, -3, chance.randint(2, 99), LIMIT - chance.randrange(3), chance.randrange(3) - LIMIT))


def any_step(chance, kind):
    """A step in shape whose kind and letters fit, but for one in ten."""
    rule = chance.choice((1, 2, 4, 1, 2, 4, 3) if kind else (3, 5))
    letters = chance.choices(range(6), k=LETTERS[rule]) if chance.random() < 0.3 else chance.sample(range(6), LETTERS[rule])
    factors, part = tuple(sorted((chance.randrange(6, 9),) for _ in range(chance.choice((0, 0, 1, 2))))), ()
    if rule < 3 and chance.random() < 0.4:
        factors += (tuple(sorted(chance.choices(range(6), k=2))),)
    if kind and rule == 3:
        part = (chance.randrange(6),)
    odd = chance.random()
    if odd < 0.05:
        factors += ((0, 1, 2),)
    elif odd < 0.1:
        part = chance.choice(((), (1,), (2, 5)))
    return rule, bytes(letters), (any_coefficient(chance), factors, part)


def meeting_step(chance, kind, form):
    """A step that takes a term out of the form, if some term has the left side of a rule."""
    found = []
    for (part, factors), coef in form.items():
        for f in factors:
            rest = list(factors)
            rest.remove(f)
            if len(f) == 3 and part:
                found += [(rule, bytes(f + part), (-coef, tuple(rest), ())) for rule in ((1, 2) if len(part) == 1 else (4,))]
            for g in rest if len(f) == 3 else ():
                if len(g) > 1:
                    left = list(rest)
                    left.remove(g)
                    found.append(({2: 3, 3: 5}[len(g)], bytes(f + g), (-coef, tuple(left), part)))
    return chance.choice(found) if found else any_step(chance, kind)


def random_log(chance, most_terms=3, most_steps=4):
    """A table, and a log that ends in the form reached, or in the one before a step that is refused."""
    kind = chance.randrange(2)
    first = forms.record(kind, forms.chosen_form(chance, kind, chance.randint(0, most_terms), range(6), range(6, 9), lambda: any_coefficient(chance)))
    current, steps, able = gathered(forms.read(first)), [], True
    for _ in range(chance.randint(0, most_steps)):
        way = chance.random()
        if way < 0.2 and steps:
            rule, letters, (coef, factors, part) = chance.choice(steps)
            steps.append((rule, letters, (chance.choice((coef, -coef)), factors, part)))
        else:
            steps.append(meeting_step(chance, kind, current[1]) if way < 0.6 else any_step(chance, kind))
        try:
            current = reached(TABLE, current, steps[-1]) if able else current
        except Refused:
            able = False
    return TABLE, log(first, [step_record(*s) for s in steps], expressions.record(*current))


def damaged_log(chance, *most):
    """A random log with one thing changed: a step, the order of steps, the last form, a byte, the table."""
    table, whole = random_log(chance, *most)
    _, steps, last, end, start = cut_log(whole)
    way = chance.randrange(10)
    if way < 5 and steps:
        records = [step_record(*s) for s in steps]
        k = chance.randrange(len(steps))
        rule, letters, (coef, factors, part) = steps[k]
        if way == 0:
            records[k:k + 1] = chance.choice(([], [records[k]] * 2))
        elif way == 1:
            records[k] = step_record(chance.choice((rule ^ 3 if rule < 3 else 7 - rule, chance.randrange(7))), letters, (coef, factors, part))
        elif way == 2:
            letters = bytearray(letters)
            letters[chance.randrange(len(letters))] = chance.choice((0, 1, 2, 3, 4, 5, 6, 9, 255))
            records[k] = step_record(rule, letters, (coef, factors, part))
        elif way == 3:
            records[k] = step_record(rule, letters, (chance.choice((-coef, coef + 1, 0)), factors, part))
        else:
            chance.shuffle(records)
        whole = log(whole[:end], records, whole[start:])
    elif way == 5:
        negated = forms.record(last[0], [(-coef, factors, part) for coef, factors, part in last[1]])
        whole = whole[:start] + chance.choice((whole[:end], NOTHING[0], NOTHING[1], negated, last_of(random_log(chance, *most)[1])))
    elif way == 6:
        table = chance.choice((table[:chance.randrange(9)], table[:-1] + b"\2", table + bytes(chance.randrange(20)), bytes(reversed(table))))
    else:
        at = chance.randrange(len(whole))
        byte = chance.choice((0, 1, 2, 3, 4, 5, 6, 8, 9, 16, 32, 64, 255, whole[at] ^ 1 << chance.randrange(8)))
        whole = whole[:at] + chance.choice((b"", bytes([byte]), bytes([byte]), bytes([byte, whole[at]]))) + whole[at + 1:]
    return table, whole


def by_chance():
    """Random logs, and random damages of such."""
    chance = random.Random(20261116)
    for _ in range(30):
        yield *random_log(chance, 2, 3), ""
    for _ in range(50):
        yield *damaged_log(chance, 2, 2), ""


GROUPS = (lines_to_try, no_steps, each_rule, equal_letters, kinds_and_letters, coefficients, numbers_of_terms, numbers_of_steps, wrong_step, order_of_steps, last_form,
          shape, cut_anywhere, letters_of_the_table, order_of_refusals, by_chance)


# ════ the program

def check_values(accepted):
    """Both sides of each rule have equal values by components, and so have the ends of each accepted log."""
    chance = random.Random(3)

    def assignment():
        return [tuple(chance.randint(-1000, 1000) for _ in range(3)) for _ in range(24)]

    for rule, count in LETTERS.items():
        for _ in range(200):
            left, right = (expressions.read(WHOLE, x) for x in sides(rule, chance.choices(range(6), k=count)))
            sigma = assignment()
            assert expressions.value(WHOLE, sigma, left) == expressions.value(WHOLE, sigma, right), rule
    for data, end, start in accepted:
        for _ in range(3):
            sigma = assignment()
            assert expressions.record_value(sigma, data[:end]) == expressions.record_value(sigma, data[start:]), data.hex()


def place(data, step):
    """Where in a log a refusal is."""
    last = len(cut_log(data)[1]) + 1
    return {0: "first form", last: "last form", last - 1: "last step"}.get(step, "step before")


# The refusals that the cases have to show, each where it can be.
SHOWN = {(number, where) for number, places in (
    (5, ("first form", "step before", "last step", "last form")), (6, ("first form", "step before", "last step", "last form")),
    (8, ("step before", "last step")), (9, ("step before", "last step")), (10, ("step before", "last step")), (13, ("last form",))) for where in places}


def write_header():
    for name, (table, data) in (("longest", longest_log()), ("eight", log_of_eight_steps())):
        for what, some in ((f"{name}_table", table), (f"{name}_log", data)):
            print(f"static const uint8_t {what}[{len(some)}] = {{{', '.join(map(str, some))}}};")


def write_cases():
    stdin, lines, accepted, refused, counts = b"", [], [], set(), collections.Counter()
    for group in GROUPS:
        before = len(lines)
        for table, data, meant in group():
            result = answer(table, data)
            lines.append(line(result))
            assert meant in ("", lines[-1], lines[-1].split()[0]), (group.__name__, len(lines) - before, table.hex(), data.hex(), lines[-1], meant)
            stdin += bytes([len(table)]) + table + len(data).to_bytes(2, "big") + data
            if result[0] == "accepted":
                accepted.append((data, result[1], result[2]))
            else:
                counts[result[1]] += 1
                if result[1] not in (1, 11):
                    refused.add((result[1], place(data, result[2])))
        print(f"{group.__name__}: {len(lines) - before}")
    assert len(stdin) <= 65536, len(stdin)
    assert refused == SHOWN, refused ^ SHOWN
    check_values(accepted)
    home = pathlib.Path(__file__).resolve().parent.parent / "crates" / "check_cases"
    home.mkdir(exist_ok=True)
    (home / "stdin").write_bytes(stdin)
    (home / "stdout").write_text("\n".join(lines) + "\n")
    print(f"{len(lines)} cases, {len(stdin)} bytes, {len(accepted)} accepted, refused {dict(sorted(counts.items()))}")


if __name__ == "__main__":
    if sys.argv[1:] == ["--header"]:
        write_header()
    else:
        write_cases()
