#!/usr/bin/env python3
"""Cases of shortening and their answers, computed from the customer's document alone.

Writes crates/shortening_cases/stdin (the cases) and crates/shortening_cases/stdout (the answers).
A case is the length of a table (one byte), the table, the length of a form (two bytes), the form, and how many bytes are
lent for the log (two bytes). Its answer is a line: the terms of the form and of the last form, or R and a number.

Nothing here is taken from the engine. A step leads to fewer terms only where it takes out a standing term. All that it
brings in has the letters of its rule and of M together, so these are the letters of that term, and M's coefficient is
what takes it out: every rule, all orders of such letters and every such M are tried, by tests/check_cases.py. For forms
of four letters the steps found are compared with those of all letters of the table and all M.

Which shortening step comes next is free. So every form that some path of such steps reaches is visited, and a case is
kept only where all paths end with the same number of terms; how many are left out is printed. Steps keep apart terms of
unlike letters, so the forms are visited for each lot of letters alone. One path of each case is written as a log, which
tests/check_cases.py must accept.

Each case says what its answer is meant to be, and that is compared; only those by chance do not.

With --header, the forms that tests/benchmark.c measures are printed as C instead.
"""
import collections
import functools
import itertools
import pathlib
import random
import sys

import check_cases as logs
import decision_cases as decisions
import reduction_cases as expressions
import value_cases as forms
from check_cases import LIMIT, NOTHING, TABLE, WHOLE, form, log, scalar, vector
from decision_cases import rule_terms, sum_of
from reduction_cases import Refused, demand, letter, neg, sub, times, total, triple, wedged

LENT = 2309
VECTORS = bytes([1] * 24)


# ════ every step that can shorten a form: a dictionary from monomials to coefficients

def letters_of(m):
    """The scalar letters and the vector letters of a monomial, ascending."""
    part, factors = m
    return tuple(f for f in factors if len(f) == 1), tuple(sorted(itertools.chain(part, *(f for f in factors if len(f) > 1))))


def terms_of_letters(letters):
    """Every term of at most two vector letters: factors and a part."""
    return {0: [((), ())], 1: [((), letters)], 2: [((letters,), ()), ((), letters)]}[len(letters)]


def without(letters, some):
    rest = list(letters)
    for x in some:
        rest.remove(x)
    return tuple(rest)


@functools.lru_cache(maxsize=None)
def brought_in_by_places(kind, places):
    """What steps with these vector letters bring into a form of the kind where M's coefficient is 1: dictionaries, none twice and none the negative
    of another, each with its rule, the rule's letters and M."""
    found = {}
    for rule, count in logs.LETTERS.items():
        for order in sorted(set(itertools.permutations(places, count))):
            for m in terms_of_letters(without(places, order)):
                try:
                    _, difference = logs.reached(VECTORS, (kind, {}), (rule, bytes(order), (1, *m)))
                except Refused:
                    continue
                negative = {n: -c for n, c in difference.items()}
                if difference and frozenset(negative.items()) not in found:
                    found.setdefault(frozenset(difference.items()), (difference, rule, order, m))
    return list(found.values())


@functools.lru_cache(maxsize=None)
def brought_in(kind, letters):
    """The same for any letters, ascending: only their order matters, so it is found once for the letters 0, 1, 2 and so on."""
    distinct = sorted(set(letters))

    def put(places):
        return tuple(distinct[x] for x in places)

    def put_all(factors):
        return tuple(map(put, factors))

    return [({(put(p), put_all(f)): c for (p, f), c in difference.items()}, rule, bytes(put(order)), (put_all(factors), put(part)))
            for difference, rule, order, (factors, part) in brought_in_by_places(kind, tuple(map(distinct.index, letters)))]


def shorter(terms, brought):
    """The terms after each multiple of what is brought in that takes a term out, where they are fewer and within the limits; and how often
    what is brought in has the term taken out."""
    for m, k in brought.items():
        if m not in terms or terms[m] % k:
            continue
        times = -terms[m] // k
        after = terms | {n: terms.get(n, 0) + times * c for n, c in brought.items()}
        after = {n: c for n, c in after.items() if c}
        if len(after) < len(terms) and all(abs(c) <= LIMIT for c in after.values()):
            yield after, times, k


def shortening_steps(kind, lot):
    """Every admissible step that leads from terms of the same letters to fewer: the terms reached, the step, and how often it has the term that
    it takes out."""
    scalars, letters = letters_of(next(iter(lot)))
    for difference, rule, order, (factors, part) in brought_in(kind, letters):
        for after, coef, k in shorter(lot, {(p, scalars + f): c for (p, f), c in difference.items()}):
            yield after, (rule, order, (coef, scalars + factors, part)), k


def lots(terms):
    """The terms of a form, those of the same letters together."""
    found = collections.defaultdict(dict)
    for m, c in terms.items():
        found[letters_of(m)][m] = c
    return list(found.values())


def path(kind, lot):
    """The steps of one path of shortening steps to its end."""
    steps = []
    while lot:
        reached = next(shortening_steps(kind, lot), None)
        if not reached:
            break
        lot, step, _ = reached
        steps.append(step)
    return steps


MOST_VISITED = 3000


@functools.lru_cache(maxsize=None)
def last_counts_of_lot(kind, lot):
    """The numbers of terms with which paths end; None where too many forms are reached."""
    seen, waiting, counts = {lot}, [lot], set()
    while waiting:
        current = dict(waiting.pop())
        reached = [frozenset(after.items()) for after, _, _ in shortening_steps(kind, current)] if current else []
        if not reached:
            counts.add(len(current))
        waiting += set(reached) - seen
        seen.update(reached)
        if len(seen) > MOST_VISITED:
            return None
    return counts


def last_counts(kind, terms):
    """The same for all terms of a form."""
    counts = {0}
    for lot in lots(terms):
        some = last_counts_of_lot(kind, frozenset(lot.items()))
        if some is None:
            return None
        counts = {x + y for x in counts for y in some}
    return counts


# ════ an answer

def taken(table, data, lent):
    """The form's kind and terms."""
    demand(1 <= len(table) <= 24 and max(table) <= 1, 1)
    demand(lent >= LENT, 2)
    found = forms.read(data)
    demand(found, 11)
    number = forms.letters_refused(table, found[1])
    demand(number == 0, number)
    return logs.gathered(found)


def answer(table, data, lent):
    """The line of a case, or None where paths end differently or are too many."""
    try:
        kind, terms = taken(table, data, lent)
    except Refused as refusal:
        return f"R{refusal.args[0]}"
    counts = last_counts(kind, terms)
    return f"{len(terms)} {counts.pop()}" if counts and len(counts) == 1 else None


def log_of_path(table, kind, terms):
    """The log of one path."""
    steps = [logs.step_record(*step) for lot in lots(terms) for step in path(kind, lot)]
    return logs.closed(expressions.record(kind, terms), steps, table)


def check_log(table, data, line):
    """The log of a path is accepted, has at most as many steps as terms were saved, and its forms have as many terms as the answer says."""
    whole = log_of_path(table, *logs.gathered(forms.read(data)))
    what, end, start, steps = logs.answer(table, whole)
    first, last = whole[1], whole[start + 1]
    assert (what, end, f"{first} {last}") == ("accepted", len(data), line) and steps + last <= first, (table.hex(), data.hex(), line)


# ════ forms

def side(which, rule, letters, m="1"):
    """M times the left side (0) or the right side (1) of a rule."""
    ((coef, factors, part),) = logs.terms(m)
    _, terms = forms.read(decisions.form_of(logs.sides(rule, logs.numbers(letters))[which]))
    return sum_of(int(rule in (1, 2, 4) or part != ()), [(coef * c, factors + f, part + p) for c, f, p in terms])


def both(rule, letters, m="1", coefs=None):
    """M times (left − right), each term times a coefficient of its own."""
    kind, terms = rule_terms(rule, letters, m)
    return sum_of(kind, [(k * c, f, p) for k, (c, f, p) in zip(coefs or [1] * len(terms), terms, strict=True)])


def scaled(data, n):
    kind, terms = forms.read(data)
    return sum_of(kind, [(n * c, f, p) for c, f, p in terms])


def joined(*some):
    return sum_of(some[0][0], [t for data in some for t in forms.read(data)[1]])


SCALARS = [((s,), (t,)) for s, t in itertools.combinations_with_replacement(range(6, 12), 2)]  # pairs of scalar letters
FACTORS = [()] + [((s,),) for s in range(6, 12)] + SCALARS
FULL_TABLE = WHOLE[:12]


def full(data):
    """The form times as many pairs of scalar letters as 48 terms allow."""
    kind, terms = forms.read(data)
    return sum_of(kind, [(c, pair + f, p) for pair in SCALARS[:48 // len(terms)] for c, f, p in terms])


# Terms of six vector letters that no step makes fewer.
APART = {0: scalar("3(abc)(def)-4(abd)(cef)+5(abe)(cdf)+6(a.d)(b.e)(c.f)-7(a.e)(b.d)(c.f)+8(a.f)(b.c)(d.e)"), 1: vector("3(a.b)(cde)*f-4(a.c)(b.d)*(e^f)+5(e.f)(abc)*d")}

# The thesis's example, document 000 chapter 4: a to h are vectors. Its terms have eight vector letters; here the dots of m and the triples of n are scalar letters.
THESIS_TABLE = bytes([1] * 8 + [0] * 6)


def thesis_forms():
    """r2 and r."""
    a, b, c, d, e, f, g, h, s, t, u, v, x, y = map(letter, range(14))
    p = times(triple(a, b, c), d)
    q = logs.SIDES[1](a, b, c, d)[1]
    m = total([times(s, wedged(e, f)), neg(times(t, wedged(e, h))), times(u, wedged(f, g)), times(v, wedged(g, h))])
    n = total([times(x, f), times(y, h)])
    return [expressions.record(*expressions.work(THESIS_TABLE, expressions.read(THESIS_TABLE, whole)))
            for whole in (wedged(q, m), sub(total([wedged(p, n), wedged(a, wedged(b, c))]), wedged(q, m)))]


# The forms that are measured, and to how many terms they are shortened.
MEASURED = {
    "none_scalar": (FULL_TABLE, full(APART[0]), 48), "none_vector": (FULL_TABLE, full(APART[1]), 48),
    "rule_5": (FULL_TABLE, full(side(1, 5, "abcdef")), 8), "rule_1": (FULL_TABLE, full(side(1, 1, "abcd", "(e.f)")), 16),
    "thesis_24": (THESIS_TABLE, thesis_forms()[0], 8), "thesis_28": (THESIS_TABLE, thesis_forms()[1], 12),
}


# ════ the cases: a table, a form, what its answer is meant to be; and how many bytes are lent, if not the least

# For each rule, M's that fit it and six letters.
MULTIPLIERS = {1: "1 -7 g -2147483647gh (e.f) 3gi(a.a) -hh(b.d)".split(), 2: "1 -1 5gg (a.f) -2hi(e.e)".split(), 3: "1 9g -gh f -4i*a 2gh*e".split(), 4: "1 -6 3gi hh".split(),
               5: "1 -8 i 2147483647gh".split()}


def lines_to_try():
    """The document's line; times a factor, beside other terms, with one sign turned."""
    line = vector("(bcd)*a-(acd)*b+(abd)*c-(abc)*d")
    yield TABLE, line, "4 0"
    yield TABLE[:4], line, "4 0"
    yield TABLE, decisions.negated(line), "4 0"
    yield TABLE, vector("5g(bcd)*a-5g(acd)*b+5g(abd)*c-5g(abc)*d"), "4 0"
    yield TABLE, joined(line, vector("(a.b)*c-2(d^e)")), "6 2"
    for k in range(4):
        yield TABLE, decisions.turned(line, k), "4 1"


def rules_with_letters():
    """Each rule with its letters in their order and in another one."""
    chance = random.Random(7)
    for rule, count in logs.LETTERS.items():
        yield rule, ["abcdef"[:count], "".join(chance.sample("abcdef", count))]


def each_rule():
    """Left − right, the left side, the right side: times a factor, and beside the same of another factor."""
    for rule, orders in rules_with_letters():
        right = 6 if rule == 5 else 3
        for letters, m in [(orders[0], "1")] + [(orders[1], m) for m in MULTIPLIERS[rule]]:
            yield TABLE, both(rule, letters, m), f"{right + 1} 0"
            yield TABLE, side(1, rule, letters, m), f"{right} 1"
        yield TABLE, side(0, rule, orders[1], m), "1 1"
        yield TABLE, joined(side(1, rule, orders[0], "g"), side(1, rule, orders[0], "-2h")), f"{2 * right} 2"
        yield TABLE, joined(both(rule, orders[0], "gg"), side(0, rule, orders[0], "-2gg"), side(1, rule, orders[0], "-2h")), f"{2 * right + 1} 2"


def equal_letters():
    """Every pattern of equal letters, for rule 5 every third, at which the sides are not the same: left − right and the right side."""
    for rule, count in logs.LETTERS.items():
        for letters in logs.patterns(count)[::3 if rule == 5 else 1]:
            difference, right = both(rule, letters), side(1, rule, letters)
            if difference[1]:
                yield TABLE, difference, f"{difference[1]} 0"
                yield TABLE, right, f"{right[1]} 1"
    # two terms to one by rule 4
    for letters, m in (("abcad", "1"), ("abcbd", "-3gh"), ("bcdec", "i")):
        yield TABLE, side(1, 4, letters, m), "2 1"


def all_but_one(kind):
    """Everything that steps can bring in, with every way in which letters can be equal: all of its terms but one."""
    for count in (4, 5, 6):
        for pattern in logs.patterns(count):
            if list(pattern) == sorted(pattern):
                for k, (difference, *_) in enumerate(brought_in(kind, logs.numbers(pattern))):
                    terms = [(c, f, p) for (p, f), c in sorted(difference.items())]
                    yield pattern, terms[:k % len(terms)] + terms[k % len(terms) + 1:]


def every_difference():
    """Full forms of such terms; those of the same letters have scalar letters of their own. All but one become that one."""
    for kind in (0, 1):
        waiting = list(all_but_one(kind))
        while waiting:
            terms, used = [], collections.Counter()
            while waiting and len(terms) + len(waiting[0][1]) <= 48:
                pattern, some = waiting.pop(0)
                terms += [(c, FACTORS[used[pattern]] + f, p) for c, f, p in some]
                used[pattern] += 1
            yield FULL_TABLE, sum_of(kind, terms), f"{len(terms)} {used.total()}"


def some_terms():
    """Some of a rule's terms: more than half of them are brought down to the others, half of them are not. A step that takes one term out and brings
    three in shortens nothing."""
    for rule, letters, m in ((1, "abcd", "(a.e)"), (2, "cabd", "g"), (3, "abcde", "f"), (4, "deabc", "hi"), (5, "abcdef", "-1"), (5, "abcabd", "g")):
        kind, terms = rule_terms(rule, letters, m)
        count = len(terms)
        for n in range(1, count):
            for some in list(itertools.combinations(terms, n))[::2 if count == 4 else 6]:
                yield TABLE, sum_of(kind, some), f"{n} {min(n, count - n)}"
        # one sign turned: the others are taken out, and this term is doubled
        for k in range(count):
            turned = [(-c if i == k else c, f, p) for i, (c, f, p) in enumerate(terms)]
            yield TABLE, sum_of(kind, turned), f"{count} 1"
        # coefficients that are all different: one goes; two are the same: two go
        yield TABLE, both(rule, letters, m, [2, 3, -5, 7, 11, 13, -17][:count]), f"{count} {count - 1}"
        yield TABLE, both(rule, letters, m, [2, 2, -5, 7, 11, 13, -17][:count]), f"{count} {count - 2}"
        yield TABLE, both(rule, letters, m, [2, 2, -5, -5, 11, 13, -17][:count]), f"{count} {count - 2}"


# Two steps that have one term in common: rule, letters, M of each.
LINKED = [((1, "abcd", "1"), (2, "abcd", "1")), ((3, "abcde", "1"), (3, "bcdae", "1")), ((4, "abcde", "-3g"), (4, "abdce", "-3g")),
          ((1, "abcd", "g(e.f)"), (3, "abcef", "g*d")), ((3, "abcef", "2*d"), (2, "abcd", "2(e.f)")), ((2, "abcd", "hh(a.f)"), (1, "bcda", "hh(a.f)"))]


def linked(first, second):
    """All terms of the first step but the one in common, and all of the second but that and another one: as two forms of which the first becomes the
    missing term of the second, which then becomes one term. The other one is each in turn."""
    (kind, one), (_, two) = rule_terms(*first), rule_terms(*second)
    (x, shared, part), = [t for t in one if t[1:] in [u[1:] for u in two]]
    (y,) = [c for c, *m in two if m == [shared, part]]
    ends = [(-y * c, f, p) for c, f, p in one if (f, p) != (shared, part)]
    rest = [(x * c, f, p) for c, f, p in two if (f, p) != (shared, part)]
    return [sum_of(kind, ends + rest[:k] + rest[k + 1:]) for k in range(len(rest))]


def one_makes_another():
    """A step that only another makes possible: its terms stand before those of the other, behind them or among them. And nine times so in one form."""
    for pair in LINKED:
        for first, second in (pair, pair[::-1]):
            for data in linked(first, second)[::2]:
                yield TABLE, data, "5 1"
    yield FULL_TABLE, full(linked(*LINKED[1])[1]), "45 9"
    # rule 1 takes 1 off a coefficient at the limit; then, and not before, the first term alone can be taken out
    for n in (1, -1):
        yield TABLE, joined(both(2, "abcd", "1", [-n * LIMIT, n, n * (LIMIT - 1), n * LIMIT]), side(1, 1, "abcd", str(n))), "7 3"


def unlike_sizes():
    """Full forms with a coefficient of its own for each pair of scalar letters. Steps make the terms of some pairs fewer; those of the others, where one
    coefficient is three times as large, they leave. What goes is taken out though terms that stay are before it, or behind it."""
    for kind, some, meant in ((1, forms.read(side(1, 4, "abcad"))[1], ("42 33", "42 30")), (0, rule_terms(5, "abcdef")[1][3:], ("48 44", "48 40"))):
        for stay in (0, 1):
            terms = []
            for i, pair in enumerate(SCALARS[:48 // len(some)]):
                first, *others = some
                larger = 3 if i // 4 % 2 == stay else 1
                terms += [((i + 2) * k * c, pair + f, p) for k, (c, f, p) in [(larger, first), *((1, t) for t in others)]]
            yield FULL_TABLE, sum_of(kind, terms), meant[stay]


def among_others():
    """Of the many steps by rule 5 that take out a term of this form all but one lead to no fewer terms. The same with other letters and signs."""
    text = ("-2(ade)(bcf)+(a.b)(c.e)(d.f)-(a.b)(c.f)(d.e)+2(a.c)(b.d)(e.f)-2(a.c)(b.e)(d.f)+2(a.c)(b.f)(d.e)-2(a.d)(b.c)(e.f)"
            "-(a.f)(b.c)(d.e)-(a.f)(b.d)(c.e)+2(a.f)(b.e)(c.d)")
    for letters in ("abcdef", "fedcba", "bcdefa", "acebdf"):
        data = scalar(text.translate(str.maketrans("abcdef", letters)))
        assert len({step[:2] for lot in lots(logs.gathered(forms.read(data))[1]) for _, step, _ in shortening_steps(0, lot)}) == 1
        yield TABLE, data, "10 8"


def quotients():
    """A step that takes out only (a.b)(a.c)(b.c), which rule 5 has twice at a b c a b c, so its coefficient must be even; it raises the others by half of it.
    To take out one of the others would double another beyond the limit."""
    top = LIMIT - 100
    for factor, some in (("", (2, 6, -6, 200, -200, 7, -1, 99, 202, -202, 1000)), ("g", (6, 7)), ("hi", (-200, -202))):
        for n in some:
            data = scalar("".join(f"{c:+d}{factor}{m}" for c, m in (
                (top, "(abc)(abc)"), (n, "(a.b)(a.c)(b.c)"), (-top, "(a.c)(a.c)(b.b)"), (top, "(a.a)(b.b)(c.c)"), (-top, "(a.a)(b.c)(b.c)"), (-top, "(a.b)(a.b)(c.c)"))))
            for lot in lots(logs.gathered(forms.read(data))[1]):
                assert {abs(k) for _, _, k in shortening_steps(0, lot)} <= {2}
            yield TABLE, data, "6 5" if n % 2 == 0 and abs(n) <= 200 else "6 6"
    for n in (1, 3, -4, LIMIT // 2):
        yield TABLE, side(1, 5, "abcabc", f"{n}g"), "5 1"


def blocked():
    """9: what a step would leave is beyond the limits, by one or by much; just within them it is taken."""
    top = LIMIT
    for rule, letters, m in ((1, "abcd", "1"), (2, "abcd", "g(e.f)"), (3, "abcde", "f"), (4, "abcde", "gg"), (5, "abcdef", "h")):
        # the left side n times and the right side k times are the left side n + k times
        left, right = side(0, rule, letters, m), side(1, rule, letters, m)
        for n, k in ((top, 1), (top - 1, 1), (top, -1), (1, top), (-1, top), (top, top), (-top, top), (-top, -1), (1 - top, -1), (top // 2, top // 2), (top // 2 + 1, top // 2 + 1)):
            last = 0 if n + k == 0 else 1 if abs(n + k) <= top else right[1] + 1
            yield TABLE, joined(scaled(left, n), scaled(right, k)), f"{right[1] + 1} {last}"
    # coefficients of a rule's terms, all of which a step raises by the same: none of the steps that take one out is within the limits, or only some
    for coefs, meant in (((top, -1, top, -1), "4 4"), ((1, -top, 2, 3), "4 4"), ((top, 3, 5, -3), "4 3"), ((top, 3, top, -1), "4 3"), ((-top, -3, -top, 1), "4 3"), ((top, -top, top, 3), "4 4")):
        yield TABLE, both(2, "abcd", "1", coefs), meant
    # one of the terms alone can be taken out, each in turn
    for rule, letters, m in ((1, "abcd", "1"), (3, "abcde", "f"), (5, "abcdef", "1")):
        others = [top, 1 - top, top, 1 - top, top, top][:6 if rule == 5 else 3]
        for k in range(len(others) + 1):
            yield TABLE, both(rule, letters, m, others[:k] + [1] + others[k:]), f"{len(others) + 1} {len(others)}"


def nothing_to_do():
    """Forms that no step shortens: single terms, terms of unlike letters, too few of a rule's terms."""
    for text in ("1", "-2147483647", "g", "gg", "(a.b)", "(a.a)", "(abc)", "(a.b)(c.d)", "(a.a)(a.a)(a.a)", "(abc)(def)", "(abc)(abc)", "2gh(a.b)(cde)", "g+h", "(a.b)+(a.c)-(b.c)", "(abc)-(abd)",
                 "(a.b)(c.d)-(a.c)(b.d)+(a.d)(b.c)", "(abc)(def)-(abd)(cef)", "(a.d)(b.e)(c.f)-(a.e)(b.d)(c.f)", "1+g+(a.a)+(abc)"):
        data = scalar(text)
        yield TABLE, data, f"{data[1]} {data[1]}"
    for text in ("a", "-3*f", "(a^b)", "g*a", "(a.b)*c", "(a.b)*(c^d)", "(abc)*d", "(abc)*(d^e)", "(abc)(d.e)*f", "a+b+c", "(a^b)+(a^c)", "(a.b)*c-(a.c)*b", "(abc)*d-(abd)*c", "(abc)*d+(a.d)*(b^c)",
                 "(abc)*(d^e)-(ade)*(b^c)", "(d.e)(abc)*f-(a.d)(bce)*f", "g(abc)*d-h(a.d)*(b^c)+i(b.d)*(a^c)", "(abc)*a", "(a.a)(b.b)*(a^b)"):
        data = vector(text)
        yield TABLE, data, f"{data[1]} {data[1]}"
    for kind in (0, 1):
        yield TABLE, NOTHING[kind], "0 0"
        yield bytes([kind]), NOTHING[1 - kind], "0 0"
    yield bytes([0]), forms.record(0, [(1, ((0,), (0,)), ())]), "1 1"
    yield bytes([1]), vector("(a.a)(a.a)*a"), "1 1"


def full_forms():
    for table, data, last in MEASURED.values():
        yield table, data, f"{data[1]} {last}"
    # a step for every other term
    two = forms.read(side(1, 4, "abcad"))[1]
    yield FULL_TABLE, sum_of(1, [(c, some + f, p) for some in FACTORS[:24] for c, f, p in two]), "48 24"
    yield FULL_TABLE, full(both(1, "abcd")), "48 0"
    # one term goes for each of twelve factors; the log's first and last form and each step are as long as they can be
    long = full(both(2, "abcd", "(a.b)", [LIMIT - 9, 9, -3, 7]))
    assert len(long) == 770
    yield FULL_TABLE, long, "48 36"
    # full, but for letters and factors that no rule has
    for kind in (0, 1):
        data = form(kind, logs.many(kind, 48))
        yield WHOLE, data, "48 48"
    # the first form of a log
    table, whole = logs.log_of_eight_steps()
    yield table, whole[:logs.cut_log(whole)[3]], "19 6"
    # letters 13 to 23
    table = bytes([0, 1] * 12)
    yield table, decisions.high_letters(decisions.zero_vectors(), table), "48 0"
    yield table, decisions.high_letters(decisions.equal_vectors()[1], table), "48 24"


def lengths():
    """2: too few bytes lent, also where the log would be short; enough."""
    for data, meant in ((NOTHING[1], "0 0"), (vector("(bcd)*a-(acd)*b+(abd)*c-(abc)*d"), "4 0"), (b"", "R11"), (vector("j*a"), "R5")):
        for lent in (0, 5, 770, 2308, 2309, 2310, 3013, 65535):
            yield TABLE, data, "R2" if lent < LENT else meant, lent
    table, data, _ = MEASURED["rule_5"]
    yield table, data, "R2", 2308


def tables():
    for table in (b"", bytes(25), bytes([1] * 25), bytes([1, 2]), bytes([255]), bytes([1] * 23 + [2]), bytes([1] * 40)):
        yield table, vector("0"), "R1"
        yield table, side(1, 1, "abcd"), "R1"
        yield table, b"", "R1", 0


def shape():
    """11: faults in every field, cut and lengthened forms, logs."""
    good = vector("(bcd)*a-g(acd)*b-(b^c)")
    for kind, term in logs.BAD_TERMS:
        yield TABLE, bytes([kind, 1]) + term, "R11"
    for bad in logs.BAD_FORMS:
        yield TABLE, bad, "R11"
    for n in range(len(good)):
        yield TABLE, good[:n], "R11"
    for more in (b"\0", good, log(good, [], good)[len(good):]):
        yield TABLE, good + more, "R11"
    yield TABLE, good, "3 3"
    yield WHOLE, forms.record(0, sorted(logs.terms(logs.many(0, 49)), key=forms.position)), "R11"


def letters_of_the_table():
    """5 and 6 of letters."""
    for factors, part, number in logs.BAD_LETTERS:
        yield TABLE, forms.record(int(part != ()), [(1, factors, part)]), f"R{number}"
    data = side(1, 1, "abcd", "w")
    for n in (1, 3, 4, 22, 23, 24):
        yield WHOLE[:n], data, "R5" if n < 23 else "3 1"
    yield bytes(24), data, "R6"
    yield bytes([1] * 24), data, "R6"


def order_of_refusals():
    """Faults together: the table, the length, the shape, the letters in byte order."""
    absent, wrong = forms.record(0, [(7, ((9,), (0, 6)), ())]), forms.record(0, [(7, ((0,), (9,)), ())])
    for table, lent, (meant, data) in itertools.product((TABLE, TABLE + b"\2"), (LENT, LENT - 1), {"1 1": scalar("g"), "R11": scalar("g") + b"\0", "R5": absent, "R6": wrong}.items()):
        yield table, data, "R1" if len(table) > 9 else "R2" if lent < LENT else meant, lent
    yield TABLE, absent + b"\0", "R11"
    yield TABLE, wrong[:-1], "R11"


# ════ by chance

def random_form(chance, most_terms=3, most_steps=4):
    """A short form, to which steps were added, of few letters or of all."""
    kind, letters = chance.randrange(2), range(chance.randint(3, 6))
    start = forms.chosen_form(chance, kind, chance.randint(0, most_terms), letters, range(6, 9), lambda: logs.any_coefficient(chance))
    current = logs.gathered((kind, start))
    for _ in range(chance.randint(0, most_steps)):
        way = chance.random()
        rule, order, m = logs.any_step(chance, kind) if way < 0.7 else logs.meeting_step(chance, kind, current[1])
        order = bytes(chance.choice(letters) for _ in order) if way < 0.2 else order
        try:
            current = logs.reached(WHOLE, current, (rule, order, m))
        except Refused:
            continue
    return TABLE, expressions.record(*current)


def changed_form(chance, *most):
    """A random form with one coefficient changed, or a term less, or a byte changed."""
    table, data = random_form(chance, *most)
    way = chance.randrange(4)
    if way == 0:
        at = chance.randrange(len(data))
        return table, data[:at] + bytes([data[at] ^ 1 << chance.randrange(8)]) + data[at + 1:]
    if not data[1]:
        return table, data
    kind, terms = forms.read(data)
    k = chance.randrange(len(terms))
    if way == 1:
        return table, forms.record(kind, terms[:k] + terms[k + 1:])
    return table, decisions.changed(data, k, lambda coef: chance.choice((-coef, coef // 2 or 5, 1)))


def crowded_form(chance):
    """Some terms of steps of the same letters, some signs turned, and others beside them, also at the limit: many steps meet such terms, few shorten."""
    kind, letters = chance.choice(((1, "abcd"), (1, "abcc"), (1, "abcde"), (1, "abcdee"), (0, "abcde"), (0, "aabcd"), (0, "abcdef"), (0, "abcdef")))
    steps = [difference for difference, *_ in brought_in(kind, logs.numbers(letters))]
    terms = collections.Counter()
    for _ in range(chance.randint(1, 3)):
        difference, coef = list(chance.choice(steps).items()), chance.choice((1, -1, 2, -3))
        for m, c in chance.sample(difference, chance.randint(2, len(difference))):
            terms[m] += coef * c * chance.choice((1, 1, 1, 1, -1))
    monomials = sorted(set(itertools.chain(*steps)))
    for m in chance.sample(monomials, min(len(monomials), chance.randint(0, 3))):
        terms[m] += chance.choice((1, -1, 2, 5, LIMIT, -LIMIT))
    terms = {m: max(-LIMIT, min(LIMIT, c)) for m, c in terms.items() if c}
    return TABLE, expressions.record(kind, terms)


def by_chance():
    chance = random.Random(20261117)
    for _ in range(6):
        yield *random_form(chance), ""
    for _ in range(6):
        yield *changed_form(chance), ""
    for _ in range(32):
        yield *crowded_form(chance), ""


def aside():
    """Cases for which the bytes that the program reads at once have no room: call_cases.py puts them to the call for C."""
    for rule, orders in rules_with_letters():
        for letters, m in [(orders[0], "1")] + [(orders[1], m) for m in MULTIPLIERS[rule][:-1]]:
            yield TABLE, side(0, rule, letters, m), "1 1"
    yield FULL_TABLE, full(side(1, 4, "abcad")), "42 21"
    for data, meant in ((NOTHING[1], "0 0"), (vector("(bcd)*a-(acd)*b+(abd)*c-(abc)*d"), "4 0"), (b"", "R11"), (vector("j*a"), "R5")):
        for lent in (1, 1541, 4096):
            yield TABLE, data, "R2" if lent < LENT else meant, lent
    for data, lent in ((vector("0"), LENT), (side(1, 1, "abcd"), LENT), (b"", 0)):
        yield bytes([1] * 200), data, "R1", lent
    chance = random.Random(20261117)
    for _ in range(60):
        yield *random_form(chance), ""
    for _ in range(40):
        yield *changed_form(chance), ""


GROUPS = (lines_to_try, each_rule, equal_letters, every_difference, some_terms, one_makes_another, unlike_sizes, among_others, quotients, blocked, nothing_to_do,
          full_forms, lengths, tables, shape, letters_of_the_table, order_of_refusals, by_chance)


# ════ the program

def check_all_steps():
    """At forms of the letters a to d, the steps found reach what the steps of all letters of the table and every M reach."""
    chance, table, count = random.Random(5), bytes([1] * 4), 0
    ms = [m for n in range(3) for letters in itertools.combinations_with_replacement(range(4), n) for m in terms_of_letters(letters)]
    for kind in (0, 1):
        brought = set()
        for rule, m in itertools.product(logs.LETTERS, ms):
            for order in itertools.product(range(4), repeat=logs.LETTERS[rule]):
                try:
                    brought.add(tuple(sorted(logs.reached(table, (kind, {}), (rule, bytes(order), (1, *m)))[1].items())))
                except Refused:
                    break  # the kinds or the number of letters, whatever the order
        brought = sorted(brought - {()})
        for _ in range(100):
            terms = collections.Counter()
            for difference in chance.sample(brought, 3):
                coef = chance.choice((1, -1, 2, 6))
                for m, c in difference[chance.randrange(2):]:
                    terms[m] += coef * c
            terms = {m: c for m, c in terms.items() if c}
            found = set()
            for lot in lots(terms):
                rest = {m: c for m, c in terms.items() if m not in lot}
                found |= {frozenset((rest | after).items()) for after, _, _ in shortening_steps(kind, lot)}
            assert found == {frozenset(after.items()) for difference in brought for after, _, _ in shorter(terms, dict(difference))}, terms
            count += len(found)
    print(f"all steps of four letters tried at 200 forms: those found are all that shorten, {count}")


def write_header():
    for name, (table, data, _) in MEASURED.items():
        for what, some in (("table", table), ("form", data)):
            print(f"static const uint8_t {name}_{what}[{len(some)}] = {{{', '.join(map(str, some))}}};")


def write_cases():
    check_all_steps()
    stdin, lines, left_out = b"", [], collections.Counter()
    for group in GROUPS:
        before = len(lines)
        for table, data, meant, *lent in group():
            lent = lent[0] if lent else LENT
            line = answer(table, data, lent)
            assert meant in ("", line), (group.__name__, len(lines) - before, table.hex(), data.hex(), line, meant)
            if line is None:
                left_out[group.__name__] += 1
                continue
            if line[0] != "R":
                check_log(table, data, line)
            stdin += bytes([len(table)]) + table + len(data).to_bytes(2, "big") + data + lent.to_bytes(2, "big")
            lines.append(line)
        print(f"{group.__name__}: {len(lines) - before}, {left_out[group.__name__]} left out")
    assert len(stdin) <= 65536, len(stdin)
    home = pathlib.Path(__file__).resolve().parent.parent / "crates" / "shortening_cases"
    (home / "stdin").write_bytes(stdin)
    (home / "stdout").write_text("\n".join(lines) + "\n")
    refused = collections.Counter(line for line in lines if line[0] == "R")
    print(f"{len(lines)} cases, {len(stdin)} bytes, {sum(left_out.values())} left out, refused {dict(sorted(refused.items()))}")


if __name__ == "__main__":
    if sys.argv[1:] == ["--header"]:
        write_header()
    else:
        write_cases()
