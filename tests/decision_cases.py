#!/usr/bin/env python3
"""Cases of the decision and their answers, computed from the customer's document alone.

Writes crates/decision_cases/stdin (the cases) and crates/decision_cases/stdout (the answers).
A case is the length of a table (one byte), the table, the length of a form (two bytes), the form, the same
for the second form, how many bytes of the buffer are lent (one byte) and how many of the work memory (two
bytes). Its answer is a line: holds, differs and the first assignment under which the forms do, or R and a number.

Nothing here is taken from the engine. A form is expanded into a dictionary from products of components to
coefficients, one for each of its components; two forms are equal where these dictionaries are. The first assignment is
found with all three components at once: each number is the least that does not make all of them 0.

Each case says what its answer is meant to be, and that is compared; only those by chance do not. Forms that are
equal must have the same values under random assignments of large integers, and those that differ must not. Under the
first assignment the values must differ. Before it, with a lesser number at a place and any behind it, they must be
equal; and where few assignments come before it, all of them are tried in their order, by values alone.

With --pari, PARI/GP compares each pair of forms as polynomials in the components of the letters; it is installed if
it is not there. With --header, the forms that tests/benchmark.c measures are printed as C; with --gp, for
tests/benchmark.gp.
"""
import collections
import itertools
import pathlib
import random
import sys

import check_cases as logs
import reduction_cases as expressions
import value_cases as forms
from check_cases import LIMIT, NOTHING, TABLE, WHOLE, form, log, scalar, vector
from reduction_cases import Refused, constant, demand, dotted, letter, neg, times, total, triple, wedged

BUFFER, WORK = 72, 55296
HOLDS, DIFFERS = "holds", "differs"


# ════ polynomials: dictionaries from ascending tuples of variables to coefficients; the variables of a letter are three numbers

def variables(letters, components):
    return tuple(sorted(3 * x + i for x, i in zip(letters, components)))


def factor(letters):
    if len(letters) == 1:
        return {variables(letters, (0,)): 1}
    if len(letters) == 2:
        return {variables(letters, (i, i)): 1 for i in range(3)}
    return {variables(letters, p): sign for p, sign in forms.SIGNS.items()}


def part_component(part, i):
    if part == ():
        return {(): 1} if i == 0 else {}
    if len(part) == 1:
        return {variables(part, (i,)): 1}
    return {variables(part, p[1:]): sign for p, sign in forms.SIGNS.items() if p[0] == i}


def product(p, q):
    out = collections.Counter()
    for (m, c), (n, d) in itertools.product(p.items(), q.items()):
        out[tuple(sorted(m + n))] += c * d
    return out


def expanded(terms, i):
    """The component i of a form."""
    out = collections.Counter()
    for coef, factors, part in terms:
        p = part_component(part, i)
        for f in factors:
            p = product(p, factor(f))
        for m, c in p.items():
            out[m] += coef * c
    return {m: c for m, c in out.items() if c}


# ════ the first assignment

def put(p, x, v):
    """The polynomial with v for the variable x."""
    out = collections.Counter()
    for m, c in p.items():
        out[tuple(y for y in m if y != x)] += c * v ** m.count(x)
    return {m: c for m, c in out.items() if c}


def first_apart(table, left, right):
    """The first whole numbers, letter by letter and component by component, under which two forms differ; and the components that do."""
    both = left + [(-coef, factors, part) for coef, factors, part in right]
    rest = [expanded(both, i) for i in range(3)]
    occurring = {x for p in rest for m in p for x in m}
    numbers = bytearray(3 * len(table))
    for x in sorted(occurring):
        numbers[x] = next(v for v in itertools.count() if any(put(p, x, v) for p in rest))
        rest = [put(p, x, numbers[x]) for p in rest]
    return bytes(numbers), [i for i in range(3) if rest[i]]


# ════ an answer

def answer(table, first, second, buffer, work):
    try:
        demand(1 <= len(table) <= 24 and max(table) <= 1, 1)
        demand(buffer >= BUFFER and work >= WORK, 2)
        taken = [forms.read(first), forms.read(second)]
        demand(None not in taken, 11)
        (f, left), (g, right) = taken
        for number in (forms.letters_refused(table, left), forms.letters_refused(table, right)):
            demand(number == 0, number)
        demand(f == g, 6)
    except Refused as refusal:
        return f"R{refusal.args[0]}"
    return HOLDS if all(expanded(left, i) == expanded(right, i) for i in range(3)) else f"{DIFFERS} {first_apart(table, left, right)[0].hex()}"


# ════ forms: of expressions, with one sign turned, of some terms

def form_of(expression):
    return expressions.record(*expressions.work(WHOLE, expressions.read(WHOLE, expression)))


def changed(data, k, way):
    """The form with the coefficient of its term k changed."""
    kind, terms = forms.read(data)
    coef, factors, part = terms[k]
    return forms.record(kind, terms[:k] + [(way(coef), factors, part)] + terms[k + 1:])


def turned(data, k):
    return changed(data, k, lambda coef: -coef)


def each_turned(first, second):
    """Pairs that differ from one another, made of a pair that holds: one sign is turned. A single term is never 0 everywhere."""
    for k in range(first[1]):
        yield turned(first, k), second
    for k in range(second[1]):
        yield first, turned(second, k)


def sum_of(kind, terms):
    """The form that terms make: not yet in order, like ones added."""
    return expressions.record(*expressions.gathered(kind, terms))


def moved(kind, terms, k):
    """Two forms whose difference is the terms: the first k, and the others negated."""
    return sum_of(kind, terms[:k]), sum_of(kind, [(-coef, factors, part) for coef, factors, part in terms[k:]])


def rule_terms(rule, letters, m="1"):
    """M times (left − right), whose value is 0: its kind and its terms."""
    step = logs.cut_step(logs.step(rule, letters, m))[0]
    kind = int(rule in (1, 2, 4) or step[2][2] != ())
    return kind, expressions.raw(logs.reached(WHOLE, (kind, {}), step)[1])


def triples_terms(m, scale=1):
    """A sum of products of two triples whose value is 0: rule 2 at a b c d, dot e∧f, times m."""
    return [(scale * coef, m + factors, ()) for coef, factors, _ in logs.terms("(abc)(def)-(bcd)(aef)+(acd)(bef)-(abd)(cef)")]


# ════ full forms

PAIRS = [((s,), (t,)) for s, t in itertools.combinations_with_replacement(range(6, 11), 2)][:12]  # of scalar letters
DOTS = [(d,) for d in itertools.combinations_with_replacement(range(6), 2)][:12]
FULL_TABLE = WHOLE[:11]


def equal_triples(size):
    """48 terms each, of two triples and two scalar letters: all coefficients are others, the values are the same. 3,456 products of components."""
    left, right = [], []
    for i, m in enumerate(PAIRS):
        some = [(size + 97 * i + 13 * k, factors, part) for k, (_, factors, part) in enumerate(triples_terms(m))]
        left += some
        right += some + triples_terms(m, -3 - i)
    return sum_of(0, left), sum_of(0, right)


def equal_vectors():
    """48 terms each, of 6 vector letters and 2 scalar letters, none in both: rule 1 at a b c d from left to right, at a b c e from right to left."""
    left, right = [], []
    for i, (pair, dot) in enumerate(zip(PAIRS, DOTS)):
        for (some, other), letters, scale in (((left, right), "abcd", 5 + i), ((right, left), "abce", -7 - 2 * i)):
            for coef, factors, part in rule_terms(1, letters)[1]:
                to, sign = (some, 1) if len(part) == 1 else (other, -1)
                to.append((sign * scale * coef, pair + dot + factors, part))
    return sum_of(1, left), sum_of(1, right)


def zero_triples():
    """48 terms whose value is 0."""
    return sum_of(0, [t for i, m in enumerate(PAIRS) for t in triples_terms(m, LIMIT - i)])


def zero_vectors():
    terms = []
    for pair, dot in zip(PAIRS, DOTS):
        terms += [(-LIMIT * coef, pair + dot + factors, part) for coef, factors, part in rule_terms(2, "bdfe")[1]]
    return sum_of(1, terms)


def high_letters(data, table):
    """The form with its letters in the table's last places: vectors become vectors, scalars scalars."""
    kind, terms = forms.read(data)
    last = {k: [n for n, b in enumerate(table) if b == k] for k in (0, 1)}

    def other(x):
        return last[1][x - 6] if x < 6 else last[0][x - 11]

    return sum_of(kind, [(coef, tuple(tuple(map(other, f)) for f in factors), tuple(map(other, part))) for coef, factors, part in terms])


# The pairs that are measured.
MEASURED = {
    "rule_5": (form_of(logs.sides(5, range(6))[0]), form_of(logs.sides(5, range(6))[1])),
    "equal": equal_triples(1000),
    "other": (equal_triples(1000)[0], changed(equal_triples(1000)[1], 47, lambda coef: coef + 1)),
    "zero": (zero_triples(), NOTHING[0]),
    "vectors": equal_vectors(),
    "apart": (equal_vectors()[0], changed(equal_vectors()[1], 47, lambda coef: coef + 1)),
    "far": (equal_vectors()[0], NOTHING[1]),
    "wedges": (vector("(a^b)"), vector("(a^c)")),
}


def negated(data):
    return forms.record(data[0], [(-coef, factors, part) for coef, factors, part in forms.read(data)[1]])


def full_forms():
    pairs = [equal_triples(1000), equal_triples(LIMIT - 2000), equal_vectors()]
    for first, second in pairs:
        assert first[1] == second[1] == 48
        yield FULL_TABLE, first, second, HOLDS
    for first, second in (pairs[0], pairs[2]):
        yield FULL_TABLE, second, changed(first, 47, lambda coef: coef + 1), DIFFERS
    for zero in (zero_triples(), zero_vectors()):
        assert zero[1] == 48
        yield FULL_TABLE, zero, NOTHING[zero[0]], HOLDS
        yield FULL_TABLE, NOTHING[zero[0]], turned(zero, 47), DIFFERS
    # the ends of a log
    table, whole = logs.log_of_eight_steps()
    _, _, _, end, start = logs.cut_log(whole)
    yield table, whole[:end], whole[start:], HOLDS
    yield table, whole[start:], turned(whole[:end], 3), DIFFERS


def aside():
    """Full forms for which there is no room among the cases: tests/call_cases.py decides them."""
    yield FULL_TABLE, zero_triples(), negated(zero_triples()), HOLDS
    # every coefficient at the limit
    large = forms.record(0, [(LIMIT, factors, part) for _, factors, part in forms.read(zero_triples())[1]])
    yield FULL_TABLE, large, negated(large), DIFFERS
    # letters 13 to 23
    table = bytes([0, 1] * 12)
    yield table, *(high_letters(x, table) for x in equal_vectors()), HOLDS
    # the ends of the longest log
    table, whole = logs.longest_log()
    _, _, _, end, start = logs.cut_log(whole)
    yield table, whole[:end], whole[start:], HOLDS


# ════ the cases: a table, two forms, what the answer is meant to be; and the lengths of the buffer and of the work memory, if not the least

def starred(a, b, c, d):
    """The document's lines to prove, each as a sum that is 0."""
    abc = dotted(a, wedged(b, c))
    four = [times(triple(b, c, d), a), neg(times(triple(a, c, d), b)), times(triple(a, b, d), c), neg(times(triple(a, b, c), d))]
    right = logs.SIDES[2](a, b, c, d)[1]
    return [
        (1, [wedged(b, a), wedged(a, b)]),
        (1, [wedged(a, a)]),
        (1, [wedged(a, wedged(b, c)), neg(times(dotted(a, c), b)), times(dotted(a, b), c)]),
        (1, [wedged(a, wedged(b, c)), wedged(b, wedged(c, a)), wedged(c, wedged(a, b))]),
        (0, [dotted(wedged(wedged(a, b), wedged(b, c)), wedged(c, a)), neg(times(abc, abc))]),
        (0, [dotted(wedged(b, c), wedged(a, d)), dotted(wedged(c, a), wedged(b, d)), dotted(wedged(a, b), wedged(c, d))]),
        (1, [wedged(wedged(b, c), wedged(a, d)), wedged(wedged(c, a), wedged(b, d)), wedged(wedged(a, b), wedged(c, d)), times(constant(2), times(triple(a, b, c), d))] + list(map(neg, four))),
        (1, four + [times(triple(a, b, c), d), neg(right)]),
    ]


def total_of(kind, summands):
    return form_of(total(summands)) if summands else NOTHING[kind]


def lines_to_prove():
    """Each line with its summands on two sides, for some letters; one sign turned, where the letters are different; times a factor."""
    for letters in ("abcd", "dbac", "abca", "abab", "aaab"):
        for kind, summands in starred(*map(letter, logs.numbers(letters))):
            for k in {1, len(summands)} if letters != "abcd" else range(len(summands) + 1):
                yield TABLE, total_of(kind, summands[:k]), total_of(kind, list(map(neg, summands[k:]))), HOLDS
            if letters == "abcd" and len(summands) > 1:
                for i in range(len(summands)):
                    other = summands[:i] + [neg(summands[i])] + summands[i + 1:]
                    yield TABLE, total_of(kind, other[:1]), total_of(kind, list(map(neg, other[1:]))), DIFFERS
                    yield TABLE, total_of(kind, other), NOTHING[kind], DIFFERS
    for m in (times(letter(6), letter(7)), dotted(letter(4), letter(5)), constant(-9)):
        for kind, summands in starred(*map(letter, range(4))):
            six_letters = (kind, len(summands)) == (0, 2)
            if len(summands) > 1 and not (six_letters and m[0] == expressions.DOT):
                yield TABLE, form_of(times(m, summands[0])), form_of(neg(times(m, total(summands[1:])))), HOLDS


def each_rule():
    """Both sides of each rule, at different letters and at equal ones, times a term; its terms on two sides in other ways; one sign turned."""
    for rule, count in logs.LETTERS.items():
        first, second = map(form_of, logs.sides(rule, range(count)))
        yield TABLE, first, second, HOLDS
        yield TABLE, second, first, HOLDS
        for one, other in each_turned(first, second):
            yield TABLE, one, other, DIFFERS
        for letters in logs.patterns(count)[::{4: 2, 5: 8, 6: 24}[count]]:
            yield TABLE, *map(form_of, logs.sides(rule, logs.numbers(letters))), HOLDS
    chance = random.Random(6)
    for rule, ms in ((1, "-1 7g gh(e.f) -2147483647(a.d)"), (2, "-1 hh (a.a) 5gi(b.f)"), (3, "gh 2147483647 f -4gg*a"), (4, "-1 2h gi"), (5, "-9hi 2147483647g")):
        for m in ms.split():
            letters = "".join(chance.sample("abcdef", logs.LETTERS[rule]))
            kind, terms = rule_terms(rule, letters, m)
            chance.shuffle(terms)
            for k in (0, 2, len(terms)):
                yield TABLE, *moved(kind, terms, k), HOLDS
            first, second = moved(kind, terms, 1)
            for one, other in list(each_turned(first, second))[::3]:
                yield TABLE, one, other, DIFFERS
    # products of two triples
    for m in ((), ((6,), (6,))):
        terms = triples_terms(m, 11)
        yield TABLE, *moved(0, terms, 1), HOLDS
        yield TABLE, *moved(0, terms, 2), HOLDS
        yield TABLE, turned(sum_of(0, terms), 2), NOTHING[0], DIFFERS


def larger_numbers():
    """Forms that are equal at 0, or at 0 and 1, or at more small numbers.

    Vector forms that differ do so in every component: to exchange the axes in turn takes one component to the next.
    """
    for kind, first, second in (
            # a scalar letter: the first number at which they differ is 0, 1 or 2
            (0, "gg", "g"), (0, "gg", "2g"), (0, "gg+2", "3g"), (0, "gh", "g+h-1"), (0, "gg(a.b)", "g(a.b)"), (0, "gg(abc)", "g(abc)"), (1, "gg*a", "g*a"), (1, "gg*(a^b)", "2g*(a^b)"),
            (1, "gg(a.b)(c.d)*e", "g(a.b)(c.d)*e"), (0, "hh(abc)(def)", "2h(abc)(def)"), (0, "gi", "0"), (0, "ii", "0"),
            # a square
            (0, "(a.a)(a.a)(a.a)+4(a.a)", "5(a.a)(a.a)"), (0, "(a.a)(a.a)(a.a)+2(a.a)", "3(a.a)(a.a)"), (0, "(a.a)(a.a)", "(a.a)"), (0, "(f.f)(f.f)(f.f)+6(f.f)", "5(f.f)(f.f)"),
            (1, "(a.a)(a.a)*a+4*a", "5(a.a)*a"), (1, "(a.a)(a.a)*b+4*b", "5(a.a)*b"), (0, "(a.a)(b.b)", "(a.b)(a.b)"), (0, "(a.a)(b.b)(c.c)", "(a.b)(b.c)(a.c)"),
            # with a = (0, 0, 1) and f = (0, 0, z): z(z-1)(z-2), z(z-1)(z-2)(z-3), z(z-1)(z-2)(z-3)(z-4), and the last without its first factor
            (0, "(a.f)(f.f)+2(a.f)", "3(a.a)(f.f)"), (0, "(a.a)(f.f)(f.f)+11(a.a)(f.f)", "6(a.f)(f.f)+6(a.f)"),
            (0, "(a.f)(f.f)(f.f)+35(a.f)(f.f)+24(a.f)", "10(a.a)(f.f)(f.f)+50(a.a)(f.f)"), (0, "(a.a)(f.f)(f.f)+35(a.a)(f.f)+24(a.a)", "10(a.f)(f.f)+50(a.f)"),
            # dots, triples and wedges that are 0 where letters are 0, equal or in one plane
            (0, "(a.b)", "0"), (0, "(a.a)", "0"), (0, "(abc)", "0"), (0, "(abc)(abc)", "0"), (0, "(abc)(def)", "0"), (1, "(abc)*d", "0"), (1, "(a^b)", "0"), (1, "(abc)*(e^f)", "0"),
            (1, "(abc)*d", "(abd)*c"), (0, "(abc)(def)", "(abd)(cef)"), (1, "(a.b)*c", "(b.c)*a"), (0, "(a.b)(c.d)", "(a.c)(b.d)"), (1, "(a^b)", "(b^c)"), (1, "f", "0"),
            # coefficients
            (0, "2147483647", "2147483646"), (0, "2147483647(a.b)", "-2147483647(a.b)"), (0, "2147483647(abc)(def)", "2147483646(abc)(def)"), (1, "a", "2*a"), (0, "1", "0"), (0, "-1", "1")):
        yield TABLE, form(kind, first), form(kind, second), DIFFERS
        yield TABLE, form(kind, second), form(kind, first), DIFFERS
    # in the last letter of the longest table, in the only letter of the shortest
    yield bytes([1] * 24), vector("a"), forms.record(1, [(1, (), (23,))]), DIFFERS
    yield bytes(24), scalar("xx"), scalar("x"), DIFFERS
    yield bytes(24), scalar("xx"), scalar("xx"), HOLDS
    yield bytes([0]), forms.record(0, [(1, ((0,), (0,)), ())]), forms.record(0, [(1, ((0,),), ())]), DIFFERS
    yield bytes([1]), vector("(a.a)*a"), vector("a"), DIFFERS
    yield bytes([1]), vector("(a.a)*a"), vector("(a.a)*a"), HOLDS


def renamed(data, to):
    """The form with other letters: to names them in the order of a, b, c, .."""
    kind, terms = forms.read(data)
    return sum_of(kind, [(coef, tuple(tuple(to[x] for x in f) for f in factors), tuple(to[x] for x in part)) for coef, factors, part in terms])


def seen_by(table, first, second):
    """The components that differ under the first assignment."""
    return first_apart(table, forms.read(first)[1], forms.read(second)[1])[1]


def first_assignments():
    """The first assignment of vector forms that one component alone sees, or two, or three; letters that do not occur; numbers above 1."""
    # (abc) is first not 0 at c = (1, 0, 0), b = (0, 1, 0), a = (0, 0, 1): then the letters are the axes
    for some in itertools.chain.from_iterable(itertools.combinations(range(3), count) for count in (1, 2, 3)):
        first = vector("".join(f"{(2, -1, 3)[i]:+d}(abc)*{'cba'[i]}" for i in some))
        assert seen_by(TABLE, first, NOTHING[1]) == list(some), some
        yield TABLE, first, NOTHING[1], DIFFERS
        yield TABLE, NOTHING[1], first, DIFFERS
        # other letters in front of these, between and behind them; these in another order
        for table, to in ((bytes([1, 1, 1]), (0, 1, 2)), (bytes([0, 1, 0, 1, 1, 0]), (1, 3, 4)), (bytes([1] * 24), (5, 14, 23)), (bytes([0, 1] * 12), (21, 3, 7))):
            yield table, renamed(first, to), NOTHING[1], DIFFERS
    for first, second, axis in (
            ("a", "0", 2), ("(a^b)", "0", 0), ("(a^b)", "(a^c)", 0), ("(abc)*b", "0", 1), ("(abc)*(a^c)", "(abc)*(c^d)", 1), ("(abc)*(c^d)", "0", 1),
            ("(a.b)*a", "(a.b)*b", 2), ("(a.c)*b", "(a.b)*c", 1), ("(abc)*a", "(abc)(a.b)*c", 2), ("(abc)*b", "(abc)(a.b)*c", 1), ("(abd)*c", "(abc)*d", 2),
            # scalar letters: g(g − 1), h(h − g), g(h − 1), g(h − 2), i(i − 2)
            ("gg(abc)*a", "g(abc)*a", 2), ("gg(abc)*b", "g(abc)*b", 1), ("gg(abc)*c", "g(abc)*c", 0), ("gg*(a^b)", "g*(a^b)", 0), ("hh(abc)*b", "gh(abc)*b", 1),
            ("gh*a", "g*a", 2), ("gh(abc)*b", "2g(abc)*b", 1), ("ii(abc)*(a^b)", "2i(abc)*(a^b)", 0),
            # with a = (0, 0, 1) and f = (0, 0, z): z(z − 1), z(z − 1)(z − 2), z(z − 1)(z − 2)(z − 3)
            ("(a.f)*f", "(a.a)*f", 2), ("(a.a)(f.f)*f+2(a.a)*f", "3(a.f)*f", 2), ("(a.f)(f.f)*f+11(a.f)*f", "6(a.a)(f.f)*f+6(a.a)*f", 2),
            # with a = (0, 0, z): z² − 1 and (z² − 1)(z² − 4), where z is not 0
            ("(a.a)*(a^b)", "(a^b)", 0), ("(a.a)(abc)*b", "(abc)*b", 1), ("(a.a)(a.a)*(a^b)+4*(a^b)", "5(a.a)*(a^b)", 0)):
        pair = vector(first), vector(second)
        assert seen_by(TABLE, *pair) == [axis], (first, second, first_apart(TABLE, *(forms.read(x)[1] for x in pair)))
        yield TABLE, *pair, DIFFERS
        yield TABLE, *reversed(pair), DIFFERS
        # the letters a to i elsewhere, in the same order and in another
        for to in ((1, 3, 5, 7, 9, 11, 12, 14, 22), (15, 9, 13, 1, 23, 3, 20, 8, 0)):
            yield bytes([0, 1] * 12), *(renamed(x, to) for x in pair), DIFFERS


def empty_and_unlike():
    """Empty forms, and forms of unlike kind, also where all their numbers are 0 or equal."""
    some = [scalar("0"), vector("0"), scalar("1"), vector("a"), scalar("g"), vector("g*a"), scalar("(a.a)"), vector("-2(a.b)*(c^d)"), scalar("(abc)(def)")]
    for first, second in itertools.product(some, repeat=2):
        yield TABLE, first, second, "R6" if first[0] != second[0] else HOLDS if first == second else DIFFERS


def lengths():
    """2: the buffer or the work memory too short, also where nothing would be written; lengths that are enough."""
    small = bytes([1])
    for first, second, meant in ((vector("a"), vector("a"), HOLDS), (vector("a"), vector("0"), DIFFERS), (vector("0"), scalar("0"), "R6"), (b"", b"", "R11")):
        for buffer, work in itertools.product((0, 3, 71, 72, 73, 255), (0, 55280, 55295, 55296, 55297, 65535)):
            yield small, first, second, "R2" if buffer < 72 or work < 55296 else meant, buffer, work
    for buffer, work in ((72, 55296), (71, 55296), (72, 55295)):
        yield bytes([1] * 24), vector("a"), forms.record(1, [(1, (), (23,))]), DIFFERS if (buffer, work) == (72, 55296) else "R2", buffer, work
        yield FULL_TABLE, zero_triples(), NOTHING[0], HOLDS if (buffer, work) == (72, 55296) else "R2", buffer, work
    yield bytes([1]) + bytes(23), scalar("xx"), scalar("x"), DIFFERS, 100, 60000


def tables():
    for table in (b"", bytes(25), bytes([1] * 25), bytes([1, 2]), bytes([255]), bytes([1] * 23 + [2]), bytes([1] * 200)):
        for first, second in ((vector("0"), vector("0")), (vector("a"), vector("0")), (b"", vector("j*a"))):
            yield table, first, second, "R1"


def shape():
    """11: a fault in either form, cut and lengthened ones, logs."""
    good = {0: scalar("g-(a.b)"), 1: vector("a-g*(b^c)")}
    for k, (kind, term) in enumerate(logs.BAD_TERMS):
        bad = bytes([kind, 1]) + term
        yield TABLE, *((bad, good[kind]) if k % 2 else (good[kind], bad)), "R11"
    for bad in logs.BAD_FORMS:
        yield TABLE, bad, good[0], "R11"
        yield TABLE, good[0], bad, "R11"
        yield TABLE, bad, bad, "R11"
    for n in range(len(good[1])):
        yield TABLE, good[1][:n], good[1], "R11"
        yield TABLE, good[1], good[1][:n], "R11"
    for more in (b"\0", good[1], log(good[1], [], good[1])):
        yield TABLE, good[1] + more, good[1], "R11"
        yield TABLE, good[1], good[1] + more, "R11"
    yield WHOLE, forms.record(0, sorted(logs.terms(logs.many(0, 49)), key=forms.position)), scalar("g"), "R11"
    yield WHOLE, scalar(logs.many(0, 48)), scalar(logs.many(0, 48)), HOLDS
    yield WHOLE, scalar(logs.many(0, 48)), scalar(logs.many(0, 47)), DIFFERS


def letters_of_the_table():
    """5 and 6 of letters in either form."""
    for k, (factors, part, number) in enumerate(logs.BAD_LETTERS):
        bad = forms.record(int(part != ()), [(1, factors, part)])
        yield TABLE, *((bad, NOTHING[bad[0]]) if k % 2 else (NOTHING[bad[0]], bad)), f"R{number}"
    for n in (22, 23, 24):
        yield WHOLE[:n], scalar("x"), scalar("w"), "R5" if n < 24 else DIFFERS
        yield WHOLE[:n], scalar("w"), scalar("x"), "R5" if n < 24 else DIFFERS


def order_of_refusals():
    """Faults together: the table, the lengths, the shapes of both, the letters of the first, of the second, the kinds."""
    good, other = scalar("g"), vector("a")
    absent, wrong = forms.record(0, [(7, ((9,),), ())]), forms.record(0, [(7, ((0,),), ())])
    firsts = {"": good, "R11": good + b"\0", "R5": absent, "R6": wrong}
    seconds = {"": good, "R11": b"\2\0", "R5": absent, "R6": wrong, "unlike": other}
    for table, buffer, work, (x, first), (y, second) in itertools.product((TABLE, TABLE + b"\2"), (72, 71), (WORK, WORK - 1), firsts.items(), seconds.items()):
        meant = "R1" if len(table) > 9 else "R2" if buffer < 72 or work < WORK else "R11" if "R11" in (x, y) else x or y.replace("unlike", "R6") or HOLDS
        yield table, first, second, meant, buffer, work


# ════ by chance

def random_pair(chance, most_terms=3, most_steps=4):
    """The ends of a log, which are equal; or one of them with a coefficient changed, or a term less, or another form."""
    table, whole = logs.random_log(chance, most_terms, most_steps)
    _, _, _, end, start = logs.cut_log(whole)
    pair = [whole[:end], whole[start:]]
    way, k = chance.random(), chance.randrange(2)
    if way < 0.4 and pair[k][1]:
        pair[k] = changed(pair[k], chance.randrange(pair[k][1]), lambda coef: chance.choice((-coef, coef // 2 or 5, 1)))
    elif way < 0.5:
        kind, terms = forms.read(pair[k])
        at = chance.randrange(len(terms) + 1)
        pair[k] = forms.record(kind, terms[:at] + terms[at + 1:])
    elif way < 0.6:
        kind = pair[0][0] if chance.random() < 0.8 else chance.randrange(2)
        pair[k] = forms.record(kind, forms.chosen_form(chance, kind, chance.randint(0, most_terms), range(6), range(6, 9), lambda: logs.any_coefficient(chance)))
    return table, *pair


def near_pair(chance, *_):
    """Two forms of three vectors and a scalar, with few terms and small coefficients: they often agree at small numbers, and their components at unlike ones."""
    kind, letters, scalars = chance.randrange(2), sorted(chance.sample(range(6), 3)), [chance.randint(6, 8)]
    pair = [forms.chosen_form(chance, kind, chance.randint(0, 3), letters, scalars, lambda: chance.choice((1, -1, 2, -2, 3, -4, 5, -6))) for _ in range(2)]
    return TABLE, *(forms.record(kind, terms) for terms in pair)


def damaged_pair(chance, *most):
    """A random pair with a byte or the table changed."""
    table, *pair = random_pair(chance, *most)
    if chance.randrange(8) == 0:
        table = chance.choice((table[:chance.randrange(9)], table[:-1] + b"\2", table + bytes(chance.randrange(20)), bytes(reversed(table))))
    else:
        k = chance.randrange(2)
        at = chance.randrange(len(pair[k]))
        byte = chance.choice((0, 1, 2, 3, 4, 5, 6, 8, 9, 16, 32, 64, 255, pair[k][at] ^ 1 << chance.randrange(8)))
        pair[k] = pair[k][:at] + chance.choice((b"", bytes([byte]), bytes([byte]), bytes([byte, pair[k][at]]))) + pair[k][at + 1:]
    return table, *pair


def by_chance():
    chance = random.Random(20261115)
    for _ in range(66):
        yield *random_pair(chance, 3, 3), ""
    for _ in range(50):
        yield *damaged_pair(chance, 2, 2), ""
    for _ in range(24):
        yield *near_pair(chance), ""


GROUPS = (lines_to_prove, each_rule, larger_numbers, first_assignments, full_forms, empty_and_unlike, lengths, tables, shape, letters_of_the_table, order_of_refusals, by_chance)


# ════ the program

def check_values(first, second, verdict, chance):
    """Values under random assignments of large integers: all equal, or not all."""
    def values():
        sigma = [tuple(chance.randint(-1000, 1000) for _ in range(3)) for _ in range(24)]
        return expressions.record_value(sigma, first) == expressions.record_value(sigma, second)

    assert all(values() for _ in range(3)) == (verdict == HOLDS), (first.hex(), second.hex(), verdict)


def same_values(first, second, row):
    sigma = [tuple(row[i:i + 3]) for i in range(0, len(row), 3)]
    return expressions.record_value(sigma, first) == expressions.record_value(sigma, second)


def check_first(table, first, second, numbers, chance):
    """The values differ under the first assignment, and before it they are equal: a lesser number at a place, any behind it."""
    assert not same_values(first, second, numbers), (first.hex(), second.hex(), numbers.hex())
    most = [m for kind in table for m in ((99, 99, 99) if kind else (99, 0, 0))]
    for x, n in enumerate(numbers):
        for v in range(n):
            for largest in (0, 1, 3, 99):
                row = list(numbers[:x]) + [v] + [chance.randint(0, min(m, largest)) for m in most[x + 1:]]
                assert same_values(first, second, row), (first.hex(), second.hex(), numbers.hex(), row)


def by_numbers(data):
    """The value of a form by components, as a function of the numbers in a row."""
    def wedge(a, b):
        return [f"(r[{3 * a + i}]*r[{3 * b + j}]-r[{3 * a + j}]*r[{3 * b + i}])" for i, j in ((1, 2), (2, 0), (0, 1))]

    def factor_text(f):
        pair = [f"r[{3 * f[0] + i}]" for i in range(3)] if len(f) < 3 else wedge(f[0], f[1])
        return pair[0] if len(f) == 1 else "(" + "+".join(f"{x}*r[{3 * f[-1] + i}]" for i, x in enumerate(pair)) + ")"

    totals = ["0", "0", "0"]
    for coef, factors, part in forms.read(data)[1]:
        base = ["1", "0", "0"] if not part else [f"r[{3 * part[0] + i}]" for i in range(3)] if len(part) == 1 else wedge(*part)
        size = "*".join([f"({coef})", *map(factor_text, factors)])
        totals = [f"{total}+{size}*{x}" for total, x in zip(totals, base)]
    return eval(f"lambda r: ({', '.join(totals)})")


def check_by_force(table, first, second, numbers):
    """All assignments of the letters that occur, in their order, up to the first under which the values differ; False where that is too far."""
    letters = sorted({n for data in (first, second) for _, factors, part in forms.read(data)[1] for some in (*factors, part) for n in some})
    ranges = [range(m) for n in letters for m in ((7, 7, 7) if table[n] else (3, 1, 1))]
    one, other, row = by_numbers(first), by_numbers(second), [0] * (3 * len(table))
    for some in itertools.islice(itertools.product(*ranges), 125000 if len(letters) < 4 else 1500):
        for k, n in enumerate(letters):
            row[3 * n:3 * n + 3] = some[3 * k:3 * k + 3]
        if one(row) != other(row):
            assert bytes(row) == numbers, (first.hex(), second.hex(), numbers.hex(), row)
            return True
    return False


def gp_letters(table):
    return "".join(f"v{n}=[x{n},y{n},z{n}];" if kind else f"s{n}=x{n};" for n, kind in enumerate(table))


def gp_equation(first, second):
    return " == ".join(f"({expressions.gp_record(x[0], x)})" for x in (first, second))


def check_with_pari(decided):
    script = expressions.GP_PRODUCTS + [f"{gp_letters(table)}print({gp_equation(first, second)});" for table, first, second, _ in decided]
    got = expressions.run_gp(script)
    for (_, first, second, verdict), equal in zip(decided, got, strict=True):
        assert equal == str(int(verdict == HOLDS)), (first.hex(), second.hex(), verdict, equal)
    print(f"PARI/GP: {len(decided)} verdicts agree")


def write_header():
    for name, pair in MEASURED.items():
        for which, data in zip(("first", "second"), pair):
            print(f"static const uint8_t {name}_{which}[{len(data)}] = {{{', '.join(map(str, data))}}};")
    print(f"static const uint8_t decision_table[{len(FULL_TABLE)}] = {{{', '.join(map(str, FULL_TABLE))}}};")


def write_gp():
    print(gp_letters(FULL_TABLE))
    for name, pair in MEASURED.items():
        print(f"{name}() = {gp_equation(*pair)};")


def write_cases():
    stdin, lines, decided, chance, forced = b"", [], [], random.Random(4), 0
    for group in GROUPS:
        before = len(lines)
        for table, first, second, meant, *lent in group():
            buffer, work = lent or (BUFFER, WORK)
            line = answer(table, first, second, buffer, work)
            verdict = line.split()[0]
            assert meant in ("", verdict), (group.__name__, len(lines) - before, table.hex(), first.hex(), second.hex(), line, meant)
            if verdict[0] != "R":
                check_values(first, second, verdict, chance)
                decided.append((table, first, second, verdict))
            if verdict == DIFFERS:
                numbers = bytes.fromhex(line.split()[1])
                check_first(table, first, second, numbers, chance)
                forced += check_by_force(table, first, second, numbers)
            stdin += bytes([len(table)]) + table + b"".join(len(x).to_bytes(2, "big") + x for x in (first, second)) + bytes([buffer]) + work.to_bytes(2, "big")
            lines.append(line)
        print(f"{group.__name__}: {len(lines) - before}")
    assert len(stdin) <= 65536, len(stdin)
    if "--pari" in sys.argv[1:]:
        check_with_pari(decided)
    home = pathlib.Path(__file__).resolve().parent.parent / "crates" / "decision_cases"
    (home / "stdin").write_bytes(stdin)
    (home / "stdout").write_text("\n".join(lines) + "\n")
    verdicts = collections.Counter(line.split()[0] for line in lines)
    print(f"{len(lines)} cases, {len(stdin)} bytes, {dict(sorted(verdicts.items()))}; {forced} first assignments found by force")


if __name__ == "__main__":
    if sys.argv[1:] == ["--header"]:
        write_header()
    elif sys.argv[1:] == ["--gp"]:
        write_gp()
    else:
        write_cases()
