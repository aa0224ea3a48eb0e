#!/usr/bin/env python3
"""Cases of insertion and their answers, computed from the customer's documents alone.

Writes crates/insertion_cases/stdin (the cases) and crates/insertion_cases/stdout (the answers).
A case is the length of a table (one byte), the table, a letter (one byte), the length of a form (two bytes), the form, the
same for the form to insert, and three signed bytes for each letter of the table (none where the table has 0 or over 24
bytes). Its answer is a line: R and a number, or the record in hexadecimal of the form with the letter replaced, and its
three values.

Nothing here is taken from the engine. A form is a dictionary from monomials to coefficients, worked by the operators of
tests/reduction_cases.py; the letter's place is taken by the dictionary of the form to insert.

Each case says what its answer is meant to be, and that is compared; only those by chance do not. The whole is worked a
second time as one expression in which the form to insert is written out, without the limits of reading, and the answer
must be the same. A form that is given must be in the one shape. Its values must be the old form's where the letter has the
inserted form's value, under the assignment of the case and under one of large integers; and the two must be the same
polynomials in the components of the letters, but for those with many terms.
"""
import collections
import functools
import itertools
import math
import pathlib
import random
import re

import check_cases as logs
import decision_cases as polynomials
import reduction_cases as expressions
import value_cases as forms
from check_cases import LIMIT, NOTHING, TABLE, WHOLE, scalar, vector
from reduction_cases import CONSTANT, DOT, LETTER, SUM, TIMES, TRIPLE, WEDGE, Refused, demand

ROOM = 770


# ════ working: each form is a dictionary from monomials to coefficients

def product(token, left, right):
    return expressions.product(token, 0, left, right)[1]


def plus(left, right):
    return expressions.gathered(0, expressions.raw(left) + expressions.raw(right))[1]


def worked_factor(leaf, letters):
    """A scalar letter, a dot, or a triple, which is a wedge and a dot."""
    if len(letters) == 1:
        return {((), (letters,)): 1}
    left = leaf(letters[0]) if len(letters) == 2 else product(WEDGE, leaf(letters[0]), leaf(letters[1]))
    return product(DOT, left, leaf(letters[-1]))


def worked_part(leaf, part):
    return leaf(part[0]) if len(part) == 1 else product(WEDGE, leaf(part[0]), leaf(part[1]))


def worked_term(leaf, term):
    coef, factors, part = term
    form = {((), ()): coef}
    for f in factors:
        form = product(TIMES, form, worked_factor(leaf, f))
    return product(TIMES, form, worked_part(leaf, part)) if part else form


def leaves(letter, inserted):
    """What stands for a vector letter."""
    return lambda n: inserted if n == letter else {((n,), ()): 1}


def inserted_form(table, form, letter, inserted, lent=ROOM):
    """The record of the form with the letter replaced, or the number of the refusal."""
    try:
        demand(1 <= len(table) <= 24 and max(table) <= 1, 1)
        demand(lent >= ROOM, 2)
        taken = [forms.read(form), forms.read(inserted)]
        demand(None not in taken, 11)
        (kind, terms), (inserted_kind, inserted_terms) = taken
        for number in (forms.letters_refused(table, terms), forms.letters_refused(table, inserted_terms)):
            demand(number == 0, number)
        demand(letter < len(table), 5)
        demand(table[letter] == 1, 6)
        demand(inserted_kind == 1, 6)
        if not terms:
            return form
        leaf = leaves(letter, logs.gathered(taken[1])[1])
        return expressions.record(kind, functools.reduce(plus, (worked_term(leaf, t) for t in terms)))  # each term is worked when it is added
    except Refused as refusal:
        return refusal.args[0]


def vectors(assignment):
    numbers = [b - 256 if b > 127 else b for b in assignment]
    return [tuple(numbers[i:i + 3]) for i in range(0, len(numbers), 3)]


def answer(table, form, letter, inserted, assignment):
    out = inserted_form(table, form, letter, inserted)
    if isinstance(out, int):
        return f"R{out}"
    return " ".join(map(str, (out.hex(), *forms.evaluate(forms.read(out)[1], vectors(assignment)))))


# ════ the same as one expression: a tree as reduction_cases.py has it

def factor_tree(leaf, letters):
    return (LETTER, letters[0]) if len(letters) == 1 else ((DOT, TRIPLE)[len(letters) - 2],) + tuple(map(leaf, letters))


def term_tree(leaf, term):
    coef, factors, part = term
    pieces = [factor_tree(leaf, f) for f in factors]
    if part:
        pieces.append(leaf(part[0]) if len(part) == 1 else (WEDGE,) + tuple(map(leaf, part)))
    return functools.reduce(lambda x, y: (TIMES, x, y), pieces, (CONSTANT, coef))


def sum_tree(leaf, terms):
    return functools.reduce(lambda x, y: (SUM, x, y), [term_tree(leaf, t) for t in terms])


def written_out(terms, letter, inserted):
    """The tree of a form of one term or more, the terms to insert written out; for none stands the wedge of the letter with itself."""
    whole = sum_tree(lambda n: (LETTER, n), inserted) if inserted else (WEDGE, (LETTER, letter), (LETTER, letter))
    return sum_tree(lambda n: whole if n == letter else (LETTER, n), terms)


def check_tree(table, form, letter, inserted, line, assignment):
    """A form that is given, and a refusal of working, must be what the tree comes to; so must the values."""
    (kind, terms), (_, inserted_terms) = forms.read(form), forms.read(inserted)
    if not terms:
        assert line == f"{form.hex()} 0 0 0"
        return
    tree = written_out(terms, letter, inserted_terms)
    try:
        again = expressions.record(*expressions.work(table, tree))
        values = expressions.three(expressions.value(table, vectors(assignment), tree))
        assert again[0] == kind
        again = " ".join(map(str, (again.hex(), *values)))
    except Refused as refusal:
        again = f"R{refusal.args[0]}"
    assert again == line, (table.hex(), form.hex(), letter, inserted.hex(), line, again)


# ════ values and polynomials

def check_values(terms, letter, inserted, out, assigned):
    """The form's value is the old one's where the letter has the inserted form's value."""
    value = tuple(forms.evaluate(inserted, assigned))
    assert forms.evaluate(out, assigned) == forms.evaluate(terms, assigned[:letter] + [value] + assigned[letter + 1:])


def replaced(terms, letter, inserted, i):
    """The component i of the old form, where the components of the letter are the inserted form's."""
    put = {3 * letter + k: polynomials.expanded(inserted, k) for k in range(3)}
    out = collections.Counter()
    for m, c in polynomials.expanded(terms, i).items():
        for n, d in functools.reduce(polynomials.product, (put.get(x, {(x,): 1}) for x in m), {(): c}).items():
            out[n] += d
    return {m: c for m, c in out.items() if c}


def places(terms, letter):
    """How often a letter stands in each term."""
    return [sum(f.count(letter) for f in (*factors, part)) for _, factors, part in terms]


def check_polynomials(terms, letter, inserted, out):
    """Whether it was few enough terms to be looked at; then the components are the same."""
    if sum(max(1, len(inserted)) ** k for k in places(terms, letter)) > 12:
        return 0
    assert all(polynomials.expanded(out, i) == replaced(terms, letter, inserted, i) for i in range(3))
    return 1


def large(table, chance):
    return [tuple(chance.randint(-10 ** 6, 10 ** 6) if i == 0 or kind else 0 for i in range(3)) for kind in table]


def check(table, form, letter, inserted, line, assignment, chance):
    """An answer behind the tests of both forms and of the letter. Whether it was held to polynomials too."""
    check_tree(table, form, letter, inserted, line, assignment)
    if line[0] == "R":
        return 0
    taken = forms.read(bytes.fromhex(line.split()[0]))
    assert taken and taken[0] == form[0] and forms.letters_refused(table, taken[1]) == 0
    (_, terms), (_, inserted_terms) = forms.read(form), forms.read(inserted)
    for assigned in (vectors(assignment), large(table, chance)):
        check_values(terms, letter, inserted_terms, taken[1], assigned)
    return check_polynomials(terms, letter, inserted_terms, taken[1])


# ════ the cases: a table, a form, a letter, the form to insert, and what the answer is meant to be: a number, a record, or None

# a to f are vectors, g h i scalars; j is not in the table
A, B, C, D, E, F, G, H, I, J = range(10)
# ten products of at most two scalar letters
SCALARS = ["", "g", "h", "i", "gg", "gh", "gi", "hh", "hi", "ii"]
TORN = vector("b")[:-1]
ABSENT = scalar("j")
WRONG = forms.record(0, [(1, ((A,),), ())])  # a vector letter where a scalar one belongs
VECTOR_ABSENT = forms.record(1, [(1, (), (J,))])
VECTOR_WRONG = forms.record(1, [(1, (), (G,))])
LONG = "(c.c)(d.d)*(e^f)"  # six vector letters


def first(count, texts):
    """The sum of the first so many."""
    texts = list(texts)[:count]
    assert len(texts) == count
    return "+".join(texts)


def scaled(*texts):
    """Each product of scalar letters before each text."""
    return [s + t for s in SCALARS for t in texts]


def spelled(text, letter, inserted):
    """The text of one term with a sum of letters, with coefficients and scalar letters, for a letter: multiplied out."""
    number = re.match(r"-?\d*", text)[0]
    pieces, out = text[len(number):].split("abcdef"[letter]), ""
    for chosen in itertools.product(logs.terms(inserted), repeat=len(pieces) - 1):
        coef = math.prod((k for k, _, _ in chosen), start=int(number) if number.strip("-") else int(number + "1"))
        scalars = "".join("abcdefghi"[x] for _, factors, _ in chosen for (x,) in factors)
        out += f"{coef:+d}{scalars}" + pieces[0] + "".join("abcdef"[x] + piece for (_, _, (x,)), piece in zip(chosen, pieces[1:]))
    return out


def case(text, letter, inserted, meant=None):
    """Texts as a case: a form with a vector part is a vector form. What is meant is a number or a text; without it the text is multiplied out."""
    form = vector if forms.read(vector(text)) else scalar
    assert forms.read(form(text)) and forms.read(vector(inserted)), (text, inserted)
    return TABLE, form(text), letter, vector(inserted), meant if isinstance(meant, int) else form(meant or spelled(text, letter, inserted))


def velocities():
    """The velocity of a point of a body, b+(c^d), in formulas of mechanics: each product of wedges."""
    velocity = vector("b+(c^d)")
    yield TABLE, scalar("h(a.a)"), A, velocity, scalar("h(b.b)+2h(bcd)+h(c.c)(d.d)-h(c.d)(c.d)")
    yield TABLE, vector("h*a"), A, velocity, vector("h*b+h*(c^d)")
    yield TABLE, vector("h*(a^d)-(d.d)*c"), A, velocity, vector("h*(b^d)+h(c.d)*d-h(d.d)*c-(d.d)*c")
    yield TABLE, vector("(a^e)"), A, velocity, vector("(b^e)+(c.e)*d-(d.e)*c")
    yield TABLE, scalar("(a.c)-(b.c)"), A, velocity, NOTHING[0]
    yield TABLE, scalar("(a.e)"), A, velocity, scalar("(b.e)+(cde)")
    yield TABLE, scalar("(abe)"), A, velocity, scalar("(b.c)(d.e)-(b.d)(c.e)")
    yield TABLE, scalar("(aef)"), A, velocity, scalar("(bef)+(c.e)(d.f)-(c.f)(d.e)")


def each_place():
    """The letter at each place, a sum of letters for it."""
    for text, letter in (("(a.b)", A), ("(a.b)", B), ("(a.a)", A), ("(abc)", A), ("(abc)", B), ("(abc)", C), ("(a^b)", A), ("(a^b)", B), ("a", A), ("b", B),
                         ("g(a.b)*b", A), ("(a.a)(a.b)*(a^c)", A), ("(b.c)(c.c)*(a^c)", C), ("(a.b)(a.c)(a.d)", A), ("(abc)(ade)", A), ("(abc)*(a^d)", A),
                         ("(b.d)(bcd)*d", D), ("(a.a)(a.a)(a.a)", A), ("(b.b)(abc)*b", B)):
        for inserted in ("d+2e", "-3f", "5a-b"):
            yield case(text, letter, inserted)


def wedges():
    """A wedge for the letter at each place, and twice in a term."""
    for text, letter, inserted, meant in (
            ("(a.b)", A, "(c^d)", "(bcd)"), ("(a.b)", B, "(c^d)", "(acd)"), ("(b.d)", D, "(a^c)", "-(abc)"), ("(a.b)", A, "(b^c)", "0"),
            ("(a.a)", A, "(b^c)", "(b.b)(c.c)-(b.c)(b.c)"), ("(a.a)", A, "(b^c)+2d", "(b.b)(c.c)-(b.c)(b.c)+4(bcd)+4(d.d)"),
            ("(abc)", A, "(d^e)", "(b.d)(c.e)-(b.e)(c.d)"), ("(abc)", B, "(d^e)", "(a.e)(c.d)-(a.d)(c.e)"), ("(abc)", C, "(d^e)", "(a.d)(b.e)-(a.e)(b.d)"),
            ("(abc)", A, "(b^c)", "(b.b)(c.c)-(b.c)(b.c)"), ("(abc)", C, "(a^b)", "(a.a)(b.b)-(a.b)(a.b)"),
            ("(a^b)", A, "(c^d)", "(b.c)*d-(b.d)*c"), ("(a^b)", B, "(c^d)", "(a.d)*c-(a.c)*d"), ("(a^b)", B, "(a^b)", "(a.b)*a-(a.a)*b"),
            ("3g*a", A, "-2(b^c)+h*d", "-6g*(b^c)+3gh*d"), ("-(a.b)*a", A, "(c^d)", "-(bcd)*(c^d)"), ("(a.b)*(a^b)", A, "(c^d)", "(b.c)(bcd)*d-(b.d)(bcd)*c"),
            ("(a.b)(a.c)", A, "(d^e)", "(bde)(cde)"), ("(abc)*a", A, "(d^e)", "(b.d)(c.e)*(d^e)-(b.e)(c.d)*(d^e)"),
            ("(a.b)+(abc)", A, "c-(c^d)", "(b.c)-(bcd)-(b.c)(c.d)+(b.d)(c.c)"), ("a+(a^b)", A, "(c^d)-h*e", "(c^d)-h*e+(b.c)*d-(b.d)*c+h*(b^e)")):
        yield case(text, letter, inserted, meant)


def letter_inside():
    """The form to insert has the letter itself: it is put in once."""
    for text, letter, inserted, meant in (
            ("(a.c)", A, "a+b", "(a.c)+(b.c)"), ("(a.a)", A, "a+b", "(a.a)+2(a.b)+(b.b)"), ("(abc)", B, "a+b+c", "(abc)"),
            ("(a.b)", A, "(a.b)*a", "(a.b)(a.b)"), ("a", A, "-a", "-a"), ("(a^b)", A, "(a^b)", "(a.b)*b-(b.b)*a"), ("(a^b)", A, "a-3b", "(a^b)"),
            ("a", A, "(a.a)(a.a)*a", "(a.a)(a.a)*a"), ("(a.a)*a", A, "2a", "8(a.a)*a"), ("2a+b", A, "a", "2a+b"), ("(abc)(abd)", B, "g*b", "gg(abc)(abd)")):
        yield case(text, letter, inserted, meant)


def letter_not_there():
    """The form comes back as it is, whatever is inserted."""
    for form in (scalar("5"), scalar(f"-{LIMIT}"), scalar("g"), scalar("(b.c)"), scalar("(bcd)-2gh(b.b)"), scalar("1+g+gh+(b.b)(b.b)(b.b)+(bcd)(bce)"),
                 vector("b"), vector("(b^c)"), vector("-2(b.c)*(d^e)+gi*f"), vector("(bcd)*e-h(b.b)(c.c)*(d^e)")):
        for inserted in (vector("a"), vector(f"{LIMIT}{LONG}"), NOTHING[1]):
            yield TABLE, form, A, inserted, form


def nothing():
    """No terms in the form: it stands, with its kind, but the tests are made. No terms to insert: the terms with the letter go, within any limit."""
    for form, inserted in itertools.product(NOTHING.values(), (vector("b"), NOTHING[1], vector(f"{LIMIT}{LONG}"))):
        yield TABLE, form, A, inserted, form
    for form in NOTHING.values():
        yield TABLE, form, J, vector("a"), 5
        yield TABLE, form, G, vector("a"), 6
        yield TABLE, form, A, scalar("g"), 6
        yield TABLE, form, A, NOTHING[0], 6
        yield TABLE, form, A, VECTOR_ABSENT, 5
        yield TABLE, form, A, TORN, 11
    for text, meant in (("(a.b)", "0"), ("(a.a)+5", "5"), ("a", "0"), ("a+b", "b"), ("(a^b)+(b^c)", "(b^c)"), ("(abc)+(bcd)-(abd)", "(bcd)"),
                        ("(a.b)*c+g*c", "g*c"), (f"{LIMIT}gh(a.a)(a.b)(c.d)-1", "-1"), (f"{LIMIT}gg(a.b)(abc)*a-{LIMIT}hh*b", f"-{LIMIT}hh*b")):
        yield case(text, A, "0", meant)


def renamed():
    """One letter for another: letters, factors and terms in another order, signs turned, terms that vanish, that are added, that cancel."""
    for text, letter, inserted, meant in (
            ("(a.c)", A, "b", "(b.c)"), ("(a.c)", A, "f", "(c.f)"), ("(a.c)", A, "c", "(c.c)"), ("(a.c)", C, "a", "(a.a)"),
            ("(a.f)(b.c)", A, "e", "(b.c)(e.f)"), ("(abc)", A, "d", "(bcd)"), ("(abc)", B, "d", "-(acd)"), ("(bcd)", D, "a", "(abc)"),
            ("(bdf)", D, "a", "-(abf)"), ("(abc)(def)", A, "f", "(bcf)(def)"), ("(abf)(cde)", A, "d", "-(bdf)(cde)"), ("(a^b)", A, "c", "-(b^c)"),
            ("(b^c)", C, "a", "-(a^b)"), ("(a^b)", A, "b", "0"), ("(a^b)", B, "a", "0"), ("(abc)", B, "c", "0"), ("(abc)", A, "b", "0"),
            ("(a.c)+(b.c)", A, "b", "2(b.c)"), ("(a.c)-(b.c)", A, "b", "0"), ("(a.e)+(c.d)", A, "f", "(c.d)+(e.f)"), ("a+b+c", A, "f", "b+c+f"),
            ("a+b+c", C, "a", "2a+b"), ("a-b", B, "a", "0"), ("a+(a^b)+(c^d)", A, "b", "b+(c^d)"), ("(abc)+(abd)-(bcd)", A, "c", "-2(bcd)"),
            ("(a.b)(a.b)-(a.a)(b.b)", A, "b", "0"), ("gh(abc)*(a^d)", A, "d", "0"), ("(acd)*b-(bcd)*a", B, "a", "0"), ("(acd)*b+(bcd)*a", B, "a", "2(acd)*a"),
            ("(a.b)(c.d)", D, "d", "(a.b)(c.d)"), ("(a.b)*(c^d)", A, "-b", "-(b.b)*(c^d)"), ("2(a^b)-3(b^c)", B, "-f", "-2(a^f)-3(c^f)")):
        yield case(text, letter, inserted, meant)


def order_of_tests():
    """Faults of the form, of the form to insert, of its kind and of the letter together; working would be 8."""
    of_form = [(0, scalar("(a.a)")), (11, TORN), (5, ABSENT), (6, WRONG)]
    of_inserted = [(0, vector("(b.c)*(d^e)")), (11, TORN), (5, VECTOR_ABSENT), (6, VECTOR_WRONG), (0, scalar("g"))]
    of_letter = [(0, A), (5, J), (5, 255), (6, G)]
    for (x, form), (y, inserted), (z, letter) in itertools.product(of_form, of_inserted, of_letter):
        meant = 11 if 11 in (x, y) else x or y or z or (6 if inserted == scalar("g") else 8)
        yield TABLE, form, letter, inserted, meant
    # 1 before all of them
    for table in (b"", bytes([2]), TABLE + b"\2", bytes([1] * 25), bytes(25), bytes([1] * 23 + [255])):
        yield table, scalar("(a.a)"), A, vector("b"), 1
        yield table, TORN, 255, scalar("g"), 1
    # letters in byte order: the first fault counts
    for dotted, number in (((F, J), 5), ((J, J), 5), ((G, J), 6)):
        yield TABLE, forms.record(0, [(1, (dotted,), ())]), A, VECTOR_WRONG, number
        yield TABLE, scalar("(a.a)"), G, forms.record(1, [(1, (dotted,), (A,))]), number
    yield TABLE, forms.record(1, [(1, (), (B,)), (1, (), (G,)), (1, (), (J,))]), J, vector("b"), 6
    # other faults of the shape: no bytes, a byte left over, a kind, a count, a coefficient of 1, letters out of order
    for form, inserted in ((b"", b""), (vector("a") + b"\0", vector("b")), (vector("a"), vector("b") + b"\0"), (bytes([2, 0]), NOTHING[1]),
                           (NOTHING[0], bytes([1, 49])), (bytes.fromhex("0101110000000100"), vector("a")), (vector("a"), bytes.fromhex("0101200100"))):
        yield TABLE, form, A, inserted, 11
    # 5 of a letter that the form does not have, 6 of a scalar letter that it has; 6 before 7
    seven = first(7, scaled("*b"))
    yield TABLE, scalar("gg"), G, vector("b"), 6
    yield TABLE, scalar("gg"), G, vector(seven), 6
    yield TABLE, scalar("gg"), G, scalar("h"), 6
    yield TABLE, scalar("(a.a)"), A, scalar(first(7, SCALARS[1:])), 6
    yield TABLE, scalar("(a.a)"), A, vector(seven), 7
    yield TABLE, scalar("(a.a)"), J, vector(seven), 5
    yield TABLE, scalar("(a.a)"), G, vector(seven), 6


def tables_and_letters():
    """Tables of 1 and of 24 letters, every letter's number from the table's length on, the last letters."""
    one, all_vectors, all_scalars = bytes([1]), bytes([1] * 24), bytes(24)
    yield one, scalar("(a.a)"), A, vector("-2a"), scalar("4(a.a)")
    yield one, vector("(a.a)*a"), A, vector("a"), vector("(a.a)*a")
    yield one, vector("(a.a)*a"), A, vector("(a.a)*a"), 8
    yield one, vector("a"), B, vector("a"), 5
    yield one, vector("a"), A, vector("b"), 5
    yield bytes([0]), NOTHING[1], A, NOTHING[1], 6
    yield bytes([0]), NOTHING[1], B, NOTHING[1], 5
    yield all_scalars, scalar("1"), 23, NOTHING[1], 6
    yield all_scalars, scalar("1"), 24, NOTHING[1], 5
    for letter in (9, 10, 23, 24, 127, 128, 254, 255):
        yield TABLE, scalar("(a.b)"), letter, vector("c"), 5
    ends = [(1, ((0, 23), (22, 23)), ())]
    yield all_vectors, forms.record(0, ends), 23, forms.record(1, [(-1, (), (21,))]), forms.record(0, [(1, ((0, 21), (21, 22)), ())])
    yield all_vectors, forms.record(0, ends), 23, forms.record(1, [(1, (), (0, 22))]), NOTHING[0]
    yield all_vectors, forms.record(0, ends), 24, forms.record(1, [(1, (), (0,))]), 5
    yield all_vectors, forms.record(0, ends), 0, forms.record(1, [(1, (), (24,))]), 5
    each = [(1, (), (n,)) for n in range(24)]
    yield all_vectors, forms.record(1, each), 12, forms.record(1, [(-1, (), (11,))]), forms.record(1, each[:11] + each[13:])
    yield WHOLE, scalar("(a.b)"), A, vector("x*f"), scalar("x(b.f)")
    yield WHOLE, scalar("(a.b)"), 23, vector("x*f"), 6


def pairs():
    """7: 48 pairs and 49, in dots and products. A wedge has at most 48, since its letters are different."""
    yield case("(a.a)", A, "a+b+c+d+e+f")
    yield case("(a.a)", A, "a+b+c+d+e+f+g*a", 7)
    yield case("(a.f)(b.f)", F, "a+b+c+d+e-f")
    yield case("(a.f)(b.f)", F, "a+b+c+d+e+f+h*f", 7)
    yield case("(a.f)*f", F, "a+b+c+d-2e+f")
    yield case("(a.f)*f", F, "a+b+c+d+e+f+h*f", 7)
    # 8 times 6, 7 times 7, 8 times 7: letters that vanish in the triple and in the wedge are not counted
    yield case("(a.f)(abf)", F, "a+b+c+d+e+f+g*c+g*d")
    yield case("(a.f)(abf)", F, "c+d+e+f+g*c+g*d+g*e", 7)
    yield case("(a.f)(abf)", F, "a+c+d+e+f+g*c+g*d+g*e", 7)
    yield case("(a.f)*(b^f)", F, "b+g*b+c+d+e+f+g*c+g*d")
    yield case("(a.f)*(b^f)", F, "c+d+e+f+g*c+g*d+g*e", 7)
    yield case("(a.f)*(b^f)", F, "b+c+d+e+f+g*c+g*d+g*e", 7)
    # like terms of the left side are added before they are counted: 10 times 4; 16 times 4
    yield case("(a.f)(a.f)(b.f)", F, "a+b+c+d")
    yield case("(a.f)(b.f)(b.f)", F, "a+b+c+d", 7)
    yield case("(f.f)(f.f)*f", F, "a+b")
    yield case("(f.f)(f.f)*f", F, "a+b+c", 7)
    # 1 times 48 in a dot, a wedge, a triple, as the part, and with coefficients
    full = first(48, scaled("*a", "*b", "*c", "*d", "*e"))
    for text in ("(a.f)", "(a^f)", "(abf)", "f", f"-{LIMIT}f"):
        yield case(text, F, full)
    yield case("(f.f)", F, full, 7)
    # 7 before 8 and 9
    yield case("(a.f)(b.f)", F, f"{LIMIT}a+b+c+d+e+f+(a.b)(a.c)*d", 7)
    yield case("(a.f)(b.f)", F, f"{LIMIT}a+b+c+d+e+(a.b)(a.c)*d", 8)
    yield case("(a.f)(b.f)", F, f"{LIMIT}a+b+c+d+e", 9)


def letters():
    """8: six and seven vector letters, two and three scalar ones; in pairs that vanish they are not counted."""
    for text, inserted, meant in (
            ("(a.b)", "(c.c)(d.d)*e", "(b.e)(c.c)(d.d)"), ("(a.b)", LONG, 8), ("a", LONG, LONG), ("-2gh*a", LONG, f"-2gh{LONG}"),
            ("(b.c)*a", "(c.c)*(d^e)", "(b.c)(c.c)*(d^e)"), ("(b.c)*a", "(c.c)(d.d)*e", 8), ("(a^b)", "(c.c)(d.d)*e", "-(c.c)(d.d)*(b^e)"),
            ("(a^b)", LONG, 8), ("(a.b)(a.c)", "(d^e)", "(bde)(cde)"), ("(a.b)(a.c)", "(d.e)*f", 8),
            ("(abc)", "(d.d)*(e^f)", "(b.e)(c.f)(d.d)-(b.f)(c.e)(d.d)"), ("(abc)", "(c.c)(d.d)*e", 8), ("(a.a)", "(b.c)*d", "(b.c)(b.c)(d.d)"),
            ("(a.a)", "(b.c)*(d^e)", 8), ("gh*a", "b", "gh*b"), ("gh*a", "i*b", 8), ("g*a", "h*b", "gh*b"), ("g*a", "hi*b", 8),
            ("(a.b)(a.c)", "g*d", "gg(b.d)(c.d)"), ("g(a.b)(a.c)", "g*d", 8), ("(a.a)", "gh*b", 8), ("(a.b)*a", "gh*b", 8),
            ("(a.b)+(a.c)(a.d)", "(b.b)*c", 8), ("(a.b)+(b.c)", "c+(c.c)(d.d)*(e^f)", 8),
            # a letter wedge a wedge never vanishes and is tested; a pair that vanishes is not, and what vanished makes no pair
            ("(a^b)", "(c.c)(d.d)*b", "0"), ("(a^b)", "(c.c)(d.d)*(b^e)", 8), ("(c.d)*(a^b)", "(c.c)(d.d)*b", "0"), ("(c.d)*(a^b)", "(c.c)(d.d)*e", 8),
            ("(abc)", "(d.d)(e.e)*b", "0"), ("(abc)", "(d.d)(e.e)*c", "0"), ("gh*(a^b)", "hi*b", "0"), ("gh*(a^b)", "hi*c", 8),
            ("(a.b)", "(c.c)(d.d)*(b^c)", "0")):
        yield case(text, A, inserted, meant)
    yield case("(abc)", C, "(d.d)(e.e)*b", "0")
    yield case("(abc)", C, "(d.d)*(a^b)", "(a.a)(b.b)(d.d)-(a.b)(a.b)(d.d)")


def vanishing():
    """K4: a pair that vanishes is not tested. All were 8; those that still are have a pair that does not vanish."""
    for text, letter, inserted, meant in (
            # the dot of a letter with a wedge that has it, on either side
            ("(a.b)", B, "(c.c)(d.d)*(a^c)", "0"), ("(a.b)", B, "(c.c)(d.d)*(c^d)", 8),
            # the wedge of equal letters: as the part, and in a triple
            ("(a^b)", A, "(cde)(d.d)*b", "0"), ("(a^b)", B, "(cde)(d.d)*a", "0"), ("(a^b)", A, "(cde)(d.d)*f", 8), ("(abc)", A, "(def)(d.d)*b", "0"),
            ("(abc)", B, "(def)(d.d)*a", "0"), ("(abc)", B, "(def)(d.d)*d", 8),
            # the dot of a triple, with each of its letters
            ("(abc)", B, "(d.d)(e.e)*c", "0"), ("(abc)", C, "(d.d)(e.e)*a", "0"), ("(abc)", C, "(d.d)(e.e)*f", 8), ("(abc)", B, "(d.d)(e.e)*f", 8),
            # with a coefficient, scalar letters, other factors and terms around it
            ("-2147483647gh(abc)*(d^e)", A, "2147483647hi(d.d)(e.e)*c", "0"), ("(a.b)*(c^d)+5b", A, "2(c.c)(d.d)*(b^c)", "5b"), ("5+(abc)-(bcd)", A, "(d.d)(e.e)*c", "5-(bcd)"),
            ("(a.b)(a.c)", A, "(d.d)(e.e)*(b^c)", "0"), ("(a.b)(a.d)", A, "(d.d)(e.e)*(b^c)", 8),
            # one pair vanishes, the other is within, or too long; or the whole becomes too heavy
            ("(abc)", A, "(d.d)(e.e)*c+d", "(bcd)"), ("(abc)", A, "(d.d)(e.e)*c-3g*f", "-3g(bcf)"), ("(abc)", A, "(d.d)(e.e)*c+(d.d)(e.e)*f", 8),
            ("(a.b)", A, "(c.c)(d.d)*(b^c)+7c", "7(b.c)"), ("(a.b)", A, "(c.c)(d.d)*(b^c)+(c.c)(d.d)*(c^d)", 8), ("2(a.b)", A, "(c.c)(d.d)*(b^c)+2147483647c", 9),
            # a wedge of two letters that are there again, in a longer form: a letter wedge a wedge that has it does not vanish
            ("(a^b)", B, "(c.c)(d.d)*(a^e)", 8)):
        yield case(text, letter, inserted, meant)


def coefficients():
    """9: pairs and sums at the limit and beyond, also where something vanishes before or after."""
    for text, inserted, meant in (
            (f"{LIMIT}a", "b", None), (f"{LIMIT}a", "-b", None), (f"-{LIMIT}a", "-b", None), (f"{LIMIT}a", "2b", 9), (f"-{LIMIT}a", "2b", 9),
            ("2a", f"-{LIMIT}b", 9), ("-a", f"-{LIMIT}b", None), ("46340a", "46340b", None), ("-46341a", "46341b", 9), ("65536a", "32767b", None),
            ("65536a", "32768b", 9), ("-65536a", "32768b", 9), ("(a.b)(a.c)", "46340d", None), ("(a.b)(a.c)", "46341d", 9), ("(a.a)", "-46340b", None),
            ("(a.a)", "-46341b", 9), ("(a.b)(a.c)(a.d)", "1290f", None), ("(a.b)(a.c)(a.d)", "1291f", 9), ("3(a.b)(a.c)", "26754d", None),
            ("3(a.b)(a.c)", "26755d", 9), (f"{LIMIT}(abc)", "d", None), (f"{LIMIT}(abc)", "-3d", 9),
            # sums of like pairs
            ("(a.a)", "32768b+32767c", None), ("(a.a)", "32768b+32768c", 9), ("(a.a)", "-32768b+32768c", 9), ("(a.a)", "-32768b-32767c", None),
            ("(a.b)*a", "46340b+c", None), ("(a.a)", "46341(b^c)", 9), ("(a.a)", "46340(b^c)", "2147395600(b.b)(c.c)-2147395600(b.c)(b.c)"),
            # sums of terms
            (f"{LIMIT - 1}(a.c)+(b.c)", "b", f"{LIMIT}(b.c)"), (f"{LIMIT}(a.c)+(b.c)", "b", 9), (f"-{LIMIT - 1}(a.c)-(b.c)", "b", f"-{LIMIT}(b.c)"),
            (f"-{LIMIT}(a.c)-(b.c)", "b", 9), (f"{LIMIT}(a.c)-(b.c)", "b", f"{LIMIT - 1}(b.c)"), (f"{LIMIT}a+{LIMIT}b", "b", 9),
            (f"{LIMIT}a+{LIMIT}b", "-b", "0"), (f"{LIMIT}a+{LIMIT}b", "c", f"{LIMIT}b+{LIMIT}c"), (f"{LIMIT}a+{LIMIT}b", "b+c", 9),
            (f"1073741824a+1073741823b", "b", f"{LIMIT}b"),
            # a wedge that gathers like pairs
            ("(a^b)", f"{LIMIT - 1}(b.c)(d^e)+(b.d)(c^e)", f"{LIMIT}(b.c)(b.d)*e-{LIMIT - 1}(b.c)(b.e)*d-(b.d)(b.e)*c"),
            ("(a^b)", f"{LIMIT}(b.c)(d^e)+(b.d)(c^e)", 9), ("(abf)", f"{LIMIT}(b.c)(d^e)+(b.d)(c^e)", 9),
            # what vanishes: in the pair, before it comes to one, after the coefficient came to one
            (f"{LIMIT}(a^b)", "2b", "0"), (f"{LIMIT}(abc)", "2b", "0"), (f"{LIMIT}(a.b)*(a^b)", "2b", 9), (f"{LIMIT}(a.c)(abc)", "-3c", 9),
            (f"{LIMIT}(a.b)", "2(b^c)", "0")):
        yield case(text, A, inserted, meant)


def terms():
    """10: 48 and 49 terms or more, in sums, wedges and triples. A product of scalars has no more terms than pairs."""
    def dots(count):
        return first(count, scaled("(a.b)", "(a.c)", "(a.d)"))
    yield TABLE, scalar(dots(24)), A, vector("e+f"), scalar(dots(24).replace("a", "e") + "+" + dots(24).replace("a", "f"))
    yield TABLE, scalar(dots(25)), A, vector("e+f"), 10
    yield TABLE, scalar(dots(24) + "+1"), A, vector("e+f"), 10
    yield TABLE, scalar(dots(24) + "+(e.e)"), A, vector("e"), scalar(dots(24).replace("a", "e") + "+(e.e)")
    yield TABLE, scalar(dots(25)), A, vector("b+c"), scalar(dots(25).replace("a", "b") + "+" + dots(25).replace("a", "c"))
    parts = [(s, x, y) for s in SCALARS for x, y in itertools.combinations("cdef", 2)]
    for text, letter, two in (("(a^b)", A, "+{s}(b.{x})*{y}-{s}(b.{y})*{x}"), ("(a^b)", B, "+{s}(a.{y})*{x}-{s}(a.{x})*{y}"),
                              ("(abc)", C, "+{s}(a.{x})(b.{y})-{s}(a.{y})(b.{x})")):
        for count in (24, 25):
            inserted = "+".join(f"{s}*({x}^{y})" for s, x, y in parts[:count])
            yield case(text, letter, inserted, "".join(two.format(s=s, x=x, y=y) for s, x, y in parts[:count])[1:] if count == 24 else 10)
    # 9 before 10: 51 terms, one of them beyond
    some = first(24, scaled("*c", "*d", "*e"))
    yield case("(a.f)+(b.f)", F, f"{some}+{LIMIT}b+a", 9)
    yield case("(a.f)+(b.f)", F, f"{some}+{LIMIT - 1}b+a", 10)
    fewer = first(22, scaled("*c", "*d", "*e")) + f"+{LIMIT - 1}b+a"
    yield case("(a.f)+(b.f)", F, fewer, spelled("(a.f)", F, fewer) + spelled("(b.f)", F, fewer))


def partial_sums():
    """Sums are tested as they come, from left to right; and so is the wedge of a triple."""
    # 9, although the whole is within; taken, where the sums on the way are; 9 where the whole is beyond too
    yield case(f"{LIMIT}(a.a)+(a.b)-(b.b)", B, "a", 9)
    yield case(f"-{LIMIT}(b.b)-(b.c)+(c.c)", C, "b", 9)
    yield case(f"{LIMIT}(a.a)*d+(a.b)*d-(b.b)*d", B, "a", 9)
    yield case(f"(a.a)-(a.b)+{LIMIT}(b.b)", B, "a", f"{LIMIT}(a.a)")
    yield case(f"-{LIMIT}a-b+c", C, "b", f"-{LIMIT}a")
    yield case(f"{LIMIT}a+{LIMIT}b-{LIMIT}(b.b)*c", C, "0", f"{LIMIT}a+{LIMIT}b")
    yield case(f"-{LIMIT}a-b+c", B, "a", 9)
    yield case(f"-{LIMIT}a-b+{LIMIT}c", B, "a-c", 9)
    # 10, although 26 terms are left of the whole; and taken with 25
    for count in (25, 26):
        some = scaled("*c", "*d", "*e")[:count]
        text = "(a.f)+(b.f)" + "".join(f"-{x.replace('*', '(b.')})" for x in some)
        yield case(text, F, "+".join(some), "+".join(f"{x.replace('*', '(a.')})" for x in some) if count == 25 else 10)
    # 10 by the wedge of a triple, although all cancels at the dot
    for count in (8, 9):
        along = "+".join(f"{s}(c.d)(e^f)+{s}(c.e)(f^d)+{s}(c.f)(d^e)" for s in SCALARS[:count])
        yield case("(abc)", A, along, "0" if count == 8 else 10)
        yield case("5g+(abc)", A, along, "5g" if count == 8 else 10)
        yield case("(abc)", B, along, "0" if count == 8 else 10)
        # at one operator like terms are added before they are counted: 48 terms, or 54, that cancel
        yield case("(abc)", C, along.replace("c", "a"), "0")
        yield case("(a^c)", A, along, "0")


def order_of_working():
    """The first refusal counts: terms from the left, each with its sum before the next; factors from the left, each with its product before the next."""
    one_or_five = "b+(c.c)(d.d)*e"
    # the sum of two terms is 9, the third term 8; the sum is within, and the third term 8; the second term is 8 before its sum would be 9
    yield case(f"(a.b)+{LIMIT}(b.b)+(a.b)(a.c)", A, one_or_five, 9)
    yield case(f"(a.b)+{LIMIT - 1}(b.b)+(a.b)(a.c)", A, one_or_five, 8)
    yield case(f"{LIMIT}(b.b)+(b.c)+(c.c)(b.d)", C, "b+(e.e)(f.f)*(d^e)", 8)
    # the sum is 10, the third term 7; the second term is 7
    many_terms = first(27, scaled("*c", "*d", "*e"))
    yield case("(a.f)+(b.f)+(c.f)(d.f)", F, many_terms, 10)
    yield case("(a.f)+(c.f)(d.f)", F, many_terms, 7)
    yield case("(a.f)+(b.f)+(f.f)", F, many_terms, 10)
    yield case("(a.f)+(f.f)", F, many_terms, 7)
    # 9 in the second term, 8 in the third, and the other way
    yield case(f"(a.b)+{LIMIT}(a.c)+(a.b)(a.c)", A, "2(b.c)*d", 9)
    yield case(f"(a.b)+(a.b)(a.c)+{LIMIT}(a.b)(c.d)", A, "2(b.c)*d", 8)
    # in one term: the dot is 8; the coefficient with the first factor 9, the product with the second 8; the second factor itself 8
    yield case(f"{LIMIT}(a.b)(a.c)", A, f"2{LONG}", 8)
    yield case(f"{LIMIT}(a.b)(a.c)", A, "2(c.c)*d", 9)
    yield case("(a.b)(a.c)", A, "2(c.c)*d", 8)
    yield case(f"{LIMIT}(b.c)(abc)", A, "2(d.d)(e.e)*f", 8)
    yield case(f"{LIMIT}(a.b)(abc)", A, "2(d.d)(e.e)*f", 9)
    yield case(f"{LIMIT}g(bcd)*a", A, "2hi*b", 8)
    yield case(f"{LIMIT}g(a.b)*a", A, "2h*b", 9)
    yield case(f"{LIMIT}(a.b)*(a^c)", A, f"2b+{LONG}", 8)
    # 8 before 9 at one operator, whichever pair comes first
    for text in ("(a.b)(a.c)", "(a.c)*a", "(a.b)*(a^c)"):
        yield case(text, A, "50000d+(b.c)(b.c)*d", 8)
        yield case(text, A, "50000(b.c)(b.c)*d+e", 8)
        yield case(text, A, "50000d+e", 9)


def from_the_right(form, letter, inserted):
    """Each term multiplied from the right instead: what is not asked for."""
    leaf = leaves(letter, logs.gathered(forms.read(inserted))[1])

    def worked(coef, factors, part):
        pieces = [{((), ()): coef}] + [worked_factor(leaf, f) for f in factors] + ([worked_part(leaf, part)] if part else [])
        return functools.reduce(lambda x, y: product(TIMES, y, x), reversed(pieces))

    try:
        return expressions.record(form[0], functools.reduce(plus, (worked(*t) for t in forms.read(form)[1])))
    except Refused as refusal:
        return refusal.args[0]


def order_of_factors():
    """From the left, in the order of the record, the coefficient first. Each answer is another one from the right: that is a number, or a form."""
    for text, letter, inserted, meant, otherwise in (
            (f"{LIMIT}(a.b)*(b^c)", B, "2c", 9, 0), ("46341(a.b)(abc)", A, "65536b", 9, 0), ("g(a.a)(abc)", A, "h*c", 8, 0), ("g(a.c)(acd)", A, "gh*c", 8, 0),
            ("(a.c)(b.c)*c", C, "46341(a^d)", "0", 9), ("(b.c)(bcd)*b", B, "65536(c^d)", "0", 9), ("(c.d)(d.d)*d", D, "7i*(c^d)", "0", 8),
            ("(a.f)(a.f)(b.f)", F, "a+b+c+d", None, 7), ("(a.f)(b.f)(b.f)", F, "a+b+c+d", 7, 0), ("(a.f)(b.f)(b.f)", F, "40000a+40000b+40000c+40000d", 7, 9),
            (f"{LIMIT}(a.a)*a", A, "-3h*d", 9, 8), ("46341(a.b)*a", A, "65536gi*b", 9, 8), ("g(a.c)*c", C, "65536h*d", 8, 9),
            ("g(a.d)*a", A, "65536h*b", 8, 9), (f"{LIMIT}(a.c)(abd)*a", A, "a-3i*d+2(a^b)+2i*(c^d)", 9, 7), ("2(a.a)(a.b)(a.c)", A, "-3b+7c+(a^d)", 8, 7),
            ("-(a.a)(a.a)*d", A, "7d-3(a.c)*d+7g*(a^b)", 7, 8)):
        table, form, letter, insert, meant = case(text, letter, inserted, meant)
        right = from_the_right(form, letter, insert)
        assert right == otherwise if otherwise else isinstance(right, bytes), (text, inserted, right)
        yield table, form, letter, insert, meant


def full_forms():
    """48 terms, with the letter in each, in some, in none; and records of 770 bytes."""
    each = scaled("(a.b)", "(a.c)", "(a.d)", "(a.e)", "(a.f)")
    dots, parts = first(48, each), first(48, scaled("*a", "*b", "*c", "*d", "*(a^b)"))
    yield TABLE, scalar(dots), A, vector("-2a"), scalar("".join(f"-2{x}" for x in each[:48]))
    yield TABLE, scalar(dots), A, vector("b"), scalar(dots.replace("a", "b"))
    yield TABLE, scalar(dots), A, vector("e+f"), 10
    yield TABLE, scalar(dots), A, NOTHING[1], NOTHING[0]
    yield TABLE, vector(parts), A, vector("b"), vector(parts.replace("a", "b"))
    yield TABLE, vector(parts), E, vector("b"), vector(parts)
    yield TABLE, vector(parts), D, vector("(e^f)"), vector(parts.replace("*d", "*(e^f)"))
    yield TABLE, vector(parts), D, vector("e+f"), 10
    yield TABLE, vector(parts), A, vector("g*b"), 8
    # 48 terms of 16 bytes, -35mn(a.i)(def)*v; a to l are vectors, m and n scalars
    table = bytes([1] * 12 + [0] * 2)

    def longest(f, coef=-35):
        dots_and_parts = [((0, i), v) for i in range(5) for v in (2, 3, 4, 6, 7, 8, 9, 10, 11)] + [((0, 0), 0), ((0, 0), 1), ((0, 1), 0)]
        return expressions.record(*expressions.gathered(1, [(coef, ((12,), (13,), dot, (3, 4, f)), (v,)) for dot, v in dots_and_parts]))
    yield table, longest(5), 5, forms.record(1, [(-1000, (), (7,))]), longest(7, 35000)
    yield table, longest(5), 5, forms.record(1, [(1, (), (1, 2))]), 8
    yield table, longest(5), 5, forms.record(1, [(1, (), (3,)), (-1, (), (4,))]), NOTHING[1]


# ════ by chance

def coefficient(chance):
    return chance.choice((1, 1, -1, 2, -3) if chance.randrange(4) else (1, 5, 1000, -46341, 65536, chance.randint(1, LIMIT), LIMIT, -LIMIT))


def random_form(chance, table, kind, count, most, scalars):
    """So many terms, or fewer where few are to be had, each with at most so many vector letters and scalar letters."""
    vector_letters, scalar_letters = ([n for n, k in enumerate(table) if k == wanted] for wanted in (1, 0))
    found = {}
    for _ in range(60 * count):
        term = forms.chosen_term(chance, kind, vector_letters, scalar_letters, lambda: coefficient(chance))
        m = (term[2], term[1])
        if len(found) < count and expressions.vector_letters(m) <= most and expressions.scalar_letters(m) <= scalars:
            found[m] = term
    return forms.record(kind, sorted(found.values(), key=forms.position))


def random_case(chance, table, count, inserted_count, most):
    """A form and one to insert, of so many terms, the second with at most so many vector letters in a term; and a vector letter, mostly one of the form's.
    The table has three vector letters or more, and a scalar one."""
    form = random_form(chance, table, chance.randrange(2), count, chance.choice((3, 4, 6)), chance.choice((0, 1, 2)))
    inserted = random_form(chance, table, 1, inserted_count, most, chance.choice((0, 0, 1, 2)))
    letters = [n for n, kind in enumerate(table) if kind]
    there = [n for n in letters if any(places(forms.read(form)[1], n))]
    return table, form, chance.choice(there if there and chance.randrange(8) else letters), inserted


def by_chance():
    chance = random.Random(20261130)
    tables = bytes([1, 1, 1, 0]), bytes([1, 1, 1, 1, 0]), bytes([0, 1, 1, 0, 1, 1])
    for _ in range(300):
        yield *random_case(chance, chance.choice(tables), chance.choice((1, 1, 2, 3)), chance.choice((1, 1, 2, 3)), chance.choice((1, 1, 2, 2, 3))), None
    # more terms
    for _ in range(20):
        yield *random_case(chance, TABLE, chance.choice((1, 3, 8)), chance.choice((4, 5, 6)), chance.choice((1, 2))), None


GROUPS = (velocities, each_place, wedges, letter_inside, letter_not_there, nothing, renamed, order_of_tests, tables_and_letters, pairs, letters,
          vanishing, coefficients, terms, partial_sums, order_of_working, order_of_factors, full_forms, by_chance)


# ════ the program

def main():
    stdin, lines, held, chance = b"", [], 0, random.Random(20261201)
    for group in GROUPS:
        before = len(lines)
        for table, form, letter, inserted, meant in group():
            assignment = forms.assigned(table, chance)
            line = answer(table, form, letter, inserted, assignment)
            found = int(line[1:]) if line[0] == "R" else bytes.fromhex(line.split()[0])
            assert meant in (None, found), (group.__name__, len(lines) - before, table.hex(), form.hex(), letter, inserted.hex(), line, meant)
            if found not in (1, 5, 6, 11):
                held += check(table, form, letter, inserted, line, assignment, chance)
            stdin += bytes([len(table)]) + table + bytes([letter]) + b"".join(len(x).to_bytes(2, "big") + x for x in (form, inserted))
            if 1 <= len(table) <= 24:
                stdin += assignment
            lines.append(line)
        print(f"{group.__name__}: {len(lines) - before}")
    assert len(stdin) <= 65536, len(stdin)
    home = pathlib.Path(__file__).resolve().parent.parent / "crates" / "insertion_cases"
    (home / "stdin").write_bytes(stdin)
    (home / "stdout").write_text("\n".join(lines) + "\n")
    given = [len(bytes.fromhex(line.split()[0])) for line in lines if line[0] != "R"]
    refused = {line: lines.count(line) for line in sorted({x for x in lines if x[0] == "R"}, key=lambda x: int(x[1:]))}
    print(f"{len(lines)} cases, {len(stdin)} bytes, {len(given)} given, {held} of them held to polynomials, longest record {max(given)} bytes")
    print(f"refused {refused}")


if __name__ == "__main__":
    main()
