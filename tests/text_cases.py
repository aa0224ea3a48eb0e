#!/usr/bin/env python3
"""Formulas as text and what reading them gives, computed from the definition of the text and the customer's document alone.

Writes crates/text_cases/stdin (the cases) and crates/text_cases/stdout (the answers).
A case is its length (two bytes), the number of letters (one byte), the table, a name for each letter, and the line.
Its answer is a line: R1 alone where the table or the names are bad; R, a number, a blank and the column for any other refusal;
or `scalar` or `vector`, a blank and the text of the form with these names.

Nothing here is taken from the engine. A line is cut into tokens; a stack of the operators that wait for their right operand
brings these into the order in which they are worked; and they are worked one at a time, so that the column of a refusal is known.

Every answer is held to a second opinion that shares nothing of this reader. Whether a line can be read, and where it is torn, is
found with one regular expression, by replacing parentheses from the inside and by completing what stands before a column. The tree
of a line that is not very long is found by writing more parentheses around every operator, until the line is one for Python's own
reader. The form of the whole tree is that of tests/reduction_cases.py, from which the operators are here too; so its value under
random assignments must be that of the tree by components. Many answers are written by hand besides.
"""
import collections
import itertools
import pathlib
import random
import re
import string

import printer_cases
import value_cases as forms
from reduction_cases import (
    CONSTANT, DIFFERENCE, DOT, LETTER, LIMIT, NEGATION, SUM, TIMES, TRIPLE, WEDGE, Refused, gathered, product, raw, record, record_value, terms_of, three,
    value, work,
)

LETTERS, DIGITS = set(string.ascii_letters), set(string.digits)
LONGEST, DEEPEST = 4096, 16


def demand(holds, number, column=None):
    if not holds:
        raise Refused(number, column)


# ════ reading

# How close an operator binds, and its token. A minus in front binds less than a product and more than a sum.
OPERATORS = {"+": (1, SUM), "-": (1, DIFFERENCE), "*": (3, TIMES), ".": (4, DOT), "^": (5, WEDGE)}
FRONT = 2


def tokens(line):
    """The column and the text of each token, and behind them the end, a token without text."""
    return [(m.start(), m.group()) for m in re.finditer("[0-9]+|[^ ]", line)] + [(len(line), "")]


def steps(names, line):
    """What is worked, in its order: (token, number of the letter or constant, column). A minus in front has no column."""
    demand(len(line) <= LONGEST, 3, LONGEST)
    done, waiting, found = [], [], collections.deque(tokens(line))
    before = "("  # the token before, and "a" for anything that ends an operand

    def close(rank):
        while waiting and waiting[-1][0] >= rank:
            done.append(waiting.pop()[1:])

    def look_up(column, name):
        demand(name in names, 5, column)
        done.append((LETTER, names.index(name), column))

    while True:
        column, token = found.popleft()
        if before == "a":
            if token in OPERATORS:
                rank, meaning = OPERATORS[token]
                close(rank if rank < 4 else rank + 1)
                demand(rank < 4 or not waiting or waiting[-1][0] != rank, 4, column)
                waiting.append((rank, meaning, None, column))
                before = token
                continue
            if token in (")", ""):
                close(1)
                demand(bool(waiting) == (token == ")"), 4, column)
                if not token:
                    return done
                waiting.pop()
                continue
            demand(token in LETTERS or token == "(", 4, column)
            close(3)
            waiting.append((3, TIMES, None, column))
        if token in LETTERS:
            look_up(column, token)
            before = "a"
        elif token[:1] in DIGITS:
            demand(before not in (".", "^"), 4, column)
            done.append((CONSTANT, int(token), column))
            before = "a"
        elif token == "(":
            demand(sum(rank == 0 for rank, *_ in waiting) < DEEPEST, 3, column)
            ahead = list(itertools.islice(found, 4))
            if len(ahead) == 4 and all(x in LETTERS for _, x in ahead[:3]) and ahead[3][1] == ")":
                for place in ahead[:3]:
                    look_up(*place)
                    found.popleft()
                found.popleft()
                done.append((TRIPLE, None, column))
                before = "a"
            else:
                waiting.append((0, "(", None, column))
                before = "("
        else:
            demand(token in ("+", "-") and before == "(", 4, column)
            if token == "-":
                waiting.append((FRONT, NEGATION, None, None))
            before = token


# ════ working

def operator(token, operands):
    """An operator of document 01 on forms, each a kind and a dictionary."""
    kinds, sums = zip(*operands)
    if token == NEGATION:
        return kinds[0], {m: -c for m, c in sums[0].items()}
    if token in (SUM, DIFFERENCE):
        demand(kinds[0] == kinds[1], 6)
        turn = 1 if token == SUM else -1
        return gathered(kinds[0], raw(sums[0]) + [(turn * c, factors, part) for c, factors, part in raw(sums[1])])
    if token == TIMES:
        demand(kinds != (1, 1), 6)
        return product(TIMES, max(kinds), *sums)
    demand(0 not in kinds, 6)
    if token == TRIPLE:
        return product(DOT, 0, product(WEDGE, 1, *sums[:2])[1], sums[2])
    return product(token, int(token == WEDGE), *sums)


def worked(table, program):
    forms_made = []
    for token, number, column in program:
        if token == LETTER:
            forms_made.append((table[number], {((number,), ()) if table[number] else ((), ((number,),)): 1}))
        elif token == CONSTANT:
            demand(number <= LIMIT, 9, column)
            forms_made.append((0, {((), ()): number} if number else {}))
        else:
            count = {NEGATION: 1, TRIPLE: 3}.get(token, 2)
            operands, forms_made = forms_made[-count:], forms_made[:-count]
            try:
                forms_made.append(operator(token, operands))
            except Refused as refusal:
                raise Refused(refusal.args[0], column)
    (form,) = forms_made
    return form


def read_text(table, names, line):
    """('form', kind, record) or ('refused', number, column); 1 has no column. All three are bytes."""
    try:
        demand(1 <= len(table) <= 24 and all(b <= 1 for b in table), 1)
        names = names.decode("latin-1")
        demand(len(names) == len(table) == len(set(names)) and set(names) <= LETTERS, 1)
        kind, form = worked(table, steps(names, line.decode("latin-1")))
        return "form", kind, record(kind, form)
    except Refused as refusal:
        number, column = (*refusal.args, None)[:2]
        return "refused", number, column


def text_of(names, data):
    """The text of a form's record: the printer's, whose names are a to x, with these names."""
    return printer_cases.text(terms_of(data)).translate({ord("a") + i: chr(name) for i, name in enumerate(names)})


def answer(table, names, line):
    what, number, rest = read_text(table, names, line)
    if what == "form":
        return f"{'vector' if number else 'scalar'} {text_of(names, rest)}"
    return f"R{number}" if rest is None else f"R{number} {rest}"


# ════ a second opinion: can it be read, and where is it torn

ATOM = "[nP]"  # a name, or parentheses that were read
FIRST = "(?:[nP]|[0-9]+)"
DOTTED = r"(?:\^[nP])?(?:\.[nP](?:\^[nP])?)?"
PRODUCT = rf"{FIRST}{DOTTED}(?:\*{FIRST}{DOTTED}|{ATOM}{DOTTED})*"
WHOLE_SUM = re.compile(rf"[+-]?{PRODUCT}(?:[+-]{PRODUCT})*")


def well_formed(line):
    line = re.sub("[^-+*.^() n0-9]", "!", re.sub("[A-Za-z]", "n", line))
    line = re.sub("(?<![0-9]) | (?![0-9])", "", re.sub(" +", " ", line))  # a blank stays between digits only
    count = 1
    while count:
        line, count = re.subn(r"\(([^()]*)\)", lambda m: "P" if WHOLE_SUM.fullmatch(m[1]) else "!", line)
    return bool(WHOLE_SUM.fullmatch(line))


def goes_on(start):
    """Whether some line begins so: with a name or nothing, and what closes the parentheses."""
    closing = ")" * (start.count("(") - start.count(")"))
    return well_formed(start + closing) or well_formed(start + "a" + closing)


def reading_refused(names, line):
    """Reading's refusal as (number, column), or nothing. A name or a parenthesis is never torn, so a column has one refusal at most."""
    if len(line) > LONGEST:
        return 3, LONGEST
    found = [(column, 5) for column, x in enumerate(line) if x in LETTERS and x not in names]
    depths = itertools.accumulate((x == "(") - (x == ")") for x in line)
    found += [(column, 3) for column, (x, depth) in enumerate(zip(line, depths)) if x == "(" and depth > DEEPEST]
    if not well_formed(line):
        low, high = 0, len(line)  # all that is shorter than low goes on; what is longer than high does not
        while low < high:
            half = (low + high) // 2
            low, high = (half + 1, high) if goes_on(line[:half + 1]) else (low, half)
        found.append((low, 4))
    return min(found)[::-1] if found else None


# ════ a second opinion: the tree, by Python's own reader

class Side:
    """An operand: its tree, and every tree in it with its column in the order of working."""

    def __init__(self, tree, column, nodes=()):
        self.tree, self.nodes = tree, [*nodes, (tree, column)]

    def before(self, sign):
        return Sign(sign.column, self)

    __add__ = __sub__ = __mul__ = __matmul__ = __xor__ = before

    def __pos__(self):
        return self

    def __neg__(self):
        return Side((NEGATION, self.tree), None, self.nodes)


class Sign:
    """An operator's column, and then its left operand too."""

    def __init__(self, column, left=None):
        self.column, self.left = column, left

    def joining(token):
        return lambda self, right: Side((token, self.left.tree, right.tree), self.column, self.left.nodes + right.nodes)

    __add__, __sub__, __mul__, __matmul__, __xor__ = map(joining, (SUM, DIFFERENCE, TIMES, DOT, WEDGE))


def python_tree(names, line):
    """The operand that a line is, if it can be read: four parentheses around each atom, of which an operator closes and opens as many as it binds loosely."""
    out, operand = "((((", False
    for m in re.finditer(r"\( *([A-Za-z]) *([A-Za-z]) *([A-Za-z]) *\)|[0-9]+|[^ ]", line):
        piece, column = m.group(), m.start()
        if operand and (piece[0] in LETTERS or piece[0] == "("):
            out += f")))*Sign({column})*((("
        if piece in OPERATORS:
            if operand:
                times, sign = {"+": (4, "+"), "-": (4, "-"), "*": (3, "*"), ".": (2, "@"), "^": (1, "^")}[piece]
                out += ")" * times + f"{sign}Sign({column}){sign}" + "(" * times
            else:
                out = out[:-4] + piece + "(((("
        elif piece == "(":
            out += "((((("
        elif piece == ")":
            out += ")))))"
        elif piece[0] == "(":
            sides = [(LETTER, names.index(x)) for x in m.groups()]
            out += f"Side({(TRIPLE, *sides)}, {column}, {[(side, m.start(i + 1)) for i, side in enumerate(sides)]})"
        else:
            out += f"Side({(LETTER, names.index(piece)) if piece in LETTERS else (CONSTANT, int(piece))}, {column})"
        operand = piece not in OPERATORS and piece != "("
    return eval(out + "))))", {"Side": Side, "Sign": Sign})


def assigned(chance, table):
    return [tuple(chance.randint(-9, 9) if kind or i == 0 else 0 for i in range(3)) for kind in table]


def check(chance, table, names, line):
    """What was read, held to the second opinions; trees only of lines that are not very long."""
    found = read_text(table, names, line)
    letters, line = names.decode("latin-1"), line.decode("latin-1")
    if found[:2] == ("refused", 1):
        assert not 1 <= len(table) <= 24 or max(table) > 1 or len(names) != len(table) or not re.fullmatch("[A-Za-z]+", letters) or len(set(names)) < len(names)
        return found
    refused = reading_refused(letters, line)
    if refused:
        assert found == ("refused", *refused), (table, names, line, found, refused)
    elif len(line) < 1500:
        whole = python_tree(letters, line)
        assert steps(letters, line) == [(t[0], t[1] if t[0] in (LETTER, CONSTANT) else None, column) for t, column in whole.nodes], line
        try:
            out = record(*work(table, whole.tree))
            assert found == ("form", out[0], out), (table, names, line, found, out)
            for _ in range(3):
                sigma = assigned(chance, table)
                assert three(value(table, sigma, whole.tree)) == record_value(sigma, out), (table, names, line)
        except Refused as refusal:
            assert found[:2] == ("refused", refusal.args[0]), (table, names, line, found, refusal)
            for tree, column in whole.nodes:
                try:
                    work(table, tree)
                except Refused:
                    assert column == found[2], (table, names, line, found, column)
                    break
    return found


# ════ texts by chance

class Writer:
    """A formula written by chance; the tokens, and what is worked with the number of the token instead of a column."""

    def __init__(self, chance, table, names, wrong=0.0):
        self.chance, self.table, self.names, self.wrong, self.tokens, self.steps = chance, table, names, wrong, [], []

    def put(self, token):
        self.tokens.append(token)
        return len(self.tokens) - 1

    def shares(self, size):
        """The size cut into one to four shares."""
        cuts = sorted(self.chance.sample(range(1, size), min(size - 1, self.chance.randrange(4))))
        return [b - a for a, b in zip([0] + cuts, cuts + [size])]

    def sum(self, kind, size):
        for i, share in enumerate(self.shares(size)):
            sign = self.chance.choice("+-" if i else ("", "", "", "", "+", "-"))
            at = self.put(sign) if sign else None
            self.product(kind, share)
            if i:
                self.steps.append((SUM if sign == "+" else DIFFERENCE, None, at))
            elif sign == "-":
                self.steps.append((NEGATION, None, None))

    def product(self, kind, size):
        shares = self.shares(size)
        vector = self.chance.randrange(len(shares)) if kind else None
        for i, share in enumerate(shares):
            star = i and self.chance.random() < 0.4
            at = self.put("*") if star else len(self.tokens)
            self.dot(int(i == vector), share, not i or star)
            if i:
                self.steps.append((TIMES, None, at))

    def dot(self, kind, size, number):
        if kind or size < 2 or self.chance.random() < 0.3:
            return self.wedge(kind, size, number)
        left = self.chance.randrange(1, size)
        self.wedge(1, left, number)
        at = self.put(".")
        self.wedge(1, size - left, False)
        self.steps.append((DOT, None, at))

    def wedge(self, kind, size, number):
        if not kind or size < 2 or self.chance.random() < 0.4:
            return self.atom(kind, size, number)
        left = self.chance.randrange(1, size)
        self.atom(1, left, number)
        at = self.put("^")
        self.atom(1, size - left, False)
        self.steps.append((WEDGE, None, at))

    def atom(self, kind, size, number):
        if self.chance.random() < self.wrong:
            kind = 1 - kind
        if size > 1:
            at, count = self.put("("), len(self.steps)
            self.sum(kind, size - 1)
            if len(self.tokens) == at + 4 and LETTERS.issuperset(self.tokens[-3:]):  # three names, so a triple
                self.steps[count:] = [(LETTER, self.names.index(self.tokens[at + i]), at + i) for i in (1, 2, 3)] + [(TRIPLE, None, at)]
            self.put(")")
        elif kind == 0 and number and self.chance.random() < 0.4:
            large = str(self.chance.choice((46340, 46341, 65536, LIMIT, LIMIT + 1, 10 ** 25)))
            digits = self.chance.choice(("0", "1", "2", "3", "5", "12", "007", "1000", large))
            self.steps.append((CONSTANT, int(digits), self.put(digits)))
        elif kind == 0 and 1 in self.table and self.chance.random() < 0.3:
            at = self.put("(")
            for _ in range(3):
                self.name(1)
            self.put(")")
            self.steps.append((TRIPLE, None, at))
        else:
            self.name(kind)

    def name(self, kind):
        n = self.chance.choice([n for n, k in enumerate(self.table) if k == kind] or range(len(self.table)))
        self.steps.append((LETTER, n, self.put(self.names[n])))

    def line(self):
        """The text with blanks by chance, and the steps with their columns."""
        blanks = self.chance.choice(((0,), (0,), (0, 0, 0, 0, 1), (0, 1), (1,), (0, 1, 2, 3)))
        out, columns = "", []
        for token in self.tokens:
            out += " " * self.chance.choice(blanks)
            columns.append(len(out))
            out += token
        return out + " " * self.chance.choice(blanks), [(what, n, at if at is None else columns[at]) for what, n, at in self.steps]


USUAL, USUAL_NAMES = bytes([1, 1, 1, 1, 0, 0, 0]), b"abcdmnp"
WIDE, WIDE_NAMES = bytes([1] * 12 + [0] * 12), b"abcdefghijklmnopqrstuvwx"


def random_letters(chance):
    """A table and its names, mostly with scalars and vectors."""
    way = chance.randrange(10)
    if way < 4:
        return USUAL, USUAL_NAMES
    if way < 5:
        return WIDE, WIDE_NAMES
    count = chance.choice((1, 2, 3, 4, 5, 6, 8, 12, 24))
    return bytes(chance.choice((0, 1, 1)) for _ in range(count)), "".join(chance.sample(string.ascii_letters, count)).encode()


def random_formula(chance, table, names, wrong=0.0, size=None):
    """A text that can be read, and the steps that it must give."""
    writer = Writer(chance, table, names.decode(), wrong)
    writer.sum(chance.randrange(2), size or chance.choice((1, 2, 3, 4, 5, 6, 8, 10, 14, 20)))
    return writer.line()


def damaged(chance, line):
    line = bytearray(line)
    for _ in range(chance.choice((1, 1, 1, 2, 3))):
        at, way = chance.randrange(len(line) + 1), chance.randrange(6)
        some = ord(chance.choice("abcdmnpzAZ0123 ++--**..^^(())()?")) if chance.randrange(8) else chance.randrange(256)
        if way < 2:
            line.insert(at, some)
        elif way == 2:
            line[at:at + 1] = bytes([some])
        elif way == 3:
            del line[at:at + 1]
        elif way == 4:
            line[at:] = line[at + chance.randrange(4):]
        else:
            del line[at:]
    return bytes(line)


def random_sums(chance):
    """Products of sums with about as many pairs and terms as there may be."""
    def some(names, most):
        return "(" + "+".join(chance.choice(("", "", "", "2", "65536", "m")) + x for x in chance.sample(names, chance.randrange(1, most))) + ")"
    def side(kind):
        pairs = ["a^b", "c^d", "e^f", "a^c", "b^e", "d^f", "a^h", "g^h", "i^j"]
        return some("mnopqrstuvwx", 10) if not kind else some(chance.choice(("abcdefghijkl", pairs)), 10)
    def joined():
        sign = chance.choice(("*", "", ".", ".", "^", "^"))
        return side(int(sign in (".", "^"))) + sign + side(chance.choice((0, 1, 1)) if sign in ("*", "") else 1)
    line = "".join(x + chance.choice("+-") for x in (joined() for _ in range(chance.choice((0, 0, 1, 2))))) + joined()
    return WIDE, WIDE_NAMES, line.encode()


def random_heavy(chance):
    """Products of long terms, so that letters and coefficients are near their limits, and pairs vanish."""
    def term():
        factors = [chance.choice(("m", "n", "mn", "(a.a)", "(a.b)", "(b.c)", "(abc)", "(bcd)", "a.d ", "(2-m)")) for _ in range(chance.randrange(4))]
        return "".join([chance.choice(("", "", "3", "46341", "2147483647")), *factors, chance.choice(("a", "b", "c", "d", "a^b", "a^c", "c^d", ""))])
    def some():
        return "(" + "".join(x + chance.choice("+-") for x in (term() for _ in range(chance.choice((0, 0, 1))))) + term() + ")"
    line = chance.choice(("", "-", "+")) + some()
    for _ in range(chance.choice((1, 1, 2))):
        line += chance.choice(("*", "", ".", "^", "^", "+", "-")) + some()
    return USUAL, USUAL_NAMES, line.encode()


def random_deep(chance):
    """Parentheses about as deep as they may be, with something in them and something between."""
    line, deep = "", chance.choice((14, 15, 16, 16, 17, 18))
    for _ in range(deep):
        line += chance.choice(("", "", "", "-", "m", "2", "n+", "2*", " ")) + "("
    line += chance.choice(("m", "n", "2", "abc", "a.b", "abz", "(m)", "(abc)", "", "?", "mn", "2 2"))
    for _ in range(deep + chance.choice((0, 0, 0, 0, 0, -1, 1))):
        line += ")" + chance.choice(("", "", "", "", "+2", "*3", "-m", " "))
    return USUAL, USUAL_NAMES, line.encode()


def random_long(chance):
    """A line about as long as it may be."""
    length, piece = chance.choice((4094, 4095, 4096, 4097, 4098, 5000)), chance.choice(("a+", "a - ", "m*0+", "(a.b)*c+", "0", " ", "((a", "z+"))
    line = (piece * 5000)[:length]
    return USUAL, USUAL_NAMES, damaged(chance, line.encode()) if chance.randrange(3) == 0 else line.encode()


def random_bad(chance):
    """A table or names that are bad, mostly."""
    table, names = map(bytearray, random_letters(chance))
    way = chance.randrange(5)
    if way == 0:
        names[chance.randrange(len(names))] = chance.choice((*b"@[`{09 (\0\xff", chance.choice(names), chance.randrange(256)))
    elif way == 1:
        table[chance.randrange(len(table))] = chance.choice((2, 3, 128, 255))
    elif way == 2:
        table, names = b"", chance.choice((b"", b"a"))
    elif way == 3:
        table, names = bytes(chance.choices((0, 1), k=25)), "".join(chance.sample(string.ascii_letters, 25)).encode()
    else:
        names = chance.choice((names[:-1], names + b"Q", b""))
    return bytes(table), bytes(names), random_formula(chance, USUAL, USUAL_NAMES)[0].encode()


def random_text(chance):
    """A table, names and a line: valid, nearly valid and damaged ones."""
    way = chance.randrange(200)
    if way < 1:
        return random_long(chance)
    if way < 6:
        return random_bad(chance)
    if way < 12:
        return random_deep(chance)
    if way < 30:
        table, names, line = random_sums(chance)
        return table, names, damaged(chance, line) if chance.randrange(8) == 0 else line
    if way < 60:
        table, names, line = random_heavy(chance)
        return table, names, damaged(chance, line) if chance.randrange(8) == 0 else line
    table, names = random_letters(chance)
    if way < 70:
        soup = [*"ammn22+-*.^()( "] + [chr(x) for x in names[:3]]
        return table, names, "".join(chance.choices(soup, k=chance.randrange(12))).encode()
    line = random_formula(chance, table, names, chance.choice((0, 0, 0, 0.1)))[0].encode()
    return table, names, damaged(chance, line) if way > 140 else line


def random_printed(chance):
    """A form as it is printed, with any names."""
    count = chance.choice((3, 5, 7, 24))
    table = bytearray(chance.choices((0, 1), k=count))
    table[0:3] = chance.choice((b"\1\1\1", b"\1\1\1", b"\0\1\1"))
    while sum(table) < 3 or 0 not in table:
        table = bytearray(chance.choices((0, 1), k=max(count, 4)))
    names = "".join(chance.sample(string.ascii_letters, len(table))).encode()
    kind, vectors, scalars = chance.randrange(2), [n for n, k in enumerate(table) if k], [n for n, k in enumerate(table) if not k]
    coef = lambda: chance.choice((1, 1, -1, 2, -3, chance.randint(1, LIMIT), -LIMIT))
    data = forms.record(kind, forms.chosen_form(chance, kind, chance.choice((0, 1, 1, 2, 2, 3, 4)), vectors, scalars, coef))
    return bytes(table), names, data


# ════ the cases

def usual(*lines):
    return [(USUAL, USUAL_NAMES, line.encode()) for line in lines]


def meant(pairs, table=USUAL, names=USUAL_NAMES):
    """Lines whose answers are written by hand."""
    for line, expected in pairs:
        assert answer(table, names, line.encode()) == expected, (line, expected, answer(table, names, line.encode()))
        yield table, names, line.encode()


def lines_to_try():
    yield from meant([
        ("b^a", "vector -(a^b)"), ("a^a", "vector 0"), ("a^(b^c)", "vector (a.c)*b-(a.b)*c"), ("a^(b^c)+b^(c^a)+c^(a^b)", "vector 0"),
        ("((a^b)^(b^c)).(c^a) - (a.(b^c))(a.(b^c))", "scalar 0"), ("(b^c).(a^d)+(c^a).(b^d)+(a^b).(c^d)", "scalar 0"),
        ("(b^c)^(a^d)+(c^a)^(b^d)+(a^b)^(c^d)+2(abc)d", "vector (bcd)*a-(acd)*b+(abd)*c-(abc)*d"),
        ("(bcd)a-(acd)b+(abd)c-(abc)d", "vector (bcd)*a-(acd)*b+(abd)*c-(abc)*d"), ("46340*46340", "scalar 2147395600"), ("46341*46341", "R9 5"),
        ("-46340*46340", "scalar -2147395600"), ("-46341*46341", "R9 6"), ("(a.a)(a.a)(a.a)", "scalar (a.a)(a.a)(a.a)"), ("(a.a)(a.a)(a.a)a", "R8 15"),
        ("(a.a)(a.a)(a.a)*a", "R8 15"), ("-2(a.b)*(c^d)", "vector -2(a.b)*(c^d)"), ("((a.a)(a.a)a)^((b.b)a)", "vector 0"),
        ("((a.a)(a.a)a)^((b.b)c)", "R8 13"),
    ])
    yield from meant([
        ("(m+n+o+p+q+r)(a+b+c+d+e+f+g+h)", "vector " + "+".join(f"{s}*{v}" for v in "abcdefgh" for s in "mnopqr")),
        ("(m+n+o+p+q+r+s)(a+b+c+d+e+f+g)", "R7 15"),
    ], WIDE, WIDE_NAMES)


def precedence():
    yield from meant([
        ("a", "vector a"), ("m", "scalar m"), ("2", "scalar 2"), ("0", "scalar 0"), ("007", "scalar 7"), ("(a)", "vector a"), ("((m))", "scalar m"),
        ("(((abc)))", "scalar (abc)"), ("+a", "vector a"), ("-a", "vector -a"), ("(+a)", "vector a"), ("(-a)", "vector -a"), ("-(-a)", "vector a"),
        ("+2", "scalar 2"), ("-2", "scalar -2"), ("-0", "scalar 0"), ("a+b", "vector a+b"), ("a-b", "vector a-b"), ("b-a", "vector -a+b"),
        ("a-b-c", "vector a-b-c"), ("a-(b-c)", "vector a-b+c"), ("a-b+c", "vector a-b+c"), ("-a+b", "vector -a+b"), ("-a-b", "vector -a-b"),
        ("-(a+b)", "vector -a-b"), ("+a-b", "vector a-b"), ("-a.b+c.d", "scalar -(a.b)+(c.d)"), ("-2mn+mn", "scalar -mn"), ("-m(a+b)+c", "vector -m*a-m*b+c"),
        ("a-m(b-c)", "vector a-m*b+m*c"), ("2-3-4", "scalar -5"), ("2-3*4", "scalar -10"), ("-2*3+4", "scalar -2"), ("-(2+3)*4", "scalar -20"),
        ("2a", "vector 2*a"), ("2*a", "vector 2*a"), ("a*2", "vector 2*a"), ("a(2)", "vector 2*a"), ("(2)a", "vector 2*a"), ("(-2)a", "vector -2*a"),
        ("2(-a)", "vector -2*a"), ("ma", "vector m*a"), ("am", "vector m*a"), ("m a", "vector m*a"), ("m*a", "vector m*a"), ("nm", "scalar mn"),
        ("mm", "scalar mm"), ("2mn*a", "vector 2mn*a"), ("2(mn)a", "vector 2mn*a"), ("m2", "R4 1"), ("m*2", "scalar 2m"), ("m*2a", "vector 2m*a"),
        ("2*3m*4", "scalar 24m"), ("2(3)", "scalar 6"), ("(2)(3)", "scalar 6"), ("a.b", "scalar (a.b)"), ("b.a", "scalar (a.b)"), ("a^b", "vector (a^b)"),
        ("a.a", "scalar (a.a)"), ("(abc)", "scalar (abc)"), ("(bac)", "scalar -(abc)"), ("(cba)", "scalar -(abc)"), ("(bca)", "scalar (abc)"),
        ("(aba)", "scalar 0"), ("a.b^c", "scalar (abc)"), ("a^b.c", "scalar (abc)"), ("b^a.c", "scalar -(abc)"), ("a^b.c^d", "scalar (a.c)(b.d)-(a.d)(b.c)"),
        ("a.b c", "vector (a.b)*c"), ("a b.c", "vector (b.c)*a"), ("2a.b c", "vector 2(a.b)*c"), ("2a.b*c", "vector 2(a.b)*c"), ("a*b.c", "vector (b.c)*a"),
        ("a.b c.d", "scalar (a.b)(c.d)"), ("a.b*c.d", "scalar (a.b)(c.d)"), ("(a.b)(c.d)", "scalar (a.b)(c.d)"), ("m a^b", "vector m*(a^b)"),
        ("a^b m", "vector m*(a^b)"), ("a^b*m", "vector m*(a^b)"), ("m a.b n", "scalar mn(a.b)"), ("a^b c.d", "vector (c.d)*(a^b)"),
        ("a.b c^d", "vector (a.b)*(c^d)"), ("(a+b).(c+d)", "scalar (a.c)+(a.d)+(b.c)+(b.d)"), ("(a+b)^c", "vector (a^c)+(b^c)"), ("a+b^c", "vector a+(b^c)"),
        ("a.b+c.d", "scalar (a.b)+(c.d)"), ("(a^b)^c", "vector -(b.c)*a+(a.c)*b"), ("(a^b)^(c^d)", "vector (abd)*c-(abc)*d"), ("(abc)d", "vector (abc)*d"),
        ("d(abc)", "vector (abc)*d"), ("(abc)(abd)", "scalar (abc)(abd)"), ("(abc)*d", "vector (abc)*d"), ("2(abc)", "scalar 2(abc)"),
        ("m(abc)a.d", "scalar m(a.d)(abc)"), ("(mn)", "scalar mn"), ("(mnp)", "R6 0"), ("(mna)", "R6 0"), ("( m n p )", "R6 0"), ("(m*np)", "R8 4"),
        ("(mnpm)", "R8 3"), ("(mnaa)", "R6 4"), ("(abcd)", "R6 2"), ("(abc.d)", "R6 2"), ("(m(np))", "R8 2"), ("((mn)a)", "vector mn*a"),
        ("(ma)", "vector m*a"), ("(ma)^b", "vector m*(a^b)"), ("(ma).b", "scalar m(a.b)"), ("(+abc)", "R6 3"), ("(-mn)", "scalar -mn"),
        ("(mn-m)", "scalar -m+mn"), ("((abc))", "scalar (abc)"), ("((abc)d)", "vector (abc)*d"), ("(a bc)", "scalar (abc)"), ("(ab c )", "scalar (abc)"),
        ("(  a  b  c  )(abc)", "scalar (abc)(abc)"), ("(a+b+c)", "vector a+b+c"), ("(a.b)", "scalar (a.b)"), ("(a^b)", "vector (a^b)"), ("(2)", "scalar 2"),
        ("( 2 )", "scalar 2"), ("(0)a", "vector 0"), ("0a", "vector 0"), ("0(a.b)", "scalar 0"), ("m-m", "scalar 0"), ("a-a", "vector 0"),
    ])


def blanks():
    yield from meant([
        (" a", "vector a"), ("a ", "vector a"), ("   a   ", "vector a"), (" - a + b ", "vector -a+b"), ("a   +b", "vector a+b"), ("a   +m", "R6 4"),
        ("  a b", "R6 4"), ("  a   *  b", "R6 6"), ("m   .a", "R6 4"), (" m ^ a", "R6 3"), ("   ( a m b )", "R6 3"), ("  2147483648  ", "R9 2"),
        ("a  .  b  ^  c", "scalar (abc)"), ("2  m  n", "scalar 2mn"), ("1 000", "R4 2"), ("1 0", "R4 2"), ("10 0", "R4 3"), ("1  0  0", "R4 3"),
        ("( )", "R4 2"), ("a +", "R4 3"), ("a + ", "R4 4"), ("a.   ", "R4 5"), ("(a  ", "R4 4"), ("- ", "R4 2"), ("", "R4 0"), (" ", "R4 1"),
        ("     ", "R4 5"),
    ])
    for line in ("-2m(a.b^c)+(na).d-(abc)", "(a.b)*c^d+3n(b+mc)^(a)-00012*a", "((a^b)^(b^c)).(c^a)-(a.(b^c))(a.(b^c))"):
        some = [x for _, x in tokens(line)]
        yield from usual(line, " ".join(some), "  ".join(["", *some]), "   ".join(some[:-1]))


def names_and_letters():
    yield from meant([
        ("w", "vector w"), ("r^w", "vector -(w^r)"), ("u+r+w", "vector w+r+u"), ("w^(r^u)", "vector (w.u)*r-(w.r)*u"), ("(urw)", "scalar -(wru)"),
        ("(rwu)", "scalar -(wru)"), ("u.r", "scalar (r.u)"), ("a", "R5 0"), ("W", "R5 0"), ("w+R", "R5 2"), ("(wrU)", "R5 3"), ("(uw r)2u", "R4 6"),
        ("2(uw r)u", "vector 2(wru)*u"),
    ], bytes([1, 1, 1]), b"wru")
    yield from meant([
        ("z", "vector z"), ("A^z", "vector -(z^A)"), ("aZ", "vector a*Z"), ("Za", "vector a*Z"), ("a a", "scalar aa"), ("A a", "vector a*A"),
        ("aA+Aa", "vector 2a*A"), ("(zAZ)a", "scalar a(zAZ)"), ("(ZAz)", "scalar -(zAZ)"), ("(zaZ)", "R6 0"), ("(Z.A)z-(A.z)Z", "vector (A.Z)*z-(z.A)*Z"),
        ("Z+A+z", "vector z+A+Z"), ("b", "R5 0"), ("a+y", "R5 2"), ("Y", "R5 0"),
    ], bytes([1, 1, 0, 1]), b"zAaZ")
    yield from meant([
        ("m", "vector m"), ("M", "scalar M"), ("Mm", "vector M*m"), ("m.m M", "scalar M(m.m)"), ("n", "R5 0"), ("N", "R5 0"), ("mN", "R5 1"),
    ], bytes([1, 0]), b"mM")
    yield from meant([
        ("P", "vector P"), ("n", "scalar n"), ("P.P", "scalar (P.P)"), ("(nP)", "vector n*P"), ("nn", "scalar nn"), ("(PnP)", "R6 0"),
    ], bytes([1, 0]), b"Pn")
    every = bytes([1, 0] * 12), b"XyZaBcDeFgHiJkLmNoPqRsTu"
    yield from meant([
        ("u", "scalar u"), ("X", "vector X"), ("T+X", "vector X+T"), ("u y", "scalar yu"), ("uT.X", "scalar u(X.T)"), ("(TXZ)", "scalar (XZT)"),
        ("U", "R5 0"), ("t", "R5 0"), ("A", "R5 0"),
    ], *every)
    yield from meant([("+".join("XZBDFHJLNPRT"), "vector X+Z+B+D+F+H+J+L+N+P+R+T"), ("-".join("usqomkigecay"), "scalar -y-a-c-e-g-i-k-m-o-q-s+u")], *every)
    # each byte as the one name, and as the line
    for x in range(256):
        yield bytes([x % 2]), bytes([x]), bytes([x])
    # 1: names that are no letters, names twice, table bytes above 1, no letters, 25 letters; before anything in the line
    for table, names in ((b"\1", b"0"), (b"\1\1", b"a "), (b"\1\1", b"(a"), (b"\0\1", b"a\0"), (b"\1\1\0", b"ab\xe1"), (b"\1\1", b"aa"), (b"\1\0\1", b"aba"),
                         (b"\1\1\1", b"bcc"), (b"\0\1", b"ZZ"), (b"\2", b"a"), (b"\1\2", b"ab"), (b"\xff\1", b"ab"), (b"\2\1", b"aa"), (b"", b"")):
        for line in (b"a", b"", b"?"):
            yield table, names, line
    for count in (24, 25):
        for line in (b"a", b"x", b"y", b"?"):
            yield bytes([1] * count), b"abcdefghijklmnopqrstuvwxy"[:count], line
    yield bytes([1] * 24), b"abcdefghijklmnopqrstuvwa", b"a"
    yield bytes([1] * 23 + [2]), b"abcdefghijklmnopqrstuvwx", b"a"


def torn():
    yield from meant([
        ("+", "R4 1"), ("-", "R4 1"), ("*", "R4 0"), (".", "R4 0"), ("^", "R4 0"), (")", "R4 0"), ("(", "R4 1"), ("()", "R4 1"), ("a)", "R4 1"),
        ("(a", "R4 2"), ("(a))", "R4 3"), ("((a)", "R4 4"), ("(ab", "R4 3"), ("(abc", "R4 4"), ("(abc?", "R4 4"), ("(abc)?", "R4 5"), ("(a?c)", "R4 2"),
        ("(abc))", "R4 5"), (")a(", "R4 0"), ("a+", "R4 2"), ("a-", "R4 2"), ("m*", "R4 2"), ("a.", "R4 2"), ("a^", "R4 2"), ("--a", "R4 1"), ("+-a", "R4 1"),
        ("-+a", "R4 1"), ("++a", "R4 1"), ("a+-b", "R4 2"), ("a--b", "R4 2"), ("a++b", "R4 2"), ("m*-a", "R4 2"), ("a.-b", "R4 2"), ("a^-b", "R4 2"),
        ("(--a)", "R4 2"), ("m(*a)", "R4 2"), ("m**a", "R4 2"), ("a..b", "R4 2"), ("a^^b", "R4 2"), ("a.^b", "R4 2"), ("a^.b", "R4 2"), ("a+*b", "R4 2"),
        ("a*+b", "R4 2"), ("a.b.c", "R4 3"), ("a^b^c", "R4 3"), ("a.b^c.d", "R4 5"), ("a^b.c^d.a", "R4 7"), ("a^b.c^d^a", "R4 7"), ("(a.b.c)", "R4 4"),
        ("(a^b^c)", "R4 4"), ("a.b*c.d.a", "R4 7"), ("a.b c^d^a", "R4 7"), ("a.(b).c", "R4 5"), ("a^(b)^c", "R4 5"), ("(a)^b^c", "R4 5"),
        ("(a.b).c.d", "R4 7"), ("a+b)", "R4 3"), ("(a+b", "R4 4"), ("(a+)", "R4 3"), ("(+)", "R4 2"), ("a()", "R4 2"), ("a(+)", "R4 3"), ("()a", "R4 1"),
        ("a,b", "R4 1"), ("[a]", "R4 0"), ("a=b", "R4 1"), ("a/2", "R4 1"), ("a\tb", "R4 1"), ("a\n", "R4 1"), ("\ta", "R4 0"), ("a\0", "R4 1"),
        ("a+\x80", "R4 2"), ("a_b", "R4 1"), ("a·b", "R4 1"), ("a∧b", "R4 1"), ("a−b", "R4 1"),
        # numbers where none may stand, and where one may
        ("a2", "R4 1"), ("a 2", "R4 2"), ("(a)2", "R4 3"), ("(abc)2", "R4 5"), ("(abc)22", "R4 5"), ("2 2", "R4 2"), ("1 000 000", "R4 2"), ("a.2", "R4 2"),
        ("a^2", "R4 2"), ("a.22", "R4 2"), ("2.5", "R4 2"), ("2.05", "R4 2"), ("2^2", "R4 2"), ("a.b2", "R4 3"), ("a^b2", "R4 3"), ("a^b.2", "R4 4"),
        ("a.b^2", "R4 4"), ("(a2)", "R4 2"), ("(ab2)", "R4 3"), ("(2ab", "R4 4"), ("(a.2)", "R4 3"), ("(1 2)", "R4 3"), ("m*2 3", "R4 4"), ("a+2 3", "R4 4"),
        ("2.a", "R6 1"), ("2^a", "R6 1"), ("m*2.a", "R6 3"), ("m*2^a", "R6 3"), ("a+2.a", "R6 3"), ("-2.a", "R6 2"), ("(2.a)", "R6 2"), ("(2).a", "R6 3"),
        ("a.(2)", "R6 1"), ("a^(2)", "R6 1"), ("2.a.b", "R4 3"), ("2^a^b", "R4 3"), ("2+2", "scalar 4"), ("2*2", "scalar 4"), ("2(2)", "scalar 4"),
        ("(2)*2", "scalar 4"), ("2m*2", "scalar 4m"), ("m*2*2", "scalar 4m"), ("-2*2", "scalar -4"), ("(2m)*2a", "vector 4m*a"), ("2(2a)*2", "vector 8*a"),
    ])
    # every byte alone; behind a name and in parentheses, those to 127 and some above
    for x in range(256):
        yield b"\1", b"a", bytes([x])
    for x in (*range(128), 0xA0, 0xB2, 0xC1, 0xFF):
        yield b"\1", b"a", bytes([97, x])
        if x >= 31:
            yield b"\1", b"a", bytes([40, 97, x, 41])


def short_lines():
    """Every line of one to three of these, but for those that are torn before their last byte."""
    for count in (1, 2, 3):
        for line in map("".join, itertools.product("a2+-*.^()", repeat=count)):
            if goes_on(line[:-1]):
                yield b"\1", b"a", line.encode()


RICH = [(USUAL, USUAL_NAMES, "-2m(a.b^c)+(n a).d-(abc)"), (USUAL, USUAL_NAMES, "(a.b)*c^d + 3n(b+m c)^(a)"),
        (bytes([1, 1, 1]), b"wru", " 12w.(r^u)u*7-( w r u )r ")]


def torn_everywhere():
    """Rich texts cut behind every byte, and each byte in turn replaced or left out."""
    for table, names, line in RICH:
        assert answer(table, names, line.encode())[0] != "R"
        for i in range(len(line) + 1):
            yield table, names, line[:i].encode()
        for i in range(len(line)):
            for instead in ("?", " ", ""):
                yield table, names, (line[:i] + instead + line[i + 1:]).encode()


def absent():
    yield from meant([
        ("z", "R5 0"), ("A", "R5 0"), ("az", "R5 1"), ("za", "R5 0"), ("a+z", "R5 2"), ("a-z", "R5 2"), ("m*z", "R5 2"), ("a.z", "R5 2"), ("a^z", "R5 2"),
        ("-z", "R5 1"), ("(z)", "R5 1"), ("(zab)", "R5 1"), ("(azb)", "R5 2"), ("(abz)", "R5 3"), ("( a  b  z )", "R5 8"), ("(xyz)", "R5 1"), ("2z", "R5 1"),
        ("2*z", "R5 2"), ("(abc)z", "R5 5"), ("(ab)z", "R5 4"), ("e", "R5 0"), ("D", "R5 0"), ("o", "R5 0"), ("q", "R5 0"), ("l", "R5 0"), ("(abce)", "R5 4"),
        # the first of reading's refusals counts
        ("z?", "R5 0"), ("?z", "R4 0"), ("z+", "R5 0"), ("(z", "R5 1"), ("(zab", "R5 1"), ("(abz", "R5 3"), ("(ab?z)", "R4 3"), ("(azb?)", "R5 2"),
        ("a2z", "R4 1"), ("a.b.z", "R4 3"), ("a.z.b", "R5 2"), ("(abz)?", "R5 3"), ("?(abz)", "R4 0"),
    ])


def deep():
    def up(n, inside):
        return "(" * n + inside + ")" * n

    yield from meant([
        (up(15, "a"), "vector a"), (up(16, "a"), "vector a"), (up(17, "a"), "R3 16"), (up(18, "a"), "R3 16"), (up(15, "abc"), "scalar (abc)"),
        (up(16, "abc"), "scalar (abc)"), (up(17, "abc"), "R3 16"), (up(17, "xyz"), "R3 16"), (up(16, "xyz"), "R5 16"), (up(17, "z"), "R3 16"),
        (up(16, "?"), "R4 16"), (up(17, "?"), "R3 16"), (up(16, ""), "R4 16"), (up(17, ""), "R3 16"), (up(16, "2 2"), "R4 18"), ("(" * 16, "R4 16"),
        ("(" * 17, "R3 16"), ("(" * 40, "R3 16"), (up(16, "m") * 2, "scalar mm"), (up(16, "m") + up(16, "abc"), "scalar m(abc)"),
        (up(16, "m") + up(17, "a"), "R3 49"), ("  " + "( " * 17, "R3 34"), ("z" + "(" * 17, "R5 0"), ("(z" + "(" * 16, "R5 1"), ("(?" + "(" * 16, "R4 1"),
        ("(" * 16 + "z(", "R5 16"), ("(" * 16 + "a(", "R3 17"), ("(" * 16 + "a)(m)", "R4 21"), ("(" * 16 + "a)((m))", "R3 19"), ("a(" * 16 + "a", "R4 33"),
        ("a(" * 17 + "a", "R3 33"), ("(" * 16 + ")", "R4 16"), ("(a+" * 16 + "a" + ")" * 16, "vector 17*a"), ("(a+" * 17 + "a" + ")" * 17, "R3 48"),
        ("-(" * 16 + "a" + ")" * 16, "vector a"), ("-(" * 15 + "a" + ")" * 15, "vector -a"), ("-(" * 17 + "a" + ")" * 17, "R3 33"),
        (up(15, "(abc)(abd)"), "scalar (abc)(abd)"), (up(16, "(abc)(abd)"), "R3 16"), (up(15, "m(abc"), "R4 35"), (up(16, "m(abc)"), "R3 17"),
        (up(14, "a^(b^(cm))"), "vector m(a.c)*b-m(a.b)*c"), (up(15, "a^(b^(cm))"), "R3 20"),
    ])


def numbers():
    big = "2147483648"
    yield from meant([
        ("2147483647", "scalar 2147483647"), (big, "R9 0"), ("-2147483647", "scalar -2147483647"), ("-" + big, "R9 1"), ("9" * 30, "R9 0"),
        ("1" + "0" * 29, "R9 0"), ("0" * 30, "scalar 0"), ("0" * 29 + "1", "scalar 1"), ("0" * 25 + "2147483647", "scalar 2147483647"),
        ("0" * 25 + big, "R9 0"), ("2147483646", "scalar 2147483646"), ("4294967295", "R9 0"), ("4294967296", "R9 0"), ("4294967297", "R9 0"),
        ("9223372036854775807", "R9 0"), ("9223372036854775808", "R9 0"), ("18446744073709551615", "R9 0"), ("18446744073709551616", "R9 0"),
        ("18446744073709551617", "R9 0"), ("340282366920938463463374607431768211457", "R9 0"), ("21474836470", "R9 0"), ("1" * 300, "R9 0"),
        ("0" * 300 + "5", "scalar 5"), ("0*" + big, "R9 2"), (big + "*0", "R9 0"), (big + "-" + big, "R9 0"), ("a+" + big + "b", "R9 2"),
        ("(" + big + ")", "R9 1"), ("m*" + big, "R9 2"), ("a^a*" + big, "R9 4"), (big + ".a", "R9 0"), (big + "^a", "R9 0"), ("2147483647+1", "R9 10"),
        ("2147483647+1-1", "R9 10"), ("2147483646+1", "scalar 2147483647"), ("-2147483647-1", "R9 11"), ("-2147483646-1", "scalar -2147483647"),
        ("2147483647*1", "scalar 2147483647"), ("2147483647*2", "R9 10"), ("2147483647*0", "scalar 0"), ("2147483647m+m", "R9 11"),
        ("-2147483647a-a", "R9 12"), ("2147483647m-m", "scalar 2147483646m"), ("46341(46341)", "R9 5"), ("46340(46340)", "scalar 2147395600"),
        ("(65536a).(32768b)", "R9 8"), ("(65536a).(32767b)", "scalar 2147418112(a.b)"), ("(65536a)^(32768b)", "R9 8"),
        ("(65536a)^(32767b)", "vector 2147418112*(a^b)"), ("(65536a)^(65536a)", "vector 0"), ("65536a*65536", "R9 6"), ("65536m(65536n)", "R9 6"),
        ("2147483647(a+b)-(a+b)", "vector 2147483646*a+2147483646*b"), ("2147483647(a+b)+(a-b)", "R9 15"), ("(a+b).(2147483647a+2147483647b)", "R9 5"),
        ("(a-b).(2147483647a+2147483647b)", "scalar 2147483647(a.a)-2147483647(b.b)"),
    ])


SEVEN, EIGHT, SIX = "(a+b+c+d+ma+mb+mc)", "(a+b+c+d+ma+mb+mc+md)", "(na+nb+nc+nd+pa+pb)"
SEVEN_SCALARS = "(1+m+n+p+a.a+a.b+b.b)"


def refused_at_each():
    """Every refusal of working at every operator that can have it, and none of them one step before."""
    yield from meant([
        ("a+m", "R6 1"), ("a-m", "R6 1"), ("m+a", "R6 1"), ("m-a", "R6 1"), ("a*b", "R6 1"), ("ab", "R6 1"), ("a b", "R6 2"), ("a(b)", "R6 1"),
        ("a(b+c)", "R6 1"), ("a(b^c)", "R6 1"), ("a b^c", "R6 2"), ("a*b^c", "R6 1"), ("m.a", "R6 1"), ("a.m", "R6 1"), ("m.n", "R6 1"), ("m^a", "R6 1"),
        ("a^m", "R6 1"), ("m^n", "R6 1"), ("(mab)", "R6 0"), ("(amb)", "R6 0"), ("(abm)", "R6 0"), ("2(abm)", "R6 1"), ("a+b+m", "R6 3"), ("a+m+b", "R6 1"),
        ("-a+m", "R6 2"), ("(aam)", "R6 0"), ("m a b", "R6 4"), ("a m b", "R6 4"), ("ma*b", "R6 2"), ("(a.b).c", "R6 5"), ("a.(b.c)", "R6 1"),
        ("a^(b.c)", "R6 1"), ("(a.b)^c", "R6 5"), ("a-a+m", "R6 3"), ("(a-a)b", "R6 5"), ("(m-m).b", "R6 5"), ("0+a", "R6 1"), ("0.a", "R6 1"),
        (SEVEN + "." + SEVEN, "R7 18"), (SEVEN + "^" + SEVEN, "R7 18"), (SEVEN_SCALARS + "*" + SEVEN, "R7 21"), (SEVEN_SCALARS + SEVEN, "R7 21"),
        (SEVEN + "*" + SEVEN_SCALARS, "R7 18"), (SEVEN_SCALARS + " (" + SEVEN_SCALARS + ")", "R7 22"), ("(" + EIGHT + "-md)." + SEVEN, "R7 26"),
        ("(" + SEVEN + "-ma)^" + EIGHT + "+?", "R4 46"), ("mn*m", "R8 2"), ("mnm", "R8 2"), ("m n m", "R8 4"), ("m(nm)", "R8 1"),
        ("(a.a)(b.b)(c.c)(d.d)", "R8 15"), ("(a.a)(b.b)(c.c)*(d.d)", "R8 15"), ("a.a b.b c.c d", "R8 12"), ("((a.a)(b.b)a).((c.c)d)", "R8 13"),
        ("((a.a)(b.b)a)^((c.c)d)", "R8 13"), ("((mn)a).(pb)", "R8 7"), ("((mn)a)^(pb)", "R8 7"), ("((mn)a)^(pa)", "vector 0"),
        ("((mn)a).b", "scalar mn(a.b)"), ("(abc)(abd)a", "R8 10"), ("(abc)(abd)m", "scalar m(abc)(abd)"), ("((a.a)(b.b)a).d", "scalar (a.a)(a.d)(b.b)"),
        ("((a.a)(b.b)a)^d", "vector (a.a)(b.b)*(a^d)"), ("((a.a)(b.b)a)^(d^a)", "R8 13"), ("((a.a)a^b)^(c^d)", "vector (a.a)(abd)*c-(a.a)(abc)*d"),
        ("((a.a)a^b)^(a.a c^d)", "R8 10"), ("(46341a).(46341b)", "R9 8"), ("(46341a)^(46341b)", "R9 8"), ("46341m*46341", "R9 6"), ("46341m(46341a)", "R9 6"),
        ("46341m 46341", "R4 7"), ("2147483647a+a", "R9 11"), ("-a-2147483647a", "R9 2"), ("-2147483647a+(-a)", "R9 12"),
        # 6, 7, 8 and 9 in their order at one operator
        (SEVEN + SEVEN, "R6 18"), (SEVEN + "*" + SEVEN, "R6 18"), (SEVEN_SCALARS + "." + SEVEN, "R6 21"), ("(46341mn)(46341p)", "R8 9"),
        ("(46341mn)*46341p", "R9 9"), ("46341(a.a)(b.b)(46341(c.d)a)", "R8 15"), ("(46341m+n)(46341m+np)", "R8 10"), ("(mn+46341)(46341+p)", "R8 10"),
        ("(m+46341)(46341+p)", "R9 9"), ("((a.a)(a.a)a+46341b)^(46341a+b)", "R9 20"), ("((a.a)(a.a)a+46341b)^(46341a+b.b b)", "R8 20"),
        ("(1+m+n+p+mm+mn+np)(1+m+n+p+mm+mn+np)", "R7 18"), ("(1+m+n+p+mm+mn)*(1+m+n+p+mm+mn+np+pp)", "R8 15"),
    ])


def limits():
    """48 pairs and 49, 48 terms and 49."""
    def plus(letters):
        return "(" + "+".join(letters) + ")"

    yield from usual(EIGHT + "." + SIX, EIGHT + "^" + SIX, "(" + SEVEN_SCALARS + "-m)(a+b+c+d+a^b+a^c+a^d+b^c)", "(1+m+n+p+a.a+a.b)*(a+b+c+d+na+nb+nc+nd)")
    vectors, scalars = "abcdefghijkl", "mnopqrstuvwx"
    full = plus(scalars[:6]) + plus(vectors[:8])
    wide = [full, full + "+ma", full + "-ma", full + "-ma+a", "ma-" + full, "(" + full + ")*2", "0" + full, plus(vectors[:6]) + "^" + plus(vectors[4:]),
            plus(vectors[:4]) + "." + plus(vectors), plus(scalars) + "*" + plus(vectors[:4])]
    # 10 at a dot and a wedge: pairs of wedges are two terms each
    some, others = "(a^b+a^c+a^d+b^c+b^d)", "(g^h+g^i+g^j+h^i+h^j)"
    wide += ["(" + some + "-b^d)" + sign + "(" + others + "+g^k)" for sign in ".^"]
    # sums one after the other: the 49th term is refused where it comes, though it goes again
    terms = [s + v for v in vectors[:8] for s in scalars[:6]]
    wide += ["+".join(terms), "+".join(terms[:-1] + ["a-a"] + terms[-1:]), "+".join(terms[:-1]) + "+(a-a)+" + terms[-1] + " ^a"]
    for line in wide:
        assert answer(WIDE, WIDE_NAMES, line.encode())[0] != "R"
        yield WIDE, WIDE_NAMES, line.encode()
    yield from meant([
        (full + "+a", "R10 30"), (full + "-a", "R10 30"), (full + "-ma+a+b", "R10 35"), (full + "+i-i", "R10 30"), ("(" + full + "-ma)+a-2a^b", "R10 37"),
        ("a-" + full, "R10 1"), (plus(vectors[:7]) + "^" + plus(vectors[5:]), "R7 15"), (plus(vectors[:7]) + "." + plus(vectors[:7]), "R7 15"),
        (plus(scalars[:5]) + plus(vectors[:10]), "R7 11"), (plus(scalars) + "*" + plus(vectors[:5]), "R7 25"), (some + "." + others, "R10 21"),
        (some + "^" + others, "R10 21"), ("(46341" + some + ").(46341" + others + ")", "R9 28"),
        (some[:-1] + "+c^d+46341a^e)^" + others[:-1] + "+46341i^j)", "R9 34"), ("-".join(terms + ["a"]), "R10 143"), ("+".join(terms + ["a-a"]), "R10 143"),
    ], WIDE, WIDE_NAMES)


def long_lines():
    line = "+".join(["a"] * 2048)
    assert len(line) == 4095
    yield from meant([(line, "vector 2048*a"), (line + " ", "vector 2048*a"), ("?" + line + "+", "R3 4096"), (" " * 4096, "R4 4096")], b"\1", b"a")


def order():
    """Reading before working; of working operands from left to right, then the operator."""
    deep_one = "(" * 17
    yield from meant([
        ("a+m+", "R4 4"), ("a+m+?", "R4 4"), ("a*b)", "R4 3"), ("ab(", "R4 3"), ("m.a+z", "R5 4"), ("(amb)z", "R5 5"), ("2147483648+z", "R5 11"),
        ("99999999999999999999?", "R4 20"), ("2147483648 2", "R4 11"), ("a*b" + deep_one, "R3 19"), ("mnp+" + deep_one, "R3 20"),
        (SEVEN + "." + SEVEN + "+", "R4 38"), ("46341*46341.2", "R4 12"), ("2.a.a", "R4 3"), ("2.5.5", "R4 2"), ("(mnp)z", "R5 5"),
        ("a+m" + " " * 5 + "2", "R4 8"), ("(a+m)(a*b)", "R6 2"), ("(a.b)(a*b)+(a+m)", "R6 7"), ("(a+m)+(b+n)", "R6 2"), ("a+(b+(c+m))", "R6 7"),
        ("((a+m)+b)+n", "R6 3"), ("a+m+99999999999", "R6 1"), ("a+99999999999*b", "R9 2"), ("m.(2147483648a)", "R9 3"), ("(a+b).(a+m)", "R6 8"),
        ("m.n+2147483648", "R6 1"), ("2147483648+m.n", "R9 0"), ("(a*b)(mnp)", "R6 2"), ("mnm.a", "R6 3"), ("mnm*a.m", "R8 2"),
        ("m(2147483648)(a*b)", "R9 2"), ("a.(mn*p a)", "R8 5"), ("-(a+m)", "R6 3"), ("-ab", "R6 2"), ("(abm)(a+m)", "R6 0"), ("(a+m)(abm)", "R6 2"),
        ("a^(b^m)", "R6 4"), ("(a^m)^b", "R6 2"), ("m^(a^n)", "R6 4"), ("a.b^m", "R6 3"), ("m.a^b", "R6 1"), ("m^a.n", "R6 1"), ("a^b.m", "R6 3"),
        ("a b.m", "R6 3"), ("a*b a.m", "R6 1"), ("a+b*c", "R6 3"), ("a+m*c.m", "R6 5"), ("mn*m+a*b", "R8 2"), ("m+a*b+mnm", "R6 3"),
    ])


def printed(chance):
    """What printing gives, read again: the same text. Only the empty form has lost its kind."""
    line = printer_cases.printed(printer_cases.LONGEST)
    yield from meant([(line, "vector " + line)], WIDE, WIDE_NAMES)
    for _ in range(70):
        table, names, data = random_printed(chance)
        line = text_of(names, data)
        assert answer(table, names, line.encode()) == ("vector " if data[0] and data[1] else "scalar ") + line
        yield table, names, line.encode()
    for _ in range(20):
        table, names = random_letters(chance)
        found = read_text(table, names, random_formula(chance, table, names, 0, chance.randrange(3, 12))[0].encode())
        if found[0] == "form" and len(found[2]) < 80:
            yield table, names, text_of(names, found[2]).encode()


def by_chance(chance):
    left = 118
    while left:
        table, names, line = random_text(chance)
        if 1 <= len(table) == len(names) and 2 * len(table) + len(line) < 60:
            left -= 1
            yield table, names, line


def cases():
    """The cases of each kind, none of them twice."""
    chance, seen = random.Random(20261203), set()
    for kind in (lines_to_try, precedence, blanks, names_and_letters, torn, short_lines, torn_everywhere, absent, deep, numbers, refused_at_each, limits,
                 long_lines, order, printed, by_chance):
        some = [case for case in dict.fromkeys(kind(chance) if kind in (printed, by_chance) else kind()) if case not in seen]
        seen.update(some)
        yield kind.__name__, some


def check_reader(chance, count):
    """Texts whose steps are known, since they were written down with the text; texts by chance, printed forms and short lines, held to the second opinions."""
    for _ in range(count):
        table, names = random_letters(chance)
        line, expected = random_formula(chance, table, names, 0.05)
        assert steps(names.decode(), line) == expected, (names, line)
        check(chance, table, names, line.encode())
        check(chance, *random_text(chance))
        table, names, data = random_printed(chance)
        again = read_text(table, names, text_of(names, data).encode())
        assert again == ("form", data[0], data) or data[1] == 0 and again == ("form", 0, b"\0\0"), (table, names, data)
    for line in itertools.product("am2+*.^()", repeat=4):
        check(chance, b"\1\0", b"am", "".join(line).encode())


def main():
    chance = random.Random(20261204)
    check_reader(chance, 400)
    home = pathlib.Path(__file__).resolve().parent.parent / "crates" / "text_cases"
    stdin, lines, counts = b"", [], {}
    for kind, some in cases():
        counts[kind] = len(some)
        for table, names, line in some:
            check(chance, table, names, line)
            case = bytes([len(table)]) + table + names + line
            stdin += len(case).to_bytes(2, "big") + case
            lines.append(answer(table, names, line))
    assert len(stdin) <= 65536, len(stdin)
    (home / "stdin").write_bytes(stdin)
    (home / "stdout").write_text("".join(line + "\n" for line in lines))
    numbers_given = collections.Counter(line.split()[0] for line in lines)
    print(f"{len(lines)} cases, {len(stdin)} bytes, longest line {max(map(len, lines))}")
    print("kinds of cases: " + ", ".join(f"{kind} {count}" for kind, count in counts.items()))
    print("answers: " + ", ".join(f"{x} {numbers_given[x]}" for x in ("scalar", "vector", "R1", "R3", "R4", "R5", "R6", "R7", "R8", "R9", "R10")))


if __name__ == "__main__":
    main()
