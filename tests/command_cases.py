#!/usr/bin/env python3
"""What the program `kalzunbi` writes, computed from the definition of the text and the customer's document alone.

Without arguments: writes the answer of each input under examples/ (NAME.WORD) to NAME.answer beside it. With a number and a seed: so many random inputs,
damaged ones among them, go to crates/kalzunbi/out/kalzunbi, and what it writes is compared; the last line says how many differ. Some derivations are typed: a line
goes to the program, in pieces, when what is told for the lines before it has come.
"""
import pathlib
import random
import re
import select
import subprocess
import sys
import time

import check_cases
import decision_cases
import open_log_cases
import printer_cases
import shorten_cases
import text_cases
import value_cases as forms
from reduction_cases import Refused, demand

REASONS = {
    1: "no name, more than 24 names, or a name twice",
    3: "too long or too deep",
    4: "torn",
    5: "a name that is not declared",
    6: "kinds that do not fit",
    7: "more than 48 pairs of terms",
    8: "more than 6 vector letters or 2 scalar letters in a term",
    9: "a coefficient beyond 2147483647",
    10: "more than 48 terms",
    11: "not one term",
    12: "not an assignment of numbers from -6 to 6 to every name",
}
AT_STEPS = {
    1: "a table that is none",
    5: "a letter that is not in the table",
    6: "kinds that do not fit",
    8: "more than 6 vector letters or 2 scalar letters in a term",
    9: "a gathered coefficient beyond 2147483647",
    10: "more than 48 terms",
    11: "not in the one written shape",
    13: "the last form is not the one reached",
    14: "more than 64 steps",
}
USAGE = b"""kalzunbi WORD [FILE]: vector algebra in letters, proved. The input is the file or standard input, at most 65536 bytes.
  reduce      names, then formulas, a line each: the form of each
  decide      names, then formula = formula: holds, or an assignment under which they differ
  value       names, a formula, a line like a = (1, 0, -2), m = 3: the formula's value
  shorten     names, then a formula: the log that shortens it, as text
  derivation  names, a form, then steps, each line answered with the form reached: the log, as text
  check       a log as text: accepted, or the refusal and its step
  pack        a log as text: the table's length byte, the table and the log's bytes
  unpack      the table's length byte, the table and the log's bytes: the log as text
Names come first, as in 'vectors a b c' and 'scalars m n'. A refusal begins with the word refused.
"""
WORDS = {b"vectors": 1, b"scalars": 0}
ROOT = pathlib.Path(__file__).resolve().parent.parent
PROGRAM = ROOT / "crates" / "kalzunbi" / "out" / "kalzunbi"


class Stop(Exception):
    """A refusal: its number, the number of the line, the column from 0 on, the line."""


def lines_of(data):
    """The lines that are not blank, each with its number; behind them the end."""
    lines = data.split(b"\n")
    found = [(i + 1, line) for i, line in enumerate(lines) if line.strip(b" ")]
    if lines[-1] == b"":
        lines.pop()
    return found, (len(lines) + 1, b"")


def declared(number, line, names):
    """The names of a line, put behind those declared: words with blanks between them."""
    kind, at = 1, 0
    for word in line.split(b" "):
        if word in WORDS:
            kind = WORDS[word]
        elif len(word) == 1 and word.isalpha():
            if any(word == n for n, _ in names) or len(names) == 24:
                raise Stop(1, number, at, line)
            names.append((word, kind))
        elif word:
            raise Stop(4, number, at, line)
        at += len(word) + 1


def header(data):
    """The table, the names, the lines behind them and the end."""
    lines, end = lines_of(data)
    names = []
    while lines and first_word(lines[0][1]) in WORDS:
        declared(*lines.pop(0), names)
    if not names:
        number, line = lines[0] if lines else end
        raise Stop(1, number, 0, line)
    return bytes(kind for _, kind in names), b"".join(name for name, _ in names), lines, end


def formula(table, names, number, line, at=0):
    """The record of the form that the line has from a column on."""
    what, first, rest = text_cases.read_text(table, names, line[at:])
    if what != "form":
        raise Stop(first, number, at + rest, line)
    return rest


def reduced(data):
    """All forms, a line each; or Stop."""
    table, names, lines, _ = header(data)
    return b"".join(text_cases.text_of(names, formula(table, names, number, line)).encode() + b"\n" for number, line in lines)


# ════ logs as text

def past(line, at):
    """The column of the first byte from there on that is no blank."""
    return len(line) - len(line[at:].lstrip(b" "))


def form_line(table, names, number, line):
    """The record of a form behind the word that says its kind."""
    word, at = first_word(line), past(line, 0)
    if word not in (b"vector", b"scalar"):
        raise Stop(4, number, at, line)
    at, kind = past(line, at + 6), word == b"vector"
    form = formula(table, names, number, line, at)
    if form[1] and form[0] != kind:
        raise Stop(6, number, at, line)
    return bytes([kind]) + form[1:]


def step_line(table, names, number, line):
    """The record of a step."""
    at = past(line, past(line, 0) + 4)
    rule = line[at:at + 1]
    if rule not in (b"1", b"2", b"3", b"4", b"5"):
        raise Stop(4, number, at, line)
    rule, letters = int(rule), b""
    at = past(line, at + 1)

    def mark(byte):
        nonlocal at
        if line[at:at + 1] != byte:
            raise Stop(4, number, at, line)
        at = past(line, at + 1)

    mark(b":")
    for _ in range(check_cases.LETTERS[rule]):
        name = line[at:at + 1]
        if not name.isalpha():
            raise Stop(4, number, at, line)
        if name not in names:
            raise Stop(5, number, at, line)
        letters += bytes([names.index(name)])
        at = past(line, at + 1)
    for byte in (b",", b"M", b"="):
        mark(byte)
    form = formula(table, names, number, line, at)
    if form[1] != 1:
        raise Stop(11, number, at, line)
    return bytes([rule]) + letters + form[2:]


def log_read(data):
    """The table and the log's bytes."""
    table, names, lines, end = header(data)
    lines.append(end)
    first = form_line(table, names, *lines.pop(0))
    steps = []
    while first_word((lines or [end])[0][1]) == b"rule":
        if len(steps) == 64:
            raise Stop(3, lines[0][0], 0, lines[0][1])
        steps.append(step_line(table, names, *lines.pop(0)))
    last = form_line(table, names, *(lines.pop(0) if lines else end))
    if len(lines) > 1:
        raise Stop(4, lines[0][0], 0, lines[0][1])
    return table, check_cases.log(first, steps, last)


def form_text(names, form):
    """A form's record as a line of a log."""
    return (b"scalar ", b"vector ")[form[0]] + text_cases.text_of(names, form).encode() + b"\n"


def step_refusal(number, step):
    return f"refused {number} at step {step}: {AT_STEPS[number]}\n".encode()


def some(n, word):
    return f"{n} {word}" + "s" * (n != 1)


def checked(data):
    table, log = log_read(data)
    result = check_cases.answer(table, log)
    if result[0] == "refused":
        return step_refusal(*result[1:])
    _, end, start, steps = result
    return f"accepted, {some(steps, 'step')}, {some(log[1], 'term')} to {log[start + 1]}\n".encode()


def packed(data):
    table, log = log_read(data)
    return bytes([len(table)]) + table + log


def unpacked(data):
    step = 0
    try:
        demand(data and len(data) > data[0], 1)
        table, log = data[1:data[0] + 1], data[data[0] + 1:]
        demand(1 <= len(table) <= 24 and max(table) <= 1, 1)
        first, steps, last, _, _ = check_cases.cut_log(log)
        # the letters of a rule are vectors, as those of a vector part are
        for step, terms in enumerate([first[1]] + [[(1, (), letters), m] for _, letters, m in steps] + [last[1]]):
            number = forms.letters_refused(table, terms)
            demand(number == 0, number)
    except Refused as refused:
        return step_refusal(refused.args[0], step)
    return log_text("abcdefghijklmnopqrstuvwx"[:len(table)], table, log)


# ════ a derivation: each line is answered by itself

class Derivation:
    """The names declared so far with their kinds; from the first form on, the state of the log that stays open, and the steps taken."""

    def __init__(self):
        self.declared, self.first, self.state, self.steps = [], b"", b"", []

    def names(self):
        return b"".join(name for name, _ in self.declared)

    def table(self):
        return bytes(kind for _, kind in self.declared)

    def reached(self):
        """The record of the form reached."""
        return open_log_cases.cut_state(self.state)[2]

    def begin(self, number, line):
        """Names, for which nothing is told, or the first form."""
        if first_word(line) in WORDS:
            names = list(self.declared)
            declared(number, line, names)
            self.declared = names
            return b""
        if not self.declared:
            raise Stop(1, number, 0, line)
        self.first = form_line(self.table(), self.names(), number, line)
        self.state = open_log_cases.state_of(self.table(), 0, self.first)
        return form_text(self.names(), self.first)

    def add(self, number, line):
        """A step: the form reached, or the refusal with the step's number."""
        if first_word(line) != b"rule":
            raise Stop(4, number, past(line, 0), line)
        if len(self.steps) == 64:  # tested before anything in the step
            return step_refusal(14, 65)
        step = step_line(self.table(), self.names(), number, line)
        what, _, state = open_log_cases.answer(open_log_cases.added(step), self.state)
        if what != open_log_cases.GIVEN:
            return step_refusal(int(what[1:]), len(self.steps) + 1)
        self.steps.append(step)
        self.state = state
        return form_text(self.names(), self.reached())

    def told(self, number, line):
        """What is told for a line; a refused one leaves all as it was."""
        try:
            return self.add(number, line) if self.state else self.begin(number, line)
        except Stop as stop:
            return refusal(*stop.args)

    def end(self, number):
        """The log, behind an empty line; without a first form, what is told for an empty line there."""
        if not self.state:
            return self.told(number, b"")
        log = check_cases.log(self.first, self.steps, self.reached())
        assert check_cases.answer(self.table(), log)[0] == "accepted", log.hex()
        return b"\n" + log_text(self.names().decode(), self.table(), log)


def told_for_lines(data):
    """What is told for each line, and at the end."""
    derivation, lines = Derivation(), data.split(b"\n")
    if lines[-1] == b"":
        lines.pop()
    told = [derivation.told(number, line) if line.strip(b" ") else b"" for number, line in enumerate(lines, 1)]
    return [*told, derivation.end(len(lines) + 1)]


# The bytes of an input at most, and what the program tells for more.
LONGEST = 65536
TOO_LONG = b"refused 3: more than 65536 bytes, or an input that cannot be read\n"


def derived(data):
    if len(data) > LONGEST:
        whole = data[:data.rfind(b"\n", 0, LONGEST + 1) + 1]  # lines are answered as far as one byte too many was read
        return b"".join(told_for_lines(whole)[:-1]) + TOO_LONG
    return b"".join(told_for_lines(data))


# ════ one line behind the names

def only(lines, end):
    """Nothing is left but empty lines."""
    if lines:
        raise Stop(4, lines[0][0], 0, lines[0][1])


def value_text(kind, value):
    return str(value[0]) if kind == 0 else "(" + ", ".join(map(str, value)) + ")"


def by_letters(numbers):
    return [tuple(numbers[i:i + 3]) for i in range(0, len(numbers), 3)]


def decided(data):
    table, names, lines, end = header(data)
    number, line = lines.pop(0) if lines else end
    at = line.find(b"=")
    if at < 0:
        raise Stop(4, number, len(line), line)
    sides = []
    for part, start in ((line[:at], 0), (line[at + 1:], at + 1)):
        what, first, rest = text_cases.read_text(table, names, part)
        if what != "form":
            raise Stop(first, number, start + rest, line)
        sides.append(forms.read(rest))
    (kind, left), (other, right) = sides
    if left and right and kind != other:
        raise Stop(6, number, at, line)
    only(lines, end)
    kind = kind if left else other
    if all(decision_cases.expanded(left, i) == decision_cases.expanded(right, i) for i in range(3)):
        return b"holds\n"
    vectors = by_letters(decision_cases.first_apart(table, left, right)[0])
    told = ", ".join(f"{chr(name)} = {value_text(k, v)}" for name, k, v in zip(names, table, vectors))
    both = [value_text(kind, forms.evaluate(side, vectors)) for side in (left, right)]
    return f"differs\n{told}\nleft = {both[0]}\nright = {both[1]}\n".encode()


def assignment(table, names, number, line):
    """The numbers of the letters, three each."""
    found, at = {}, past(line, 0)

    def mark(byte):
        nonlocal at
        if line[at:at + 1] != byte:
            raise Stop(4, number, at, line)
        at = past(line, at + 1)

    def component():
        nonlocal at
        minus = line[at:at + 1] == b"-"
        if minus:
            at = past(line, at + 1)
        digit = line[at:at + 1]
        if not digit.isdigit():
            raise Stop(4, number, at, line)
        if digit > b"6" or line[at + 1:at + 2].isdigit():
            raise Stop(12, number, at, line)
        at = past(line, at + 1)
        return -int(digit) if minus else int(digit)

    while True:
        name = line[at:at + 1]
        if not name.isalpha():
            raise Stop(4, number, at, line)
        if name not in names:
            raise Stop(5, number, at, line)
        n = names.index(name)
        if n in found:
            raise Stop(12, number, at, line)
        at = past(line, at + 1)
        mark(b"=")
        if table[n]:
            numbers = []
            for before in (b"(", b",", b","):
                mark(before)
                numbers.append(component())
            mark(b")")
            found[n] = numbers
        else:
            found[n] = [component(), 0, 0]
        if at >= len(line):
            if len(found) < len(table):
                raise Stop(12, number, at, line)
            return [x for n in range(len(table)) for x in found[n]]
        mark(b",")


def valued(data):
    table, names, lines, end = header(data)
    kind, terms = forms.read(formula(table, names, *(lines.pop(0) if lines else end)))
    numbers = assignment(table, names, *(lines.pop(0) if lines else end))
    only(lines, end)
    return value_text(kind, forms.evaluate(terms, by_letters(numbers))).encode() + b"\n"


def one_formula(data):
    """The table, the names and the record of the one formula."""
    table, names, lines, end = header(data)
    form = formula(table, names, *(lines.pop(0) if lines else end))
    only(lines, end)
    return table, names, form


def shortened(data):
    """The log of a form from which each step is the only one; where there is more than one, AssertionError."""
    table, names, form = one_formula(data)
    kind, terms = check_cases.gathered(forms.read(form))
    steps, last = shorten_cases.shortened(kind, terms)
    end = text_cases.text_of(names, shorten_cases.record(kind, last))
    lines = [step.split(":") for step in steps]
    renamed = [f"{rule}:{rest.translate({ord('a') + i: chr(name) for i, name in enumerate(names)})}" for rule, rest in lines]
    head = log_text(names.decode(), table, check_cases.log(form, [], form)).split(b"\n")
    return b"\n".join([*head[:2], *(line.encode() for line in renamed), (b"scalar ", b"vector ")[kind] + end.encode(), b""])


def shortening_fault(data, found):
    """What is wrong with an answer to `shorten`: the log begins with the form, is accepted, saves a term a step, and no step from its last form leads to fewer terms."""
    try:
        table, names, form = one_formula(data)
    except Stop:
        return None if found == answer("shorten", data) else "another refusal"
    try:
        same, log = log_read(found)
    except Stop as stop:
        return f"a text that is refused: {stop.args}"
    result = check_cases.answer(table, log)
    if same != table or log_text(names.decode(), table, log) != found or log[:len(form)] != form:
        return "another text"
    if result[0] != "accepted":
        return f"a log that is refused: {result}"
    last = forms.read(log[result[2]:])
    if result[3] + len(last[1]) > form[1]:
        return "steps that save nothing"
    if next(shorten_cases.steps(*check_cases.gathered(last)), None):
        return "a step to fewer terms is left"
    return None


ANSWERS = {
    "reduce": reduced, "decide": decided, "value": valued, "shorten": shortened, "derivation": derived, "check": checked, "pack": packed, "unpack": unpacked,
}


def first_word(line):
    return line.lstrip(b" ").split(b" ")[0]


def refusal(number, at, column, line):
    return f"refused {number} at line {at}, column {column + 1}: {REASONS[number]}\n".encode() + line + b"\n" + b" " * column + b"^\n"


def answer(word, data):
    if word not in ANSWERS:
        return USAGE
    try:
        return ANSWERS[word](data)
    except Stop as stop:
        return refusal(*stop.args)


# ════ random inputs

def random_input(chance):
    table, names = [], []
    for name in chance.sample("abcdefghijklmnopqrstuvwxyzABCDEFGHIJKLMNOPQRSTUVWXYZ", chance.randint(1, 8)):
        names.append(name)
        table.append(chance.randint(0, 1))
    head, before = "", None
    for name, kind in zip(names, table):
        if kind != before or chance.random() < 0.1:
            head += ("\n" if head and chance.random() < 0.6 else " " if head else "") + ("vectors" if kind else "scalars")
            before = kind
        head += " " * chance.randint(1, 2) + name
    out = head.encode() + b"\n" * chance.randint(1, 3)
    wrong = chance.choice([0, 0, 0.02, 0.1])
    for _ in range(chance.randint(0, 4)):
        out += text_cases.random_formula(chance, bytes(table), "".join(names).encode(), wrong)[0].encode() + b"\n" * chance.choice([1, 1, 1, 2])
    if chance.random() < 0.1:
        out = out.rstrip(b"\n")
    if chance.random() < 0.3:
        out = text_cases.damaged(chance, out)
    return out


def declaration(names, table):
    lines, before = "", None
    for name, kind in zip(names, table):
        lines += ("" if kind == before else " scalars" if kind == 0 else " vectors") + " " + name
        before = kind
    return lines[1:]


def log_text(names, table, log):
    """A log in shape as text."""
    first, steps, last, _, _ = check_cases.cut_log(log)

    def text(terms):
        return printer_cases.text(terms).translate({ord("a") + i: name for i, name in enumerate(names)})

    lines = [declaration(names, table), ("scalar ", "vector ")[first[0]] + text(first[1])]
    for rule, letters, m in steps:
        lines.append(f"rule {rule}: {' '.join(names[n] for n in letters)}, M = {text([m])}")
    return "\n".join([*lines, ("scalar ", "vector ")[last[0]] + text(last[1]), ""]).encode()


def random_log_text(chance):
    while True:
        table, log = (check_cases.damaged_log if chance.random() < 0.4 else check_cases.random_log)(chance)
        try:
            first, steps, last, _, _ = check_cases.cut_log(log)
            letters = [n for _, some_letters, _ in steps for n in some_letters]
            used = [first[1], [m for _, _, m in steps], last[1]]
        except Refused:
            continue
        if not table or max(table) > 1 or len(table) > 24 or any(n >= len(table) for n in letters) or any(forms.letters_refused(table, terms) for terms in used):
            continue
        names = chance.sample("abcdefghijklmnopqrstuvwxyzABCDEFGHIJKLMNOPQRSTUVWXYZ", len(table))
        data = log_text(names, table, log)
        if chance.random() < 0.1:
            data = data.replace(b" ", b"  ")
        return text_cases.damaged(chance, data) if chance.random() < 0.35 else data


def random_names(chance, table):
    return chance.sample("abcdefghijklmnopqrstuvwxyzABCDEFGHIJKLMNOPQRSTUVWXYZ", len(table))


def random_table(chance):
    return bytes(chance.choice((0, 1, 1)) for _ in range(chance.randint(1, 6)))


def a_formula(chance, table, names):
    return text_cases.random_formula(chance, table, "".join(names).encode(), chance.choice([0, 0, 0, 0.03]), chance.randint(1, 6))[0]


def random_sides(chance):
    """Two formulas, now and then alike or nearly so."""
    table = random_table(chance)
    names = random_names(chance, table)
    left = a_formula(chance, table, names)
    right = chance.choice([left, f"{left}-{left}+{left}", a_formula(chance, table, names), f"{left}+{chance.choice(names)}", "0"])
    sign = chance.choice([" = ", "=", " =  "]) if chance.random() < 0.95 else ""
    return f"{declaration(names, table)}\n{left}{sign}{right}\n".encode()


def random_value(chance):
    table = random_table(chance)
    names = random_names(chance, table)
    most = chance.choice((6, 6, 6, 6, 12))

    def number():
        n = chance.randint(-most, most)
        return str(n) if n >= 0 or chance.random() < 0.9 else f"- {-n}"

    parts = [f"{n} = {number()}" if k == 0 else f"{n}=( {number()} ,{number()}, {number()} )" if chance.random() < 0.2 else f"{n} = ({number()}, {number()}, {number()})"
             for n, k in zip(names, table)]
    chance.shuffle(parts)
    if chance.random() < 0.1:
        parts.append(chance.choice(parts))
    if chance.random() < 0.1:
        parts.pop()
    return f"{declaration(names, table)}\n{a_formula(chance, table, names)}\n{', '.join(parts)}\n".encode()


def random_formula_alone(chance):
    """A formula; now and then one side of a rule less the other, of which steps are left."""
    if chance.random() < 0.5:
        table, names = bytes([1] * 4 + [0]), random_names(chance, bytes(5))
        a, b, c, d, m = names
        some = [f"({a}{b}{c})*{d}-({a}{b}{d})*{c}", f"({b}{c}{d})*{a}-({a}{c}{d})*{b}", f"{a}^({b}^{c})+{b}^({c}^{a})", f"{m}*({a}^{b})^({c}^{d})"]
        text = "+".join(chance.sample(some, chance.randint(1, 2)))
        return f"{declaration(names, table)}\n{text}\n".encode()
    table = random_table(chance)
    names = random_names(chance, table)
    return f"{declaration(names, table)}\n{a_formula(chance, table, names)}\n".encode()


def random_packed(chance):
    table, log = (check_cases.damaged_log if chance.random() < 0.5 else check_cases.random_log)(chance)
    data = bytes([len(table)]) + table + log
    return data[:chance.randint(0, len(data))] if chance.random() < 0.05 else data


def names_lines(chance, names, table):
    """The names in one line, or in some, now and then with the word of their kind once more."""
    lines, before = [], None
    for name, kind in zip(names, table):
        word = ("scalars", "vectors")[kind]
        if not lines or chance.random() < 0.15:
            lines.append(f"{word} {name}")
        else:
            lines[-1] += f" {name}" if kind == before and chance.random() < 0.95 else f" {word} {name}"
        before = kind
    return lines


def wrong_line(chance, names):
    """A line that is refused, or would be taken elsewhere."""
    a, b, c, d, e, *_ = names
    four, five = " ".join(names[:4]), " ".join(names[:5])
    return chance.choice((
        f"vectors {a} {a}", f"scalars {a}{b}", f"vectors {a} 1", "vectors", "scalars", "scalars a b c d e f g h i j k l m n o p q r s t u v w x y", "vectorsx",
        f"vector {a}.{b}", f"scalar {a}", f"vector {a}+", "vector", "vector ?", "scalar 0", f"vector {a}^{a}", f"vector {a}", f"{a}+{b}", f"  {a}", "steps",
        "rule", "rules", "rule 2", f"rule 2: {four}", f"rule2: {four}, M = 1", f"rule 6: {four}, M = 1", f"rule 2: {a} {b} {c} ?, M = 1", f"rule 2: {a} {b} {c}, M = 1",
        f"rule 2: {four}, M = 0", f"rule 2: {four}, M = {e}", f"rule 2: {four}, M = 1+{a}.{b}", f"  rule 1:{a}{b}{c}{d},M=1", f"rule 1: {four}, M = 2147483647",
        f"rule 2: {four}, M = ({a}{b}{c})", f"rule 3: {five}, M = 1", f"rule 3: {five}, M = {a}", f"rule 3: {five}, M = 2({a}.{b})"))


def random_derivation(chance):
    """The lines of a log, with blank lines and refused ones between them; now and then a full form, more than 64 steps that are taken, or a length
    at the limit."""
    table, log = check_cases.random_log(chance, *chance.choice(((3, 5), (2, 9), (9, 3))))
    if chance.random() < 0.03:
        kind = chance.randrange(2)
        full, steps = open_log_cases.any_form(chance, kind, 48, 44), [check_cases.any_step(chance, kind) for _ in range(3)]
        log = check_cases.log(full, [check_cases.step_record(*step) for step in steps], full)
    names = random_names(chance, table)
    _, first, *steps = log_text(names, table, log).decode().split("\n")[:-1]
    if chance.random() < 0.03:
        a, b, c, d, *_ = names
        steps += [f"rule {chance.choice((1, 2))}: {a} {b} {c} {d}, M = {chance.choice((1, -1))}{chance.choice(names[6:])}" for _ in range(70)]
        steps += [wrong_line(chance, names) for _ in range(3)]
    lines = [line.encode() for line in (*names_lines(chance, names, table), first, *steps)]
    for _ in range(chance.choice((0, 0, 1, 1, 2, 3, 6))):
        line = wrong_line(chance, names).encode() if chance.random() < 0.7 else text_cases.damaged(chance, chance.choice(lines))
        lines.insert(chance.randint(0, len(lines)), line)
    for _ in range(chance.choice((0, 0, 1, 2))):
        lines.insert(chance.randint(0, len(lines)), chance.choice((b"", b" ", b"   ")))
    if chance.random() < 0.05:
        del lines[chance.randint(0, len(lines)):]
    data = b"\n".join(lines) + b"\n" * chance.choice((1, 1, 1, 0, 2))
    if chance.random() < 0.02:
        at = chance.choice((data.rfind(b"\n"), len(data)))
        data = data[:at] + chance.choice((b"\n", b" ", b"x")) * (LONGEST + chance.choice((-1, 0, 1, 2, 500)) - len(data)) + data[at:]
    return data


INPUTS = {
    "reduce": random_input, "decide": random_sides, "value": random_value, "shorten": random_formula_alone, "derivation": random_derivation,
    "check": random_log_text, "pack": random_log_text, "unpack": random_packed,
}
# Words that are not known, the empty one and one longer than there is room for among them.
OTHERS = "help", "derive", "derivations", "Derivation", "derivatio", "checked", "", "x" * 40


def random_case(chance, word):
    data = INPUTS[word](chance) if word in INPUTS else b""
    if word in ("decide", "value", "shorten", "derivation") and chance.random() < 0.25:
        data = text_cases.damaged(chance, data)
    return data


def run(word, data):
    return subprocess.run([PROGRAM, word], input=data, capture_output=True, check=False).stdout


def come(program, size):
    """So many bytes that the program has written, or fewer where it writes no more for some seconds."""
    found = b""
    while len(found) < size and select.select([program.stdout], [], [], 5)[0]:
        more = program.stdout.read(size - len(found))
        if not more:
            break
        found += more
    return found


def run_typed(chance, data):
    """What is written for a derivation that is typed: no line goes to the program before the one in front of it is answered."""
    found = b""
    with subprocess.Popen([PROGRAM, "derivation"], stdin=subprocess.PIPE, stdout=subprocess.PIPE, bufsize=0) as program:
        for line, told in zip(re.findall(rb"[^\n]*\n|[^\n]+", data), told_for_lines(data)):
            at = chance.randint(0, len(line))
            program.stdin.write(line[:at])
            time.sleep(0.001)  # so that the line is read in two pieces, as a rule
            program.stdin.write(line[at:])
            if line.endswith(b"\n"):
                found += come(program, len(told))
                if not found.endswith(told):
                    found += b"(not told in time)"
                    break
        program.stdin.close()
        return found + program.stdout.read()


def main():
    if len(sys.argv) > 1:
        chance = random.Random(int(sys.argv[2]) if len(sys.argv) > 2 else 1)
        different = refusals = 0
        for _ in range(int(sys.argv[1])):
            word = chance.choice(list(INPUTS)) if chance.random() < 0.99 else chance.choice(OTHERS)
            data = random_case(chance, word)
            found = run_typed(chance, data) if word == "derivation" and len(data) <= LONGEST and chance.random() < 0.3 else run(word, data)
            expected = shortening_fault(data, found) if word == "shorten" else answer(word, data)
            refusals += found.startswith(b"refused")
            if expected != (None if word == "shorten" else found):
                different += 1
                print(word, data, expected, found, sep="\n")
        print(f"{sys.argv[1]} inputs, {refusals} refused, {different} different")
        return
    for word in ANSWERS:
        for path in sorted((ROOT / "examples").glob(f"*.{word}")):
            path.with_suffix(".answer").write_bytes(answer(word, path.read_bytes()))


if __name__ == "__main__":
    main()
