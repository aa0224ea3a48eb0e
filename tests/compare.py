#!/usr/bin/env python3
"""The calls for C on random and damaged inputs, against the unrelated programs value_cases.py, reduction_cases.py, check_cases.py, decision_cases.py,
shortening_cases.py, insertion_cases.py, text_cases.py and open_log_cases.py.

What is returned and all memory, lent or around what is lent, is compared.
A form that is given is handed on to the value call, whose numbers must be those of the expression by components. An assignment that is handed over
must be the first that the unrelated program finds, byte by byte, and tell the two forms apart by the value call. A log that shortening wrote must begin
with the form taken, be accepted by the unrelated program with the steps reported, have at most as many steps as terms were saved, and end in a form that no
step shortens; the check call must accept it, and the decision must say of its ends that they are equal. A form with a letter replaced must have the old
form's value where the letter has the inserted form's: by the value call, or, where that is not in its range, by the unrelated program. A text that is
refused must tell its column. The record of a text's form is handed on to the call that prints it, and what that prints must be read to the same record,
but for the empty form of vectors. What the audit writes must be what shortening writes, and its buffer must stand. The calls on a log that stays open are
made in lists, each with the state that the one before gave back, damaged and made-up states between them; a closing must be accepted exactly where the
check call accepts the first form, the steps taken and the last form.
"""
import argparse
import collections
import ctypes
import pathlib
import random
import subprocess
import sys

import check_cases as logs
import decision_cases as decisions
import insertion_cases as insertions
import open_log_cases as open_logs
import reduction_cases as expressions
import shortening_cases as shortening
import text_cases as texts
import value_cases as forms

HOME = pathlib.Path(__file__).resolve().parent.parent
MARGIN = 16


# ════ the library

def load():
    made, shared = HOME / "target" / "staticlib" / "libexports.a", HOME / "target" / "libkalzunbi.so"
    subprocess.run(["tests/library.sh"], cwd=HOME, check=True, stdout=subprocess.DEVNULL, stderr=subprocess.DEVNULL)
    subprocess.run(["gcc", "-shared", "-o", shared, "-Wl,--whole-archive", made, "-Wl,--no-whole-archive"], check=True)
    library = ctypes.CDLL(str(shared))
    for call in (library.kalzunbi_value, library.kalzunbi_reduce, library.kalzunbi_check, library.kalzunbi_decide, library.kalzunbi_shorten,
                 library.kalzunbi_insert, library.kalzunbi_read_text, library.kalzunbi_print, library.kalzunbi_audit, library.kalzunbi_open,
                 library.kalzunbi_add, library.kalzunbi_look, library.kalzunbi_decide_open, library.kalzunbi_close):
        call.restype = ctypes.c_int64
    return library


class Lent:
    """Elements in the middle of memory whose other elements are known."""

    def __init__(self, element, elements):
        known = [element(7 * i + 1).value for i in range(2 * MARGIN)]
        self.element = element
        self.start, self.length = MARGIN * ctypes.sizeof(element), len(elements)
        self.memory = (element * (len(elements) + 2 * MARGIN))(*known[:MARGIN], *elements, *known[MARGIN:])
        self.before = bytes(self.memory)

    def passed(self):
        return ctypes.byref(self.memory, self.start), ctypes.c_size_t(self.length)

    def first(self, count):
        return self.memory[MARGIN:MARGIN + count]

    def stands_but_for(self, elements=()):
        written = bytes((self.element * len(elements))(*elements))
        return bytes(self.memory) == self.before[:self.start] + written + self.before[self.start + len(written):]


class Byte:
    """A byte that is passed by value."""

    def __init__(self, number):
        self.number = number

    def passed(self):
        return (ctypes.c_uint8(self.number),)

    def stands_but_for(self):
        return True


def call(function, sources, *targets):
    """What is returned; the sources, bytes to be lent or one to be passed by value, must stand."""
    given = [s if isinstance(s, Byte) else Lent(ctypes.c_uint8, s) for s in sources]
    returned = function(*(x for g in (*given, *targets) for x in g.passed()))
    return returned if all(g.stands_but_for() for g in given) else None


# ════ inputs

def damaged(chance, data):
    data = bytearray(data)
    for _ in range(chance.choice((0, 0, 1, 1, 1, 2, 5))):
        at, way = chance.randrange(len(data) + 1), chance.randrange(4)
        if way == 0:
            data.insert(at, chance.choice((0, 1, 2, 3, 8, chance.randrange(256))))
        elif at < len(data) and way == 1:
            del data[at]
        elif at < len(data) and way == 2:
            data[at] = chance.choice((0, 1, 2, 4, 8, 16, 32, 255, chance.randrange(256)))
        elif at < len(data):
            data[at] ^= 1 << chance.randrange(8)
    return bytes(data)


def any_bytes(chance, most):
    return bytes(chance.choice((0, 1, 2, 3, 5, 8, chance.randrange(256))) for _ in range(chance.randrange(most)))


def any_table(chance, usual):
    return chance.choices((usual, bytes(chance.randrange(2) for _ in range(chance.randrange(27))), damaged(chance, usual)), (12, 2, 1))[0]


def form_inputs(chance):
    coefs = lambda: chance.choice((1, -1, 2, chance.randint(1, forms.LIMIT), -chance.randint(1, forms.LIMIT), forms.LIMIT, -forms.LIMIT))
    while True:
        kind = chance.randrange(2)
        data = forms.record(kind, forms.chosen_form(chance, kind, chance.choice((0, 1, 2, 3, 5, 48)), range(5), range(5, 7), coefs))
        table = any_table(chance, forms.TABLE)
        data = chance.choices((data, damaged(chance, data), any_bytes(chance, 40)), (6, 3, 1))[0]
        assignment = forms.assigned(table, chance)
        assignment = chance.choices((assignment, damaged(chance, assignment), any_bytes(chance, 80)), (8, 2, 1))[0]
        yield table, data, assignment, chance.choice((3, 3, 3, 3, 4, 9, chance.randrange(4)))


def wide_tree(chance):
    """Products of sums of many letters, joined."""
    def some(first, most):
        return expressions.total([expressions.letter(first + chance.randrange(12)) for _ in range(chance.randrange(1, most))])
    def product():
        return chance.choice((expressions.times(some(12, 9), some(0, 9)), expressions.wedged(some(0, 8), some(0, 8)), some(0, 13)))
    data = product()
    for _ in range(chance.randrange(4)):
        data = expressions.op(chance.choice((3, 3, 4, 7, 8)))(*chance.sample((data, product()), 2))
    return data


def long_product(chance):
    """A product of sums of one to three long or heavy terms with few letters, so that pairs vanish, wholly or one of two terms, on either side of the limits."""
    A, B, C = map(expressions.letter, range(3))
    scalars = [expressions.constant(k) for k in (1, -3, 32768, 65536, 2147483647)] + [expressions.letter(n) for n in (4, 5, 6)]
    scalars += [expressions.dotted(x, y) for x in (A, B, C) for y in (A, B, C)] + [expressions.triple(A, B, C)]
    parts = [A, B, C, expressions.wedged(A, B), expressions.wedged(A, C), expressions.wedged(B, C)]
    def term():
        data = chance.choice(parts)
        for _ in range(chance.randrange(4)):
            data = expressions.times(chance.choice(scalars), data)
        return data
    def some():
        return expressions.total([term() for _ in range(chance.choice((1, 1, 2, 3)))])
    token = chance.choice((7, 8, 8, 9))
    return expressions.op(token)(*(some() for _ in range(3 if token == 9 else 2)))


def expression_inputs(chance):
    while True:
        for table, data in expressions.by_chance(chance):
            way = chance.randrange(8)
            if way < 2:
                table, data = expressions.WIDE, wide_tree(chance)
            elif way < 4:
                table, data = expressions.SMALL, long_product(chance)
            data = chance.choices((data, damaged(chance, data), any_bytes(chance, 530)), (10, 4, 1))[0]
            yield any_table(chance, table), data, chance.choice((770, 770, 770, 771, 800, chance.randrange(771)))


def log_inputs(chance):
    while True:
        made = chance.choice((logs.random_log, logs.damaged_log))
        table, data = made(chance, *chance.choices(((3, 4), (12, 8), (48, 6), (2, 64)), (12, 4, 3, 1))[0])
        data = chance.choices((data, damaged(chance, data), any_bytes(chance, 60)), (12, 3, 1))[0]
        yield any_table(chance, table), data, chance.choice((3, 3, 3, 3, 4, 9, chance.randrange(4)))


def pair_inputs(chance):
    while True:
        made = chance.choice((decisions.random_pair, decisions.near_pair, decisions.near_pair, decisions.damaged_pair))
        table, *pair = made(chance, *chance.choices(((3, 4), (12, 8), (48, 6), (2, 30)), (12, 4, 2, 1))[0])
        pair = [chance.choices((x, damaged(chance, x), any_bytes(chance, 40)), (30, 3, 1))[0] for x in pair]
        work = chance.choice((55296, 55296, 55296, 55297, 55400)) if chance.randrange(20) else chance.randrange(55296)
        yield any_table(chance, table), *pair, chance.choice((72, 72, 72, 73, 100)) if chance.randrange(20) else chance.randrange(72), work


def shortening_inputs(chance):
    while True:
        made = chance.choice((shortening.random_form, shortening.random_form, shortening.changed_form))
        table, data = made(chance, *chance.choices(((3, 4), (6, 12), (40, 3), (0, 20)), (12, 6, 1, 2))[0])
        data = chance.choices((data, damaged(chance, data), any_bytes(chance, 40)), (30, 2, 1))[0]
        lent = chance.choice((2309, 2309, 2309, 2310, 3013)) if chance.randrange(20) else chance.randrange(2309)
        yield any_table(chance, table), data, lent, chance.choice((1, 1, 1, 2, 5)) if chance.randrange(20) else 0


def insertion_inputs(chance):
    tables = bytes([1, 1, 1, 0]), bytes([1, 1, 1, 1, 0]), insertions.TABLE, insertions.WHOLE
    while True:
        sizes = chance.choices(((3, 2), (3, 4), (2, 12), (12, 3), (48, 1), (40, 4), (2, 48)), (16, 8, 4, 2, 1, 2, 1))[0]
        counts, most = [chance.randrange(n // 2, n + 1) for n in sizes], chance.choice((1, 1, 2, 3, 6))
        table, form, letter, inserted = insertions.random_case(chance, chance.choice(tables), *counts, most)
        form, inserted = (chance.choices((x, damaged(chance, x), any_bytes(chance, 40)), (40, 3, 1))[0] for x in (form, inserted))
        letter = chance.choices((letter, len(table), chance.randrange(256)), (30, 1, 1))[0]
        yield any_table(chance, table), form, letter, inserted, chance.choice((770, 770, 770, 771, 800)) if chance.randrange(20) else chance.randrange(771)


def text_inputs(chance):
    while True:
        table, names, line = texts.random_text(chance)
        line = chance.choices((line, damaged(chance, line), any_bytes(chance, 40)), (12, 3, 1))[0]
        names = names if chance.randrange(20) else damaged(chance, names)
        out = chance.choice((770, 770, 770, 771, 800)) if chance.randrange(20) else chance.randrange(770)
        yield any_table(chance, table) if chance.randrange(4) else table, names, line, out, chance.choice((1, 1, 1, 2, 5)) if chance.randrange(20) else 0


def printing_inputs(chance):
    while True:
        table, names, data = texts.random_printed(chance)
        data = chance.choices((data, damaged(chance, data), any_bytes(chance, 40)), (12, 3, 1))[0]
        names = names if chance.randrange(20) else damaged(chance, names)
        lent = chance.choice((1393, 1393, 1393, 1394, 1500)) if chance.randrange(20) else chance.randrange(1393)
        yield any_table(chance, table) if chance.randrange(4) else table, names, data, lent


def audit_inputs(chance):
    for table, data, lent, numbers in shortening_inputs(chance):
        buffer = chance.choice((72, 72, 73)) if chance.randrange(20) else chance.randrange(72)
        work = chance.choice((55296, 55296, 55400)) if chance.randrange(20) else chance.randrange(55296)
        yield table, data, lent, buffer, work, numbers


def lent_around(chance, least, more):
    """How much is lent of a part of memory: enough for the most part, and often just so."""
    return chance.choice((least, least, least, least + 1, more)) if chance.randrange(20) else chance.choice((0, least - 1, chance.randrange(least)))


def lent_for(chance, made):
    """The call with other lengths of the memory that it lends, and now and then with damaged bytes."""
    data = chance.choices((made.data, damaged(chance, made.data), any_bytes(chance, 40)), (30, 2, 1))[0]
    least = {open_logs.LOOK: 770, open_logs.DECIDE: 72, open_logs.CLOSE: 0}.get(made.number, 796)
    lent = lent_around(chance, least, least + 200) if least else 0
    return made._replace(data=data, lent=lent, work=lent_around(chance, 55296, 55400) if made.work else 0)


def other_state(chance, state):
    """Bytes in place of a state: damaged, with another count or another table, or any."""
    table, count, form = open_logs.cut_state(state)
    return chance.choice((damaged(chance, state), open_logs.state_of(table, chance.choice((0, 62, 63, 64, 65, 255)), form), any_bytes(chance, 60),
                          open_logs.state_of(any_table(chance, table), count, form), state + bytes(1), state[:-1]))


def open_log_inputs(chance):
    """Calls of lists, each with the state at hand, and with the table, the first form and the steps taken since, where they led to that state.

    A state in place of the one at hand is for one call alone. Some lists begin with a state that nearly all steps were taken to.
    """
    while True:
        fewest, most_terms, most_calls = chance.choices(((0, 3, 12), (0, 12, 8), (44, 48, 8), (0, 2, 90)), (12, 4, 2, 1))[0]
        table, first = any_table(chance, logs.TABLE), open_logs.any_form(chance, chance.randrange(2), most_terms, fewest)
        opening = lent_for(chance, open_logs.opened(table, first, ""))
        yield opening, b"", None
        what, _, state = open_logs.answer(opening, b"")
        if what != open_logs.GIVEN:
            continue
        first, steps = opening.data, []
        if chance.randrange(8) == 0:
            state = open_logs.state_of(table, chance.randrange(60, 65), first)
        for _ in range(chance.randrange(1, most_calls)):
            made = lent_for(chance, open_logs.any_call(chance, state, first))
            if chance.randrange(12) == 0:
                yield made, other_state(chance, state), None
                continue
            yield made, state, (table, first, tuple(steps))
            what, _, written = open_logs.answer(made, state)
            if what == open_logs.ACCEPTED:
                break
            if made.number == open_logs.ADD and what == open_logs.GIVEN:
                state = written
                steps.append(made.data)


# ════ comparing

def bad_table(table):
    return not 1 <= len(table) <= 24 or max(table) > 1


def bad_names(table, names):
    return len(names) != len(table) or len(set(names)) < len(names) or not set(names.decode("latin-1")) <= texts.LETTERS


def compare_value(function, table, data, assignment, lent):
    """Whether all is as the unrelated program says, and what that says."""
    target = Lent(ctypes.c_int64, [-7777777777777 * i for i in range(lent)])
    returned = call(function, (table, data, assignment), target)
    answer = "R2" if lent < 3 and not bad_table(table) else forms.answer(table, data, assignment)
    if answer[0] == "R":
        return returned == -int(answer[1:]) and target.stands_but_for(), answer
    return returned == 0 and target.stands_but_for([int(n) for n in answer.split()]), "given"


def compare_reduce(functions, chance, table, data, lent):
    target = Lent(ctypes.c_uint8, [0xC3] * lent)
    returned = call(functions.kalzunbi_reduce, (table, data), target)
    assignment = forms.assigned(table, chance)
    numbers = [b - 256 if b > 127 else b for b in assignment]
    sigma = [tuple(numbers[i:i + 3]) for i in range(0, len(numbers), 3)]
    answer, found = ("R2", None) if lent < 770 and not bad_table(table) else expressions.answer(table, data, sigma)
    if found is None:
        return returned == -int(answer[1:]) and target.stands_but_for(), answer
    _, record, values = found
    three = Lent(ctypes.c_int64, [0] * 3)
    same = call(functions.kalzunbi_value, (table, record, assignment), three) == 0 and three.stands_but_for(values)
    return same and returned == len(record) and target.stands_but_for(record), "given"


def compare_check(function, table, data, lent):
    target = Lent(ctypes.c_uint64, [7777777777777 * i for i in range(lent)])
    returned = call(function, (table, data), target)
    answer = ("refused", 2, 0) if lent < 3 and not bad_table(table) else logs.answer(table, data)
    if answer[0] == "refused":
        _, number, step = answer
        return returned == -(256 * number + step) and target.stands_but_for(), f"R{number}"
    return returned == 0 and target.stands_but_for(answer[1:]), "accepted"


def compare_decide(functions, table, first, second, lent, work):
    buffer, memory = Lent(ctypes.c_uint8, [0xC3] * lent), Lent(ctypes.c_uint8, [0x3C] * work)
    returned = call(functions.kalzunbi_decide, (table, first, second), buffer, memory)
    answer = decisions.answer(table, first, second, lent, work)
    if answer[0] == "R":
        return returned == -int(answer[1:]) and buffer.stands_but_for() and memory.stands_but_for(), answer
    around = memory.stands_but_for(memory.first(work))
    if answer == decisions.HOLDS:
        return returned == 0 and buffer.stands_but_for() and around, answer
    verdict, numbers = answer.split()
    numbers = bytes.fromhex(numbers)
    if not (returned == 1 and buffer.stands_but_for(numbers) and around):
        return False, verdict
    vectors = [tuple(numbers[i:i + 3]) for i in range(0, len(numbers), 3)]
    values = [value_called(functions.kalzunbi_value, table, data, vectors) for data in (first, second)]
    return None not in values and values[0] != values[1], verdict


def compare_shorten(functions, table, data, lent, numbers):
    target, counted = Lent(ctypes.c_uint8, [0xC3] * lent), Lent(ctypes.c_uint64, [7777777777777 * i for i in range(numbers)])
    returned = call(functions.kalzunbi_shorten, (table, data), target, counted)
    try:
        kind, terms = shortening.taken(table, data, lent if numbers else 0)
    except expressions.Refused as refusal:
        return returned == -refusal.args[0] and target.stands_but_for() and counted.stands_but_for(), f"R{refusal.args[0]}"
    written = bytes(target.first(returned or 0)) if (returned or 0) <= lent else b""
    what, end, *places = logs.answer(table, written)
    if what != "accepted":
        return False, "not accepted"
    start, steps = places
    last = logs.gathered(forms.read(written[start:]))[1]
    good = (target.stands_but_for(written) and counted.stands_but_for([steps]) and written[:end] == data and steps + len(last) <= len(terms)
            and not any(True for lot in shortening.lots(last) for _ in shortening.shortening_steps(kind, lot)))
    three, buffer, memory = Lent(ctypes.c_uint64, [0] * 3), Lent(ctypes.c_uint8, [0] * 72), Lent(ctypes.c_uint8, [0] * 55296)
    checked = call(functions.kalzunbi_check, (table, written), three) == 0 and three.first(3) == [end, start, steps]
    holds = call(functions.kalzunbi_decide, (table, written[:end], written[start:]), buffer, memory) == 0
    return good and checked and holds, "shorter" if steps else "as it was"


def small(numbers):
    return all(abs(n) <= 6 for n in numbers)


def value_called(function, table, data, vectors):
    """What the value call gives, or None."""
    target = Lent(ctypes.c_int64, [0] * 3)
    returned = call(function, (table, data, bytes(n % 256 for v in vectors for n in v)), target)
    return target.first(3) if returned == 0 else None


def compare_insert(functions, chance, table, form, letter, inserted, lent):
    target = Lent(ctypes.c_uint8, [0xC3] * lent)
    returned = call(functions.kalzunbi_insert, (table, form, Byte(letter), inserted), target)
    answer = insertions.inserted_form(table, form, letter, inserted, lent)
    if isinstance(answer, int):
        return returned == -answer and target.stands_but_for(), f"R{answer}"
    vectors = insertions.vectors(forms.assigned(table, chance, chance.choice((range(-1, 2), range(-6, 7)))))
    value = forms.evaluate(forms.read(inserted)[1], vectors)
    replaced = vectors[:letter] + [value] + vectors[letter + 1:]
    old = value_called(functions.kalzunbi_value, table, form, replaced) if small(value) else forms.evaluate(forms.read(form)[1], replaced)
    same = old is not None and value_called(functions.kalzunbi_value, table, answer, vectors) == old
    return same and returned == len(answer) and target.stands_but_for(answer), "given" if small(value) else "given, by the program"


def printed(function, table, names, data):
    """What the call that prints a form writes, or None."""
    target = Lent(ctypes.c_uint8, [0xC3] * 1393)
    returned = call(function, (table, names, data), target)
    text = bytes(target.first(returned)) if returned and 0 < returned <= 1393 else None
    return text if text is not None and target.stands_but_for(text) else None


def compare_text(functions, table, names, line, lent, numbers):
    target, columns = Lent(ctypes.c_uint8, [0xC3] * lent), Lent(ctypes.c_uint64, [7777777777777 * i for i in range(numbers)])
    returned = call(functions.kalzunbi_read_text, (table, names, line), target, columns)
    what, number, rest = texts.read_text(table, names, line)
    if (what, number) != ("refused", 1) and (lent < 770 or numbers < 1):
        what, number, rest = "refused", 2, None
    if what == "refused":
        return returned == -number and target.stands_but_for() and columns.stands_but_for([] if rest is None else [rest]), f"R{number}"
    if not (returned == len(rest) and target.stands_but_for(rest) and columns.stands_but_for()):
        return False, "given"
    text, again = texts.text_of(names, rest).encode("latin-1"), Lent(ctypes.c_uint8, [0xC3] * 770)
    same = printed(functions.kalzunbi_print, table, names, rest) == text
    back = call(functions.kalzunbi_read_text, (table, names, text), again, Lent(ctypes.c_uint64, [0]))
    record = rest if rest[1] else bytes(2)
    return same and back == len(record) and again.stands_but_for(record), "given"


def compare_print(function, table, names, data, lent):
    target = Lent(ctypes.c_uint8, [0xC3] * lent)
    returned = call(function, (table, names, data), target)
    try:
        expressions.demand(not bad_table(table) and not bad_names(table, names), 1)
        expressions.demand(lent >= 1393, 2)
        shortening.taken(table, data, 2309)
    except expressions.Refused as refusal:
        return returned == -refusal.args[0] and target.stands_but_for(), f"R{refusal.args[0]}"
    text = texts.text_of(names, data).encode("latin-1")
    return returned == len(text) and target.stands_but_for(text), "printed"


def compare_audit(functions, table, data, lent, buffer, work, numbers):
    target, counted = Lent(ctypes.c_uint8, [0xC3] * lent), Lent(ctypes.c_uint64, [7777777777777 * i for i in range(numbers)])
    bytes_lent, memory = Lent(ctypes.c_uint8, [0xC3] * buffer), Lent(ctypes.c_uint8, [0x3C] * work)
    returned = call(functions.kalzunbi_audit, (table, data), target, bytes_lent, memory, counted)
    try:
        shortening.taken(table, data, lent if numbers and buffer >= 72 and work >= 55296 else 0)
    except expressions.Refused as refusal:
        stands = all(m.stands_but_for() for m in (target, counted, bytes_lent, memory))
        return returned == -refusal.args[0] and stands, f"R{refusal.args[0]}"
    log, steps = Lent(ctypes.c_uint8, [0xC3] * lent), Lent(ctypes.c_uint64, [7777777777777 * i for i in range(numbers)])
    same = call(functions.kalzunbi_shorten, (table, data), log, steps) == returned
    same = same and bytes(log.memory) == bytes(target.memory) and bytes(steps.memory) == bytes(counted.memory)
    return same and bytes_lent.stands_but_for() and memory.stands_but_for(memory.first(work)), "agreed"


def compare_open_log(functions, made, state, whole):
    number, table, data, lent, work, _ = made
    name, function = {
        open_logs.OPEN: ("open", functions.kalzunbi_open), open_logs.ADD: ("add", functions.kalzunbi_add), open_logs.LOOK: ("look", functions.kalzunbi_look),
        open_logs.DECIDE: ("decide", functions.kalzunbi_decide_open), open_logs.CLOSE: ("close", functions.kalzunbi_close)}[number]
    what, _, written = open_logs.answer(made, state)
    target, memory = Lent(ctypes.c_uint8, [0xC3] * lent), Lent(ctypes.c_uint8, [0x3C] * work)
    sources = {open_logs.OPEN: (table, data), open_logs.LOOK: (state,)}.get(number, (state, data))
    returned = call(function, sources, *{open_logs.DECIDE: (target, memory), open_logs.CLOSE: ()}.get(number, (target,)))
    if what[0] == "R":
        same = returned == -int(what[1:]) and target.stands_but_for() and memory.stands_but_for()
    else:
        same = returned == {open_logs.GIVEN: len(written), decisions.DIFFERS: 1}.get(what, 0) and target.stands_but_for(written)
        same = same and memory.stands_but_for(memory.first(work))  # what is lent of it is free after a decision
    if same and what == decisions.DIFFERS:
        table, _, reached = open_logs.cut_state(state)
        vectors = [tuple(written[i:i + 3]) for i in range(0, len(written), 3)]
        values = [value_called(functions.kalzunbi_value, table, form, vectors) for form in (reached, data)]
        same = None not in values and values[0] != values[1]
    if number == open_logs.CLOSE and whole is not None:
        table, first, steps = whole
        log, three = logs.log(first, steps, data), Lent(ctypes.c_uint64, [0] * 3)
        checked = call(functions.kalzunbi_check, (table, log), three)
        same = same and (returned == 0) == (checked == 0) == (logs.answer(table, log)[0] == "accepted")
    return same, f"{name} {what}"


def main():
    arguments = argparse.ArgumentParser(description=__doc__, formatter_class=argparse.RawDescriptionHelpFormatter)
    arguments.add_argument("count", metavar="COUNT", nargs="?", type=int, default=10000, help="inputs for each call (10000)")
    arguments.add_argument("seed", metavar="SEED", nargs="?", type=int, default=1, help="of the random numbers (1)")
    given = arguments.parse_args()
    count, library, chance, differences = given.count, load(), random.Random(given.seed), 0
    for name, inputs, compare in (
            ("value", form_inputs(chance), lambda *x: compare_value(library.kalzunbi_value, *x)),
            ("reduce", expression_inputs(chance), lambda *x: compare_reduce(library, chance, *x)),
            ("check", log_inputs(chance), lambda *x: compare_check(library.kalzunbi_check, *x)),
            ("decide", pair_inputs(chance), lambda *x: compare_decide(library, *x)),
            ("shorten", shortening_inputs(chance), lambda *x: compare_shorten(library, *x)),
            ("insert", insertion_inputs(chance), lambda *x: compare_insert(library, chance, *x)),
            ("read_text", text_inputs(chance), lambda *x: compare_text(library, *x)),
            ("print", printing_inputs(chance), lambda *x: compare_print(library.kalzunbi_print, *x)),
            ("audit", audit_inputs(chance), lambda *x: compare_audit(library, *x)),
            ("open log", open_log_inputs(chance), lambda *x: compare_open_log(library, *x))):
        answers = collections.Counter()
        for _ in range(count):
            case = next(inputs)
            same, answer = compare(*case)
            answers[answer] += 1
            if not same:
                differences += 1
                print(name, *(x.hex() if isinstance(x, bytes) else x for x in case), "expected", answer)
        print(f"{name}: {count} cases, " + ", ".join(f"{n} {a}" for a, n in sorted(answers.items(), key=lambda x: (len(x[0]), x[0]))))
    print(f"{10 * count} cases, {differences} differences")
    sys.exit(differences > 0)


if __name__ == "__main__":
    main()
