#!/usr/bin/env python3
"""Cases of logs that stay open and their answers, computed from the customer's documents alone.

Writes crates/open_log_cases/stdin (the calls) and crates/open_log_cases/stdout (the answers).
A call is its number (one byte), the length of a table (one byte) and of an input (two bytes), how much is lent of two
parts of memory (two bytes each), the table, the input. The calls are made one after the other: all but an opening get
the state at hand, which is what the last accepted opening or adding gave back, or the bytes handed over since (the
number 0, which is no call and has no answer). The answer of a call is a line: the length and the bytes written, a
state or a form (of an adding with the number 6 the length alone); holds, or differs and the first assignment under
which the forms do; accepted; or R and a number.

Nothing here is taken from the engine. A state is cut into its table, its count and its form's record, which must be
what tests/value_cases.py takes for one; a step leads where tests/check_cases.py says, the decision is that of
tests/decision_cases.py.

Each call says what its answer is meant to be, and that is compared; only those by chance do not. The first form, the
steps taken since and the last form are put together at every closing, and tests/check_cases.py must accept that log
exactly where the closing is accepted, and refuse it with the same number elsewhere. Every form reached must have the
first form's value by components under a random assignment. Every refusal must be shown for every reason.
"""
import collections
import itertools
import pathlib
import random
import re

import check_cases as logs
import decision_cases as decisions
import reduction_cases as expressions
import value_cases as forms
from check_cases import ACCEPTED, LETTERS, LIMIT, NOTHING, TABLE, WHOLE, log, many, scalar, step, vector
from decision_cases import BUFFER, DIFFERS, HOLDS, WORK
from reduction_cases import Refused, demand

STATE, FORM, STEPS = 796, 770, 64
GIVEN = "given"
HAND_OVER, OPEN, ADD, LOOK, DECIDE, CLOSE, ADD_TOLD_SHORT = range(7)

# A call: its number, a table, the form or the step or the state handed over, what is lent, and what the answer is meant to be.
Call = collections.namedtuple("Call", "number table data lent work meant")


# ════ the state

def good_table(table):
    return 1 <= len(table) <= 24 and max(table) <= 1


def state_of(table, count, form):
    """The bytes of a state: the table's length, the table, the steps taken, the form's record."""
    return bytes([len(table)]) + table + bytes([count]) + form


def cut_state(state):
    """The table, the steps taken and the form's record; 11 whatever is wrong with them."""
    demand(state and len(state) > state[0] + 1, 11)
    end = 1 + state[0]
    table, count, record = state[1:end], state[end], state[end + 1:]
    form = forms.read(record)
    demand(good_table(table) and count <= STEPS and form and forms.letters_refused(table, form[1]) == 0, 11)
    return table, count, record


# ════ an answer: what is said, for what reason, and the bytes written

def letters_fit(table, terms):
    number = forms.letters_refused(table, terms)
    demand(number == 0, number)


def answer(call, state):
    """What a call says with the state at hand, the test that refuses it, and the bytes that it writes."""
    number, table, data, lent, work, _ = call
    test = ""
    try:
        if number == OPEN:
            test = "table"
            demand(good_table(table), 1)
        else:
            test = "state"
            table, count, record = cut_state(state)
        test = "memory"
        demand(number == CLOSE or lent >= {LOOK: FORM, DECIDE: BUFFER}.get(number, STATE), 2)
        demand(number != DECIDE or work >= WORK, 2)
        if number == LOOK:
            return GIVEN, "", record
        if number in (ADD, ADD_TOLD_SHORT):
            test = "count"
            demand(count < STEPS, 14)
            test = "shape"
            one, rest = logs.cut_step(data)
            demand(not rest, 11)
            test = "letters"
            letters_fit(table, [(1, (), one[1]), one[2]])  # the letters of a rule are vectors, as those of a vector part are
            test = "step"
            kind, form = logs.reached(table, logs.gathered(forms.read(record)), one)
            return GIVEN, "", state_of(table, count + 1, expressions.record(kind, form))
        test = "shape"
        form = forms.read(data)
        demand(form, 11)
        test = "letters"
        letters_fit(table, form[1])
        if number == OPEN:
            return GIVEN, "", state_of(table, 0, data)
        if number == CLOSE:
            test = "form"
            demand(logs.gathered(form) == logs.gathered(forms.read(record)), 13)
            return ACCEPTED, "", b""
        test = "kinds"
        demand(form[0] == record[0], 6)
        verdict, *numbers = decisions.answer(table, record, data, lent, work).split()
        return verdict, "", bytes.fromhex("".join(numbers))
    except Refused as refusal:
        return f"R{refusal.args[0]}", test, b""


def line(call, what, written):
    if what != GIVEN:
        return f"{what} {written.hex()}".strip()
    return str(len(written)) if call.number == ADD_TOLD_SHORT else f"{len(written)} {written.hex()}"


# ════ calls

def opened(table, form, meant=GIVEN, lent=STATE):
    return Call(OPEN, table, form, lent, 0, meant)


def added(one, meant=GIVEN, lent=STATE):
    return Call(ADD, b"", one, lent, 0, meant)


def added_shortly(one, meant=GIVEN, lent=STATE):
    """An adding that is told by its length alone."""
    return Call(ADD_TOLD_SHORT, b"", one, lent, 0, meant)


def looked(meant=GIVEN, lent=FORM):
    return Call(LOOK, b"", b"", lent, 0, meant)


def decided(form, meant="", buffer=BUFFER, work=WORK):
    return Call(DECIDE, b"", form, buffer, work, meant)


def closed(form, meant=ACCEPTED):
    return Call(CLOSE, b"", form, 0, 0, meant)


def handed_over(state):
    return Call(HAND_OVER, b"", state, 0, 0, "")


def every_call(one, form, meant):
    """Each call that gets a state."""
    return added(one, meant), looked(meant), decided(form, meant), closed(form, meant)


# ════ the cases

FOUR = vector("(bcd)*a-(acd)*b+(abd)*c-(abc)*d")
ONE, BACK = step(2, "abcd", "1"), step(2, "abcd", "-1")


def bad_forms():
    """Forms with a letter that TABLE has not or has of the other kind, and bytes that are no form; each with its number."""
    for factors, part, number in logs.BAD_LETTERS:
        yield forms.record(int(part != ()), [(1, factors, part)]), number
    for kind, term in logs.BAD_TERMS:
        yield bytes([kind, 1]) + term, 11
    for bad in logs.BAD_FORMS:
        yield bad, 11


def lines_to_try():
    """The document's line, a call at a time; a log closed at once; the kinds kept."""
    yield opened(TABLE, FOUR)
    yield looked()
    yield decided(NOTHING[1], HOLDS)
    yield closed(NOTHING[1], "R13")
    yield added(ONE)
    yield looked()
    yield decided(FOUR, HOLDS)
    yield decided(vector("a"), DIFFERS)
    yield closed(FOUR, "R13")
    yield closed(NOTHING[0], "R13")
    yield closed(NOTHING[1])
    for first in (FOUR, NOTHING[0], NOTHING[1], scalar("1"), vector("-2(a.b)*(c^d)")):
        yield opened(TABLE, first)
        yield closed(first)


def each_rule():
    """Each rule from its left side to its right, decided on the way, and back."""
    for rule, count in LETTERS.items():
        left, right = map(decisions.form_of, logs.sides(rule, range(count)))
        there, back = (step(rule, "abcdef"[:count], m) for m in ("-1", "1"))
        yield opened(TABLE, left)
        yield decided(right, HOLDS)
        yield added(there)
        yield looked()
        yield decided(left, HOLDS)
        yield decided(decisions.turned(left, 0), DIFFERS)
        yield decided(decisions.turned(right, right[1] - 1), DIFFERS)
        yield closed(left, "R13")
        yield added(back)
        yield closed(right, "R13")
        yield closed(left)
        yield opened(TABLE, left)
        yield added(there)
        yield closed(right)


def whole_logs():
    """Logs of the checker's cases, a step at a time: of those with each answer some."""
    some = collections.defaultdict(list)
    for group in (logs.each_rule, logs.kinds_and_letters, logs.coefficients, logs.numbers_of_steps, logs.wrong_step, logs.order_of_steps, logs.last_form):
        for table, whole, _ in group():
            result = logs.answer(table, whole)
            if len(whole) <= 130 and not (result[0] == "refused" and result[1] == 11):
                some[group, result[0], result[1] if result[0] == "refused" else 0].append((table, whole))
    for chosen in some.values():
        for table, whole in chosen[::len(chosen) // 3 + 1]:
            _, steps, _, end, start = logs.cut_log(whole)
            yield opened(table, whole[:end])
            for one in steps:
                yield added(logs.step_record(*one), "")
            yield closed(whole[start:], "")


def refused_between():
    """A refused step leaves the log open as before: each refusal between steps that are taken, and looked at behind it."""
    first = vector(f"{LIMIT - 2}(abc)*d")
    bad = [
        (ONE + b"\0", "R11"), (ONE[:-1], "R11"), (b"", "R11"), (b"\6" + ONE[1:], "R11"), (step(2, "abcj", "1"), "R5"), (step(2, "abcd", "j"), "R5"),
        (step(2, "abgd", "1"), "R6"), (bytes([2, 0, 1, 2, 3, 2, 1, 0]), "R6"),
        (step(3, "abcde", "1"), "R6"), (step(1, "abcd", "a"), "R6"), (step(5, "abcdef", "1"), "R6"),
        (step(2, "abcd", "(abc)"), "R8"), (step(4, "abcde", "(a.a)"), "R8"), (step(2, "abcd", "3"), "R9"), (step(2, "bcad", "2147483647"), "R9")]
    yield opened(TABLE, first)
    for one, meant in bad:
        yield added(one, meant)
        yield looked()
    yield added(ONE)
    for k, (one, meant) in enumerate(bad):
        yield added(one, meant)
        yield (looked(), decided(first, HOLDS), closed(first, "R13"))[k % 3]
    yield added(ONE)
    yield added(ONE, "R9")
    yield looked()
    for one, meant in bad:
        yield added(one, meant)
    yield added(BACK)
    yield added(ONE)
    yield closed(logs.last_of(logs.closed(first, [ONE, ONE])))
    # 10: 48 terms, and one more is too many; then room is made
    grown, other = vector(many(1, 44)), step(1, "abce", "g")
    yield opened(WHOLE, grown)
    yield added_shortly(ONE)
    yield added(other, "R10")
    yield added(other, "R10")
    yield added(step(2, "abcd", f"{LIMIT}"), "R9")
    yield looked()
    yield added_shortly(BACK)
    yield added_shortly(other)
    yield added(ONE, "R10")
    yield closed(grown, "R13")
    yield closed(logs.last_of(logs.closed(grown, [other])))
    # a scalar form: rules 1, 2 and 4 never fit, rule 3 and rule 5 without a vector part do
    yield opened(TABLE, scalar("g-(abc)(def)"))
    for rule, m, meant in ((1, "1", "R6"), (2, "1", "R6"), (4, "1", "R6"), (3, "a", "R6"), (5, "a", "R6"), (5, "(a.a)", "R8"), (5, "1", GIVEN), (3, "1", GIVEN),
                           (3, "(abc)", "R8")):
        yield added(step(rule, "abcdef"[:LETTERS[rule]], m), meant)
    yield looked()
    yield closed(scalar("g"), "R13")


def sixty_four_steps():
    """The 64th step is taken and the 65th refused with 14, whatever its bytes are; refused steps do not count."""
    yield opened(TABLE, NOTHING[1])
    for k in range(STEPS):
        if k % 9 == 0:
            yield added(step(2, "abcd", "(abc)"), "R8")
            yield added(b"\2", "R11")
        yield (added if k % 21 == 0 else added_shortly)(ONE)
    reached = vector("64(abc)*d-64(bcd)*a+64(acd)*b-64(abd)*c")
    for one in (ONE, BACK, ONE + b"\0", ONE[:-1], b"", b"\0", b"\6", step(2, "abcj", "1"), step(2, "abcg", "1"), step(3, "abcde", "1"), step(2, "abcd", "(abc)"),
                step(2, "abcd", f"{LIMIT}"), bytes(range(200)), ONE * 30):
        yield added(one, "R14")
        yield added(one, "R14", 1000)
        yield added(one, "R2", 795)
    yield added(ONE, "R2", 0)
    yield looked()
    yield decided(NOTHING[1], HOLDS)
    yield decided(vector("(abc)*d"), DIFFERS)
    yield closed(NOTHING[1], "R13")
    yield closed(vector("63(abc)*d-63(bcd)*a+63(acd)*b-63(abd)*c"), "R13")
    yield closed(reached)
    # a state with 65 steps is none, before 2 and 14
    yield handed_over(state_of(TABLE, 65, reached))
    for lent in (0, 795, 796):
        yield added(ONE, "R11", lent)
        yield added(b"", "R11", lent)
    # one step is left
    yield handed_over(state_of(TABLE, 63, reached))
    yield added(step(2, "abcd", "(abc)"), "R8")
    yield added(ONE, "R2", 795)
    yield added(BACK)
    yield added(ONE, "R14")
    yield closed(reached, "R13")
    yield closed(vector("63(abc)*d-63(bcd)*a+63(acd)*b-63(abd)*c"))


def longest():
    """The longest log, and its forms with the longest table: a state of 796 bytes."""
    _, whole = logs.longest_log()
    _, steps, _, end, start = logs.cut_log(whole)
    first, last = whole[:end], whole[start:]
    assert len(state_of(WHOLE, 0, first)) == STATE
    yield opened(WHOLE, first, "R2", 795)
    yield opened(WHOLE, first)
    for k, one in enumerate(steps, 1):
        yield added_shortly(logs.step_record(*one), lent=1000 if k % 2 else STATE)
        if k == 33:
            yield looked()
    yield added(ONE, "R14")
    yield looked(lent=1000)
    yield decided(first, HOLDS)
    yield decided(decisions.turned(last, 47), DIFFERS)
    yield closed(first, "R13")
    yield closed(last)
    yield handed_over(state_of(WHOLE, 64, last) + b"\0")
    yield closed(last, "R11")


def looking_and_deciding():
    """Pairs of the decision's cases, the first as the form reached; kinds, letters and shapes of the other form."""
    groups = [decisions.larger_numbers, decisions.first_assignments, decisions.each_rule, decisions.lines_to_prove]
    for group, few in zip(groups, (5, 13, 23, 23)):
        for table, first, second, meant in itertools.islice(group(), 0, None, few):
            yield opened(table, first)
            yield decided(second, meant)
    yield opened(TABLE, vector("a-g*(b^c)"))
    for form, meant in ((NOTHING[0], "R6"), (scalar("g"), "R6"), (NOTHING[1], DIFFERS), (vector("a-g*(b^c)"), HOLDS), (b"", "R11"), (vector("a") + b"\0", "R11"),
                        (vector("j*a"), "R5"), (scalar("j"), "R5"), (scalar("j") + b"\0", "R11"), (log(vector("a"), [], vector("a")), "R11"),
                        (vector("a-g*(b^c)"), HOLDS)):
        yield decided(form, meant)
        yield looked()
    for bad, number in bad_forms():
        yield decided(bad, f"R{number}")
    yield closed(vector("a-g*(b^c)"))


def closings():
    """Refused closings leave the log open; forms are compared, not values."""
    two = [step(3, "abcde", "2"), step(3, "abcad", "-1")]
    first = scalar("g-2(d.e)(abc)")
    last = logs.last_of(logs.closed(first, two))
    right = forms.read(last)[1]
    others = [first, NOTHING[0], NOTHING[1], forms.record(0, right[:-1]), forms.record(0, right[1:]), forms.record(0, [(1, (), ())] + right),
              logs.last_of(logs.closed(first, two[:1])), decisions.negated(last)]
    yield opened(TABLE, first)
    for form in others[1:]:
        yield closed(form, "R13")
    yield added(two[0])
    for form in (first, last):  # of equal value
        yield decided(form, HOLDS)
        yield closed(form, "R13")
    yield added(two[1])
    for form in others:
        yield closed(form, "R13")
    for k in range(len(right)):
        coef, factors, part = right[k]
        yield closed(forms.record(0, right[:k] + [(3 * coef, factors, part)] + right[k + 1:]), "R13")
    for form, meant in ((b"", "R11"), (last[:-1], "R11"), (last + b"\0", "R11"), (last + last, "R11"), (scalar("j"), "R5"), (scalar("j") + b"\0", "R11"),
                        (forms.record(0, [(1, ((0,), (9,)), ())]), "R6"), (log(first, two, last), "R11"), (state_of(TABLE, 2, last), "R11")):
        yield closed(form, meant)
        yield looked()
    yield added(two[0])
    yield closed(last, "R13")
    yield added(step(3, "abcde", "-2"))
    yield closed(last)
    # the empty form of the other kind
    for kind in (0, 1):
        yield opened(TABLE, NOTHING[kind])
        yield closed(NOTHING[1 - kind], "R13")
        yield added(step(3, "aaaaa", ("1", "f")[kind]))
        yield closed(NOTHING[1 - kind], "R13")
        yield closed(NOTHING[kind])
    yield opened(TABLE, scalar("g"))
    for bad, number in bad_forms():
        yield closed(bad, f"R{number}")
    yield closed(scalar("g"))


def bad_states():
    """States that break one rule each."""
    form = vector("(abc)*d-g*e")
    # tables whose other letters are those of the form, and tables with the empty form
    for table in (bytes([1] * 6 + [0] * 19), bytes([1] * 6 + [0] * 249), TABLE[:8] + b"\2", TABLE[:5] + b"\xff" + TABLE[6:], WHOLE[:23] + b"\2"):
        yield state_of(table, 3, form)
    for table in (b"", b"\2", b"\xff", bytes(25), bytes([1] * 25), bytes([1] * 24 + [2])):
        yield state_of(table, 0, NOTHING[1])
    for count in (65, 66, 127, 128, 192, 255):
        yield state_of(TABLE, count, form)
    # the length of the table one too many, one too few, far too many
    good = state_of(TABLE, 3, form)
    for size in (8, 10, 24, 255):
        yield bytes([size]) + good[1:]
    # bytes missing and left over
    for state in (b"", good[:1], good[:10], good[:11], good[:12], good[:13], good[:-1], good + b"\0", good + b"\1", good + NOTHING[1], good + good, b"\0" + good):
        yield state
    # the other way round
    yield form + good[:11]
    yield good[:10] + form + good[10:11]
    yield state_of(WHOLE, 3, forms.record(0, sorted(logs.terms(many(0, 49)), key=forms.position)))


def made_up_and_bad():
    """11 for a state that breaks a rule, in every call and before all else."""
    form = vector("(abc)*d-g*e")
    for state in bad_states():
        yield handed_over(state)
        yield from every_call(ONE, form, "R11")
    for k, (bad, _) in enumerate(bad_forms()):
        yield handed_over(state_of(TABLE, 3, bad))
        yield every_call(ONE, NOTHING[1], "R11")[k % 4]
        yield every_call(ONE, NOTHING[1], "R11")[(k + 1 + k // 4 % 3) % 4]
    # before 2, 14, the shapes and letters of what is handed over beside it
    for state in (b"", state_of(TABLE, 65, form), state_of(TABLE[:-1] + b"\2", 64, form), state_of(TABLE[:6], 64, form), state_of(TABLE, 64, form)[:-1]):
        yield handed_over(state)
        for lent in (0, 795, 796):
            for one in (ONE, b"", step(2, "abcj", "1"), step(3, "abcde", "1")):
                yield added(one, "R11", lent)
        for lent in (0, 769, 770):
            yield looked("R11", lent)
        for (buffer, work), other in itertools.product(((71, WORK), (BUFFER, 55295), (0, 0), (BUFFER, WORK)), (form, b"", scalar("0"), vector("j*a"))):
            yield decided(other, "R11", buffer, work)
        for other in (form, b"", scalar("0"), vector("j*a")):
            yield closed(other, "R11")


def made_up_and_good():
    """A state that breaks no rule is one, whoever made it."""
    for table, form in ((TABLE, vector("(abc)*d-g*e")), (TABLE, NOTHING[1]), (TABLE, FOUR), (bytes([1]), vector("(a.a)(a.a)*a")), (bytes([1] * 24), FOUR),
                        (TABLE, vector(f"{LIMIT}(abc)*d-{LIMIT}(bcd)*a"))):
        for count in (0, 1, 63, 64):
            taken = count < STEPS and len(table) > 3
            yield handed_over(state_of(table, count, form))
            yield added(BACK, GIVEN if taken else "R14" if count == STEPS else "R5")
            yield looked()
            yield decided(form, HOLDS)
            yield decided(vector("a"), DIFFERS)
            yield closed(vector("a"), "R13")
            yield closed(form, "R13" if taken else ACCEPTED)
    for count in (0, 62, 63, 64):
        yield handed_over(state_of(TABLE, count, scalar("(abc)(abc)")))
        for n in range(3):
            yield added(step(5, "abcabc", "-1"), GIVEN if count + n < STEPS else "R14")
        yield looked()
        yield closed(scalar("(abc)(abc)"), ACCEPTED if count == 64 else "R13")
    for table, form in ((bytes([0]), scalar("0")), (bytes([0]), vector("0")), (bytes([0]), forms.record(0, [(-LIMIT, ((0,), (0,)), ())])), (bytes(24), scalar("xx")),
                        (WHOLE, scalar(many(0, 48)))):
        yield handed_over(state_of(table, 64, form))
        yield decided(form, HOLDS)
        yield looked()
        yield closed(form)


def other_tables():
    """The state has its own table: a letter is in it or not, and is of its kind or of the other, whatever other lists have."""
    form, longer = vector("(abc)*d"), step(1, "abcf", "g")
    turned = bytes(1 - b for b in TABLE)
    yield opened(TABLE, form)
    yield added(longer)
    yield opened(TABLE[:4], form)
    yield added(longer, "R5")
    yield added(ONE)
    yield decided(vector("e"), "R5")
    yield closed(vector("e"), "R5")
    yield closed(vector("g*e"), "R5")
    yield opened(turned, NOTHING[1])
    yield added(ONE, "R6")
    yield added(step(1, "ghih", "1"))
    yield looked()
    yield closed(forms.record(1, [(1, (), (6,))]), "R13")
    yield opened(TABLE[:6] + b"\1\1\1", form)
    yield added(step(1, "abcd", "g"), "R6")
    yield added(step(1, "abcg", "1"))
    yield decided(forms.record(1, [(1, ((0, 1, 2),), (6,))]), DIFFERS)
    # the form with another table
    for table, meant in ((TABLE, GIVEN), (bytes([1] * 4), GIVEN), (bytes([1] * 24), GIVEN), (bytes([1] * 4) + bytes(20), GIVEN),
                         (bytes([1] * 3), "R11"), (bytes([1, 1, 1, 0]), "R11"), (bytes(4), "R11"), (turned, "R11"), (bytes([0, 1, 1, 1]), "R11")):
        yield handed_over(state_of(table, 7, form))
        yield looked(meant)
        yield added(step(2, "abcd", "3"), meant)
        yield added(longer, meant if meant != GIVEN or len(table) == 9 else "R5" if len(table) < 9 else "")
        yield closed(NOTHING[1], "R13" if meant == GIVEN else meant)


def openings():
    """1, then 2, then 11, then letters, 5 or 6; a refused opening gives no state."""
    good, torn, absent, wrong = vector("(abc)*d"), vector("(abc)*d")[:-1], vector("j*a"), forms.record(1, [(1, ((0,),), (1,))])
    tables = b"", bytes(25), bytes([1] * 25), bytes([1, 2]), bytes([255]), bytes([1] * 23 + [2]), bytes([1] * 255)
    contents = (good, GIVEN), (torn, "R11"), (absent, "R5"), (wrong, "R6"), (absent + b"\0", "R11")
    for table, lent, (form, meant) in itertools.product((TABLE, TABLE[:8] + b"\2"), (0, 795, 796, 797, 1000), contents):
        yield opened(table, form, "R1" if table[-1] == 2 else "R2" if lent < STATE else meant, lent)
    for table in tables:
        for form in (NOTHING[1], absent, b""):
            yield opened(table, form, "R1", 0 if form == absent else STATE)
    for bad, number in bad_forms():
        yield opened(TABLE, bad, f"R{number}")
    for table, form in ((WHOLE, scalar("x")), (bytes([0]), NOTHING[1]), (bytes([1]), NOTHING[0]), (bytes([1] * 24), NOTHING[0]), (WHOLE, vector(many(1, 48)))):
        yield opened(table, form)
        yield opened(table[:-1], form, "R1" if len(table) == 1 else "R5" if form[1] == 1 else GIVEN)
    # the state at hand is that of the last opening which was accepted
    yield opened(TABLE, scalar("g"))
    yield opened(TABLE, scalar("j"), "R5")
    yield opened(TABLE, scalar("h"), "R2", 795)
    yield looked()
    yield closed(scalar("g"))


def cut_anywhere():
    """A small state cut at every byte, with one byte more, and with each byte raised by one, where the answer depends on the byte."""
    whole = state_of(TABLE[:7], 2, vector("-2g*c+(a^b)"))
    yield handed_over(whole)
    yield looked()
    for n in range(len(whole)):
        yield handed_over(whole[:n])
        yield from every_call(ONE, vector("a"), "R11")
    for byte in (0, 1, 2, 16, 255):
        yield handed_over(whole + bytes([byte]))
        yield from every_call(ONE, vector("a"), "R11")
    for n in range(len(whole)):
        yield handed_over(whole[:n] + bytes([(whole[n] + 1) % 256]) + whole[n + 1:])
        yield looked("")
        yield handed_over(whole[:n] + bytes([(whole[n] - 1) % 256]) + whole[n + 1:])
        yield added(step(2, "abcd", "-3g"), "")


def steps_in_shape():
    """A step's bytes are one record, from the first to the last; its shape comes before its letters, those before the step itself."""
    first, good = scalar("g"), step(3, "abcde", "-2h")
    yield opened(TABLE, first)
    for n in range(len(good)):
        yield added(good[:n], "R11")
    for byte in (0, 1, 2, 7, 255):
        yield added(good + bytes([byte]), "R11")
    yield added(good + good, "R11")
    yield added(b"\0" + good, "R11")
    yield added(good[:5] + good[6:], "R11")
    for rule in (0, 1, 2, 4, 5, 6, 128, 255):
        yield added(bytes([rule]) + good[1:], "R6" if rule == 4 else "R11")
    for kind, term in logs.BAD_TERMS:
        yield added(good[:6] + term, "R11")
    # a whole form, a log, a state in place of a step
    for data in (first, scalar("h"), log(first, [], first), state_of(TABLE, 0, first), bytes(1), bytes(40), bytes([255] * 40)):
        yield added(data, "R11")
    for factors, part, number in logs.BAD_LETTERS:
        yield added(good[:6] + forms.record(int(part != ()), [(1, factors, part)])[2:], f"R{number}")
    for rule, count in LETTERS.items():
        right = step(rule, "abcdef"[:count], "1")
        for k in range(count):
            x, number = (9 + 7 * k, 5) if (k + rule) % 2 else (6 + k % 3, 6)
            yield added(right[:1 + k] + bytes([x]) + right[2 + k:], f"R{number}")
            yield added(right[:1 + k] + bytes([x]) + right[2 + k:] + b"\0", "R11")
    # the rule's letters before those of M
    for letters, m, number in (("ajgbc", "h", 5), ("agjbc", "h", 6), ("abcdj", "h", 5), ("abcdg", "j", 6), ("abcde", "j", 5)):
        yield added(step(3, letters, m), f"R{number}")
    yield looked()
    yield added(good)
    yield closed(first, "R13")
    # 6 before 8 before 9 before 10, and letters before all of them
    heavy = vector(many(1, 46) + f"+{LIMIT}(abc)*d")
    yield opened(WHOLE[:14], heavy)
    for rule, letters, m, meant in ((3, "abcde", "(a.a)", "R6"), (1, "abcd", "(abc)*d", "R6"), (2, "abcd", "2147483647(abc)", "R8"), (2, "abcd", "1", "R9"),
                                    (2, "abce", "1", "R10"), (3, "abcdg", "(a.a)", "R6"), (3, "abcdo", "(a.a)", "R5"), (2, "abcd", "2147483647o", "R5"),
                                    (2, "abca", "2147483647", GIVEN), (2, "aabb", "g(e.f)", GIVEN), (2, "abca", "(a.b)(c.d)", "R8")):
        yield added_shortly(step(rule, letters, m), meant)
        yield added(step(rule, letters, m) + b"\0", "R11")
    yield closed(heavy)


def memory():
    """2 comes after 11 of the state and before all else; enough is enough, and what is not written stands."""
    first = vector("(abc)*d")
    for lent in (796, 797, 800, 1000):
        yield opened(TABLE, first, GIVEN, lent)
        for size in (lent, 0, 1, 795):
            meant = GIVEN if size >= STATE else "R2"
            yield added(ONE, meant, size)
            for one in (b"", ONE + b"\0", step(2, "abcj", "1"), step(3, "abcde", "1"), step(2, "abcd", "(abc)"), step(2, "abcd", f"{LIMIT}")):
                if size < STATE:
                    yield added(one, "R2", size)
        for size in (0, 1, 769, 770, 771, 796, 1000):
            yield looked(GIVEN if size >= FORM else "R2", size)
    for buffer, work in itertools.product((0, 71, 72, 73, 255), (0, 55295, 55296, 55297, 65535)):
        yield decided(NOTHING[1], "R2" if buffer < BUFFER or work < WORK else DIFFERS, buffer, work)
    for form, meant in ((b"", "R11"), (NOTHING[0], "R6"), (vector("j*a"), "R5")):
        for buffer, work in ((0, 0), (71, WORK), (BUFFER, 55295), (BUFFER, WORK), (255, 65535)):
            yield decided(form, "R2" if buffer < BUFFER or work < WORK else meant, buffer, work)
    # an assignment of 72 bytes, the whole buffer
    yield opened(bytes([1] * 24), forms.record(1, [(1, (), (23,))]))
    for buffer, work, meant in ((72, 55296, DIFFERS), (71, 55296, "R2"), (72, 55295, "R2"), (255, 65535, DIFFERS)):
        yield decided(vector("a"), meant, buffer, work)
    yield decided(forms.record(1, [(1, (), (23,))]), HOLDS)


# ════ by chance

def any_form(chance, kind, most_terms, fewest=0):
    return forms.record(kind, forms.chosen_form(chance, kind, chance.randint(fewest, most_terms), range(6), range(6, 9), lambda: logs.any_coefficient(chance)))


def one_byte_changed(chance, data):
    """The bytes with one of them changed, left out or put in."""
    at = chance.randrange(len(data) + 1)
    byte = chance.choice((0, 1, 2, 3, 4, 5, 6, 8, 9, 16, 32, 64, 65, 255))
    return data[:at] + chance.choice((b"", bytes([byte]), bytes([byte]), bytes([byte]) + data[at:at + 1])) + data[at + 1:]


def any_call(chance, state, first):
    """A call that could come next in a list with that first form and that state: steps that fit for the most part, forms of equal value and others."""
    _, _, record = cut_state(state)
    kind, terms = logs.gathered(forms.read(record))
    way = chance.random()
    if way < 0.55:
        meets, fits = chance.random() < 0.6, chance.random() < 0.95
        rule, letters, (coef, factors, part) = logs.meeting_step(chance, kind, terms) if meets else logs.any_step(chance, kind if fits else 1 - kind)
        if chance.random() < 0.1:
            coef = chance.choice((-coef, LIMIT, -LIMIT))  # the term that is met is doubled, or goes beyond the limit
        data = logs.step_record(rule, letters, (coef, factors, part))
        return added(one_byte_changed(chance, data) if chance.random() < 0.15 else data, "")
    if way < 0.65:
        return looked("")
    other = chance.choices((first, record, any_form(chance, kind, 2), NOTHING[kind], NOTHING[1 - kind]), (4, 2, 2, 1, 1))[0]
    if chance.random() < 0.3 and other[1]:
        other = decisions.turned(other, chance.randrange(other[1]))
    if chance.random() < 0.15:
        other = one_byte_changed(chance, other)
    return decided(other) if way < 0.82 else closed(record if chance.random() < 0.2 else other, "")


def random_list(chance, most_terms=3, most_calls=9):
    """An opening and calls behind it; an accepted closing ends the list. Now and then a changed state is handed over, and the list goes on with it if it is one."""
    first = any_form(chance, chance.randrange(2), most_terms)
    call = opened(TABLE, one_byte_changed(chance, first) if chance.random() < 0.1 else first, "")
    yield call
    what, _, state = answer(call, b"")
    if what != GIVEN:
        return
    for _ in range(chance.randint(1, most_calls)):
        if chance.random() < 0.06:
            table, count, record = cut_state(state)
            count = chance.choice((count, 63, 64, 65))
            made = one_byte_changed(chance, state) if chance.random() < 0.6 else state_of(table, count, record)
            yield handed_over(made)
            call = any_call(chance, state, first)
            yield call
            if answer(looked(), made)[0] != GIVEN:
                yield handed_over(state)
                continue
            state = made
        else:
            call = any_call(chance, state, first)
            yield call
        what, _, written = answer(call, state)
        if what == ACCEPTED:
            return
        if call.number == ADD and what == GIVEN:
            state = written


def of_the_format():
    """The example of docs/FORMAT.md: the state, the step, and the next state that stands there."""
    document = (pathlib.Path(__file__).resolve().parent.parent / "docs" / "FORMAT.md").read_text()
    state, one, behind = (bytes.fromhex(re.search(rf"(?m)^{key}: (.*)$", document)[1]) for key in ("state", "step", "next"))
    table, count, form = cut_state(state)
    assert answer(added(one), state) == (GIVEN, "", behind), "docs/FORMAT.md: another state"
    yield opened(table, form)
    yield added(one)


def by_chance():
    """Random lists."""
    chance = random.Random(20261118)
    for _ in range(79):
        yield from random_list(chance, 2)


GROUPS = (lines_to_try, each_rule, whole_logs, refused_between, sixty_four_steps, longest, looking_and_deciding, closings, made_up_and_bad, made_up_and_good,
          other_tables, openings, cut_anywhere, steps_in_shape, memory, of_the_format, by_chance)


# ════ the program

# What each call has to show: what it says where nothing is refused, and each refusal for each reason.
SHOWN = {(call, *said.partition("-")[::2]) for call, all_said in (
    (OPEN, "given R1-table R2-memory R11-shape R5-letters R6-letters"),
    (ADD, "given R11-state R2-memory R14-count R11-shape R5-letters R6-letters R6-step R8-step R9-step R10-step"),
    (LOOK, "given R11-state R2-memory"),
    (DECIDE, "holds differs R11-state R2-memory R11-shape R5-letters R6-letters R6-kinds"),
    (CLOSE, "accepted R11-state R11-shape R5-letters R6-letters R13-form")) for said in all_said.split()}


class List:
    """Calls one after the other: the state at hand, and the table, the first form and the steps taken since, as far as it is one."""

    def __init__(self, chance):
        self.chance, self.state, self.whole, self.ended = chance, b"", None, False

    def begin(self, state):
        """A state that was given or handed over begins a list, if it is one."""
        self.state, self.ended = state, False
        try:
            table, _, form = cut_state(state)
            self.whole = table, form, []
        except Refused:
            self.whole = None

    def take(self, one, state):
        table, first, steps = self.whole
        steps.append(one)
        self.state = state
        sigma = [tuple(self.chance.randint(-1000, 1000) for _ in range(3)) for _ in range(24)]
        form = cut_state(state)[2]
        assert expressions.record_value(sigma, form) == expressions.record_value(sigma, first), (first.hex(), form.hex())

    def close(self, what, last):
        """What the closing says is what the checker says of the whole log: accepted, or the number."""
        table, first, steps = self.whole
        said, number, *_ = logs.answer(table, log(first, steps, last))
        assert what == (ACCEPTED if said == "accepted" else f"R{number}"), (table.hex(), log(first, steps, last).hex(), said, number, what)
        self.ended = what == ACCEPTED

    def play(self, call):
        """What the call says, for what reason, and the bytes that it writes."""
        if call.number == HAND_OVER:
            self.begin(call.data)
            return None
        assert call.number == OPEN or not self.ended, "an accepted closing ends the list"
        what, test, written = answer(call, self.state)
        if self.whole is None and call.number != OPEN:
            assert what == "R11"
        elif call.number == CLOSE:
            self.close(what, call.data)
        elif what == GIVEN and call.number == OPEN:
            self.begin(written)
        elif what == GIVEN and call.number in (ADD, ADD_TOLD_SHORT):
            self.take(call.data, written)
        return what, test, written


def main():
    stdin, lines, shown, counts, made = b"", [], set(), collections.Counter(), List(random.Random(5))
    for group in GROUPS:
        before, bytes_before = len(lines), len(stdin)
        for call in group():
            assert len(call.data) <= 1024 or call.number != HAND_OVER, "more than there is room for"
            stdin += bytes([call.number, len(call.table)]) + b"".join(n.to_bytes(2, "big") for n in (len(call.data), call.lent, call.work)) + call.table + call.data
            result = made.play(call)
            if result is None:
                continue
            what, test, written = result
            assert call.meant in ("", what), (group.__name__, len(lines) - before, call, what, test)
            lines.append(line(call, what, written))
            shown.add((ADD if call.number == ADD_TOLD_SHORT else call.number, what, test))
            counts[what] += 1
        print(f"{group.__name__}: {len(lines) - before}, {len(stdin) - bytes_before} bytes")
    assert shown == SHOWN, shown ^ SHOWN
    assert len(stdin) <= 65536, len(stdin)
    home = pathlib.Path(__file__).resolve().parent.parent / "crates" / "open_log_cases"
    home.mkdir(exist_ok=True)
    (home / "stdin").write_bytes(stdin)
    (home / "stdout").write_text("\n".join(lines) + "\n")
    print(f"{len(lines)} calls, {len(stdin)} bytes, {sum(len(x) + 1 for x in lines)} bytes of answers, {dict(sorted(counts.items()))}")


if __name__ == "__main__":
    main()
