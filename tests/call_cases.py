#!/usr/bin/env python3
"""Cases of the calls for C and of the audit, and their answers, computed from the customer's documents alone.

Writes crates/call_cases/stdin (the cases) and crates/call_cases/stdout (the answers).
A case begins with 12 bytes: the number of the call (one byte), the lengths of a table (one byte) and of two inputs (two
bytes each), and how much is lent of three parts of memory (two bytes each); then come the table and the inputs. For
insertion, which writes into one part of memory, the second of the three numbers is the letter. The answer of a case is a
line: the number that the call returns, and behind it what the memory lent holds, each number lent being 170 before, or the
assignment that the decision handed over. Where document 01 leaves the memory open, the program itself says what is wrong
with it; then the line has nothing more, or the terms of the first and of the last form of the log that shortening wrote.

Nothing here is taken from the engine: the answers are those of the programs beside this one, each of which computes one
call in its own way. Here they become numbers returned, with the tests of the table and of the memory lent before them.
"""
import collections
import itertools
import pathlib
import random
import re

import check_cases as logs
import decision_cases as decisions
import insertion_cases as insertions
import reduction_cases as expressions
import shortening_cases as shortenings
import value_cases as forms
from check_cases import NOTHING, TABLE, scalar, vector
from decision_cases import BUFFER, WORK
from insertion_cases import ROOM
from reduction_cases import Refused
from shortening_cases import LENT

VALUE, REDUCE, CHECK, DECIDE, SHORTEN, AUDIT, INSERT = CALLS = range(1, 8)
NUMBER = 170

# The refusals that each call has to show, and that something is given.
SHOWN = {VALUE: {0, 1, 2, 5, 6, 11, 12}, REDUCE: {0, *range(1, 11)}, CHECK: {0, 1, 2, 5, 6, 8, 9, 10, 11, 13}, DECIDE: {0, 1, 2, 5, 6, 11},
         SHORTEN: {0, 1, 2, 5, 6, 11}, AUDIT: {0, 1, 2, 5, 6, 11}, INSERT: {0, 1, 2, *range(5, 12)}}


# ════ answers: the number of the refusal, or 0, and the line

def table_good(table):
    return 1 <= len(table) <= 24 and max(table) <= 1


def early(table, enough):
    """1 before 2, and both before contents."""
    return 1 if not table_good(table) else 0 if enough else 2


def spaced(*numbers):
    return " ".join(map(str, numbers))


def number_of(line):
    return int(line[1:]) if line[0] == "R" else 0


def value_answer(table, form, assignment, lent, *_):
    number = early(table, lent >= 3)
    line = "" if number else forms.answer(table, form, assignment)
    number = number or number_of(line)
    return number, spaced(-number, *[NUMBER] * lent) if number else spaced(0, line, *[NUMBER] * (lent - 3))


def reduce_answer(table, expression, _, lent, *__):
    number = early(table, lent >= ROOM)
    try:
        out = b"" if number else expressions.record(*expressions.work(table, expressions.read(table, expression)))
    except Refused as refusal:
        number = refusal.args[0]
    return number, f"-{number}" if number else f"{len(out)} {out.hex()}"


def check_answer(table, log, _, lent, *__):
    number, step = early(table, lent >= 3), 0
    if not number:
        what, *numbers = logs.answer(table, log)
        if what == "accepted":
            return 0, spaced(0, *numbers, *[NUMBER] * (lent - 3))
        number, step = numbers
    return number, spaced(-256 * number - step, *[NUMBER] * lent)


def decide_answer(table, first, second, _, buffer, work):
    line = decisions.answer(table, first, second, buffer, work)
    number = number_of(line)
    return number, f"-{number}" if number else line.replace(decisions.HOLDS, "0").replace(decisions.DIFFERS, "1")


def shorten_answer(table, form, _, lent, steps, *__):
    number = early(table, steps >= 1)
    line = "" if number else shortenings.answer(table, form, lent)
    if line is None:
        return None
    number = number or number_of(line)
    return number, spaced(-number, *[NUMBER] * steps) if number else spaced(line, *[NUMBER] * (steps - 1))


def audit_answer(table, form, _, lent, buffer, work):
    number = early(table, buffer >= BUFFER and work >= WORK)
    line = f"R{number}" if number else shortenings.answer(table, form, lent)
    if line is None:
        return None
    return number_of(line), line if line[0] == "R" else f"agreed {line}"


def insert_answer(table, form, inserted, lent, letter, *_):
    out = insertions.inserted_form(table, form, letter, inserted, lent)
    return (out, f"-{out}") if isinstance(out, int) else (0, f"{len(out)} {out.hex()}")


ANSWERS = {VALUE: value_answer, REDUCE: reduce_answer, CHECK: check_answer, DECIDE: decide_answer, SHORTEN: shorten_answer, AUDIT: audit_answer,
           INSERT: insert_answer}


# ════ cases: the call, the table, two inputs, what is lent

def spread(cases, most, longest=300):
    """Of the cases with each number some, taken evenly; long ones are left out, but for the longest that is taken."""
    by_number, given = collections.defaultdict(list), []
    for case in cases:
        answer = ANSWERS[case[0]](*case[1:])
        if answer is None:
            continue
        if answer[0] == 0:
            given.append(case)
        if len(case[2]) + len(case[3]) <= longest:
            by_number[answer[0]].append(case)
    for number, some in sorted(by_number.items()):
        yield from some[::-(-len(some) // most.get(number, 2))]
    yield max(given, key=lambda case: len(case[2]) + len(case[3]))


def values():
    yield from spread([(VALUE, *case, 3, 0, 0) for case in forms.cases()], {0: 12})
    table, form, assignment = forms.TABLE, bytes.fromhex("010125FFFFFFFE0100010203"), bytes([1, 254, 3, 252, 5, 250, 2, 0, 255, 6, 253, 1, 251, 4, 2, 250, 0, 0, 3, 0, 0])
    for some, data, numbers, lent in itertools.product((table, table + b"\2"), (form, form[:-1]), (assignment, assignment[:-1]), (2, 3)):
        yield VALUE, some, data, numbers, lent, 0, 0


def reductions():
    yield from spread([(REDUCE, table, data, b"", ROOM, 0, 0) for table, data, _ in expressions.cases()], {0: 12})
    wedges = bytes.fromhex("0801000801010102")
    for table, data, lent in itertools.product((TABLE, TABLE + b"\2"), (wedges, wedges[:-1], wedges[:-1] + b"\x09"), (0, ROOM - 1, ROOM + 1)):
        yield REDUCE, table, data, b"", lent, 0, 0
    for table, data in itertools.islice(expressions.by_chance(random.Random(20261116)), 36):
        yield REDUCE, table, data, b"", ROOM, 0, 0


def logs_to_check():
    yield from spread([(CHECK, table, data, b"", 3, 0, 0) for group in logs.GROUPS for table, data, _ in group()], {0: 12, 13: 4})
    first = vector("(bcd)*a-(acd)*b+(abd)*c-(abc)*d")
    step = logs.step(2, "abcd", "1")
    for table, last, lent in itertools.product((TABLE, TABLE + b"\2"), (NOTHING[1], first, first[:-1]), (2, 3)):
        yield CHECK, table, logs.log(first, [step], last), b"", lent, 0, 0


def decided():
    yield from spread([(DECIDE, table, first, second, 0, *(lent or (BUFFER, WORK))) for group in decisions.GROUPS for table, first, second, _, *lent in group()], {0: 16})
    for table, second, lent in itertools.product((TABLE, TABLE + b"\2"), (scalar("g"), scalar("h"), vector("a"), b"\0"), ((BUFFER - 1, WORK), (BUFFER, WORK - 1), (BUFFER + 1, WORK + 1))):
        yield DECIDE, table, scalar("g"), second, 0, *lent
    for table, first, second, meant in decisions.aside():
        assert decisions.answer(table, first, second, BUFFER, WORK).startswith(meant), (table.hex(), first.hex(), second.hex())
        yield DECIDE, table, first, second, 0, BUFFER, WORK


def forms_to_shorten():
    """Tables and forms of every group but the largest, with the bytes lent for the log."""
    left_out = (shortenings.full_forms, shortenings.by_chance, shortenings.every_difference, shortenings.some_terms)
    for group in shortenings.GROUPS:
        if group not in left_out:
            for table, data, _, *lent in group():
                yield table, data, lent[0] if lent else LENT


def shortened():
    yield from spread([(SHORTEN, table, data, b"", lent, 1, 0) for table, data, lent in forms_to_shorten()], {0: 12})
    for table, data, lent, steps in itertools.product((TABLE, TABLE + b"\2"), (vector("(bcd)*a-(acd)*b+(abd)*c-(abc)*d"), b"\1"), (LENT - 1, LENT + 9), (0, 1)):
        yield SHORTEN, table, data, b"", lent, steps, 0
    for table, data, meant, *lent in shortenings.aside():
        lent = lent[0] if lent else LENT
        line = shortenings.answer(table, data, lent)
        assert meant in ("", line), (table.hex(), data.hex(), line, meant)
        if line is not None:
            yield SHORTEN, table, data, b"", lent, 1, 0


def audited():
    yield from spread([(AUDIT, table, data, b"", lent, BUFFER, WORK) for table, data, lent in forms_to_shorten()], {0: 12})
    short = ((LENT - 1, BUFFER, WORK), (LENT, BUFFER - 1, WORK), (LENT, BUFFER, WORK - 1), (LENT + 1, BUFFER + 1, WORK + 1))
    for table, data, lent in itertools.product((TABLE, TABLE + b"\2"), (vector("(bcd)*a-(acd)*b+(abd)*c-(abc)*d"), b"\1"), short):
        yield AUDIT, table, data, b"", *lent


def inserted():
    groups = [group for group in insertions.GROUPS if group not in (insertions.full_forms, insertions.by_chance)]
    yield from spread([(INSERT, table, form, insert, ROOM, letter, 0) for group in groups for table, form, letter, insert, _ in group()], {0: 8})
    for table, form, lent in itertools.product((TABLE, TABLE + b"\2"), (scalar("(a.a)"), b"\1"), (0, ROOM - 1, ROOM + 1)):
        yield INSERT, table, form, vector("b-2c"), lent, 0, 0


def examples():
    """The examples of docs/FORMAT.md, but for open logs, whose answers must be those that stand there."""
    document = (pathlib.Path(__file__).resolve().parent.parent / "docs" / "FORMAT.md").read_text()
    blocks = [dict(line.split(": ", 1) for line in block.strip().split("\n")) for block in re.findall(r"(?m)^```\n((?:[a-z]+: .*\n)+)```$", document)
              if not block.startswith("state: ")]
    keys = {"table", "expression", "form", "assignment", "value", "first", "second", "decision", "log", "answer"}
    assert {key for block in blocks for key in block} == keys, "an example of each sort"
    for block in blocks:
        data = {key: bytes.fromhex(block[key]) for key in block if key not in ("value", "decision", "answer")}
        if "log" in block:
            case, answer = (CHECK, data["table"], data["log"], b"", 3, 0, 0), block["answer"]
            number, line = check_answer(*case[1:])
            assert answer == (f"R{number} {(-int(line.split()[0])) % 256}" if number else f"accepted {line[2:]}"), (answer, line)
        elif "value" in block:
            case = (VALUE, data["table"], data["form"], data["assignment"], 3, 0, 0)
            assert value_answer(*case[1:])[1] == f"0 {block['value']}", block
        elif "decision" in block:
            case = (DECIDE, data["table"], data["first"], data["second"], 0, BUFFER, WORK)
            verdict, *numbers = block["decision"].split(" ", 1)
            assert decisions.answer(data["table"], data["first"], data["second"], BUFFER, WORK) == " ".join([verdict, *(bytes.fromhex(n).hex() for n in numbers)]), block
        else:
            case = (REDUCE, data["table"], data["expression"], b"", ROOM, 0, 0)
            assert reduce_answer(*case[1:])[1].split()[1] == data["form"].hex(), block
        yield case


GROUPS = (values, reductions, logs_to_check, decided, shortened, audited, examples, inserted)


# ════ the program

def main():
    stdin, lines, shown = b"", [], {call: set() for call in CALLS}
    for group in GROUPS:
        before = len(lines)
        for call, table, first, second, *lent in group():
            number, line = ANSWERS[call](table, first, second, *lent)
            shown[call].add(number)
            stdin += bytes([call, len(table)]) + b"".join(n.to_bytes(2, "big") for n in (len(first), len(second), *lent)) + table + first + second
            lines.append(line)
        print(f"{group.__name__}: {len(lines) - before}")
    assert shown == SHOWN, shown
    assert len(stdin) <= 65536, len(stdin)
    home = pathlib.Path(__file__).resolve().parent.parent / "crates" / "call_cases"
    (home / "stdin").write_bytes(stdin)
    (home / "stdout").write_text("\n".join(lines) + "\n")
    print(f"{len(lines)} cases, {len(stdin)} bytes")


if __name__ == "__main__":
    main()
