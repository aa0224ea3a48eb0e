#!/usr/bin/env python3
"""Inputs of the printer and what it prints, computed from the customer's document alone.

Writes crates/printer_cases/stdin (the cases) and crates/printer_cases/stdout (the lines).
A case is the length of an input (two bytes) and the input: the length of a table, the table, an expression.

Nothing here is taken from the engine. The forms come from tests/reduction_cases.py; the text is put
together here, a term at a time, from the record that was written.
"""
import pathlib

from reduction_cases import (
    A, B, C, D, E, F, G, SMALL, WIDE, ZERO, NOTHING, FIVE, Refused, add, chain, constant, demand, dotted, letter,
    lines_to_try, many, neg, read, record, sub, terms_of, times, total, triple, wedged, work,
)


def name(n):
    return "abcdefghijklmnopqrstuvwx"[n]


def factor(f):
    names = [name(n) for n in f]
    return names[0] if len(f) == 1 else "(" + (".".join(names) if len(f) == 2 else "".join(names)) + ")"


def term(coef, factors, part):
    """The text of a term without its sign."""
    scalars = "".join(factor(f) for f in factors)
    vector = "" if not part else name(part[0]) if len(part) == 1 else f"({name(part[0])}^{name(part[1])})"
    size = str(abs(coef)) if abs(coef) != 1 or scalars + vector == "" else ""
    front = size + scalars
    return front + ("*" if front and vector else "") + vector


def text(terms):
    if not terms:
        return "0"
    line = "".join(("-" if coef < 0 else "+") + term(coef, factors, part) for coef, factors, part in terms)
    return line.removeprefix("+")


def printed(data):
    try:
        demand(data and len(data) > data[0], 1)
        table, expression = data[1: 1 + data[0]], data[1 + data[0]:]
        demand(1 <= len(table) <= 24 and all(b <= 1 for b in table), 1)
        return text(terms_of(record(*work(table, read(table, expression)))))
    except Refused as refusal:
        return f"R{refusal.args[0]}"


def whole(table, expression):
    return bytes([len(table)]) + table + expression


# The longest text: 48 terms, each a sign, ten digits, two scalar letters, two dots, a star and a wedge.
LONGEST = whole(WIDE, times(total([wedged(letter(i), letter(j)) for i in range(6) for j in range(i + 1, 6)][:8]),
                            times(constant(-2147483647), times(times(letter(12), dotted(letter(0), letter(1))), times(dotted(letter(2), letter(3)), total([letter(13 + i) for i in range(6)]))))))


def refused(both):
    """An input for each refusal that reduction gives, and both for 3 by length and for 9, if so."""
    yield whole(SMALL, chain(16, A))                                   # 3, too deep
    if both:
        yield whole(SMALL, add(constant(0), constant(0)) + bytes(502))  # 3, too long
    yield whole(SMALL, bytes(600))                                     # 3, beyond what is read
    yield whole(SMALL, b"")                                            # 4
    yield whole(SMALL, A + b"\x00")                                    # 4
    yield whole(SMALL, letter(7))                                      # 5
    yield whole(SMALL, add(A, E))                                      # 6
    yield whole(WIDE, times(many(12, 7), many(0, 7)))                  # 7
    yield whole(SMALL, times(FIVE, dotted(A, A)))                      # 8
    yield whole(SMALL, times(constant(46341), constant(46341)))        # 9
    if both:
        yield whole(SMALL, constant(-2147483648))                      # 9
    yield whole(WIDE, add(times(many(12, 6), many(0, 8)), A))          # 10


def inputs():
    yield bytes.fromhex("03010101 08010008 01010102")
    # the table: missing, cut, empty, too long, of another kind
    for data in (b"", b"\x00", b"\x01", b"\x03\x01\x01", b"\x18" + bytes(23), b"\x19" + bytes(25) + A, b"\xff" * 600, b"\x01\x02" + A, b"\x02\x01\x01"):
        yield data
    yield b"\x18" + WIDE + letter(23)
    # the empty form of each kind, the constants 1 and -1, coefficients beside scalar letters and vectors
    for x in (ZERO, NOTHING, sub(A, A), constant(1), constant(-1), constant(7), constant(-7), constant(2147483647), constant(-2147483647)):
        yield whole(SMALL, x)
    two, less = constant(2), constant(-2)
    for x in (A, neg(A), times(two, A), times(less, A), E, neg(E), times(two, E), times(less, E), times(E, F), times(two, times(E, F)), times(E, A), times(less, times(times(E, F), A)),
              dotted(A, B), neg(dotted(A, B)), times(two, dotted(A, B)), times(dotted(A, B), dotted(C, D)), times(less, times(dotted(A, B), wedged(C, D))), wedged(A, B), wedged(B, A),
              times(two, wedged(A, B)), triple(A, B, C), triple(C, B, A), times(triple(A, B, C), D), times(triple(A, B, C), triple(B, C, D)), times(E, triple(A, B, C)),
              add(E, constant(1)), sub(E, constant(1)), add(constant(1), dotted(A, A)), times(times(E, E), dotted(A, A)), add(A, wedged(B, C)), sub(wedged(A, B), A),
              times(constant(2147483647), times(times(E, G), times(times(dotted(A, B), dotted(C, D)), wedged(A, C)))), times(E, wedged(A, B)), neg(times(E, A))):
        yield whole(SMALL, x)
    # K4: the customer's zero, and the same with another letter
    yield whole(SMALL, wedged(FIVE, times(dotted(B, B), A)))
    yield whole(SMALL, wedged(FIVE, times(dotted(B, B), C)))
    # every line to try
    for table, x in lines_to_try():
        yield whole(table, x)
    yield from refused(True)
    yield whole(WIDE, times(many(12, 6), many(0, 8)))              # 48 terms
    yield LONGEST


def main():
    home = pathlib.Path(__file__).resolve().parent.parent / "crates" / "printer_cases"
    data = list(inputs())
    lines = [printed(x) for x in data]
    stdin = b"".join(len(x).to_bytes(2, "big") + x for x in data)
    assert len(stdin) <= 65536
    for number in (1, 3, 4, 5, 6, 7, 8, 9, 10):
        assert f"R{number}" in lines, number
    (home / "stdin").write_bytes(stdin)
    (home / "stdout").write_text("".join(line + "\n" for line in lines))
    print(f"{len(lines)} inputs, {len(stdin)} bytes, longest line {max(map(len, lines))}")


if __name__ == "__main__":
    main()
