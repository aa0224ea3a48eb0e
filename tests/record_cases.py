#!/usr/bin/env python3
"""Cases of form records and their answers, computed from the customer's document alone.

Writes crates/record_cases/stdin (the cases) and crates/record_cases/stdout (the answers).
Nothing here is taken from the engine: a record is taken apart by trying all the ways in
which a form could have been written, not by reading it from left to right.
"""
import itertools
import pathlib
import random

LIMIT = 2147483647


class Term:
    """A coefficient, factors as tuples of letters (1 scalar, 2 dot, 3 triple), a part of 0 to 2 letters."""

    def __init__(self, coef, factors, part):
        self.coef, self.factors, self.part = coef, [tuple(f) for f in factors], tuple(part)


def rank(letters):
    return (len(letters), tuple(letters))


def term_key(t):
    return (rank(t.part), len(t.factors), [rank(f) for f in t.factors])


def valid_term(t):
    if t.coef == 0 or abs(t.coef) > LIMIT:
        return False
    for f in t.factors:
        if len(f) == 2 and f[0] > f[1]:
            return False
        if len(f) == 3 and not f[0] < f[1] < f[2]:
            return False
    if len(t.part) == 2 and t.part[0] >= t.part[1]:
        return False
    ranks = [rank(f) for f in t.factors]
    if ranks != sorted(ranks):
        return False
    vectors = sum(len(f) for f in t.factors if len(f) > 1) + len(t.part)
    return vectors <= 6 and sum(1 for f in t.factors if len(f) == 1) <= 2


def term_bytes(t):
    bits, body = 0, b""
    if t.coef != 1:
        bits |= 1
        body += (t.coef % (1 << 32)).to_bytes(4, "big")
    for size in (1, 2, 3):
        some = [f for f in t.factors if len(f) == size]
        if some:
            bits |= 1 << size
            body += bytes([len(some)]) + bytes(x for f in some for x in f)
    bits |= {0: 0, 1: 16, 2: 32}[len(t.part)]
    return bytes([bits]) + body + bytes(t.part)


def form_bytes(kind, terms):
    return bytes([kind, len(terms)]) + b"".join(term_bytes(t) for t in terms)


def candidates(data):
    """Every term whose record could begin the bytes: the fields are cut out by the bit map, then written again."""
    if not data:
        return
    bits, rest = data[0], data[1:]
    coefs = [1]
    if bits & 1:
        coefs = [int.from_bytes(rest[:4], "big", signed=True)]
        rest = rest[4:]
    factors = []
    for size in (1, 2, 3):
        if bits >> size & 1:
            if not rest:
                return
            count, rest = rest[0], rest[1:]
            letters, rest = rest[: count * size], rest[count * size:]
            factors += [tuple(letters[i: i + size]) for i in range(0, len(letters), size)]
    for n in range(3):
        for coef in coefs:
            yield Term(coef, factors, rest[:n])


def read_form(data):
    """The one form in shape whose record the bytes are, or None."""
    if len(data) < 2 or data[0] > 1 or data[1] > 48:
        return None
    kind, count, rest, terms = data[0], data[1], data[2:], []
    for _ in range(count):
        found = None
        for t in candidates(rest):
            if valid_term(t) and rest.startswith(term_bytes(t)):
                found = t
        if found is None:
            return None
        rest = rest[len(term_bytes(found)):]
        terms.append(found)
    if rest:
        return None
    if any((len(t.part) > 0) != (kind == 1) for t in terms):
        return None
    keys = [term_key(t) for t in terms]
    if any(not a < b for a, b in zip(keys, keys[1:])):
        return None
    return kind, terms


def letters_refusal(table, terms):
    for t in terms:
        wanted = [(x, 0 if len(f) == 1 else 1) for f in t.factors for x in f] + [(x, 1) for x in t.part]
        for x, kind in wanted:
            if x >= len(table):
                return 5
            if table[x] != kind:
                return 6
    return 0


def answer(table, data):
    table_code = 0 if 1 <= len(table) <= 24 and all(b <= 1 for b in table) else 1
    form = read_form(data)
    if form is None:
        return f"{table_code} 11"
    code = letters_refusal(table, form[1])
    if code:
        return f"{table_code} {code}"
    return f"{table_code} 0 {form_bytes(*form).hex()}"


VECTORS = bytes([1] * 20 + [0] * 4)
FEW = bytes([1, 1, 1, 0])


def cases():
    example = bytes.fromhex("010125FFFFFFFE0100010203")
    yield VECTORS, example
    for cut in range(len(example)):
        yield VECTORS, example[:cut]
    yield VECTORS, example + b"\0"
    for i, b in itertools.product(range(len(example)), (0, 1, 2, 4, 16, 32, 63, 64, 128, 255)):
        yield VECTORS, example[:i] + bytes([b]) + example[i + 1:]
    # every bit map with the fields whose bits stand; where bits 4 and 5 stand together also with the letter alone and with the wedge alone
    fields = (b"\xff\xff\xff\xfb", b"\1\3", b"\1\0\1", b"\1\0\1\2")
    for bits in range(256):
        body = b"".join(f for i, f in enumerate(fields) if bits >> i & 1)
        for part in {0: (b"",), 16: (b"\1",), 32: (b"\0\2",), 48: (b"\0", b"\0\1", b"\1\0\2")}[bits & 48]:
            yield FEW, bytes([int(bits & 48 != 0), 1, bits]) + body + part
    # no terms of a kind that there is not, counts of 0 whose letters are missing or stand
    for kind in (2, 3, 16, 128, 255):
        yield FEW, bytes([kind, 0])
    for bits, letters in ((2, b"\3"), (4, b"\0\1"), (8, b"\0\1\2")):
        for body in (b"\0", b"\0" + letters):
            yield FEW, bytes([0, 1, bits]) + body
            yield FEW, bytes([1, 1, bits | 16]) + body + b"\1"
    # tables
    for table in (b"", b"\0", b"\1", bytes(24), bytes(25), bytes([1, 2]), bytes([0, 1, 255]), bytes([1] * 24)):
        yield table, form_bytes(0, [])
        yield table, example
    # no terms, the constant, the limits of a coefficient
    yield VECTORS, form_bytes(0, [])
    yield VECTORS, form_bytes(1, [])
    for coef in (0, 1, -1, 2, LIMIT, -LIMIT, LIMIT + 1 - (1 << 32)):
        yield VECTORS, form_bytes(0, [Term(coef, [], ())])
        yield VECTORS, bytes([0, 1, 1]) + (coef % (1 << 32)).to_bytes(4, "big")
    # letters: at most 6 vector letters and 2 scalar letters, in every split
    scalars = [(20,), (21,), (22,)]
    for s, d, t, p in itertools.product(range(4), range(5), range(4), range(3)):
        factors = scalars[:s] + [(i, i) for i in range(d)] + [(i, i + 1, i + 2) for i in range(t)]
        yield VECTORS, form_bytes(1 if p else 0, [Term(7, factors, range(p))])
    # order inside and of factors, equal ones kept
    for f in itertools.product(range(3), repeat=2):
        yield VECTORS, form_bytes(0, [Term(1, [f], ())])
        yield VECTORS, form_bytes(1, [Term(1, [], f)])
    for f in itertools.product(range(3), repeat=3):
        yield VECTORS, form_bytes(0, [Term(1, [f], ())])
    for a, b in itertools.product([(0, 1), (0, 2), (1, 1)], repeat=2):
        yield VECTORS, form_bytes(0, [Term(1, [a, b], ())])
    # order of terms: every pair of some, equal ones too; kinds
    some = [Term(1, [], ()), Term(1, [(20,)], ()), Term(1, [(21,)], ()), Term(1, [(0, 1)], ()), Term(2, [(20,), (20,)], ()),
            Term(1, [(0, 1, 2)], ()), Term(1, [(20,), (0, 1)], ()), Term(1, [(1, 1), (1, 1)], ()),
            Term(1, [], (0,)), Term(1, [], (5,)), Term(3, [(20,)], (0,)), Term(1, [], (0, 1)), Term(-1, [(0, 0)], (0, 1))]
    for kind, a, b in itertools.product(range(3), some, some):
        yield VECTORS, form_bytes(kind, [a, b])
    # letters absent or of the wrong kind, the first in byte order decides
    for f in ([(24,)], [(0,)], [(20,), (24,)], [(19, 20)], [(0, 24)], [(0, 1, 23)], [(20, 24)], [(18, 19, 200)], [(255,)], [(255, 255)]):
        yield VECTORS, form_bytes(0, [Term(1, f, ())])
        yield bytes([1]), form_bytes(0, [Term(1, f, ())])
    for p in ((20,), (24,), (3, 20), (20, 24), (19,)):
        yield VECTORS, form_bytes(1, [Term(1, [], p)])
    # 48 terms, 49 terms, and 770 bytes: the longest record
    longest = sorted((Term(-5 - i, [(20,), (21,), (d, e), (a, b, c)], (f,)) for i, (a, b, c, d, e, f) in enumerate(
        (a, a + 1, a + 2, d, d, f) for a in range(4) for d in range(4) for f in range(3))), key=term_key)
    wide = sorted((Term(-5 - i, [(20,), (21,), (a, b), (c, d)], (0, 1 + i)) for i, (a, b, c, d) in enumerate(
        (a, a, a, a + 1) for a in range(12))), key=term_key)
    yield VECTORS, form_bytes(1, longest)
    yield VECTORS, form_bytes(1, wide)
    many = sorted((Term(9, [(20,), (21,), (a, b, c), (d, e, f)], ()) for (a, b, c), (d, e, f) in itertools.combinations(
        list(itertools.combinations(range(6), 3)), 2)), key=term_key)[:49]
    yield VECTORS, form_bytes(0, many[:48])
    yield VECTORS, form_bytes(0, many)
    full = sorted((Term(-2, [(20,), (20,), (a, b), (c, d)], (e, e + 1)) for (a, b), (c, d) in itertools.combinations(
        list(itertools.combinations(range(5), 2)), 2) for e in range(2)), key=term_key)[:48]
    yield VECTORS, form_bytes(1, full)
    assert len(longest) == 48 and len(form_bytes(1, longest)) == 770
    # damage by chance
    chance = random.Random(20261115)
    for data in (form_bytes(1, wide[:3]), form_bytes(0, many[:3]), form_bytes(1, longest[:2])):
        for _ in range(60):
            broken = bytearray(data)
            broken[chance.randrange(len(broken))] = chance.randrange(256)
            yield VECTORS, bytes(broken)


def main():
    stdin, lines = b"", []
    for table, data in cases():
        stdin += bytes([len(table)]) + table + len(data).to_bytes(2, "big") + data
        lines.append(answer(table, data))
    assert len(stdin) <= 65536, len(stdin)
    home = pathlib.Path(__file__).resolve().parent.parent / "crates" / "record_cases"
    (home / "stdin").write_bytes(stdin)
    (home / "stdout").write_text("\n".join(lines) + "\n")
    longest = max(len(line.split()[2]) // 2 for line in lines if len(line.split()) == 3)
    print(f"{len(lines)} cases, {len(stdin)} bytes, longest record taken {longest} bytes")


if __name__ == "__main__":
    main()
