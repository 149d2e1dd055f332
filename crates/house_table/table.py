#!/usr/bin/env python3
"""table.py: writes the constant of src/lib.rt to standard output.
table.py --check: compares the entries of src/lib.rt with the rule, and says how near the series comes to a tie.

Entry i, from -512 to 512, is the double nearest the series for e^(i/128), summed through its 40th power as an exact fraction. The rounding is
done on whole numbers; a literal is the shortest decimal that reads as its double. The proof of `table` computes the rule a second time, from
specs/House, and compares it with the literals' bits, so nothing rests on this program: it names a wrong entry, which the proof does not.
"""
import hashlib
import pathlib
import re
import struct
import sys
from fractions import Fraction


def series(i):
    """The series for e^(i/128), terms 0 to 40."""
    x, term, total = Fraction(i, 128), Fraction(1), Fraction(0)
    for k in range(41):
        total += term
        term = term * x / (k + 1)
    return total


def nearest(q):
    """The double nearest q, a fraction above zero in the normal range, and how far q is from a tie, in last places."""
    e = 0
    while q >= 2**53:
        q, e = q / 2, e + 1
    while q < 2**52:
        q, e = q * 2, e - 1
    m = q.numerator // q.denominator
    rest = q - m
    assert rest != Fraction(1, 2), "a tie"
    return float(m + (rest > Fraction(1, 2))) * 2.0**e, abs(rest - Fraction(1, 2))


def packed(entries):
    return struct.pack(f"<{len(entries)}d", *entries)


def check(table, tie):
    text = (pathlib.Path(__file__).parent / "src/lib.rt").read_text()
    body = text[text.index("[f64; 1025] = [") + 15 :]
    have = [float(word) for word in re.findall(r"[0-9][0-9.e-]*", body[: body.index("]")])]
    wrong = [p - 512 for p, (a, b) in enumerate(zip(have, table)) if packed([a]) != packed([b])]
    print(f"{len(have)} entries, {len(wrong)} differ {wrong[:9]}; SHA-256 {hashlib.sha256(packed(have)).hexdigest()}")
    print(f"nearest to a tie: {float(tie):.6f} of a last place")
    return bool(wrong) or len(have) != 1025


rows = [nearest(series(i)) for i in range(-512, 513)]
table = [x for x, _ in rows]
assert all(a < b for a, b in zip(table, table[1:])) and table[512] == 1.0 and all(float(repr(x)) == x for x in table)

if sys.argv[1:] == ["--check"]:
    sys.exit(check(table, min(d for _, d in rows)))
print("const ENTRIES: [f64; 1025] = [")
for x in table:
    print(f"    {x!r},")
print("];")
