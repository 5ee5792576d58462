#!/usr/bin/env python3
"""Derives the tables of crates/aes/src/tables.rt from the definitions of two fields, and compares.

usage: python3 tools/aes_tables.py      at the top of the repository

Prints each table that differs, and ends with status 1 if one does. The gate does not run it, and nothing rests on it: that the tables do
what AES asks for is proved in crates/aes/proofs/EachByte.antt, at all 256 bytes. The script shows where the tables come from. The letters are
those at the head of crates/aes/src/tower.rt, which says why the inverse is found in this way. Specs and proofs cite the tables of tables.rt by
name, so there is no other copy of them; the script makes sure that there is none.
"""

import pathlib
import re
import sys

CRATE = pathlib.Path(__file__).resolve().parent.parent / "crates" / "aes"
NONE = 128  # stands for no element: 1/0

# ---- the field of AES: bytes as polynomials modulo x^8 + x^4 + x^3 + x + 1


def mul(a, b):
    product = 0
    while b:
        if b & 1:
            product ^= a
        a = a << 1 ^ (0x11B if a & 0x80 else 0)
        b >>= 1
    return product


def inverse(b):
    return next((c for c in range(256) if mul(b, c) == 1), 0)


def turned(b, places):
    return (b << places | b >> 8 - places) & 0xFF


def affine(b):
    """The affine map of SubBytes, but for its constant."""
    return b ^ turned(b, 1) ^ turned(b, 2) ^ turned(b, 3) ^ turned(b, 4)


def unaffine(b):
    """The inverse of the affine map, but for its constant."""
    return turned(b, 1) ^ turned(b, 3) ^ turned(b, 6)


AFFINE, UNAFFINE = 0x63, 0x05  # the two constants

# ---- the field of sixteen elements: bits stand for 1, x, x^2, x^4, where x^4 = x^3 + x^2 + x + 1

POWERS = [1, 2, 4, 15, 8]  # x^0 to x^4; x^5 is 1
BITS = [0, 1, 2, 4]  # the power of x that each bit stands for


def small_mul(a, b):
    product = 0
    for i in range(4):
        for j in range(4):
            if a >> i & 1 and b >> j & 1:
                product ^= POWERS[(BITS[i] + BITS[j]) % 5]
    return product


def over(a, b):
    """a over b; none if b is 0."""
    return next((c for c in range(16) if small_mul(b, c) == a), NONE) if b else NONE


# ---- the tower: the byte with the halves i and k is i + k t, where t^2 = t + 14


def tower_mul(y, z):
    i, k, m, n = y >> 4, y & 15, z >> 4, z & 15
    square = small_mul(k, n)
    return (small_mul(i, m) ^ small_mul(14, square)) << 4 | small_mul(i, n) ^ small_mul(k, m) ^ square


def element(i, k):
    return i << 4 | k


def into_field(b):
    """f: the power x^n of the field of AES goes to the power 166^n of the tower."""
    image, power = 0, element(1, 0)
    for bit in range(8):
        if b >> bit & 1:
            image ^= power
        power = tower_mul(power, 166)
    return image


def in_tower(b):
    """The byte of a state in the tower: 7 f(b)."""
    return tower_mul(element(7, 0), into_field(b))


BYTE = {in_tower(b): b for b in range(256)}
BYTE_OF_FIELD = {into_field(b): b for b in range(256)}

# ---- the tables


def by_halves(linear):
    return {"low": [linear(n) for n in range(16)], "high": [linear(16 * n) for n in range(16)]}


def by_inverse(linear):
    """The tables of a linear map of the byte 1/b, where 7 f(b) was inverted: y = 7 f(b), so f(1/b) = 7/y."""

    def entry(numerator, place):
        if place == 0:
            return 0
        part = tower_mul(numerator, element(over(1, place), 0))
        return linear(BYTE_OF_FIELD[tower_mul(element(7, 0), part)])

    return {
        "by_i": [entry(element(14, 1), p) for p in range(16)],
        "by_j": [entry(element(15, 1), p) for p in range(16)],
    }


def rows(shift):
    """For each place, in row r of column c, the places of the rows r to r + 3 of the column that `shift` gives."""
    names = ["SAME_ROW", "NEXT_ROW", "SECOND_ROW", "THIRD_ROW"]
    places = [(r, c) for c in range(4) for r in range(4)]
    return {n: [(r + d) % 4 + 4 * shift(r, (r + d) % 4, c) for r, c in places] for d, n in enumerate(names)}


def derived():
    tables = {
        "INVERSES": [over(1, a) for a in range(16)],
        "SEVEN_OVER": [over(7, a) for a in range(16)],
        "AFFINE_CONSTANT": AFFINE,
        "UNAFFINE_CONSTANT": in_tower(UNAFFINE),
        "HALF": 4,
        "LOWER_HALF": 15,
    }
    pairs = {
        "INTO_TOWER": by_halves(in_tower),
        "OUT_OF_TOWER": by_halves(BYTE.get),
        "SUBSTITUTED": by_inverse(affine),
        "SUBSTITUTED_IN_TOWER": by_inverse(lambda b: in_tower(affine(b))),
        "DOUBLED_IN_TOWER": by_inverse(lambda b: in_tower(mul(2, affine(b)))),
        "UNAFFINE": by_halves(lambda b: in_tower(unaffine(b))),
        "UNSUBSTITUTED": by_inverse(lambda b: b),
        # ShiftRows takes row r of column c from column c + r; InvShiftRows from column c - r
        "SHIFTED": rows(lambda to, row, c: (c + row) % 4),
        "UNSHIFTED": rows(lambda to, row, c: (c - to) % 4),
    }
    for m in (14, 11, 13, 9):
        pairs[f"UNAFFINE_{m}"] = by_halves(lambda b: in_tower(unaffine(mul(m, b))))
        pairs[f"UNSUBSTITUTED_{m}"] = by_inverse(lambda b: in_tower(unaffine(mul(m, b))))
    for name, parts in pairs.items():
        for part, table in parts.items():
            tables[f"{name}_{part}" if part.isupper() else f"{name}.{part}"] = table
    return tables


def written(text):
    """The constants of a source file, by name, and those of a struct by NAME.field."""
    text = re.sub(r"//.*", "", text)
    found = {}
    for name, value in re.findall(r"const (\w+): [^=]*= ([^;]*);", text):
        if "{" in value:
            for field, table in re.findall(r"(\w+): \[([^\]]*)\]", value):
                found[f"{name}.{field}"] = [int(n) for n in re.findall(r"\d+", table)]
        elif "[" in value:
            found[name] = [int(n) for n in re.findall(r"\d+", value)]
        else:
            found[name] = int(value)
    return found


def copies():
    """Tables of sixteen numbers in specs/ or proofs/, where there should be none."""
    for path in sorted(CRATE.glob("specs/*.antt")) + sorted(CRATE.glob("proofs/**/*.antt")):
        if re.search(r"(\d+ ∷ ){16}", path.read_text(encoding="utf-8")):
            yield path.relative_to(CRATE)


def inversion_holds(tables):
    """Each byte's inverse is found at its places I and J, and no byte has place 0."""

    def look_up(table, place):
        return 0 if place >= NONE else table[place]

    for b in range(256):
        y = in_tower(b)
        i, k = y >> 4, y & 15
        sums = look_up(tables["SEVEN_OVER"], k)
        first = look_up(tables["INVERSES"], look_up(tables["INVERSES"], i) ^ sums) ^ i ^ k
        second = look_up(tables["INVERSES"], look_up(tables["INVERSES"], i ^ k) ^ sums) ^ i
        found = look_up(tables["UNSUBSTITUTED.by_i"], first) ^ look_up(tables["UNSUBSTITUTED.by_j"], second)
        if found != inverse(b) or 0 in (first, second):
            return False
    return True


def main():
    ours, theirs = derived(), written((CRATE / "src" / "tables.rt").read_text(encoding="utf-8"))
    faults = [f"{name}: derived {ours.get(name)}, written {theirs.get(name)}" for name in sorted(ours.keys() | theirs.keys()) if ours.get(name) != theirs.get(name)]
    faults += [f"{path} has a table of its own" for path in copies()]
    if not inversion_holds(ours):
        faults.append("an inverse is not found at its places")
    print("\n".join(faults) if faults else f"{len(ours)} tables and constants are as derived")
    return 1 if faults else 0


if __name__ == "__main__":
    sys.exit(main())
