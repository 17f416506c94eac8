#!/usr/bin/env python3
"""Selections at random for crates/bench_decide: writes its stdin and the stdout that it must give.

Each line of stdin is the first 40 bytes of a START in hexadecimal. Each line of stdout has the numbers that matter (random
number, target, maximum, amount, floor limit, threshold) and 1 where the transaction is selected, else 0. The answer is
computed from source document 003, 7.6.2, with exact fractions; where its interpolation factor has no meaning (threshold not
below the floor limit, which no valid START has) from the inequality of document 01. Run in the repository's root.
"""
import random
from fractions import Fraction

FOLDER = "crates/bench_decide/"
TOP = 10**12 - 1


def n12(number):
    """A number as six bytes of decimal digits."""
    return bytes.fromhex(f"{number:012d}")


def value(field):
    """Six bytes read by their halves, a half above 9 as it stands."""
    number = 0
    for byte in field:
        number = (number * 10 + (byte >> 4)) * 10 + (byte & 15)
    return number


def start(rnd, target, maximum, amount, floor, threshold):
    """The first 40 bytes of a START of type 2; amounts are numbers, or six bytes as they stand."""
    amount, floor, threshold = (f if isinstance(f, bytes) else n12(f) for f in (amount, floor, threshold))
    return (
        b"\x02" + amount + n12(0) + bytes.fromhex("08260826") + bytes.fromhex("250630") + b"\x00" + bytes(4)
        + floor + bytes([rnd, target]) + threshold + bytes([maximum])
    )


def selected(rnd, target, maximum, amount, floor, threshold):
    if amount < threshold:
        return rnd <= target
    if threshold < floor:
        return rnd <= target + (maximum - target) * Fraction(amount - threshold, floor - threshold)
    return (rnd - target) * (floor - threshold) <= (maximum - target) * (amount - threshold)


def around(rnd, target, maximum, floor, threshold):
    """Amounts on both sides of the one at which the random number meets the interpolated percentage."""
    if maximum == target:
        meets = threshold
    else:
        meets = threshold + (rnd - target) * (floor - threshold) // (maximum - target)
    return [a for a in range(meets - 1, meets + 3) if 0 <= a <= TOP]


def cases():
    draw = random.Random(762)
    # document 01, cases J and K
    yield from ((40, 10, 70, 7500, 10000, 5000), (41, 10, 70, 7500, 10000, 5000), (40, 10, 70, 7499, 10000, 5000))
    # limits of every number, also those that no valid START has
    for rnd in (0, 1, 9, 10, 11, 99, 100, 255):
        for target, maximum in ((0, 0), (0, 99), (10, 10), (10, 99), (99, 99), (99, 10), (255, 0), (0, 255)):
            for floor, threshold in ((TOP, 0), (TOP, TOP - 1), (1, 0), (0, 0), (5, TOP)):
                yield (rnd, target, maximum, draw.choice((0, 1, TOP - 1, TOP)), floor, threshold)
    # around equality
    for _ in range(600):
        floor = draw.choice((100, 10000, 50000, 10**9, TOP, draw.randrange(1, TOP)))
        threshold = draw.choice((0, floor // 2, floor - 1, draw.randrange(floor)))
        target = draw.randrange(0, 99)
        maximum = draw.randrange(target, 100)
        rnd = draw.randrange(1, 100)
        for amount in around(rnd, target, maximum, floor, threshold):
            yield (rnd, target, maximum, amount, floor, threshold)
    # any bytes at all
    for _ in range(200):
        amount, floor, threshold = (draw.randbytes(6) for _ in range(3))
        yield (draw.randrange(256), draw.randrange(256), draw.randrange(256), amount, floor, threshold)


def main():
    with open(FOLDER + "stdin", "w") as given, open(FOLDER + "stdout", "w") as wanted:
        for rnd, target, maximum, *amounts in cases():
            line = start(rnd, target, maximum, *amounts)
            numbers = [rnd, target, maximum] + [value(line[at : at + 6]) for at in (1, 25, 33)]
            given.write(line.hex() + "\n")
            wanted.write(" ".join(map(str, numbers)) + f" {int(selected(*numbers))}\n")


main()
