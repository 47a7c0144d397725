#!/usr/bin/env python3
"""nearest.py [SEED]: whole numbers and the 64 bits of the f64 nearest to each, by exact arithmetic; the outside judge of face/c/rounding.c.

A line is `u` or `s` for an unsigned or a signed number, the number, and the bits in hexadecimal; the last line is `end` and how many there were.
Nothing is rounded here by a machine: a float's bits are read as IEEE 754 reads them, and all numbers are counted in units of 2^-52, of which every
f64 from 1 on is a whole number. The nearer of the two floats around a number is taken, and at a tie the one whose last bit is 0.
"""
import random
import sys

ALL_SIZES = range(1, 65)
POWERS = [1 << k for k in range(65)]
TIES_AT_A_POWER = 256  # above each power of two from 2^53 to 2^63, and below each from 2^54 to 2^64
TIES_BETWEEN = 1000    # anywhere between two of these powers
RANDOM_OF_A_SIZE = 2000


def value(bits):
    """What the bits of an f64 from 1 on stand for, in units of 2^-52."""
    exponent, digits = bits >> 52, bits % (1 << 52)
    return ((1 << 52) + digits) << (exponent - 1023)


def bits_of_size(n):
    """The bits of the f64 nearest to n, from 0 to 2^64."""
    if n == 0:
        return 0
    exponent = n.bit_length() - 1
    units = n << 52
    below = ((1023 + exponent) << 52) + (units >> exponent) - (1 << 52)
    assert value(below) <= units < value(below + 1)
    to_below, to_above = units - value(below), value(below + 1) - units
    if to_below == to_above:
        return below + below % 2
    return below if to_below < to_above else below + 1


def bits_of(n):
    return bits_of_size(abs(n)) + (n < 0) * (1 << 63)


def around(n, distance):
    return range(n - distance, n + distance + 1)


def chosen(draw):
    """The sizes that were chosen, not drawn: small ones, powers of two, ties, each with its neighbours."""
    yield from range(5000)
    for power in POWERS:
        yield from around(power, 3)
    for k in range(53, 64):
        power, gap = 1 << k, 1 << (k - 52)
        first, last = range(TIES_AT_A_POWER), range((1 << 52) - TIES_AT_A_POWER, 1 << 52)
        drawn = (draw.getrandbits(52) for _ in range(TIES_BETWEEN))
        for i in [*first, *last, *drawn]:
            yield from around(power + i * gap + gap // 2, 2)


def numbers(seed):
    draw = random.Random(seed)
    for n in chosen(draw):
        if 0 <= n < 1 << 64:
            yield 'u', n
        if 0 <= n < 1 << 63:
            yield 's', n
        if 0 <= n <= 1 << 63:
            yield 's', -n
    for size in ALL_SIZES:
        for _ in range(RANDOM_OF_A_SIZE):
            n = draw.getrandbits(size) | 1 << (size - 1)
            yield 'u', n
            if size < 64:
                yield 's', n if draw.getrandbits(1) else -n


def main():
    seed = int(sys.argv[1]) if len(sys.argv) > 1 else 1
    count = 0
    for kind, n in numbers(seed):
        print(kind, n, format(bits_of(n), '016x'))
        count += 1
    print('end', count)


if __name__ == '__main__':
    main()
