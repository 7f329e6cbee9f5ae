#!/usr/bin/env python3
"""Calls mitongory_eight_bits through ctypes: at every place from 0 to n + 20 and the last ones of 32 bits, for every n from
0 to 70, with ones from n on; on drawn texts; and refused. Compares what it returns and what the answer holds afterwards with
document 02's words, and reads whole texts eight bits at a time. Prints one line with the number of checks, or the first
differences and exits with 1."""

import ctypes
import random
import sys

from library import BUFFER, NO_CELLS, dirty, lent, load

LAST = 2**32 - 1
ARGUMENTS = BUFFER + [ctypes.c_uint64, ctypes.c_uint32] + BUFFER


def bits_of(text, n):
    """The first n bits as characters."""
    return "".join("{:08b}".format(byte) for byte in text)[:n]


def shown(text, n, p, answer):
    """The result, and the answer after the call."""
    if len(answer) < 2:
        return NO_CELLS, answer
    if n > 2**30:
        return 1, answer
    if 8 * len(text) < n:
        return 2, answer
    before_n = bits_of(text, n)[p : p + 8]
    return 0, [int(before_n.ljust(8, "0"), 2), len(before_n)] + answer[2:]


def called(call, text, n, p, answer):
    bytes_lent, text_arguments = lent("B", text)
    cells, answer_arguments = lent("Q", answer)
    said = call(*text_arguments, n, p, *answer_arguments)
    return (said, list(cells)) if list(bytes_lent) == text else (said, "the text changed")


def ones_from(text, n):
    """The same bits below n, and ones from there on."""
    kept = bits_of(text, n)
    bits = kept + "1" * (8 * len(text) - len(kept))
    return [int(bits[i : i + 8], 2) for i in range(0, len(bits), 8)]


def cases(rng):
    """A name, and text, n, place and answer."""
    for n in range(71):
        for p in list(range(n + 21)) + list(range(LAST - 20, LAST + 1)):
            text = ones_from(dirty(rng, -(-n // 8) + rng.randrange(3), 8), n)
            yield "near the end", (text, n, p, dirty(rng, 2 + rng.randrange(2), 64))
    for _ in range(4000):
        text = dirty(rng, rng.randrange(40), 8)
        most = 8 * len(text)
        n = rng.choice([most, most + 1, rng.randint(0, most), 2**30, 2**30 + 1, 2**32 + most, rng.getrandbits(64)])
        p = rng.choice([rng.randint(0, most + 10), max(n - rng.randrange(10), 0) & LAST, LAST - rng.randrange(10)])
        yield "drawn", (text, n, p, dirty(rng, rng.choice([0, 1, 2, 2, 2, 2, 3, 5]), 64))


def main():
    call = load("mitongory_eight_bits", ARGUMENTS)
    rng = random.Random(20261117)
    checks, wrong, results, counts = 0, [], set(), set()
    for name, arguments in cases(rng):
        want, got = shown(*arguments), called(call, *arguments)
        checks += 1
        results.add(want[0])
        if want[0] == 0:
            counts.add(want[1][1])
        if got != want:
            wrong.append("%s, %r: expected %r, found %r" % (name, arguments, want, got))
    for n in range(200):
        text = dirty(rng, -(-n // 8), 8)
        reads = [called(call, text, n, p, [0, 0])[1] for p in range(0, n + 16, 8)]
        joined = "".join("{:08b}".format(byte)[:count] for byte, count in reads)
        checks += 1
        if joined != bits_of(text, n):
            wrong.append("reads one after the other, n = %d: %s" % (n, joined))
    if results != {0, 1, 2, NO_CELLS} or counts != set(range(9)):
        wrong.append("results or counts that no call had, or should not have: %r, %r" % (results, counts))
    if wrong:
        print("eight.py: %d of %d checks differ" % (len(wrong), checks))
        print("\n".join(wrong[:10]))
        sys.exit(1)
    print("eight.py: %d checks" % checks)


main()
