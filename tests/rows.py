#!/usr/bin/env python3
"""Reads the rows that a plain search makes off the scratch, after a call of mitongory_search through ctypes with no budget,
which makes its tables and no step: for many lengths, with drawn wild bits, ones from m on in both runs and other content in
the scratch before, and document 003's figure 1 as it is printed. What the scratch holds after a call is promised to no caller:
this looks into the library. Prints one line with the number of checks, or the first differences and exits with 1."""

import ctypes
import random
import sys

from library import BUFFER, dirty, lent, load

ARGUMENTS = BUFFER + [ctypes.c_uint64] + 2 * BUFFER + [ctypes.c_uint64] + 3 * [ctypes.c_uint32] + 3 * BUFFER
PLAIN, SPENT = 0, 2

# Every short length, and some about each multiple of 64, where a row goes on in another cell.
LENGTHS = list(range(1, 260)) + [m for k in range(320, 2049, 64) for m in (k - 8, k - 7, k - 1, k)]

# Document 003, figure 1: P, and the rows of Patt and Mask as they are printed.
P = "110010110010110010110"
PATT = """11001011 00101100 10110000
01100101 10010110 01011000
00110010 11001011 00101100
00011001 01100101 10010110
00001100 10110010 11001011 00000000
00000110 01011001 01100101 10000000
00000011 00101100 10110010 11000000
00000001 10010110 01011001 01100000""".split("\n")
MASK = """11111111 11111111 11111000
01111111 11111111 11111100
00111111 11111111 11111110
00011111 11111111 11111111
00001111 11111111 11111111 10000000
00000111 11111111 11111111 11000000
00000011 11111111 11111111 11100000
00000001 11111111 11111111 11110000""".split("\n")


def packed(bits):
    """The bytes of a run, with ones after its last bit."""
    return [int(bits[i : i + 8].ljust(8, "1"), 2) for i in range(0, len(bits), 8)]


def written(bits, fixed, i):
    """The bytes of row i in document 01's words, those of its mask where `bits` are all ones: bit j of byte h is at the index
    8h - i + j, where that is in 0..m-1 and fixed, else 0."""
    m = len(bits)
    rows = [[8 * h - i + j for j in range(8)] for h in range((m + i + 7) // 8)]
    return " ".join("".join(bits[q] if 0 <= q < m and fixed[q] == "1" else "0" for q in row) for row in rows)


def lying(cells, run, count):
    """The first bytes of a run of row bytes in the scratch: row i is run i, its mask run 8 + i. A cell holds eight of them, the
    first one highest."""
    return " ".join("{:08b}".format(cells[16 * (h // 8) + run] >> 8 * (7 - h % 8) & 255) for h in range(count))


def made(call, rng, bits, fixed):
    """The rows and masks after a call, or what it answers instead."""
    m = len(bits)
    runs = [lent("B", packed(run)) for run in ("0" * m, bits, fixed)]
    scratch, scratch_arguments = lent("Q", dirty(rng, 16 * ((m + 14) // 8), 64))
    answer, answer_arguments = lent("Q", dirty(rng, 4, 64))
    lists = [None, 0] + scratch_arguments + answer_arguments
    said = call(*runs[0][1], m, *runs[1][1], *runs[2][1], m, PLAIN, 0, 0, *lists)
    if (said, list(answer)) != (0, [0, 0, 0, SPENT]):
        return said, list(answer)
    counts = [(m + i + 7) // 8 for i in range(8)]
    return [lying(scratch, i, counts[i]) for i in range(8)], [lying(scratch, 8 + i, counts[i]) for i in range(8)]


def main():
    call = load("mitongory_search", ARGUMENTS)
    rng = random.Random(9)
    checks, wrong = 1, []
    if made(call, rng, P, "1" * len(P)) != (PATT, MASK):
        wrong.append("figure 1")
    for m in LENGTHS:
        bits = "".join(rng.choice("01") for _ in range(m))
        for ones in rng.sample(["1", "01", "0001", "0111", "0"], 2):
            fixed = "".join(rng.choice(ones) for _ in range(m))
            want = [[written(run, fixed, i) for i in range(8)] for run in (bits, "1" * m)]
            checks += 1
            if list(made(call, rng, bits, fixed)) != want:
                wrong.append("m = %d, pattern %s, fixed %s" % (m, bits, fixed))
    if wrong:
        print("rows.py: %d of %d differ:" % (len(wrong), checks))
        print("\n".join(wrong[:5]))
        sys.exit(1)
    print("rows.py: %d checks" % checks)


main()
