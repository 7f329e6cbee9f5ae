#!/usr/bin/env python3
"""Calls mitongory_mark_sitting through ctypes, on named sittings, drawn ones and a large one, good and refused, and compares
what it returns and what every buffer holds afterwards with a naive marking by sets, from document 02's words. Prints one
line with the number of checks, or the first differences and exits with 1."""

import random
import sys

from library import BUFFER, NO_CELLS, dirty, lent, load

LIMIT = 2**30
LARGEST_COUNT = 2**64 - 1


# ---- marking, by sets


def rises(positions):
    return all(p < q for p, q in zip(positions, positions[1:])) and all(p < LIMIT for p in positions)


def cut(cells, counts):
    """The sheets that lie one after the other in the cells."""
    sheets, at = [], 0
    for count in counts:
        sheets.append(cells[at : at + count])
        at += count
    return sheets


def marked(key, cells, counts, report, answer):
    """The result, and report and answer after the call."""
    if len(answer) < 3:
        return NO_CELLS, report, answer
    if len(counts) > 256:
        return 15, report, answer
    if sum(counts) != len(cells):
        return 16, report, answer
    sheets = cut(cells, counts)
    if not all(rises(positions) for positions in [key] + sheets):
        return 8, report, answer
    if len(report) < 3 * len(counts):
        return 9, report, answer
    right_ones, rows = set(key), []
    for sheet in sheets:
        found = set(sheet)
        rows.append([len(right_ones & found), len(right_ones - found), len(found - right_ones)])
    totals = [sum(row[column] for row in rows) for column in range(3)]
    cells_of_rows = [cell for row in rows for cell in row]
    return 0, cells_of_rows + report[len(cells_of_rows) :], totals + answer[3:]


# ---- the library's call


def called(call, key, cells, counts, report, answer):
    """As marked, by the library; and it changes nothing that it only reads."""
    buffers, lending = [], []
    for code, values in [("I", key), ("I", cells), ("Q", counts), ("I", report), ("Q", answer)]:
        buffer, pair = lent(code, values)
        buffers.append(buffer)
        lending += pair
    result = call(*lending)
    after = [buffer.tolist() for buffer in buffers]
    if after[:3] != [key, cells, counts]:
        return "wrote to key, sheets or counts", after[3], after[4]
    return result, after[3], after[4]


# ---- sittings: a name, and the arguments of a call


def sitting(rng, key, sheets, counts=None, cells=None, report=None, answer=3):
    """The arguments of a call. Counts and cells are those of the sheets, and the report has just the cells that it needs,
    unless others are given."""
    counts = [len(sheet) for sheet in sheets] if counts is None else counts
    cells = [p for sheet in sheets for p in sheet] if cells is None else cells
    report = 3 * len(counts) if report is None else report
    return list(key), list(cells), list(counts), dirty(rng, report, 32), dirty(rng, answer, 64)


# The refusals, in order.
FAULTS = [NO_CELLS, 15, 16, 8, 9]


def faulty(rng, faults):
    """A sitting that has all of these faults."""
    key = [1, 5, 9, 12]
    sheets = [[1, 5, 9, 12], [], [5, 6]] + [[]] * (254 if 15 in faults else 0)
    counts = [len(sheet) for sheet in sheets]
    if 16 in faults:
        counts[1] += rng.choice([1, 2, LARGEST_COUNT, 2**63])
    if 8 in faults:
        key = rng.choice([[1, 5, 5], [1, 5, 4], [1, LIMIT], [LARGEST_COUNT >> 32]])
    report = 3 * len(sheets) - (1 if 9 in faults else 0)
    return sitting(rng, key, sheets, counts=counts, report=report, answer=rng.randrange(3) if NO_CELLS in faults else 3)


def named(rng):
    key = [0, 3, 6, 9, 12, 15, 18, 21, 24, LIMIT - 1]
    yield "no sheets", sitting(rng, key, [])
    yield "no sheets, no key", sitting(rng, [], [])
    yield "no sheets, a report and answer cells that stay", sitting(rng, key, [], report=4, answer=7)
    yield "no sheets, a key that falls", sitting(rng, [3, 2], [])
    yield "no sheets, a cell left over", sitting(rng, key, [], cells=[4])
    yield "one sheet, equal to the key", sitting(rng, key, [key])
    yield "one empty sheet", sitting(rng, key, [[]])
    yield "an empty key", sitting(rng, [], [key])
    yield "an empty key and an empty sheet", sitting(rng, [], [[]])
    yield "nothing shared", sitting(rng, key, [[p - 1 for p in key[1:]]])
    yield "each second position", sitting(rng, key, [key[::2], key[1::2]])
    yield "a sheet that begins below the end of the one before", sitting(rng, key, [key, [0], key])
    yield "cells after the report's", sitting(rng, key, [key, []], report=11, answer=5)
    yield "the largest position", sitting(rng, [LIMIT - 1], [[LIMIT - 1], [LIMIT - 2]])
    yield "2^30 in the key", sitting(rng, [LIMIT], [[1]])
    yield "2^30 on a sheet", sitting(rng, [1], [[1], [LIMIT]])
    yield "2^32 - 1 on a sheet", sitting(rng, [1], [[1], [2**32 - 1]])
    yield "a sheet that stays", sitting(rng, key, [[1], [2, 2]])
    yield "a sheet that falls", sitting(rng, key, [[1], [3, 2]])
    for count in [255, 256, 257]:
        yield "%d empty sheets" % count, sitting(rng, key, [[]] * count)
        yield "%d equal sheets" % count, sitting(rng, key, [key] * count)
        yield "%d sheets, no key" % count, sitting(rng, [], [[i] for i in range(count)])
        yield "%d sheets, a cell too few" % count, sitting(rng, key, [key] * count, report=3 * count - 1)
    yield "2^16 counts", sitting(rng, key, [[]] * 2**16, report=0)
    for counts in [
        [3],
        [1],
        [LARGEST_COUNT],
        [2**32 + 2],
        [2**63, 2**63 + 2],
        [LARGEST_COUNT, 3],
        [3, LARGEST_COUNT],
        [LARGEST_COUNT] * 2 + [4],
        [2**64 // 256] * 254 + [2**64 // 256 + 2, 2**64 // 256],
        [2],
        [0, 2, 0],
        [1, 1],
        [],
    ]:
        yield "counts %r for two cells" % counts[:3], sitting(rng, key, [], counts=counts, cells=[3, 6])
    for _ in range(4):
        for first in FAULTS:
            for second in FAULTS:
                yield "faults %d and %d" % (first, second), faulty(rng, {first, second})
        yield "all faults", faulty(rng, set(FAULTS))
        yield "no fault", faulty(rng, set())


def drawn_sheet(rng, key, among):
    kind = rng.randrange(7)
    if kind == 0:
        return list(key)
    if kind == 1:
        nearly = set(key) ^ set(rng.sample(among, min(len(among), rng.randrange(3))))
        return sorted(nearly)
    if kind == 2:
        return key[rng.randrange(2) :: 2]
    if kind == 3:
        return [p for p in among if p not in set(key)]
    if kind == 4:
        return list(among)
    if kind == 5:
        return [p for p in among if rng.random() < 0.5]
    return []


def spoil(rng, positions):
    if positions and rng.random() < 0.05:
        i = rng.randrange(len(positions))
        positions[i] = rng.choice([positions[i - 1], positions[i] + 1, LIMIT - 1, LIMIT, 2**32 - 1])


def spoil_counts(rng, counts):
    if counts and rng.random() < 0.15:
        i, j = rng.randrange(len(counts)), rng.randrange(len(counts))
        more, less = rng.choice([(1, 0), (-1, 0), (2**63, 2**63), (1, -1), (-3, 0), (2**32, 0)])
        counts[i] = (counts[i] + more) % 2**64
        counts[j] = (counts[j] + less) % 2**64


def drawn(rng):
    for i in range(8000):
        most = rng.choice([1, 7, 8, 9, 20, 40])
        bottom = rng.choice([0, 0, 0, rng.randrange(LIMIT - 200), LIMIT - 2 * most])
        among = sorted(rng.sample(range(bottom, bottom + 2 * most), most))
        key = [p for p in among if rng.random() < rng.choice([0.1, 0.5, 0.9])]
        count = rng.choice([254, 255, 256, 257]) if i % 100 == 0 else rng.randrange(8)
        sheets = [drawn_sheet(rng, key, among) for _ in range(count)]
        for positions in [key] + sheets:
            spoil(rng, positions)
        counts = [len(sheet) for sheet in sheets]
        spoil_counts(rng, counts)
        report = max(0, 3 * count + rng.choice([0, 0, 0, 0, 1, 5, -1, -3 * count]))
        answer = rng.choice([3, 3, 3, 4]) if rng.random() < 0.95 else rng.randrange(3)
        yield "drawn %d, %d sheets" % (i, count), sitting(rng, key, sheets, counts=counts, report=report, answer=answer)


def large(rng):
    """A million positions: in the key, on one sheet, and on 256 sheets together."""
    key = list(range(0, 3 * 10**6, 3))
    half = sorted(rng.sample(key, len(key) // 2))
    noise = sorted(rng.sample(range(3 * 10**6), 10**6))
    yield "a million in the key", sitting(rng, key, [key, half, noise, []])
    yield "a million in the key, spoiled at the end", sitting(rng, key, [key, half[:-1] + half[-2:-1]])
    sheets = [sorted(rng.sample(range(12000), 4000)) for _ in range(256)]
    yield "a million on 256 sheets", sitting(rng, key[:4000], sheets)
    yield "a million on 256 sheets, the last one spoiled", sitting(rng, key[:4000], sheets[:-1] + [[1, 0]])


def main():
    call = load("mitongory_mark_sitting", BUFFER * 5)
    rng = random.Random(20261116)
    checks, wrong = 0, []
    results = set()
    for source in [named(rng), drawn(rng), large(rng)]:
        for name, arguments in source:
            want, got = marked(*arguments), called(call, *arguments)
            checks += 1
            results.add(want[0])
            if got != want:
                wrong.append("%s: expected %.200r, found %.200r" % (name, want, got))
    if results != {0} | set(FAULTS):
        wrong.append("results that no sitting had, or should not have: %r" % results)
    if wrong:
        print("sitting.py: %d of %d checks differ" % (len(wrong), checks))
        print("\n".join(wrong[:10]))
        sys.exit(1)
    print("sitting.py: %d checks" % checks)


main()
