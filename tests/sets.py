#!/usr/bin/env python3
"""Calls mitongory_search_set through ctypes, on named sets and drawn ones, good and refused, each call going on from the mark
that the one before left, and compares what it returns and what every buffer holds afterwards with a naive search, from
document 02's words. Prints one line with the number of checks, or the first differences and exits with 1."""

import ctypes
import random
import sys

from library import BUFFER, NO_CELLS, dirty, lent, load

DONE, FULL, SPENT = 0, 1, 2
ALL_STEPS = 2**32 - 1


# ---- a naive search for a set


def bytes_for(bits):
    return -(-bits // 8)


def number(run, first, count):
    """So many bits of a run, from the first bit of a byte on, as a number."""
    whole = int.from_bytes(bytes(run[first : first + bytes_for(count)]), "big")
    return whole >> (8 * bytes_for(count) - count)


def hits_at(text, n, words, s):
    """The numbers of the patterns that stand at s, rising."""
    return [
        i
        for i, (m, value, fixed) in enumerate(words)
        if s + m <= n and ((text >> (n - s - m)) ^ value) & fixed == 0
    ]


def searched(text, n, patterns, fixed, counts, mark, budget, cells, answer):
    """The result, and list and answer after the call."""
    if len(answer) < 4:
        return NO_CELLS, cells, answer
    if n > 2**30:
        return 1, cells, answer
    if len(text) < bytes_for(n):
        return 2, cells, answer
    if not 1 <= len(counts) <= 64:
        return 18, cells, answer
    words, start = [], 0
    for m in counts:
        if not 1 <= m <= 2048:
            return 3, cells, answer
        if len(patterns) < start + bytes_for(m):
            return 4, cells, answer
        if len(fixed) < start + bytes_for(m):
            return 17, cells, answer
        words.append((m, number(patterns, start, m), number(fixed, start, m)))
        start += bytes_for(m)
    end = max(max(n - m + 1, 0) for m in counts)
    if mark > end:
        return 6, cells, answer
    bits, steps, pairs, stop = number(text, 0, n), 0, [], None
    while stop is None and mark < end and steps < budget:
        found = hits_at(bits, n, words, mark)
        if 2 * (len(pairs) + len(found)) > len(cells):
            stop = FULL
        else:
            pairs += [(mark, i) for i in found]
            mark, steps = mark + 1, steps + 1
    if stop is None:
        stop = DONE if mark == end else SPENT
    written = [cell for pair in pairs for cell in pair]
    return 0, written + cells[len(written) :], [steps, len(pairs), mark, stop] + answer[4:]


# ---- the library's call

ARGUMENTS = BUFFER + [ctypes.c_uint64] + BUFFER * 3 + [ctypes.c_uint32] * 2 + BUFFER * 2


def called(call, text, n, patterns, fixed, counts, mark, budget, cells, answer):
    """As searched, by the library; and it changes nothing that it only reads."""
    read = [("B", text), ("B", patterns), ("B", fixed), ("Q", counts)]
    buffers = [lent(code, values) for code, values in read + [("I", cells), ("Q", answer)]]
    lending = [pair for _, pair in buffers]
    result = call(*lending[0], n, *lending[1], *lending[2], *lending[3], mark, budget, *lending[4], *lending[5])
    after = [buffer.tolist() for buffer, _ in buffers]
    if after[:4] != [values for _, values in read]:
        return "wrote to text, patterns, fixed or counts", after[4], after[5]
    return result, after[4], after[5]


# ---- texts and patterns: a text is characters 0 and 1, a pattern has the character ? for a wild bit too


def packed(rng, bits):
    """The bits, and drawn ones after them up to a whole byte."""
    bits = bits + "".join(rng.choice("01") for _ in range(-len(bits) % 8))
    return list(int(bits, 2).to_bytes(len(bits) // 8, "big")) if bits else []


def runs(rng, words):
    """The two runs of a set. What stands at wild bits and after a pattern's last bit is drawn."""
    patterns, fixed = [], []
    for word in words:
        patterns += packed(rng, "".join(rng.choice("01") if bit == "?" else bit for bit in word))
        fixed += packed(rng, "".join("0" if bit == "?" else "1" for bit in word))
    return patterns, fixed


def asked(rng, text, words, mark=0, budget=ALL_STEPS, cells=40, answer=4):
    """The arguments of a call."""
    patterns, fixed = runs(rng, words)
    counts = [len(word) for word in words]
    return [packed(rng, text), len(text), patterns, fixed, counts, mark, budget, dirty(rng, cells, 32), dirty(rng, answer, 64)]


# The refusals, in order; those of a pattern are here those of the last one.
FAULTS = [NO_CELLS, 1, 2, 18, 3, 4, 17, 6]


def faulty(rng, faults):
    """A call that has all of these faults."""
    words = ["101", "1?0010110", "110"] * (22 if 18 in faults else 1)
    arguments = asked(rng, "1011001011", words, answer=rng.randrange(4) if NO_CELLS in faults else 4)
    text, n, patterns, fixed, counts = arguments[:5]
    if 1 in faults:
        arguments[1] = rng.choice([2**30 + 1, 2**32, 2**64 - 1])
    elif 2 in faults:
        arguments[1] = 8 * len(text) + 1
    if 18 in faults and rng.random() < 0.5:
        counts.clear()
    if 3 in faults and counts:
        counts[-1] = rng.choice([0, 2049, 2**32 + 3, 2**64 - 1])
    if 4 in faults:
        del patterns[-1:]
    if 17 in faults:
        del fixed[-1:]
    if 6 in faults:
        arguments[5] = rng.choice([9, 2**32 - 1]) if n == 10 else 2**32 - 1
    return arguments


def named(rng):
    text = "0011010110011010110110011111010"
    three = ["110101", "1100????10", "1101"]
    for cells in range(20):
        yield "%d cells" % cells, asked(rng, text, three, cells=cells)
    for budget in list(range(30)) + [ALL_STEPS]:
        yield "a budget of %d" % budget, asked(rng, text, three, budget=budget)
    for mark in range(31):
        yield "from %d" % mark, asked(rng, text, three, mark=mark)
    yield "an empty text", asked(rng, "", ["1", "?"])
    yield "patterns longer than the text", asked(rng, "110", ["1100", "11", "0"])
    yield "the text itself", asked(rng, text, [text, "?" * len(text)])
    yield "equal patterns", asked(rng, text, ["101"] * 3)
    for count in [0, 1, 2, 63, 64, 65]:
        yield "%d wild patterns" % count, asked(rng, text, ["?"] * count, cells=2 * 31 * 64)
        yield "%d prefixes" % count, asked(rng, "1" * 70, ["1" * (i + 1) for i in range(count)], cells=2 * 70 * 64)
    for m in [8, 31, 32, 33, 56, 57, 58, 63, 64, 65, 2047, 2048]:
        long = "".join(rng.choice("01") for _ in range(m + 40))
        yield "%d bits" % m, asked(rng, long, [long[7 : 7 + m], long[40:], "1"], cells=2 * (m + 40))
        yield "%d bits, all but the last" % m, asked(rng, long, [long[7 : 6 + m] + "01"[long[6 + m] == "0"], "01"])
    for _ in range(8):
        for first in FAULTS:
            for second in FAULTS:
                yield "faults %d and %d" % (first, second), faulty(rng, {first, second})
        yield "all faults", faulty(rng, set(FAULTS))
        yield "no fault", faulty(rng, set())


def drawn_text(rng):
    n = rng.choice([0, 1, 7, 8, 9, 30, 31, 32, 33, 63, 64, 65, 100, 100, 200, 300])
    ones = rng.choice([0.1, 0.5, 0.5, 0.9])
    return "".join("1" if rng.random() < ones else "0" for _ in range(n))


def drawn_word(rng, text, words):
    """A pattern of the text, or one before it, longer, shorter or the same, or drawn bits; with wild bits or none."""
    kind = rng.randrange(6)
    if kind == 0 and words:
        word = rng.choice(words)
        word = rng.choice([word, word[: rng.randrange(len(word)) + 1], (word + rng.choice("01?"))[:2048]])
    elif kind < 5 and text:
        at = rng.randrange(len(text))
        word = text[at : at + rng.choice([1, 2, 3, 5, 8, 9, 20, 31, 32, 33, 40, 64, 65, 90])]
    else:
        word = "".join(rng.choice("01") for _ in range(rng.choice([1, 2, 4, 8, 33, 70, 400, 2048])))
    wild = rng.choice([0, 0, 0.1, 0.5, 1])
    return "".join("?" if rng.random() < wild else bit for bit in word)


def drawn_set(rng):
    text = drawn_text(rng)
    words = []
    for _ in range(rng.choice([1, 1, 2, 3, 5, 8, 8, 63, 64])):
        words.append(drawn_word(rng, text, words))
    return text, words


def main():
    call = load("mitongory_search_set", ARGUMENTS)
    rng = random.Random(20261117)
    checks, wrong, results = 0, [], set()

    def compare(name, arguments):
        nonlocal checks
        want, got = searched(*arguments), called(call, *arguments)
        checks += 1
        results.add(want[0])
        if got != want:
            wrong.append("%s: expected %.200r, found %.200r" % (name, want, got))
        return got

    for name, arguments in named(rng):
        compare(name, arguments)
    for i in range(600):
        text, words = drawn_set(rng)
        end = max(max(len(text) - len(word) + 1, 0) for word in words)
        mark, joined, stop = 0, [], None
        for k in range(12):
            cells = rng.choice([0, 1, 2, 3, 7, 2 * len(words) - 1, 2 * len(words), 2 * len(words) + 1, 500, 2 * 64 * 300])
            budget = rng.choice([0, 1, 2, 17, 32, 33, 100, ALL_STEPS])
            asked_mark = rng.choice([end + 1, ALL_STEPS]) if rng.random() < 0.05 else mark
            name = "drawn %d, call %d, %d patterns" % (i, k, len(words))
            result, after, answer = compare(name, asked(rng, text, words, asked_mark, budget, cells, rng.choice([4, 4, 4, 5, 3])))
            if result == 0:
                joined += zip(after[0 : 2 * answer[1] : 2], after[1 : 2 * answer[1] : 2])
                mark, stop = answer[2], answer[3]
        full = compare("drawn %d, whole" % i, asked(rng, text, words, 0, mark, 2 * len(joined)))
        whole = list(zip(full[1][0::2], full[1][1::2]))
        checks += 1
        if joined != whole or full[2][1:3] != [len(joined), mark] or (stop is not None and (stop == DONE) != (mark == end)):
            wrong.append("drawn %d, joined: %.200r for %.200r" % (i, joined, whole))
    if results != {0} | set(FAULTS):
        wrong.append("results that no call had, or should not have: %r" % results)
    if wrong:
        print("sets.py: %d of %d checks differ" % (len(wrong), checks))
        print("\n".join(wrong[:10]))
        sys.exit(1)
    print("sets.py: %d checks" % checks)


main()
