#!/usr/bin/env python3
"""Runs the program `hits` on the inputs of tests/hits and on generated ones, good and malformed, and compares what it
writes, byte for byte, with a naive implementation of the written rules; and where nothing can be written it holds the
program to a line on standard error. Prints one line with the number of checks, or the first differences and exits with 1.

usage: hits.py [PROGRAM]"""

import os
import random
import signal
import subprocess
import sys
import time

HERE = os.path.dirname(os.path.abspath(__file__))
PROGRAM = os.path.join(os.path.dirname(HERE), "target", "bin", "hits")
INPUTS = os.path.join(HERE, "hits")
BUDGET = 2**32 - 1
# A run takes some milliseconds; one that takes longer than this has failed.
SECONDS = 20


# ---- the five methods by their written rules (documents 01 and 02), over strings of the characters 0 and 1


def places(w, t):
    return len(t) - len(w) + 1 if len(w) <= len(t) else 0


def stands(w, t, s):
    return t[s : s + len(w)] == w


def plain(w, t, s):
    """The places that the step at s finds, and the next mark."""
    return ([s] if stands(w, t, s) else []), s + 1


def least(w, value, first):
    """The least d from `first` to m at which the pattern, moved by d, shows the eight bits of the value."""
    m = len(w)
    for d in range(first, m + 1):
        at = m - 8 - d
        if all(at + j < 0 or w[at + j] == value[j] for j in range(8)):
            return d
    raise AssertionError("d = m always meets the condition")


def hash_step(w, t, s):
    m = len(w)
    value = t[s + m - 8 : s + m]
    move = least(w, value, 0)
    if move >= 1:
        return [], s + move
    return ([s] if stands(w, t, s) else []), s + least(w, value, 1)


def skip(w, t, s):
    m, end = len(w), places(w, t)
    b = (s + m) // 8 - 1
    byte = t[8 * b : 8 * b + 8]
    found = []
    for a in range(s, 8 * b + 1):
        at = 8 * b - a
        if a < end and w[at : at + 8] == byte and stands(w, t, a):
            found.append(a)
    return found, 8 * b + 1


def wide(w, t, s):
    m, n, end = len(w), len(t), places(w, t)
    ws = 63 + m
    found = []
    for i in range(64):
        falls = any(s + i + j < n and t[s + i + j] != w[j] for j in range(m))
        if not falls and s + i < end:
            found.append(s + i)
    if s + ws >= n:
        return found, end
    k = w.rfind(t[s + ws])
    return found, s + ws - k if k >= 0 else s + ws + 1


def tail(w, t, s):
    """r is the greatest length below m such that the pattern's first r bits equal the window's last r bits."""
    m = len(w)
    r = max(r for r in range(m) if w[:r] == t[s + m - r : s + m])
    return ([s] if stands(w, t, s) else []), s + m - r


# Each method with the fewest and the most bits of a pattern that it takes.
METHODS = [
    ("plain", plain, 1, 2048),
    ("hash", hash_step, 8, 2048),
    ("skip", skip, 15, 2048),
    ("wide", wide, 1, 2048),
    ("tail", tail, 1, 64),
]


def line(name, step, fewest, most, w, t):
    if not fewest <= len(w) <= most:
        return name + " refused 5"
    end, mark, steps, hits = places(w, t), 0, 0, []
    while mark < end and steps < BUDGET:
        found, mark = step(w, t, mark)
        mark = min(mark, end)
        steps += 1
        hits += found
    return " ".join([name, str(steps), str(len(hits))] + [str(p) for p in hits])


def good(data):
    """The two lines of good input, else None."""
    parts = data.split(b"\n")
    if len(parts) != 3 or parts[2] != b"":
        return None
    if any(c not in b"01" for part in parts[:2] for c in part):
        return None
    if not 1 <= len(parts[0]) <= 2048 or len(parts[1]) > 4096:
        return None
    return parts[0].decode(), parts[1].decode()


def expected(data):
    lines = good(data)
    if lines is None:
        return b"bad input\n"
    return "".join(line(*method, *lines) + "\n" for method in METHODS).encode()


# ---- inputs


def bits(rng, k):
    return "".join(rng.choice("01") for _ in range(k))


def periodic(rng, k):
    unit = bits(rng, rng.choice([1, 2, 3, 5, 8, 13]))
    return (unit * (k // len(unit) + 1))[:k]


def pair(w, t):
    return ("%s\n%s\n" % (w, t)).encode()


def named():
    """Malformed input and the edges of what is taken."""
    v, r = "0100110100", "011001001000100110100101000101001001"
    whole = pair(v, r)
    yield "the paper", whole
    yield "nothing", b""
    yield "one line end", b"\n"
    yield "two line ends", b"\n\n"
    yield "one line", (v + "\n").encode()
    yield "one line, no end", v.encode()
    yield "missing last line end", whole[:-1]
    yield "missing first line end", (v + r + "\n").encode()
    yield "carriage returns", whole.replace(b"\n", b"\r\n")
    yield "carriage return at the end", whole + b"\r"
    yield "a third line end", whole + b"\n"
    yield "a byte after", whole + b"0"
    yield "a third line", whole + b"01\n"
    yield "NUL after", whole + b"\0"
    yield "NUL inside", whole.replace(b"1", b"\0", 1)
    yield "NUL alone", b"\0"
    yield "empty pattern", ("\n" + r + "\n").encode()
    yield "empty text", (v + "\n\n").encode()
    yield "other digit", whole.replace(b"1", b"2", 1)
    yield "a wild bit in the pattern", pair("0100????00", r)
    yield "a wild bit in the text", pair(v, r[:11] + "?" + r[12:])
    yield "letter", whole.replace(b"0", b"o", 1)
    yield "slash, the byte before 0", whole.replace(b"0", b"/", 1)
    yield "byte 176, a 0 with its top bit set", whole.replace(b"0", b"\xb0", 1)
    yield "space before", b" " + whole
    yield "space after the pattern", (v + " \n" + r + "\n").encode()
    yield "space inside", (v[:3] + " " + v[3:] + "\n" + r + "\n").encode()
    yield "tab", whole.replace(b"1", b"\t", 1)
    yield "byte order mark", b"\xef\xbb\xbf" + whole
    yield "line end before", b"\n" + whole
    yield "pattern 2,048, text 4,096", pair("01" * 1024, "01" * 2048)
    yield "pattern 2,048 of one digit", pair("1" * 2048, "1" * 4096)
    yield "pattern 2,049", pair("1" * 2049, "1" * 4096)
    yield "text 4,097", pair("1" * 20, "1" * 4097)
    yield "pattern 2,049, text 0", pair("0" * 2049, "")
    yield "both too long", pair("0" * 2049, "0" * 4097)
    yield "6,146 bytes in another split", pair("0" * 2050, "0" * 4094)
    yield "longest, one byte after", pair("0" * 2048, "0" * 4096) + b"0"
    yield "longest, a line end after", pair("0" * 2048, "0" * 4096) + b"\n"
    yield "longest, without the last line end", pair("0" * 2048, "0" * 4096)[:-1]
    yield "a million bytes after good input", whole + b"1" * 1000000
    yield "a million characters", b"0" * 1000000
    yield "a million line ends", b"\n" * 1000000
    yield "pattern 1, text 4,096", pair("1", "1" * 4096)
    yield "pattern longer than the text", pair("1" * 30, "1" * 29)
    yield "pattern as long as the text", pair("1" * 30, "1" * 30)
    yield "a hit that would use padding", pair("1000", "0001")
    yield "padding up to the byte", pair("10000000", "0000000100000")
    yield "R2 and V2", pair("110010110010110010110", "110010" * 5 + "110")
    yield "a beginning of the pattern that does not end it", pair("0011", "10010011")
    for m in [1, 2, 63, 64, 65]:
        yield "pattern of %d ones" % m, pair("1" * m, "1" * 200)
        yield "pattern of %d, zeros and a 1" % m, pair("0" * (m - 1) + "1", "0" * 150 + "1" + "0" * 150)
        yield "pattern of %d, a 1 in its middle" % m, pair("0" * (m // 2) + "1" + "0" * (m - m // 2 - 1), "0" * 300)


def drawn(rng):
    """Good input of every length class."""
    for m in [1, 2, 7, 8, 9, 14, 15, 16, 17, 31, 63, 64, 65, 127, 128, 129, 500, 2047, 2048]:
        for n in [0, 1, m - 1, m, m + 1, m + 7, m + 8, m + 62, m + 63, m + 64, 200, 511, 512, 513, 1000]:
            if not 0 <= n <= 4096:
                continue
            for make in [bits, periodic]:
                t = make(rng, n)
                if make is bits and n >= m and rng.random() < 0.7:
                    s = rng.randrange(n - m + 1)
                    yield "m %d n %d" % (m, n), pair(t[s : s + m], t)
                else:
                    yield "m %d n %d" % (m, n), pair(make(rng, m), t)


def damaged(rng):
    """Small good input with one byte changed, taken out or put in."""
    for _ in range(150):
        data = bytearray(pair(bits(rng, rng.randrange(1, 20)), bits(rng, rng.randrange(0, 40))))
        at = rng.randrange(len(data))
        kind = rng.randrange(3)
        if kind == 0:
            data[at] = rng.randrange(256)
        elif kind == 1:
            del data[at]
        else:
            data.insert(at, rng.choice(b"01\n\r \x002"))
        yield "damaged at %d" % at, bytes(data)


def stored():
    for name in sorted(os.listdir(INPUTS)):
        with open(os.path.join(INPUTS, name), "rb") as f:
            yield name, f.read()


# ---- runs


def outcome(out, status):
    """What was written, and after it the exit status where that is not 0."""
    return out if status == 0 else out + b"exit status %d" % status


def run(data):
    """What is written to standard output, and then what is written to standard error: nothing."""
    p = subprocess.run(
        [PROGRAM], input=data, stdout=subprocess.PIPE, stderr=subprocess.PIPE, check=False, timeout=SECONDS
    )
    return outcome(p.stdout + p.stderr, p.returncode)


def run_in_pieces(data, cuts):
    """Hands the input over in pieces, with a pause between them."""
    p = subprocess.Popen([PROGRAM], stdin=subprocess.PIPE, stdout=subprocess.PIPE)
    try:
        last = 0
        for cut in cuts + [len(data)]:
            p.stdin.write(data[last:cut])
            p.stdin.flush()
            time.sleep(0.02)
            last = cut
        p.stdin.close()
    except BrokenPipeError:
        pass
    p.stdin = None
    out, _ = p.communicate(timeout=SECONDS)
    return outcome(out, p.returncode)


def run_unwritten(data, out, action):
    """Runs with an output that takes nothing, and an action for SIGPIPE; the exit status and standard error."""
    p = subprocess.run(
        [PROGRAM],
        input=data,
        stdout=out,
        stderr=subprocess.PIPE,
        preexec_fn=lambda: signal.signal(signal.SIGPIPE, action),
        check=False,
        timeout=SECONDS,
    )
    return p.returncode, p.stderr


def closed_pipe():
    """The writing end of a pipe that nobody reads."""
    reader, writer = os.pipe()
    os.close(reader)
    return writer


def unwritten():
    """A name, what came of a run whose output cannot be written, and what was to come of it."""
    for data in [pair("0100110100", "011001001000100110100101000101001001"), pair("1", "1" * 4096), b""]:
        with open("/dev/full", "wb") as full:
            got = run_unwritten(data, full, signal.SIG_DFL)
        yield "full disk", got, (0, b"hits: cannot write: No space left on device\n")
        for name, action, want in [
            ("closed pipe, signal ignored", signal.SIG_IGN, (0, b"hits: cannot write: Broken pipe\n")),
            ("closed pipe", signal.SIG_DFL, (0, b"hits: cannot write: Broken pipe\n")),
        ]:
            out = closed_pipe()
            got = run_unwritten(data, out, action)
            os.close(out)
            yield name, got, want


def main():
    global PROGRAM
    if len(sys.argv) > 1:
        PROGRAM = sys.argv[1]
    else:
        made = subprocess.run(
            ["make", "-s", "target/bin/hits"],
            cwd=os.path.dirname(HERE),
            stdout=subprocess.PIPE,
            stderr=subprocess.STDOUT,
            check=False,
        )
        if made.returncode:
            sys.exit(made.stdout.decode(errors="replace") + "tests/hits.py: make target/bin/hits failed")
    rng = random.Random(20261115)
    checks, wrong = 0, []

    def same(name, got, want):
        nonlocal checks
        checks += 1
        if got != want:
            wrong.append("%s: expected %.120r, found %.120r" % (name, want, got))

    def compare(name, data, got):
        same(name, got, expected(data))

    for source in [stored(), named(), drawn(rng), damaged(rng)]:
        for name, data in source:
            compare(name, data, run(data))
    paper = pair("0100110100", "011001001000100110100101000101001001")
    for cuts in [[1], [10], [11], [12], [47], [5, 11, 30], list(range(1, len(paper)))]:
        compare("in pieces %r" % cuts[:4], paper, run_in_pieces(paper, cuts))
    longest = pair("1" * 2048, "01" * 2048)
    for data in [longest, longest + b"\n", longest[:-1]]:
        compare("long, in pieces", data, run_in_pieces(data, [1, 2048, 2049, 4096, 6144]))
    for name, got, want in unwritten():
        same(name, got, want)
    if wrong:
        print("hits.py: %d of %d checks differ" % (len(wrong), checks))
        print("\n".join(wrong[:10]))
        sys.exit(1)
    print("hits.py: %d checks" % checks)


main()
