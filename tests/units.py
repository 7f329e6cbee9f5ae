#!/usr/bin/env python3
"""Checks that bit numbers and byte numbers are converted by name: no source below crates/*/src divides or multiplies by 8,
takes a remainder by 8, or shifts and masks to the same effect, outside the file that defines the conversions, be it by an
operator or by a method: `div_ceil(8)` divides, and `chunks(8)` counts eights. Comments and contracts are no code, and may
speak of 8. Prints one line with the number of checks, which are the files read and the planted samples, or what it found and
exits with 1.

usage: units.py [CRATES]"""

import glob
import os
import re
import sys

from sources import CRATES, code

# Place::byte, Place::offset, ByteNo::place, ByteNo::place_at and bytes_for are defined here.
DEFINED = "bits/src/lib.rt"

# The test programs read and write bits by themselves on purpose, so that the naive search and the naive codec share nothing
# with the library that they check.
LEFT_OUT = ["draws", "trials", "list_trials"]

# Lines of code elsewhere that are no conversion between the two units, each with its reason: (file, line, reason).
EXCEPTIONS = [
    (
        "tail/src/lib.rt",
        "((y << 1) ^ self.b0) & ((y << 2) ^ self.b1) & ((y << 3) ^ self.b2) & ((y << 4) ^ self.b3)",
        "the window moved up for each of four bits of the pattern, by 1 to 4 bits in turn",
    ),
    ("matcher/src/query.rt", "for load in 0..last.div_ceil(8) {", "the loads of eight bytes that begin before a byte, by their numbers"),
    ("matcher/src/query.rt", "let here = ByteNo(8 * load);", "the first byte of a load of eight bytes, by the number of the load"),
]


# ---- finding conversions

NUMBER = r"\b(0x[0-9a-fA-F_]+|0b[01_]+|0o[0-7_]+|[0-9][0-9_]*)(?:_?[iu](?:8|16|32|64|size))?\b"
CAST = r"(?:\s+as\s+\w+)?"


def value(digits):
    return int(digits.replace("_", ""), 0 if digits[:2] in ("0x", "0b", "0o") else 10)


# Names of the language that are 8, and a number as another type.
EIGHT = re.compile(r"\b[iu]8::BITS\b|\b(?:\w+::)*size_of::<\s*(?:[iu]64|[iu]size|f64)\s*>\(\s*\)")
FROM = re.compile(r"\b[iu](?:8|16|32|64|size)::from\(\s*(\d+)\s*\)")


def plain_numbers(line, constants):
    """The line with each number, and each constant that names one, as its value alone: no suffix, cast or parentheses."""
    line = EIGHT.sub("8", line)
    line = re.sub(r"\b(?:\w+::)*([A-Z][A-Z0-9_]*)\b", lambda m: str(constants.get(m.group(1), m.group())), line)
    line = re.sub(NUMBER, lambda m: str(value(m.group(1))), line)
    line = FROM.sub(r"\1", line)
    line = re.sub(r"(?<!\w)\(\s*(\d+)%s\s*\)" % CAST, r"\1", line)
    return re.sub(r"\b(\d+)\s+as\s+\w+", r"\1", line)


CONVERSION = re.compile(r"[*/%]=?\s*8\b|\b8\s*\*|(?:>>|<<)=?\s*3\b|(?<!&)&=?\s*!?\s*7\b|\b7\s*&(?!&)")

# The same by a method, also where it is called by its path, with the number that it must not have: a product, division or
# remainder of any kind, what takes a slice or a range in chunks or by steps of eight, a shift by 3, 2 to the power of 3, and a
# mask of 7.
METHODS = [
    (r"(?:\w+_)?(?:mul|div|rem)(?:_\w+)?|\w*chunks(?:_\w+)?|(?:\w+_)?windows|step_by|\w*multiple_of", "8"),
    (r"(?:\w+_)?(?:shl|shr|pow)(?:_\w+)?", "3"),
    (r"bitand(?:_assign)?", "7"),
]
METHODS = [(re.compile(r"\b(?:%s)\b(?=\s*(?:::\s*<|\())" % names), number) for names, number in METHODS]

# These take the number from the type of what they give where the call does not name it, so it cannot be told.
UNNAMED = re.compile(r"\b(?:as_r?chunks(?:_\w+)?|array_(?:chunks|windows))\s*\(")


def parts(text, at):
    """What stands between the commas of the brackets that open at `at`, and where they end."""
    found, depth, start, i = [], 0, at + 1, at
    opens, closes = ("([{<", ")]}>") if text[at] == "<" else ("([{", ")]}")
    while i < len(text):
        depth += (text[i] in opens) - (text[i] in closes)
        if depth == 0 or depth == 1 and text[i] == ",":
            found.append(text[start:i].strip("{}&! \n"))
            start = i + 1
        if depth == 0:
            return found, i + 1
        i += 1
    return found, i


def called_with(text, name, number):
    """Whether a call of a method by that name takes the number, in angles or as an argument, or as what it is asked of, but for
    a shift or a power."""
    if number != "3" and re.search(r"\b%s\s*\.\s*$" % number, text[: name.start()]):
        return True
    at, taken = name.end(), []
    while at < len(text) and len(taken) < 2:
        opened = re.compile(r"\s*(?:::\s*(?=<))?(?=[(<])").match(text, at)
        if not opened:
            break
        found, at = parts(text, opened.end())
        taken.append(found)
    return any(number in found for found in taken)


def conversions(text):
    """The numbers of the lines that convert, from 1, with the line's code."""
    lines = code(text).split("\n")
    constants = {}
    for line in lines:
        named = re.match(r"\s*(?:pub(?:\([^)]*\))?\s+)?const\s+(\w+)\s*:[^=]*=\s*%s%s\s*;" % (NUMBER, CAST), line)
        if named:
            constants[named.group(1)] = value(named.group(2))
    numbers = "\n".join(plain_numbers(line, constants) for line in lines)
    places = [m.start() for pattern in (CONVERSION, UNNAMED) for m in pattern.finditer(numbers)]
    places += [m.start() for names, number in METHODS for m in names.finditer(numbers) if called_with(numbers, m, number)]
    found = sorted({numbers.count("\n", 0, place) for place in places})
    return [(n + 1, lines[n].strip()) for n in found]


# ---- the check itself is checked

BAD = [
    "let b = p / 8;",
    "let b = (p / 8) as usize;",
    "let b = p /8u32;",
    "b /= 8;",
    "let r = at % 8usize;",
    "if at % 8 != 1 {",
    "let p = b * 8;",
    "let p = 8 * b + r;",
    "let p = 8u64*b;",
    "let p = 8 as u32 * b;",
    "let p = b * (8 as u32);",
    "let p = (8) * b;",
    "let b = p >> 3;",
    "let b = p >> 3u32;",
    "p <<= 3;",
    "let r = p & 7;",
    "let r = p & 0x7;",
    "let r = p & 0b111;",
    "let r = 7 & p;",
    "let p = p & !7;",
    "let b = (n + 7) / 0x08; // ceil",
    "const BYTE: u32 = 8;\nlet b = p / BYTE;",
    "pub(crate) const BYTE: u32 = 8;\nlet b = p / BYTE;",
    "    ensures { result ≡ x } { x / 8 }",
    "    ensures { λ r. ⌜ r ≡ x ⌝ } { x / 8 }",
    "let s = b\"//\"; let b = p / 8;",
    "let p = 8\n    * b;",
    "    ghost low = { x };\n    fn f(x: u32) -> u32 { x / 8 }",
    "    ghost low: { x } by { y },\n    p: u32 = x / 8,",
    "let ghost = { x / 8 };",
    # by methods
    "let b = n.div_ceil(8);",
    "let b = n.div_floor(8);",
    "let b = n.div_euclid(8);",
    "let r = p.rem_euclid(8);",
    "let b = n.div_exact(8);",
    "let b = p.wrapping_div(8);",
    "let b = p.checked_div(8);",
    "let b = p.saturating_div(8);",
    "let b = p.overflowing_div(8);",
    "let b = p.wrapping_div_euclid(8);",
    "let r = p.wrapping_rem(8);",
    "let r = p.checked_rem(8);",
    "let r = p.overflowing_rem(8);",
    "let r = p.checked_rem_euclid(8);",
    "let p = b.wrapping_mul(8);",
    "let p = b.checked_mul(8)?;",
    "let p = b.saturating_mul(8);",
    "let p = b.overflowing_mul(8);",
    "let p = b.strict_mul(8);",
    "let p = b.unchecked_mul(8);",
    "let p = b.widening_mul(8);",
    "let p = b.carrying_mul(8, r);",
    "let p = b.mul_add(8, r);",
    "let p = b.mul(8);",
    "let b = p.div(8);",
    "let r = p.rem(8);",
    "p.mul_assign(8);",
    "let end = p.next_multiple_of(8);",
    "let end = p.checked_next_multiple_of(8);",
    "if p.is_multiple_of(8) {",
    "for eight in chars.chunks(8) {",
    "for eight in chars.chunks_mut(8) {",
    "for eight in chars.chunks_exact(8) {",
    "for eight in chars.chunks_exact_mut(8) {",
    "for eight in chars.rchunks(8) {",
    "for eight in chars.rchunks_exact(8) {",
    "for eight in &chars.iter().chunks(8) {",
    "for eight in chars.as_chunks::<8>().0 {",
    "let (eights, rest): (&[[u8; 8]], &[u8]) = chars.as_chunks();",
    "for eight in chars.as_rchunks::<8>().1 {",
    "for eight in chars.iter().array_chunks::<8>() {",
    "for eight in chars.iter().array_chunks() {",
    "for eight in chars.windows(8) {",
    "for eight in chars.array_windows::<8>() {",
    "for p in (0..n).step_by(8) {",
    "let b = p.shr(3);",
    "let b = p.wrapping_shr(3);",
    "let b = p.checked_shr(3)?;",
    "let b = p.overflowing_shr(3);",
    "let p = b.shl(3);",
    "let p = b.wrapping_shl(3);",
    "let p = b.unbounded_shl(3);",
    "p.shr_assign(3);",
    "let b = p / 2u32.pow(3);",
    "let b = p / 2usize.wrapping_pow(3);",
    "let p = b * two.checked_pow(3)?;",
    "let r = p.bitand(7);",
    "let r = p.bitand(!7);",
    "let r = p.shr(&3);",
    # the number in other words, and the method by its path
    "let b = n.div_ceil(0x8);",
    "let b = n.div_ceil(0b1000);",
    "let b = n.div_ceil(0o10);",
    "let b = n.div_ceil(8u32);",
    "let b = n.div_ceil(8_usize);",
    "let b = n.div_ceil((8));",
    "let b = n.div_ceil(8 as u64);",
    "let b = n.div_ceil({ 8 });",
    "let b = n.div_ceil(u64::from(8u8));",
    "let b = n.div_ceil(u8::BITS);",
    "let b = p / u8::BITS;",
    "let p = b * std::mem::size_of::<u64>();",
    "const BYTE: u32 = 8;\nlet b = n.div_ceil(BYTE);",
    "    const BYTE: u32 = 8;\nlet b = n.div_ceil(Self::BYTE) + p / Self::BYTE;",
    "let b = n\n    .div_ceil(\n        8,\n    );",
    "let b = u32::div_ceil(n, 8);",
    "let b = u32::div_ceil(rest(n, 1), 8u32);",
    "let b = Div::div(p, 8);",
    "for eight in <[u8]>::chunks(chars, 8) {",
    "let p = 8u32.wrapping_mul(b);",
    "let p = u32::wrapping_mul(8, b);",
    "let b = f(n).div_ceil(8) + 1;",
    "let eights = counted(n.div_ceil(8), m);",
    "let b = u32::wrapping_shr(p, 0x3);",
]
GOOD = [
    "let b = p.byte();",
    "// the byte p / 8",
    "let b = p.byte(); // p / 8",
    "    ensures { λ r. ⌜ r .0 ≡ self .0 / 8 ⌝ }",
    "    requires small { ⌜ (8 * b ≤ n) × (p & 7 ≡ 0) ⌝ }\n    ensures { λ r. ⌜ f { r } (b * 8) ⌝ }\n{\n    b.place()\n}",
    "    ensures low { result.0 ≡ self.0 / 8 }\n    ensures high { result.0 * 8 ≤ n }",
    "ghost use Prim.Native.Nat.{_*_, _/_};",
    "ghost use Rattle.std.specs.Prelude.{◌*◌, ◌/◌};",
    "let c = 16 * k + 8 + i;",
    "let p = Place(64 * k);",
    "let x = x * 256 + (y >> (8 - r)) % 256 + 128 / 80;",
    "let x = x << 1 | y << 8 | z >> 30;",
    "if a && 7 < b && 8 <= c {",
    "let f = flags & 70 & x8 * y;",
    "let c = b\"/ 8\";",
    "struct S {\n    p: u32,\n    pub ghost small: { p / 8 < n },\n}",
    "struct S {\n    p: u32,\n    ghost small: { P (p % 8) } by { small (8 * p) },\n}",
    "impl Low for Place {\n    ghost low = { λ x. x.0 / 8 };\n}",
    "trait Low {\n    ghost low: { (x : Self) → x ≡ x * 8 };\n    fn f(x: Self) -> u32\n        ensures { result ≡ x / 8 };\n}",
    # by methods, of other numbers, and other methods and functions
    "let c = (m + 7).div_ceil(64);",
    "for load in 0..count.div_ceil(56) {",
    "for cell in cells.chunks(4) {",
    "let c = cells.as_chunks::<4>().0;",
    "let n = n.div_ceil(f(8));",
    "let n = n.min(8).div_ceil(64);",
    "let n = n.wrapping_mul(3).saturating_add(8).saturating_sub(7);",
    "for p in (0..8).step_by(2) {",
    "let n = 3u32.pow(2) + x.pow(8) + x.shl(8) + x.wrapping_mul(3);",
    "let x = word(bytes, 8) + remaining(8) + divided(8) + chunk(8);",
    "let x = u32::BITS + u64::BITS + size_of::<u32>();",
    "    ensures { result ≡ div_ceil n 8 }\n    requires { (rem_euclid(8) ≡ chunks(8)) }",
    "// n.div_ceil(8)",
]


def planted():
    """How many samples there are, and those of them that are taken wrongly."""
    wrong = ["not found in %r" % text for text in BAD if not conversions(text)]
    wrong += ["found in %r" % text for text in GOOD if conversions(text)]
    if conversions("a\n/ 8;\n// x\nlet b = p / 8;") != [(2, "/ 8;"), (4, "let b = p / 8;")]:
        wrong.append("another line than the one that converts")
    excepted = judge("f.rt", "let a = 8 * k;\nlet b = 8 * j;", [("f.rt", "let a = 8 * k;", "cells"), ("f.rt", "8 * i", "none")])
    if excepted != (["f.rt:2: let b = 8 * j;"], [("f.rt", "let a = 8 * k;", "cells")]):
        wrong.append("exceptions")
    return len(BAD) + len(GOOD) + 2, wrong


# ---- the sources


def judge(name, text, exceptions):
    """What a file may not have, and the exceptions that it needs."""
    faults, used = [], []
    for n, line in conversions(text):
        fitting = [e for e in exceptions if e[0] == name and e[1] == line]
        used += fitting
        if not fitting:
            faults.append("%s:%d: %s" % (name, n, line))
    return faults, used


def main():
    crates = sys.argv[1] if len(sys.argv) > 1 else CRATES
    samples, faults = planted()
    faults = ["planted sample: " + f for f in faults]
    files = sorted(glob.glob(os.path.join(glob.escape(crates), "*", "src", "**", "*.rt"), recursive=True))
    used, apart = [], set()
    for path in files:
        name = os.path.relpath(path, crates).replace(os.sep, "/")
        with open(path, encoding="utf-8") as source:
            found, needed = judge(name, source.read(), EXCEPTIONS)
        crate = name.split("/")[0]
        if name == DEFINED or crate in LEFT_OUT:
            apart |= {name if name == DEFINED else crate} if found else set()
        else:
            faults += found
            used += needed
    faults += ["%s converts nothing: it need not be set apart" % a for a in [DEFINED] + LEFT_OUT if a not in apart]
    faults += ["%s: no such line, so no exception: %s" % e[:2] for e in EXCEPTIONS if e not in used]
    if faults:
        print("units.py: conversions between bits and bytes that go by no name, or a check that is wrong:")
        print("\n".join(faults))
        sys.exit(1)
    print("units.py: %d checks" % (len(files) + samples))


main()
