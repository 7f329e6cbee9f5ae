#!/usr/bin/env python3
"""Runs every example of docs/GUIDE.md and README.md: what stands in a fenced block is held to the library, to the program
`hits` or to document 01's rules, or is a program or a command whose output follows it. Each kind of block has a function below;
a block of another kind, or with a line that no function reads, is a failure. Prints one line with the number of checks, or what
differs and exits with 1.

usage: guide.py [PAGE...]"""

import ctypes
import os
import re
import shutil
import subprocess
import sys
import tempfile

ROOT = os.path.dirname(os.path.dirname(os.path.abspath(__file__)))
PAGES = ["docs/GUIDE.md", "README.md"]
ARCHIVE = os.path.join(ROOT, "target", "lib", "libmitongory.a")
HITS = os.path.join(ROOT, "target", "bin")
METHODS = ["plain", "hash", "skip", "wide", "tail"]
STOPS = ["done", "full", "spent"]
WILD = "?"
ALL = 2**32 - 1
SECONDS = 300

checks = 0


def check(said, expected, where):
    global checks
    checks += 1
    if said != expected:
        sys.exit("tests/guide.py: %s\n  the guide has: %s\n  right is:      %s" % (where, expected, said))


# ---- the library, as a shared object made of the archive


def load(folder):
    shared = os.path.join(folder, "mitongory.so")
    whole = ["-Wl,--whole-archive", ARCHIVE, "-Wl,--no-whole-archive"]
    subprocess.run(["gcc", "-shared", "-o", shared] + whole, check=True, timeout=SECONDS)
    return ctypes.CDLL(shared)


def pack(bits, padding="0"):
    padded = bits + padding * (-len(bits) % 8)
    return bytes(int(padded[i : i + 8], 2) for i in range(0, len(padded), 8))


def cells(kind, values):
    return (kind * max(len(values), 1))(*values), ctypes.c_size_t(len(values))


def both_runs(pattern, free, second=None):
    """A pattern of characters 0, 1 and ? as its two runs and its bit count. `free` is the value of the bits that never matter:
    the wild ones, and in both runs those after the last one. The second run has so many bytes, where that is given."""
    values = pack(pattern.replace(WILD, free), free)
    fixed = pack("".join("0" if bit == WILD else "1" for bit in pattern), free)[:second]
    return cells(ctypes.c_uint8, values) + cells(ctypes.c_uint8, fixed) + (ctypes.c_uint64(len(pattern)),)


def both_runs_of_set(patterns, free, lengths=(None, None)):
    """The patterns of a set as two runs and their bit counts, each pattern from the byte after the one before on. The two runs
    have so many bytes, where that is given."""
    runs = [both_runs(pattern, free) for pattern in patterns]
    values, fixed = (b"".join(bytes(run[i])[: run[i + 1].value] for run in runs) for i in (0, 2))
    cut = [cells(ctypes.c_uint8, run[:length]) for run, length in zip((values, fixed), lengths)]
    return cut[0] + cut[1] + cells(ctypes.c_uint64, [len(pattern) for pattern in patterns])


def either_way(call):
    """What a call says, which is the same for both values of the bits that never matter."""
    said = call("0")
    if call("1") != said:
        sys.exit("tests/guide.py: bits of a pattern matter that are wild, or after the last one")
    return said


class Library:
    def __init__(self, folder):
        self.calls = load(folder)

    def scratch_cells(self, method, m):
        """A refusal's number, below 0, or the cells."""
        answer = cells(ctypes.c_uint64, [0])
        said = self.calls.mitongory_scratch_cells(ctypes.c_uint32(METHODS.index(method)), ctypes.c_uint64(m), *answer)
        return answer[0][0] if said == 0 else -said

    def search(self, text, pattern, method, mark, budget, room, second=None, lent=None):
        """A refusal's number, or steps, places, mark and stop. The scratch is as short as it may be, where it is not given."""
        lent = max(self.scratch_cells(method, len(pattern)), 0) if lent is None else lent
        both = lambda free: both_runs(pattern, free, second)
        return either_way(lambda free: self.searched(text, both(free), method, mark, budget, room, lent))

    def searched(self, text, pattern, method, mark, budget, room, lent):
        bits = cells(ctypes.c_uint8, pack(text)) + (ctypes.c_uint64(len(text)),)
        places = cells(ctypes.c_uint32, [7] * room)
        answer = cells(ctypes.c_uint64, [0] * 4)
        numbers = [ctypes.c_uint32(x) for x in (METHODS.index(method), mark, budget)]
        scratch = cells(ctypes.c_uint64, [5] * lent)
        said = self.calls.mitongory_search(*bits, *pattern, *numbers, *places, *scratch, *answer)
        if said != 0:
            return said
        steps, count, mark, stop = answer[0]
        return steps, list(places[0])[:count], mark, STOPS[stop]

    def search_set(self, text, patterns, mark, budget, room, lengths=(None, None)):
        """A refusal's number, or steps, pairs, mark and stop."""
        both = lambda free: both_runs_of_set(patterns, free, lengths)
        return either_way(lambda free: self.searched_set(text, both(free), mark, budget, room))

    def searched_set(self, text, patterns, mark, budget, room):
        bits = cells(ctypes.c_uint8, pack(text)) + (ctypes.c_uint64(len(text)),)
        pairs, answer = cells(ctypes.c_uint32, [7] * room), cells(ctypes.c_uint64, [0] * 4)
        numbers = [ctypes.c_uint32(x) for x in (mark, budget)]
        said = self.calls.mitongory_search_set(*bits, *patterns, *numbers, *pairs, *answer)
        if said != 0:
            return said
        steps, count, mark, stop = answer[0]
        return steps, list(zip(pairs[0][: 2 * count : 2], pairs[0][1 : 2 * count : 2])), mark, STOPS[stop]

    def hash_value(self, pattern, byte):
        return either_way(lambda free: self.hashed(both_runs(pattern, free), byte))

    def hashed(self, pattern, byte):
        answer = cells(ctypes.c_uint64, [0])
        said = self.calls.mitongory_hash_value(*pattern, ctypes.c_uint8(byte), *answer)
        return answer[0][0] if said == 0 else "refused %d" % said

    def write(self, positions):
        target, answer = cells(ctypes.c_uint8, [0] * 64), cells(ctypes.c_uint64, [0])
        said = self.calls.mitongory_list_write(*cells(ctypes.c_uint32, positions), *target, *answer)
        return bytes(target[0][: answer[0][0]]) if said == 0 else said

    def read(self, file, room):
        target, answer = cells(ctypes.c_uint32, [0] * room), cells(ctypes.c_uint64, [0])
        said = self.calls.mitongory_list_read(*cells(ctypes.c_uint8, file), *target, *answer)
        return list(target[0])[: answer[0][0]] if said == 0 else said

    def mark(self, key, positions, counts):
        """A refusal's number, or right, missed and false of each sheet and then of all."""
        report, answer = cells(ctypes.c_uint32, [7] * 3 * len(counts)), cells(ctypes.c_uint64, [0] * 3)
        lists = cells(ctypes.c_uint32, key) + cells(ctypes.c_uint32, positions)
        said = self.calls.mitongory_mark_sitting(*lists, *cells(ctypes.c_uint64, counts), *report, *answer)
        if said != 0:
            return said
        return [tuple(report[0][3 * i : 3 * i + 3]) for i in range(len(counts))] + [tuple(answer[0])]


def counted(count, word):
    return "%d %s%s" % (count, word, "" if count == 1 else "s")


# ---- one function for each kind of block


def packed(block, where):
    """Bytes in hexadecimal and their bits; how many of them count, and those."""
    rows = dict((line.split()[0], line.split()[1:]) for line in block)
    check(sorted(rows), ["bits", "byte", "count", "string", "value"], where)
    check([str(i) for i in range(len(rows["value"]))], rows["byte"], where)
    check(["{:08b}".format(int(b, 16)) for b in rows["value"]], rows["bits"], where)
    check("".join(rows["bits"])[: int(rows["count"][0])], rows["string"][0], where)


def runs(block, where):
    """A pattern's two runs in bits; how many of them count, and those as characters, a wild one as ?."""
    rows = dict((line.split()[0], line.split()[1:]) for line in block)
    check(sorted(rows), ["byte", "count", "fixed", "pattern", "string"], where)
    for run in ("pattern", "fixed"):
        check([str(i) for i in range(len(rows[run]))], rows["byte"], where)
        check({len(bits) for bits in rows[run]}, {8}, where)
    bits = zip("".join(rows["pattern"]), "".join(rows["fixed"]))
    characters = "".join(value if fixed == "1" else WILD for value, fixed in bits)
    check(characters[: int(rows["count"][0])], rows["string"][0], where)


CALL = re.compile(r"^(\w+) +mark (\d+) +budget (\w+) +cells (\d+) +(?:fixed (\d+) +)?(?:scratch (\d+) +)?-> +(.*)$")


def calls(block, where):
    """A text, a pattern, and calls with their answers; perhaps with the bytes of the second run, and the cells of scratch."""
    text, pattern = (line.split()[1] for line in block[:2])
    for line in block[2:]:
        method, mark, budget, room, second, lent, answer = CALL.match(line).groups()
        budget = ALL if budget == "all" else int(budget)
        lengths = [length and int(length) for length in (second, lent)]
        said = library.search(text, pattern, method, int(mark), budget, int(room), *lengths)
        if isinstance(said, int):
            check("refused %d" % said, answer, where)
            continue
        steps, places, mark, stop = said
        listed = " ".join(map(str, places)) or "none"
        check("%s, %s, mark %d, places %s" % (stop, counted(steps, "step"), mark, listed), " ".join(answer.split()), where)


def layout(block, where):
    """The two runs of a set in bits, with the pattern that each byte belongs to; the bit counts, and the patterns themselves, a
    wild bit as ?."""
    rows = dict((line.split()[0], line.split()[1:]) for line in block)
    check(sorted(rows), ["byte", "counts", "fixed", "number", "patterns", "strings"], where)
    counts = [int(count) for count in rows["counts"]]
    numbers = [str(i) for i, count in enumerate(counts) for _ in range((count + 7) // 8)]
    check([str(i) for i in range(len(numbers))], rows["byte"], where)
    check(numbers, rows["number"], where)
    both = []
    for run in ("patterns", "fixed"):
        check([len(bits) for bits in rows[run]], [8] * len(numbers), where)
        both.append(["".join(bits for bits, j in zip(rows[run], numbers) if j == str(i)) for i in range(len(counts))])
    strings = ["".join(v if f == "1" else WILD for v, f in zip(*runs))[:m] for runs, m in zip(zip(*both), counts)]
    check(strings, rows["strings"], where)


def text_and_set(block):
    """The text and the patterns of a set, which may be none, from the first two lines of a block."""
    text, patterns = block[0].split()[1], block[1].split()[1:]
    return text, [] if patterns == ["(none)"] else patterns


CALL_OF_SET = re.compile(r"^mark (\d+) +budget (\w+) +cells (\d+) +(?:patterns (\d+) +)?(?:fixed (\d+) +)?-> +(.*)$")


def sets(block, where):
    """A text, the patterns of a set, and calls with their answers; perhaps with the bytes of either run."""
    text, patterns = text_and_set(block)
    for line in block[2:]:
        mark, budget, room, first, second, answer = CALL_OF_SET.match(line).groups()
        budget = ALL if budget == "all" else int(budget)
        lengths = [length and int(length) for length in (first, second)]
        said = library.search_set(text, patterns, int(mark), budget, int(room), lengths)
        if isinstance(said, int):
            check("refused %d" % said, answer, where)
            continue
        steps, pairs, mark, stop = said
        listed = " ".join("(%d, %d)" % pair for pair in pairs) or "none"
        check("%s, %s, mark %d, pairs %s" % (stop, counted(steps, "step"), mark, listed), " ".join(answer.split()), where)


def pairs(block, where):
    """A text, the patterns of a set, and all pairs, each with its pattern drawn at its place."""
    text, patterns = text_and_set(block)
    column = block[0].index(text)
    _, found, _, stop = library.search_set(text, patterns, 0, ALL, 2 * len(text) * len(patterns))
    check(stop, "done", where)
    drawn = [("(%d, %d)" % pair).ljust(column) + " " * pair[0] + patterns[pair[1]] for pair in found]
    check(drawn, block[2:], where)


def steps(block, where, method):
    """A text, the pattern drawn at each mark that the method comes to, with what the step there finds."""
    text = block[0].split()[1]
    column = block[0].index(text)
    pattern = block[1].split()[1]
    mark, room = 0, len(text) + 1
    for line in block[1:]:
        _, places, moved, stop = library.search(text, pattern, method, mark, 1, room)
        found = " finds " + " ".join(map(str, places)) if places else ""
        drawn = " " * mark + pattern
        check(("%*d" % (column - 2, mark)) + "  " + drawn + found, re.sub(r"  +finds", " finds", line.rstrip()), where)
        mark = moved
    check(stop, "done", where + ", the step after the last one drawn")


def rows(block, where):
    """A pattern's shifted rows and masks, by document 01's rule."""
    pattern = block[0].split()[1]
    for line in block[1:]:
        name, i, row, word, mask = re.match(r"^(row) (\d) +([01 ]+?) +(mask) +([01 ]+)$", line).groups()
        i, m = int(i), len(pattern)
        at = [8 * h - i + j for h in range((m + i + 7) // 8) for j in range(8)]
        fixed = [0 <= k < m and pattern[k] != WILD for k in at]
        check("".join(pattern[k] if here else "0" for k, here in zip(at, fixed)), row.replace(" ", ""), where)
        check("".join("1" if here else "0" for here in fixed), mask.replace(" ", ""), where)


def scratches(block, where):
    """The cells of scratch that a method takes for a pattern of so many bits."""
    for line in block:
        method, m, answer = re.match(r"^(\w+) +m (\d+) +-> +(.*)$", line).groups()
        said = library.scratch_cells(method, int(m))
        check("refused %d" % -said if said < 0 else str(said), answer, where)


def hash_values(block, where):
    """A pattern, and H of some values."""
    pattern = block[0].split()[1]
    for line in block[1:]:
        value, move = re.match(r"^H\(([01]{8})\) = (.*)$", line).groups()
        check(str(library.hash_value(pattern, int(value, 2))), move, where)


def files(block, where):
    """A list's file both ways, or what a reader with so many cells says of bytes."""
    for line in block:
        written = re.match(r"^list (.*?) +-> ([0-9a-f ]+|refused \d+)$", line)
        if written:
            positions = [] if written[1] == "(empty)" else [int(p) for p in written[1].split()]
            said = library.write(positions)
            check("refused %d" % said if isinstance(said, int) else said.hex(" "), written[2], where)
            if not isinstance(said, int):
                check(library.read(said, max(len(said) - 1, 0)), positions, where)
            continue
        file, room, answer = re.match(r"^bytes ([0-9a-f ]+?) +cells (\d+) +-> (.*)$", line).groups()
        said = library.read(bytes.fromhex(file), int(room))
        check("refused %d" % said if isinstance(said, int) else "list " + " ".join(map(str, said)), answer, where)


def sittings(block, where):
    """A key, sheets with what each comes to, perhaps other counts than theirs, and the totals; or the refusal alone."""
    rows = [re.match(r"^(key|sheet|counts|totals) *([^-]*?) *(?:-> +(.*))?$", line).groups() for line in block]
    numbers = lambda kind: [[int(p) for p in text.replace("(empty)", "").split()] for k, text, _ in rows if k == kind]
    sheets = numbers("sheet")
    counts = (numbers("counts") or [[len(sheet) for sheet in sheets]])[0]
    said = library.mark(numbers("key")[0], sum(sheets, []), counts)
    said = "refused %d" % said if isinstance(said, int) else ["right %d, missed %d, false %d" % marks for marks in said]
    answers = [answer for _, _, answer in rows if answer]
    check(said, answers if isinstance(said, list) else "".join(answers), where)


def program(block, where, folder, printed):
    """A C program, and what it prints."""
    source, binary = os.path.join(folder, "guide.c"), os.path.join(folder, "guide")
    with open(source, "w") as f:
        f.write("\n".join(block) + "\n")
    strict = ["-std=c99", "-Wall", "-Wextra", "-pedantic", "-Werror", "-I" + os.path.join(ROOT, "include")]
    subprocess.run(["gcc"] + strict + [source, ARCHIVE, "-o", binary], check=True, timeout=SECONDS)
    done = subprocess.run([binary], stdout=subprocess.PIPE, timeout=SECONDS, check=True)
    check(done.stdout.decode().splitlines(), printed, where)


def rattle(block, where, folder, printed):
    """A Rattle program over the crates, and what it prints: run with no proof, by the interpreter and compiled."""
    name = "guide"
    files = {
        "crates.txt": page("crates.txt") + "%s: lines search rules bits arrayvec\n" % name,
        "crates/%s/src/main.rt" % name: "\n".join(block) + "\n",
    }
    with tempfile.TemporaryDirectory(dir=folder) as repository:
        os.makedirs(os.path.join(repository, "crates", name, "src"))
        for crate in os.listdir(os.path.join(ROOT, "crates")):
            from_there = os.path.join(ROOT, "crates", crate)
            shutil.copytree(from_there, os.path.join(repository, "crates", crate), ignore=shutil.ignore_patterns("out"))
        for path, text in files.items():
            with open(os.path.join(repository, path), "w") as f:
                f.write(text)
        done = subprocess.run(
            ["rt", "try"],
            stdout=subprocess.PIPE,
            stderr=subprocess.PIPE,
            timeout=SECONDS,
            cwd=os.path.join(repository, "crates", name),
        )
    check("" if done.returncode == 0 else done.stderr.decode(), "", where)
    check(done.stdout.decode().splitlines(), printed, where)


def console(block, where):
    """Commands after `$ `, each with what it prints."""
    at = 0
    while at < len(block):
        command, at = block[at], at + 1
        expected = []
        while at < len(block) and not block[at].startswith("$ "):
            expected.append(block[at])
            at += 1
        path = HITS + os.pathsep + os.environ["PATH"]
        done = subprocess.run(
            ["bash", "-c", command[2:]], stdout=subprocess.PIPE, timeout=SECONDS, cwd=ROOT, env=dict(os.environ, PATH=path)
        )
        check((done.returncode, done.stdout.decode().splitlines()), (0, expected), where)


def blocks(text):
    """Each fenced block: the line that it starts on, its kind and its lines."""
    lines = text.split("\n")
    start = None
    for i, line in enumerate(lines):
        if not line.startswith("```"):
            continue
        if start is None:
            start = i
        else:
            yield start + 1, lines[start][3:].split(), lines[start + 1 : i]
            start = None
    if start is not None:
        sys.exit("tests/guide.py: the block of line %d has no end" % (start + 1))


# ---- names and numbers, which are the same everywhere


def page(path):
    with open(os.path.join(ROOT, path), encoding="utf-8") as f:
        return f.read()


def named(text, pattern):
    """The numbers with their names that a pattern finds in a text, a name of C written as in Rattle and Rust."""
    found = re.findall(pattern, text, re.M)
    return {int(number): name.title().replace("_", "") if name.isupper() else name for name, number in found}


def refusals():
    """Each refusal has one name and one number: in the guide, the header, the Rust crate and the definitions."""
    guide = {int(number): name for number, name in re.findall(r"^\| (\d+) \| (\w+) \|", page("docs/GUIDE.md"), re.M)}
    results = re.search(r"enum mitongory_result \{(.*?)\};", page("include/mitongory.h"), re.S).group(1)
    header = named(results, r"MITONGORY_(\w+) = ([1-9]\d*)")
    check(header, guide, "refusals of the header against the guide")
    rules = {number: name for number, name in guide.items() if number < 100}
    crate = named(page("rust/src/refusal.rs"), r"^    (\w+) = (\d+),")
    check(crate, rules, "refusals of the Rust crate against the guide")
    for path, name in [
        ("crates/search/specs/Verdict.antt", "number_of_refusal"),
        ("crates/set/specs/Promise.antt", "number_of_refusal"),
        ("crates/eight/specs/Eight.antt", "number_of"),
        ("crates/positions/specs/Promise.antt", "(?:write|read)_refusal"),
        ("crates/marking/specs/Promise.antt", "mark_refusal"),
    ]:
        defined = named(page(path), r"^%s (\w+) = (\d+)$" % name)
        check(len(defined) > 1, True, "refusals of " + path)
        check(defined, {number: rules.get(number) for number in defined}, "refusals of %s against the guide" % path)
    for path, whose in [("search/specs/Verdict.antt", "a search's"), ("set/specs/Promise.antt", "a set's")]:
        ordered = named(page("crates/" + path), r"^number_of_refusal (\w+) = (\d+)$")
        check(list(ordered), [number for number in guide if number in ordered], "the order of %s refusals" % whose)


SIMPLE = {
    "packed": packed,
    "runs": runs,
    "calls": calls,
    "layout": layout,
    "sets": sets,
    "pairs": pairs,
    "rows": rows,
    "hash": hash_values,
    "scratch": scratches,
    "file": files,
    "sitting": sittings,
    "console": console,
}


PROGRAMS = {"c": program, "rattle": rattle}


def run(path, folder):
    pending = None
    for number, kind, block in blocks(page(path)):
        where = "%s, line %d" % (path, number)
        if pending and kind != ["output"]:
            sys.exit("tests/guide.py: %s: the program before has no output block" % where)
        if len(kind) == 1 and kind[0] in SIMPLE:
            SIMPLE[kind[0]]([line for line in block if line], where)
        elif kind[:1] == ["steps"]:
            steps(block, where, kind[1])
        elif len(kind) == 1 and kind[0] in PROGRAMS:
            pending = PROGRAMS[kind[0]], block
        elif kind == ["output"]:
            run_it, source = pending
            run_it(source, where, folder, block)
            pending = None
        elif kind not in (["rust"], ["text"]):  # examples of the Rust documentation, which runs them; and no example
            sys.exit("tests/guide.py: %s: no test runs a block of the kind '%s'" % (where, " ".join(kind)))
    if pending:
        sys.exit("tests/guide.py: %s: the last program has no output block" % path)


def main():
    global library
    with tempfile.TemporaryDirectory() as folder:
        library = Library(folder)
        for path in sys.argv[1:] or PAGES:
            run(path, folder)
    refusals()
    print("guide.py: %d checks" % checks)


main()
