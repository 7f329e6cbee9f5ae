#!/usr/bin/env python3
"""Lists the places in crates/*/src that the points 1 to 7 of the design pass may mean, and counts the proofs for point 8.

usage: python3 tools/design_places.py        (from anywhere in the repository; there are no options)

It prints a line for each place, `POINT crate/src/file.rt:LINE function: what`, then for point 8 a line for each crate, and
last a count for each point. It finds candidates by the shape of the text alone, and knows no name of this repository: a line is
a place to look at, and docs/DESIGN-PASS.md says which of them are places. A function or type has at most one line for each
point (point 3 and the matches of 1 and 7: one for each loop or match), and the rules that it meets stand after one another.

  1  enums of the shape of Option or Result (two cases of which one carries a value, or a case that is called Refused, Passed,
     Unknown, Missing, Bad, None or Err); structs with a bool beside a value; integers called kind, way, class, stop, fault,
     refusal and the like, as a field or a parameter; functions to an integer whose comment says `, or 0` or the like, or whose
     name or code speaks of refusals as numbers; matches on numbers
  2  functions of one shape (all the same but for names, types and numbers), or of 9 tokens in 10 the same; types of one shape;
     a constant of the same value in several files; names that differ in a size alone; a name with the same parameters in
     three crates
  3  `while` loops that move a variable of their own test by a constant
  4  functions that are one match from cases to constants or back, a choice of the lesser or greater, a cast, a difference that
     is 0 where it would be negative, fields compared one by one, fields copied one by one, a loop that only copies, a word that
     is joined from bytes, or that store text at an index
  5  facts in the `requires` of three functions or more; groups of three parameters or more that three functions have, each
     function counted for the largest of its groups
  6  a slice followed by an integer as parameters; structs with an array beside an integer; arrays of numbers or of tuples as
     constants; tuple structs of three fields or more; an index that is read from the array that it indexes
  7  matches of which three arms or more call functions; tests of one variable that return calls of different functions;
     loops of one crate and one shape that differ in a function that they call
  8  for each crate: files in proofs/, answers, those that are one call of a tactic with std's rules alone, those of eight words
     or more whose text another answer of the crate has too, lemma files, lemmas, and the lemmas that nothing cites
"""
import collections
import difflib
import pathlib
import re

ROOT = pathlib.Path(__file__).resolve().parent.parent
INTS = {"u8", "u16", "u32", "u64", "usize", "i32", "i64"}
KEYWORDS = set("""fn pub let mut if else while for in loop match return break continue struct enum impl trait const as self
    true false use mod requires ensures ghost crate extern unsafe ref where move dyn""".split())
TOKEN = re.compile(r"[A-Za-z_][A-Za-z_0-9]*|\d[\w.]*|\"[^\"]*\"|->|=>|==|!=|<=|>=|&&|\|\||<<|>>|\+=|-=|\*=|::|\.\.|\S")

found = collections.OrderedDict()


def blank(m):
    return re.sub(r"[^\n]", " ", m.group(0))


def clean(text):
    """The text with comments, and what stands in strings, as blanks of the same length."""
    pattern = re.compile(r'//[^\n]*|b?"(?:\\.|[^"\\])*"|b?\'(?:\\.|[^\'\\])\'', re.S)

    def one(m):
        s = m.group(0)
        if s.startswith("//"):
            return blank(m)
        if s.endswith('"'):
            i = s.index('"')
            return s[:i] + '"' + re.sub(r"[^\n]", " ", s[i + 1:-1]) + '"'
        return "0".ljust(len(s))
    return pattern.sub(one, text)


def balanced(text, i):
    """The index after the bracket that closes the one at i."""
    pairs = {"(": ")", "[": "]", "{": "}", "<": ">"}
    a, b = text[i], pairs[text[i]]
    depth = 0
    while i < len(text):
        if text[i] == a:
            depth += 1
        elif text[i] == b and not (b == ">" and text[i - 1] in "-="):
            depth -= 1
            if depth == 0:
                return i + 1
        i += 1
    return len(text)


def split_top(text, sep=","):
    out, depth, last = [], 0, 0
    for i, ch in enumerate(text):
        if ch in "([{":
            depth += 1
        elif ch in ")]}":
            depth -= 1
        elif ch == "<" and sep == ",":
            depth += 1
        elif ch == ">" and sep == "," and text[i - 1] not in "-=":
            depth -= 1
        elif ch == sep and depth == 0:
            out.append(text[last:i])
            last = i + 1
    out.append(text[last:])
    return [" ".join(p.split()) for p in out if p.strip()]


def line_of(text, i):
    return text.count("\n", 0, i) + 1


class Item:
    pass


def functions(path, raw, text):
    """The functions with a body, each with its owner, parameters, result, clauses, body and the comment above it."""
    impls = []
    for m in re.finditer(r"(?m)^[ \t]*(?:unsafe\s+)?(impl|trait)\b([^{;]*)\{", text):
        head = re.sub(r"<[^<>]*>", "", m.group(2)).split(" where ")[0].split(":")[0].strip()
        impls.append((m.start(), balanced(text, m.end() - 1), re.split(r"\s+for\s+", head)[-1].split("::")[-1].strip()))
    lines = raw.splitlines()
    for m in re.finditer(r'(?m)^[ \t]*((?:pub(?:\([^)]*\))?\s+)?(?:const\s+)?(?:unsafe\s+)?(?:extern\s+"[^"]*"\s+)?)fn\s+(\w+)', text):
        f = Item()
        f.path, f.pub, f.bare = path, "pub" in m.group(1), m.group(2)
        owner = [o for a, b, o in impls if a < m.start() < b]
        f.name = (owner[-1] + "::" if owner else "") + f.bare
        i = m.end()
        if text[i:i + 1] == "<":
            i = balanced(text, i)
        i = text.index("(", i)
        end = balanced(text, i)
        f.params = []
        for p in split_top(text[i + 1:end - 1]):
            p = re.sub(r"^mut\s+", "", p)
            name, _, kind = p.partition(":")
            f.params.append((name.strip(), " ".join(kind.split())))
        i = end
        head = re.compile(r"\s*->\s*((?:(?!\b(?:requires|ensures|where|ghost|decreases)\b)[^{;])*)")
        m2 = head.match(text, i)
        f.result = ""
        if m2:
            f.result, i = " ".join(m2.group(1).split()), m2.end()
        f.clauses = []
        clause = re.compile(r"\s*(requires|ensures|decreases|ghost|where)\b([^{;]*)\{")
        while True:
            m2 = clause.match(text, i)
            if not m2:
                break
            if m2.group(1) == "where":
                i = m2.end() - 1
                break
            end = balanced(text, m2.end() - 1)
            f.clauses.append((m2.group(1), m2.group(2).strip(), raw[m2.end():end - 1]))
            i = end
        m2 = re.compile(r"\s*\{").match(text, i)
        if not m2:
            continue
        f.start, end = m2.end(), balanced(text, m2.end() - 1)
        f.body = text[f.start:end - 1]
        f.line = line_of(text, m.start(2))
        f.tokens = TOKEN.findall(f.body)
        note, k = [], f.line - 2
        while k >= 0 and lines[k].strip().startswith(("//", "#[")):
            if lines[k].strip().startswith("//"):
                note.insert(0, lines[k].strip()[2:].strip())
            k -= 1
        f.note = " ".join(note)
        f.text = text
        yield f


def types(path, text):
    for m in re.finditer(r"(?m)^[ \t]*(?:pub(?:\([^)]*\))?\s+)?(enum|struct)\s+(\w+)(?:<[^{(;]*>)?\s*([{(;])", text):
        t = Item()
        t.path, t.kind, t.name, t.line = path, m.group(1), m.group(2), line_of(text, m.start(2))
        t.tuple = m.group(3) == "("
        inner = "" if m.group(3) == ";" else text[m.end():balanced(text, m.end() - 1) - 1]
        parts = [re.sub(r"#\[[^\]]*\]", "", p).strip() for p in split_top(inner)]
        t.fields = []
        for p in parts:
            p = re.sub(r"^pub(?:\([^)]*\))?\s+", "", p)
            if t.kind == "enum":
                m2 = re.match(r"(\w+)\s*(.*)", p)
                t.fields.append((m2.group(1), m2.group(2)))
            elif t.tuple:
                t.fields.append((str(len(t.fields)), p))
            elif not p.startswith("ghost"):
                name, _, kind = p.partition(":")
                t.fields.append((name.strip(), kind.strip()))
        yield t


def constants(path, raw, text):
    for m in re.finditer(r"(?m)^[ \t]*(?:pub(?:\([^)]*\))?\s+)?const\s+(\w+)\s*:\s*([^=]+?)\s*=", text):
        c = Item()
        i, depth = m.end(), 0
        while i < len(text) and not (text[i] == ";" and depth == 0):
            depth += (text[i] in "([{") - (text[i] in ")]}")
            i += 1
        c.path, c.name, c.kind, c.line = path, m.group(1), m.group(2), line_of(text, m.start(1))
        c.value = " ".join(raw[m.end():i].split())
        yield c


FUNCS, TYPES, CONSTS = [], [], []
for path in sorted(ROOT.glob("crates/*/src/**/*.rt")):
    raw = path.read_text()
    text = clean(raw)
    short = path.relative_to(ROOT / "crates")
    FUNCS += functions(short, raw, text)
    TYPES += types(short, text)
    CONSTS += constants(short, raw, text)


def place(point, item, what, line=None):
    key = (point, str(item.path), line or item.line, item.name)
    rules = found.setdefault(key, [])
    if what not in rules:
        rules.append(what)


def matches(f):
    """The matches of a function: the line, what is matched, and the arms as pattern and expression."""
    for m in re.finditer(r"\bmatch\b([^{]*)\{", f.body):
        inner = f.body[m.end():balanced(f.body, m.end() - 1) - 1]
        arms, i = [], 0
        while True:
            m2 = re.compile(r"\s*,?\s*((?:(?!=>).)+?)\s*=>\s*", re.S).match(inner, i)
            if not m2:
                break
            j, depth = m2.end(), 0
            if inner[j:j + 1] == "{":
                j = balanced(inner, j)
            else:
                while j < len(inner) and not (inner[j] == "," and depth == 0):
                    depth += (inner[j] in "([{") - (inner[j] in ")]}")
                    j += 1
            arms.append((" ".join(m2.group(1).split()), " ".join(inner[m2.end():j].split())))
            i = j
        yield line_of(f.text, f.start + m.start()), " ".join(m.group(1).split()), arms


# 1

STATE = re.compile(r"^(kind|way|class|method|stop|stopped|fault|refused|refusal|why|code|state|mode|wild|spoiled|wanted)$")
EMPTY = {"Refused", "Passed", "Unknown", "Missing", "Bad", "None", "Err", "Invalid", "Failed"}
for t in TYPES:
    if t.kind == "enum":
        carry = [bool(v) for _, v in t.fields]
        named = sorted(EMPTY & {n for n, _ in t.fields})
        if named:
            place(1, t, "enum with a case " + ", ".join(named))
        elif len(t.fields) == 2 and any(carry):
            place(1, t, "enum of two cases, " + " and ".join(n + v for n, v in t.fields))
    else:
        flags = [n for n, k in t.fields if k == "bool"]
        if flags and len(t.fields) > len(flags):
            place(1, t, "struct with the flag %s beside values" % ", ".join(flags))
        numbers = [n for n, k in t.fields if k in INTS and STATE.match(n)]
        if numbers:
            place(1, t, "struct with a number for a kind or a refusal: " + ", ".join(numbers))
for f in FUNCS:
    numbers = [n for n, k in f.params if k in INTS and STATE.match(n)]
    if numbers:
        place(1, f, "takes a number for a kind: " + ", ".join(numbers))
    if f.result in INTS:
        if re.search(r"(,|;) or (\d+|one)\b|\bor 0\b|, else (a )?0\b|\b0 (where|if)\b|\bhas none\b", f.note):
            place(1, f, "gives a number that stands for none")
        if re.search(r"refus", f.bare) or re.search(r"\bREFUSED\b|\breturn (refus|fault)", f.body):
            place(1, f, "gives a refusal as a number")
    for line, what, arms in matches(f):
        plain = [p for p, _ in arms if re.fullmatch(r"[\d|\s']+", p)]
        if len(plain) >= 2:
            place(1, f, "match on the numbers %s" % " ".join(plain), line)

# 2


def shape(f):
    out = []
    for name, kind in f.params:
        out += ["x", re.sub(r"\bx\d+\b", "x", re.sub(r"\d+", "0", re.sub(r"[A-Za-z_]\w*", "x", kind)))]
    for t in f.tokens:
        if t in KEYWORDS:
            out.append(t)
        elif t[0].isdigit():
            out.append("0")
        elif t[0].isalpha() or t[0] == "_":
            out.append("x")
        else:
            out.append(t[0] if t.startswith('"') else t)
    return tuple(out)


def label(f):
    return "%s %s" % (str(f.path).split("/")[0], f.name)


groups = collections.defaultdict(list)
for f in FUNCS:
    if len(f.tokens) >= 9:
        groups[shape(f)].append(f)
same = set()
for s, g in groups.items():
    if len(g) > 1:
        for f in g:
            same.add(id(f))
            place(2, f, "one shape with " + ", ".join(label(o) for o in g if o is not f))
big = [f for f in FUNCS if len(f.tokens) >= 30]
for i, f in enumerate(big):
    for o in big[i + 1:]:
        if shape(f) == shape(o) or not 0.8 < len(f.tokens) / len(o.tokens) < 1.25:
            continue
        m = difflib.SequenceMatcher(None, f.tokens, o.tokens, autojunk=False)
        if m.real_quick_ratio() > 0.8 and m.quick_ratio() > 0.8 and m.ratio() > 0.8:
            place(2, f, "%d in 100 tokens as %s" % (100 * m.ratio(), label(o)))
            place(2, o, "%d in 100 tokens as %s" % (100 * m.ratio(), label(f)))
byshape = collections.defaultdict(list)
for t in TYPES:
    if len(t.fields) >= 2:
        byshape[(t.kind, t.tuple, tuple((n if t.kind == "struct" else bool(v), v) for n, v in t.fields))].append(t)
for g in byshape.values():
    for t in g if len(g) > 1 else []:
        place(2, t, "%s of one shape with %s" % (t.kind, ", ".join(label(o) for o in g if o is not t)))
byvalue = collections.defaultdict(list)
for c in CONSTS:
    byvalue[(c.kind in INTS, c.value.replace("_", ""))].append(c)
for (is_int, value), g in byvalue.items():
    if is_int and len(value) >= 3 and len({str(c.path) for c in g}) > 1:
        for c in g:
            place(2, c, "constant %s also in %s" % (value, ", ".join("%s %s" % (o.path, o.name) for o in g if o is not c)))
bysize = collections.defaultdict(list)
for f in FUNCS:
    if re.search(r"(8|16|32|64)$", f.bare):
        bysize[(str(f.path).split("/")[0], re.sub(r"\d+$", "", f.bare))].append(f)
for g in bysize.values():
    for f in g if len(g) > 1 else []:
        place(2, f, "a size in the name: " + ", ".join(o.bare for o in g if o is not f))
bysign = collections.defaultdict(list)
for f in FUNCS:
    if f.pub and len(f.params) >= 3:
        bysign[(f.bare, tuple(f.params), f.result)].append(f)
for g in bysign.values():
    crates = sorted({str(f.path).split("/")[0] for f in g})
    for f in g if len(crates) >= 3 else []:
        place(2, f, "the same signature in " + ", ".join(crates))

# 3

for f in FUNCS:
    for m in re.finditer(r"\bwhile\b", f.body):
        i = f.body.index("{", m.end())
        test, inner = f.body[m.end():i], f.body[i + 1:balanced(f.body, i) - 1]
        moves = []
        for m2 in re.finditer(r"\b(\w+)\s*(\+=|-=)\s*(\d+|[A-Z_]{2,})\s*;", inner):
            moves.append((m2.group(1), m2.group(2), m2.group(3)))
        for m2 in re.finditer(r"\b(\w+)\s*=\s*(?:\w+\()?(?:\1)(?:\.0)?\s*(?:\+|,)\s*(\d+)\)?\s*;", inner):
            moves.append((m2.group(1), "+=", m2.group(2)))
        own = [(v, op, k) for v, op, k in moves if re.search(r"\b%s\b" % v, test)]
        if own:
            v, op, k = own[0]
            last = re.search(r"\b%s\s*(\+=|-=|=)[^;]*;\s*$" % v, inner) is not None
            place(3, f, "while%s: %s %s %s%s" % (" ".join([""] + test.split()), v, op, k, "" if last else ", not at the end"),
                  line_of(f.text, f.start + m.start()))

# 4

CONST = r"(?:\d[\w]*|true|false|0|[A-Z][A-Z_0-9]+|[A-Za-z_]\w*::[A-Z]\w*(?:\([A-Za-z_:0-9, ]*\))?|[A-Z]\w*\([\w:, ]*\)|\w+|[\w +]*\w+\.number\(\)(?: as \w+)?|\w+::\w+\(\w+\.number\(\)(?: as \w+)?\))"
for f in FUNCS:
    body = " ".join(f.body.split())
    whole = list(matches(f))
    if len(whole) == 1 and re.match(r"match\b", body) and body.endswith("}") and len(whole[0][2]) >= 2:
        if all(re.fullmatch(CONST, e) for _, e in whole[0][2]):
            place(4, f, "one match of constants: a conversion")
    m = re.fullmatch(r"(?:let \w+ = [^;]*; )?if (\S+) (<|<=|>|>=) (\S+) \{ (?:return )?(\S+?);? \}(?: else \{ | )(\S+)(?: \})?", body)
    if m and {m.group(4), m.group(5)} == {m.group(1), m.group(3)}:
        place(4, f, "the lesser or the greater of two")
    if re.fullmatch(r"if \w+ (<|<=) \w+ \{ (0 \} else \{ \w+ - \w+( \+ 1)?|\w+ - \w+ \} else \{ 0) \}", body):
        place(4, f, "a difference, or 0")
    if re.fullmatch(r"\(?\w+(?:\.0)?(?: % \d+\))? as \w+", body):
        place(4, f, "a cast")
    if re.fullmatch(r"(?:\w+::)*wrapping_\w+\(\w+, \w+\)", body):
        place(4, f, "a name for a call of std")
    if len(re.findall(r"\b\w+\.(\w+) == \w+\.(?:\1\b|\d+)", body)) >= 2:
        place(4, f, "fields compared one by one")
    copies = collections.Counter(v for _, v in re.findall(r"\b(\w+): (\w+)\.\1\b", body))
    if any(n >= 2 for n in copies.values()):
        place(4, f, "fields copied one by one")
    if len(re.findall(r" as u64\) << \d", body)) >= 4:
        place(4, f, "a word joined from bytes")
    for m in re.finditer(r"while [^{]*\{ (\w+)\[[^\]]*\] = (?:\w+\[[^;]*\]|\d+)( & \w+)?; \w+ \+= 1; \}", body):
        place(4, f, "a loop that only copies or fills")
    kinds = dict(f.params)
    if kinds.get("out") == "&mut [u8]" and f.result == "usize":
        place(4, f, "stores text at an index")

# 5

facts = collections.defaultdict(list)
for f in FUNCS:
    for kind, _, text in f.clauses:
        if kind == "requires":
            for part in split_top(" ".join(text.split()), "×"):
                while part.startswith("(") and balanced(part, 0) == len(part):
                    part = part[1:-1].strip()
                part = re.sub(r"\b[A-Z]\w*\.[A-Z]\w*\b", "_", part)
                if not any(g is f for g in facts[part]):
                    facts[part].append(f)
for part, g in sorted(facts.items(), key=lambda e: -len(e[1])):
    if len(g) >= 3:
        crates = sorted({str(f.path).split("/")[0] for f in g})
        place(5, g[0], "fact of %d functions (%s): %s" % (len(g), ", ".join(crates), part))
sets = [(f, frozenset(p for p in f.params if p[1])) for f in FUNCS if len(f.params) >= 3]
closed = collections.defaultdict(set)
for i, (f, a) in enumerate(sets):
    for o, b in sets[i + 1:]:
        if len(a & b) >= 3:
            closed[a & b] |= {f, o}
support = {s: [f for f, a in sets if s <= a] for s in closed}
largest = collections.defaultdict(list)
for f, a in sets:
    mine = [s for s in support if s <= a and len(support[s]) >= 3]
    if mine:
        largest[max(mine, key=lambda s: (len(s), len(support[s]), sorted(s)))].append(f)
for s, g in sorted(largest.items(), key=lambda e: -len(e[1])):
    order = [n for n, k in g[0].params if (n, k) in s]
    crates = sorted({str(f.path).split("/")[0] for f in support[s]})
    place(5, g[0], "parameters %s together in %d functions (%s)" % (", ".join(order), len(support[s]), ", ".join(crates)))

# 6

for f in FUNCS:
    pairs = []
    for (a, ka), (b, kb) in zip(f.params, f.params[1:]):
        if re.match(r"&(mut )?\[", ka) and kb in INTS:
            pairs.append("%s, %s" % (a, b))
    if pairs:
        place(6, f, "slice and number: " + "; ".join(pairs))
    for m in re.finditer(r"\b(\w+) = (\w+)\[[^;]*\b\1\b[^;]*\]", f.body):
        place(6, f, "an index read from the array that it indexes: " + " ".join(m.group(0).split()))
for t in TYPES:
    if t.kind == "struct":
        if any(k.startswith("[") for _, k in t.fields) and any(k in INTS for _, k in t.fields):
            place(6, t, "array beside a number")
        if t.tuple and len(t.fields) >= 3:
            place(6, t, "%d fields with no names" % len(t.fields))
for c in CONSTS:
    if re.match(r"\[(?:%s|[A-Z]\w*)\s*;" % "|".join(sorted(INTS)), c.kind) and not c.value.startswith("*b"):
        place(6, c, "array of %s" % c.kind.strip("[]").replace(";", ","))
    elif c.value.startswith('*b"'):
        place(6, c, "text in an array of fixed size")

# 7

for f in FUNCS:
    for line, what, arms in matches(f):
        calls = [e for _, e in arms if re.match(r"\{?\s*(?:return )?(?:\w+::)*[a-z_]\w*\(", e)]
        if len(calls) >= 3:
            place(7, f, "match on %s, %d arms call functions" % (what, len(calls)), line)
    tests = collections.defaultdict(list)
    for m in re.finditer(r"if ([\w %./]*?)\b(\w+) (?:==|<) [\w:]+ \{\s*return ((?:\w+::)*[a-z_]\w*)\(", f.body):
        tests[m.group(2)].append(m.group(3))
    for v, callees in tests.items():
        if len(set(callees)) >= 2:
            place(7, f, "tests of %s return %s" % (v, ", ".join(callees)))
for s, g in groups.items():
    for f in g:
        for o in g:
            if o is not f and str(o.path).split("/")[0] == str(f.path).split("/")[0]:
                a = re.findall(r"\b(?:\w+::)*([a-z_]\w*)\(", f.body)
                b = re.findall(r"\b(?:\w+::)*([a-z_]\w*)\(", o.body)
                if len(a) == len(b) >= 3 and sum(x != y for x, y in zip(a, b)) == 1 and "while" in f.body:
                    place(7, f, "differs from %s in the function that it calls" % label(o))

ORDER = {p: i for i, p in enumerate(
    [line.split(":")[0].split()[0] for line in (ROOT / "crates.txt").read_text().splitlines() if line.strip() and line[0] != "#"])}
for key in sorted(found, key=lambda k: (k[0], ORDER.get(k[1].split("/")[0], 99), k[1], k[2])):
    print("%d %s:%d %s: %s" % (key[0], key[1], key[2], key[3], "; ".join(found[key])))

# 8

WORD = re.compile(r"[^\s(){}\[\],;.λ∀]+")
ANTT = {p: p.read_text() for p in sorted(ROOT.glob("crates/*/specs/**/*.antt")) + sorted(ROOT.glob("crates/*/proofs/**/*.antt"))}
PAGES = set()
for p in [ROOT / "README.md", ROOT / "CONTRIBUTING.md"] + sorted((ROOT / "docs").rglob("*.md")) + sorted(ROOT.glob("crates/*/src/**/*.rt")):
    if p.name != "DESIGN-PASS.md":
        PAGES |= set(re.findall(r"[\w'₀-₉→≡≤-]+", p.read_text()))
DECL = re.compile(r"^( *)((?:abbrev |pub |unfoldable |opaque )*)([^\s:(){}]+) :(?: |$)")
blocks = []
for p, text in ANTT.items():
    inside, current = [], None
    for line in text.splitlines():
        bare = line.split("--")[0].rstrip()
        if not bare or re.match(r"\s*(pub )?use ", bare):
            continue
        indent = len(bare) - len(bare.lstrip())
        while inside and indent <= inside[-1][0]:
            inside.pop()
        m = DECL.match(bare)
        if m and (not inside or inside[-1][1] == "module"):
            current = [p, m.group(3), set(), bare, []]
            blocks.append(current)
        elif bare[0] != " " and re.match(r"(pub |abbrev )*(record|data|module|mod)\b", bare):
            current = [p, None, set(), bare, []]
            blocks.append(current)
        if current is None:
            current = [p, None, set(), bare, []]
            blocks.append(current)
        opener = re.match(r"\s*(?:pub |abbrev )*(module|record|data)\b", bare)
        if opener or re.search(r"(^|\s)where$", bare):
            inside.append((indent, opener.group(1) if opener else "where"))
        current[2] |= set(WORD.findall(bare))
        current[4].append(bare)

def module(p):
    """The module of a file of specs/ or proofs/, as imports name it."""
    return "Rattle." + ".".join(p.relative_to(ROOT / "crates").with_suffix("").parts)


imports, wholes = {}, {}
for p, text in ANTT.items():
    wholes[p] = re.findall(r"(?m)^\s*(?:pub )?use ([\w.·-]+)(?: as \w+)?$", text)
    known = {}
    for m in re.finditer(r"(?m)^\s*(?:pub )?use ([\w.·-]+)\.\{([^}]*)\}", text):
        for part in m.group(2).split(","):
            name, _, alias = part.strip().partition(" as ")
            known[(alias or name).strip()] = (m.group(1), name.strip())
    imports[p] = known
# A name counts as cited where another declaration of its own file has it, or one of a file that imports it or its module.
cites = collections.Counter()
for b in blocks:
    for w in b[2]:
        if w in imports[b[0]]:
            cites[imports[b[0]][w]] += 1
        elif w != b[1]:
            cites[(module(b[0]), w)] += 1
        for whole in wholes[b[0]]:
            cites[(whole, w)] += 1
TACTIC = re.compile(r"(search rules|search needs|omega arith|grind arith|grind \(arith, common_steps\)|refl)$")
total = collections.Counter()
print()
for name in ORDER:
    base = ROOT / "crates" / name / "proofs"
    mine = [p for p in ANTT if base in p.parents]
    n = collections.Counter()
    n["files"] = len(mine)
    lemma_files = [p for p in mine if p.name not in ("Answers.antt", "Invariants.antt", "Lib.antt") or (p.name == "Answers.antt" and p.parent == base)]
    n["lemma files"] = len(lemma_files)
    loose, bodies = [], collections.Counter()
    for p, decl, _, head, lines in blocks:
        if base not in p.parents or decl is None:
            continue
        if re.search(r"\bpub\b.* : goal\.", head):
            if p.name == "Answers.antt" and p.parent != base:
                n["answers"] += 1
                body = " ".join(" ".join(lines[1:]).split())
                m = re.search(r"^%s\b[^=]*= (.*)$" % re.escape(decl), body)
                if m and TACTIC.match(m.group(1)):
                    n["tactic alone"] += 1
                    n["search"] += m.group(1).startswith("search")
                elif len(body.split()) >= 8:
                    bodies[body.replace(decl, "_")] += 1
        else:
            n["lemmas"] += 1
            if not cites[(module(p), decl)] and decl not in PAGES:
                loose.append("%s:%s" % (p.relative_to(ROOT / "crates" / name), decl))
    n["uncited"] = len(loose)
    n["repeated"] = sum(k for k in bodies.values() if k >= 2)
    total.update(n)
    print("8 %s: %d proof files, %d answers (%d one tactic with std's rules, of these %d a search; %d with the text of another), %d lemma files, %d lemmas, %d that nothing cites%s" % (
        name, n["files"], n["answers"], n["tactic alone"], n["search"], n["repeated"], n["lemma files"], n["lemmas"], n["uncited"],
        ": " + ", ".join(loose) if loose else ""))
print()
for point in range(1, 8):
    print("%d: %d places" % (point, sum(1 for k in found if k[0] == point)))
print("8: %d proof files, %d answers (%d one tactic, %d a search; %d with the text of another), %d lemma files, %d lemmas, %d that nothing cites" % (
    total["files"], total["answers"], total["tactic alone"], total["search"], total["repeated"], total["lemma files"], total["lemmas"], total["uncited"]))
