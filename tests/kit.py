"""Reads the sources of the kit's own library, as far as the test for local arrays has to: what the functions that the
repository calls there run, and the arrays in them.

A method is looked for in the types that its value may be of, and in their traits. Where the source does not tell these, it is
looked for in all types that a value may be of at all (`AT_HAND`). That there are no others is tested: a function that gives or
makes a value of another type is a fault. So more may be followed than is run, and no less. Operators are not followed: on
numbers they are the machine's."""

import functools
import glob
import os
import re
import subprocess

from program import CLOSING, KEYWORDS, begins_path, between, indexes, is_name, names_in, past, past_angle, path_at, patterns
from program import tokens_of, until
from sources import Unread

CRATES = ["core", "std"]

NUMBERS = ["u8", "u16", "u32", "u64", "usize"]

# The kinds of the values that a followed function has: it can name no others, and a function of the library that gives another
# is a fault.
OF_LANGUAGE = NUMBERS + ["bool", "[]", "()", "Option", "Result", "Range"]
AT_HAND = OF_LANGUAGE + ["Iter", "ControlFlow", "ErrResidual"]

# Types of the language that a followed function may not have, since their functions are not followed.
OTHER_TYPES = ["i8", "i16", "i32", "i64", "i128", "isize", "u128", "f32", "f64", "char", "str"]

# What the compiler makes itself, so that it has no body or one that calls itself.
BUILT_IN = {
    "count_ones": "an instruction on a number, or a few",
    "leading_zeros": "the same",
    "trailing_zeros": "the same",
    "len": "the length that lies beside a slice's address",
}

# Where a closure is handed over, the commas do not tell how many arguments a call has.
UNCOUNTED = -1

# What a `for` and a `?` call by no name, with how many arguments after the first.
BY_FOR, BY_QUESTION = [("into_iter", 0), ("next", 0)], [("branch", 0), ("from_residual", None)]

# The marks of ranges, of which one with both ends and without the last is at hand.
RANGES = ["..", "..="]

# What is not read in a function.
NOT_READ = ["fn", "const", "static", "struct", "enum", "union", "impl", "trait", "mod", "use", "extern", "for", "?"]

# What is declared by which word.
KINDS = {"fn": "fn", "const": "const", "static": "const", "struct": "type", "enum": "type", "union": "type", "type": "type"}

# What may stand before `fn`, and what is no item of its own.
BEFORE = ["pub", "final", "const", "unsafe", "extern", "safe"]


def folder():
    """Where the library's crates lie, by the page that the kit itself names."""
    try:
        page = subprocess.run(["rt", "doc"], capture_output=True, text=True, check=True).stdout.strip()
    except (OSError, subprocess.CalledProcessError) as why:
        raise Unread("cannot ask rt where the kit lies: %s" % why) from None
    return os.path.join(os.path.dirname(page), "rattle")


class Of:
    """The `impl` or the trait that a function or a constant is of, if any: the kind of the type, the trait and the parameters."""

    def __init__(self, head="", trait=None, params=(), named=()):
        self.head, self.trait, self.params, self.named = head, trait, list(params), named


class Held:
    """What is declared in the library: a function, a constant or a type, with the tokens of what it takes and gives, or holds,
    and of its body, which another name for a type has too."""

    def __init__(self, kind, name, file, of, signature, body):
        self.kind, self.name, self.file, self.line, self.of = kind, name, file, name.line, of
        self.signature, self.body = signature, body
        owner = "".join("mut " if t == "mut" else t for t in of.named if t.kind != "lifetime") or of.trait
        self.full = "%s::%s" % (owner or file[:-3].replace("/src/", "::").replace("/", "::"), name)

    def takes(self):
        start = past_angle(self.signature, 0) if self.signature[0] == "<" else 0
        return between(self.signature[start : past(self.signature, start)])

    def own(self):
        """Its own parameters and those of its `impl` or trait."""
        return self.of.params + (names_in(self.signature[: past_angle(self.signature, 0)]) if self.signature[0] == "<" else [])

    def takes_self(self):
        return any("self" in part[:4] and ":" not in part[: part.index("self")] for part in self.takes()[:1])

    def fits(self, count):
        """Whether it can be called as a method with so many arguments, or with any if they are not counted, or by its path."""
        return count is None or self.takes_self() and count in (UNCOUNTED, len(self.takes()) - 1)


def head_of(tokens, params):
    """The kind of a type: its name, `[]` for a slice, `[;]` for an array, `()` for a tuple, `*` for any."""
    i = 0
    while i < len(tokens) and (tokens[i] in ("&", "&&", "mut") or tokens[i].kind == "lifetime"):
        i += 1
    if i == len(tokens):
        return "?"
    if tokens[i] == "[":
        return "[;]" if until(tokens, i + 1, ";") < past(tokens, i) - 1 else "[]"
    if tokens[i] == "(":
        return "()"
    if not begins_path(tokens[i]) or tokens[i] == "dyn":
        return "?"
    path = path_at(tokens, i)
    return "*" if len(path) == 1 and path[0] in params else path[-1]


class Source:
    """What one file declares."""

    def __init__(self, file, text):
        self.file, self.held, self.impls = file, [], []
        try:
            self.items(tokens_of(text), Of())
        except Unread as why:
            raise Unread("%s: %s" % (file, why)) from None

    def items(self, tokens, of):
        i = 0
        while i < len(tokens):
            t = tokens[i]
            if t == "#":
                i = past(tokens, i + 2 if tokens[i + 1] == "!" else i + 1)
            elif t == "pub" and tokens[i + 1] == "(":
                i = past(tokens, i + 1)
            elif t == "extern" and tokens[i + 1].kind == "string" and tokens[i + 2] == "{":
                end = past(tokens, i + 2)
                self.items(tokens[i + 3 : end - 1], of)
                i = end
            elif t in BEFORE and not (t == "const" and tokens[i + 1] not in ("fn", "unsafe")) or t.kind == "string" or t == ";":
                i += 1
            elif t == "type" and not of.head:
                equals, end = until(tokens, i, "="), until(tokens, i, ";")
                self.held.append(Held("type", tokens[i + 1], self.file, Of(), [], tokens[equals + 1 : end]))
                i = end + 1
            elif t in ("use", "type") or t == "mod" and tokens[i + 2] == ";":
                i = until(tokens, i, ";") + 1
            elif t == "mod":
                end = past(tokens, i + 2)
                self.items(tokens[i + 3 : end - 1], of)
                i = end
            elif t in ("const", "static"):
                name = tokens[i + 2] if tokens[i + 1] == "mut" else tokens[i + 1]
                equals, end = until(tokens, i, "=;"), until(tokens, i, ";")
                self.held.append(Held("const", name, self.file, of, tokens[i + 2 : equals], tokens[equals + 1 : end]))
                i = end + 1
            elif t == "fn":
                start = until(tokens, i, "{;")
                end = start + 1 if tokens[start] == ";" else past(tokens, start)
                body = None if tokens[start] == ";" else tokens[start:end]
                self.held.append(Held("fn", tokens[i + 1], self.file, of, tokens[i + 2 : start], body))
                i = end
            elif t in ("struct", "enum", "union"):
                start = past_angle(tokens, i + 2) if tokens[i + 2] == "<" else i + 2
                start = until(tokens, start, "{(;")
                end = start + 1 if tokens[start] == ";" else past(tokens, start)
                params = names_in(tokens[i + 2 : past_angle(tokens, i + 2)]) if tokens[i + 2] == "<" else []
                self.held.append(Held("type", tokens[i + 1], self.file, Of(params=params), tokens[start:end], None))
                i = end
            elif t == "trait":
                start = until(tokens, i, "{")
                params = names_in(tokens[i + 2 : past_angle(tokens, i + 2)]) if tokens[i + 2] == "<" else []
                self.items(tokens[start + 1 : past(tokens, start) - 1], Of("Self", tokens[i + 1], params))
                i = past(tokens, start)
            elif t == "impl":
                i = self.implemented(tokens, i)
            elif t == "macro_rules":
                i = past(tokens, i + 3)
            else:
                raise Unread("line %d: no item begins with %s" % (t.line, t))

    def implemented(self, tokens, i):
        start = until(tokens, i, "{")
        head, params = tokens[i + 1 : start], []
        if head[0] == "<":
            end = past_angle(head, 0)
            params, head = names_in(head[:end]), head[end:]
        head = head[: until(head, 0, ["where"])]
        of_trait = until(head, 0, ["for"])
        named = head[of_trait + 1 :] or head
        trait = path_at(head, 0)[-1] if of_trait < len(head) and begins_path(head[0]) else None
        of = Of(head_of(named, params), trait, params, named)
        self.impls.append(of)
        self.items(tokens[start + 1 : past(tokens, start) - 1], of)
        return past(tokens, start)


# What begins a declaration, and its name.
DECLARED = re.compile(r"\b(fn|const(?!\s+(?:fn|unsafe|extern)\b)|static|struct|enum|union|type)\s+(?:mut\s+)?(\w+)")


class Library:
    """The sources of the kit's library, by their files. A file is read when a name that it may declare is asked for."""

    def __init__(self, texts):
        self.texts, self.read, self.files, self.saying = texts, {}, {}, {}
        for file, text in texts.items():
            self.note(file, text)

    def note(self, file, text):
        for word, name in set(DECLARED.findall(text)):
            self.files.setdefault((KINDS[word], name), set()).add(file)

    def source(self, file):
        if file not in self.read:
            self.read[file] = Source(file, self.texts[file])
        return self.read[file]

    def found(self, kind, name):
        """All functions, constants or types of that name."""
        held = [h for file in sorted(self.files.get((kind, name), [])) for h in self.source(file).held]
        return [h for h in held if h.kind == kind and h.name == name]

    def impls(self, trait):
        """The types that have a trait, each with the file where that is said."""
        if trait not in self.saying:
            said = re.compile(r"\bimpl\b[^{]*\b%s\b[^{]*\bfor\b" % trait)
            self.saying[trait] = [file for file, text in sorted(self.texts.items()) if trait in text and said.search(text)]
        return [(of.head, file) for file in self.saying[trait] for of in self.source(file).impls if of.trait == trait]

    def changed(self, file, text):
        """The same with another text of one file, in memory."""
        other = Library({})
        other.texts, other.read, other.saying = {**self.texts, file: text}, dict(self.read), self.saying
        other.files = {key: set(files) for key, files in self.files.items()}
        other.note(file, text)
        del other.read[file]
        return other


def library(place):
    texts = {}
    for crate in CRATES:
        files = sorted(glob.glob(os.path.join(glob.escape(place), crate, "src", "**", "*.rt"), recursive=True))
        if not files:
            raise Unread("no source of the kit's library lies in %s" % os.path.join(place, crate))
        for path in files:
            with open(path, encoding="utf-8") as source:
                texts[os.path.relpath(path, place).replace(os.sep, "/")] = source.read()
    return Library(texts)


# ---- the kinds of values


OF_NUMBERS, OF_BITS, OF_OTHERS = ["+", "-", "*", "/", "%"], ["^", "|", "&"], ["<", ">", "=", "&&", "||", "..="]


def top_level(tokens, marks):
    """Whether one of these stands between two values, in no bracket."""
    i = 1
    while i < len(tokens) - 1:
        if tokens[i] in marks and (tokens[i - 1].kind in ("word", "number") or tokens[i - 1] in (")", "]", "?")):
            return True
        i = past(tokens, i) if tokens[i].kind == "mark" and tokens[i] in CLOSING else i + 1
    return False


def kinds_of_type(tokens, params):
    """The kind of a type, or None where that is not told."""
    head = head_of(tokens, params) if tokens else "?"
    return None if head in ("?", "*", "Self") else {head}


class Kinds:
    """The kinds of types that the names in a function may be of, where it tells them: by what it takes, and by a `let` of a
    name. `fields` tells the kind of a field of `self`."""

    def __init__(self, takes, body, params, fields):
        self.params, self.fields, self.names = params, fields, {}
        for part in takes:
            colon = until(part, 0, ":")
            self.note(part[:colon], self.of_type(part[colon + 1 :]))
        for pattern, typed, value in patterns(body):
            self.note(pattern, self.of_type(typed) or self.of_value(value))

    def note(self, pattern, kinds):
        named = [t for t in pattern if t not in ("mut", "&")]
        for t in named:
            known = kinds if len(named) == 1 else None
            before = self.names.get(t, known)
            self.names[t] = before | known if before and known else None

    def of_type(self, tokens):
        return kinds_of_type(tokens, self.params)

    def of_value(self, tokens):
        """The kinds that a value may be of, or None where that is not told."""
        while tokens and tokens[0] in ("&", "&&", "*", "mut", "-", "!"):
            tokens = tokens[1:]
        if not tokens or tokens[0] in ("|", "||") or any(t in KEYWORDS - {"as"} for t in tokens) or top_level(tokens, OF_OTHERS):
            return None
        if tokens[0] == "(" and past(tokens, 0) == len(tokens) and until(tokens, 1, ",") >= len(tokens) - 1:
            return self.of_value(tokens[1:-1])
        if top_level(tokens, [".."]):
            return {"Range"}
        if top_level(tokens, OF_NUMBERS):
            return set(NUMBERS)
        if top_level(tokens, OF_BITS):
            return {*NUMBERS, "bool"}
        if len(tokens) == 1:
            return set(NUMBERS) if tokens[0].kind == "number" else self.names.get(tokens[0])
        if len(tokens) == 3 and tokens[:2] == ["self", "."]:
            return self.fields(tokens[2])
        if len(tokens) > 2 and tokens[-2] == "as":
            return {tokens[-1]}
        at = next((i for i, t in enumerate(tokens) if t == "[" and past(tokens, i) == len(tokens)), None)
        return {"[]"} if at and indexes(tokens, at) and until(tokens, at + 1, [".."]) < len(tokens) else None


def arguments(tokens, i):
    """How many arguments stand in the brackets at i."""
    inside = tokens[i : past(tokens, i)]
    return UNCOUNTED if "|" in inside or "||" in inside else len(between(inside, values=True))


def opening(tokens, close):
    """Where the bracket that is closed there begins."""
    marks = [j for j in range(close) if tokens[j].kind == "mark" and tokens[j] in CLOSING]
    return next(j for j in reversed(marks) if past(tokens, j) == close + 1)


def receiver(tokens, dot):
    """The value before the dot that a method is called on: a name or brackets, with its fields, calls and indices. Nothing where
    that cannot be told."""
    at = dot
    while at:
        before = tokens[at - 1]
        if before == "?":
            at -= 1
            continue
        if before in (")", "]"):
            at = opening(tokens, at - 1)
            if tokens[at - 1] == ">":
                return []
            if at and (is_name(tokens[at - 1]) or tokens[at - 1] in (")", "]", "?")):
                continue
        elif is_name(before) or before == "self" or before.kind == "number":
            at -= 1
        else:
            return []
        if not at or tokens[at - 1] not in (".", "::"):
            return tokens[at:dot]
        at -= 1
    return []


def other_range(tokens, i):
    """Whether the dots at i make a range with an end that is missing or included, as a value. In an index that is none, and two
    dots may also stand for the rest of a pattern or a struct."""
    before, after = tokens[i - 1], tokens[i + 1]
    begins = is_name(before) or before == "self" or before.kind == "number" or before in (")", "]", "?")
    ends = after not in (")", "]", "}", ",", ";", "{", "=>")
    if tokens[i] == ".." and begins and ends:
        return False
    around = next((j for j in range(i - 1, -1, -1) if tokens[j] in CLOSING and past(tokens, j) > i), None)
    if around is None or tokens[around] == "{":
        return begins or before not in ("{", ",")
    return not (tokens[around] == "[" and indexes(tokens, around)) and (begins or ends)


# ---- what is run


class Following:
    """What the calls of the repository run in the library. Each call is (kinds, name, count): the kinds of types whose function
    it may be, or None for all that are at hand, and how many arguments it has after the first, or None where it is called by its
    path. Where `kinds` is "", it is a function of no type."""

    def __init__(self, given, calls):
        self.library, self.faults, self.read, self.types = given, [], {}, set()
        self.known = {call: "the repository" for call in calls}
        # A type that is at hand later may have a function of a name that was called before.
        before = None
        while before != (len(self.known), len(self.types)):
            before = (len(self.known), len(self.types))
            for call in list(self.known):
                for held in self.candidates(*call):
                    if held.body and held not in self.read:
                        self.read[held] = self.known[call]
                        self.body(held)
        for (kinds, name, count), caller in self.known.items():
            for kind in [kinds] if kinds in (None, "") else kinds:
                sought = kind if kind in (None, "") else (kind,)
                if name not in BUILT_IN and not any(held.body for held in self.candidates(sought, name, count)):
                    self.faults.append("cannot find %s in the kit's library, which %s calls" % (shown(kind, name), caller))

    def fault(self, held, token, why):
        self.faults.append("%s:%d: %s in %s" % (held.file, token.line, why, held.full))

    # finding

    def candidates(self, kinds, name, count):
        functions = self.library.found("fn", name)
        if kinds == "":
            return [f for f in functions + self.library.found("const", name) if not f.of.head]
        found = []
        functions = [f for f in functions if f.fits(count) and self.takes_known(f)]
        for kind in AT_HAND if kinds is None else kinds:
            constants = [c for c in self.library.found("const", name) if count is None and self.is_of(c, kind)]
            own = [f for f in functions if self.is_of(f, kind) and not f.of.trait]
            # A number's own method goes before its traits'. That of another type may be for some of its parameters alone.
            traits = [] if own and kind in NUMBERS else [f for f in functions if f.of.trait and self.has(f, kind)]
            found += constants + own + traits
        return list(dict.fromkeys(found))

    def is_of(self, held, kind):
        return held.of.head == kind and self.same(kind, held.file) and only_at_hand(held.of.named, held.of.params)

    def has(self, function, kind):
        """Whether the function of a trait may be that of the type."""
        if function.of.head not in ("Self", "*"):
            return self.is_of(function, kind)
        return function.of.head == "*" or any(
            head == "*" or head == kind and self.same(kind, file) for head, file in self.library.impls(function.of.trait)
        )

    def same(self, kind, file):
        """Whether the type of that name in a file is the one at hand, of several. A file that declares one means its own."""
        declared = [held.file for held in self.library.found("type", kind) if not held.body]
        return kind in OF_LANGUAGE or file not in declared or len(declared) == 1 or (kind, file) in self.types

    def takes_known(self, function):
        """Whether a value can be of each type that the function takes: there are no arrays."""
        types = [part[until(part, 0, ":") + 1 :] for part in function.takes() if ":" in part]
        return all(only_at_hand(tokens, function.own()) and array_at(tokens) is None for tokens in types)

    # reading

    def body(self, held):
        """Reads a function or a constant of the library."""
        signature = held.signature[: until(held.signature, 0, ["where"])]
        self.typed(held, signature)
        for t in signature:
            if t in ("impl", "dyn"):
                self.fault(held, t, "cannot read %s" % t)
        gives = signature[until(signature, 0, ["->"]) if held.kind == "fn" else 0 :]
        for i, t in enumerate(gives):
            if gives[i - 1] != "::" or gives[i - 2] not in ["Self", *held.own()]:
                self.given(held, t)
        self.code(held, held.body)

    def typed(self, held, tokens):
        i = array_at(tokens)
        if i is not None:
            self.fault(held, tokens[i], "an array: %s" % "".join(tokens[i : past(tokens, i)]))

    def given(self, held, name):
        """A name that may be that of a type of which the function gives or makes a value."""
        if name in OTHER_TYPES:
            self.fault(held, name, "a %s, whose functions are not followed," % name)
        found = self.library.found("type", name) if name[0].isupper() else []
        for made in [f for f in found if f.file == held.file] or found:
            if name not in AT_HAND:
                self.fault(held, name, "a %s, whose functions are not followed," % name)
            elif (name, made.file) not in self.types:
                self.types.add((name, made.file))
                parts = made.body or made.signature
                self.typed(made, parts)
                for i, t in enumerate(parts):
                    if t not in made.of.params and parts[i + 1 : i + 2] != [":"]:
                        self.given(made, t)

    def code(self, held, tokens):
        params = held.own()
        kinds = Kinds(held.takes() if held.kind == "fn" else [], tokens, params, lambda name: self.field(held, name))
        bound = {t for part in held.takes() for t in part[: until(part, 0, ":")]} if held.kind == "fn" else set()
        i = 0
        while i < len(tokens):
            t, before = tokens[i], tokens[i - 1] if i else None
            if t == "#" and tokens[i + 1] == "[":
                i = past(tokens, i + 1)
                continue
            if t.kind == "string" and t.startswith("b"):
                self.fault(held, t, "an array: %s" % t)
            elif t == "[" and not indexes(tokens, i):
                self.fault(held, t, "an array: %s" % "".join(tokens[i : past(tokens, i)]))
            elif t in NOT_READ:
                self.fault(held, t, "cannot read %s" % t)
            elif t in RANGES and other_range(tokens, i):
                self.fault(held, t, "a range of another kind, whose functions are not followed,")
            elif is_name(t) and before == ".":
                end = past_angle(tokens, i + 2) if tokens[i + 1 : i + 3] == ["::", "<"] else i + 1
                if tokens[end : end + 1] == ["("]:
                    self.called(held, self.kinds_of(held, kinds, receiver(tokens, i - 1)), t, arguments(tokens, end))
            elif begins_path(t) and before == "::":
                self.fault(held, t, "cannot read ::%s" % t)
            elif begins_path(t):
                path = path_at(tokens, i)
                i += 2 * len(path) - 1
                if not (len(path) == 1 and path[0] in bound):
                    self.path(held, params, path, tokens[i : i + 2], kinds.names)
                continue
            i += 1

    def kinds_of(self, held, kinds, tokens):
        if tokens == ["self"]:
            return None if held.of.head in ("Self", "*") else {held.of.head}
        return kinds.of_value(tokens)

    def field(self, held, name):
        """The kind of a field of the type that the function is of, or None."""
        for found in self.library.found("type", held.of.head):
            if found.file == held.file and found.signature[0] == "{":
                for part in between(found.signature):
                    colon = until(part, 0, ":")
                    if part[colon - 1] == name:
                        return kinds_of_type(part[colon + 1 :], found.of.params)
        return None

    def path(self, held, params, path, follows, local):
        name = path[-1]
        if follows[:1] == ["!"] and follows[1] in CLOSING:
            self.fault(held, path[0], "cannot read %s!" % "::".join(path))
            return
        for part in path:
            self.given(held, part)
        if len(path) > 1 and (path[-2] in NUMBERS or path[-2] in params or path[-2][0].isupper()):
            if name[0].islower() or name.isupper():
                of = held.of.head if path[-2] == "Self" else path[-2]
                self.called(held, None if of in ("Self", "*") or path[-2] in params else {of}, name, None)
        elif len(path) > 1 or follows[:1] == ["("] and name[0].islower() or self.library.found("const", name):
            self.called(held, "", name, None)
        elif name not in local and follows[:1] != [":"] and any(not f.of.head for f in self.library.found("fn", name)):
            self.called(held, "", name, None)

    def called(self, held, kinds, name, count):
        self.known.setdefault(("" if kinds == "" else tuple(sorted(kinds)) if kinds else None, name, count), held.full)


def array_at(tokens):
    """Where an array begins in a type, or None."""
    return next((i for i, t in enumerate(tokens) if t == "[" and until(tokens, i + 1, ";") < past(tokens, i) - 1), None)


@functools.lru_cache(maxsize=None)
def followed(given, calls):
    """The functions and constants of the library that these calls run, and what they may not have."""
    following = Following(given, sorted(calls, key=str))
    return following.read, list(dict.fromkeys(following.faults))


def only_at_hand(tokens, params):
    """Whether a type names no other types than those at hand and parameters."""
    names = [t for i, t in enumerate(tokens) if begins_path(t) and (i == 0 or tokens[i - 1] != "::")]
    return all(t in AT_HAND or t in params or t == "Self" for t in names)


def shown(kind, name):
    return name if kind == "" else ".%s()" % name if kind is None else "%s::%s" % (kind, name)
