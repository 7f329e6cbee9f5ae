#!/usr/bin/env python3
"""Checks that no function that a plain search call runs declares a local array. It reads the sources: from the public search
call on, that of Rattle and that of C, it follows every function that is called, through every crate, but for what another
method's arm of a `match` calls, and fails on

- an array in any of them: as an expression, in a type, in a constant or a struct that it names, or as a string of bytes;
- a function that it cannot find, and what it cannot read;
- another method handed on, since what that one runs is not followed.

A method `x.f()` is followed in every type that has an `f`, unless the function says of which type x is. A function with types
as parameters is followed for those that the call names, as in `by::<Plain>(..)`, or for those of what it hands over, and then
`M::f(..)` in it is the type's own `f`. Where neither tells the type, `M::f` cannot be found.

What these functions call of the kit's own library is followed there too, in the sources that the kit brings (`kit.py`), with
what a `for` and a `?` call by no name. It may run no array either, and what is not found there, or gives a value of another
type than the few that the reader knows, is a fault.

It prints the functions that it followed. Then it tries itself on a copy of the sources: with an array put into each of these
functions in turn, and other samples into a deep one, and on a copy of the library's sources in memory likewise. The last line
is the number of checks; where something is found it is printed, and the exit status is 1.

usage: arrays.py [CRATES]     with CRATES, a folder of crates beside its crates.txt, only the first part is done"""

import os
import shutil
import subprocess
import sys
import tempfile

import kit
from program import CLOSING, Constant, Function, Made, Program, Trait, Type, Variant
from program import begins_path, between, indexes, is_name, past, past_angle, path_at, patterns, until
from sources import CRATES, Unread

STARTS = ["search::Mark::search", "capi::scan::mitongory_search"]

# Their crates. Crates that these do not rest on, such as programs and tests, are not read.
TOPS = [start.split("::")[0] for start in STARTS]

METHOD, OURS = "rules::Method", "Plain"

# It tells the method that a number names, and 0 alone is plain: it may name other methods, and must be asked so.
METHOD_OF, ASKED = "capi::scan::method_of", ["(", "method", ")"]

# What the language itself has: types, functions of numbers, and what a slice and its items are asked. What a followed function
# calls of these is followed through the kit's own library.
NUMBERS = ["u8", "u16", "u32", "u64", "usize", "i8", "i16", "i32", "i64", "isize"]
OWN_TYPES = NUMBERS + ["bool", "f32", "f64", "self"]
OF_NUMBERS = ["count_ones", "leading_zeros", "trailing_zeros", "from", "MAX"]
OF_VALUES = ["len", "is_empty", "get", "iter", "find", "map_or", "fold", "div_ceil", "min", "saturating_add"]

NOT_FOLLOWED = ["const", "enum", "extern", "fn", "impl", "mod", "static", "struct", "trait", "type", "unsafe", "use"]


# ---- arrays in types and constants


def array_in(program, module, tokens, of=None, given=(), seen=()):
    """The first token of a type, or of a list of types, by which it holds an array, or None. An array behind a reference counts
    too, since it could be copied, and so does a type that cannot be found. `given` tells what its parameters stand for. Where
    that is not known, an array is found where it is named or made."""
    for i, t in enumerate(tokens):
        if t == "[" and until(tokens, i + 1, ";") < past(tokens, i) - 1:
            return t
        if begins_path(t) and tokens[i + 1 : i + 2] != [":"] and (i == 0 or tokens[i - 1] != "::"):
            path = path_at(tokens, i)
            if t in given and len(path) == 1:
                if made_of_array(program, given[t], seen):
                    return t
                continue
            item = program.found(module, path, of)
            if isinstance(item, Trait):
                continue
            if holds_array(program, item, seen) if isinstance(item, Type) else t not in OWN_TYPES:
                return t
    return None


def holds_array(program, item, seen=()):
    given = dict.fromkeys(item.params)
    return item not in seen and array_in(program, item.module, item.parts, item, given, (*seen, item)) is not None


def made_of_array(program, made, seen=()):
    """Whether the type holds an array, or one that its parameters stand for."""
    if made is None:
        return False
    return holds_array(program, made.item, seen) or any(made_of_array(program, arg, seen) for arg in made.args)


def constant_array(program, item):
    """Whether a constant is an array or has one behind a reference, by its type or its value."""
    if array_in(program, item.module, item.parts, item.of):
        return True
    for i, t in enumerate(item.value):
        if t == "[" or t.kind == "string":
            return True
        if begins_path(t):
            named_in = program.found(item.module, path_at(item.value, i), item.of)
            if isinstance(named_in, Constant) and constant_array(program, named_in):
                return True
    return False


# ---- types of names


def stripped(tokens):
    """A type or a value without what only borrows it."""
    i = 0
    while i < len(tokens) and (tokens[i] in ("&", "&&", "mut", "*") or tokens[i].kind == "lifetime"):
        i += 1
    return tokens[i:]


def resolved(program, module, tokens, of=None, given=()):
    """The type that the tokens name, or None where they do not, or where that is not known."""
    tokens = stripped(tokens)
    if not tokens or not begins_path(tokens[0]):
        return None
    path = path_at(tokens, 0)
    end = 2 * len(path) - 1
    if len(path) == 1 and path[0] in given:
        return given[path[0]] if end == len(tokens) else None
    if path == ["Self"]:
        return of if end == len(tokens) else None
    item = program.found(module, path, of.item if of else None)
    if not isinstance(item, Type) or item.alias or not program.is_whole(tokens):
        return None
    args = [resolved(program, module, part, of, given) for part in between(tokens[end:])]
    return Made(item, tuple(args) if len(args) == len(item.params) else (None,) * len(item.params))


def stand_for(program, module, tokens, made, args):
    """Notes which types the parameters in a type of a module stand for where it is the type `made`."""
    tokens = stripped(tokens)
    if made is None or not tokens:
        return
    if len(tokens) == 1 and tokens[0] in args:
        args[tokens[0]] = args[tokens[0]] or made
    elif begins_path(tokens[0]) and program.is_whole(tokens):
        path = path_at(tokens, 0)
        if program.found(module, path) is made.item:
            for part, arg in zip(between(tokens[2 * len(path) - 1 :]), made.args):
                stand_for(program, module, part, arg, args)


def zip_same(takes, values):
    """What a function takes with what it is handed, where the commas tell that: those of a closure may not."""
    return list(zip(takes, values)) if len(takes) == len(values) else []


# ---- one function


class Reader:
    """What a function calls, and what it may not have. `of` is the type that it is a function of, and `given` what its
    parameters stand for that are types, or None where that is not known."""

    def __init__(self, program, function, of, given):
        self.program, self.function = program, function
        self.module, self.of, self.given = function.module, of, given
        self.item = of.item if of else None
        self.calls, self.library_calls, self.faults = [], [], []
        self.bound = {"self": {self.of}}
        self.kinds = kit.Kinds(function.takes(), function.body, [*function.params, "Self"], self.field)

    def fault(self, token, why):
        self.faults.append("%s:%d: %s in %s" % (self.module.file, token.line, why, self.function.full))

    def read(self):
        signature, body = self.function.signature, self.function.body
        for t in signature:
            if t in kit.OTHER_TYPES:
                self.fault(t, "a %s, whose functions are not followed," % t)
        held = array_in(self.program, self.module, signature, self.item, self.given)
        if held or self.item and "self" in signature and holds_array(self.program, self.item):
            self.fault(held or signature[0], "an array taken or given")
        for name, path in self.module.uses.items():
            if self.program.found(self.module, [name]) is None:
                self.fault(name, "cannot find %s, which is used," % "::".join(path))
        self.bind(body)
        self.code(body)
        return self

    def found(self, path):
        """What a path means here. By a parameter that is a type it means what it means by the type."""
        if path[0] in self.given:
            made = self.given[path[0]]
            at = made.item if made else None
            for k, name in enumerate(path[1:]):
                at = self.program.member(at, name, last=k == len(path) - 2)
            return at
        return self.program.found(self.module, path, self.item)

    # the types of names

    def bind(self, body):
        """Notes of which types each name may be: `x: T` in the signature and of a `let`, S { .. } for a `let`, what a variant
        holds, and of any other name in a pattern, no known one."""
        for part in self.function.takes():
            colon = until(part, 0, ":")
            held = self.held(part[:colon], self.resolved(part[colon + 1 :]))
            for t in part[:colon]:
                if is_name(t) and t != "self":
                    self.bound.setdefault(t, set()).add(held.get(t))
        known = {name: types for name, types in self.bound.items() if len(types) == 1}
        all_patterns = list(patterns(body))
        for pattern, _, _ in all_patterns:
            for t in pattern:
                known.pop(t, None)
        for pattern, typed, value in all_patterns:
            held = self.held(pattern, self.resolved(typed) or self.value(stripped(value), known))
            for t in pattern:
                if is_name(t):
                    self.bound.setdefault(t, set()).add(held.get(t))

    def resolved(self, tokens):
        return resolved(self.program, self.module, tokens, self.of, self.given)

    def value(self, tokens, known):
        """The type of a value, which is a name or S { .. }, or None."""
        if len(tokens) == 1:
            types = known.get(tokens[0], {None})
            return next(iter(types)) if len(types) == 1 else None
        if not tokens or not begins_path(tokens[0]):
            return None
        start = until(tokens, 0, "{(")
        if start == len(tokens) or past(tokens, start) != len(tokens):
            return None
        named_by = tokens[:start]
        end = 2 * len(path_at(tokens, 0)) - 1
        return self.resolved(named_by[:end] + named_by[end + 1 :] if named_by[end:][:1] == ["::"] else named_by)

    def held(self, pattern, made):
        """The types of the names in a pattern for a value of that type, where they are known."""
        pattern = [t for t in pattern if t not in ("mut", "&")]
        if len(pattern) == 1:
            return {pattern[0]: made}
        path = path_at(pattern, 0) if pattern and begins_path(pattern[0]) else []
        start = 2 * len(path) - 1
        if not path or pattern[start : start + 1] != ["("] or past(pattern, start) != len(pattern):
            return {}
        variant = self.found(path)
        if not isinstance(variant, Variant):
            return {}
        args = made.args if made and made.item is variant.of else [None] * len(variant.of.params)
        given = dict(zip(variant.of.params, args))
        return self.held(pattern[start + 1 : -1], resolved(self.program, variant.of.module, variant.parts, None, given))

    # the code

    def code(self, tokens):
        i = 0
        while i < len(tokens):
            i = self.at(tokens, i)

    def at(self, tokens, i):
        """Reads what stands at i, and gives where to go on."""
        t, before = tokens[i], tokens[i - 1] if i else None
        if t.kind == "string":
            self.fault(t, "an array: %s" % t)
        elif t == "[" and not indexes(tokens, i):
            self.fault(t, "an array: %s" % "".join(tokens[i : past(tokens, i)]))
        elif t == "let":
            return self.let(tokens, i)
        elif t in NOT_FOLLOWED:
            self.fault(t, "cannot read %s" % t)
        elif t in kit.OTHER_TYPES:
            self.fault(t, "a %s, whose functions are not followed," % t)
        elif t == "for" and tokens[i + 1] != "<":
            start = until(tokens, i, ["in"]) + 1
            self.library_calls += self.of_kinds(tokens[start : until(tokens, start, "{")], kit.BY_FOR)
        elif t in kit.RANGES and kit.other_range(tokens, i):
            self.fault(t, "a range of another kind, whose functions are not followed,")
        elif t == "?":
            signature = self.function.signature
            gives = self.kinds.of_type(signature[until(signature, 0, ["->"]) + 1 :])
            self.library_calls += [(gives and tuple(sorted(gives)), name, count) for name, count in kit.BY_QUESTION]
        elif is_name(t) and before == ".":
            return self.method(tokens, i)
        elif begins_path(t) and before == "::":
            self.fault(t, "cannot read ::%s" % t)
        elif begins_path(t):
            return self.path(tokens, i)
        return i + 1

    def let(self, tokens, i):
        """The pattern of a `let` is read like other code, and after it a type that it may have."""
        colon = until(tokens, i + 1, ":=;")
        self.code(tokens[i + 1 : colon])
        if colon == len(tokens) or tokens[colon] != ":":
            return colon
        end = until(tokens, colon, "=;")
        held = array_in(self.program, self.module, tokens[colon + 1 : end], self.item, self.given)
        if held:
            self.fault(held, "a local array")
        return end

    def method(self, tokens, i):
        """A field, or a method with what is known of the value's type."""
        name = tokens[i]
        end, named_types = self.angles(tokens, i + 1)
        if tokens[end : end + 1] != ["("]:
            return end
        types = self.bound.get(tokens[i - 2], {None}) if tokens[i - 3] not in (".", "::") else {None}
        of = next(iter(types)) if len(types) == 1 else None
        found = self.program.methods(self.module.path[0], name, of.item if of else None)
        for function, item in found:
            handed = zip_same(function.takes()[1:], between(tokens[end : past(tokens, end)], values=True))
            self.call(function, of or Made(item, (None,) * len(item.params)), named_types, handed)
        if name in OF_VALUES and not (of and found):
            self.library_calls += self.of_kinds(kit.receiver(tokens, i - 1), [(str(name), kit.arguments(tokens, end))])
        elif not found:
            self.fault(name, "cannot find .%s()" % name)
        return end

    def of_kinds(self, value, calls):
        """These calls, each by a name and how many arguments it has, on a value."""
        kinds = self.kinds.of_value(value)
        return [(kinds and tuple(sorted(kinds)), name, count) for name, count in calls]

    def field(self, name):
        """The kinds of a field of `self`, or None."""
        for part in between(self.item.parts) if self.item and self.item.parts[:1] == ["{"] else []:
            colon = until(part, 0, ":")
            if part[colon - 1] == name:
                return kit.kinds_of_type(part[colon + 1 :], self.item.params)
        return None

    def angles(self, tokens, i):
        """Where to go on after the types that are named at i, as `::<T>`, and these types, or None."""
        if tokens[i : i + 2] != ["::", "<"]:
            return i, None
        end = past_angle(tokens, i + 1)
        held = array_in(self.program, self.module, tokens[i + 1 : end], self.item, self.given)
        if held:
            self.fault(held, "an array as a parameter")
        return end, [self.resolved(part) for part in between(tokens[i + 1 : end])]

    def call(self, function, of, named_types, handed):
        """Notes a call, with what the parameters of the function stand for that are types, by the call."""
        given = dict.fromkeys(function.params)
        if of:
            stand_for(self.program, function.module, function.head, of, given)
        if named_types:
            given.update(zip(function.own, named_types))
        known = {name: types for name, types in self.bound.items() if len(types) == 1}
        for part, value in handed:
            stand_for(self.program, function.module, part[until(part, 0, ":") + 1 :], self.value(stripped(value), known), given)
        self.calls.append((function, of, tuple(given.items())))

    def path(self, tokens, i):
        path = path_at(tokens, i)
        end, named_types = self.angles(tokens, i + 2 * len(path) - 1)
        name, follows = "::".join(path), tokens[end] if end < len(tokens) else ""
        if follows == "!" and tokens[end + 1] in CLOSING:
            self.fault(tokens[i], "cannot read %s!" % name)
            return end
        item = self.found(path)
        functions = item if isinstance(item, list) else [item] if isinstance(item, Function) else []
        for function in functions:
            of = self.owner(path) if function.of else None
            values = between(tokens[end : past(tokens, end)], values=True) if follows == "(" else []
            self.call(function, of, named_types, zip_same(function.takes(), values))
            if function.full == METHOD_OF and not self.asked(tokens[end : end + 3]):
                self.fault(tokens[i], "another method asked for")
        if isinstance(item, Variant) and item.of.full == METHOD:
            return self.chosen(tokens, i, end)
        if isinstance(item, (Type, Variant)):
            held = item if isinstance(item, Type) else item.of
            if holds_array(self.program, held):
                self.fault(tokens[i], "%s, which holds an array," % name)
        elif isinstance(item, Constant):
            if constant_array(self.program, item):
                self.fault(tokens[i], "the array %s" % name)
        elif not functions and self.unknown(path, follows):
            self.fault(tokens[i], "cannot find %s" % name)
        return end

    def owner(self, path):
        """The type before the last name of a path."""
        if path[0] in self.given and len(path) == 2:
            return self.given[path[0]]
        if path[0] == "Self" and len(path) == 2:
            return self.of
        item = self.program.found(self.module, path[:-1], self.item) if len(path) > 1 else None
        return Made(item, (None,) * len(item.params)) if isinstance(item, Type) else None

    def unknown(self, path, follows):
        """Whether a name that no item has must be one: a path, or a call. Other names are locals, fields and numbers' types."""
        if len(path) == 2 and path[0] in NUMBERS:
            if path[1] in OF_NUMBERS:
                self.library_calls.append(((str(path[0]),), str(path[1]), None))
            return path[1] not in OF_NUMBERS
        return len(path) > 1 or follows == "("

    def asked(self, tokens):
        """Whether these are the argument that the caller handed over, and no other under its name."""
        body, name = self.function.body, ASKED[1]
        stored = [t for i, t in enumerate(body) if t == name and (body[i - 1] in ("let", "mut") or body[i + 1] == "=")]
        again = any(name in pattern for pattern, _, _ in patterns(body))
        taken = [part for part in self.function.takes() if part[:2] == [name, ":"]]
        return tokens == ASKED and not stored and not again and len(taken) == 1

    def chosen(self, tokens, i, end):
        """A method by its name: an arm of a `match` that is for others alone is not taken, and no other is handed on."""
        ours, at = self.is_ours(path_at(tokens, i)), end
        while tokens[at : at + 1] == ["|"]:
            path = path_at(tokens, at + 1)
            ours, at = ours or self.is_ours(path), at + 2 * len(path)
        if tokens[at : at + 1] == ["=>"]:
            if ours:
                return at + 1
            after = past(tokens, at + 1) if tokens[at + 1] == "{" else until(tokens, at + 1, [",", "}", "=>"])
            if tokens[after] == "=>":
                self.fault(tokens[at], "cannot tell where the arm of %s ends" % tokens[end - 1])
            return after
        if not ours and self.function.full != METHOD_OF:
            self.fault(tokens[i], "another method, %s, handed on" % tokens[end - 1])
        return end

    def is_ours(self, path):
        """Whether a pattern is for the plain method, or may be."""
        item = self.program.found(self.module, path, self.item)
        return not isinstance(item, Variant) or item.of.full != METHOD or item.name == OURS


# ---- all functions that are reached


def named(program, full):
    """The function of that full name, or None."""
    crate, *path = full.split("::")
    item = program.found(program.roots[crate], ["crate", *path]) if crate in program.roots else None
    return item if isinstance(item, Function) else None


def followed(crates, library):
    """The functions that are reached, each with how many calls deep it is, those of the kit's library, and what none of them
    may have."""
    program = Program(crates, TOPS)
    depths, seen, todo, faults, library_calls = {}, set(), [], [], set()

    def reach(call, depth):
        depths.setdefault(call[0], depth)
        if call not in seen:
            seen.add(call)
            todo.append(call)

    for start in STARTS:
        function = named(program, start)
        if function:
            reach((function, Made(function.of, ()) if function.of else None, ()), 0)
        else:
            faults.append("cannot find %s" % start)
    while todo:
        function, of, given = todo.pop(0)
        reader = Reader(program, function, of, dict(given)).read()
        faults += reader.faults
        library_calls.update(reader.library_calls)
        for call in reader.calls:
            reach(call, depths[function] + 1)
    # What the language may call with no name: no followed function has a value of such a type where the module is its crate's
    # own and none of them is in that crate.
    for module, line, trait in program.foreign:
        if not module.hidden or any(f.module.path[0] == module.path[0] for f in depths):
            faults.append("%s:%d: cannot tell what calls %s" % (module.file, line, trait))
    read, more = kit.followed(library, frozenset(library_calls))
    return depths, read, list(dict.fromkeys(faults + more))


def judged(crates, library):
    """The same, and a source that cannot be read is a fault."""
    try:
        return followed(crates, library)
    except Unread as why:
        return {}, {}, [str(why)]


# ---- the check is tried on a copy of the sources

PLANT = "let planted = [0u8; 16];"

# Where the samples are put.
DEEP = "bits::load::word_inside"

# Put at the beginning of the deep function, each of these must be found, by these words. The part after a line of three
# dashes goes to the end of its file.
ALIAS_OF_ARRAY = "type Four = [u8; 4];"
HOLDS_ARRAY = "struct Four {\n    at: [u8; 4],\n}\n"
GIVEN, TAKEN = "an array taken or given in bits::load::made", "an array taken or given in bits::load::taken"
WRONG = [
    # arrays as expressions
    ("let planted = [1u8, 2, 3];", "an array: [1u8,2,3]"),
    ("let planted = [0u8; 4][1];", "an array: [0u8;4]"),
    ("let planted = f + [0u8; 4][1];", "an array: [0u8;4]"),
    ("let planted = &[0u8; 4];", "an array: [0u8;4]"),
    ("let [a, b] = f;", "an array: [a,b]"),
    ("let planted = *b\"four\";", "an array: b\"four\""),
    ("let planted = *b\"ghost use;\";", "an array: b\"ghost use;\""),
    # arrays in types
    ("let planted: [u8; 4] = f;", "a local array"),
    ("let planted: Four = f;\n---\n" + ALIAS_OF_ARRAY, "a local array"),
    ("let planted: super::load::Four = f;\n---\n" + ALIAS_OF_ARRAY, "a local array"),
    ("let planted: std::Four = f;", "a local array"),
    ("let planted: Result<[u8; 4], u8> = f;", "a local array"),
    ("let planted: (u8, Option<Four>) = f;\n---\n" + ALIAS_OF_ARRAY, "a local array"),
    ("let planted: Many<Four> = f;\n---\nstruct Many<T> {\n    at: T,\n}\n" + HOLDS_ARRAY, "a local array"),
    ("let planted = made();\n---\nfn made() -> [u8; 4] {\n    made()\n}", GIVEN),
    ("let planted = made();\n---\nfn made() -> Option<Four> {\n    None\n}\n" + HOLDS_ARRAY, GIVEN),
    ("let planted = taken(f);\n---\nfn taken(a: [u8; 4]) -> u8 {\n    a[0]\n}", TAKEN),
    ("let planted = taken(f);\n---\nfn taken(a: &mut [u8; 4]) {\n    let b = *a;\n}", TAKEN),
    ("let planted = taken(f);\n---\nfn taken<const N: usize>(a: &[u8; N]) {}", TAKEN),
    ("let planted = Four { at: f };\n---\n" + HOLDS_ARRAY, "Four, which holds an array,"),
    ("let planted = Many::<u8> { at: f };\n---\nstruct Many<T> {\n    at: [T; 4],\n}\n", "Many, which holds an array,"),
    ("let planted = Held::Some(f);\n---\nenum Held {\n    Some(Four),\n}\n" + HOLDS_ARRAY, "Held::Some, which holds an array,"),
    ("let planted = f.sum();\n---\nimpl Four {\n    fn sum(self) {}\n}\n" + HOLDS_ARRAY, "in bits::load::Four::sum"),
    # arrays in constants
    ("let planted = FOUR;\n---\nconst FOUR: [u8; 4] = [0; 4];", "the array FOUR"),
    ("let planted = FOUR;\n---\nconst FOUR: super::load::Four = f;\n" + ALIAS_OF_ARRAY, "the array FOUR"),
    ("let planted = FOUR;\n---\nconst FOUR: &[u8] = OTHER;\nconst OTHER: &[u8] = b\"four\";", "the array FOUR"),
    ("let planted = Four::ONE;\n---\nimpl Four {\n    const ONE: Self = f;\n}\n" + HOLDS_ARRAY, "the array Four::ONE"),
    # arrays in a function further on
    ("let planted = Place(0).four();\n---\nimpl Place {\n    fn four(self) {\n        [0u8; 4];\n    }\n}", "in bits::Place::four"),
    ("let planted = made(f);\n---\nfn made(x: u8)\n    ghost { ℕ }\n{\n    let y = [x];\n}", "in bits::load::made"),
    (
        "let planted = put(f, f);\n---\nstruct Held(ByteNo);\nfn put(x: Place, h: Held) {\n    let Held(x) = h;\n    x.four()\n}\n"
        "impl ByteNo {\n    fn four(self) {\n        [0u8; 4];\n    }\n}\nimpl Place {\n    fn four(self) {}\n}",
        "in bits::ByteNo::four",
    ),
    # arrays in closures, patterns and loops
    ("let planted = f.map_or(0, |x| [x, x][0]);", "an array: [x,x]"),
    ("let planted = f.map_or(0, |x: [u8; 4]| x);", "an array: [u8;4]"),
    ("let planted = f.map_or(0, |x: &Four| x);\n---\n" + ALIAS_OF_ARRAY, "Four, which holds an array,"),
    ("let planted = f.find(four);\n---\nfn four(x: u8) -> bool {\n    [x; 4][0]\n}", "an array: [x;4] in bits::load::four"),
    ("let planted = Held { b: [0u8; 4][0], ..f };\n---\nstruct Held {\n    a: u8,\n    b: u8,\n}", "an array: [0u8;4]"),
    ("for x in [1u8, 2] {}", "an array: [1u8,2]"),
    ("for x in 0..[0u8; 4][0] {}", "an array: [0u8;4]"),
    ("if let Some([a, b]) = f {}", "an array: [a,b]"),
    ("let Some(x) = f else {\n        return [0u8; 4][0];\n    };", "an array: [0u8;4]"),
    # what cannot be found or read
    ("let planted = nowhere(f);", "cannot find nowhere"),
    ("let planted = self::nowhere(f);", "cannot find self::nowhere"),
    ("let planted = crate::bit::nowhere(f);", "cannot find crate::bit::nowhere"),
    ("let planted = std::num::wrapping_add_u32(f, f);", "cannot find std::num::wrapping_add_u32"),
    ("let planted = std::array::from_fn(f);", "cannot find std::array::from_fn"),
    ("let planted = u64::swap_bytes(f);", "cannot find u64::swap_bytes"),
    ("let planted = u64::from_be_bytes(f);", "cannot find u64::from_be_bytes"),
    ("let planted = Default::default();", "cannot find Default::default"),
    ("let planted = Option::take(f);", "cannot find Option::take"),
    ("let planted = f.to_be_bytes();", "cannot find .to_be_bytes()"),
    ("let planted = f.first_chunk();", "cannot find .first_chunk()"),
    ("let planted = f.iter().copied();", "cannot find .copied()"),
    ("let planted = f.iter().fold(0, |x, y| nowhere(x, y));", "cannot find nowhere"),
    ("let planted = f.nowhere();", "cannot find .nowhere()"),
    ("let planted = |x| x;\n    planted(f);", "cannot find planted"),
    ("while let Some(x) = f.nowhere() {}", "cannot find .nowhere()"),
    ("match f {\n        Ok(x) if nowhere(x) => 0,\n        _ => 1,\n    };", "cannot find nowhere"),
    ("match f {\n        Ok(x) => nowhere(x)?,\n        Err(_) => 1,\n    };", "cannot find nowhere"),
    ("let planted = TABLE;\n---\nuse std::TABLE;", "cannot find std::TABLE, which is used,"),
    ("let planted = TABLE;\n---\nuse crate::nowhere::TABLE;", "cannot find crate::nowhere::TABLE, which is used,"),
    ("let planted = f;\n---\nimpl Drop for Place {\n    fn drop(&mut self) {}\n}", "cannot tell what calls Drop"),
    ("let planted = f;\n---\nimpl std::ops::Add for Place {\n    fn add(self) {}\n}", "cannot tell what calls std :: ops :: Add"),
    ("assert!(f);", "cannot read assert!"),
    ("const FOUR: [u8; 4] = [0; 4];", "cannot read const"),
    ("trait Four {\n        fn four() {}\n    }", "cannot read trait"),
    ("let ghost = [0u8; 16];", "ghost that is no clause"),
    ("let ghost = { [0u8; 16] };", "ghost that is no clause"),
    ("if ghost {\n        [0u8; 16];\n    }", "ghost that is no clause"),
    ("for ghost in f {\n        [0u8; 16];\n    }", "ghost that is no clause"),
    ("let planted =\n        ghost.map_or(0, |x| { [0u8; 16][0] });", "ghost that is no clause"),
    ("let ensures = { [0u8; 16] };", "ensures that is no clause"),
    ("/* see http://x */ let planted = [0u8; 16];", "a comment in /* */"),
    # what the library has in ways that are not followed
    ("let planted = f as i64;", "a i64, whose functions are not followed,"),
    ("let planted = put(f);\n---\nfn put(x: char) {}", "a char, whose functions are not followed,"),
    ("for x in f {}", "a Once, whose functions are not followed,"),
    ("let planted = p.min(p);", "a Ordering, whose functions are not followed,"),
    ("let planted = f.iter();", "a OptionIter, whose functions are not followed,"),
    ("let planted = f?;", "cannot find u64::branch in the kit's library"),
    ("let planted = (f..).find(|i| *i == g);", "a range of another kind, whose functions are not followed,"),
    ("let planted = (..f).is_empty();", "a range of another kind, whose functions are not followed,"),
    ("let planted = put(g, ..f);\n---\nfn put(x: u8, y: u8) {}", "a range of another kind, whose functions are not followed,"),
    ("for x in 0.. {}", "a range of another kind, whose functions are not followed,"),
    ("for x in 0..=f {}", "a range of another kind, whose functions are not followed,"),
    ("let planted = put::<u8>(f).min(g);\n---\nfn put<T>(x: T) {}", "a Ordering, whose functions are not followed,"),
    ("let planted = if f + 1 == g { f } else { g };\n    planted.min(g);", "a Ordering, whose functions are not followed,"),
    ("let h = f + 1;\n    let h = g;\n    h.min(f);", "a Ordering, whose functions are not followed,"),
]

# And none of these.
RIGHT = [
    "// let planted = [0u8; 16];",
    "let planted: &[u8] = &f[0..2][1..];",
    "let planted = f.0[1];",
    "let planted = u64::trailing_zeros(f) + g.len();",
    "let planted = ByteNo(1).place().byte();",
    "let planted = f.get(g).map_or(0, |x| u64::from(*x));",
    "let Some(planted) = (f..8).find(|i| g & 1 == *i) else {\n        return u64::MAX;\n    };",
    "for x in 0..(f + 1).min(8) {\n        let planted = put(x);\n    }\n---\nfn put(x: u8) -> Result<u8, u8> {\n    let y = x?[1];\n}",
    "let planted = (f + 1).min(8).saturating_add(g);\n    let h = 2 * f;\n    (h as u8).min(1);\n    h.min(2);",
    "let planted = Held { a: 1, ..f };\n    let Held { a, .. } = planted;\n---\nstruct Held {\n    a: u8,\n    b: u8,\n}",
    "let planted = g;\n---\nfn not_called() -> [u8; 4] {\n    [0u8; 4]\n}",
    "let planted = f;\n---\nstruct Held {\n    a: u8,\n    pub ghost four: { [0u8; 4] } by { [0u8; 4] },\n}",
    "let planted = f;\n---\nimpl Place {\n    ghost four = { [0u8; 4] };\n}",
]

# The same of functions with a type as parameter. Each is put before these: of two types that have a trait, the functions of the
# first one have arrays.
KINDS = """
use std::marker::PhantomData;
trait Kind {
    fn made(x: u8) -> u8;
    fn told(&self) -> u8;
}
struct First;
impl Kind for First {
    fn made(x: u8) -> u8 {
        [x; 4][0]
    }
    fn told(&self) -> u8 {
        [0u8; 4][0]
    }
}
struct Second;
impl Kind for Second {
    fn made(x: u8) -> u8 {
        x
    }
    fn told(&self) -> u8 {
        0
    }
}
struct Of<K: Kind> {
    of: PhantomData<K>,
}
fn by<K: Kind>(x: u8) -> u8 {
    K::made(x)
}
fn through<K: Kind>(x: &Of<K>, y: u8) -> u8 {
    by::<K>(y)
}
"""
MADE, TOLD = "an array: [x;4] in bits::load::First::made", "an array: [0u8;4] in bits::load::First::told"

METHOD_OF_BOTH = "impl<K: Kind> Of<K> {\n    fn all(&self) {\n        by::<K>(1);\n    }\n}\n"
OTHER = "trait Other {\n    fn four(x: u8) {\n        [x; 4];\n    }\n    fn five(&self) {\n        Self::made(1);\n    }\n}\n"

# What one of these says of the first type must be found, and of the second one nothing.
OF_EITHER = [
    ("let planted = by::<First>(f);\n---\n", MADE),
    ("let planted = First::made(f);\n---\n", MADE),
    ("let planted = through(&Of::<First> { of: PhantomData }, f);\n---\n", MADE),
    ("let held = Of::<First> { of: PhantomData };\n    let planted = through(&held, u8::from(f < g));\n---\n", MADE),
    ("let held: &Of<First> = g;\n    let planted = through(held, f << 1);\n---\n", MADE),
    ("let planted = put(f);\n---\nfn put(x: &Of<First>) {\n    through(x, 1)\n}\n", MADE),
    ("let planted = put(f);\n---\nfn put(x: &Of<First>) {\n    x.all();\n}\n" + METHOD_OF_BOTH, MADE),
    ("let planted = put(f);\n---\nfn put(x: First) {\n    x.told()\n}\n", TOLD),
    ("let planted = put(f);\n---\nfn put(x: Option<First>) {\n    if let Some(y) = x { y.told(); }\n}\n", TOLD),
    ("let planted = put(f);\n---\nfn put(x: Result<u8, First>) {\n    match x { Ok(z) => z, Err(y) => y.told() }\n}\n", TOLD),
]

# Put into this, each calls a function of x that may be of another type than the one that x had first.
PUT = "let planted = put(f, g);\n---\nfn put(x: Second, y: u8) {\n    %s\n}\n"
BOUND_AGAIN = [
    "let x = y;\n    x.told()",
    "for x in y {\n        x.told()\n    }",
    "y.map_or(0, |x| x.told())",
    "match y {\n        Some(x) if b => x.told(),\n        _ => 0,\n    }",
    "if let Ok((x, _)) = y {\n        x.told()\n    }",
]

# And these must be found by their words.
OF_KINDS = [(PUT % text, TOLD) for text in BOUND_AGAIN] + [
    ("let planted = f.told();\n---\n", TOLD),
    ("let planted = f.find(|x| x.told());\n---\n", TOLD),
    ("let planted = told(f);\n---\nfn told<K: Kind>(x: &K) {\n    x.told();\n}\n", TOLD),
    ("let planted = put(f);\n---\nfn put(Of(y): Second) {\n    y.told()\n}\n", TOLD),
    ("let planted = Second::four(f);\n---\nimpl Other for Second {}\n" + OTHER, "in bits::load::Other::four"),
    ("let planted = f.five();\n---\nimpl Other for First {}\n" + OTHER, MADE),
    ("let planted = Of::f(f);\n---\nimpl Of<Second> {\n    fn f() {}\n}\nimpl Of<First> {\n    fn f() { by::<First>(1) }\n}\n", MADE),
    ("let planted = by::<[u8; 4]>(f);\n---\n", "an array as a parameter"),
    ("let planted = by::<Four>(f);\n---\n" + ALIAS_OF_ARRAY, "an array as a parameter"),
    ("let planted = by::<Of<Four>>(f);\n---\n" + HOLDS_ARRAY, "an array as a parameter"),
    ("let planted = by(f);\n---\n", "cannot find K::made"),
    ("let planted = by::<u8>(f);\n---\n", "cannot find K::made"),
    ("let planted = by::<Nowhere>(f);\n---\n", "cannot find K::made"),
    ("let planted = f.all();\n---\n" + METHOD_OF_BOTH, "cannot find K::made"),
    ("let planted = put(f, |x, y| x);\n---\nfn put<K: Kind>(x: &Of<K>, y: u8) {\n    K::made(y)\n}\n", "cannot find K::made"),
    ("let planted = Second::nowhere(f);\n---\n", "cannot find Second::nowhere"),
    ("let planted = Kind::made(f);\n---\n", "cannot find Kind::made"),
    ("let planted = <Second as Kind>::made(f);\n---\n", "cannot read ::made"),
    ("let planted = Of::<Second>::made(f);\n---\n", "cannot read ::made"),
    ("let planted = f;\n---\nimpl<T: Kind> Kind for T {}\n", "cannot find T"),
    ("let planted = f;\n---\nimpl Kind for [u8; 4] {}\n", "cannot find [ u8 ; 4 ]"),
    ("let planted = f;\n---\ntype Other = First;\nimpl Other {}\n", "cannot find Other"),
]
WRONG += [(text + KINDS, words) for text, words in OF_EITHER + OF_KINDS]
RIGHT += [text.replace("First", "Second") + KINDS for text, _ in OF_EITHER]

# Functions that no plain call runs may have an array.
OTHERS = [
    "hash::Hash::step",
    "hash::Hash::advance",
    "skip::Skip::prepare",
    "wide::Wide::step",
    "tail::Tail::advance",
    "matcher::query::Query::stands",
    "eight::Refusal::number",
    "set::search_set",
]

# What stands in two sources, and what is put in its place.
ARM = "Method::Hash => by::<Hash>(mark, text, n, pattern, budget, list, scratch),"
PLAIN_ARM = "Method::Plain => by::<Plain>("
USE = "use bits::Place;"
OURS_IN_USE = (USE, USE + "\nuse rules::Method::Plain as Ours;")
NAMED = "let Some(known) = method_of(method) else {\n        return UNKNOWN_METHOD;\n    };\n"
NAMED_IN_SEARCH = NAMED + "    if answer.len() < 4 {"
CHOICE = "    match method {"
ELSE = "    let Method::Plain = method else {\n        return nowhere();\n    };\n"

# Put in place of what asks for the method that the caller's number names, each asks for another.
ASKS_ANOTHER = [
    "method_of(method + 1);\n    if b {",
    "let method = 1;\n    method_of(method);\n    if b {",
    "for method in 0..5 {\n        method_of(method);\n    }\n    if b {",
    "let found = f.map_or(0, |method| method_of(method));\n    if b {",
]

# Elsewhere: a file, what stands there with what is put in its place, and what must be found, if anything.
ELSEWHERE = [("capi/src/scan.rt", [(NAMED_IN_SEARCH, text)], "another method asked for") for text in ASKS_ANOTHER] + [
    ("search/src/call.rt", [(ARM, "Method::Hash => nowhere(),")], None),
    ("search/src/call.rt", [(ARM, "Method::Hash => {\n            nowhere()\n        }")], None),
    ("search/src/call.rt", [(ARM, "Method::Hash | rules::Method::Plain => nowhere(),")], "cannot find nowhere"),
    ("search/src/call.rt", [(ARM, "Method::Hash | _ => nowhere(),")], "cannot find nowhere"),
    ("search/src/call.rt", [(ARM, "Method::Hash if nowhere() => 0,")], "another method, Hash, handed on"),
    ("search/src/call.rt", [(ARM, "Method::Hash => if b { c } else { d }")], "cannot tell where the arm of Hash ends"),
    ("search/src/call.rt", [(PLAIN_ARM, "Method::Plain => plain::nowhere(")], "cannot find plain::nowhere"),
    ("search/src/call.rt", [(PLAIN_ARM, "Method::Plain => by::<Nowhere>(")], "cannot find M::prepare"),
    ("search/src/call.rt", [(PLAIN_ARM, "Method::Plain => by(")], "cannot find M::prepare"),
    ("search/src/call.rt", [OURS_IN_USE, (PLAIN_ARM, "Ours => nowhere(")], "cannot find nowhere"),
    ("search/src/call.rt", [("M::prepare(", "M::nowhere(")], "cannot find M::nowhere"),
    ("search/src/call.rt", [("M::advance(search, ", "Nowhere::advance(search, ")], "cannot find Nowhere::advance"),
    ("search/src/call.rt", [(USE, USE + "\nuse rules::Nowhere;")], "cannot find rules::Nowhere, which is used,"),
    ("search/src/call.rt", [(CHOICE, "    let method = Method::Hash;\n" + CHOICE)], "another method, Hash, handed on"),
    ("search/src/call.rt", [(CHOICE, ELSE + CHOICE)], "cannot find nowhere"),
    ("search/src/lib.rt", [("use rules::Method;", "use rules::Nowhere;")], "cannot find rules::Nowhere, which is used,"),
    ("search/src/lib.rt", [("pub fn search(", "pub fn find(")], "cannot find search::Mark::search"),
    ("search/src/lib.rt", [("M::step(search, ", "M::nowhere(search, ")], "cannot find M::nowhere"),
    ("plain/src/lib.rt", [("impl Matcher for Plain", "impl Nowhere for Plain")], "cannot tell what calls Nowhere"),
    ("plain/src/lib.rt", [("use bits::{ByteNo, Place, load};", "use bits::{ByteNo, Place, loads};")], "cannot find load::word_near_end"),
    ("set/src/lib.rt", [("\nmod ones;", "\npub mod ones;")], "cannot tell what calls Iterator"),
    ("bits/src/load.rt", [("fn join(", "fn joined(")], "cannot find join"),
    ("bits/src/lib.rt", [("impl Place {", "macro_rules! held {}\nimpl Place {")], "no item begins with macro_rules"),
]


def planted(crates, function, text):
    """Puts the text at the beginning of a function of the copy."""
    path = os.path.join(crates, *function.module.file.split("/"))
    with open(path, encoding="utf-8") as source:
        old = source.read()
    inside, _, after = text.partition("\n---\n")
    at = function.body[0].at + 1
    return path, old, old[:at] + " " + inside + old[at:] + after + "\n"


def tried(crates, library, change):
    """What is found in the copy with one file changed, which is then put back."""
    path, old, new = change
    with open(path, "w", encoding="utf-8") as source:
        source.write(new)
    faults = judged(crates, library)[2]
    with open(path, "w", encoding="utf-8") as source:
        source.write(old)
    return faults


def copied(crates, folder):
    """A copy of the sources, as a folder of crates beside its crates.txt."""
    copy = os.path.join(folder, "crates")
    for name in os.listdir(crates):
        shutil.copytree(os.path.join(crates, name, "src"), os.path.join(copy, name, "src"))
    shutil.copy(os.path.join(os.path.dirname(crates), "crates.txt"), folder)
    return copy


def run_planted(copy, function, depth):
    """The test itself, on the copy with an array in one function: whether it follows as many functions and fails there."""
    path, old, new = planted(copy, function, PLANT)
    with open(path, "w", encoding="utf-8") as source:
        source.write(new)
    run = subprocess.run([sys.executable, os.path.abspath(__file__), copy], capture_output=True, text=True, check=False)
    with open(path, "w", encoding="utf-8") as source:
        source.write(old)
    print("on a copy with `%s` in %s, %d calls deep, it exits with %d:" % (PLANT, function.full, depth, run.returncode))
    print("\n".join("    " + line for line in run.stdout.splitlines()[-2:]))
    return run.returncode == 1 and run.stdout.splitlines()[-1:] == [message(function)]


def message(function):
    return "%s:%d: an array: [0u8;16] in %s" % (function.module.file, function.body[0].line, function.full)


def samples(copy, functions, deep):
    """What is changed in the copy, what must then be found, if anything, and whether it is all that may be found."""
    for function in functions:
        yield planted(copy, function, PLANT), message(function), True
    for text, words in WRONG:
        yield planted(copy, deep, text), words, False
    for text in RIGHT:
        yield planted(copy, deep, text), None, False
    program = Program(copy, TOPS)
    for other in OTHERS:
        yield planted(copy, named(program, other), PLANT), None, False
    for file, pairs, words in ELSEWHERE:
        path = os.path.join(copy, *file.split("/"))
        with open(path, encoding="utf-8") as source:
            old = new = source.read()
        for text, other in pairs:
            if new.count(text) != 1:
                raise Unread("%s has %r %d times" % (file, text, new.count(text)))
            new = new.replace(text, other)
        yield (path, old, new), words, False


# ---- and on a copy of the library's sources in memory

LIBRARY_DEEP = "Range<A>::next"

# Put at the beginning of that function, each of these must be found, by these words. The part after a line of three dashes goes
# to the end of its file.
LIBRARY_WRONG = [
    ("let planted: [A; 1] = f;", "an array: [A;1] in Range<A>::next"),
    ("let [a, b] = f;", "an array: [a,b] in Range<A>::next"),
    ("let planted = *b\"four\";", "an array: b\"four\" in Range<A>::next"),
    ("let planted = made(self);\n---\nfn made(x: A) {\n    [x; 4];\n}\n", "an array: [x;4] in core::iter::ranges::made"),
    ("let planted = made(self);\n---\nfn made(x: A) -> [u8; 4] {\n    x\n}\n", "an array: [u8;4] in core::iter::ranges::made"),
    ("let planted = made(self);\n---\nfn made(x: A) -> Four {\n    x\n}\ntype Four = [u8; 4];\n", "a Four, whose functions"),
    ("let planted = made(self);\n---\nfn made(x: A) -> Four {\n    x\n}\nstruct Four([u8; 4]);\n", "a Four, whose functions"),
    ("let planted = made(self);\n---\nfn made(x: A) -> impl Copy {\n    x\n}\n", "cannot read impl in core::iter::ranges::made"),
    ("let planted = FOUR;\n---\nconst FOUR: [u8; 4] = [0; 4];\n", "an array: [u8;4] in core::iter::ranges::FOUR"),
    ("let planted = self.four();\n---\nimpl<A> Range<A> {\n    fn four(&self) {\n        [0u8; 4];\n    }\n}\n", "in Range<A>::four"),
    ("let planted = self.start.four();\n---\nimpl u8 {\n    fn four(self) {\n        [0u8; 4];\n    }\n}\n", "in u8::four"),
    ("let planted = nowhere(self);", "cannot find nowhere in the kit's library"),
    ("let planted = self.nowhere();", "cannot find Range::nowhere in the kit's library"),
    ("let planted = self.start.nowhere();", "cannot find .nowhere() in the kit's library"),
    ("let planted = u64::nowhere(self);", "cannot find u64::nowhere in the kit's library"),
    ("let planted = crate::array::from_fn(f);", "in core::array::from_fn"),
    ("let planted = u64::from_be_bytes(f);", "in the kit's library, which Range<A>::next calls"),
    ("let planted = 0 as i64;", "a i64, whose functions are not followed,"),
    ("let planted = (f..).len();", "a range of another kind, whose functions are not followed, in Range<A>::next"),
    ("let planted = Once { value: f };", "a Once, whose functions are not followed,"),
    ("let planted = <[A]>::len(f);", "in Range<A>::next"),
    ("unreachable!();", "cannot read unreachable! in Range<A>::next"),
    ("for planted in self {}", "cannot read for in Range<A>::next"),
    ("let planted = self.start?;", "cannot read ? in Range<A>::next"),
    ("let ghost = [0u8; 16];", "ghost that is no clause"),
    ("f;\n---\nmacro four() {}\n", "no item begins with macro"),
]

# And none of these.
LIBRARY_RIGHT = [
    "// let planted = [0u8; 16];",
    "let planted = made(self);\n---\nfn made(x: A) {\n    x[0][1];\n}\n",
    "let planted = f;\n---\nfn not_called() {\n    [0u8; 4];\n}\n",
    "let planted = f;\n---\nimpl i64 {\n    fn below(self, x: i64) {\n        [0u8; 4];\n    }\n}\n",
    "let planted = f;\n---\nstruct Four {\n    at: [u8; 4],\n}\n"
    "impl Iterator for Four {\n    fn next(&mut self) {\n        [0u8; 4];\n    }\n}\n",
]

# Elsewhere: a function that is followed, what stands once in its file with what is put in its place, and what must be found.
LIBRARY_ELSEWHERE = [
    ("[T]::iter", "struct Iter<'a, T> {", "struct Iter<'a, T> {\n    at: [u8; 4],", "an array: [u8;4] in core::iter::slices::Iter"),
    ("u32::div_ceil", "fn div_ceil(", "fn div_up(", "cannot find u32::div_ceil in the kit's library, which the repository calls"),
    ("u64::MAX", "const MAX: u64", "const LARGEST: u64", "cannot find u64::MAX in the kit's library, which"),
]


def library_planted(library, held, text):
    """The library with the text at the beginning of one of its functions, or before the value of a constant."""
    old = library.texts[held.file]
    inside, _, after = text.partition("\n---\n")
    at = held.body[0].at + (held.kind == "fn")
    return library.changed(held.file, old[:at] + " " + inside + " " + old[at:] + after)


def library_samples(library, read):
    """The changed copies, what must then be found, if anything, and whether it is all that may be found."""
    for held in read:
        text = PLANT if held.kind == "fn" else "[0u8; 16][0] +"
        words = "%s:%d: an array: [0u8;16] in %s" % (held.file, held.body[0].line, held.full)
        yield library_planted(library, held, text), words, True
    deep = next(held for held in read if held.full == LIBRARY_DEEP)
    for text, words in LIBRARY_WRONG:
        yield library_planted(library, deep, text), words, False
    for text in LIBRARY_RIGHT:
        yield library_planted(library, deep, text), None, False
    for full, text, other, words in LIBRARY_ELSEWHERE:
        file = next(held.file for held in read if held.full == full)
        if library.texts[file].count(text) != 1:
            raise Unread("%s has %r %d times" % (file, text, library.texts[file].count(text)))
        yield library.changed(file, library.texts[file].replace(text, other)), words, False


def tries(crates, library, depths, read):
    """How many tries were made, and those that went wrong."""
    deep = next(f for f in depths if f.full == DEEP)
    with tempfile.TemporaryDirectory() as folder:
        copy = copied(crates, folder)
        wrong = [] if run_planted(copy, deep, depths[deep]) else ["it does not fail there"]
        tried_on = [(tried(copy, library, change), *wanted) for change, *wanted in samples(copy, depths, deep)]
        tried_on += [(judged(copy, changed)[2], *wanted) for changed, *wanted in library_samples(library, read)]
        for faults, words, alone in tried_on:
            good = faults == [words] if alone else any(words in f for f in faults) if words else not faults
            if not good:
                wrong.append("%s to be found, not %s" % (words or "nothing was", faults))
        wrong += judged(copy, library)[2]
    return 1 + len(tried_on), wrong


def listed(held):
    return "%s (%s:%d)" % (held.full, held.file if isinstance(held, kit.Held) else held.module.file, held.line)


def main():
    crates = sys.argv[1] if len(sys.argv) > 1 else CRATES
    try:
        library = kit.library(kit.folder())
    except Unread as why:
        print("arrays.py: the kit's library cannot be read: %s" % why)
        sys.exit(1)
    depths, read, faults = judged(crates, library)
    print("\n".join(map(listed, depths)))
    print("of the kit's library:")
    print("\n".join(map(listed, read)))
    names = [f.full for f in depths]
    faults += ["%s is not followed" % name for name in [METHOD_OF, DEEP] if name not in names and not faults]
    faults += ["%s is not followed" % LIBRARY_DEEP for _ in [1] if LIBRARY_DEEP not in [f.full for f in read] and not faults]
    if faults:
        print("arrays.py: a plain search call has these faults:")
        print("\n".join(faults))
        sys.exit(1)
    if len(sys.argv) > 1:
        return
    count, wrong = tries(crates, library, depths, read)
    if wrong:
        print("arrays.py: the check itself is wrong:")
        print("\n".join(wrong))
        sys.exit(1)
    made = len(depths) + len(read) + count
    print("arrays.py: %d functions, %d of the kit's library, %d checks" % (len(depths), len(read), made))


main()
