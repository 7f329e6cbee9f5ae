"""Reads the crates of a repository as modules, types, constants and functions, and finds what a name in one of them means.
It knows as much of Rattle as the library's sources use, and fails on what it cannot read."""

import collections
import functools
import os
import re

from sources import Unread, code

# ---- words and marks


class Token(str):
    """A word, number, string or mark, with its kind, its line from 1 and where it starts in the file."""

    __slots__ = ("kind", "line", "at")


TOKEN = re.compile(
    r"""(?P<space>\s+)
    |(?P<string>b?"(?:\\.|[^"\\])*")
    |(?P<number>b?'(?:\\.|[^'\\])'|\d\w*)
    |(?P<lifetime>'\w+)
    |(?P<word>[^\W\d]\w*)
    |(?P<mark>::|=>|->|\.\.=|\.\.|&&|\|\||.)""",
    re.X | re.S,
)

KEYWORDS = set("as break const continue else enum extern false fn for if impl in let loop match mod mut pub return".split())
KEYWORDS |= set("move static struct super trait true type unsafe use while".split())

CLOSING = {"(": ")", "[": "]", "{": "}"}


# Words of contracts and ghost code, of which none is left in the code.
GHOST_WORDS = ["ghost", "requires", "ensures"]


@functools.lru_cache(maxsize=None)
def tokens_of(text):
    """The tokens of a source."""
    found, line = [], 1
    text = code(text, strings=True)
    for m in TOKEN.finditer(text):
        if m.lastgroup != "space":
            token = Token(m.group())
            token.kind, token.line, token.at = m.lastgroup, line, m.start()
            found.append(token)
            if token in GHOST_WORDS:
                raise Unread("line %d: %s that is no clause" % (line, token))
        line += m.group().count("\n")
    return found


def is_name(token):
    return token.kind == "word" and token not in KEYWORDS


def begins_path(token):
    return is_name(token) or token == "super"


def path_at(tokens, i):
    """The names from i on that `::` joins."""
    path = [tokens[i]]
    while i + 2 < len(tokens) and tokens[i + 1] == "::" and tokens[i + 2].kind == "word":
        i += 2
        path.append(tokens[i])
    return path


def past(tokens, i):
    """The index after the bracket that closes the one at i."""
    open_ones = []
    for j in range(i, len(tokens)):
        t = tokens[j]
        if t.kind == "mark" and t in CLOSING:
            open_ones.append(CLOSING[t])
        elif t.kind == "mark" and open_ones and t == open_ones[-1]:
            open_ones.pop()
        if not open_ones:
            return j + 1
    raise Unread("line %d: %s is not closed" % (tokens[i].line, tokens[i]))


def until(tokens, i, ends):
    """The index from i on of the first of these marks that is in no bracket, or of the end."""
    while i < len(tokens) and tokens[i] not in ends:
        i = past(tokens, i) if tokens[i].kind == "mark" and tokens[i] in CLOSING else i + 1
    return i


def past_angle(tokens, i):
    """The index after the `>` that closes the `<` at i."""
    depth, j = 0, i
    while j < len(tokens):
        depth += {"<": 1, ">": -1}.get(tokens[j], 0)
        j = past(tokens, j) if tokens[j].kind == "mark" and tokens[j] in CLOSING else j + 1
        if not depth:
            return j
    raise Unread("line %d: %s is not closed" % (tokens[i].line, tokens[i]))


def between(tokens, values=False):
    """The parts between the commas of `<..>` or `(..)`, but for lifetimes. Among values a `<` is a bracket only after `::`."""
    parts, at, i = [], 1, 1
    while i < len(tokens):
        t = tokens[i]
        if i == len(tokens) - 1 or t == ",":
            parts.append(tokens[at:i])
            at = i + 1
        if t == "<" and (not values or tokens[i - 1] == "::"):
            i = past_angle(tokens, i)
        else:
            i = past(tokens, i) if t.kind == "mark" and t in CLOSING else i + 1
    return [part for part in parts if part and part[0].kind != "lifetime"]


def indexes(tokens, i):
    """Whether the bracket at i follows a value."""
    before = tokens[i - 1] if i else tokens[i]
    return is_name(before) or before in (")", "]", "?") or before.kind == "number" and tokens[i - 2] == "."


def names_in(angles):
    """The names of the parameters that `<..>` declares, but for lifetimes."""
    return [part[1] if part[0] == "const" else part[0] for part in between(angles)]


def begins_closure(tokens, i):
    """Whether the `|` at i may stand where a value begins."""
    before = tokens[i - 1]
    return before in KEYWORDS or before.kind == "mark" and before not in (")", "]")


def patterns(tokens):
    """All patterns of a body, each with the tokens of its type, if they are written, and of the value that it is for. More may
    be taken for a pattern, and then fewer types are known."""
    for i, t in enumerate(tokens):
        if t == "let":
            colon = until(tokens, i + 1, ":=;")
            equals = until(tokens, colon, "=;")
            end = until(tokens, equals, ["{"] if tokens[i - 1] in ("if", "while") else ["else", ";"])
            yield tokens[i + 1 : colon], tokens[colon + 1 : equals], tokens[equals + 1 : end]
        elif t == "for" and tokens[i + 1] != "<":
            yield tokens[i + 1 : until(tokens, i, ["in"])], [], []
        elif t == "match":
            start = until(tokens, i + 1, "{")
            at, end = start + 1, past(tokens, start) - 1
            while at < end:
                arrow = until(tokens[:end], at, ["=>"])
                after = past(tokens, arrow + 1) if tokens[arrow + 1] == "{" else until(tokens[:end], arrow + 1, [",", "=>"])
                if arrow == end or tokens[after] == "=>":
                    yield tokens[at:end], [], []
                    break
                yield tokens[at : until(tokens[:arrow], at, ["if"])], [], tokens[i + 1 : start]
                at = after + 1 if tokens[after] == "," else after
        elif t == "|" and begins_closure(tokens, i):
            yield tokens[i + 1 : until(tokens, i + 1, "|")], [], []


# ---- items


class Item:
    def __init__(self, name, module, line):
        self.name, self.module, self.line = name, module, line
        self.full = "::".join(module.path + [name])


class Module:
    def __init__(self, path, parent, file):
        self.path, self.parent, self.file, self.private = path, parent, file, False
        self.types, self.values, self.uses = {}, {}, {}

    @property
    def hidden(self):
        """Whether other crates cannot name what is in it."""
        return self.private or self.parent is not None and self.parent.hidden


class Type(Item):
    """A struct, an enum or another name for a type, its alias: its parameters, what it is made of, what each variant holds, and
    its functions, of which several may have one name in several `impl`s. Each of its traits comes with the names of the functions
    that its `impl` has: others are the trait's own."""

    def __init__(self, name, module, line, params, parts, variants=(), alias=False):
        super().__init__(name, module, line)
        self.alias = alias
        self.params, self.parts, self.variants, self.constants = params, parts, dict(variants), {}
        self.methods, self.traits = {}, []

    def functions(self, name):
        own = [trait.methods[name] for trait, names in self.traits if name in trait.methods and name not in names]
        return self.methods.get(name, []) + own


class Trait(Item):
    """A trait, with those of its functions that have a body."""

    def __init__(self, name, module, line):
        super().__init__(name, module, line)
        self.methods = {}


# A type with the types that its parameters stand for, each of which may be None, which is any.
Made = collections.namedtuple("Made", "item args")


class Variant:
    def __init__(self, of, name):
        self.of, self.name, self.parts = of, name, of.variants[name]


class Constant(Item):
    def __init__(self, name, module, line, of, parts, value):
        super().__init__(name, module, line)
        self.of, self.parts, self.value = of, parts, value


class Function(Item):
    """A function: the type or trait that it is of, the type that the head of its `impl` names, and its parameters that are
    types, of the `impl` and its own."""

    def __init__(self, name, module, line, of, head, params, signature, body):
        super().__init__(name, module, line)
        self.of, self.head, self.signature, self.body = of, head, signature, body
        start = past_angle(signature, 0) if signature[0] == "<" else 0
        self.own = names_in(signature[:start])
        self.params = params + self.own
        self.start = start
        if of:
            self.full = "%s::%s" % (of.full, name)

    def takes(self):
        """What the function takes, each as its tokens."""
        return between(self.signature[self.start : past(self.signature, self.start)])

    def takes_self(self):
        """Whether it can be called as a method."""
        return any("self" in part[:4] and ":" not in part[: part.index("self")] for part in self.takes()[:1])


# ---- what the language itself has

STD = Module(["std"], None, "std")
STD.types["marker"] = Module(["std", "marker"], STD, "std")
PRELUDE = {}


def own(module, name, params, variants):
    """A type of the language: it holds what its parameters stand for, and no more."""
    parts = [(variant, tokens_of(held)) for variant, held in variants]
    return Type(name, module, 0, params, [], parts)


STD.types["marker"].types["PhantomData"] = own(STD, "PhantomData", ["T"], [])
PRELUDE["Option"] = own(STD, "Option", ["T"], [("Some", "T"), ("None", "")])
PRELUDE["Result"] = own(STD, "Result", ["T", "E"], [("Ok", "T"), ("Err", "E")])
PRELUDE.update([(name, Variant(made, name)) for made in list(PRELUDE.values()) for name in made.variants])


class Program:
    """The crates below a folder `crates` that some of them rest on, and these, and which of them each one sees."""

    def __init__(self, crates, tops):
        self.crates, self.roots, self.sees, self.types, self.impls, self.foreign = crates, {}, {}, [], [], []
        with open(os.path.join(os.path.dirname(os.path.abspath(crates)), "crates.txt"), encoding="utf-8") as lines:
            for line in lines:
                name, colon, below = line.split("#")[0].partition(":")
                # A static library has a second word, and other crates may have settings there.
                name = name.split()[0] if name.split() else name
                if colon:
                    self.sees[name.strip()] = below.split()
        for name in [name for name in self.sees if any(name in self.below(top) for top in tops)]:
            root = next((f for f in ("lib.rt", "main.rt") if os.path.exists(os.path.join(crates, name, "src", f))), None)
            if not root:
                raise Unread("crate %s has no root" % name)
            self.roots[name] = self.module([name], None, "%s/src/%s" % (name, root))
        for module, head, inside in self.impls:
            self.implemented(module, head, inside)

    def below(self, crate):
        """The crate with all crates of the repository that it rests on."""
        seen, todo = [], [crate]
        while todo:
            name = todo.pop()
            if name in self.sees and name not in seen:
                seen.append(name)
                todo += self.sees[name]
        return seen

    # reading

    def module(self, path, parent, file):
        module = Module(path, parent, file)
        try:
            with open(os.path.join(self.crates, *file.split("/")), encoding="utf-8") as source:
                self.items(tokens_of(source.read()), module)
        except OSError as why:
            raise Unread("%s: %s" % (file, why.strerror)) from None
        except Unread as why:
            raise Unread(str(why) if ".rt:" in str(why) else "%s: %s" % (file, why)) from None
        return module

    def items(self, tokens, module, of=None, head=(), params=()):
        """The items of a module, of a trait, or of an `impl` of a type. An `impl` is read when all types are known."""
        i = 0
        while i < len(tokens):
            t = tokens[i]
            if t == "#":
                i = past(tokens, i + 2 if tokens[i + 1] == "!" else i + 1)
            elif t == "pub":
                i = past(tokens, i + 1) if tokens[i + 1] == "(" else i + 1
            elif t == "extern" and tokens[i + 2] == "fn":
                i += 2
            elif t == "use":
                end = until(tokens, i, ";")
                self.used(tokens[i + 1 : end], [], module)
                i = end + 1
            elif t == "mod" and tokens[i + 2] == ";":
                folder = module.file.rsplit("/", 1)[0]
                if len(module.path) > 1:
                    folder += "/" + module.path[-1]
                name = tokens[i + 1]
                module.types[name] = self.module(module.path + [name], module, "%s/%s.rt" % (folder, name))
                module.types[name].private = tokens[i - 1] != "pub"
                i += 3
            elif t in ("struct", "enum"):
                i = self.declared(tokens, i, module)
            elif t == "type" and not of:
                equals, end = until(tokens, i, "="), until(tokens, i, ";")
                params = names_in(tokens[i + 2 : equals])
                self.known(Type(tokens[i + 1], module, t.line, params, tokens[equals + 1 : end], alias=True))
                i = end + 1
            elif t == "trait" and not of:
                start = until(tokens, i, "{")
                end = past(tokens, start)
                made = module.types[tokens[i + 1]] = Trait(tokens[i + 1], module, t.line)
                given = names_in(tokens[i + 2 : past_angle(tokens, i + 2)]) if tokens[i + 2] == "<" else []
                self.items(tokens[start + 1 : end - 1], module, made, params=given)
                i = end
            elif t == ";" and of:
                i += 1
            elif t == "const" and not isinstance(of, Trait):
                name, equals, end = tokens[i + 1], until(tokens, i, "="), until(tokens, i, ";")
                made = Constant(name, module, t.line, of, tokens[i + 3 : equals], tokens[equals + 1 : end])
                (of.constants if of else module.values)[name] = made
                i = end + 1
            elif t == "fn":
                i = self.function(tokens, i, module, of, head, params)
            elif t == "impl" and not of:
                start = until(tokens, i, "{")
                end = past(tokens, start)
                self.impls.append((module, tokens[i:start], tokens[start + 1 : end - 1]))
                i = end
            else:
                raise Unread("%s:%d: no item begins with %s" % (module.file, t.line, t))

    def implemented(self, module, head, inside):
        """The items of an `impl`. That of a trait which none of the crates has is only noted: the language itself may call
        its functions, with no name."""
        params, at = [], 1
        if head[at] == "<":
            at = past_angle(head, at)
            params = names_in(head[1:at])
        of_trait = until(head, at, ["for"])
        named = head[of_trait + 1 :] if of_trait < len(head) else head[at:]
        of = self.found(module, path_at(named, 0))
        if not isinstance(of, Type) or of.alias or not self.is_whole(named):
            raise Unread("%s:%d: cannot find %s" % (module.file, head[0].line, " ".join(named)))
        if of_trait < len(head):
            trait = self.found(module, path_at(head, at))
            if not isinstance(trait, Trait) or not self.is_whole(head[at:of_trait]):
                self.foreign.append((module, head[0].line, " ".join(head[at:of_trait])))
                return
            of.traits.append((trait, [inside[i + 1] for i, t in enumerate(inside) if t == "fn"]))
        self.items(inside, module, of, named, params)

    def is_whole(self, tokens):
        """Whether the tokens are a path, and after it no more than what its parameters stand for."""
        end = 2 * len(path_at(tokens, 0)) - 1
        return end == len(tokens) or tokens[end] == "<" and past_angle(tokens, end) == len(tokens)

    def known(self, item):
        item.module.types[item.name] = item
        self.types.append(item)

    def declared(self, tokens, i, module):
        """A struct or an enum, whose variants are names, each with what it holds."""
        kind, name = tokens[i], tokens[i + 1]
        start = past_angle(tokens, i + 2) if tokens[i + 2] == "<" else i + 2
        params, start = names_in(tokens[i + 2 : start]), until(tokens, start, "{(;")
        end = past(tokens, start) if tokens[start] != ";" else start + 1
        variants, at = [], start + 1
        while kind == "enum" and at < end - 1:
            comma = min(until(tokens, at, ","), end - 1)
            variants.append((tokens[at], tokens[at + 2 : comma - 1]))
            at = comma + 1
        inside = [t for _, parts in variants for t in parts] if kind == "enum" else tokens[start:end]
        self.known(Type(name, module, name.line, params, inside, variants))
        return end + 1 if end < len(tokens) and tokens[end] == ";" else end

    def function(self, tokens, i, module, of, head, params):
        """A function. In a trait it may have no body."""
        name = tokens[i + 1]
        start = until(tokens, i, "{;" if isinstance(of, Trait) else "{")
        if start == len(tokens):
            raise Unread("%s:%d: %s has no body" % (module.file, name.line, name))
        if tokens[start] == ";":
            return start + 1
        end = past(tokens, start)
        made = Function(name, module, name.line, of, head, list(params), tokens[i + 2 : start], tokens[start:end])
        if isinstance(of, Type):
            of.methods.setdefault(name, []).append(made)
        else:
            (of.methods if of else module.values)[name] = made
        return end

    def used(self, tokens, path, module):
        """The names that a `use` brings in: a path, or a path and a list of paths in braces."""
        i = 0
        while i < len(tokens):
            if tokens[i] == "{":
                at = i + 1
                while at < len(tokens) - 1:
                    comma = until(tokens[:-1], at, ",")
                    self.used(tokens[at:comma], path, module)
                    at = comma + 1
                return
            if tokens[i] == "as":
                module.uses[tokens[i + 1]] = path
                return
            if tokens[i].kind != "word":
                raise Unread("%s:%d: no name to be used: %s" % (module.file, tokens[i].line, tokens[i]))
            path, i = path + [tokens[i]], i + 1
            if i < len(tokens) and tokens[i] == "::":
                i += 1
        module.uses[path[-1]] = path

    # finding

    def found(self, module, path, of=None):
        """What a path means in a module, or None: a function, constant, type, trait, variant or module, or a list of functions
        where several `impl`s of a type have one of that name."""
        first = path[0]
        if first == "crate":
            at = self.roots[module.path[0]]
        elif first == "self" and len(path) > 1:
            at = module
        elif first == "super":
            at = module.parent
        elif first == "Self":
            at = of
        elif first == "std":
            at = STD
        else:
            at = self.member(module, first, last=len(path) == 1)
            if at is None and first in self.sees.get(module.path[0], []):
                at = self.roots.get(first)
            at = at or PRELUDE.get(first)
        for k, name in enumerate(path[1:]):
            at = self.member(at, name, last=k == len(path) - 2)
        return at

    def member(self, at, name, last):
        """What is called so in a module or a type. Only the last name of a path can be a value."""
        if isinstance(at, Type):
            if name in at.variants:
                return Variant(at, name)
            functions = at.functions(name)
            return functions[0] if len(functions) == 1 else functions or at.constants.get(name)
        if not isinstance(at, Module):
            return None
        if last and name in at.values:
            return at.values[name]
        if name in at.types:
            return at.types[name]
        if name not in at.uses:
            return None
        path = at.uses[name]
        if path[0] not in ("crate", "self", "super") and path[0] == name:
            return self.roots.get(name) if len(path) == 1 else None
        return self.found(at, path)

    def methods(self, crate, name, of=None):
        """The methods of that name of the type, or where it is not known of all types that a crate sees, each with its type."""
        seen = self.below(crate)
        types = [of] if of else [t for t in self.types if t.module.path[0] in seen]
        if not of:
            types += [t for t in PRELUDE.values() if isinstance(t, Type)]
        return [(f, t) for t in types for f in t.functions(name) if f.takes_self()]
