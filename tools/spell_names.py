#!/usr/bin/env python3
"""Writes the repository's own names in snake case, as today's Rattle has them.

usage: tools/spell_names.py        at the top, once, after the kit's port.py

Definitions, lemmas, fields and variables of specs/ and proofs/ are turned, with the clauses of src/ that cite them, the
must-fail edits and the code spans of the pages: `bitAt` and `bit-at` are `bit_at`. Types, modules, functions of src/, names
of the kit and the names that the kit makes for a function's goals stay. Where two names of one file fall together, the one
in APART gets another name. A second run changes nothing.
"""

import glob
import re
import sys

WORD = re.compile(r"[^\s(){}.;,@\"«»\[\]\\|`]+")
# The end of a line of comments, a quoted text, or a word with the dot before it.
TOKEN = re.compile(r"(?P<note>(?<!\S)--[^\n]*)|(?P<text>\"(?:[^\"\\\n]|\\.)*\")|(?P<word>(?P<dot>\.?)(?P<name>%s))" % WORD.pattern)
SPAN = re.compile(r"`[^`\n]+`")
USE = re.compile(r"^(?:pub )?(?:ghost )?use ([^\n;{]*?)\.?\{([^}]*)\}", re.M)

# File, name as port.py left it, new name: lemmas and fields that would have a definition's name.
APART = [
    ("crates/bits/proofs/Weight.antt", "bit-of", "bit_of_lem"),
    ("crates/capi/proofs/Wild.antt", "before-by", "before_by_lem"),
    ("crates/hits/proofs/*.antt", "accepted-line", "accepted_line_lem"),
    ("crates/hits/proofs/*.antt", "refused-line", "refused_line_lem"),
    ("crates/lines/proofs/Examples.antt", "first-line", "first_line_lem"),
    ("crates/rules/proofs/*.antt", "fixed-in-row", "fixed_in_row_lem"),
    ("crates/plain/proofs/**/*.antt", "fixed-in-row", "fixed_in_row_lem"),
    ("crates/rules/proofs/*.antt", "in-row", "in_row_lem"),
    ("crates/plain/proofs/**/*.antt", "in-row", "in_row_lem"),
    ("crates/plain/proofs/**/*.antt", "shifted-bit", "shifted_bit_lem"),
    ("crates/plain/**/Row*.antt", "row-bit", "row_shows"),
    ("crates/plain/**/Row*.antt", "mask-bit", "mask_one"),
    ("crates/plain/proofs/RowExamples.antt", "as-found", "not_as_found"),
    ("crates/plain/proofs/RowExamples.antt", "next-index", "not_next_index"),
    ("crates/plain/proofs/RowExamples.antt", "mask-at-wild", "not_mask_at_wild"),
    ("crates/plain/proofs/RowExamples.antt", "mask-past", "not_mask_past"),
    ("crates/wide/proofs/**/*.antt", "stands_after", "stands_after_lem"),
    ("crates/wide/proofs/**/*.antt", "wide-finds", "wide_finds_lem"),
]


def snake(name):
    if not re.match(r"[a-z]", name):
        return name
    name = name.replace("-", "_")
    name = re.sub(r"(?<=[a-z0-9])([A-Z]+)", lambda m: "_" + m.group(1).lower(), name)
    return re.sub(r"_([A-Z]+)", lambda m: "_" + m.group(1).lower(), name)


def read(path):
    with open(path, encoding="utf-8") as f:
        return f.read()


def crates():
    return {path.split("/")[1] for path in glob.glob("crates/*/")}


OURS = crates()


def kit_names(text):
    """The names that a file takes from the kit."""
    names = set()
    for path, items in USE.findall(text):
        parts = path.split(".")
        if len(parts) > 1 and parts[0] == "Rattle" and parts[1] in OURS:
            continue
        for item in items.split(","):
            names.update(item.split(" as ")[-1].split())
            names.update(item.split(" as ")[0].split())
    return names


def definitions():
    return sorted(glob.glob("crates/*/specs/*.antt") + glob.glob("crates/*/proofs/*.antt"))


def apart(path):
    return {old: new for pattern, old, new in APART if path in glob.glob(pattern, recursive=True)}


def turned(text, kit, other, known=None):
    """The text with its own names in snake case: all of them, or those alone whose new spelling is in known."""

    def name_of(name):
        if name in kit:
            return name
        if name in other:
            return other[name]
        new = snake(name)
        return new if known is None or new in known else name

    def put(m):
        if m.group("note"):
            return SPAN.sub(lambda s: WORD.sub(lambda w: w.group(0) if w.group(0) in kit else spelled(w.group(0)), s.group(0)), m.group(0))
        if m.group("text"):
            return m.group(0)
        return m.group("dot") + name_of(m.group("name"))

    def spelled(name):
        new = other.get(name, snake(name))
        return new if new in NAMES else name

    return TOKEN.sub(put, text)


def names():
    """Each name of a file of definitions or lemmas that is its own, in its new spelling, if that differs from its old one."""
    found = set()
    for path in definitions():
        text = read(path)
        kit, other = kit_names(text), apart(path)
        for m in TOKEN.finditer(text):
            name = m.group("name")
            if name and name not in kit and re.match(r"[a-z]", name):
                found.add(other.get(name, snake(name)))
    return found


NAMES = set()
EVERY_KIT_NAME = set()


def write(path, text):
    if text != read(path):
        with open(path, "w", encoding="utf-8") as f:
            f.write(text)
        print(path)


def main():
    global NAMES, EVERY_KIT_NAME
    NAMES = names()
    everything = sorted(glob.glob("crates/**/*.antt", recursive=True))
    for path in everything:
        EVERY_KIT_NAME |= kit_names(read(path))
    lemmas = definitions()
    for path in everything:
        text = read(path)
        kit, other = kit_names(text), apart(path)
        if path in lemmas:
            write(path, turned(text, kit, other))
        else:
            # A function's proof: what the kit made for it stays.
            made = set(re.findall(r"^(?:abbrev )?(?:pub )?(\S+) : \S*\btie\.", text, re.M))
            write(path, turned(text, kit | made, other, NAMES))
    camel = re.compile(r"(?<![\w-])[a-z][a-z0-9]*(?:[A-Z][a-z0-9]*)+\b")
    for path in sorted(glob.glob("crates/*/src/**/*.rt", recursive=True)):
        text = read(path)
        kit = kit_names(text)
        write(path, camel.sub(lambda m: snake(m.group(0)) if snake(m.group(0)) in NAMES and m.group(0) not in kit else m.group(0), text))
    # Edits and pages still have the names as they were before port.py.
    for path in sorted(glob.glob("crates/*/must-fail/*.edit")):
        put = lambda m: snake(m.group(0)) if snake(m.group(0)) in NAMES and m.group(0) not in EVERY_KIT_NAME else m.group(0)
        write(path, re.sub(r"(?<![\w-])[a-z][\w'′]*(?:-[\w'′]+)*", put, read(path)))
    for path in ["README.md", "CONTRIBUTING.md"] + sorted(glob.glob("docs/**/*.md", recursive=True)):
        put = lambda m: snake(m.group(0)) if snake(m.group(0)) in NAMES and m.group(0) not in EVERY_KIT_NAME else m.group(0)
        span = lambda s: re.sub(r"(?<![\w./-])[a-z][\w'′]*(?:-[\w'′]+)*(?![\w/-]|\.\w)", put, s.group(0))
        write(path, SPAN.sub(span, read(path)))


if __name__ == "__main__":
    sys.exit(main())
