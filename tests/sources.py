"""Reads Rattle sources for the tests: the code without its comments, ghost imports and contracts."""

import os
import re

CRATES = os.path.join(os.path.dirname(os.path.dirname(os.path.abspath(__file__))), "crates")


class Unread(Exception):
    """What cannot be read, or not be found, with its place."""


def blank(text):
    """Spaces in place of the text, so that every line and column stays where it is."""
    return re.sub(r"[^\n]", " ", text)


# What is no code, and what may hold text that looks like it.
APART = re.compile(r"//[^\n]*|/\*|b?\"(?:\\.|[^\"\\])*\"|b?'(?:\\.|[^'\\])'", re.S)

# What only the prover reads: imports, clauses of a function, and ghost members of a struct, a trait or an `impl`. Their braces
# may be nested. Each begins its line, and a name may stand before the brace, but nothing else: so a local by the name of ghost
# is not taken for one.
GHOST = re.compile(
    r"""^[ ]*(?:pub(?:\(\w+\))?[ ])?(?:
    ghost\s+use\b[^;]*;
    |(?:(?:requires|ensures)\b\*?|ghost\b)(?:\s+\w+)?\s*:?\s*\{
    |ghost\s+\w+\s*=\s*\{)""",
    re.X | re.M,
)

# A ghost field may have a proof after its fact, and a ghost member of a trait what it is where an `impl` does not say it.
PROOF = re.compile(r"\s*(?:\bby|=)\s*\{")


def clause_ends(text, start):
    """Where the brace that is open before `start` is closed."""
    depth = 1
    while depth and start < len(text):
        depth += {"{": 1, "}": -1}.get(text[start], 0)
        start += 1
    return start


def code(text, strings=False):
    """The code alone: no comments, no ghost imports, no contracts and, unless they are asked for, no strings."""
    kept = []
    for found in APART.finditer(text):
        if found.group() == "/*":
            raise Unread("line %d: a comment in /* */" % (text.count("\n", 0, found.start()) + 1))
        if strings and not found.group().startswith("/"):
            kept.append(found)
    text = APART.sub(lambda found: blank(found.group()), text)
    at = 0
    while found := GHOST.search(text, at):
        at = clause_ends(text, found.end()) if found.group().endswith("{") else found.end()
        if "ghost" in found.group() and (proof := PROOF.match(text, at)):
            at = clause_ends(text, proof.end())
        kept = [k for k in kept if not found.start() <= k.start() < at]
        text = text[: found.start()] + blank(text[found.start() : at]) + text[at:]
    for string in kept:
        text = text[: string.start()] + string.group() + text[string.end() :]
    return text
