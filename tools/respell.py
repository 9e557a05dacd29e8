#!/usr/bin/env python3
"""Respells the definitions and lemmas of crates/*/specs and crates/*/proofs: words in snake case, types in camel case.

usage: python3 tools/respell.py          at the top of the repository: rewrites .antt and .rt files in place
       python3 tools/respell.py --dry    prints what would change and what falls together

A new name follows from the old one alone, so the script does the same in any checkout. Names of functions in src/, text in quotes,
comments and the goals that the check generates keep their spelling.
"""

import collections
import os
import re
import sys

# Names that would fall together with another, or that have a sign in them.
SPECIAL = {
    "each-++": "each_concat",
    "latest-++": "latest_concat",
    "list-text": "list_text_size",
    "ruleOf": "stored_rule_of",
    "getD-cut": "item_cut",
    "getD-same": "item_same",
    "More-plays": "MorePlays",
    "More-shrinks": "MoreShrinks",
    "not-side-A": "not_side_a",
    "any-true": "any_stand_true",
}
SPLIT = re.compile(r"([\s(){}\[\].,;:|↦→×⊎λ]+)")
# A signature inside a module or a mutual block.
INNER = re.compile(r"^ {4,8}(?:abbrev |unfoldable )?(?:pub )?([a-z][a-zA-Z0-9']*(?:-[a-zA-Z0-9']+)+) :(?: |$)")
# A name that a use line gives.
ALIAS = re.compile(r" as ([a-z][a-zA-Z0-9']*(?:-[a-zA-Z0-9']+)+)(?=[,}])")
GOALS = ("Answers.antt", "Invariants.antt", "Proof.antt")


def files():
    for top in sorted(os.listdir("crates")):
        for part in ("specs", "proofs", "src"):
            for folder, dirs, names in os.walk(os.path.join("crates", top, part)):
                dirs.sort()
                for name in sorted(names):
                    if name.endswith((".antt", ".rt")):
                        yield os.path.join(folder, name)


def head(line):
    """What stands before a signature's colon, without what is in brackets."""
    depth, out = 0, ""
    for i, c in enumerate(line):
        depth += c in "({["
        depth -= c in ")}]"
        if depth == 0 and line[i : i + 2] == " :" and line[i + 2 : i + 3] in ("", " ", "\n"):
            return out
        if depth == 0:
            out += " " if c in ")}]" else c
    return None


def declared(path, text):
    if not path.endswith(".antt"):
        return
    goals = "/proofs/" in path and path.endswith(GOALS)
    for line in text.split("\n"):
        indent = len(line) - len(line.lstrip(" "))
        if line.strip().startswith("--"):
            continue
        yield from ALIAS.findall(line) if line.startswith("use ") else ()
        if indent > 2:
            inner = INNER.match(line)
            if inner:
                yield inner.group(1)
            continue
        h = head(line)
        words = h.split() if h is not None else []
        if not words or any(w in ("=", "let", "in", "λ", "|", "↦") for w in words):
            continue
        if goals and "pub" in words:
            continue
        for w in words:
            if w not in ("abbrev", "unfoldable", "pub", "data", "record"):
                yield w


def respelled(name):
    if name in SPECIAL:
        return SPECIAL[name]
    if "-" not in name and not (name[0].islower() and re.search(r"[a-z][A-Z]", name)) and "′" not in name:
        return None
    if not name[0].isalpha():
        return None
    new = re.sub(r"([a-z0-9])([A-Z])", lambda m: m.group(1) + "_" + m.group(2).lower(), name.replace("′", "'"))
    return new.replace("-", "_")


def outside(line, path):
    """The parts of a line: (text, whether names are respelled in it)."""
    mark = "--" if path.endswith(".antt") else "//"
    at = line.find(mark)
    if at >= 0 and (at == 0 or line[at - 1] == " "):
        line, rest = line[:at], line[at:]
    else:
        rest = ""
    for i, part in enumerate(re.split(r'("(?:[^"\\]|\\.)*")', line)):
        yield part, i % 2 == 0
    yield rest, False


def turn(text, path, names):
    lines = []
    for line in text.split("\n"):
        out = ""
        for part, on in outside(line, path):
            out += "".join(names.get(w, w) for w in SPLIT.split(part)) if on else part
        lines.append(out)
    return "\n".join(lines)


def main():
    texts = {p: open(p, encoding="utf-8").read() for p in files()}
    homes = collections.defaultdict(set)
    for p, t in texts.items():
        for w in declared(p, t):
            homes[w].add(p)
    names = {n: respelled(n) for n in homes if respelled(n)}
    together = collections.defaultdict(set)
    for n in homes:
        together[names.get(n, n)].add(n)
    for new, olds in sorted(together.items()):
        if len(olds) > 1:
            print("together:", new, {o: sorted(homes[o]) for o in olds})
    print(len(names), "names")
    if "--dry" in sys.argv:
        return
    for p, t in texts.items():
        new = turn(t, p, names)
        if new != t:
            open(p, "w", encoding="utf-8").write(new)


main()
