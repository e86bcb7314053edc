#!/usr/bin/env python3
"""Respells the repository's own definitions and lemmas: words in snake case, facts and types in camel case.

usage: python3 tools/respell.py [--list]     at the top of the repository, once, after a turn to a newer Rattle

A name of ours that has hyphens is written with underscores (`closure-splits` becomes `closure_splits`), and in camel
case if it begins with a capital (`Points-below-128` becomes `PointsBelow128`). Left alone: the names that a file gives
to goals of the check, names that a file imports from std and the like, whole-line comments, and strings of code.

It goes by text, and it refuses nothing. First look at what --list prints: the names, and those that would fall
together with another word of the repository (a function of the code by the same name is no harm; APART gives another
spelling where a definition or a lemma is). A field that the check makes and that is spelled as a name of ours is turned
too: the check then names it. Must-fail edits are not looked at.
"""

import glob
import re
import sys

CHAR = r"[\w'′\-₀-₉]"
TOKEN = re.compile(r"(?<![\w'′\-₀-₉])[A-Za-z_ℓ]" + CHAR + r"*")
USE = re.compile(r"(?m)^(?:pub )?(?:ghost )?use ([^\s;{]+?)(?:\.\{([^}]*)\}| as [^;\n]+)?;?$")
DECLARED = re.compile(r"(?m)^ *(?:abbrev pub |unfoldable pub |pub record |pub data |abbrev |unfoldable |record |data |pub )?([^\s:(){}]+)(?: (?:\([^\n]*\)|\{[^\n]*\}))* : ")
RECORD = re.compile(r"(?m)^(?:pub )?(?:record|data) ([^\s:(){}]+)")


def files():
    return sorted(glob.glob("crates/*/src/**/*.rt", recursive=True) + glob.glob("crates/*/specs/**/*.antt", recursive=True) + glob.glob("crates/*/proofs/**/*.antt", recursive=True))


def imports(text):
    """The names that a file imports from std and the like, and those that it imports from goals."""
    foreign = set()
    for path, names in USE.findall(text):
        ours = path.startswith("Rattle.") and not path.startswith("Rattle.std") and ".Goals" not in path and ".Given" not in path and not path.startswith("Rattle.core")
        if not ours:
            for n in names.split(","):
                foreign.add(n.strip().split(" as ")[0])
                foreign.add(n.strip().split(" as ")[-1])
    return foreign


def made(path, text):
    """The names that an answers file gives to goals of the check."""
    if not re.search(r"proofs/.*/(Answers|Invariants)\.antt$", path):
        return set()
    return set(re.findall(r"(?m)^(?:abbrev )?pub ([^\s:]+) : goal\.", text))


# where the plain spelling would fall together with another name
APART = {"Says-stable": "RepliesStable"}


def respelled(name):
    if name in APART:
        return APART[name]
    if name[0].isupper():
        return "".join(p[:1].upper() + p[1:] for p in name.split("-"))
    return name.replace("-", "_")


def main():
    texts = {f: open(f, encoding="utf-8").read() for f in files()}
    foreign, goals, ours, everything = set(), set(), set(), set()
    for f, t in texts.items():
        foreign |= imports(t)
        goals |= made(f, t)
        everything |= set(TOKEN.findall(t))
    for f, t in texts.items():
        if not f.endswith(".antt"):
            continue
        here = imports(t) | made(f, t)
        for n in DECLARED.findall(t) + RECORD.findall(t):
            if "-" in n and n not in here and TOKEN.fullmatch(n):
                ours.add(n)
        # names bound by lemmas, by λ and in patterns: what stands in no import, and behind no dot
        for m in re.finditer(r"(?<![\w'′\-₀-₉.])[a-zA-Z_]" + CHAR + r"*", re.sub(r"--[^\n]*", "", re.sub(r"(?m)^(pub )?use .*$", "", t))):
            n = m.group(0)
            if "-" in n and n not in here and n not in goals and n not in foreign:
                ours.add(n)
    ours -= {n for n in ours if n in foreign and not any(n in DECLARED.findall(t) and n not in imports(t) and n not in made(f, t) for f, t in texts.items())}
    ours = {n for n in ours if not re.match(r"(loop|invariant|decreases|returns|ensures|requires|in|then|else|overflow|if|match|ghost)-.*", n) or any(re.search(r"(?m)^ *(abbrev pub |unfoldable pub |pub record |abbrev |pub )?" + re.escape(n) + r" : (?!goal)", t) for t in texts.values())}
    both = sorted(n for n in ours if n in foreign or n in goals)
    together = {}
    for n in ours:
        together.setdefault(respelled(n), set()).add(n)
    for n in together:
        if n in everything:
            together[n].add(n)
    clash = {n: s for n, s in together.items() if len(s) > 1}
    if "--list" in sys.argv:
        print(len(ours), "names:", *sorted(ours))
        print("\nalso a name of std or a goal elsewhere:", *both)
        print("\nfall together:", *(f"{n} <- {sorted(s)}" for n, s in sorted(clash.items())), sep="\n")
        return
    for f, t in texts.items():
        keep = imports(t) | made(f, t)

        def turn(m):
            n = m.group(0)
            if "-" not in n or n in keep or n not in ours:
                return n
            return respelled(n)

        if f.endswith(".rt"):
            # code and comments stay; clauses and ghost lines have the names
            lines = [l if l.lstrip().startswith("//") else re.sub(r'("[^"]*")|' + TOKEN.pattern, lambda m: m.group(0) if m.group(1) else turn(m), l) for l in t.split("\n")]
            new = "\n".join(lines)
        else:
            lines = []
            for l in t.split("\n"):
                code, dash, comment = l.partition("-- ") if l.lstrip().startswith("-- ") else (l, "", "")
                lines.append(TOKEN.sub(turn, code) + dash + comment)
            new = "\n".join(lines)
        if new != t:
            open(f, "w", encoding="utf-8").write(new)
    print(len(ours), "names respelled")


main()
