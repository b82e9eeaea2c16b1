#!/usr/bin/env python3
"""Brings the repository's own ghost names to one spelling: words in snake case, types in upper camel case.

usage: python3 tools/respell.py [--dry]        at the top of the repository

A name that the repository itself defines in specs/ or proofs/ (a definition, a lemma, a field, a constructor, a `let`
or a bound variable) and that has a dash gets underscores, as `set-of` becomes `set_of`; if it begins with a capital it
is a type, and becomes camel case, as `Runs-exist` becomes `RunsExist`. A name that a file imports from a library
outside the repository keeps its spelling in that file, and so do the goals that the check names itself, the functions
of src/, strings, inputs and outputs. Names that would fall together are printed, and then nothing is written.
It does nothing on a repository whose names have no dash.
"""
import glob
import re
import sys

WORD = r"[^\s:(){}\[\]=,;|\"«».λ→×∷⊎≡≤<>]+"
TOKEN = re.compile(r"(?<![\w'′₀-₉-])[A-Za-z_ℕ⊎∷][\w'′₀-₉]*(?:-[\w'′₀-₉*]+)+(?![\w-])")
DEFINES = [
    re.compile(rf"^\s*(?:abbrev |unfoldable |pub |data |record )*({WORD})\s*(?:\{{[^:]*:|\([^:]*:|:)"),
    re.compile(rf"\blet ({WORD}) *[:=]"),
    re.compile(rf"[({{]((?:{WORD} )+):"),
    re.compile(rf"λ ((?:{WORD} ?)+)\."),
]
GOAL = re.compile(rf"^(?:abbrev )?(?:pub )?({WORD}) : (?:goal|need|given)\.")
FOREIGN = re.compile(r"^(?:ghost )?use (?!Rattle\.(?:CRATES)\.)[\w.]+\.\{([^}]*)\}", re.M)


def sources(pattern):
    return sorted(p for p in glob.glob("crates/*/" + pattern, recursive=True) if "/out/" not in p)


def spelled(name):
    parts = re.split(r"[-_]", name)
    if name[0].isupper():
        return "".join(p[0].upper() + p[1:] for p in parts if p)
    return name.replace("-", "_")


def defined(text):
    """The names that a file defines, and those of goals, which keep their spelling."""
    names, goals = set(), set()
    for line in text.splitlines():
        line = re.sub(r"(^|\s)--\s.*$", "", line)
        goal = GOAL.match(line)
        if goal:
            goals.add(goal.group(1))
            continue
        for form in DEFINES:
            for found in form.findall(line):
                names |= {n for n in found.split() if TOKEN.fullmatch(n)}
    return names, goals


def main():
    crates = "|".join(sorted(p.split("/")[1] for p in glob.glob("crates/*/src")))
    foreign_use = re.compile(FOREIGN.pattern.replace("CRATES", crates), re.M)
    texts = {p: open(p, encoding="utf-8").read() for p in sources("specs/**/*.antt") + sources("proofs/**/*.antt") + sources("src/*.rt")}
    names, goals = set(), set()
    for path, text in texts.items():
        if path.endswith(".antt"):
            n, g = defined(text)
            names |= n
            goals |= g
    names -= goals
    all_words = {w for t in texts.values() for w in re.findall(r"[A-Za-z_][\w']*", t)}
    clash = {}
    for n in names:
        clash.setdefault(spelled(n), set()).add(n)
    twice = {s: ns for s, ns in clash.items() if len(ns) > 1}
    known = {s: ns for s, ns in clash.items() if s in all_words}
    for s, ns in sorted(known.items()):
        print(f"look: {', '.join(sorted(ns))} becomes {s}, a word that is there already")
    if twice:
        sys.exit(f"fall together: {twice}")
    changed = 0
    for path, text in texts.items():
        outside = {w.strip() for found in foreign_use.findall(text) for w in re.split(r",| as ", found)}

        def turn(m):
            w = m.group(0)
            return spelled(w) if w in names and w not in outside else w

        new = TOKEN.sub(turn, text)
        if new != text:
            changed += 1
            if "--dry" not in sys.argv:
                open(path, "w", encoding="utf-8").write(new)
    print(f"{len(names)} names, {changed} files")


if __name__ == "__main__":
    main()
