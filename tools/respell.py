#!/usr/bin/env python3
"""Respells the project's own definitions and lemmas: words in snake case, a dash only where it joins two names.

usage: python3 tools/respell.py [--dry]      at the top, once, after the kit's own script

Functions of src/, exported names, types, modules, strings, inputs and outputs keep their names. Token types keep the grammar's (`TokenType.YyEof`).
What is turned: .antt files (code and comments), of .rt files the clauses, ghost items and comments, and of must-fail edits the lines of definitions and clauses.
Names that fall together in a file are printed on lines that begin 'same:'.
"""

import collections
import os
import re
import sys

WORD = re.compile(r"[^\s(){}.;,@\"«»`:]+")
STRING = re.compile(r'"(?:[^"\\\n]|\\.)*"')
SIG = re.compile(
    r"^\s*((?:abbrev |unfoldable |pub |pattern |ruleset )*)([^\s(){}.;,@\"«»:]+)(?:\s*\{[^}]*\})?(?:\s+\([^)]*\)|\s+\{[^}]*\})*\s+: (.*)$"
)
CAMEL = re.compile(r"[a-z][a-z0-9]*(?:[A-Z][a-z0-9]*)+'*$")
USE = re.compile(r"^\s*(?:pub )?use ([\w.·+-]+?)(?:\.\{([^}]*)\}|\.(\S+))?$")
MADE = ("tie.", "goal.", "stated", "statement", "lts.", "reads.", "code.")


def texts(top, *ends):
    for folder, dirs, files in os.walk(os.path.join(top, "crates")):
        dirs[:] = sorted(d for d in dirs if d != "out")
        for f in sorted(files):
            if f.endswith(ends):
                yield os.path.join(folder, f)


def read(path):
    with open(path, encoding="utf-8") as f:
        return f.read()


def snake(word):
    return re.sub(r"(?<=[a-z0-9])([A-Z])", r"_\1", word).lower()


def collect(top):
    """The names that the project declares, those of Rattle's that it cites, and the plain ones among the declared."""
    declared, foreign, plain = set(), set(), set()
    for path in texts(top, ".antt"):
        in_walk = os.path.basename(path) in ("Proof.antt", "Answers.antt", "Invariants.antt")
        for line in read(path).splitlines():
            use = USE.match(line)
            if use:
                if not use.group(1).startswith("Rattle.") or use.group(1).startswith("Rattle.std"):
                    foreign.update(w.split(" as ")[0].strip() for w in (use.group(2) or use.group(3) or "").split(","))
                continue
            sig = SIG.match(line)
            if not sig:
                continue
            name, kind = sig.group(2), sig.group(3)
            if in_walk and (kind.startswith(MADE) or name.endswith("-spec")):
                continue
            declared.add(name)
            if ("abbrev" in sig.group(1) or "unfoldable" in sig.group(1)) and "-" not in name and not in_walk and re.match(r"[a-z]", name):
                plain.add(snake(name))
    return declared, foreign, plain | {"length", "append", "take", "drop", "map"}


def spelled(name, plain):
    """One name anew: camel case to snake case, and a dash to an underscore but between two names."""
    parts = [snake(p) if CAMEL.match(p) else p for p in name.split("-")]
    if any(p == "" for p in parts):
        return name
    out = parts[0]
    for before, part in zip(parts, parts[1:]):
        a, b = re.sub("['0-9]+$", "", before), re.sub("['0-9]+$", "", part)
        names = (a in plain or a[:1].isupper()) and (b in plain or b[:1].isupper())
        out += ("-" if names else "_") + part
    return out


def table(top):
    """The spellings, and the lemmas in snake case already that would now have a definition's name: those turn only where they are declared or imported."""
    declared, foreign, plain = collect(top)
    rows = {}
    meant = {snake(n) for n in declared if CAMEL.match(n)}
    lemmas = {n: n + "_lem" for n in declared if n in meant}
    for name in sorted(declared):
        if name in foreign or name[:1].isupper() or not re.match(r"[a-z]", name):
            continue
        new = spelled(name, plain)
        if new != name and "-" in name and (new in meant or new in declared):
            new += "_lem"
        if new != name:
            rows[name] = new
    # Local names in camel case go with the definitions.
    for path in texts(top, ".antt", ".rt"):
        for word in WORD.findall(STRING.sub('""', read(path))):
            if CAMEL.match(word) and word not in foreign:
                rows[word] = snake(word)
    return rows, lemmas


def turn(text, rows, walk):
    """All words outside strings. In a walk of the code a name with a dash behind a dot is Rattle's."""

    def word(m):
        old = m.group()
        if walk and "-" in old and m.string[m.start() - 1 : m.start()] == ".":
            return old
        return rows.get(old, old)

    out, at = [], 0
    for string in STRING.finditer(text):
        out += [WORD.sub(word, text[at : string.start()]), string.group()]
        at = string.end()
    return "".join(out) + WORD.sub(word, text[at:])


def has(text, name):
    """The file declares the lemma, or imports it."""
    for line in text.splitlines():
        sig, use = SIG.match(line), USE.match(line)
        if sig and sig.group(2) == name and "abbrev" not in sig.group(1):
            return True
        if use and ".proofs." in use.group(1) and name in [w.split(" as ")[0].strip() for w in (use.group(2) or use.group(3) or "").split(",")]:
            return True
    return False


def main(argv):
    top = os.path.dirname(os.path.dirname(os.path.realpath(__file__)))
    rows, lemmas = table(top)
    for path in texts(top, ".antt", ".rt", ".edit"):
        before = read(path)
        here = dict(rows)
        if path.endswith(".antt"):
            here.update({old: new for old, new in lemmas.items() if has(before, old)})
        words = set(WORD.findall(STRING.sub('""', before)))
        for word in sorted(words):
            if word in here and here[word] in words and here.get(here[word]) is None:
                print(f"same: {os.path.relpath(path, top)}: {word} and {here[word]}")
        after = turn(before, here, os.path.basename(path) in ("Proof.antt", "Answers.antt", "Invariants.antt"))
        if after != before and "--dry" not in argv:
            with open(path, "w", encoding="utf-8") as f:
                f.write(after)
    back = collections.defaultdict(list)
    for old, new in rows.items():
        back[new].append(old)
    for new, olds in sorted(back.items()):
        if len(olds) > 1:
            print(f"same: {new} of {', '.join(olds)}")
    if "--table" in argv:
        for old, new in sorted(rows.items()):
            print(f"{old}\t{new}")
    print(f"{len(rows)} names")


if __name__ == "__main__":
    main(sys.argv[1:])
