#!/usr/bin/env python3
"""Respells the repository's own definitions and lemmas as today's Rattle spells them.

usage: tools/snake_names.py [--look]     at the top of a repository that port.py has turned, once; --look prints the table and writes nothing

A name is respelled where a text of specs/ or proofs/ declares it. Words are in snake case: `fooBar` becomes `foo_bar`, and a dash stays only between two names, as in
`length-encode_anchor`: a plain word is added by `_`, as in `decode_none`. A lemma that would then have its definition's name ends in `_lem`. The folder
`contract` of specs/ is a module, `Contract`. Names are turned in proof text, in clauses and `ghost use` lines, in must-fail edits, and between backticks in
comments and pages; prose, strings, the code of functions and what Rattle itself names (goals, steps) stay.
"""

import glob
import os
import re
import subprocess
import sys

W = r"[^\s(){}.;,@\"«»\[\]\\`|]+"
PIECE = re.compile(r"--[^\n]*|//[^\n]*|\"(?:[^\"\\\n]|\\.)*\"|" + W)
DECLARED = re.compile(r"^ *((?:pub |abbrev |unfoldable |data |record )*)(" + W + r")((?: +[^:\n]*)?) :(?: |$)", re.M)
STEP = re.compile(r"\.(ensures|result|requires|new)\b")
# Words of the library that stand as names in lemmas.
LIBRARY = set("length take drop set map filter reverse get_or replicate lookup append cons nil some none zero suc ltb leb eqb not".split())
# A lemma whose words happen to be names.
BY_HAND = {}


def snake(word):
    word = re.sub(r"([A-Z]+)([A-Z][a-z])", r"\1_\2", word)
    word = re.sub(r"([a-z0-9])([A-Z])", r"\1_\2", word)
    return word.lower()


def is_camel(word):
    return bool(re.match(r"[a-z]", word) and re.search(r"[a-z0-9][A-Z]", word))


def read(path):
    with open(path, encoding="utf-8") as f:
        return f.read()


def write(path, text):
    with open(path, "w", encoding="utf-8") as f:
        f.write(text)


def files(*ends):
    return sorted(p for e in ends for p in glob.glob(e, recursive=True) if "/out/" not in p and os.path.isfile(p))


def bare(text):
    return re.sub(r"--[^\n]*|//[^\n]*", "", text)


def words(text):
    return set(re.findall(W, bare(text)))


def dashed(name, names):
    """The name in parts, the longest that are names first, a dash between two names and `_` elsewhere."""
    parts = name.split("-")
    units, i = [], 0
    while i < len(parts):
        for j in range(len(parts), i, -1):
            unit = "_".join(snake(p) if is_camel(p) else p for p in parts[i:j])
            if unit in names and (j - i > 1 or len(unit) > 1):
                units.append((unit, True))
                i = j
                break
        else:
            p = parts[i]
            units.append((snake(p) if is_camel(p) else p, False))
            i += 1
    out = units[0][0]
    for (a, x), (b, y) in zip(units, units[1:]):
        plain = re.fullmatch(r"[A-Za-z0-9_'₀-₉]+", b) and re.fullmatch(r"[A-Za-z0-9_'₀-₉]+", a)
        out += ("-" if x and y or not plain else "_") + b
    return out


def table():
    made = files("crates/*/specs/**/*.antt", "crates/*/proofs/**/*.antt")
    names, lemmas, definitions = set(), set(), set()
    for p in made:
        text = re.sub(r"--[^\n]*", "", read(p))
        for m in DECLARED.finditer(text):
            name = m.group(2)
            if p.endswith("Proof.antt"):
                if is_camel(name):
                    names.add(name)
                continue
            names.add(name)
            (definitions if re.search("abbrev|unfoldable|data|record", m.group(1)) else lemmas).add(name)
    known = LIBRARY | {snake(n) if is_camel(n) else n for n in definitions if "-" not in n}
    out = {}
    for n in sorted(names):
        new = BY_HAND.get(n) or (dashed(n, known) if "-" in n else snake(n) if is_camel(n) else n)
        if new != n:
            out[n] = new
    # names that would fall together with another: the lemma gives way
    used = {}
    for p in made + files("crates/*/src/**/*.rt"):
        for w in words(read(p)):
            used.setdefault(w, set()).add(p)
    taken = {}
    for n in sorted(out, key=lambda n: ("-" in n, n not in definitions, n)):
        here = used.get(n, set())

        def clashes(new):
            if any(used.get(o, set()) & here for o in taken.get(new, ())):
                return True
            both = used.get(new, set()) & here
            return bool(both) and not only_source(new, both)

        if clashes(out[n]) and out[n] in lemmas and out[n] not in definitions and n in definitions:
            # the other one is a lemma: it gives way
            out[out[n]] = out[n] + "_lem"
            taken.setdefault(out[out[n]], []).append(out[n])
        elif clashes(out[n]):
            out[n] += "_lem"
        taken.setdefault(out[n], []).append(n)
    return out


def only_source(word, paths):
    """The word stands in these texts as a name of the source alone: a function's, or its module's or step's."""
    for p in paths:
        text = bare(read(p))
        if p.endswith(".rt"):
            continue
        for m in re.finditer(r"(?<![^\s(){}.;,@\"«»\[\]\\`|])" + re.escape(word) + r"(?![^\s(){}.;,@\"«»\[\]\\`|])", text):
            if text[m.start() - 1] != ".":
                return False
    return True


def turned(text, names, comment):
    def piece(m):
        s = m.group(0)
        if s.startswith(comment):
            return quoted(s, names)
        if s.startswith('"') or s.startswith("--") or s.startswith("//"):
            return s
        # a step of a proof, named after the function that it calls
        if text[m.start() - 1 : m.start()] == "." and (not is_camel(s) and "-" not in s or "-" in s and STEP.match(text, m.end())):
            return s
        return names.get(s, s)

    return PIECE.sub(piece, text)


def quoted(text, names):
    return re.sub(r"`[^`\n]*`", lambda q: re.sub(W, lambda w: names.get(w.group(0), w.group(0)), q.group(0)), text)


def theirs(text):
    """The names that a text imports from a library: they stay."""
    own = "|".join(sorted(os.path.basename(c) for c in glob.glob("crates/*")))
    out = set()
    for m in re.finditer(r"\buse ([^\s;{]+)\.\{([^}]*)\}", bare(text)):
        if not re.match(r"Rattle\.(" + own + r")\.", m.group(1) + "."):
            out |= set(re.findall(W, m.group(2)))
    return out


def but(names, text):
    stay = theirs(text)
    return {o: n for o, n in names.items() if o not in stay}


def moved(text):
    return re.sub(r"\bspecs([./])contract\b", r"specs\1Contract", text)


def main():
    names = table()
    # in code a plain word is a function's
    code = {o: n for o, n in names.items() if is_camel(o) or "-" in o}
    if "--look" in sys.argv:
        for old, new in sorted(names.items()):
            print(old, new)
        return 0
    for p in files("crates/*/specs/**/*.antt", "crates/*/proofs/**/*.antt"):
        text = read(p)
        write(p, moved(turned(text, but(names, text), "--")))
    for p in files("crates/*/src/**/*.rt"):
        text = read(p)
        write(p, moved(turned(text, but(code, text), "//")))
    for p in files("crates/*/must-fail/*.edit"):
        lines = read(p).split("\n")
        write(p, "\n".join(moved(turned(l, code, "--") if re.match(r"(file|old|new):", l) else quoted(l, code)) for l in lines))
    for p in files("README.md", "docs/*.md"):
        write(p, moved(quoted(read(p), code)))
    for c in sorted(glob.glob("crates/*")):
        if os.path.isdir(f"{c}/specs/contract"):
            subprocess.run(["git", "mv", f"{c}/specs/contract", f"{c}/specs/Contract"], check=True)
            for node in files(f"{c}/specs/contract.antt"):
                subprocess.run(["git", "mv", node, f"{c}/specs/Contract.antt"], check=True)
            for lib in files(f"{c}/specs/Lib.antt"):
                write(lib, re.sub(r"\bmod contract\b", "mod Contract", read(lib)))
    for c in sorted(glob.glob("crates/*")):
        subprocess.run(["rt", "fmt"], cwd=c, check=False, stdout=subprocess.DEVNULL)
    print(f"{len(names)} names respelled")
    return 0


if __name__ == "__main__":
    raise SystemExit(main())
