#!/usr/bin/env python3
"""tools/rename.py [DIR..]: writes the new names of tools/renames.txt for the old ones, in the folders given (crates/ of this repository by default).
It is for the older Rattle's spelling, and is kept as a record of that move: the names of the table have since been respelled (docs/PORT.md).

A line of the table is KIND SCOPE OLD NEW. SCOPE is * or crates with commas between, by the folder crates/NAME/ that a file stands in; of def it is crate.Module.
  def    what crate.Module (of specs/ or proofs/) calls OLD: there, and in the files that import it
  name   the identifier OLD
  fn     the function OLD (a_b), and what the checker makes of it in proofs: a-b, a-b2, a-b-requires, a-b-spec, Need-a-b-.., After-a-b
  word   OLD as a word of any identifier, between hyphens or underscores
  prose  OLD in comments, outside of quotation marks
  file   the file OLD of specs/, crate.Name, stands as NEW, crate.Name or crate.folder.Name
  moved  the definition OLD of specs/, crate.Name.definition, stands in the file NEW
Comments are left alone but for names between backquotes. A folder of proofs/ and a file of specs/ or proofs/ that bears an old name is moved."""
import os
import re
import sys

HERE = os.path.dirname(os.path.abspath(__file__))
ENDS = r"[\w\-′·]"
USE = re.compile(r"^(?P<pub>pub )?(?:ghost )?use (?P<path>[^\n{;]*)\.\{(?P<names>[^}]*)\}", re.M)


def table():
    for line in open(os.path.join(HERE, "renames.txt"), encoding="utf-8"):
        words = line.split("#")[0].split()
        if words:
            yield words[0], words[1].split(","), words[2], words[3]


def kebab(name):
    return name.replace("_", "-")


def exact(old, projected=True):
    return re.compile(rf"(?<!{ENDS}){'' if projected else '(?<![.])'}{re.escape(old)}(?!{ENDS})")


def pattern(kind, old):
    if kind == "word":
        return re.compile(rf"(?<![^\W_]){re.escape(old)}(?![^\W\d_]|′)")
    if kind == "fn":
        o = re.escape(kebab(old))
        derived = rf"(?<!{ENDS})(?P<head>(?:Need-|After-)?(?:slice-aggregate-)?){o}(?P<tail>\d*(?:-requires|-spec)?(?:-\d+)?)(?!{ENDS})"
        # in a proof the name is a_b as a module and a-b as what the checker makes of it
        return re.compile(rf"(?<!{ENDS})(?<!\s[.])(?<!\([.])(?P<exact>{re.escape(old)})(?!{ENDS})|{derived}")
    return exact(old)


def substitute(kind, pat, new, text):
    if kind != "fn":
        return pat.sub(new, text)
    return pat.sub(lambda m: new if m.group("exact") else m.group("head") + kebab(new) + m.group("tail"), text)


def renamed(text, rules, mark):
    out = []
    for line in text.split("\n"):
        m = re.search(rf"(^|\s){re.escape(mark)}(\s|$)", line)
        code, note = (line[: m.start()], line[m.start() :]) if m else (line, "")
        for kind, pat, new in rules:
            if kind == "prose":
                note = "".join(p if k % 2 else pat.sub(new, p) for k, p in enumerate(re.split(r'("[^"]*")', note)))
            else:
                code = substitute(kind, pat, new, code)
                note = re.sub(r"`[^`]*`", lambda q: substitute(kind, pat, new, q.group(0)), note)
        out.append(code + note)
    return "\n".join(out)


def module(path):
    """crates/X/specs/M.antt as (X.specs, M), what imports call it; None for other files"""
    m = re.search(r"crates/([^/]+)/(specs|proofs)/(.+)\.antt$", path)
    return (f"{m.group(1)}.{m.group(2)}", m.group(3).replace("/", ".")) if m else None


def imported(path):
    """the same of the path of an import"""
    m = re.match(r"Rattle·([^.·]+)(?:·(?:specs|proofs))?\.(specs|proofs)\.(.+)$", path.strip())
    return (f"{m.group(1)}.{m.group(2)}", m.group(3)) if m else None


def definitions(tops, rows):
    """the rules of kind def, for each file that a rule reaches"""
    files = [os.path.join(d, f) for top in tops for d, _, fs in os.walk(top) for f in fs if f.endswith((".antt", ".rt"))]
    texts = {f: open(f, encoding="utf-8").read() for f in files}
    uses = {f: [(imported(m.group("path")), m) for m in USE.finditer(t)] for f, t in texts.items()}
    for scope, old, new in rows:
        crate, name = scope.split(".", 1)
        homes = {(f"{crate}.{kind}", name) for kind in ("specs", "proofs")}
        while True:
            more = {module(f) for f, us in uses.items() for home, m in us if m.group("pub") and home in homes and exact(old).search(m.group("names"))}
            if more <= homes:
                break
            homes |= more
        pat = exact(old, projected=False)
        for f in files:
            full = pat.search(texts[f]) and module(f) in homes
            for home, m in uses[f]:
                names = [n.split(" as ")[0].strip() for n in m.group("names").replace("\n", " ").split(",")]
                if home in homes and old in names:
                    full = full or not re.search(rf"(?<!{ENDS}){re.escape(old)}\s+as\s", m.group("names"))
            text = texts[f]
            if full:
                text = renamed(text, [("name", pat, new)], "--" if f.endswith(".antt") else "//")
            else:
                for home in homes:
                    c, kind = home[0].split(".")
                    for head in (f"Rattle·{c}.{kind}.{home[1]}", f"Rattle·{c}·{kind}.{kind}.{home[1]}"):
                        text = re.sub(rf"({re.escape(head)}\.\{{[^}}]*?)(?<!{ENDS}){re.escape(old)}(?!{ENDS})", rf"\g<1>{new}", text)
            for home in homes:
                c, kind = home[0].split(".")
                for head in (f"Rattle·{c}.{kind}.{home[1]}.", f"Rattle·{c}·{kind}.{kind}.{home[1]}."):
                    text = re.sub(rf"{re.escape(head)}{re.escape(old)}(?!{ENDS})", head + new, text)
            if text != texts[f]:
                texts[f] = text
                uses[f] = [(imported(m.group("path")), m) for m in USE.finditer(text)]
                open(f, "w", encoding="utf-8").write(text)


def heads(module):
    """how an import writes crate.Name of specs/: from another crate, and from its own"""
    crate, rest = module.split(".", 1)
    return f"Rattle·{crate}.specs.{rest}", f"Rattle·{crate}·specs.specs.{rest}"


def resent(text, own, rows):
    """the text of a file of the crate own, with its imports sent to the files where the definitions stand now"""
    for kind, old, new in rows:
        to = heads(new)[new.split(".")[0] == own]
        if kind == "file":
            for head in heads(old):
                text = re.sub(rf"{re.escape(head)}(?!{ENDS})", to, text)
            continue
        home, name = old.rsplit(".", 1)
        for head in heads(home):
            for m in list(re.finditer(rf"^(?P<use>(?:pub |ghost )?use ){re.escape(head)}\.\{{(?P<names>[^}}]*)\}}(?P<end>;?)$", text, re.M)):
                names = [n.strip() for n in m.group("names").split(",")]
                gone = [n for n in names if n.split(" as ")[0] == name]
                left = [n for n in names if n not in gone]
                lines = [(head, left), (to, gone)] if gone else [(head, names)]
                text = text.replace(m.group(0), "\n".join(f"{m.group('use')}{h}.{{{', '.join(n)}}}{m.group('end')}" for h, n in lines if n))
    return text


def main():
    tops = sys.argv[1:] or [os.path.join(HERE, "..", "crates")]
    all_rows = list(table())
    definitions(tops, [(scope[0], old, new) for kind, scope, old, new in all_rows if kind == "def"])
    moves = [(kind, old, new) for kind, scope, old, new in all_rows if kind in ("file", "moved")]
    rows = [(kind, scope, pattern(kind, old), old, new) for kind, scope, old, new in all_rows if kind not in ("def", "file", "moved")]
    for top in tops:
        for folder, _, files in list(os.walk(top, topdown=False)):
            crate = re.search(r"crates/([^/]+)", folder + "/")
            inside = [r for r in rows if r[1] == ["*"] or (crate and crate.group(1) in r[1])]
            rules = [(kind, pat, new) for kind, _, pat, _, new in inside]
            for f in files:
                if not f.endswith((".antt", ".rt", ".edit")):
                    continue
                path = os.path.join(folder, f)
                text = open(path, encoding="utf-8").read()
                new_text = resent(renamed(text, rules, "--" if f.endswith(".antt") else "//"), crate and crate.group(1), moves)
                if new_text != text:
                    open(path, "w", encoding="utf-8").write(new_text)
                for kind, _, _, old, new in inside:
                    if kind == "name" and f == old + ".antt":
                        os.rename(path, os.path.join(folder, new + ".antt"))
            base = os.path.basename(folder)
            if "/proofs/" in folder + "/" and base != "proofs":
                for kind, pat, new in rules:
                    if kind in ("fn", "word", "name"):
                        base = substitute(kind, pat, new, base)
                if base != os.path.basename(folder):
                    os.rename(folder, os.path.join(os.path.dirname(folder), base))


main()
