#!/usr/bin/env python3
"""Respells the repository's own names: definitions, lemmas, constructors and fields of specs/ and proofs/ in snake case.

usage: python3 tools/respell.py [--names]        at the top, once, straight after the toolchain's own port script

A name with a dash becomes the same name with underscores, where this repository declares it and the libraries do not; one that begins
with a capital, a type or a fact, becomes camel case. Names that the check makes (goals, steps of a proof, their fields) keep their
dashes, and so do the libraries'. Strings, code and output stay. --names prints what would be renamed, and what would fall together,
and writes nothing.
"""
import collections
import os
import re
import subprocess
import sys

TOKEN = re.compile(r"[^\s(){}\[\],;.\":«»⌜⌝`]+")
DASHED = re.compile(r"[^\W\d][\w']*(?:-[\w']+)+\Z")
QUOTED = re.compile(r"`([^`\n]+)`")
STRING = r"\"(?:\\.|[^\"\\])*\""
NO_CODE = {".antt": re.compile(r"(?<!\S)--[^\n]*|" + STRING), ".rt": re.compile(r"//[^\n]*|b?" + STRING + r"|b?'(?:\\.|[^'\\])'")}
SIGNATURE = re.compile(r"(?m)^[ \t]*(?:(?:abbrev|unfoldable|pub|data|record|module|mutual|open)[ \t]+)*((?:[\w'-]+[ \t]+)+)(?=:[ \t\n])")
BINDER = re.compile(r"[({]((?:[\w'-]+ )+):|λ ((?:[\w'-]+ ?)+)\.|let ([\w'-]+) |\bas ([\w'-]+)")

# two lemmas whose names would be those of the functions that they are about, and a local that is no type
SPECIAL = {"bit-and": "bit_of_and", "bit-or": "bit_of_or", "New-is": "new_is"}
# locals that a library has too
LOCAL = {"f-is", "i-is", "n-is", "x-is"}
# what a path into the facts of a goal begins with
FACTS = ("goal", "c", "w", "l")
ANSWERS = ("Answers.antt", "Invariants.antt", "Proof.antt")


def files(root, endings):
    for folder, dirs, names in os.walk(root):
        dirs[:] = sorted(d for d in dirs if d != "out")
        yield from (os.path.join(folder, name) for name in sorted(names) if name.endswith(endings))


def read(path):
    with open(path, encoding="utf-8", errors="replace") as f:
        return f.read()


def write(path, text):
    with open(path, "w", encoding="utf-8") as f:
        f.write(text)


def code(path, text):
    """The text with comments and strings blanked, of the same length."""
    return NO_CODE[os.path.splitext(path)[1]].sub(lambda m: re.sub(r"[^\n]", " ", m[0]), text)


def made(path, text):
    """The names in this file that the check made: its goals, and the branches that it imports from them."""
    if os.sep + "proofs" + os.sep not in path:
        return set()
    names = set(re.findall(r"\bgoal\.([\w'-]+)", text))
    for m in re.finditer(r"use Rattle\.[^\s{]*\.(?:Goals|Given|TheRow)\.\{([^}]*)\}", text):
        names |= {n.split(" as ")[0].strip() for n in m[1].split(",")}
    return names


def declared(path, text):
    """The names with a dash that a file of definitions or proofs declares or binds."""
    names = set()
    for form in (SIGNATURE, BINDER):
        for m in form.finditer(text):
            names |= {n for group in m.groups() if group for n in group.split() if DASHED.match(n)}
    return names - made(path, text)


def places(path, text):
    """Each place in the code at which a name of the repository's own may stand."""
    theirs = made(path, text)
    for m in TOKEN.finditer(text):
        if not DASHED.match(m[0]) or m[0] in theirs:
            continue
        before = re.search(r"((?:[\w'-]+\.)*)\Z", text[max(0, m.start() - 200):m.start()])[1].split(".")[:-1]
        if os.path.basename(path) in ANSWERS and before and before[0] in FACTS and len(before) <= 2:
            continue
        yield m


def respelt(name):
    """A type in camel case, anything else in snake case."""
    if name in SPECIAL:
        return SPECIAL[name]
    if name[0].isupper():
        return "".join(part[0].upper() + part[1:] for part in name.split("-"))
    return name.replace("-", "_")


def in_code(path, text, renamed):
    out, at = [], 0
    for m in places(path, code(path, text)):
        if m[0] in renamed:
            out += [text[at:m.start()], renamed[m[0]]]
            at = m.end()
    return "".join(out) + text[at:]


def in_quotes(text, renamed):
    return QUOTED.sub(lambda m: "`" + TOKEN.sub(lambda t: renamed.get(t[0], t[0]), m[1]) + "`", text)


def in_comments(text, renamed):
    """Names between backquotes, on lines that have a comment before them."""
    def line(row):
        at = min((i for i in (row.find("//"), row.find("--")) if i >= 0), default=len(row))
        return row[:at] + in_quotes(row[at:], renamed)

    return "\n".join(line(row) for row in text.split("\n"))


def main():
    kit = os.path.join(os.path.dirname(subprocess.run(["rt", "doc"], capture_output=True, text=True).stdout.strip()), "rattle")
    theirs = {m[0] for path in files(kit, (".antt",)) for m in TOKEN.finditer(re.sub(r"--[^\n]*", "", read(path))) if DASHED.match(m[0])}
    sources = {path: read(path) for path in files("crates", (".antt", ".rt"))}
    ours, used, words = set(), collections.Counter(), set()
    for path, text in sources.items():
        text = code(path, text)
        if path.endswith(".antt"):
            ours |= declared(path, text)
        used.update(m[0] for m in places(path, text))
        words |= set(TOKEN.findall(text))
    renamed = {n: respelt(n) for n in used if n in ours or n in LOCAL or n not in theirs}
    if "--names" in sys.argv:
        print("declared here and in a library:", sorted(n for n in renamed if n in theirs))
        print("not declared by a form that is known here:", sorted(n for n in renamed if n not in ours))
        print("falls together:", sorted(n for n, to in renamed.items() if to in words))
        print("left:", sorted(n for n in used if n not in renamed))
        print(len(renamed), "names")
        return
    pages = ["README.md"] + list(files("docs", (".md",)))
    after = {path: in_comments(in_code(path, text, renamed), renamed) for path, text in sources.items()}
    after |= {path: in_quotes(read(path), renamed) for path in pages}
    changed = [path for path, text in after.items() if text != read(path)]
    for path in changed:
        write(path, after[path])
    print(len(renamed), "names,", len(changed), "files")


main()
