#!/usr/bin/env python3
"""Lists the places in crates/*/src that docs/DESIGN-PASS.md counts, point by point: tools/places.py [POINT] [TREE]."""
import collections
import glob
import itertools
import os
import re
import sys

TREE = sys.argv[2] if len(sys.argv) > 2 else "."
WANTED = sys.argv[1] if len(sys.argv) > 1 else None
FILES = sorted(
    f
    for f in glob.glob(os.path.join(TREE, "crates/*/src/**/*.rt"), recursive=True)
)
FN = re.compile(r"\bfn (\w+)(?:<[^(]*>)?\(((?:[^()]|\([^()]*\))*)\)([^{;]*)")
CLAUSE = re.compile(r"^\s*(requires|ensures)\*?\s*\w*\s*\{(.*)\}\s*;?\s*$")


def name_of(path):
    return os.path.relpath(path, os.path.join(TREE, "crates")).replace("/src/", "/")


def lines():
    for path in FILES:
        with open(path) as text:
            for number, line in enumerate(text, 1):
                if not line.lstrip().startswith("//"):
                    yield f"{name_of(path)}:{number}", line.rstrip("\n")


def matching(pattern, refuse=None):
    wanted = re.compile(pattern)
    refused = re.compile(refuse) if refuse else None
    return [
        f"{place}: {line.strip()}"
        for place, line in lines()
        if wanted.search(line) and not (refused and refused.search(line))
    ]


def functions():
    for path in FILES:
        with open(path) as text:
            source = text.read()
        for found in FN.finditer(source):
            parameters = [
                part.strip().split(":")[0].replace("mut ", "").strip()
                for part in re.split(r",(?![^<]*>)", found.group(2))
                if ":" in part
            ]
            yield name_of(path), found, parameters, source


def results_handed_on():
    hand = r"(None|Err\(_?\w*\)|Ok\([\w()]*\)|Some\(\w+\)) => (None|Some\(|Ok\(|Err\(|return (None|Err|Ok|Some))"
    return matching(hand)


def flags():
    return [
        f"{path}: fn {found.group(1)}"
        for path, found, _, _ in functions()
        if "&mut" in found.group(2) and re.search(r"-> (io::Result<)?bool", found.group(3))
    ]


def travelling():
    together = collections.defaultdict(list)
    for path, found, parameters, _ in functions():
        crate = path.split("/")[0]
        for pair in itertools.combinations(sorted(p for p in parameters if p != "rt"), 2):
            together[(crate,) + pair].append(found.group(1))
    return [
        f"{crate}: {one}, {two} in {len(where)}: {' '.join(where)}"
        for (crate, one, two), where in sorted(together.items())
        if len(where) >= 5
    ]


def repeated_clauses():
    told = collections.Counter()
    for path in FILES:
        with open(path) as text:
            for line in text:
                found = CLAUSE.match(line)
                if found:
                    told[(name_of(path).split("/")[0], found.group(1), found.group(2).strip())] += 1
    return [f"{crate}: {kind} {{ {fact} }} in {count}" for (crate, kind, fact), count in sorted(told.items()) if count >= 3]


def twins():
    """Functions of one shape: the same words but for names, numbers and texts."""
    shapes = collections.defaultdict(list)
    for path in FILES:
        with open(path) as text:
            source = re.sub(r"//[^\n]*", "", text.read())
        for found in FN.finditer(source):
            start = source.find("{", found.end() - 1)
            if source[found.end():found.end() + 1] == ";":
                continue
            # The body is the first brace at the function's own depth behind its clauses.
            body = re.search(r"\n( *)\{\n(.*?)\n\1\}", source[found.end():], re.S)
            inline = source[found.end():found.end() + 2]
            if source[found.end() - 1:found.end() + 1].strip().startswith("{") or inline.startswith("{"):
                depth, at = 0, start
                while at < len(source):
                    depth += {"{": 1, "}": -1}.get(source[at], 0)
                    at += 1
                    if depth == 0:
                        break
                code = source[start:at]
            elif body:
                code = body.group(2)
            else:
                continue
            words = re.findall(r"\w+|[^\w\s]", code)
            if len(words) < 14:
                continue
            keep = {"for", "in", "if", "else", "match", "return", "let", "mut", "while", "Ok", "Err", "Some", "None", "self", "true", "false", "as"}
            shape = " ".join(w if not re.match(r"\w", w) or w in keep else "_" for w in words)
            shapes[(name_of(path).split("/")[0], shape)].append(f"{name_of(path)} {found.group(1)}")
    return [" ~ ".join(where) for (_, _), where in sorted(shapes.items()) if len(where) > 1]


POINTS = {
    "1 enums": lambda: matching(r"^\s*(pub(\(\w+\))? )?enum "),
    "1 numbers for kinds and refusals": lambda: matching(r"const (OPEN|CLOSE|BY_RULE|BY_RESTART|NOT_TAKEN|UNKNOWN|NUMBER): u8"),
    "1 flags beside a changed value": flags,
    "1 Options and Results handed on by a match": results_handed_on,
    "1 zeros for nothing": lambda: matching(r"^    0$"),
    "2 functions of one shape": twins,
    "3 loops with a hand-counted index": lambda: matching(r"\bwhile |for \w+ in [^{]*\.\.", r"for _ in|while let|0\.\.u64::MAX"),
    "3 other loops": lambda: matching(r"for _ in [^{]*\.\.|while let|\.enumerate\(\)"),
    "4 equality, conversion and printing by hand": lambda: matching(
        r"fn (same_as|equals|equal|of_\w+|told|asked|checked|restart_of|name|layer_name|yes_or_no|restart_words|word|decimal|hex|hex_digit|digit|hex_byte|hex_word|hex_bytes|number|is_tree_with_zeros|is_all|is_fault_of|is_layer_of|letter|code_at|padded|byte)\b"
    ),
    "5 parameters that travel together": travelling,
    "5 clauses in three contracts or more": repeated_clauses,
    "6 arrays and lengths": lambda: matching(r"^\s+(pub(\(\w+\))? )?\w+: (\[\w+; \w+\]|Vec<[^>]*>|Box<[^>]*>|ArrayVec<.*>),$"),
    "7 steps chosen by a word": lambda: matching(r"match (self\.state|work|kind|group|word) "),
    "8 lines of proof": lambda: [
        f"{crate}: {count}"
        for crate, count in sorted(
            collections.Counter(
                {
                    c: sum(len(open(f).readlines()) for f in glob.glob(os.path.join(TREE, "crates", c, "proofs/**/*.antt"), recursive=True))
                    for c in {name_of(f).split("/")[0] for f in FILES}
                }
            ).items()
        )
    ],
}

for point, places in POINTS.items():
    if WANTED and not point.startswith(WANTED):
        continue
    found = places()
    print(f"== {point}: {len(found)}")
    for place in found:
        print(f"   {place}")
