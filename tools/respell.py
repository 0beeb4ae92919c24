#!/usr/bin/env python3
"""Brings this repository's own definitions and lemmas to today's spelling: types in camel case, all else in snake case.

usage: python3 tools/respell.py [--list]     at the top of the repository, once, right after port.py

Only names that the repository's own specs/ and proofs/ define are respelled, wherever they stand as whole words in .antt files and in the ghost
lines and clauses of .rt files. Names that Rattle makes, names of the library, and names of src/ stay. OTHER has the few whose plain respelling
would fall together with another name. It stops, and writes nothing, where two names fall together.
"""

import glob
import re
import sys

WORD = r"[^\s(){}\[\].;,λ:=→·]+"
EDGE_L = r"(?<![\w'\-])"
EDGE_R = r"(?![\w'\-])"
# Names whose plain respelling is taken: by a function of src/ that the same file names, or by another definition.
OTHER = {
    "bit-of": "bit_told",
    "free-object": "object_is_free",
    "free-subject": "subject_is_free",
    "secrecy-categories": "secrecy_categories_fit",
    "trust-categories": "trust_categories_fit",
    "size-of": "size_if",
    "spread-map": "map_of_spread",
    "groupLine": "line_of_group",
    "objectLine": "line_of_object",
    "objectText": "text_of_object",
    "userLine": "line_of_user",
    "rightsText": "text_of_rights",
    "childOf": "child_under",
    "groupsText": "text_of_groups",
    "objectsText": "text_of_objects",
    "treeText": "text_of_tree",
    "usersText": "text_of_users",
    "clauseLetter": "letter_of_clause",
    "clauseText": "text_of_clause",
    "faultWord": "word_of_fault",
    "kindWord": "word_of_kind",
    "recordWord": "word_of_record",
    "rightWord": "word_of_right",
    "marksOf": "marks_number",
    "kindNumber": "number_of_kind",
    "mapOf": "map_number",
    "lastLine": "final_line",
    "getD-dropped": "index_dropped",
}


def respelled(name):
    if name in OTHER:
        return OTHER[name]
    if name[0].isupper():
        return "".join(part[:1].upper() + part[1:] for part in name.split("-"))
    return re.sub(r"(?<=[a-z0-9])([A-Z])", lambda m: "_" + m.group(1).lower(), name).replace("-", "_")


def antt():
    return sorted(glob.glob("crates/*/specs/**/*.antt", recursive=True) + glob.glob("crates/*/proofs/**/*.antt", recursive=True))


def sources():
    return sorted(glob.glob("crates/*/src/**/*.rt", recursive=True))


def defined(paths):
    names = set()
    for p in paths:
        made = re.search(r"proofs/.*/(Answers|Invariants|Choices|Proof|Given)\.antt$", p)
        for line in open(p):
            if line.strip().startswith("--"):
                continue
            if made and re.search(r":\s*goal\.", line):
                continue
            m = re.match(r"^\s*(?:(?:abbrev|unfoldable|pub)\s+)*(?:(?:data|record)\s+)?(" + WORD + r")(?:\s+[({].*[)}]|\s+" + WORD + r")*\s*:\s", line)
            if m:
                names.add(m.group(1))
    return names


def aliases(paths):
    names = set()
    for p in paths:
        for line in open(p):
            if re.match(r"\s*(ghost )?use ", line):
                names.update(re.findall(r" as (" + WORD + r")", line))
    return names


def library(paths):
    names = set()
    for p in paths:
        for m in re.finditer(r"use ([\w.]+)\.\{([^}]*)\}", open(p).read()):
            own = re.match(r"Rattle\.(\w+)\.", m.group(1))
            if own and own.group(1) in OWN:
                continue
            for w in m.group(2).split(","):
                names.add(w.split(" as ")[0])
    return {n.strip() for n in names}


def ghost_part(line, inside):
    """Is this line of a source a ghost line or a clause?"""
    return inside or re.match(r"\s*(pub )?(ghost|requires|ensures)\b", line)


def main(argv):
    names = {n for n in defined(antt()) | aliases(antt() + sources()) if "-" in n.strip("-") or re.search(r"[a-z0-9][A-Z]", n) and n[0].islower()}
    names -= library(antt() + sources())
    table = {n: respelled(n) for n in sorted(names) if respelled(n) != n}
    back = {}
    for old, new in table.items():
        back.setdefault(new, []).append(old)
    plain = defined(antt()) | library(antt() + sources())
    bad = [(new, olds) for new, olds in back.items() if len(olds) > 1 or new in plain]
    for new, olds in bad:
        print(f"falls together: {', '.join(olds)} -> {new}{' (taken)' if new in plain else ''}")
    for p in sources():
        text = open(p).read()
        fns = set(re.findall(r"\bfn (\w+)", text))
        ghost = "\n".join(l for l in text.split("\n") if ghost_part(l, False))
        for old, new in table.items():
            if new in fns and re.search(EDGE_L + re.escape(old) + EDGE_R, ghost):
                print(f"a function of the file has the name: {old} -> {new} in {p}")
                bad.append((new, [old]))
    if "--list" in argv:
        for old, new in table.items():
            print(f"{old} -> {new}")
        return 0
    if bad:
        return 1
    words = re.compile(EDGE_L + "(" + "|".join(re.escape(n) for n in sorted(table, key=len, reverse=True)) + ")" + EDGE_R)
    for p in antt():
        text = open(p).read()
        new = words.sub(lambda m: table[m.group(1)], text)
        if new != text:
            open(p, "w").write(new)
    for p in sources():
        lines = open(p).read().split("\n")
        out = [words.sub(lambda m: table[m.group(1)], l) if ghost_part(l, False) else l for l in lines]
        if out != lines:
            open(p, "w").write("\n".join(out))
    print(f"{len(table)} names respelled")
    return 0


OWN = {p.split("/")[1] for p in glob.glob("crates/*/src")}

if __name__ == "__main__":
    sys.exit(main(sys.argv[1:]))
