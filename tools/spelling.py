#!/usr/bin/env python3
"""Brings the names of this project's definitions and lemmas to snake case, in crates/*/specs, crates/*/proofs and the clauses of crates/*/src.

usage: tools/spelling.py [--dry]      at the top of the repository, once, right after Rattle's own port.py

A name is turned where an .antt file of specs/ or of proofs/ itself declares it: `numberOf` to `number_of`, `no-index` to `no_index`. Types, modules and
facts keep their capital. Functions of src/, exported names, strings and the names that Rattle makes are left alone: so are the names that a proof of one
function declares for itself, and names that a file imports from somebody else. Names that would fall together in a file are listed, and left.
"""
import glob
import os
import re
import sys

TOKEN = re.compile(r"[^\W\d][\w'\-]*")
HEAD = re.compile(r"^\s*(?:(?:abbrev|unfoldable|opaque|pub|private)\s+)*([^\W\d][\w'\-]*)(?=\s*:(?!=))", re.M)
USE = re.compile(r"(?:ghost )?use ([\w.·'\-]+?)\.\{([^}]*)\}", re.S)
ALIAS = re.compile(r"(?:ghost )?use ([\w.·'\-+]+) as ([\w'\-]+)")
LEMMAS = set("of-int".split())
crates = {os.path.basename(p) for p in glob.glob("crates/*")}


def snake(name):
    prime = len(name) - len(name.rstrip("'"))
    body = name[: len(name) - prime]
    body = re.sub(r"(?<=[a-z0-9])([A-Z])", lambda m: "_" + m.group(1).lower(), body)
    return body.replace("-", "_") + "'" * prime


def turns(name):
    return not name[0].isupper() and name != snake(name)


def ours(path):
    parts = path.replace("·", ".").split(".")
    return parts[0] == "Rattle" and len(parts) > 1 and parts[1] in crates


def shared(path):
    """Whether the file is one of specs/ or of proofs/ itself, and not of the proof of one function."""
    parts = path.split("/")
    return path.endswith(".antt") and (parts[2] == "specs" or (parts[2] == "proofs" and len(parts) == 4))


def uncommented(text):
    return re.sub(r"--.*", "", text)


# Here port.py has made one name of a lemma's and a definition's already.
for p in ("crates/steps/proofs/Within.antt", "crates/steps/proofs/step/by_type/Proof.antt"):
    if os.path.exists(p) and "--dry" not in sys.argv:
        with open(p, encoding="utf-8") as f:
            text = f.read()
        with open(p, "w", encoding="utf-8") as f:
            f.write(re.sub(r"(?<![\w'\-])value_in(?![\w'\-])", "value_in_lem", text))
# A parameter of a definition.
p = "crates/steps/specs/Choice.antt"
if os.path.exists(p) and "--dry" not in sys.argv:
    with open(p, encoding="utf-8") as f:
        text = f.read()
    with open(p, "w", encoding="utf-8") as f:
        f.write(text.replace("hasDefault", "has_default"))
paths = sorted(glob.glob("crates/**/*.antt", recursive=True) + glob.glob("crates/**/*.rt", recursive=True))
paths = [p for p in paths if "/out/" not in p]
declared, fields = set(), set()
for p in paths:
    if shared(p):
        with open(p, encoding="utf-8") as f:
            text = uncommented(f.read())
        declared |= set(HEAD.findall(text))
        fields |= {m for m in re.findall(r"^\s+(?:pub\s+)?([^\W\d][\w'\-]*)(?=\s*:)", text, re.M)}
declared = {n for n in declared if turns(n)}
# A lemma that would have the name of a definition, of another lemma or of a word of the library gets `_lem` behind it.
spelled = {}
for n in sorted(declared):
    same = any(o != n and snake(o) == snake(n) for o in declared)
    spelled[n] = snake(n) + ("_lem" if "-" in n and (same or n in LEMMAS) else "")

clashes = []
for p in paths:
    with open(p, encoding="utf-8") as f:
        text = f.read()
    plain = uncommented(text)
    foreign, aliases, brought = set(), set(), set()
    for where, names in USE.findall(plain):
        for item in names.split(","):
            item = item.strip()
            if item and not ours(where):
                foreign.add(item.split(" as ")[-1].strip())
                foreign.add(item.split(" as ")[0].strip())
            elif item:
                brought.add(item.split(" as ")[0].strip())
    for where, name in ALIAS.findall(plain):
        if ours(where) and ".declared." not in where and not where.endswith((".Tie", ".Goals", ".Given", ".Lts")):
            aliases.add(name)
    own = set() if shared(p) or p.endswith(".rt") else set(HEAD.findall(plain))
    given = {n for n in re.findall(r" as ([a-z][\w'\-]*)", " ".join(names for _, names in USE.findall(plain))) if turns(n)}
    rename = given | {n for n in declared if n not in foreign and (n not in own or n in brought)}
    unled = re.sub(r"use [\w.·'\-+]+", "use ", plain)
    said = {m.group(0) for m in TOKEN.finditer(unled) if unled[m.start() - 1 : m.start()] != "."}
    if p.endswith(".rt"):
        said = set(re.findall(r"[(,]\s*(?:mut )?(\w+):|\blet (?:mut )?(\w+)", plain)[0:0]) | {m for m in re.findall(r"[(,]\s*(?:mut )?(\w+): ", plain)} | (declared | given) & said
    new = {}
    for n in sorted(rename & said):
        to = spelled.get(n, snake(n))
        if to in said and to not in rename or to in new.values():
            clashes.append(f"{p}: {n} and another are both {to}")
        new[n] = to

    def turn(m):
        n = m.group(0)
        if n not in new:
            return n
        before = text[: m.start()]
        line = before[before.rfind("\n") + 1 :]
        if p.endswith(".rt") and ("//" in line or line.count('"') % 2):
            return n if "-" in n else new[n]
        if p.endswith(".antt") and "--" in re.sub(r"[\w'](--)", "", line) and "-" in n and not line.endswith("`"):
            return n
        if before.endswith("."):
            owner = re.search(r"([^\W\d][\w'\-]*)\.$", before)
            if not (owner and owner.group(1) in aliases) and n not in fields:
                return n
        return new[n]

    out = TOKEN.sub(turn, text)
    if out != text and "--dry" not in sys.argv:
        with open(p, "w", encoding="utf-8") as f:
            f.write(out)
for line in clashes:
    print("clash:", line)
print(f"{len(declared)} names")
