#!/usr/bin/env python3
"""Respells the repository's own definitions and lemmas as today's Rattle writes names.

Run once, at the top, after the kit's port.py. Words go in snake case: a name in camel case that is no type becomes so. A dash stays
where it joins two names, as in 'told-home'; a plain word is joined by '_', as in 'never_broken'. Names that Rattle makes, and names
from src/, stay. A lemma that would have the name of what it is about gets
'_lem'. It stops where a new spelling is already the name of something else.
"""
import glob
import re
import sys

EDGE = r"\s(){}.,;\[\]⟨⟩`\""
WORD = rf"[^{EDGE}]+"
CAMEL = re.compile(r"^[a-z][a-z0-9]*[A-Z]")
SIGNED = re.compile(rf"^\s*(?:pub )?(?:abbrev |unfoldable )?(?:pub )?({WORD})(?= :(?: |$)| \{{ℓ\}} :| (?:\(|\{{)[^=]*\) : )", re.M)
# The library spells two of these so, and port.py two lemmas as a field and a definition would be.
APART = {"leZ-not": "le_z-not", "getD-paste-past": "get_or-paste-past", "in_use": "in_use_lem", "at_rest": "at_rest_lem"}
PLAIN = {"is", "at", "to", "from", "one", "none", "no", "all", "other", "same", "once", "more", "home", "right", "left", "kept"}


def files(*patterns):
    return sorted({f for p in patterns for f in glob.glob(p, recursive=True) if "/out/" not in f})


def read(f):
    return open(f, encoding="utf-8").read()


def bare(text):
    return re.sub(r"--[^\n]*", "", text)


specs = files("crates/*/specs/**/*.antt")
laws = files("crates/*/proofs/*.antt")
walks = files("crates/*/proofs/*/**/*.antt")
sources = files("crates/*/src/**/*.rt")
signed = {f: set(SIGNED.findall(bare(read(f)))) for f in specs + laws}
defined = set().union(*signed.values())
library = {w for f in specs + laws + sources for u in re.findall(r"use Rattle\.std[^{]*\{([^}]*)\}", read(f)) for w in re.findall(r"[^\s,]+", u)}
code = {w for f in sources for w in re.findall(r"fn (\w+)", read(f))}
spoken = set().union(*(signed[f] for f in specs)) | library | code
spoken |= {w for f in laws for w in re.findall(rf"^\s*(?:abbrev|unfoldable)(?: pub)? ({WORD})", bare(read(f)), re.M)}


def snake(name):
    return re.sub(r"(?<=[a-z0-9])([A-Z])", lambda m: "_" + m.group(1).lower(), name)


spoken |= {snake(w) for w in spoken if CAMEL.match(w)}
spoken -= PLAIN


def joined(name):
    """Dashes that join no two names become '_'."""
    parts = [snake(p) if CAMEL.match(p) else p for p in name.split("-")]
    i = 0
    while i < len(parts):  # the longest run that is one name
        for j in range(len(parts), i + 1, -1):
            if "_".join(parts[i:j]) in spoken:
                parts[i:j] = ["_".join(parts[i:j])]
                break
        i += 1
    out = parts[0]
    for before, part in zip(parts, parts[1:]):
        out += ("-" if before in spoken and part in spoken else "_") + part
    return out


names = {}
for name in defined | {w for f in specs + laws + walks for w in re.findall(WORD, bare(read(f))) if CAMEL.match(w)}:
    spelling = APART.get(name) or (joined(name) if name in defined else snake(name))
    if not re.match(r"[a-z]", name) or name in library:
        continue
    if spelling != name:
        names[name] = spelling
for name in [n for n in names if "-" in n]:  # a lemma that would have its function's name gets '_lem'
    if names[name] in defined or any(names[m] == names[name] for m in names if "-" not in m):
        names[name] += "_lem"
taken = defined | library
clash = [(n, s) for n, s in names.items() if s in taken and n not in APART and names.get(s, s) == s]
fallen = [(n, m) for n in names for m in names if n < m and names[n] == names[m]]
if "--list" in sys.argv:
    for n, s in sorted(names.items()):
        print(n, "->", s)
for n, s in clash + fallen:
    print("falls together:", n, s)
if clash or fallen:
    sys.exit(1)
alternatives = "|".join(re.escape(n) for n in sorted(names, key=len, reverse=True))
ANYWHERE = re.compile(rf"(?<![^{EDGE}])({alternatives})(?![^{EDGE}])")
UNDOTTED = re.compile(rf"(?<![^{EDGE}])(?<!\.)({alternatives})(?![^{EDGE}])")
for f in specs + laws + walks + sources + files("crates/*/must-fail/*.edit", "must-fail/*.edit", "README.md", "docs/READING.md", "docs/DECISIONS.md"):
    old = read(f)
    new = (UNDOTTED if f in walks or f in sources else ANYWHERE).sub(lambda m: names[m.group(1)], old)
    if f.endswith((".md", ".edit")):  # what port.py had respelled already
        new = re.sub(WORD, lambda m: snake(m.group()) if CAMEL.match(m.group()) and snake(m.group()) in defined | library else m.group(), new)
    if new != old:
        open(f, "w", encoding="utf-8").write(new)
print(len(names), "names respelled")
