#!/usr/bin/env python3
"""Brings the repository's own names in specs/ and proofs/ to the library's spelling: functions, lemmas and fields in
snake case, types and facts in upper camel case. Run once at the top of the repository, after the toolchain's script.

A name is turned where a file of specs/ or proofs/ declares it (a definition, a lemma, a record, a field, a constructor,
a parameter or a `let`). Names that the library or the check gives (imported from elsewhere, or a goal's) stay, and so do
texts, inputs and outputs. It stops, with nothing written, if two names would fall together."""
import collections
import os
import re
import sys

ROOT = sys.argv[1] if len(sys.argv) > 1 else "."
CRATES = os.path.join(ROOT, "crates")
NAME = re.compile(r"[^\s(){}\[\],;.:\"|↦←]+")
OWN_USE = re.compile(r"^\s*(?:ghost )?(?:pub )?use ([^{;]*?)\.\{([^}]*)\}", re.M)
DEFINED = re.compile(r"^ *(?:(?:pub|abbrev|unfoldable) )*(?:(?:record|data) )?([^\s(){}\[\],;.:\"|↦]+)(?: *[:({]|$)", re.M)
BOUND = re.compile(r"(?:\blet |[({λ] ?)((?:[^\s(){}\[\],;.:\"|↦=]+ )*[^\s(){}\[\],;.:\"|↦=]+) ?[:=]")


def texts(kinds):
    for folder, dirs, files in os.walk(CRATES):
        dirs[:] = sorted(d for d in dirs if d != "out")
        for f in sorted(files):
            if f.endswith(kinds):
                p = os.path.join(folder, f)
                yield p, open(p, encoding="utf-8").read()


def turned(name):
    if not re.search(r"\w[-_]\w", name) or not name[0].isalpha():
        return name
    if name[0].isupper():
        return "".join(w[:1].upper() + w[1:] for w in re.split("[-_]", name))
    return name.replace("-", "_")


def code(text):
    """The lines that are no comment."""
    return "\n".join(l for l in text.split("\n") if not l.lstrip().startswith(("--", "//")))


crates = set(os.listdir(CRATES))
declared, foreign = set(), set()
for path, text in texts((".antt",)):
    text = code(text)
    generated = set(re.findall(r"\b(?:goal|given|goals)\.([^\s(){}\[\],;.:]+)", text))
    for m in DEFINED.finditer(text):
        if m[1] not in generated:
            declared.add(m[1])
    for m in BOUND.finditer(text):
        declared.update(m[1].split())
    foreign |= generated
for path, text in texts((".antt", ".rt")):
    for m in OWN_USE.finditer(code(text)):
        declared.update(re.findall(r"\bas ([^\s,]+)", m[2]))
        own = re.match(r"Rattle\.(\w+)\.(specs|proofs)\b", m[1])
        if not own or own[1] not in crates or re.search(r"\.(Goals|Given|contracts|declared)\b", m[1]):
            foreign.update(re.findall(r"(?:^|,)\s*([^\s,]+)", m[2]))
names = {n: turned(n) for n in declared - foreign if turned(n) != n}
taken = collections.Counter(names.values())
clash = [(a, b) for a, b in sorted(names.items()) if taken[b] > 1 or b in declared or b in foreign]
if clash:
    sys.exit("fall together: " + " ".join(f"{a}={b}" for a, b in clash))
for path, text in texts((".antt", ".rt", ".edit")):
    if path.endswith(".edit") and "file: src/" in text:
        continue
    new = NAME.sub(lambda m: names.get(m[0], m[0]), text)
    if new != text:
        open(path, "w", encoding="utf-8").write(new)
print(f"{len(names)} names turned")
