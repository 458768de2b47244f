#!/usr/bin/env python3
"""Prints, for docs/DESIGN-PASS.md, what changed between two checkouts: signatures, clauses, definitions, edits, old and new.

    tools/design/changed.py OLD_FOLDER [FOLDER]
"""
import json
import os
import re
import subprocess
import sys
import textwrap

OLD = sys.argv[1]
NEW = sys.argv[2] if len(sys.argv) > 2 else "."
KIT = os.path.dirname(subprocess.run(["rt", "doc"], capture_output=True, text=True, check=True).stdout.strip())
SCRIPT = os.path.join(KIT, "port/contracts.py")
FOUND = json.loads(subprocess.run([sys.executable, SCRIPT, OLD, NEW, "--json"], capture_output=True, text=True, check=True).stdout)


def wrapped(mark, text):
    text = re.sub(r"\s+", " ", text).strip()
    lines = textwrap.wrap(text, 112, break_long_words=False, break_on_hyphens=False) or [""]
    return "\n".join([f"    {mark} {lines[0]}"] + [f"        {line}" for line in lines[1:]])


def pair(name, old, new):
    print(f"{name}\n")
    for text in old:
        print(wrapped("-", text))
    for text in new:
        print(wrapped("+", text))
    print()


def clauses(kind, of):
    return [f"{kind} {name} {{ {text} }}" if name else f"{kind} {{ {text} }}" for name, text in of]


def place(where):
    crate, _, rest = where.partition(" ")
    return f"`{crate}`: {rest}" if rest.startswith("src/main") or "/" in rest.replace("src/lib.rt", "") else f"`{crate}` {rest.replace('src/lib.rt ', '')}"


NUMBERS = re.findall(r"^    (\w+) = (\d+),", open(os.path.join(NEW, "crates/refusal/src/lib.rt")).read(), re.M)
NAMES = {number: name for name, number in NUMBERS}
NUMBER_WORDS = "header located packed added sized wrote spanned filled verified stepped trailer".split()
TYPES = {
    "HeaderRead": "Result Opened Refusal", "Verified": "Result BlockMeta Refusal", "EntryRead": "Result EntryHeader Refusal",
    "Stepped": "Result Record Refusal", "KindRead": "Result Kind Refusal", "Trailer": "Result (Unit {0}) Refusal",
    "Visited": "Result Cursor Refusal", "Added": "Result Builder Refusal", "Sized": "Result N Refusal", "Wrote": "Result N Refusal",
    "Spanned": "Result N Refusal", "Filled": "Result N Refusal", "FoundBlock": "Option N",
}


def today(text):
    """The older text in the names of today, where only names differ."""
    text = re.sub(r"\b([Rr])efused (\d+)\b", lambda m: "Err refusal." + NAMES.get(m.group(2), m.group(2)), text)
    text = re.sub(r"\(?\b(?:\w+\.)?[Rr]efused \(?(\w+)\)?\)?", r"(Err e)", text)
    text = re.sub(r"\bAnswer (\([^()]*\)|\w+)", r"Result \1 Refusal", text)
    text = re.sub(r"\b(?:\w+\.)?(Accepted|Sound|Met|Known|Went|given|Taken|Bytes|Wrote|Pairs|Read)\b", "Ok", text)
    text = re.sub(r"\bFound (\w+)", r"Ok (Some \1)", text)
    text = text.replace("Missing", "Ok None").replace("Unsound", "Err refusal.Block").replace("Stopped", "Err refusal.Entry")
    text = re.sub(r"\b(Bad|Unknown)\b", "Err refusal.Entry", text)
    for word in NUMBER_WORDS:
        text = re.sub(rf"\b{word}_number\b", "answer_number", text)
        text = re.sub(rf"\b{word}_read\b", "", text)
    for old, new in TYPES.items():
        text = re.sub(rf"\b{old}\b", new, text)
    return bare(text)


def bare(text):
    text = re.sub(r"\s--\s+[^\n]*?(?=\n|$)", " ", text)
    text = re.sub(r" -- \d+(?:(?:, | to )\d+)*", " ", text)
    text = re.sub(r"\(Err \w+\)|Err [a-z]\b", "(Err e)", text).replace("ℕ", "N")
    return re.sub(r"[\s()]", "", text)


def renamed(old, new):
    return len(old) == len(new) and all(today(o) == bare(n) for o, n in zip(old, new))


def names(title, found):
    by = {}
    for crate, name in found:
        by.setdefault(crate, []).append(name)
    print(title + "\n")
    for crate in sorted(by):
        line = f"- `{crate}`: " + ", ".join(f"`{n}`" for n in sorted(by[crate]))
        print("\n".join(textwrap.wrap(line, 118, subsequent_indent="  ", break_long_words=False, break_on_hyphens=False)))
    print()


print("### Functions that are gone\n")
gone = [re.sub(r" \(requires.*", "", w).split(" ", 2) for w in FOUND["functions not found again"]]
names("What states the promise of the public ones now is said above.", [(crate, name) for crate, _, name in gone])
print("### Signatures of public functions\n")
PUBLIC = set()
for root in (OLD, NEW):
    for folder, _, files in os.walk(os.path.join(root, "crates")):
        if "/src" in folder:
            for file in files:
                for name in re.findall(r"^ *pub (?:extern \"C\" )?fn (\w+)", open(os.path.join(folder, file)).read(), re.M):
                    PUBLIC.add((folder.split("crates/")[1].split("/")[0], name))


def public(where):
    return (where.split(" ")[0], where.split(" ")[-1]) in PUBLIC


for where, old, new in FOUND["signatures changed"]:
    if public(where):
        pair(place(where), [old], [new])
print("### Clauses of public functions\n")
same = []
for where, r0, e0, r1, e1 in FOUND["contracts changed"]:
    old, new = clauses("requires", r0) + clauses("ensures", e0), clauses("requires", r1) + clauses("ensures", e1)
    old, new = [t for t in old if t not in new], [t for t in new if t not in old]
    if not public(where):
        continue
    if renamed(old, new):
        same.append((where.split(" ")[0], where.split(" ")[-1]))
    else:
        pair(place(where), old, new)
names("By the names of answers alone (the table above) changed those of:", same)
print("### Definitions\n")
names("Gone:", FOUND["definitions"]["gone"])
same, other = [], []
for crate, name, old, new in FOUND["definitions"]["changed"]:
    if not name.endswith("_defs"):
        (same if renamed(old, new) else other).append((crate, name, old, new))
names("By the names of answers alone (the table above) changed:", [(c, n) for c, n, _, _ in same])
print("Otherwise:\n")
for crate, name, old, new in other:
    pair(f"`{crate}` {name}", old, new)
