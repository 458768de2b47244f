#!/usr/bin/env python3
"""Counts, in crates/*/src, the places of the older language's forms. docs/DESIGN-PASS.md says what each point is.

    tools/design/count.py [FOLDER]         counts
    tools/design/count.py --list [FOLDER]  and the places
"""
import collections
import glob
import os
import re
import sys

LIST = "--list" in sys.argv
FOLDER = ([a for a in sys.argv[1:] if not a.startswith("--")] or ["."])[0]

FUNCTION = re.compile(r"^( *)(?:#\[[^\n]*\]\n *)*(?:pub )?(?:const )?(?:extern \"C\" )?fn (\w+)(.*?)^\1}", re.M | re.S)


class Function:
    def __init__(self, where, name, text):
        body = re.search(r"\n *\{\n", text) or re.search(r" \{\n", text)
        self.where, self.name, self.text = where, name, text
        self.head = text[: body.start()] if body else text
        self.body = text[body.start():] if body else ""
        clauses = re.split(r"\n\s*(?=requires|ensures)", self.head)
        self.signature = clauses[0]
        self.requires = [c for c in clauses[1:] if c.startswith("requires")]
        self.ensures = [c for c in clauses[1:] if c.startswith("ensures")]
        self.parameters = re.findall(r"(\w+): ([^,()]*(?:\[[^\]]*\])?)", self.signature.split(") ->")[0])


def functions():
    for path in sorted(glob.glob(os.path.join(FOLDER, "crates/*/src/**/*.rt"), recursive=True)):
        text = open(path).read()
        for found in FUNCTION.finditer(text):
            line = text.count("\n", 0, found.start(2)) + 1
            where = os.path.relpath(path, FOLDER) + ":" + str(line)
            yield Function(where, found.group(2), found.group(0))


def lines(pattern):
    for path in sorted(glob.glob(os.path.join(FOLDER, "crates/*/src/**/*.rt"), recursive=True)):
        for number, line in enumerate(open(path), 1):
            if re.search(pattern, line):
                yield os.path.relpath(path, FOLDER) + ":" + str(number) + ": " + line.strip()


def tell(title, places):
    places = list(places)
    print(f"{title}: {len(places)}")
    if LIST:
        for place in places:
            print("    " + place)


ALL = list(functions())

print("1. Option, Result, enums")
tell("  enums of the repository, but for Kind and Refusal", (p for p in lines(r"^\s*(pub )?enum (?!Kind\b|Refusal\b)")))
tell("  functions below the C interface that answer a number for refused and 0 for not",
     (f"{f.where}: {f.name}" for f in ALL if re.search(r"-> u64$", f.signature.strip()) and
      re.search(r"_number|RefusedWith", " ".join(f.ensures)) and 'extern "C"' not in f.signature and "probe" not in f.where))
tell("  numbers of refusals in code", lines(r"Refused\((\d+|n|number|failed)\)|^\s*return \d\d;|=> \d\d,?$"))
tell("  flags that are numbers", (f"{f.where}: {f.name}({n}: {t})" for f in ALL for n, t in f.parameters
                                  if n in ("tombstone", "new_key") and t.strip() == "u64"))

print("2. Twins")
NAMES = [r"u(16|32|64)_at", r"(address|key|seq|value)_allowed", r"same_(few|part|counts|encoding|record|totals)",
         r"(read|write)_(u16|u32|u64)", r"has_(six|sixteen)", r"(update|crc32)_with", r"first_within|newest|put_newest",
         r"put_version", r"is_record|holds", r"copy_(four|in|key|address)|put_bytes", r"members_at|order_at|pilots_at|slots_at|indices_at"]
for name in NAMES:
    found = [f"{f.where}: {f.name}" for f in ALL if re.fullmatch(name, f.name)]
    if len(found) > 1:
        tell(f"  {name}", found)
bodies = collections.defaultdict(list)
for f in ALL:
    shape = re.sub(r"\b(u8|u16|u32|u64|usize|\d\w*)\b", "#", re.sub(r"\s+", " ", f.body))
    if len(shape) > 40:
        bodies[shape].append(f)
tell("  functions whose bodies differ in types and numbers alone",
     (f"{f.where}: {f.name}" for fs in bodies.values() if len(fs) > 1 for f in fs))

print("3. Loops")
tell("  loops that are no `for`", lines(r"^\s*(while|loop)\b"))
tell("  `for` over indices", lines(r"^\s*for \w+ in [^{]*\.\."))

print("4. By hand what a derive, a trait or the library does")
tell("  comparisons of records and bytes, field by field or byte by byte",
     (f"{f.where}: {f.name}" for f in ALL if re.fullmatch(r"same\w*|keys_equal|key_less|stands_at", f.name)))
tell("  conversions", (f"{f.where}: {f.name}" for f in ALL
                       if re.fullmatch(r"to_u8|from_u8|kind_from|marked_new|flag_number|flag|widen|filled_number|found_place|choose|lesser|greater|shorter", f.name)))
tell("  copying and filling", (f"{f.where}: {f.name}" for f in ALL
                               if re.fullmatch(r"copy_\w+|put_bytes|fill|put|put_three|put_uint", f.name) and "while" in f.body or f.name in ("put_three", "copy_four")))

print("5. Facts in the contracts of three functions or more, and parameters that travel together")
facts = collections.defaultdict(set)
for f in ALL:
    for clause in f.requires:
        for fact in re.findall(r"\b(is_table \w+\.now|[A-Z]\w+(?= [\w(]))", clause):
            facts[fact].add(f.where + ": " + f.name)
for fact, places in sorted(facts.items(), key=lambda x: -len(x[1])):
    if len(places) >= 3:
        tell(f"  requires {fact}", sorted(places))
groups = collections.Counter()
owners = collections.defaultdict(set)
for f in ALL:
    if 'extern "C"' in f.signature:
        continue
    names = [(n, t.strip()) for n, t in f.parameters]
    crate = f.where.split("/")[1]
    for i in range(len(names)):
        for j in range(i + 1, len(names)):
            pair = (crate, names[i], names[j])
            owners[pair].add(f.where + ": " + f.name)
together = {p: w for p, w in owners.items() if len(w) >= 3}
tell("  functions with two parameters that three functions of their crate have", sorted({w for ws in together.values() for w in ws}))

print("6. Buffers with a place or a length beside them")
tell("  slices with a place, a length or a count beside them",
     (f"{f.where}: {f.name}" for f in ALL if 'extern "C"' not in f.signature
      and any("[u" in t for _, t in f.parameters)
      and any(t.strip() == "usize" and re.search(r"^(at|from|count|len|pos|place|start|starts|first|size|half|items|classes|end|at_\w+|\w+_at|previous_len|key_len|entries_end)$", n) for n, t in f.parameters)))

print("7. Switches on a step")
tell("  matches on a number that says which step", (f"{f.where}: {f.name}" for f in ALL if f.name == "agrees"))

print("8. Proofs")
answers = 0
alone = []
for path in sorted(glob.glob(os.path.join(FOLDER, "crates/*/proofs/**/Answers.antt"), recursive=True)):
    text = open(path).read()
    for found in re.finditer(r"^[\w+-]+ c = *(.*)$", text, re.M):
        answers += 1
        if re.fullmatch(r"search rules|omega arith|refl|cc|grind \(?arith\)?", found.group(1).strip()):
            alone.append(os.path.relpath(path, FOLDER) + ": " + found.group(0))
tell("  answers that are one tactic alone", alone)
print(f"  answers that begin a goal: {answers}")
