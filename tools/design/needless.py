#!/usr/bin/env python3
"""Tells which answers the check finds alone: takes the answers of a crate away, checks it, and puts them back.

    tools/design/needless.py NAME..    in the checkout that is to be read, with nothing uncommitted in these crates
"""
import glob
import os
import re
import subprocess
import sys

ROOT = os.path.dirname(os.path.dirname(os.path.dirname(os.path.abspath(__file__))))
ANSWER = re.compile(r"^(?:pub )?([^\s:]+) : goal\.", re.M)


def asked(text):
    """The answers that the check asks for, by file."""
    found, place = {}, None
    for line in text.split("\n"):
        head = re.search(r"help: write (?:to )?(\./proofs/\S+/Answers\.antt)", line)
        if head:
            place = head.group(1)
        goal = re.match(r"\s*pub (\S+) : goal\.", line)
        if goal and place:
            found.setdefault(place, set()).add(goal.group(1))
    return found


for name in sys.argv[1:]:
    folder = os.path.join(ROOT, "crates", name)
    files = {f: open(f).read() for f in glob.glob(os.path.join(folder, "proofs/**/Answers.antt"), recursive=True)}
    if not files:
        continue
    try:
        for f in files:
            os.remove(f)
        run = subprocess.run(["rt", "check", "--allow-holes"], cwd=folder, capture_output=True, text=True)
    finally:
        for f, text in files.items():
            os.makedirs(os.path.dirname(f), exist_ok=True)
            open(f, "w").write(text)
    wanted = asked(run.stdout + run.stderr)
    answers = needless = 0
    for f, text in sorted(files.items()):
        place = "./" + os.path.relpath(f, folder)
        for goal in ANSWER.findall(text):
            answers += 1
            if goal not in wanted.get(place, set()):
                needless += 1
                print(f"{name}: {place}: {goal}")
    print(f"{name}: {answers} answers, {needless} that the check does not ask for", flush=True)
