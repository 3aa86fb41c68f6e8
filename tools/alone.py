#!/usr/bin/env python3
"""Drops from a proved crate the answers that the check finds alone: tools/alone.py CRATE ..

An answer stays where the check with halved limits leaves its goal open without it, and where a goal has another name then.
Where the crate no longer proves, what its open functions had comes back.
"""
import glob
import os
import re
import subprocess
import sys

ROOT = os.path.dirname(os.path.dirname(os.path.abspath(__file__)))


def check(*words):
    done = subprocess.run(["rt", "check", *words], capture_output=True, text=True)
    return done.stdout + done.stderr


def proved(said):
    return "logic=proved" in said


def blocks(text):
    """What stands before the first answer, and each answer with its name."""
    head, *rest = re.split(r"(?m)^(?=(?:-- .*\n)*pub [\w-]+ : goal\.)", text)
    return head, [(re.search(r"(?m)^pub ([\w-]+) : goal\.", b).group(1), b) for b in rest]


def open_goals(said):
    """By file, the goals that a check with holes prints."""
    found = {}
    for m in re.finditer(r"\./(proofs/[\w/+]+/Answers\.antt) with these lines[^\n]*\n((?:    [^\n]*\n|\n)*)", said):
        found.setdefault(m.group(1), set()).update(re.findall(r"^    pub ([\w-]+) : goal\.", m.group(2), re.M))
    return found


def write(path, text):
    os.makedirs(os.path.dirname(path), exist_ok=True)
    with open(path, "w") as out:
        out.write(text)


def drop(crate):
    os.chdir(os.path.join(ROOT, "crates", crate))
    if not proved(check()):
        return f"{crate} is not proved"
    kept = {path: open(path).read() for path in glob.glob("proofs/**/Answers.antt", recursive=True)}
    for path in kept:
        os.remove(path)
    needed = open_goals(check("--margin", "--allow-holes"))
    for path, text in kept.items():
        head, answers = blocks(text)
        names = needed.get(path, set())
        if not names <= {name for name, _ in answers}:
            write(path, text)
        elif any(name in names for name, _ in answers):
            write(path, head + "".join(b for name, b in answers if name in names))
    said = check()
    if not proved(said):
        fallen = {name.split("::")[-1] for name in re.findall(r"^fn \w+::([\w:]+): (?!proved)", said, re.M)}
        for path, text in kept.items():
            if path.split("/")[-2] in fallen or "/+" in path:
                write(path, text)
        if not proved(check()):
            for path, text in kept.items():
                write(path, text)
    left = sum(len(blocks(open(path).read())[1]) for path in glob.glob("proofs/**/Answers.antt", recursive=True))
    return f"{crate}: {sum(len(blocks(text)[1]) for text in kept.values())} answers, {left} stay"


for crate in sys.argv[1:]:
    print(drop(crate), flush=True)
