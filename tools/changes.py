#!/usr/bin/env python3
"""The generated parts of docs/DESIGN-PASS.md: tools/changes.py prints, for the commit in that page's first line and the files
as they stand, the definitions that differ only by the Option's name, then the public signatures and clauses, then the
definitions, each before and now. The kit's contracts.py compares."""
import glob
import json
import os
import re
import subprocess
import sys
import tempfile

ROOT = os.path.dirname(os.path.dirname(os.path.abspath(__file__)))
WORDS = {r"\bnone\b": "None", r"\bsome\b": "Some", r"\bIs\b": "Some", r"\bBad\b": "None", r"\bDecoded\b": "Option Driver"}


def said(*words, **more):
    return subprocess.run(words, capture_output=True, text=True, check=True, **more).stdout


def public(root):
    found = set()
    for path in glob.glob(f"{root}/crates/*/src/*.rt"):
        crate, file = path.split("/")[-3], os.path.basename(path)
        with open(path) as text:
            found |= {(crate, file, name) for name in re.findall(r'(?m)^ *pub (?:extern "C" )?fn (\w+)', text.read())}
    return found


def key(name):
    crate, path, function = name.split(" ")[:3]
    return crate, os.path.basename(path), re.split(r"::|\.", function)[-1]


def cell(text):
    text = re.sub(r"\s+", " ", text).strip().replace("( ", "(").replace(", )", ")").replace("|", "\\|")
    return f"`{text}`" if text else ""


def clause(kind, parts):
    name, text = parts
    return f"{kind} {name + ' ' if name else ''}{{ {text} }}"


def signatures(compared, old):
    either = public(old) | public(ROOT)
    rows = {}
    for name, before, now in compared["signatures changed"]:
        rows.setdefault(name, []).append((before, now))
    for name, requires, ensures, new_requires, new_ensures in compared["contracts changed"]:
        for kind, before, now in (("requires", requires, new_requires), ("ensures", ensures, new_ensures)):
            before, now = [clause(kind, c) for c in before], [clause(kind, c) for c in now]
            gone, come = [c for c in before if c not in now], [c for c in now if c not in before]
            for i in range(max(len(gone), len(come))):
                rows.setdefault(name, []).append((gone[i] if i < len(gone) else "", come[i] if i < len(come) else ""))
    crate = None
    for name in sorted(name for name in rows if key(name) in either):
        if key(name)[0] != crate:
            crate = key(name)[0]
            print(f"\n### {crate}\n\n| | before | now |\n|---|---|---|")
        for before, now in rows[name]:
            print(f"| `{key(name)[2]}` | {cell(before)} | {cell(now)} |")


def respelled(text):
    for word, new in WORDS.items():
        text = re.sub(word, new, text)
    return re.sub(r"\s+", " ", text)


def definitions(compared):
    spelled, rest = {}, []
    for crate, name, before, now in compared["definitions"]["changed"]:
        before, now = " ".join(before), " ".join(now)
        if respelled(before) == respelled(now):
            spelled.setdefault(crate, []).append(name)
        else:
            rest.append((crate, before, now))
    return spelled, sorted(rest)


def main():
    with open(os.path.join(ROOT, "docs", "DESIGN-PASS.md")) as page:
        commit = page.readline().strip()
    kit = os.path.dirname(said("rt", "doc").strip())
    with tempfile.TemporaryDirectory() as old:
        archive = subprocess.Popen(["git", "archive", commit], cwd=ROOT, stdout=subprocess.PIPE)
        subprocess.run(["tar", "x", "-C", old], stdin=archive.stdout, check=True)
        compared = json.loads(said(sys.executable, os.path.join(kit, "port", "contracts.py"), old, ROOT, "--json"))
        spelled, rest = definitions(compared)
        print("; ".join(f"`{crate}`: " + ", ".join(f"`{n}`" for n in sorted(names)) for crate, names in sorted(spelled.items())))
        signatures(compared, old)
    crate = None
    for name, before, now in rest:
        if name != crate:
            crate = name
            print(f"\n### {crate}\n\n| before | now |\n|---|---|")
        print(f"| {cell(before)} | {cell(now)} |")


main()
