#!/usr/bin/env python3
"""Counts, at a commit, the places of src/ that docs/DESIGN-PASS.md speaks of: python3 tools/places.py [COMMIT] [--list POINT]."""
import re
import subprocess
import sys

OPTION_SHAPED = {"Decoded", "AndMade", "Entry", "Done", "Built", "Listed", "Parted", "Staged", "Found", "Read"}
NETLIST = ["kinds", "starts", "list", "pins", "nets"]
GRAPH = ["drivers", "outputs", "dffs", "rams"]
ENDS = ["outputs", "dffs", "rams"]


def git(*words):
    return subprocess.run(["git", *words], capture_output=True, text=True, check=True).stdout


def files(commit, pattern):
    names = git("ls-tree", "-r", "--name-only", commit).split("\n")
    return [(n, git("show", f"{commit}:{n}")) for n in names if re.fullmatch(pattern, n)]


def functions(text):
    """Each function's name, parameters and result."""
    for m in re.finditer(r"\bfn (\w+)(?:<[^(]*>)?\(([^{]*?)\)\s*(->\s*[^\n{]+)?", text, re.S):
        yield m.group(1), m.group(2), (m.group(3) or "")


KEPT = {"fn", "pub", "let", "mut", "if", "else", "while", "for", "in", "return", "match", "true", "false", "u8", "u32", "u64", "usize", "bool", "as"}


def shape(body):
    """A function's text with every name and number of its own taken out: twins have the same."""
    words = re.findall(r"[A-Za-z_]\w*|\d+|[^\s\w]", re.sub(r"//.*", "", body))
    return " ".join(w if w in KEPT or not re.match(r"\w", w) else ("0" if w[0].isdigit() else "x") for w in words)


def bodies(text):
    """Each function's name and its text without its clauses."""
    for m in re.finditer(r"^( *)(?:pub )?fn (\w+)(.*?\n)\1}\n", text, re.M | re.S):
        lines = [l for l in m.group(3).split("\n") if not re.match(r"\s*(requires|ensures)", l)]
        if len(lines) > 6:
            yield m.group(2), shape("\n".join(lines))


def lent(parameters, names):
    return all(re.search(rf"\b{n}: &\[u32\]", parameters) for n in names)


def places(commit):
    found = {k: [] for k in ("1 enum", "1 flag", "1 number", "1 kind", "2 twin", "3 loop", "4 by hand", "5 netlist", "5 graph", "5 ends", "5 draft", "6 length", "7 switch", "8 answer")}
    shapes = {}
    for name, text in files(commit, r"crates/\w+/src/.*\.rt"):
        for function, its in bodies(text):
            shapes.setdefault(its, []).append(f"{name}:{function}")
        for i, line in enumerate(text.split("\n"), 1):
            at = f"{name}:{i}"
            if (m := re.match(r"\s*(?:pub )?enum (\w+)", line)) and m.group(1) in OPTION_SHAPED:
                found["1 enum"].append(at)
            if re.match(r"\s*(pub )?((fits|read|last|ok|found): bool|number: u32)", line):
                found["1 flag"].append(at)
            if re.match(r"\s*while ", line):
                found["3 loop"].append(at)
        for function, parameters, result in functions(text):
            at = f"{name}:{function}"
            if re.search(r"number", function) and "u32" in result:
                found["1 number"].append(at)
            if re.search(r"\b(kind|name|direction|tag|sort|why): u32", parameters):
                found["1 kind"].append(at)
            if re.fullmatch(r"other|edge_word|end_case|end_index|all_same|is_word|put_words|least|eq|cmp|clone", function):
                found["4 by hand"].append(at)
            if lent(parameters, NETLIST):
                found["5 netlist"].append(at)
            if lent(parameters, GRAPH):
                found["5 graph"].append(at)
            elif lent(parameters, ENDS):
                found["5 ends"].append(at)
            if re.search(r"drivers: &mut \[u32\]", parameters) and re.search(r"work: &(mut )?\[u32\]", parameters) and re.search(r"\bt: Tally", parameters):
                found["5 draft"].append(at)
            if re.search(r"&(mut )?\[u(32|8)\],[^&]*\b(n|count|size|k|cells|cap): (usize|u32)", parameters):
                found["6 length"].append(at)
            if re.search(r"\w+: bool", parameters):
                found["7 switch"].append(at)
    found["2 twin"] = [at for its in shapes.values() if len(its) > 1 for at in its]
    for name, text in files(commit, r"crates/\w+/proofs/.*/Answers\.antt"):
        for m in re.finditer(r"^pub ([\w-]+) : goal\.", text, re.M):
            found["8 answer"].append(f"{name}:{m.group(1)}")
    return found


def main():
    words = sys.argv[1:]
    listed = words[words.index("--list") + 1] if "--list" in words else None
    commit = words[0] if words and not words[0].startswith("--") else "HEAD"
    found = places(commit)
    for point, at in found.items():
        if listed is None:
            print(f"{point:10} {len(at)}")
        elif point.startswith(listed):
            print("\n".join(f"{point}: {a}" for a in at))


main()
