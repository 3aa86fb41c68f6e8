#!/usr/bin/env python3
"""Respells this repository's own definitions and lemmas, once, behind the kit's port.py: respell.py [--check] FOLDER

Types and facts get upper camel case, everything else snake case. A dash stays where it joins two names of definitions.
A lemma whose new name is a definition's or an import's already gets `_lem`. Names of src/ and imported names keep theirs.
"""

import collections
import os
import re
import sys

TOKEN = re.compile(r"[^\s(){}\[\],;.:`\"@|]+")
HEAD = re.compile(r"^(\s*)((?:(?:pub|abbrev|unfoldable)\s+)*)([^\s(){}\[\],;:]+(?:\s+[^\s(){}\[\],;:]+)*)\s+:(?:\s+(.*))?$")
TYPE = re.compile(r"^\s*(?:pub\s+)?(data|record)\s+(\S+)")
NOT_HEADS = {"let", "in", "module", "infix", "infixl", "infixr", "elim", "where", "use", "mod", "λ", "rw", "→", "="}
PROOF_FILES = {"Proof.antt"}
# Words of std that lemma names are joined with, beside the repository's own definitions.
STD = {"length", "append", "take", "drop", "set", "get_or", "replicate", "map", "sum", "min", "max"}
# Definitions that lemma names have as a plain word.
PLAIN = {"goes"}
# Names that would fall together with another's, and whose meaning a better one tells.
CHOSEN = {"in-port": "in_port_bit", "net-driven": "net_driven_bit"}
# Modules that Rattle now makes itself.
MODULES = {"texts": ("Contracts", "Meanings")}


def files(root, endings):
    for folder, dirs, names in os.walk(root):
        dirs[:] = sorted(d for d in dirs if d not in ("out", ".git", "target"))
        for name in sorted(names):
            if name.endswith(endings):
                yield os.path.join(folder, name)


def joined(path):
    """The lines of a file, a signature that goes on over indented lines as one."""
    out = []
    with open(path, encoding="utf-8") as f:
        for line in f.read().split("\n"):
            if line.strip().startswith("--"):
                continue
            if out and re.match(r"^\s+(→|×|Type)", line):
                out[-1] += " " + line.strip()
            else:
                out.append(line)
    return out


class Names:
    def __init__(self, root):
        self.types, self.words, self.lemmas, self.imported, self.joints = set(), set(), set(), set(), set(STD)
        crates = os.path.join(root, "crates")
        self.functions = set()
        for path in files(crates, (".antt", ".rt")):
            self.imports(path)
            if path.endswith(".rt"):
                with open(path, encoding="utf-8") as f:
                    self.functions.update(re.findall(r"\bfn (\w+)", f.read()))
        for path in files(crates, (".antt",)):
            if os.path.basename(path) not in PROOF_FILES:
                self.declared(path, os.sep + "specs" + os.sep in path)
        both = self.lemmas & self.words
        self.lemmas -= both

    def imports(self, path):
        with open(path, encoding="utf-8") as f:
            for m in re.finditer(r"^\s*(?:pub )?(?:ghost )?use ([\w.·]+)\.\{([^}]*)\}", f.read(), re.M):
                if not m.group(1).startswith("Rattle.") or m.group(1).startswith("Rattle.std."):
                    self.imported.update(n.strip() for n in m.group(2).split(","))

    def declared(self, path, specs):
        in_data, depth = False, 0
        for line in joined(path):
            indent = len(line) - len(line.lstrip())
            m = TYPE.match(line)
            if m:
                self.types.add(m.group(2))
                in_data, depth = True, indent
                continue
            if line and indent <= depth:
                in_data = False
            m = HEAD.match(line)
            if not m or NOT_HEADS & set(m.group(3).split()) or "=" in m.group(3):
                continue
            for name in m.group(3).split():
                if not in_data and (m.group(4) or "").rstrip().endswith(("Type 0", "Type 1")) and name[0].isalpha():
                    self.types.add(name)
                elif specs or in_data or re.search("abbrev|unfoldable", m.group(2)):
                    self.words.add(name)
                    if specs and not in_data and len(name) > 2 and name not in PLAIN:
                        self.joints.add(snake(name).replace("-", "_"))
                else:
                    self.lemmas.add(name)


def camel(name):
    return "".join(p[:1].upper() + p[1:] for p in re.split(r"[-_]", name))


def snake(part):
    if part[:1].isupper() and not part.isupper():
        return part
    return re.sub(r"(?<=[a-z0-9])([A-Z])", lambda m: "_" + m.group(1).lower(), part)


def respelled(names):
    table = {}
    for name in names.types:
        table[name] = camel(name)
    for name in names.words:
        table[name] = snake(name).replace("-", "_")
    for name in names.lemmas:
        parts = [snake(p) for p in name.split("-")]
        new = parts[0]
        for before, part in zip(parts, parts[1:]):
            new += ("-" if before in names.joints and part in names.joints else "_") + part
        table[name] = new
    table.update({a: b for a, b in CHOSEN.items() if a in table})
    named = names.words | names.types
    by_new = collections.defaultdict(list)
    for name, new in table.items():
        by_new[new].append(name)
    for new, olds in by_new.items():
        defined = sorted((n for n in olds if n in named), key=lambda n: ("-" in n, n != new))
        for name in olds:
            if new in names.imported and name != new or defined and name not in defined[:1] and len(olds) > 1:
                table[name] = new + "_lem"
    return {a: b for a, b in table.items() if a != b and a not in names.imported}


def clashes(table, names):
    """Names that fall together with another name."""
    every = names.types | names.words | names.lemmas | names.imported
    back = collections.defaultdict(list)
    for name in every:
        back[table.get(name, name)].append(name)
    return {new: olds for new, olds in back.items() if len(olds) > 1}


def turn(text, table, ending, functions=frozenset()):
    def word(m):
        t = m.group(0)
        if ending == ".rt" and t in functions:
            return t
        return table.get(t, snake(t) if re.fullmatch(r"[a-z][a-z0-9]*([A-Z][a-z0-9]*)+[₀'0-9]*", t) and t not in KEEP else t)

    def comment(c):
        c = re.sub(r"`[^`\n]*`", lambda m: TOKEN.sub(word, m.group(0)), c)
        return TOKEN.sub(lambda m: table[m.group(0)] if m.group(0) in table and re.search("[a-z][A-Z]", m.group(0)) else m.group(0), c)

    if ending == ".md":
        return comment(text)
    mark = "//" if ending == ".rt" else "--"
    out = []
    for line in text.split("\n"):
        code, sep, rest = line, "", ""
        at = re.search(r"(^|\s)" + mark, line)
        if at:
            cut = at.end() - 2
            code, sep, rest = line[:cut], mark, line[cut + 2:]
        pieces = re.split(r'("(?:[^"\\]|\\.)*")', code)
        code = "".join(p if i % 2 else TOKEN.sub(word, p) for i, p in enumerate(pieces))
        out.append(code + sep + comment(rest))
    return "\n".join(out)


KEEP = set()


def main():
    check = "--check" in sys.argv
    root = [a for a in sys.argv[1:] if not a.startswith("--")][0]
    names = Names(root)
    KEEP.update(names.imported)
    table = respelled(names)
    for new, olds in sorted(clashes(table, names).items()):
        print("falls together:", new, "<-", ", ".join(sorted(olds)))
    if check:
        for a, b in sorted(table.items()):
            print(a, b)
        return
    for crate, (old, new) in MODULES.items():
        folder = os.path.join(root, "crates", crate, "specs")
        if os.path.exists(os.path.join(folder, old + ".antt")):
            os.rename(os.path.join(folder, old + ".antt"), os.path.join(folder, new + ".antt"))
    for path in list(files(os.path.join(root, "crates"), (".antt", ".rt"))) + list(files(os.path.join(root, "docs"), (".md",))) + [os.path.join(root, "README.md")]:
        with open(path, encoding="utf-8") as f:
            text = f.read()
        new = turn(text, table, os.path.splitext(path)[1], names.functions)
        for crate, (a, b) in MODULES.items():
            new = new.replace(f"Rattle.{crate}.specs.{a}.", f"Rattle.{crate}.specs.{b}.")
            if path.endswith(f"crates/{crate}/specs/Lib.antt"):
                new = re.sub(rf"\bmod {a}\b", f"mod {b}", new)
        if new != text:
            with open(path, "w", encoding="utf-8") as f:
                f.write(new)


if __name__ == "__main__":
    main()
