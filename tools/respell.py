#!/usr/bin/env python3
"""Respells the names of definitions and lemmas: words in snake case, types in camel case.

usage: python3 tools/respell.py [--show]      at the top of the repository, once, right after port.py

A name is the repository's own where a file of specs/ or proofs/ declares it: a definition, a lemma, a constructor, a field, a
parameter, or what a `let` or a λ binds. It is respelled in .antt files and in ghost lines and clauses of .rt files. Names of
functions, types and fields of src/, strings, README.md and docs/ stay as they are.
"""

import os
import re
import sys

NAME = r"[A-Za-z_][\w']*(?:-[\w']+)*"
WORD = re.compile(r"(?<![\w'◌«-])" + NAME + r"(?![\w'◌»]|-[\w'])")

# A name that would fall together with another gets one of its own.
OVERRIDES = {
    "bit-and": "bit_of_and",
    "bit-or": "bit_of_or",
    "bit-xor": "bit_of_xor",
    "Read-end": "ReadEndsWith",
    "Write-end": "WriteEndsWith",
}


def texts(folder, ending):
    for top, dirs, files in os.walk(folder):
        dirs[:] = sorted(d for d in dirs if d not in ("out", ".git", "target"))
        for f in sorted(files):
            if f.endswith(ending):
                yield os.path.join(top, f)


def spelled(name):
    if name in OVERRIDES:
        return OVERRIDES[name]
    parts = re.split(r"[-_]", name)
    if name[0].isupper() and len(parts) > 1:
        return "".join(p[:1].upper() + p[1:] for p in parts)
    return name.replace("-", "_")


def generated(path):
    """The names of goals and of invariants are Rattle's."""
    return "/proofs/" in path and os.path.basename(path) in ("Answers.antt", "Invariants.antt", "Choices.antt", "Proof.antt")


def declared(path, text):
    names = set()
    text = re.sub(r"--.*", "", text)
    for line in text.split("\n"):
        m = re.match(r"\s*((?:pub|abbrev|unfoldable|data|record|ruleset|mutual)\s+)*(" + NAME + r")\s*(?:\([^)]*\)\s*|\{[^}]*\}\s*)*:(?!:)", line)
        if m and not (generated(path) and (m.group(1) or "").find("pub") >= 0):
            names.add(m.group(2))
        m = re.match(r"\s*(?:pub\s+)?(?:data|record)\s+(" + NAME + r")", line)
        if m:
            names.add(m.group(1))
    for m in re.finditer(r"\blet\s+(" + NAME + r")", text):
        names.add(m.group(1))
    for m in re.finditer(r"λ\s+([^.=↦]*?)\.", text):
        names.update(re.findall(NAME, re.sub(r":.*", "", m.group(1).strip("() "))))
    for m in re.finditer(r"[({]((?:" + NAME + r"\s+)*" + NAME + r")\s+:\s", text):
        names.update(m.group(1).split())
    return names


def renames(root):
    names = set()
    for p in texts(os.path.join(root, "crates"), ".antt"):
        with open(p, encoding="utf-8") as f:
            names |= declared(p, f.read())
    return {n: spelled(n) for n in names if spelled(n) != n}


def respell(text, table):
    def put(m):
        w = m.group(0)
        return table.get(w, w)

    # strings stay
    parts = re.split(r'("[^"\n]*")', text)
    return "".join(p if p.startswith('"') else WORD.sub(put, p) for p in parts)


def by_recursion(text):
    """`All` is another word of the library now; ours is its `AllByRecursion`, and no import may hide the library's word."""
    if "AllByRecursion as All" not in text:
        return text
    lines = text.replace("AllByRecursion as All", "AllByRecursion").split("\n")
    return "\n".join(l if l.startswith(("use ", "--")) else re.sub(r"(?<![\w'-])All(?![\w'-])", "AllByRecursion", l) for l in lines)


def is_ghost(line):
    return re.match(r"\s*(?:pub\s+)?(?:ghost|requires|ensures)\b", line) is not None


def main():
    table = renames(".")
    if "--show" in sys.argv:
        for old in sorted(table):
            print(old, table[old])
        return
    for p in texts("crates", ".antt"):
        with open(p, encoding="utf-8") as f:
            old = f.read()
        lines = [l if l.strip().startswith("--") else respell(l, table) for l in by_recursion(old).split("\n")]
        if "\n".join(lines) != old:
            with open(p, "w", encoding="utf-8") as f:
                f.write("\n".join(lines))
    for p in texts("crates", ".rt"):
        with open(p, encoding="utf-8") as f:
            old = f.read()
        lines = [respell(l, table) if is_ghost(l) else l for l in old.split("\n")]
        if "\n".join(lines) != old:
            with open(p, "w", encoding="utf-8") as f:
                f.write("\n".join(lines))


if __name__ == "__main__":
    main()
