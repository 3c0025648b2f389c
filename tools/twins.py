#!/usr/bin/env python3
"""Lists functions of crates/*/src whose bodies are alike once names and numbers are left out.

usage: python3 tools/twins.py [COMMIT]
"""

import difflib
import re
import subprocess
import sys

KEYWORDS = set("as break continue else enum fn for if impl in let loop match mut ref return self Self struct while Ok Err Some None true false".split())
TOKEN = re.compile(r"//[^\n]*|\"(?:[^\"\\]|\\.)*\"|b?'(?:[^'\\]|\\.)+'|[A-Za-z_]\w*|\d[\w_]*|[^\s\w]")
HEAD = re.compile(r"^\s*(?:pub(?:\(\w+\))? )?(?:final )?fn (\w+)", re.M)


def files(commit):
    shown = ["git", "ls-files"] if commit is None else ["git", "ls-tree", "-r", "--name-only", commit]
    for name in subprocess.check_output(shown, text=True).split("\n"):
        if re.fullmatch(r"crates/\w+/src/.*\.rt", name):
            text = open(name).read() if commit is None else subprocess.check_output(["git", "show", f"{commit}:{name}"], text=True)
            yield name, text


def body(text, start):
    """The tokens between the braces that stand first on a line, or at the end of the head's line, with no clause before them."""
    m = re.compile(r"^\s*\{\s*(?:\}|$)|\{$", re.M).search(text, start)
    if m is None:
        return []
    depth, tokens = 0, []
    for t in TOKEN.finditer(text, text.index("{", m.start())):
        word = t.group()
        if word.startswith("//"):
            continue
        depth += (word == "{") - (word == "}")
        if re.match(r"[A-Za-z_]", word):
            tokens.append(word if word in KEYWORDS else "name")
        elif re.match(r"\d|\"|b?'", word):
            tokens.append("literal")
        else:
            tokens.append(word)
        if depth == 0:
            break
    return tokens


found = []
for name, text in files(sys.argv[1] if len(sys.argv) > 1 else None):
    for m in HEAD.finditer(text):
        tokens = body(text, m.end())
        if len(tokens) >= 16:
            found.append((f"{name[7:]} {m.group(1)}", tokens))
pairs = 0
for i, (a, x) in enumerate(found):
    for b, y in found[i + 1:]:
        if min(len(x), len(y)) * 10 >= max(len(x), len(y)) * 8:
            alike = difflib.SequenceMatcher(None, x, y, autojunk=False).ratio()
            if alike >= 0.9:
                pairs += 1
                print(f"{alike:.2f}  {a}  {b}")
print(f"{pairs} pairs")
