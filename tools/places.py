#!/usr/bin/env python3
"""Counts the places of each point of docs/DESIGN-PASS.md in crates/*/src, and lists them.

usage: python3 tools/places.py [--list] [COMMIT]
"""

import re
import subprocess
import sys

ZEROS = r"^(pub |pub\(crate\) )?const (ZERO|BLANK|NONE)"
PUB = r"(pub |pub\(crate\) )?"

# For each point the patterns of its places, a line of code for a place. What they find is read by hand: a hit is no fault yet.
POINTS = {
    "1 an enum": rf"^ *{PUB}enum ",
    "1 a flag beside a value": rf"^ +{PUB}[a-z_]+: bool,",
    "1 a fault or refusal in an Option": r"-> Option<\w*(Fault|Refusal|Error)>",
    "1 a number for a kind or refusal": r"(^|[^a-z_])(number|kind|code|direction): (u8|u16|u32|u64|usize)|const MALFORMED|n: u64[,)]",
    "1 a let-else for what ? and ok_or say": r"let (Some|Ok)\(.*\) = .* else \{",
    "3 a loop": r"^ *(while |loop |for .* in )",
    "3 a loop with an index of its own": r"^ *(while .*(<|ends_at)|for \w+ in \(?\d)",
    "3 a count by hand": r"\+= ",
    "4 an impl of a library trait": r"^impl(<.*>)? .*(PartialEq|Eq|Ord|Clone|Copy|Default|Display|Debug|From<.*>) for",
    "4 a newtype": rf"^{PUB}struct \w+(<.*>)?\(",
    "4 a zero value by hand": ZEROS,
    "4 a cast": r" as (u8|u16|u32|u64|usize)\b",
    "5 a clause that asks": r"^ +requires ",
    "5 a window's number and mapped flag as parameters": r"mapped: bool, |^ +mapped: bool,$",
    "6 an array in a struct": rf"^ +{PUB}\w+: \[",
    "6 a Vec in a struct or variant": rf"^ +{PUB}\w+: Vec<|\(Vec<",
    "6 a search": r"(^|[^_a-z])find\(",
    "7 a match": r"match ",
    "7 a dyn, a fn pointer or a closure's bound": r"dyn |: fn\(|Fn(Once|Mut)?\(",
}


def files(commit):
    shown = ["git", "ls-files"] if commit is None else ["git", "ls-tree", "-r", "--name-only", commit]
    for name in subprocess.check_output(shown, text=True).split("\n"):
        if re.fullmatch(r"crates/\w+/src/.*\.rt", name):
            text = open(name).read() if commit is None else subprocess.check_output(["git", "show", f"{commit}:{name}"], text=True)
            yield name[len("crates/"):], text


def main():
    listed = "--list" in sys.argv
    commit = next((a for a in sys.argv[1:] if not a.startswith("--")), None)
    sources = list(files(commit))
    for point, pattern in POINTS.items():
        found = []
        for name, text in sources:
            for i, line in enumerate(text.split("\n"), 1):
                if not line.lstrip().startswith(("//", "ensures", "ghost")) and re.search(pattern, line):
                    found.append(f"    {name}:{i}: {line.strip()}")
        print(f"{len(found):4}  {point}")
        if listed:
            print("\n".join(found))


main()
