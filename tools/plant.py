#!/usr/bin/env python3
"""Plants bugs in a crate's code, one at a time, and says what the check makes of each.

    tools/plant.py CRATE [--most N] [--seed S] [--file NAME,..] [--printed] [--list] [-- ARGS]

A bug changes one line inside a body. It works on a copy of the repository in a temporary folder. By default each bug is judged by
`rt check`: refused (a fact is not proved), misfit (only a proof file no longer fits the code, which shows nothing by itself) or
survived. With --printed it is judged by what `rt try` prints, without a proof: for programs whose functions promise little; for a
crate of tests, by the tests. ARGS go to the program. docs/PLANTED_BUGS.md has what came of it.
"""
import argparse, os, random, re, shutil, subprocess, sys, tempfile, time

CHANGES = [
    (r"(?<![<>=!-])<(?![<=])(?=\s)", "<="), (r"<=", "<"), (r"(?<=\s)>(?![>=])(?=\s)", ">="), (r"(?<![>-])>=", ">"),
    (r"==", "!="), (r"!=", "=="), (r"&&", "||"), (r"\|\|", "&&"), (r"(?<=\s)\+(?=\s)", "-"), (r"(?<=\s)-(?=\s)", "+"),
    (r"<<", ">>"), (r"(?<=\s)>>(?=\s)", "<<"), (r"(?<=\s)&(?=\s)", "|"), (r"(?<=\s)\|(?=\s)", "&"), (r"(?<=\s)\^(?=\s)", "|"),
    (r"(?<=\s)%(?=\s)", "/"), (r"(?<=\s)/(?=\s)", "%"), (r"(?<=\s)\*(?=\s)", "+"), (r"\+=", "-="),
    (r"\btrue\b", "false"), (r"\bfalse\b", "true"), (r"\bmin\(", "max("), (r"(?<![a-z])!(?=[a-z(])", ""),
]
NUMBER = re.compile(r"(?<![\w.])(0x[0-9a-fA-F_]+|\d[\d_]*)(?=(?:u8|u16|u32|u64|usize)?\b)(?!\s*\])")
ARGUMENTS = re.compile(r"(\w+)\(([\w.*&\[\]]+), ([\w.*&\[\]]+)\)")
FUNCTION = re.compile(r"^(\s*)(?:pub(?:\([a-z]+\))?\s+)?(?:const\s+)?fn\s+(\w+)")
DELETED = re.compile(r"\s*(let|return|break|continue|use)\b")


def one_higher(text):
    value = int(text.replace("_", ""), 16 if text.startswith("0x") else 10) + 1
    return hex(value) if text.startswith("0x") else str(value)


def changes(line):
    """Each change of a line of code."""
    code = re.sub(r"//.*", "", line)
    if not code.strip() or code.strip().startswith("#"):
        return
    for pattern, new in CHANGES:
        for hit in re.finditer(pattern, code):
            yield line[: hit.start()] + new + line[hit.end():]
    for hit in NUMBER.finditer(code):
        yield line[: hit.start(1)] + one_higher(hit.group(1)) + line[hit.end(1):]
    for hit in ARGUMENTS.finditer(code):
        if hit.group(2) != hit.group(3):
            yield line[: hit.start(2)] + hit.group(3) + ", " + hit.group(2) + line[hit.end(3):]
    if code.rstrip().endswith(";") and not DELETED.match(code):
        yield ""


def bugs(path):
    """Each change inside a body: the line's number, the function, the line and what it becomes."""
    inside, indent, function = False, "", ""
    for number, line in enumerate(open(path, encoding="utf-8").read().split("\n")):
        head = FUNCTION.match(line)
        if head:
            indent, function = head.groups()
            inside = line.rstrip().endswith("{")
        elif not inside and function and line.startswith(indent + "{"):
            inside = True
        elif inside and line.startswith(indent + "}"):
            inside, function = False, ""
        elif inside:
            for new in changes(line):
                yield number, function, line, new


def checked(folder, limit):
    try:
        ran = subprocess.run(["rt", "check", "--jobs", "1"], cwd=folder, capture_output=True, text=True, timeout=limit)
    except subprocess.TimeoutExpired:
        return "out of time"
    said = ran.stdout + ran.stderr
    if ran.returncode == 0:
        return "survived"
    if "it is not proved that" in said or "the goal fails, at" in said or "found no proof" in said:
        return "refused"
    return "misfit" if "/proofs/" in said else "does not compile"


def printed(folder, arguments):
    words = ["rt", "try", "--steps", "1", "--seconds", "300"] + (["--test"] if folder.endswith("_tests") else [])
    ran = subprocess.run(words + (["--"] + arguments if arguments else []), cwd=folder, capture_output=True, text=True)
    if "run=ended" not in ran.stderr and "fault" not in ran.stderr:
        return None
    return ran.returncode, ran.stdout


def main():
    parser = argparse.ArgumentParser(description=__doc__, formatter_class=argparse.RawDescriptionHelpFormatter)
    parser.add_argument("crate")
    parser.add_argument("--most", type=int, default=80)
    parser.add_argument("--seed", type=int, default=1)
    parser.add_argument("--file", default="")
    parser.add_argument("--printed", action="store_true")
    parser.add_argument("--list", action="store_true")
    options, arguments = sys.argv[1:], []
    if "--" in options:
        cut = options.index("--")
        options, arguments = options[:cut], options[cut + 1:]
    wanted = parser.parse_args(options)
    top = os.path.dirname(os.path.dirname(os.path.abspath(__file__)))
    found = []
    for folder, _, names in sorted(os.walk(os.path.join(top, "crates", wanted.crate, "src"))):
        for name in sorted(names):
            if name.endswith(".rt") and (not wanted.file or name in wanted.file.split(",")):
                path = os.path.relpath(os.path.join(folder, name), top)
                found += [(path,) + bug for bug in bugs(os.path.join(top, path))]
    random.Random(wanted.seed).shuffle(found)
    print(f"{len(found)} bugs possible in {wanted.crate}", flush=True)
    if wanted.list:
        return
    room = tempfile.mkdtemp(prefix="plant-")
    copy = os.path.join(room, "repository")
    shutil.copytree(top, copy, ignore=shutil.ignore_patterns(".git"), symlinks=True)
    folder = os.path.join(copy, "crates", wanted.crate)
    began = time.time()
    before = printed(folder, arguments) if wanted.printed else checked(folder, None)
    limit = max(600, 9 * (time.time() - began))
    if before not in ("survived",) and not wanted.printed or before is None:
        raise SystemExit(f"without a bug: {before}")
    counts = {}
    for path, number, function, old, new in found:
        if sum(n for kind, n in counts.items() if kind not in ("does not compile", "out of time")) >= wanted.most:
            break
        text = open(os.path.join(copy, path), encoding="utf-8").read()
        lines = text.split("\n")
        lines[number] = new
        with open(os.path.join(copy, path), "w", encoding="utf-8") as file:
            file.write("\n".join(lines))
        if wanted.printed:
            after = printed(folder, arguments)
            kind = "does not compile" if after is None else "survived" if after == before else "noticed"
        else:
            kind = checked(folder, limit)
        with open(os.path.join(copy, path), "w", encoding="utf-8") as file:
            file.write(text)
        counts[kind] = counts.get(kind, 0) + 1
        print(f"{kind}: {path}:{number + 1} ({function}): {old.strip()}  =>  {new.strip() or '(deleted)'}", flush=True)
    print(f"{wanted.crate}, seed {wanted.seed}: {counts}")
    shutil.rmtree(room)


if __name__ == "__main__":
    main()
