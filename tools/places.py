#!/usr/bin/env python3
"""Lists the places in src/ that could be written in a plainer form, point by point.

    tools/places.py [--list] [COMMIT]

Without COMMIT it reads the files as they stand here, with one the files of that commit. For each
point it prints how many lines its patterns find, and with --list each of them. A line that is
found is a place to look at, no verdict: docs/DESIGN-PASS.md says what became of each. A line with
a reason ('kept:') on it or in the comment above it is counted apart.
"""
import re
import subprocess
import sys
from collections import Counter
from pathlib import Path

ROOT = Path(__file__).resolve().parent.parent

POINTS = {
    "1 own Option or Result, flags, numbers for kinds": [
        r"^\s+(Refused|NoRecord|Failed)\b[^=]*,\s*$",
        r"\bErr\((\w+)\) => (return )?Err\(\1\)",
        r"\.number\(\) ==",
        r"\(0 while none",
        r"return Err\(NotOpened",
        r"\bOption<[^<>]*(<[^<>]*>)?[^<>]*>,\s*$",
        r"^\s+(pub(\(\w+\))? )?\w+: bool,",
        r"&mut [^)]*\) -> bool",
    ],
    "3 loops that count an index": [
        r"\bfor \w+ in [\w.]+\.\.",
        r"^\s*(while|loop)\b",
    ],
    "4 equality, conversion and printing by hand": [
        r"\bfn (is_at|is_phase|is_alike|is_filling|same_\w+)\(",
        r"\bfn (number|letter|letter_of|kind_of|name_of|as_\w+|number_in)\(",
        r"\bfn \w+_word\(",
        r"\bfn (blank_message|no_message)\(",
    ],
    "6 buffers with a length beside, parallel arrays": [
        r"^\s*(pub(\(\w+\))? )?(count|len|first): usize,",
        r"^\s*(pub(\(\w+\))? )?\w+: \[.*; \w+\],\s*$",
        r"&Vec<",
    ],
    "7 switches on which step to run": [
        r"\bdyn |\bimpl Fn|: fn\(",
        r"^\s+\w+: bool,\s*$",
    ],
}


def sources(commit):
    if commit is None:
        for path in sorted(ROOT.glob("crates/*/src/**/*.rt")):
            yield str(path.relative_to(ROOT)), path.read_text()
        return
    names = subprocess.run(["git", "-C", ROOT, "ls-tree", "-r", "--name-only", commit, "crates"],
                           capture_output=True, text=True, check=True).stdout.split()
    for name in sorted(names):
        if "/src/" in name and name.endswith(".rt"):
            yield name, subprocess.run(["git", "-C", ROOT, "show", f"{commit}:{name}"],
                                       capture_output=True, text=True, check=True).stdout


def show(title, found, listed):
    kept = sum(1 for _, _, _, k in found if k)
    print(f"{title}: {len(found)}" + (f", {kept} of them with a reason" if kept else ""))
    if listed:
        for name, number, line, k in found:
            print(f"    {name}:{number}: {line.strip()}" + ("   (kept)" if k else ""))


def reasoned(lines, at):
    back = at
    while back > 0 and lines[back - 1].strip().startswith("//"):
        back -= 1
    return any("kept:" in line for line in lines[back:at + 1])


def signatures(text):
    """The parameter lists of functions, as sets of names with types."""
    for match in re.finditer(r"\bfn (\w+)[^(]*\(([^{;]*?)\)\s*(?:->|\n|requires|ensures|\{|;)", text, re.S):
        params = [re.sub(r"\s+", " ", p).strip() for p in match.group(2).split(",")]
        yield match.group(1), [p for p in params if ":" in p]


def together(files):
    pairs = Counter()
    for _, text in files:
        for _, params in signatures(text):
            names = sorted({p for p in params})
            for i, a in enumerate(names):
                for b in names[i + 1:]:
                    pairs[(a, b)] += 1
    return sorted((n, pair) for pair, n in pairs.items() if n >= 3)


def facts(files):
    seen = Counter()
    for _, text in files:
        for clause in re.findall(r"^\s*(?:requires|ensures)[^{]*\{(.*)\}\s*$", text, re.M):
            clause = re.sub(r"\b(old|new|now)\b", "_", clause)
            premises = clause.split(" → ")[:-1] if "→" in clause else []
            for fact in premises + re.split(r" × ", clause):
                fact = fact.strip().strip("()")
                if len(fact) > 8:
                    seen[fact] += 1
    return sorted((n, fact) for fact, n in seen.items() if n >= 3)


def main():
    words = [w for w in sys.argv[1:] if w != "--list"]
    listed = "--list" in sys.argv
    files = list(sources(words[0] if words else None))
    for title, patterns in POINTS.items():
        found = []
        for name, text in files:
            lines = text.split("\n")
            for at, line in enumerate(lines):
                code = line.split("//")[0] if "(0 while" not in line else line
                if any(re.search(p, code) for p in patterns):
                    found.append((name, at + 1, line, reasoned(lines, at)))
        show(title, found, listed)
    for title, rows in [("5 facts in the clauses of three or more", facts(files)),
                        ("5 parameters together in three or more", together(files))]:
        print(f"{title}: {len(rows)}")
        if listed:
            for n, what in reversed(rows):
                print(f"    {n} times: {what if isinstance(what, str) else ' and '.join(what)}")


main()
