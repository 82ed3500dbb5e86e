#!/usr/bin/env python3
"""Tries wrong edits of the code, each by itself, against the check of its crate.

    tools/plant.py [--only WORDS] [--jobs N] [--from FILE] [--out FILE] CRATE...
    tools/plant.py --list CRATE...      says only whether each edit fits the source
    tools/plant.py definitions          wrong definitions, each with code that follows it

The edits stand in tools/planted/CRATE.edits (or in FILE), in blocks with an empty line between them:

    edit: what is wrong, in words
    act: where it belongs            (optional, a column of the table)
    file: src/NAME.rt
    old: text that stands once in that file
    new: what takes its place        (further 'old:' and 'new:' pairs may follow)
    same: why no caller can tell     (only for an edit that is expected to survive)

Among the definitions, 'file:' begins with crates/; the whole repository is checked, then the
comparison with the second implementation is run (reference/ must be built), and the first that
fails is told.

It works on copies and leaves the repository alone. A check begins with what checks on this
machine have kept of the same crates. So this is no verdict like the gate's, and much faster.
One line is printed for each edit: what the check said, and of which function. How a text is
laid out in the source does not matter to an 'old:'.
"""
import re
import shutil
import subprocess
import sys
import tempfile
import threading
from concurrent.futures import ThreadPoolExecutor
from pathlib import Path

ROOT = Path(__file__).resolve().parent.parent
DEFINITIONS = "definitions"


def read_edits(crate, source):
    edits, edit = [], None
    path = Path(source) if source else ROOT / "tools" / "planted" / f"{crate}.edits"
    for number, line in enumerate(path.read_text().split("\n"), 1):
        if line.startswith("#") or not line.strip():
            continue
        key, _, value = line.partition(":")
        value = value[1:] if value.startswith(" ") else value
        if key == "edit":
            edit = {"edit": value, "act": "", "same": "", "pairs": [], "line": number}
            edits.append(edit)
        elif edit is None or key not in ("act", "same", "file", "old", "new"):
            sys.exit(f"{path}:{number}: not understood: {line}")
        elif key in ("act", "same"):
            edit[key] = value
        elif key == "file":
            edit["file"] = value
        elif key == "old":
            edit["pairs"].append([edit["file"], value, None])
        else:
            edit["pairs"][-1][2] = value
    return edits


def laid_out(text):
    """A pattern of the text in any layout: white space is free between its words and marks, and so is a last comma."""
    parts = re.findall(r"\w+|[^\w\s]", text)
    return r"\s*".join((r",?\s*" if part in "})" and n else "") + re.escape(part) for n, part in enumerate(parts))


def misfit(crate, edit, folder=None):
    """Why the edit does not fit the source, or None. With a folder, makes the edit there."""
    if not edit["pairs"]:
        return "no 'old:' and 'new:' pair"
    texts, inside = {}, Path() if crate == DEFINITIONS else Path("crates") / crate
    for file, old, new in edit["pairs"]:
        path = ROOT / inside / file
        text = texts.get(file) or path.read_text()
        if new is None or old.strip() == "":
            return f"{file}: a pair is not whole: {old}"
        if text.count(old) != 1:
            found = list(re.finditer(laid_out(old), text))
            if len(found) != 1:
                return f"{file}: 'old:' stands {len(found)} times: {old}"
            old = found[0].group(0)
        texts[file] = text.replace(old, new)
    for file, text in texts.items():
        if folder:
            (folder / inside / file).write_text(text)
    return None


def verdict_of(status, log):
    """What the check said, and the functions of which it said so."""
    if status == 0:
        return "survived", ""
    if "stopped at the step limit" in log:
        return "limit only", re.search(r"^.*stopped at the step limit.*$", log, re.M).group(0)[:300]
    if "logic=not-proved" not in log:
        error = re.search(r"^.*\berror\b.*$", log, re.M)
        return "does not compile", error.group(0)[:300] if error else log[:300]
    refused = []
    for kind, name, rest in re.findall(r"^(fn|struct|impl) (\S+): (.*)$", log, re.M):
        if rest != "proved" and "no proof: it calls" not in rest and "it waits for" not in rest:
            refused.append(name.split("::")[-1])
    by = ", ".join(f"`{name}`" for name in refused)
    error = re.search(r"^((?:\S*/)?(proofs|specs|src)/[^ :]*):\d+:\d+: error.*(?:\n(?!\S*: error|fn |note: ).*){0,6}", log, re.M)
    if error and error.group(2) == "proofs":
        shape = re.search(r"that can be named from here|has no field|has no member|is not in scope", error.group(0))
        return "shape only" if shape else "in the proof", by + " | " + " ".join(error.group(0).split())[:500]
    note = re.search(r"^note: (?:\S*/)?src/\S* (.*)$", log, re.M)
    if note and (not error or error.group(2) == "src"):
        return "promise", by + " | " + note.group(1)[:200]
    return "other", by + " | " + (" ".join(error.group(0).split())[:500] if error else log[-500:])


class Copy:
    """A copy of the repository in which one edit at a time is tried."""

    def __init__(self):
        self.folder = Path(tempfile.mkdtemp(prefix="plant-"))
        self.take("crates")
        shutil.copy(ROOT / "crates.txt", self.folder)

    def take(self, part):
        shutil.copytree(ROOT / part, self.folder / part, ignore=shutil.ignore_patterns("out"))

    def run(self, folder, *words):
        return subprocess.run(["nice", *words], cwd=self.folder / folder, capture_output=True, text=True, stdin=subprocess.DEVNULL)

    def try_definition(self, edit):
        for source in (ROOT / "crates").glob("*/specs/**/*.antt"), (ROOT / "crates").glob("*/src/**/*.rt"):
            for path in source:
                shutil.copy(path, self.folder / path.relative_to(ROOT))
        bad = misfit(DEFINITIONS, edit, self.folder)
        if bad:
            return "does not fit", bad
        done = self.run(".", "rt", "all", "check")
        if done.returncode:
            return "refused", verdict_of(1, done.stdout + done.stderr)[1]
        done = self.run("crates/dispatch", "rt", "run")
        done = self.run(".", str(ROOT / "reference/target/release/reference"), "compare", "crates/dispatch/out/dispatch", "2000")
        return ("differs", done.stdout[:300]) if done.returncode else ("survived", "")

    def try_edit(self, crate, edit):
        if crate == DEFINITIONS:
            return self.try_definition(edit)
        here = self.folder / "crates" / crate
        for part in "src", "specs":
            shutil.rmtree(here / part, ignore_errors=True)
            if (ROOT / "crates" / crate / part).is_dir():
                self.take(f"crates/{crate}/{part}")
        bad = misfit(crate, edit, self.folder)
        if bad:
            return "does not fit", bad
        done = self.run(f"crates/{crate}", "rt", "check")
        return verdict_of(done.returncode, done.stdout + done.stderr)


def main(words):
    only, jobs, source, out, listing, crates = None, 2, None, None, False, []
    while words:
        word = words.pop(0)
        if word == "--only":
            only = words.pop(0)
        elif word == "--jobs":
            jobs = int(words.pop(0))
        elif word == "--from":
            source = words.pop(0)
        elif word == "--out":
            out = words.pop(0)
        elif word == "--list":
            listing = True
        else:
            crates.append(word)
    todo = [(c, e) for c in crates for e in read_edits(c, source) if not only or only in e["edit"]]
    if listing:
        for crate, edit in todo:
            bad = misfit(crate, edit)
            print(f"{crate}\t{edit['edit']}\t{bad or 'fits'}")
        return
    copies, lock = {}, threading.Lock()

    def run(item):
        crate, edit = item
        me = threading.get_ident()
        if me not in copies:
            copies[me] = Copy()
        verdict, detail = copies[me].try_edit(crate, edit)
        line = f"{crate}\t{edit['act']}\t{edit['edit']}\t{verdict}\t{detail}"
        with lock:
            print(line, flush=True)
            if out:
                with open(out, "a") as f:
                    f.write(line + "\n")

    try:
        with ThreadPoolExecutor(jobs) as pool:
            list(pool.map(run, todo))
    finally:
        for copy in copies.values():
            shutil.rmtree(copy.folder, ignore_errors=True)


if __name__ == "__main__":
    main(sys.argv[1:])
