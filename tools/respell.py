#!/usr/bin/env python3
"""Brings the repository's own names to the toolchain's spelling: words in snake case, types in camel case.

    python3 tools/respell.py [--check]

It was run once, after the toolchain's own script, and it turns the names that this repository's specs/ and proofs/
declare: 'with-heard' to 'with_heard', 'Same-bag' to 'SameBag'. A lemma about a word of the standard library keeps
the dash behind that word, as 'length-waiting'. In proof files the parts of made names that come from the source are
spelled as in the source: 'c.tell-byte' to 'c.tell_byte'. Comments and code outside clauses stay as they are, but
for names between backquotes. --check writes nothing and prints names that would fall together.
"""
import re
import subprocess
import sys
from pathlib import Path

ROOT = Path(subprocess.run(["git", "rev-parse", "--show-toplevel"], capture_output=True, text=True, check=True).stdout.strip())
PART = r"[A-Za-z0-9_'ℕ]+"
NAME = PART + r"(?:-" + PART + r")+"
WHOLE = re.compile(r"(?<![A-Za-z0-9_'ℕ-])" + NAME + r"(?![A-Za-z0-9_'ℕ-])")
HEADS = ("length", "drop", "take", "set", "cond", "get_or", "replicate")
# names whose plain new spelling would be that of another name
APART = {
    "kind-of": "kind_of_act",
    "letter-of": "letter_of_answer",
    "progress-by": "progress_after",
    "coin-draw": "coin_draw_number",
    "group-draw": "group_draw_number",
    "take-change": "take_change",
    "bags-are-counts": "bags_are_counts_lem",
    "a-fresh-park-exists": "a_fresh_park_exists_lem",
    "a-long-selector-exists": "a_long_selector_exists_lem",
    "a-run-with-a-yes-and-a-permit-exists": "a_run_with_a_yes_and_a_permit_exists_lem",
    "all-answered-can-be-met": "all_answered_can_be_met_lem",
    "never-stuck-can-be-met": "never_stuck_can_be_met_lem",
    "rounds-can-go-on": "rounds_can_go_on_lem",
}


def without_comment(line):
    at = line.find("--")
    while at > 0 and line[at - 1] not in " \t(":
        at = line.find("--", at + 2)
    return (line, "") if at < 0 else (line[:at], line[at:])


def files(*patterns):
    return sorted(p for pattern in patterns for p in ROOT.glob(pattern) if "/out/" not in str(p) and p.is_file())


def is_answer(path):
    return path.name in ("Answers.antt", "Invariants.antt", "Proof.antt")


def declared():
    """The names that specs/ and proofs/ declare, with whether a lemma file does."""
    names, std = {}, set()
    for path in files("crates/*/specs/**/*.antt", "crates/*/proofs/**/*.antt"):
        lemma = "/proofs/" in str(path)
        for raw in path.read_text().split("\n"):
            line, _ = without_comment(raw)
            found = re.match(r"\s*use Rattle\.std[^{]*\.\{([^}]*)\}", line)
            if found:
                std.update(w.strip() for w in found.group(1).split(","))
            found = re.match(r"\s*(?:abbrev |unfoldable )?(?:pub )?(?:(record|data) (" + NAME + r")(?=[ :])|((?:(?:" + NAME + "|" + PART + r") )+):(?!:) *(goal\.)?)", line)
            if not found:
                continue
            if found.group(2):
                names[found.group(2)] = lemma
            elif not found.group(4):
                for word in found.group(3).split():
                    if "-" in word:
                        names[word] = lemma
    return {n: l for n, l in names.items() if n not in std}


def spelled(name, lemma):
    if name in APART:
        return APART[name]
    parts = name.split("-")
    if name[0].isupper():
        return "".join(p[0].upper() + p[1:] for p in parts)
    if lemma and parts[0] in HEADS:
        return parts[0] + "-" + "_".join(parts[1:])
    return "_".join(parts)


def source_words():
    words = set()
    for path in files("crates/*/src/**/*.rt"):
        words.update(w for w in re.findall(r"\b[a-z][a-z0-9]*(?:_[a-z0-9]+)+\b", path.read_text()))
    return words


def turn(text, table):
    return WHOLE.sub(lambda m: table.get(m.group(0), m.group(0)), text)


def turn_spans(text, table):
    return re.sub(r"`[^`\n]*`", lambda m: turn(m.group(0), table), text)


def turn_made(text, words):
    """Made names: parts from the source as in the source, and the toolchain's own words in snake case."""
    def one(m):
        name = m.group(0)
        name = re.sub(r"(?<![A-Za-z0-9_])in-(ok|err)(?=-|$)", r"in_\1", name)
        name = re.sub(r"(?<![A-Za-z0-9_])type-inv$", "type_inv", name)
        parts, out, i = name.split("-"), [], 0
        while i < len(parts):
            for j in range(len(parts), i, -1):
                if "_".join(parts[i:j]) in words:
                    out.append("_".join(parts[i:j]))
                    i = j
                    break
            else:
                out.append(parts[i])
                i += 1
        return "-".join(out)
    return WHOLE.sub(one, text)


def antt(text, table, words, answer):
    lines = []
    for raw in text.split("\n"):
        line, comment = without_comment(raw)
        line = turn(line, table)
        lines.append((turn_made(line, words) if answer else line) + turn_spans(turn(comment, {n: t for n, t in table.items() if n[0].isupper()}), table))
    return "\n".join(lines)


CLAUSE = re.compile(r"(?:requires|ensures)\s*(?:\w+\s*)?\{|ghost\s+(?:use\b|(?:mod\b)?[\w\s]*[:=]?\s*\{)")


def rt(text, table):
    out, at = [], 0
    for m in CLAUSE.finditer(text):
        if m.start() < at or "//" in text[text.rfind("\n", 0, m.start()) + 1:m.start()]:
            continue
        if m.group(0).endswith("use"):
            end = text.index(";", m.end())
        else:
            depth, end = 1, m.end()
            while depth:
                depth += {"{": 1, "}": -1}.get(text[end], 0)
                end += 1
        out += [turn_spans(text[at:m.start()], table), turn(text[m.start():end], table)]
        at = end
    return "".join(out) + turn_spans(text[at:], table)


def main():
    names = declared()
    table = {n: spelled(n, l) for n, l in names.items()}
    words = source_words()
    every = {}
    sources = files("crates/*/src/**/*.rt", "crates/*/specs/**/*.antt", "crates/*/proofs/**/*.antt")
    for path in sources:
        for raw in path.read_text().split("\n"):
            line = without_comment(raw)[0] if path.suffix == ".antt" else raw.split("//")[0]
            for word in re.findall(r"(?<![A-Za-z0-9_'ℕ-])" + PART + r"(?:-" + PART + r")*", line):
                every.setdefault(word, set()).add(str(path.relative_to(ROOT)))
    new = {}
    for name, to in sorted(table.items()):
        new.setdefault(to, []).append(name)
    for to, old in sorted(new.items()):
        if len(old) > 1 or to in every:
            places = sorted(every.get(to, ()))
            print(f"falls together: {to}: {', '.join(old)}" + (f"; stands in {', '.join(places[:4])}" if places else ""))
    if "--check" in sys.argv[1:]:
        return
    for path in sources:
        text = path.read_text()
        path.write_text(antt(text, table, words, is_answer(path)) if path.suffix == ".antt" else rt(text, table))
    for path in files("crates/*/must-fail/*.edit", "tools/planted/definitions.edits"):
        path.write_text("\n".join(turn(l, table) if re.match(r"(old|new):", l) else l for l in path.read_text().split("\n")))
    for path in files("README.md", "docs/**/*.md"):
        path.write_text(turn_spans(path.read_text(), table))
    print(f"{len(table)} names turned")


main()
