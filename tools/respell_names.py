#!/usr/bin/env python3
"""Respells the definitions and lemmas of this repository as today's Rattle spells them: functions, lemmas and fields in snake case.

usage: tools/respell_names.py       at the top of the repository, once, after the kit's port.py

It reads which names the specs/ and proofs/ of all crates define, and writes each of them anew wherever it stands: in every .antt file, in the
clauses and ghost items of .rt files (never in a string), in edits, and in the documents, there only between backticks where the name has a dash.
Types, constructors of enums and goals of a function's proof keep theirs. A lemma that would get its function's name gets `_lem` behind it.
"""

import collections
import glob
import re

NAME = r"[A-Za-z_][A-Za-z0-9_'′₀-₉-]*"
DEFINED = re.compile(r"\s*(?:(?:abbrev|unfoldable|pub)\s+)*(" + NAME + r"(?: " + NAME + r")*) :(?: |$)")
KEYWORDS = {"use", "pub", "record", "data", "in", "let", "where", "abbrev", "unfoldable", "mod"}
# Lemmas that have a name of their function's in snake case already, and fields that would hide a function.
LEMMAS = {"bytes-at": "bytes_at_lem", "in-range": "in_range_lem", "plan-of": "plan_of_lem", "none_touch": "none_touch_lem"}
TABLES = {"row_words": "row_words_lem"}  # but in crate sheets, which has a lemma of this name and not the function


def snake(name):
    parts = []
    for part in name.replace("′", "'").split("-"):
        if not part[:1].isupper():
            part = re.sub(r"(?<=[a-z0-9])[A-Z]", lambda m: "_" + m.group().lower(), part)
        parts.append(part)
    return "_".join(parts)


def antt_files():
    return sorted(glob.glob("crates/*/specs/**/*.antt", recursive=True) + glob.glob("crates/*/proofs/**/*.antt", recursive=True))


def is_of_function(path):
    return path.split("/")[2] == "proofs" and len(path.split("/")) > 4


def defined():
    names = set()
    for path in antt_files():
        if is_of_function(path):
            continue
        with open(path, encoding="utf-8") as f:
            for line in f:
                found = None if line.strip().startswith("--") else DEFINED.match(line)
                if found:
                    names.update(n for n in found.group(1).split() if n not in KEYWORDS)
    return names


def spellings():
    new = {n: snake(n) for n in defined() if snake(n) != n}
    by_new = collections.defaultdict(list)
    for n in new:
        by_new[new[n]].append(n)
    for n, olds in by_new.items():
        for old in olds:
            if len(olds) > 1 and "-" in old:
                new[old] = n + "_lem"
    new.update(LEMMAS)
    return new


def imported_from_elsewhere(text, crates):
    """The names that a file takes from a library: they keep their spelling there."""
    names = set()
    for path, items in re.findall(r"(?:ghost )?use ([^\s{};]+)\.\{([^}]*)\}", text):
        root = path.split(".")
        if not (root[0] == "Rattle" and len(root) > 1 and root[1] in crates):
            names.update(i.split(" as ")[0].strip() for i in items.split(","))
    return names


def respell(text, new, keep=()):
    return re.sub(NAME, lambda m: new[m.group()] if m.group() in new and m.group() not in keep else m.group(), text)


def respell_lines(text, new, keep, comment):
    """Code as a whole; of a comment only what has no dash, or stands between backticks."""
    out = []
    for line in text.split("\n"):
        at = re.search(r"(?:^|\s)" + comment + r"(?:\s|$)", line)
        code, note = (line[: at.start()], line[at.start() :]) if at else (line, "")
        pieces = re.split(r'("(?:[^"\\]|\\.)*")', code) if comment == "//" else [code]
        code = "".join(p if p.startswith('"') else respell(p, new, keep) for p in pieces)
        out.append(code + respell_prose(note, new))
    return "\n".join(out)


def respell_prose(text, new):
    plain = {n: to for n, to in new.items() if "-" not in n and n not in LEMMAS and n not in TABLES}
    pieces = re.split(r"(`[^`\n]*`)", text)
    return "".join(respell(p, new if p.startswith("`") else plain) for p in pieces)


def rewrite(path, turn):
    with open(path, encoding="utf-8") as f:
        old = f.read()
    new = turn(old)
    if new != old:
        with open(path, "w", encoding="utf-8") as f:
            f.write(new)
        return 1
    return 0


def main():
    crates = {p.split("/")[1] for p in glob.glob("crates/*/src")}
    new = spellings()
    changed = 0
    for path in antt_files() + sorted(glob.glob("crates/*/src/**/*.rt", recursive=True)):
        names = new if path.startswith("crates/sheets/") else {**new, **TABLES}
        comment = "//" if path.endswith(".rt") else "--"
        changed += rewrite(path, lambda t: respell_lines(t, names, imported_from_elsewhere(t, crates), comment))
    for path in sorted(glob.glob("crates/*/must-fail/*.edit") + glob.glob("tests/edits/*/*.edit")):
        changed += rewrite(path, lambda t: respell(t, new))
    for path in ["README.md"] + sorted(glob.glob("docs/**/*.md", recursive=True) + glob.glob("*/*/README.md") + glob.glob("*/README.md")):
        changed += rewrite(path, lambda t: respell_prose(t, new))
    print(f"respell: {len(new)} names, {changed} files")


main()
