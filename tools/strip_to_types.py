#!/usr/bin/env python3
"""Makes a copy of the crates without code, in which a change of definitions is tried first.

    tools/strip_to_types.py COPY [CRATE..]

COPY is a folder that is not there yet, or an empty one. It gets crates.txt and, of each crate, specs/ as it is and
src/ with its types alone: functions go, and proofs/ with them. A crate that had no function keeps its proofs/: there
they prove theorems on definitions. Then

    cd COPY && rt all check

proves every law and every theorem, since they speak of definitions and types, never of code. It takes seconds in place
of minutes. It says nothing of the code: a change that holds there is carried over to src/ and proofs/ afterwards.

Without CRATE the copy has every crate that has specs/ and does not read or print; with CRATE those named and what
they depend on. A static library is a plain one there, since it exports nothing. Must-fail edits are left out, since
they change code; those of a crate without code are kept. docs/MAINTAINER.md has the way of working.
"""

import pathlib
import re
import shutil
import sys

ROOT = pathlib.Path(__file__).resolve().parent.parent
SYSTEM = re.compile(r"\bstd::(io|fs|env|time)\b|\b(io|fs|env)::|\bHostRuntime\b|\bprint(ln)?!")  # reading, printing, the system
TYPE = re.compile(r"(pub(\(crate\))? )?(struct|enum) ")
CODE = re.compile(r"(pub(\(crate\))? )?(extern \"C\" )?fn |impl\b")
CONST = re.compile(r"(pub(\(crate\))? )?const (\w+):")
USE = re.compile(r"(pub(\(crate\))? )?use ([\w:]+)::(?:\{([^}]*)\}|(\w+));")
GHOST_USE = re.compile(r"ghost use ([\w.]+)\.\{([^}]*)\};")
GHOST_FIELD = re.compile(r"\s+(pub(\(crate\))? )?ghost \w+: ")


def fail(message):
    print(f"strip_to_types: {message}", file=sys.stderr)
    sys.exit(2)


def read_crates():
    """crates.txt as a dictionary, in its order: a crate's name, and what it depends on."""
    crates = {}
    for line in (ROOT / "crates.txt").read_text().splitlines():
        if line.strip() and not line.startswith("#"):
            name, needs = line.split(":", 1)
            crates[name.split()[0]] = needs.split()  # `NAME staticlib: ..`, too
    return crates


def calls_system(name):
    source = ROOT / "crates" / name / "src"
    return (source / "main.rt").is_file() or any(SYSTEM.search(file.read_text()) for file in source.rglob("*.rt"))


def choose(crates, named):
    """The crates of the copy, in the order of crates.txt."""
    if not named:
        return [c for c in crates if (ROOT / "crates" / c / "specs").is_dir() and not calls_system(c)]
    for name in named:
        if name not in crates:
            fail(f"crates.txt has no crate {name}")
        if calls_system(name):
            fail(f"crate {name} reads, prints or calls the system: it has nothing to try without code")
    wanted = set(named).union(*(crates[name] for name in named))
    return [c for c in crates if c in wanted]


def split_items(text):
    """The items of a formatted file, each as a list of lines: attributes and comments stand with the item below them.

    An item starts at a line that is not indented, and ends at its own ';' or at a '}' or '];' that is not indented; an
    attribute of the whole file (`#![..]`) is one."""
    items, lines, open_item = [], [], False
    for line in text.splitlines():
        lines.append(line)
        bare = line.split("//", 1)[0].rstrip()
        if open_item:
            open_item = not line.startswith(("}", "];"))
        elif not bare or line.startswith("#["):
            if not line:
                lines.pop()
                items += [lines] if lines else []
                lines = []
            continue
        else:
            open_item = not bare.endswith((";", "}")) and not line.startswith("#![")
        if not open_item:
            items.append(lines)
            lines = []
    return items + ([lines] if lines else [])


def first_line(item):
    """The line that says what an item is."""
    return next((line for line in item if line and not line.startswith(("//", "#["))), "")


def needed_ghost_use(item, fields):
    """Of a ghost use the names that the ghost fields cite, as one of those; or nothing: the others go with the contracts."""
    use = GHOST_USE.match(" ".join(" ".join(line for line in item if not line.startswith(("//", "#["))).split()))
    names = [name.strip() for name in use.group(2).split(",")] if use else []
    words = set(re.findall(r"\w+", fields))
    names = [name for name in names if (name in words if name.isidentifier() else name.strip("◌") in fields)]
    return f"ghost use {use.group(1)}.{{{', '.join(names)}}};" if names else ""


def needed_use(item, words):
    """Of a use the names that stand in words, as a use of those; or nothing."""
    use = USE.match(" ".join(" ".join(line for line in item if not line.startswith(("//", "#["))).split()))
    names = [name for name in re.findall(r"\w+", use.group(4) or use.group(5)) if name in words] if use else []
    if not names:
        return ""
    return f"{use.group(1) or ''}use {use.group(3)}::{names[0] if len(names) == 1 else '{' + ', '.join(names) + '}'};"


def strip(text):
    """A file's types, with the modules, attributes of the file, constants and uses that they need."""
    items = split_items(text)
    kept = [i for i in items if TYPE.match(first_line(i))]
    words = set(re.findall(r"\w+", "\n".join("\n".join(i) for i in kept)))
    fields = "\n".join(line for item in kept for line in item if GHOST_FIELD.match(line))
    out = []
    for item in items:
        line = first_line(item)
        const = CONST.match(line)
        if TYPE.match(line) or line.startswith("#![") or (const and const.group(3) in words) or re.match(r"(pub )?mod ", line) or not line:
            out.append("\n".join(item))
        elif use := needed_ghost_use(item, fields) or needed_use(item, words):
            out.append(use)
    return "\n".join(out) + "\n"


def has_code(crate):
    return any(CODE.match(first_line(i)) for f in (crate / "src").glob("*.rt") for i in split_items(f.read_text()))


def copy_crate(name, copy):
    """Copies a crate; says whether it had code, which the copy has not."""
    source, target = ROOT / "crates" / name, copy / "crates" / name
    code = has_code(source)
    shutil.copytree(source, target, ignore=shutil.ignore_patterns(*(["proofs", "must-fail"] if code else [])))
    if code:
        for file in (target / "src").glob("*.rt"):
            file.write_text(strip(file.read_text()))
    return code


def main():
    if len(sys.argv) < 2 or sys.argv[1].startswith("-"):
        print(__doc__.strip())
        sys.exit(0 if sys.argv[1:] in (["-h"], ["--help"]) else 2)
    copy = pathlib.Path(sys.argv[1]).resolve()
    if copy.exists() and (not copy.is_dir() or any(copy.iterdir())):
        fail(f"{sys.argv[1]} is not an empty folder")
    if copy.is_relative_to(ROOT):
        fail(f"{sys.argv[1]} lies in the repository: name a folder outside of it")
    crates = read_crates()
    chosen = choose(crates, sys.argv[2:])
    copy.mkdir(parents=True, exist_ok=True)
    for name in chosen:
        print(f"{name}: {'types and specs' if copy_crate(name, copy) else 'whole'}")
    (copy / "crates.txt").write_text("".join(f"{name}: {' '.join(crates[name])}".rstrip() + "\n" for name in chosen))
    print(f"{len(chosen)} crates in {copy}: 'rt all check' there proves their laws and theorems")


if __name__ == "__main__":
    main()
