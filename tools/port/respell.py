#!/usr/bin/env python3
"""Respells the repository's own words and lemmas in snake case, after the kit's port.py: closeInto to close_into, begins-next to begins_next.

usage: python3 tools/port/respell.py            at the top of the repository, once, on what port.py left

The table is made of what specs/ and proofs/ declare: a word in camel case that is no type, and a lemma's name with a dash. A lemma that
would have its word's name gets `_lem`. Functions of src/, exports, types, modules, strings, inputs and outputs keep their names, and so do
the names of goals in proofs of functions. The kit's snake.py turns .antt, .rt and .md files by the table; the must-fail edits are turned here.
"""

import collections
import os
import re
import subprocess
import sys

SNAKE = "port/notes/2026-11-18-names-are-in-snake-case/snake.py"
DECLARED = re.compile(r"^\s*(?:(?:abbrev|unfoldable|pub|data|record)\s+)*([^\s:{(]+)(?: *\{[^}]*\})?\s*:(?!=)\s*(.*)")
WORD = re.compile(r"[^\s(){}.;,@\"«»⌜⌝]+")


def files(top, ends):
    for folder, dirs, names in os.walk(top):
        dirs[:] = sorted(d for d in dirs if d not in ("out", "target"))
        for f in sorted(names):
            if f.endswith(ends):
                yield os.path.join(folder, f)


def snake(name):
    name = re.sub(r"(?<=[a-z0-9])([A-Z])", lambda m: "_" + m.group(1).lower(), name) if name[0].islower() else name
    return name if name.startswith("+") else name.replace("-", "_")


def declared():
    """Each name that specs/ and proofs/ declare, with the files; goals of a function's proof are none."""
    found = collections.defaultdict(set)
    for p in files("crates", ".antt"):
        with open(p, encoding="utf-8") as f:
            for line in f:
                m = DECLARED.match(line)
                if m and not m.group(2).startswith(("tie.", "goal.")) and not m.group(1).endswith(("-spec", "_spec")):
                    found[m.group(1)].add(p)
    return found


def imported():
    """The names that files take from the kit's libraries: they stay."""
    own = tuple(f"Rattle.{c}." for c in os.listdir("crates"))
    found = set()
    for p in files("crates", (".antt", ".rt")):
        with open(p, encoding="utf-8") as f:
            for path, names in re.findall(r"\buse ([\w.·]+)\.\{([^}]*)\}", f.read()):
                if not path.startswith(own):
                    found.update(n.split(" as ")[0].strip() for n in names.split(","))
    return found


def functions():
    found = set()
    for p in files("crates", ".rt"):
        with open(p, encoding="utf-8") as f:
            found.update(re.findall(r"\bfn (\w+)", f.read()))
    return found


def table():
    found = declared()
    taken = collections.defaultdict(set)
    for name in found:
        taken[snake(name)].add(name)
    rows = {}
    for name in set(found) - imported():
        new = snake(name)
        if not re.fullmatch(r"[A-Za-z][\w'⁻₀-₉]*", new):
            continue
        if len(taken[new]) > 1 and name[0].islower() and not re.search(r"[A-Z]", name):
            if any(re.search(r"[A-Z]", other) for other in taken[new]) or "-" in name:
                new += "_lem"
        if new != name:
            rows[name] = new
    return rows


def turn_edits(rows):
    for p in files("crates", ".edit"):
        with open(p, encoding="utf-8") as f:
            old = f.read()
        out = []
        for line in old.splitlines(keepends=True):
            if line.startswith(("old:", "new:", "#")):
                keeps = line.startswith("#")  # a comment keeps words with a hyphen
                line = WORD.sub(lambda m: m.group(0) if keeps and "-" in m.group(0) else rows.get(m.group(0), m.group(0)), line)
            out.append(line)
        new = "".join(out)
        if new != old:
            with open(p, "w", encoding="utf-8") as f:
                f.write(new)


def main():
    kit = os.path.dirname(subprocess.run(["rt", "doc"], capture_output=True, text=True, check=True).stdout.strip())
    rows = table()
    here = os.path.join(os.path.dirname(os.path.relpath(__file__)), "names.tsv")
    with open(here, "w", encoding="utf-8") as f:
        f.writelines(f"{old}\t{new}\n" for old, new in sorted(rows.items()))
    # Behind a dot a function's name is the step of its call.
    called = {name for name in rows if name.replace("-", "_") in functions()}
    kept = os.path.join(os.path.dirname(here), "kept.txt")
    with open(kept, "w", encoding="utf-8") as f:
        f.writelines(name + "\n" for name in sorted(called))
    paths = ["crates", "docs", "README.md", "bindings/rust/README.md"]
    words = ["--table", here, "--keep-after-dot", kept, "--only", "antt,rt,md", *paths]
    said = subprocess.run([sys.executable, os.path.join(kit, SNAKE), *words], text=True)
    turn_edits(rows)
    for crate in sorted(os.listdir("crates")):
        subprocess.run(["rt", "fmt"], cwd=os.path.join("crates", crate), stdout=subprocess.DEVNULL, stderr=subprocess.DEVNULL)
    return said.returncode


if __name__ == "__main__":
    raise SystemExit(main())
