#!/usr/bin/env python3
"""Brings this repository's own names to the spelling of the Rattle that it is proved with.

Run at the top, after the kit's port.py; a second run changes nothing. Definitions and lemmas that were in camel case are in snake case; a dash that
joins two lemmas' names stays, and so do the names of types. A clause that cites a definition with the name of a function of its file has it in
guillemets. Names that would fall together get others, listed in APART. Must-fail edits and pages follow. Each root file gets the line that has the
check try its tactics.
"""
import glob
import re

# Where snake case makes one name of two: the file's name, and what stands for it.
APART = [
    ("crates/bench_table/", "all_hold", "all_hold-true"),
    ("crates/bench_table/", "same_out", "same_out-sound"),
    ("crates/packet/", "made_by", "made-by"),
    ("crates/front_end/proofs/Changes.antt", "own_first", "own_place"),
    ("", "inWindow", "window_place"),
    ("", "inKept", "kept_place"),
    ("", "from-to", "from_to"),
    ("", "from-to-but", "from_to_but"),
    ("", "count-up", "count_up"),
]
TOKEN = re.compile(r"(?<![\w'₀-₉«-])[A-Za-z_][\w'₀-₉]*(?:-[\w'₀-₉]+)*(?![\w'₀-₉»]|-\w)")
DECLARED = re.compile(r"^ *(?:(?:abbrev|opaque|unfoldable|pub|data|record)\s+)*([a-z][\w'₀-₉]*(?:-[\w'₀-₉]+)*)(?:\s+[^=→:]*?)?\s*(?::|$)", re.M)


def snake(name):
    return re.sub(r"(?<=[a-z])[A-Z]+", lambda m: "".join("_" + c.lower() for c in m[0]), name)


def names():
    found = {}
    for f in glob.glob("crates/*/specs/**/*.antt", recursive=True) + glob.glob("crates/*/proofs/**/*.antt", recursive=True):
        text = re.sub(r"--.*", "", open(f, encoding="utf-8").read())
        for m in DECLARED.finditer(text):
            if re.search(r"[a-z][A-Z]", m[1]):
                found[m[1]] = snake(m[1])
    return found


def main():
    table = names()
    if not table:
        return
    for where in ["crates/*/specs/**/*.antt", "crates/*/proofs/**/*.antt", "crates/*/src/*.rt", "crates/*/must-fail/*.edit", "docs/*.md", "README.md"]:
        for f in sorted(glob.glob(where, recursive=True)):
            text = open(f, encoding="utf-8").read()
            functions = set(re.findall(r"\bfn (\w+)", text)) if f.endswith(".rt") else set()
            apart = {a: b for folder, a, b in APART if f.startswith(folder) and (folder or not f.endswith(".md"))}

            def turn(m):
                name = m[0]
                new = apart.get(name) or table.get(name) or name
                return f"«{new}»" if new != name and new in functions else new

            new = TOKEN.sub(turn, text)
            if new != text:
                open(f, "w", encoding="utf-8").write(new)
    for f in glob.glob("crates/*/src/lib.rt") + glob.glob("crates/*/src/main.rt"):
        lines = open(f, encoding="utf-8").read().split("\n")
        if "#![tactic(auto)]" not in lines:
            head = next(i for i, line in enumerate(lines) if not line.startswith("//"))
            lines[head:head] = ["#![tactic(auto)]"] + ([""] if lines[head] else [])
            open(f, "w", encoding="utf-8").write("\n".join(lines))


main()
