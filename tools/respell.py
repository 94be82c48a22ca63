#!/usr/bin/env python3
"""Brings the repository's own names to the spelling of today's Rattle: definitions, fields and lemmas in snake case, primes as apostrophes.

usage: tools/respell.py [--check]     at the top of the repository, once, after the toolchain's port.py

A name that specs/ or proofs/ declare turns in every file that declares it, imports it from a crate of the repository or names it behind a dot: in code, clauses
and comments of crates/ (must-fail edits too), and in backquotes in README.md and docs/. What Rattle itself makes of the source (the goals that a Proof.antt answers)
keeps its spelling, and so does a name that the file brings in from a library. --check writes nothing and lists the names, and those that would fall together.
"""

import os
import re
import sys
from collections import defaultdict

NAME = r'[^\s(){}.;,@"«»`:]+'
WORD = re.compile(NAME)
DECLARED = re.compile(
    rf"(?m)^( *)((?:(?:abbrev|unfoldable|pub|record|data|ruleset) +)*)({NAME})(?: *[({{][^\n]*[)}}])* :(?= |\n)"
)
MADE = re.compile(r" :\s+(?:\([^)]*\) →\s+)*(?:tie|lts|[\w-]*-lts|[\w-]*-tie|goal)\.")
IMPORT = re.compile(r"\buse ([^\s;{]+)\.\{([^}]*)\}")
# Names that would fall together with another of their scope get these.
BY_HAND = {
    "built-column": "built_column_lem",
    "folded-column": "folded_column_lem",
    "is-due": "is_due_lem",
    "is-long": "is_long_lem",
    "pair-there": "pair_there_lem",
    "row-held": "row_held_lem",
    "row-line": "row_line_lem",
    "rows-listed": "rows_listed_lem",
    "sides-below": "sides_below_lem",
    "term-as": "term_as_lem",
    "value-at": "value_at_lem",
    "zeros-from": "zeros_from_lem",
}
KEPT = {"let", "in", "where", "use", "open", "module"}
QUIET = re.compile(r'"[^"\n]*"')
COMMENT = {".antt": re.compile(r"(?<![^\s(){}.;,])--[^\n]*"), ".rt": re.compile(r"//[^\n]*")}


def files(kinds):
    for folder, folders, names in os.walk("crates"):
        folders[:] = sorted(f for f in folders if f != "out")
        for name in sorted(names):
            if name.endswith(kinds):
                yield os.path.join(folder, name)


def text_of(path):
    with open(path, encoding="utf-8") as file:
        return file.read()


def bare(text):
    return re.sub(r"--[^\n]*", "", text)


def snake(name):
    if name in BY_HAND:
        return BY_HAND[name]
    name = name.replace("′", "'")
    if not re.match(r"[a-z]", name) or "◌" in name:
        return name
    name = re.sub(r"(?<=[a-z0-9])([A-Z])", lambda m: "_" + m[1].lower(), name)
    name = re.sub(r"(?<=[a-z0-9])(?=[ℤℚℕ])", "_", name)
    return name.replace("-", "_")


def declared_in(path):
    text = bare(text_of(path))
    walk = path.endswith("Proof.antt")
    for match in DECLARED.finditer(text):
        name = match[3]
        if name in KEPT or walk and MADE.match(text, match.end() - 2):
            continue
        yield name


def is_ours(path):
    steps = path.split(".")
    return steps[0] == "Rattle" and len(steps) > 1 and os.path.isdir(f"crates/{steps[1]}")


def imported(text):
    ours, theirs = set(), set()
    for path, items in IMPORT.findall(text):
        names = {re.split(r"\s+as\s+", item.strip())[0] for item in items.split(",") if item.strip()}
        (ours if is_ours(path) else theirs).update(names)
    return ours, theirs


def main(check):
    table, where = {}, defaultdict(set)
    for path in files((".antt",)):
        for name in declared_in(path):
            where[name].add(path)
            if snake(name) != name:
                table[name] = snake(name)
    reached = defaultdict(set)
    for old, new in table.items():
        reached[new].add(old)
    for new in list(reached):
        if new in where:
            reached[new].add(new)
    together = {new: olds for new, olds in reached.items() if len(olds) > 1}

    def words(text, stay):
        return WORD.sub(lambda m: m[0] if m[0] in stay else table.get(m[0], m[0]), text)

    def prose(text, stay):
        return re.sub(r"`[^`\n]*`", lambda m: words(m[0], stay), text)

    def turned(text, stay, comment=None):
        """Code word by word, comments in their backquotes, and no text in double quotes."""
        out, at = [], 0
        for quiet in re.finditer("|".join(p.pattern for p in (QUIET, comment) if p), text):
            out.append(words(text[at : quiet.start()], stay))
            out.append(quiet[0] if quiet[0][0] == '"' else prose(quiet[0], stay))
            at = quiet.end()
        return "".join(out) + words(text[at:], stay)

    changed, clashes = 0, []
    for path in files((".antt", ".rt", ".edit")):
        old = text_of(path)
        code = bare(old)
        ours, theirs = imported(code)
        own = set(declared_in(path)) if path.endswith(".antt") else set()
        stay = theirs - own
        found = set(WORD.findall(code))
        for word in found & set(table) - stay:
            if table[word] in found and path.endswith((".antt", ".rt")):
                clashes.append((path, word, table[word]))
        new = turned(old, stay, COMMENT.get(os.path.splitext(path)[1]))
        if new != old:
            changed += 1
            if not check:
                with open(path, "w", encoding="utf-8") as file:
                    file.write(new)
    for path in ["README.md"] + [f"docs/{f}" for f in sorted(os.listdir("docs")) if f.endswith(".md") and not f.startswith("PORT")]:
        old = text_of(path)
        new = prose(old, set())
        if new != old and not check:
            with open(path, "w", encoding="utf-8") as file:
                file.write(new)
    for new, olds in sorted(together.items()):
        print("together:", new, "from", ", ".join(f"{o} ({min(where[o])})" for o in sorted(olds)))
    for path, word, new in sorted(clashes):
        print("clash:", path, word, "would be", new)
    if check:
        for old in sorted(table):
            print("name:", old, table[old])
    print(f"respell: {len(table)} names, {changed} files")


if __name__ == "__main__":
    main("--check" in sys.argv[1:])
