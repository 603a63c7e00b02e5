#!/usr/bin/env python3
"""Spells the repository's own definitions and lemmas as the installed Rattle does, once, right after port.py.

    python3 tools/respell_names.py        at the top of the repository

A word is in snake case: a name such as packetCheck becomes packet_check, and messages-few becomes messages_few. A dash stays
where it joins two names that are declared or of the library, as in le_at-drop. Names that the check makes (a function's goals,
invariants and measures, and what stands behind a dot in its answers), the names of src/, strings and file names stay. A lemma that
would fall together with another name gets _lem. Also renames the crate `hex`, since the toolchain has a library of that name, to
`hex_digits`. Prints each name that changed, and what to look at.
"""
import collections
import pathlib
import re
import subprocess

TOKEN = re.compile(r"[^\s(){}.;,@\"«»:]+")
DECLARED = re.compile(r"(?m)^ *(?:(?:abbrev|unfoldable|pub|record|data) )*([^\s(){}.;,@\"«»:]+)((?: \{[^{}\n]*\})*) : (.*)$")
LIBRARY = {"length", "take", "drop", "map", "append", "set", "get", "find", "sum", "min", "max", "cond"}
RENAMED_CRATE = ("hex", "hex_digits")


def is_for_function(path):
    """Whether a file answers the goals of a function, whose names the check makes."""
    return path.name in ("Answers.antt", "Invariants.antt", "Choices.antt", "Proof.antt")


def declared(paths):
    """The names that the repository's texts declare, each with whether it is a lemma (a declaration below proofs/)."""
    names = {}
    for path in paths:
        lemma = "proofs" in path.parts
        for found in DECLARED.finditer(path.read_text()):
            name, kind = found.group(1), found.group(3)
            if is_for_function(path) and kind.startswith(("goal.", "goals.")):
                continue
            names[name] = names.get(name, True) and lemma
    return names


def snake(name):
    return re.sub(r"(?<=[a-z0-9])([A-Z])", lambda m: "_" + m[1].lower(), name)


def spelled(name, names):
    """The new spelling of a name."""
    parts = name.split("-")
    if not parts[0][:1].islower():
        return name
    text = snake(parts[0])
    for before, after in zip(parts, parts[1:]):
        joins = all(it in LIBRARY or it in names and not names[it] for it in (before, after))
        text += ("-" if joins else "_") + snake(after)
    return text


def tokens(text):
    """The names of a text, but those behind a dot and those of the folders in a path."""
    return {m[0] for m in re.finditer(r"(?<!\.)" + TOKEN.pattern, text)}


def main():
    old, new = RENAMED_CRATE
    root = pathlib.Path(".")
    if (root / "crates" / old).is_dir():
        subprocess.run(["git", "mv", f"crates/{old}", f"crates/{new}"], check=True)
    antt = sorted(p for p in root.glob("crates/*/*/**/*.antt") if "out" not in p.parts)
    rust = sorted(p for p in root.glob("crates/*/src/*.rt"))
    edits = sorted(root.glob("crates/*/must-fail*/*.edit"))
    names = declared(antt)
    texts = {p: p.read_text() for p in antt + rust + edits}
    seen = {p: tokens(t) for p, t in texts.items()}
    table = {n: spelled(n, names) for n in names if not names[n] and spelled(n, names) != n}
    anew = set(table.values())
    for n in sorted(it for it in names if names[it]):
        name = spelled(n, names)
        table[n] = name + "_lem" if name in anew or name != n and name in names else name
        if table[n] == n:
            del table[n]
    twice = [b for b, times in collections.Counter(table.values()).items() if times > 1]
    for b in twice:
        print(f"look: more than one name becomes {b}")
    for a, b in sorted(table.items()):
        for p in antt:
            if a in seen[p] and b in seen[p] and b not in table:
                print(f"look: {p} has {b} beside {a}")
    for p, text in texts.items():
        if p.suffix == ".rt":
            for a in seen[p] & set(table):
                if re.search(rf"\b{re.escape(table[a])}\b(?!\()", text):
                    print(f"look: {p} has {table[a]} beside {a}")
        kept = {a for a in table if names[a]} if p.suffix != ".antt" else set()
        behind = r"(?<!\.)" if is_for_function(p) else ""
        changed = re.sub(behind + TOKEN.pattern, lambda m: m[0] if m[0] in kept else table.get(m[0], m[0]), text)
        changed = re.sub(rf"\bRattle\.{old}\.", f"Rattle.{new}.", changed)
        if p.suffix == ".rt":
            changed = re.sub(rf"\buse {old}::", f"use {new}::", changed)
            changed = re.sub(rf"(?<![\w:]){old}::(?=\w+\()", f"{new}::", changed)
        if changed != text:
            p.write_text(changed)
    lines = (root / "crates.txt").read_text()
    (root / "crates.txt").write_text(re.sub(rf"(?<![\w]){old}(?![\w])", new, lines))
    for a, b in sorted(table.items()):
        print(f"{a}\t{b}")


if __name__ == "__main__":
    main()
