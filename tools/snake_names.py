#!/usr/bin/env python3
"""Spells the repository's own definitions, lemmas, fields and bound names in snake case, as today's Rattle has them.

usage: python3 tools/snake_names.py        at the top of the repository, once, after port.py

It also writes `.old` and `.new` where port.py left `.entry.now` and `.exit.now`. A name's dashes become underscores where the name is the repository's own: in specs/ and in the lemma files of proofs/ every name with a
dash that no library lends that file; in a function's own proof files and in clauses and `ghost use` lines of src/ the same names again.
Names that Rattle makes (goals, steps) keep their dashes. Comments are left, but for names in backticks.
"""

import glob
import re

# a word of antt or of a clause: what stands between blanks, brackets, commas, dots and semicolons
WORD = re.compile(r"[^\s(){}\[\].,;|\\λ`\"]+")
LENT = re.compile(r"use (?:Rattle\.(?:std|core|std_\w+|io|libc|os)|lib|mathlib|borrow|Prim|native|denote|mir|types)(?:\.[\w]+)*\.\{([^}]*)\}")
ALIAS = re.compile(r"use [\w.]+ as ([\w-]+)")


def read(path):
    with open(path, encoding="utf-8") as f:
        return f.read()


def is_dashed(word):
    return re.match(r"[A-Za-z]", word) is not None and "-" in word.strip("-")


def lent(text):
    """The names that libraries lend a file."""
    names = set()
    for found in LENT.finditer(text):
        names |= {n.strip().split(" as ")[-1] for n in found.group(1).split(",")}
    return names


def spelled(word):
    """In snake case; `getD` is std's `get_or` now, so a law named for it is too."""
    return word.replace("-", "_").replace("getD", "get_or").replace("get_d", "get_or")


def code_and_comment(line, mark):
    """A line's code and its comment. (No string of these files holds the mark.)"""
    at = line.find(mark)
    return (line, "") if at < 0 else (line[:at], line[at:])


def turned(text, mark, is_own):
    """The text with each own name spelled anew, outside comments and inside their backticks."""
    lines = []
    for line in text.split("\n"):
        code, comment = code_and_comment(line, mark)
        code = WORD.sub(lambda w: spelled(w.group(0)) if is_own(w.group(0)) else w.group(0), code)
        comment = re.sub(r"`[^`]*`", lambda quoted: WORD.sub(lambda w: spelled(w.group(0)) if is_own(w.group(0)) else w.group(0), quoted.group(0)), comment)
        lines.append(code + comment)
    return "\n".join(lines)


def without_entry_and_exit(line):
    """port.py leaves `table.entry.now` where the record that it stands in has a field of the same name: .old, .new, or .now of a `&`."""
    was = ".now" if "links.now" in line else ".old"
    return line.replace(".entry.now", was).replace(".exit.now", ".new")


def main():
    laws = sorted(glob.glob("crates/*/specs/**/*.antt", recursive=True) + glob.glob("crates/*/proofs/*.antt"))
    answers = sorted(set(glob.glob("crates/*/proofs/**/*.antt", recursive=True)) - set(laws))
    sources = sorted(glob.glob("crates/*/src/**/*.rt", recursive=True))
    own = set()
    for path in laws:
        text = read(path)
        borrowed = lent(text)
        for line in text.split("\n"):
            code, _ = code_and_comment(line, "--")
            own |= {w for w in WORD.findall(code) if (is_dashed(w) or "getD" in w or "get_d" in w) and w not in borrowed}
    for path in sources + answers:
        own |= {a for a in ALIAS.findall(read(path)) if is_dashed(a)}
    changed = 0
    for path in laws + answers + sources:
        text = read(path)
        borrowed = lent(text)
        new = turned(text, "//" if path.endswith(".rt") else "--", lambda w: w in own and w not in borrowed)
        if new != text:
            changed += 1
            with open(path, "w", encoding="utf-8") as f:
                f.write(new)
    for path in sources:
        text = read(path)
        new = "\n".join(without_entry_and_exit(line) for line in text.split("\n"))
        if new != text:
            with open(path, "w", encoding="utf-8") as f:
                f.write(new)
    print(f"{len(own)} names, {changed} files")


if __name__ == "__main__":
    main()
