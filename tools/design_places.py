#!/usr/bin/env python3
"""Lists the places in crates/*/src where an older form may stand: design_places.py [POINT] [FOLDER]. docs/DESIGN-PASS.md says what each point is.

It finds by shape, so it lists more than must change; the page says of each that stays why."""
import difflib
import glob
import os
import re
import sys

POINTS = ["shapes", "twins", "loops", "by_hand", "facts", "lengths", "switches", "answers"]


def sources(folder):
    for path in sorted(glob.glob(f"{folder}/crates/*/src/**/*.rt", recursive=True)):
        with open(path, encoding="utf-8") as it:
            yield os.path.relpath(path, folder), it.read()


def line_of(text, at):
    return text.count("\n", 0, at) + 1


def functions(text):
    """Yields each function's name, line, parameters, clauses and body."""
    for found in re.finditer(r"^[ \t]*(?:pub(?:\(crate\))? )?(?:extern \"C\" )?fn (\w+)(<[^(]*>)?\(", text, re.M):
        at, depth = found.end(), 1
        while depth:
            depth += {"(": 1, ")": -1}.get(text[at], 0)
            at += 1
        parameters = text[found.end():at - 1]
        # the clauses have braces of their own: the body is the last group that begins a line
        body = re.compile(r"^[ \t]*\{[ \t]*$", re.M).search(text, at)
        inline = re.compile(r"[^\n]*\{[ \t]*$", re.M).match(text, at)
        start = inline.end() - 1 if inline and "requires" not in inline[0] and "ensures" not in inline[0] else body.start() if body else at
        end, depth = text.find("{", start) + 1, 1
        while depth and end < len(text):
            depth += {"{": 1, "}": -1}.get(text[end], 0)
            end += 1
        yield found[1], line_of(text, found.start()), parameters, text[at:start], text[text.find("{", start) + 1:end - 1]


def shapes(folder):
    """Enums of two variants of which one carries a value; a truth value beside another field; numbers for refusals; a number that says 'none'."""
    for path, text in sources(folder):
        for found in re.finditer(r"enum (\w+) \{(.*?)\n\}", text, re.S):
            variants = [it for it in re.findall(r"^    (\w+)(\(.*?\))?,", found[2], re.M)]
            if len(variants) == 2 and any(payload for _, payload in variants):
                yield path, line_of(text, found.start()), f"enum {found[1]}"
        for found in re.finditer(r"struct (\w+)[^{;]*\{(.*?)\n\}", text, re.S):
            flags = re.findall(r"(\w+): bool,", found[2])
            if flags and len(re.findall(r"^\s+(?:pub )?\w+: ", found[2], re.M)) > 1:
                yield path, line_of(text, found.start()), f"struct {found[1]}: {', '.join(flags)}"
        for number, line in enumerate(text.split("\n"), 1):
            if re.search(r"\((u8, usize)\),|\bnumber: u8\b|^pub const (LENGTH_WRONG|VERSION_WRONG|HEAD_OUT_OF_RANGE|THREAD_BAD|GOAL_BAD|NOT_WHOLE): |Refused\(\d", line):
                yield path, number, f"number of a refusal: {line.strip()[:80]}"
            if re.search(r"^\s*// .*(or how many (there are|stores there are)|if there is none|where none does|where it is empty|once a state was left out|has no index|where none is(, it is 0| lent))", line):
                yield path, number, f"a number that says none: {line.strip()[:90]}"


def twins(folder):
    """Functions whose code is alike but for names and numbers."""
    known = []
    for path, text in sources(folder):
        for name, line, parameters, _, body in functions(text):
            words = re.findall(r"\w+|[^\w\s]", body)
            shape = [it if re.match(r"\W|(if|else|while|for|in|match|return|let|mut|true|false)$", it) else "w" for it in words]
            if len(shape) >= 20:
                known.append((path, line, name, shape))
    for at, (path, line, name, shape) in enumerate(known):
        near = []
        for other in known[:at] + known[at + 1:]:
            match = difflib.SequenceMatcher(None, shape, other[3], autojunk=False)
            if match.real_quick_ratio() > 0.9 and match.quick_ratio() > 0.9 and match.ratio() > 0.9:
                near.append(f"{other[0].split('/')[1]}::{other[2]}")
        if near:
            yield path, line, f"{name} like {', '.join(near)}"


def loops(folder):
    """Loops by `while` and `loop`."""
    for path, text in sources(folder):
        for number, line in enumerate(text.split("\n"), 1):
            if re.match(r"\s*('\w+: )?(while|loop)\b", line):
                yield path, number, line.strip()


def by_hand(folder):
    """Functions whose whole body is a cast, a comparison of variants, or a table from a variant or a number to a value; widening casts."""
    for path, text in sources(folder):
        for name, line, _, _, body in functions(text):
            flat = " ".join(body.split())
            arms = re.findall(r"=> ([^,{}]+),", flat)
            if re.fullmatch(r"\w+ as \w+", flat):
                yield path, line, f"{name}: a cast"
            elif flat.startswith("match ") and arms and all(re.fullmatch(r"(true|false|\d+|\w+::\w+)", it.strip()) for it in arms):
                yield path, line, f"{name}: a table"
            elif re.fullmatch(r"if \w+ < \w+ \{ \w+ \} else \{ \w+ \}", flat):
                yield path, line, f"{name}: the smaller"
            elif re.search(r"\* (\(BYTE_VALUES as u16\)|256)|% \(BYTE_VALUES as u16\)|/ \(BYTE_VALUES as u16\)|b\"0123456789ABCDEF\"", flat):
                yield path, line, f"{name}: bytes or digits by hand"
        for number, text_line in enumerate(text.split("\n"), 1):
            if re.search(r"if let \w+::\w+ = .*(true|false)", text_line):
                yield path, number, text_line.strip()


def facts(folder):
    """A fact in the `requires` of three functions or more; parameters that always stand together, in three functions or more."""
    asked, taking = {}, {}
    for path, text in sources(folder):
        for name, line, parameters, clauses, _ in functions(text):
            own = re.findall(r"requires(?: \w+)? \{(.*?)\}\n", clauses + "\n", re.S)
            for word in {it for clause in own for it in re.findall(r"\b([A-Z]\w+)\b(?=[ \n])", clause)}:
                asked.setdefault(word, []).append((path, line, name))
            listed = [it.strip() for it in re.sub(r"<[^<>]*>", "", parameters).replace("mut ", "mut_").split(",") if ":" in it]
            listed = [it.replace("mut_", "mut ") for it in listed]
            for one in listed:
                taking.setdefault(one, []).append((path, line, name, set(listed) - {one}))
    for word, where in sorted(asked.items()):
        if len(where) >= 3:
            yield where[0][0], where[0][1], f"requires {word}: {len(where)} functions"
    seen = set()
    for one, where in sorted(taking.items()):
        others = set.intersection(*[it[3] for it in where]) if len(where) >= 3 else set()
        group = frozenset(others | {one})
        if others and group not in seen:
            seen.add(group)
            yield where[0][0], where[0][1], f"{one} always with {', '.join(sorted(others))}: {len(where)} functions"


def lengths(folder):
    """A count beside an array or in place of a slice; several slices that are walked by one number."""
    for path, text in sources(folder):
        for found in re.finditer(r"struct (\w+)[^{;]*\{(.*?)\n\}", text, re.S):
            if re.search(r"\b(count|end|len|size): (u8|usize)", found[2]):
                yield path, line_of(text, found.start()), f"struct {found[1]}"


def switches(folder):
    """Functions that differ in which step they run, by the loop that calls it; matches that choose among calls by a kind."""
    for path, text in sources(folder):
        for number, line in enumerate(text.split("\n"), 1):
            if re.search(r"while turns > 0 && run_next\(\)", line):
                yield path, number, line.strip()


def answers(folder):
    """How many lines of answers and invariants a crate has."""
    for crate in sorted(glob.glob(f"{folder}/crates/*")):
        files = glob.glob(f"{crate}/proofs/*/**/*.antt", recursive=True)
        count = sum(len(open(it, encoding="utf-8").read().split("\n")) - 1 for it in files)
        if count:
            yield os.path.relpath(crate, folder), count, "lines of answers"


def main(words):
    names = [it for it in words if it in POINTS] or POINTS
    folder = next((it for it in words if it not in POINTS), ".")
    for name in names:
        found = list(globals()[name](folder))
        print(f"{name}: {len(found)}")
        for path, line, said in found:
            print(f"    {path}:{line}: {said}")


if __name__ == "__main__":
    main(sys.argv[1:])
