#!/usr/bin/env python3
"""Counts, in crates/*/src, the places that docs/DESIGN-PASS.md speaks of: python3 tools/design_counts.py [--list] [TREE]

Each number is of places that may want another form; which of them do is judged on the page.
"""
import collections
import pathlib
import re
import sys

LIST = "--list" in sys.argv
ROOT = pathlib.Path(next((a for a in sys.argv[1:] if not a.startswith("--")), "."))
SOURCES = sorted(p for p in ROOT.glob("crates/*/src/**/*.rt"))


def text(path):
    return re.sub(r"//.*", "", path.read_text())


def show(point, name, places):
    print(f"{point}  {len(places):4}  {name}")
    if LIST:
        for place in places:
            print(f"           {place}")


def lines(pattern):
    found = []
    for path in SOURCES:
        for number, line in enumerate(text(path).split("\n"), 1):
            if re.search(pattern, line):
                found.append(f"{path.relative_to(ROOT)}:{number}: {line.strip()}")
    return found


def functions():
    """Each function: its file, name, signature with its clauses, body."""
    for path in SOURCES:
        source = text(path)
        for start in re.finditer(r"^[ ]*(?:pub(?:\(crate\))? )?(?:extern \"C\" )?fn (\w+)", source, re.M):
            body = re.compile(r"(?:^[ ]*|(?<=\S) )\{[ ]*$", re.M).search(source, start.end())
            if body is None:
                continue
            end, depth = body.end(), 1
            while depth and end < len(source):
                depth += {"{": 1, "}": -1}.get(source[end], 0)
                end += 1
            yield path, start.group(1), source[start.start():body.start()], source[body.end():end - 1]


def alike():
    """Groups of functions whose bodies differ in names and numbers alone."""
    groups = collections.defaultdict(list)
    for path, name, _, body in functions():
        shape = re.sub(r"\s+", "", re.sub(r"\b[A-Za-z_0-9]+\b", "X", body))
        if 12 < len(shape):
            groups[shape].append(f"{path.relative_to(ROOT)}: {name}")
    return [", ".join(group) for group in groups.values() if 1 < len(group)]


def repeated_facts():
    """Facts that three functions or more require, each counted once; `_` stands for a parameter's name."""
    seen = collections.defaultdict(set)
    for path, name, head, _ in functions():
        for clause in re.findall(r"requires[^{]*\{(.*?)\}", head, re.S):
            for fact in re.split(r"×", clause):
                fact = re.sub(r"\s+", " ", fact).strip()
                while fact.startswith("(") and fact.endswith(")"):
                    fact = fact[1:-1]
                seen[fact].add(f"{path}:{name}")
    return [f"{fact}  ({len(where)})" for fact, where in sorted(seen.items()) if 3 <= len(where)]


def travelling():
    """Runs of three parameters that stand in three functions or more, the longest runs alone."""
    seen = collections.defaultdict(set)
    for path, name, head, _ in functions():
        arguments = re.search(r"\((.*?)\)\s*(?:->|$|\n)", head, re.S)
        if arguments is None:
            continue
        parts = [re.sub(r"\s+", " ", re.sub(r"'a ", "", a)).strip() for a in arguments.group(1).split(",")]
        parts = [a for a in parts if ":" in a]
        for start in range(len(parts) - 2):
            seen[", ".join(parts[start:start + 3])].add(f"{path}:{name}")
    return [f"{run}  ({len(where)})" for run, where in sorted(seen.items()) if 3 <= len(where)]


show(1, "own enums", lines(r"^\s*(pub )?enum "))
show(1, "functions that answer with a byte", lines(r"-> u8\b"))
show(1, "a refusal's number given back", lines(r"^\s*return ([1-9]|1[0-3]);|\{ 0 \} else|else \{ (0|[1-9]|1[0-3]) \}$"))
show(1, "an answer beside a value", lines(r"^\s*(pub )?answer: "))
show(1, "a byte for a kind", lines(r"\bkind: (u8|usize)\b"))
show(2, "groups of functions alike but for names and numbers", alike())
show(3, "while", lines(r"^\s*while "))
show(3, "an index counted by hand", lines(r"^\s*\w+ (\+|-)= 1;"))
show(4, "equality by hand", lines(r"\bfn is\(self"))
show(4, "a conversion by hand", [
    f"{path.relative_to(ROOT)}: {name}" for path, name, _, body in functions()
    if re.fullmatch(r"\s*\w+(\.\w+)? as \w+\s*", body)])
show(4, "least or most by hand", lines(r"\b(ground::bound|fn least|fn most|fn to_31)\b"))
show(5, "facts that three functions or more require", repeated_facts())
show(5, "three parameters that travel together", travelling())
show(6, "a length beside a buffer", lines(r"^\s*pub n: usize,"))
show(7, "a choice of the step by a kind", lines(r"\bkind == 0\b"))
ANSWERS = [p for p in ROOT.glob("crates/*/proofs/**/Answers.antt")]
print(f"8  {len(ANSWERS):4}  files of answers, {sum(len(p.read_text().splitlines()) for p in ANSWERS)} lines")
