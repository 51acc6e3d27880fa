#!/usr/bin/env python3
"""Brings the repository's own definitions and lemmas to snake case: `fourAt` becomes `four_at`.

usage: python3 tools/snake_names.py           at the top of the repository, once, after the toolchain's port.py
       python3 tools/snake_names.py --look    says what it would do, and which names would fall together

Types, modules and facts keep their capital. Functions of src/, exported names and strings have no such names.
"""
import collections
import os
import re
import sys

HEAD = re.compile(r"^\s*(?:(?:abbrev|unfoldable|opaque)\s+)?(?:pub\s+)?([^\s(){}\[\]:,.;=]+)\s*(?:[({][^:]*)?:(?:\s|$)")
CONS = re.compile(r"^\s+((?:[a-z][\w'-]*\s+)+):(?:\s|$)")
TOKEN = re.compile(r"[A-Za-z_][\w'₀-₉-]*", re.UNICODE)
HUMP = re.compile(r"(?<=[a-z0-9])(?=[A-Z])")
OLD = {"getD": "get_or", "get_d_past": "get_or-past", "eqZ": "eq_z"}
# Names of the standard's own, which comments keep.
STANDARD = {"refOffset", "projMv", "refToCur"}
# Lemmas that would fall together with a definition: where they stand, and their new name.
APART = {
    "near_of": ("near_of_lem", ("crates/answers/proofs/Kept.antt", "crates/answers/proofs/Places.antt")),
    "chosen_by": ("chosen_by_lem", ("crates/motion/proofs/",)),
    "place_at": ("place_at_lem", ("crates/motion/proofs/",)),
    "in_frame": ("in_frame_lem", ("crates/rows/proofs/", "crates/layout/proofs/", "crates/motion/proofs/")),
}
# Parameters.
LOCALS = "byNew byRef colEnd colStart currentHint dstSign frameThreads hintBits hintsByRef isFirst isOwn rowEnd rowStart tileRow tileRows tileThreads".split()


def files(*ends):
    for root in ("crates", "docs", "README.md", "CONTRIBUTING.md", "rust"):
        if os.path.isfile(root):
            if root.endswith(ends):
                yield root
            continue
        for folder, dirs, names in os.walk(root):
            dirs[:] = sorted(d for d in dirs if d not in ("out", "target", "src.sha256") and not (folder == "docs" and d == "src"))
            for name in sorted(names):
                if name.endswith(ends):
                    yield os.path.join(folder, name)


def read(path):
    with open(path, encoding="utf-8") as f:
        return f.read()


def snake(name):
    for old, new in OLD.items():
        name = re.sub(rf"(?<![A-Za-z0-9_]){old}(?![A-Za-z0-9_])", new, name)
    return HUMP.sub("_", name).lower() if not re.search(r"(^|-)[A-Z]", name) else "-".join(
        part if part[:1].isupper() else HUMP.sub("_", part).lower() for part in name.split("-"))


def text_around(text, m):
    """Whether a word of a page stands in backticks."""
    return text[m.start() - 1 : m.start()] == "`" and text[m.end() : m.end() + 1] == "`"


def respelled(line, names):
    kept = STANDARD if line.lstrip().startswith(("--", "//")) else ()
    return TOKEN.sub(lambda m: m.group(0) if m.group(0) in kept else names.get(m.group(0), m.group(0)), line)


def declared():
    """Each name in lower camel case that an .antt file declares, with the places."""
    found = collections.defaultdict(set)
    for path in files(".antt"):
        for line in read(path).splitlines():
            if line.lstrip().startswith("--"):
                continue
            for m in [HEAD.match(line)]:
                if m and m.group(1)[:1].islower() and HUMP.search(m.group(1)):
                    found[m.group(1)].add(path)
            m = CONS.match(line)
            if m:
                for name in m.group(1).split():
                    if HUMP.search(name):
                        found[name].add(path)
    return found


def main():
    names = {n: snake(n) for n in [*declared(), *LOCALS]}
    names = {n: s for n, s in names.items() if n != s} | {"get_d_past": "get_or-past"}
    tokens = collections.defaultdict(set)
    for path in files(".antt", ".rt"):
        for t in set(TOKEN.findall(read(path))):
            tokens[t].add(path)
    new = collections.defaultdict(set)
    for n, s in names.items():
        new[s].add(n)
    for s, olds in sorted(new.items()):
        if len(olds) > 1:
            print("together:", s, sorted(olds))
        if s in tokens:
            both = set.union(*(tokens[o] for o in olds)) & tokens[s]
            print("stands already:", s, sorted(olds), f"{len(tokens[s])} files, {len(both)} with both", *sorted(both)[:4])
    if "--look" in sys.argv:
        print(len(names), "names")
        left = sorted(t for t in tokens if t[0].islower() and HUMP.search(t) and t not in names)
        print("left:", *[f"{t}({len(tokens[t])})" for t in left])
        return
    # What port.py respelled in .antt and .rt files alone.
    with open(os.path.join(os.path.dirname(os.path.realpath(__file__)), "names-by-port.txt"), encoding="utf-8") as f:
        ported = dict(line.split() for line in f)
    for path in files(".antt", ".rt", ".edit", ".md"):
        old = read(path)
        text = old
        if path.endswith((".edit", ".md")):
            every = path.endswith(".edit")
            text = TOKEN.sub(lambda m: ported.get(m.group(0), m.group(0)) if every or HUMP.search(m.group(0)) or "-" in m.group(0) and text_around(old, m) else m.group(0), text)
        for name, (other, places) in APART.items():
            if path.startswith(places):
                text = re.sub(rf"(?<![.\w-]){name}(?![\w'.-])", other, text)
        text = "".join(respelled(line, names) for line in text.splitlines(keepends=True))
        if text != old:
            with open(path, "w", encoding="utf-8") as f:
                f.write(text)


main()
