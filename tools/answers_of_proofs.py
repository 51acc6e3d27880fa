#!/usr/bin/env python3
"""Turns each proofs/F/Proof.antt that answers needs into Invariants.antt and Answers.antt, goals under today's names.

usage: python3 tools/answers_of_proofs.py CRATE [FUNCTION ..]     in crates/CRATE, whose libraries are built

It runs `rt check --generated --old-names`, which says the old and the new name of each goal and step. A need that was answered by
`search rules` alone gets no answer, since the check finds it. A proof that walks the code by hand stays as it is.
"""
import json
import os
import re
import subprocess
import sys
import tempfile

ID = r"[^\s(){}\[\],;:=.→×≡λ∷+*<≤/|&]+"


def flat(name):
    return name.replace("_", "-")


def decls(text):
    """The chunks of a file: comments before, head, signature, unfolding, equations."""
    out, comment = [], []
    lines = text.split("\n")
    i = 0
    while i < len(lines):
        l = lines[i]
        if not l.strip():
            i += 1
            continue
        if l.startswith("--"):
            comment.append(l)
            i += 1
            continue
        j = i + 1
        while j < len(lines) and lines[j].strip():
            j += 1
        out.append((comment, lines[i:j]))
        comment = []
        i = j
    return out


class Places:
    def __init__(self, of):
        self.parent, self.step, self.new, self.called = {}, {}, {}, {}
        for (name, parent, step, callee, extra), new in zip(of["places"], of["places_by_name"]):
            if callee:
                self.called[flat(name)] = callee
            self.parent[flat(name)] = flat(parent) if parent else None
            self.step[flat(name)] = (flat(step[0]), step[1])
            self.new[flat(name)] = new

    def up(self, place, n):
        for _ in range(n):
            if place is None:
                return None
            place = self.parent.get(place)
        return place

    def find(self, place, field):
        """The new name of the old step `field`, at `place` or else from there upwards."""

        def plain(name):
            return re.sub(r"-(?=\d+$)", "", flat(name)).lower()

        # what tools/snake_names.py gave a lemma of a function's name
        field = re.sub(r"_lem$", "", field)

        steps = {plain(x) for x, _ in self.step.values()}
        old = plain(field)
        number = re.search(r"(?<!-)\d*$", field).group(0)
        stem = plain(field[: len(field) - len(number)])
        # A call whose first step today has the number 2, since the record has a field of its name.
        if stem not in steps and stem + "1" not in steps and stem + "2" in steps:
            old = stem + str(int(number or 1) + 1)
        at = place
        while at is not None:
            if plain(self.step.get(at, ("", ""))[0]) == old:
                return self.step[at][1]
            at = self.parent.get(at)
        return None

    def callees(self):
        """What the steps call, by the steps' names of today: an arm on a call's result stands for the call."""
        out = {}
        for place, (old, new) in self.step.items():
            callee = self.called.get(place)
            if old == "match":
                callee = callee or self.called.get(self.parent.get(place))
            if callee:
                out[new] = callee
        return out

    def arm(self, place, step):
        """The arm that told the fact which the step `step`, as it is called today, stood for."""
        while place is not None and self.step[place][1] != step:
            place = self.parent.get(place)
        above = self.parent.get(place) if place else None
        return self.step[above][1] if above and self.step[above][0] == "match" else None


def rewrite(body, env, places, left, goal=None, helpers=None):
    """Rewrites chains `x.before.before.step` where x is known to stand at a place."""
    env = dict(env)

    def whole(var, place):
        """The record of a place, where a term takes it whole."""
        if goal is None or place is None:
            return None
        return f"(goal.at.{goal} {var}).{places.new[place]}"

    chain = re.compile(r"(?<![\w.′₀'-])([A-Za-z][\w′₀-₉']*)((?:\.before)*)(?:\.([A-Za-z][\w'-]*))?")
    out, at = [], 0
    for m in chain.finditer(body):
        var = m.group(1)
        if var not in env:
            continue
        ups = m.group(2).count(".before")
        field = m.group(3)
        place = places.up(env[var], ups)
        alias = re.search(r"\blet\s+([A-Za-z][\w′₀-₉']*)\s*=\s*$", body[: m.start()])
        rest = body[m.end():]
        if field is None:
            base = {k for k in env} and next(iter(env))
            if alias and re.match(r"\s*in\b", rest):
                env[alias.group(1)] = place
                bare = re.search(rf"(?<![\w.′'-]){re.escape(alias.group(1))}(?![\w′₀-₉'.-])(?!\s*=)", rest)
                new = (whole(base, place) if bare and place != env[base] else None) or var
            elif place == env[base] and var == base:
                continue
            else:
                taker = re.search(r"(?<![\w.-])([\w-]+)\s+$", body[: m.start()])
                place = (helpers or {}).get(taker.group(1) if taker else "", place)
                new = (whole(base, place) if place != env[base] else base) if goal else body[m.start(): m.end()]
                new = new or var
        else:
            # Today there are fewer steps between: then the name alone says which one is meant.
            step = places.find(place, field) or places.find(env[var], field)
            if step is None and field not in ("args", "requires", "ranges", "well_formed", "lifetimes", "type_inv"):
                left.append(f"{var}{m.group(2)}.{field} at {place}")
            new = f"{var}.{step or field}"
            side = re.match(r"\.(taken|left)(?![\w-])", rest)
            if side and step and step.startswith("if-"):
                out.append(body[at: m.start()] + new + {"taken": ".true", "left": ".false"}[side.group(1)])
                at = m.end() + side.end()
                continue
            arm = places.arm(env[var], step)
            if arm and rest.startswith(".given.1"):
                new = f"{var}.{arm}.is"
                out.append(body[at: m.start()] + new)
                at = m.end() + len(".given.1")
                continue
        out.append(body[at: m.start()] + new)
        at = m.end()
    out.append(body[at:])
    return "".join(out)


def invariant(name, lines, of):
    """An invariant or a measure over the live variables, which are now the fields of l."""
    old = name.split("-", 1)[1]
    for (loop, new), variables in of["loops"]:
        if flat(loop) == flat(old):
            break
    else:
        return None
    changed = of["changed"][[x[0] for x in of["loops"]].index([loop, new])]
    kind = name.split("-", 1)[0]
    text = "\n".join(lines[1:])
    extra = []
    k = 1
    while not lines[k].startswith(name):
        extra.append(lines[k])
        k += 1
    text = "\n".join(lines[k:])
    head, body = text.split("=", 1)
    while head.rstrip().endswith(("≡",)):
        break
    params = head.split()[1:]
    wanted = [("initial" if c else "now", v) for v, c in zip(variables, changed)] + [("now", v) for v, c in zip(variables, changed) if c]
    if len(params) != len(wanted):
        return ("params", params, wanted)
    for p, (when, v) in zip(params, wanted):
        if p == "_":
            continue
        to = f"l.initial.{v}" if when == "initial" else f"l.{v}"
        body = re.sub(rf"((?:record \{{|;)\s*)?(?<![\w.′₀-₉'\0-]){re.escape(p)}(?![\w′₀-₉'-])(\s*=(?!=))?",
                      lambda m: m.group(0) if m.group(1) and m.group(2) else (m.group(1) or "") + "\0" + to + (m.group(2) or ""), body)
    body = body.replace("\0", "")
    return [f"abbrev pub {kind}-{new} : goal.{kind}-{new}", *extra, f"{kind}-{new} l ={body}"]


def contracts():
    """The names of each function's clauses, by its path, where it has two or more of a kind."""
    found = {}
    for crate in sorted(os.listdir("crates")):
        src = os.path.join("crates", crate, "src")
        for folder, _, files in os.walk(src):
            for name in files:
                if not name.endswith(".rt"):
                    continue
                path = [crate] + [x for x in os.path.relpath(os.path.join(folder, name), src)[:-3].split("/") if x not in ("lib", "main", "mod")]
                inside, fn, heading = None, None, False
                for line in open(os.path.join(folder, name), encoding="utf-8"):
                    if m := re.match(r"impl(?:<.*?>)?\s+(\w+)", line):
                        inside = m.group(1)
                    elif line.startswith("}"):
                        inside = None
                    if m := re.match(r"\s*(?:pub(?:\(\w+\))? )?(?:unsafe )?(?:extern \S+ )?fn (\w+)", line):
                        fn = found.setdefault("::".join(path + ([inside] if inside else []) + [m.group(1)]), {"requires": [], "ensures": [], "takes": []})
                        heading = True
                    if fn and heading:
                        fn["takes"] += re.findall(r"(?:^\s*|[(,]\s*)(?:mut )?(?:&mut |&)?(self\b|\w+(?=: ))", line)
                        heading = ")" not in line
                    if (m := re.match(r"\s+(requires|ensures)( \w+)? \{", line)) and fn:
                        fn[m.group(1)].append((m.group(2) or "").strip())
    return found


def nested(base, names):
    parts = [f"{base}.{n}" for n in names]
    text = parts.pop()
    while parts:
        text = f"({parts.pop()}, {text})"
    return text


def pick(base, path, names):
    """The clause that `base` followed by the positions `path` was, pairs nested to the right."""
    at = 0
    while path and at < len(names) - 1:
        at, done = (at, True) if path.pop(0) == "0" else (at + 1, False)
        if done or at == len(names) - 1:
            return "".join([f"{base}.{names[at]}"] + ["." + x for x in path])
    return nested(base, names[at:])


def named_clauses(text, own, callees, known, params):
    """Clauses by their names, where an old proof has positions."""
    records = []  # bases that stand for a contract's clauses: pattern and names
    steps = dict(callees)

    def names_of(callee, kind):
        names = known.get(callee, {}).get(kind, [])
        return names if len(names) > 1 and all(names) else None

    for m in re.finditer(r"\blet (\w+) = \w+\.([\w-]+) in\b", text):
        if m.group(2) in steps:
            records.append((rf"{re.escape(m.group(1))}\.ensures", names_of(steps[m.group(2)], "ensures")))
            index = re.escape(m.group(1))
            text = re.sub(rf"(?<![\w.-]){index}\.auto((?:\.[01])+)", lambda k: f"{m.group(1)}.auto." + params[steps[m.group(2)]][k.group(1).count("1")], text)
    records.append((r"\w+\.requires", names_of(own, "requires")))
    for step, callee in steps.items():
        records.append((rf"\w+\.{re.escape(step)}\.ensures", names_of(callee, "ensures")))
        text = re.sub(rf"(?<![\w.-])(\w+\.{re.escape(step)})\.auto((?:\.[01])+)", lambda k: f"{k.group(1)}.auto." + params[callee][k.group(2).count("1")], text)
    for pattern, names in list(records):
        if not names:
            continue
        for m in re.finditer(rf"\blet (\w+) = {pattern} in\b", text):
            records.append((re.escape(m.group(1)), names))
    for pattern, names in records:
        if not names:
            continue

        def put(m):
            around = text_now[max(0, m.start() - 60): m.start()], text_now[m.end(): m.end() + 4]
            path = [x for x in m.group(2).split(".") if x]
            if re.search(r"\blet \w+ = $", around[0]) and around[1].startswith(" in") and not path:
                return m.group(0)
            if not path and (re.search(r"\blet $", around[0]) or re.match(r"\.[a-z]", around[1])):
                return m.group(0)
            return pick(m.group(1), path, names)

        text_now = text
        text = re.sub(rf"(?<![\w.'-])({pattern})((?:\.\d)*)(?![\w'-])", put, text)
    return text


def by_parameter(text, known, own):
    """An argument that had the name of its local has its parameter's."""
    lent = "|".join([r"\w+\.args", *(re.escape(x) for x in re.findall(r"\blet (\w+) = \w+\.args in\b", text))])
    return re.sub(rf"(?<![\w.'-])({lent})\.t(\d+)(?![\w-])", lambda k: k.group(1) + "." + known[own]["takes"][int(k.group(2)) - 1], text)


def halves(tail):
    """The parts of a tuple."""
    if not (tail.startswith("(") and tail.endswith(")")):
        return None
    depth, parts, start = 0, [], 1
    for i, ch in enumerate(tail):
        if ch in "([{":
            depth += 1
        elif ch in ")]}":
            depth -= 1
            if depth == 0 and i != len(tail) - 1:
                return None
        elif ch == "," and depth == 1:
            parts.append(tail[start:i].strip())
            start = i + 1
    last = tail[start:-1].strip()
    if last:
        parts.append(last)
    return parts if len(parts) > 1 else None


def by_name(rest, names):
    """An answer's tuple as a record of the clauses."""
    i = 0
    while True:
        while i < len(rest) and rest[i].isspace():
            i += 1
        if not re.match(r"let\b", rest[i:]):
            break
        depth = 0
        for m in re.finditer(r"[(\[{]|[)\]}]|\blet\b|(?<![\w-])in\b(?![\w-])", rest[i:]):
            w = m.group(0)
            depth += 1 if w in "([{" or w == "let" else -1
            if w == "in" and depth == 0:
                i += m.end()
                break
        else:
            return rest
    head, tail = rest[:i], rest[i:].strip()
    if re.match(r"(search|omega|record|grind)\b", tail):
        return rest
    if tail.startswith("rw ("):
        depth = 0
        for at, ch in enumerate(tail):
            depth += (ch in "([{") - (ch in ")]}")
            if ch == ")" and depth == 0:
                break
        if tail[at + 1:].strip().startswith("("):
            return head + tail[: at + 2] + "(" + by_name(tail[at + 1:].strip(), names).strip() + ")\n"
    parts, left, got = tail, list(names), []
    while len(left) > 1:
        split = halves(parts)
        if not split:
            break
        got.append((left.pop(0), split[0]))
        parts = split[1] if len(split) == 2 else "(" + ", ".join(split[1:]) + ")"
    if len(left) == 1:
        got.append((left[0], parts))
        return head + "record { " + " ".join(f"{n} = {t};" for n, t in got) + " }\n"
    if got:
        base = parts if re.fullmatch(r"[\w.'-]+", parts) else "it"
        got += [(n, base + ".1" * k + (".0" if k < len(left) - 1 else "")) for k, n in enumerate(left)]
        return head + (f"let it = {parts} in " if base == "it" else "") + "record { " + " ".join(f"{n} = {t};" for n, t in got) + " }\n"
    return head + f"let it = {tail} in record {{ " + " ".join(f"{n} = {'it' + '.1' * k + ('.0' if k < len(names) - 1 else '')};" for k, n in enumerate(names)) + " }\n"


def today(text):
    """What a test on a call's result and an arm say today."""
    text = re.sub(r"(\.in[-_][\w-]+)\.keys\d*\b", r"\1.is", text)
    text = re.sub(r"\.(in_default[\w-]*)\.rest\b", r".\1.\1-own.rest", text)
    atom = r"(?:\([^()]*\)|[^\s(),]+)"
    return re.sub(rf"\bnot-(?:true|false) {atom} ([^\s(),]+\.(?:true|false))\b", r"\1", text)


def used(imports, text):
    out = []
    for line in imports:
        m = re.match(r"use (\S+)\.\{(.*)\}$", line)
        if not m:
            out.append(line)
            continue
        names = []
        for n in m.group(2).split(", "):
            short = n.split(" as ")[-1]
            parts = [x for x in short.split("◌") if x]
            if parts and all(re.search(rf"(?<![\w′'-]){re.escape(x)}(?![\w′'-])" if re.match(r"\w", x) else re.escape(x), text) for x in parts):
                names.append(n)
        if names:
            out.append(f"use {m.group(1)}.{{{', '.join(names)}}}")
    return out


def turn(path, key, of, crate, known):
    text = open(path, encoding="utf-8").read().replace(".type-inv", ".type_inv")
    if "tie.close" not in text:
        return "walks by hand"
    places = Places(of)
    own = crate + "::" + key.replace(".", "::").replace("+", "")
    callees = places.callees()
    needs = {}
    for (old, new), (place, _) in zip(of["needs"], of["asked_at"]):
        needs[flat(old)] = (new, flat(place))
    chunks = decls(text)
    imports, first = [], []
    invariants, answers, left = [], [], []
    # What a helper takes: the place that its first argument stands at.
    helpers = {}
    for _, lines in chunks:
        if (m := re.match(rf"({ID}) : \(\w+ : tie\.([^\s)]+)", lines[0])) and flat(m.group(2)) in places.new:
            helpers[m.group(1)] = flat(m.group(2))
    said = "\n".join("\n".join(lines) for _, lines in chunks if re.match(rf"(abbrev )?(pub )?{ID} :\s*tie\.(invariant|decreases)", lines[0]))
    for comment, lines in chunks:
        if lines[0].startswith("use "):
            first += comment
            imports += lines
            continue
        if "tie.spec" in "\n".join(lines):
            continue
        m = re.match(rf"(abbrev )?(pub )?({ID}) :(.*)", lines[0])
        name, typed = (m.group(3), m.group(4)) if m else ("", "")
        t = re.match(r"\s*tie\.(Need-)?(\S+)(.*)", typed)
        if t and not t.group(1) and t.group(2).startswith(("invariant", "decreases")):
            got = invariant(t.group(2), [l.replace(name, t.group(2), 1) if l.startswith(name) else l for l in lines], of)
            if not isinstance(got, list):
                left.append(f"invariant {name}: {got}")
                got = ["-- LEFT " + l for l in lines]
            invariants.append((comment, got))
            continue
        if t and t.group(1):
            old = flat(t.group(2))
            plain = re.sub(r"^(overflow|nonzero)-", "", old)
            hit = needs.get(old) or needs.get(plain)
            body = "\n".join(lines)
            if re.fullmatch(r"(unfolding .*\n)?\S+ c( κs)? =\s*search rules", "\n".join(lines[1:])) and "unfolding" not in body:
                continue
            if not hit:
                left.append(f"need {old} has no goal now")
                continue
            new, place = hit
            k = 1
            extra = []
            while not lines[k].startswith(name + " "):
                extra.append(lines[k])
                k += 1
            eq = "\n".join(lines[k:])
            head, rest = eq.split("=", 1)
            params = [p for p in head.split()[1:] if p != "κs"]
            var = params[0] if params else "c"
            rest = rewrite(rest, {var: place}, places, left, new, helpers)
            rest = by_parameter(rest, known, own)
            rest = named_clauses(rest, own, callees, known, of["params"])
            asked = own if old.startswith("returns") else None
            if "-requires" in old:
                stem = re.sub(r"-requires.*", "", old)
                asked = next((x for x in of["params"] if flat(x.split("::")[-1]) == stem), None)
            names = known.get(asked, {}).get("ensures" if asked == own else "requires", [])
            if len(names) > 1 and all(names):
                rest = by_name(rest, names)
            answers.append((comment, [f"pub {new} : goal.{new}", *extra, f"{new} {' '.join(params)} ={rest}"]))
            continue
        # what an invariant cites stands beside it
        d = re.match(r"(record|data|abbrev|unfoldable) (pub )?([\w-]+)", lines[0])
        if d and re.search(rf"(?<![\w.-]){re.escape(d.group(3))}(?![\w-])", said):
            if d.group(1) == "record":
                lines = [lines[0], *(re.sub(r"^  (?=\w)", "  pub ", x) for x in lines[1:])]
            invariants.append((comment, [lines[0] if d.group(2) or d.group(1) in ("record", "data") and lines[0].startswith("pub") else "pub " + lines[0] if d.group(1) in ("record", "data") else lines[0].replace(" ", " pub ", 1), *lines[1:]]))
            continue
        # a helper: parameters of the form (c : tie.Place)
        body = "\n".join(lines)
        env = {}
        for v, p in re.findall(r"\((\w+) : tie\.([^\s)]+)", body):
            if flat(p) in places.new:
                env[v] = flat(p)
        body = re.sub(r"tie\.([^\s)]+)(?: (?:invariant|decreases)-[\w-]+)*", lambda m: places.new.get(flat(m.group(1)), "goal." + m.group(1)), body)
        if env:
            body = named_clauses(rewrite(body, env, places, left), own, callees, known, of["params"])
            body = by_parameter(body, known, own)
        answers.append((comment, body.split("\n")))
    folder = os.path.dirname(path)
    module = f"Rattle.{crate}.proofs." + key
    imports = [l for l in imports if not re.search(r"\.(Statement\.|Tie as tie)", l)]
    head = [l for l in first if "Assumes nothing" not in l]
    for part, source, chunk in (("Invariants", "Given", invariants), ("Answers", "Goals", answers)):
        target = os.path.join(folder, part + ".antt")
        if not chunk:
            continue
        body = today("\n\n".join("\n".join(c + ls) for c, ls in chunk))
        named = sorted({p for p in places.new.values() if re.search(rf"(?<![\w.-]){re.escape(p)}(?![\w-])", body)}) if part == "Answers" else []
        lines = head + used(imports, body) + [f"use {module}.{source} as goal"]
        if named:
            lines.append(f"use {module}.{source}.{{{', '.join(named)}}}")
        with open(target, "w", encoding="utf-8") as f:
            f.write("\n".join(lines) + "\n\n" + body + "\n")
    os.remove(path)
    return "; ".join(left)


def main():
    crate, only = sys.argv[1], sys.argv[2:]
    root = os.path.join("crates", crate)
    out = tempfile.mkdtemp()
    saved = []
    if not os.environ.get("NAMES"):
        said = subprocess.run(["rt", "check", "--generated", out, "--old-names"], cwd=root, capture_output=True, text=True)
        listed = os.path.join(out, "names.json")
        if not os.path.exists(listed):
            print(said.stdout[-3000:], said.stderr[-2000:])
            raise SystemExit("no list of names")
    else:
        listed = os.environ["NAMES"]
    names = json.load(open(listed))
    known = contracts()
    for folder, dirs, files in os.walk(os.path.join(root, "proofs")):
        dirs.sort()
        if "Proof.antt" not in files:
            continue
        key = os.path.relpath(folder, os.path.join(root, "proofs")).replace("/", ".")
        if only and key not in only and key.split(".")[-1] not in only:
            continue
        of = names.get(f"Rattle-{crate}-proofs.{key}.Lts")
        if of is None:
            print(f"{key}: no names")
            continue
        try:
            said = turn(os.path.join(folder, "Proof.antt"), key, of, crate, known)
        except Exception as e:  # noqa: BLE001
            said = f"FAILED {type(e).__name__} {e}"
        if said:
            print(f"{key}: {said}")


main()
