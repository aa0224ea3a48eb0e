#!/usr/bin/env python3
"""Turns the Proof.antt of functions, as port.py left them, into Invariants.antt and Answers.antt.

usage: tools/answers.py NAMES CRATE..

NAMES is the folder that `rt names NAMES` wrote. A goal of Need-.. becomes the goal of its name today, a step of the code its field today, and places that a path passed
by `before` are no longer named where a field follows. The invariant of a loop takes the record l. What it cannot turn it says; the check decides.
"""

import json
import os
import re
import sys

ID = r"[^\s(){}.;,@\"«»\[\]\\:]+"
dash = lambda it: it.replace("_", "-")
norm = lambda it: re.sub(r"^(overflow|nonzero)-", "", dash(it))


def read(path):
    with open(path, encoding="utf-8") as f:
        return f.read()


def write(path, text):
    with open(path, "w", encoding="utf-8") as f:
        f.write(text)


def sources():
    """Of each function in src/ its parameters, and the names of its ensures clauses."""
    found = {}
    for folder, _, files in os.walk("crates"):
        at = re.match(r"crates/(\w+)/src((?:/\w+)*)$", folder)
        for it in files if at else []:
            if not it.endswith(".rt"):
                continue
            mods = [at[1], *at[2].strip("/").split("/"), *([] if it in ("lib.rt", "main.rt") else [it[:-3]])]
            for name, params, clauses in re.findall(r"(?ms)fn (\w+)\(([^)]*)\)(.*?)^\{", read(os.path.join(folder, it))):
                path = "::".join([*filter(None, mods), name])
                found[path] = (re.findall(r"(\w+): ", params), re.findall(r"ensures (\w+) \{", clauses))
    return found


class Function:
    def __init__(self, crate, path, of):
        self.crate, self.path, self.of = crate, path, of
        self.needs = [tuple(it) for it in of["needs"]]
        self.goal = {}
        for old, new in self.needs:
            self.goal.setdefault(norm(old), new)
        self.settled = {norm(it) for it in of["settled"]}
        self.places = {}
        for it, name in zip(of["places"], of["places_by_name"]):
            self.places.setdefault(dash(it[0]), name)
        self.parent = {dash(it[0]): it[1] and dash(it[1]) for it in of["places"]}
        self.at = {new: dash(where[0]) for (old, new), where in zip(self.needs, of["asked_at"])}
        self.used = set()
        # an old step, by the place that it leads to, as its new one
        self.steps = {}
        for it in of["places"]:
            old, new = it[2]
            if old:
                self.steps.setdefault(dash(old), []).append(new)
        # by place, what a step and its fields are as fields of an arm
        self.arms = {}
        for it, arm in zip(of["places"], of["arms"]):
            for label, step, rest in arm[2] if arm else []:
                self.arms.setdefault(dash(it[0]), {})[(dash(step), *rest)] = f"{arm[0]}.{label}"
        self.step_of = {dash(it[0]): (dash(it[2][0]), it[2][1]) for it in of["places"]}
        self.loops = {}
        for (loop, variables), changed in zip(of["loops"], of["changed"]):
            self.loops[dash(loop[0])] = (loop[1], variables, changed)
        self.fields = (of["pre"] or {}).get("fields", [])
        self.asked = {self.goal[norm(old)]: fields for old, fields in of["asked"].items() if norm(old) in self.goal}
        # the steps whose fact a place has under type_inv, and a step's fields that go by another name today
        self.typed = {dash(it[0]): {dash(step): var for var, step in each} for it, each in zip(of["places"], of["typed"])}
        self.within = {}
        self.callees = {it[2][1]: it[3] for it in of["places"] if it[3]}
        for it in of["places"]:
            if it[4]:
                self.within.setdefault(it[2][1], {}).update(it[4])
        self.args = [(a.replace(" .", "."), b.replace(" .", ".")) for a, b in of["args"]]


def blocks(text):
    """The declarations: parts between blank lines before a line that is not indented."""
    return [it.strip("\n") for it in re.split(r"\n\n+(?=\S)", text) if it.strip()]


def parted(block):
    """The comments above a declaration, and the rest."""
    lines = block.split("\n")
    at = 0
    while at < len(lines) and lines[at].startswith("--"):
        at += 1
    return "\n".join(lines[:at]), "\n".join(lines[at:])


def substitute(text, names):
    """The variables by what stands for them, but for fields."""
    return re.sub(ID + r"|\.", lambda it: it[0], text) if not names else re.sub(
        rf"(?<![.\w'₀-])({'|'.join(re.escape(it) for it in sorted(names, key=len, reverse=True))})(?![\w'₀-])(?! =(?!=))", lambda it: names[it[1]], text
    )


def of_call(step, rest, function):
    """What a call left, kept or ensures, by the name of the parameter or of the clause."""
    if rest[:1] in (["new"], ["auto"], ["kept"], ["ensures"]) and len(rest) > 1 and rest[1].isdigit() and step in function.callees:
        params, clauses = SOURCES.get(function.callees[step], ([], []))
        named = clauses if rest[0] == "ensures" else params
        k = 1
        while k < len(rest) and rest[k] == "1" and k < len(named):
            k += 1
        if k - 1 < len(named):
            is_paired = rest[0] != "ensures" or k < len(named)
            return [{"kept": "auto"}.get(rest[0], rest[0]), named[k - 1], *rest[k + (rest[k : k + 1] == ["0"] and is_paired) :]]
    return rest


def above(function, place):
    """The place and those that lead to it, the nearest first."""
    seen = []
    while place and place not in seen:
        seen.append(place)
        place = function.parent.get(place)
    return seen


def path_turned(path, function, places, typed={}, where=None):
    """A path c.before.before.step.field as it is written today."""
    parts = path.split(".")
    if parts[0] not in places or len(parts) < 2:
        return path
    at = 1
    while at < len(parts) and parts[at] == "before":
        at += 1
    if at == len(parts):
        return path
    step, rest = parts[at], parts[at + 1 :]
    key = dash(step.strip("«»"))
    chain = above(function, where)
    for n in range(len(rest), -1, -1):
        arm = next((function.arms[it][(key, *rest[:n])] for it in chain if (key, *rest[:n]) in function.arms.get(it, {})), None)
        if arm:
            return ".".join([parts[0], arm, *rest[n:]])
    if key in typed and rest[:1] == ["given"]:
        return ".".join([parts[0], "type_inv", typed[key], *rest[1:]])
    for old, new in function.args:
        a = old.strip(".").split(".")
        if [dash(it) for it in parts[at : at + len(a)]] == [dash(it) for it in a]:
            return ".".join([parts[0], *new.strip(".").split("."), *parts[at + len(a) :]])
    new = function.steps.get(key) or next((it for old, it in function.steps.items() if old.lower() == key.lower()), None)
    near = next((function.step_of[it][1] for it in chain if function.step_of.get(it, ("",))[0] == key), None)
    if near:
        new = [near]
    if new:
        if len(set(new)) > 1:
            print(f"look: {function.crate} {function.path}: {step} is one of {sorted(set(new))}")
        step = new[0]
        for old, name in (("taken", "true"), ("left", "false")):
            if rest[:1] == [old]:
                rest = [name, *rest[1:]]
    if step in ("good", "well-formed"):
        step = "well_formed"
    rest = [{"type-inv": "type_inv"}.get(it, it) for it in rest]
    if step in function.within and rest and rest[0] in function.within[step]:
        rest = [function.within[step][rest[0]], *rest[1:]]
    rest = of_call(step, rest, function)
    if step in ("pre", "requires") and rest and rest[0].isdigit() and function.fields:
        k = 0
        while k < len(rest) and rest[k] == "1" and k + 1 < len(function.fields):
            k += 1
        # the last of them is not in a pair of its own
        rest = [function.fields[k], *rest[k + (rest[k : k + 1] == ["0"] and k + 1 < len(function.fields)) :]]
    if step == "pre":
        step = "requires"
    return ".".join([parts[0], step, *rest])


PATH = re.compile(r"(?<![\w.'-])[A-Za-z][\w'₀-]*(?:\.(?:«[^»]*»|[\w'₀·-]+))+")


def turned(text, function, goal=None, helpers={}):
    """The paths of an answer, or of a lemma over a place. What is handed on as a place whole is named by goal.at, by the place that the lemma asks."""
    at = {"c"} | set(re.findall(r"\(([a-z][\w']*) : [A-Z][\w-]*\)", text))
    if "module _ (" in text:
        print(f"look: {function.crate} {function.path}: a module with parameters")
    for name, of in re.findall(r"let ([a-z][\w']*) =\s+([a-z][\w']*)(?:\.before)*\s+in", text):
        if of in at:
            at.add(name)

    def opened(it):
        if it[2] not in at:
            return it[0]
        if goal:
            return f"let {it[1]} = c in"
        is_handed = len(re.findall(rf"(?<![\w.'-]){re.escape(it[1])}(?![\w.'₀-])", text)) > 1
        return it[0] if is_handed else f"let {it[1]} = {it[2]} in"

    text = re.sub(r"let ([a-z][\w']*) =\s+([a-z][\w']*)((?:\.before)+)\s+in", opened, text)
    # that a value is of its type is found without a path
    text = re.sub(r"sym \(length-map [\w.'-]+ _\) ∙ [\w.]+\.(?:good|well[-_]formed)[.\d]*", "search rules", text)
    text = re.sub(r", [\w.]+\.(?:good|well[-_]formed)[.\d]+\)", ")", text)
    text = re.sub(r"(?<![\w.])[a-z]\w*(?:\.before)*\.(?:good|well[-_]formed)(?:\.\d)+", "(search rules)", text)
    if helpers:

        def handed(it):
            place = helpers[it[1]]
            if goal:
                if place in function.used or place in function.places.values():
                    function.used.add(place)
                    return f"{it[1]} (goal.at.{goal} c).{place}"
            return it[0]

        names = "|".join(re.escape(it) for it in sorted(helpers, key=len, reverse=True))
        vars = "|".join(re.escape(it) for it in at)
        text = re.sub(rf"(?<![\w.'-])({names})\s+((?:{vars})(?:\.before)*)(?![\w.'₀-])(?!(?: κs| _)?\s*=)", handed, text)
    where = function.at.get(goal) if goal else next((dash(a) for a, b in function.places.items() if f": {b})" in text.split("\n")[0]), None)
    typed = function.typed.get(where, {})
    text = PATH.sub(lambda it: path_turned(it[0], function, at, typed, where), text)
    for name, step in re.findall(r"let ([a-z][\w']*) = [\w.'-]*\.([\w-]+) in", text):
        if step in function.callees:
            text = re.sub(
                rf"(?<![\w.'-]){re.escape(name)}\.(new|auto|kept|ensures)((?:\.\d)+)",
                lambda it: ".".join([name, *of_call(step, [it[1], *it[2].strip(".").split(".")], function)]),
                text,
            )
        for a, b in function.within.get(step, {}).items():
            text = re.sub(rf"(?<![\w.'-]){re.escape(name)}\.{re.escape(a)}(?![\w'-])", f"{name}.{b}", text)
    # the test of a negation says what it says of what is negated
    text = re.sub(r"\(not-(?:true|false) (?:_|[\w.'-]+) ([\w.'-]+\.(?:true|false))-raw\)", r"\1", text)
    return re.sub(r"(?<![\w.'-])not-(?:true|false) (?:_|[\w.'-]+) ([\w.'-]+\.(?:true|false))-raw", r"\1", text)


def placed(text, function):
    def one(it):
        new = function.places.get(dash(it[1]))
        if not new:
            print(f"look: {function.crate} {function.path}: no place {it[1]}")
            return it[0]
        function.used.add(new)
        return new

    return re.sub(rf"tie\.({ID})((?: (?:invariant|decreases)-[\w'-]+)*)", one, text)


def bare_ways(text, ways):
    names = "|".join(re.escape(it) for it in sorted(ways, key=len, reverse=True))
    of = r"[a-z][\w']*(?:\.before)*"
    text = re.sub(rf"\((?:{names}) ({of})\)\.", r"\1.", text)
    text = re.sub(rf"\((?:{names}) ({of})\)", r"\1", text)
    return re.sub(rf"(?<![\w.'-])(?:{names}) ({of})(?![\w.'-])", r"\1", text)


def group(text, at):
    """The end of the bracketed group that begins at a place."""
    depth = 0
    for i in range(at, len(text)):
        depth += text[i] in "([{"
        depth -= text[i] in ")]}"
        if depth == 0:
            return i + 1
    return len(text)


def joined(text, function, whole):
    """What an old answer took apart as a sum, where branches join, as cases of the join."""
    at = 0
    while True:
        at = text.find("⊎_elim", at)
        if at < 0:
            return text
        arms, i = [], at + len("⊎_elim")
        for _ in range(2):
            skip = re.match(r"\s*", text[i:]).end()
            if text[i + skip : i + skip + 2] != "(λ":
                break
            end = group(text, i + skip)
            arms.append(text[i + skip + 1 : end - 1])
            i = end
        of = re.match(r"\s*((?:[\w']+)\.if-([\w-]+))\.branch", text[i:])
        if len(arms) < 2 or not of:
            at += 1
            continue
        test = of[2]
        values = sorted({it for it in re.findall(rf"\.if-{re.escape(test)}\.(\w[\w-]*)", whole + text) if it not in ("true", "false", "branch", "true-raw", "false-raw")})
        made = []
        for arm, name in zip(arms, ("then", "else")):
            var, rest = re.match(r"(?s)λ (\w+)\. ?(.*)", arm).groups()
            w = "w" if not re.search(r"(?<![\w.'])w(?![\w'])", rest) or var == "w" else "k"
            rest = re.sub(rf"(?<![\w.'-]){var}(?:\.0)?\.(?:taken|left)(?![\w'-])", f"{w}.if-{test}.{'true' if name == 'then' else 'false'}", rest)
            if len(values) == 1:
                rest = re.sub(rf"(?<![\w.'-]){var}\.1(?![\w.'-])", f"{w}.{values[0]}-is", rest)
            rest = re.sub(rf"(?<![\w.'-]){var}(?=\.)", w, rest)
            made.append(f"{name}-{test} {w} ↦ {rest.strip()}")
            function.used.add(f"{name}-{test}")
        new = f"elim {of[1]}.branch [ {made[0]} | {made[1]} ]"
        text = text[:at] + new + text[i + of.end() :]
        at += 4


def tuple_at_end(text):
    """Where the tuple that ends the text begins, and its parts."""
    depth, at = 0, len(text) - 1
    commas = []
    while at >= 0:
        ch = text[at]
        depth += ch in ")]}"
        depth -= ch in "([{"
        if ch == "," and depth == 1:
            commas.append(at)
        if depth == 0:
            break
        at -= 1
    inner, last = [], at + 1
    for comma in reversed(commas):
        inner.append(text[last:comma].strip())
        last = comma + 1
    inner.append(text[last:-1].strip())
    return at, inner if inner[-1] else inner[:-1]


def as_record(body, fields):
    """A tuple at the end of an answer as a record of the clauses."""
    text = body.rstrip()
    if not text.endswith(")"):
        return body
    at, inner = tuple_at_end(text)
    while len(inner) < len(fields) and inner and inner[-1].startswith("("):
        start, more = tuple_at_end(inner[-1])
        if start:
            break
        inner = inner[:-1] + more
    if len(inner) != len(fields) or not re.search(r"(=|\bin|,|↦)\s*$", text[:at]):
        return body
    return text[:at] + "record { " + "; ".join(f"{f} = {it}" for f, it in zip(fields, inner)) + " }"


def placed_but_needs(text, function):
    return re.sub(r"(?s)^.*$", lambda it: placed(it[0], function), text) if "tie.Need" not in text else "\n".join(
        line if "tie.Need" in line else placed(line, function) for line in text.split("\n")
    )


def convert(folder, function):
    text = read(os.path.join(folder, "Proof.antt"))
    head, uses, rest = [], [], []
    lines = text.split("\n")
    at = 0
    while at < len(lines) and not lines[at].startswith("use "):
        head.append(lines[at])
        at += 1
    while at < len(lines) and (lines[at].startswith("use ") or not lines[at].strip()):
        if lines[at].strip():
            uses.append(lines[at])
        at += 1
    rest = "\n".join(lines[at:])
    uses = [it for it in uses if not re.search(r"\.(Statement\.\{statement\}|Tie as tie)$|borrow\.Author\.Rules", it)]
    here = f"use Rattle.{function.crate}.proofs.{function.path}"
    answers, invariants, renamed, shared = [], [], {}, []
    todo = []
    for block in blocks(rest):
        note, body = parted(block)
        first = re.match(rf"(?:(?:abbrev|unfoldable|pub) )*({ID}) :\s+(.*)", body)
        if not first:
            print(f"look: {function.crate} {function.path}: not read: {body[:60]!r}")
            todo.append((note, body, None, "other"))
            continue
        name, of = first[1], first[2]
        if "→ statement M" in body.split("\n")[0] or "→ statement M" in of:
            continue
        m = re.match(r"tie\.Need-(\S+)", of)
        if m:
            goal = function.goal.get(norm(m[1])) or function.goal.get(norm(name))
            if not goal and (norm(m[1]) in function.settled or norm(name) in function.settled):
                continue
            if not goal:
                print(f"gone: {function.crate} {function.path}: no goal for {name} ({m[1]})")
                continue
            renamed[name] = goal
            todo.append((note, body, goal, "goal"))
            continue
        m = re.match(r"tie\.(invariant|decreases)-(\S+)", of)
        if m:
            todo.append((note, body, m[1] + "-" + m[2], m[1]))
            continue
        todo.append((note, body, name, "help"))
    # what only leads from a place to an earlier one is not needed: an earlier step is a field of each later place
    ways = set()
    for note, body, name, kind in todo:
        of = re.match(rf"(?s)(?:(?:abbrev|unfoldable|pub) )*{re.escape(name or '')} : tie\.[^\n]*→ tie\.[^\n]*\n{re.escape(name or '')} \w+ = ([\w.' -]+)$", body)
        if kind == "help" and of and all(it in ways or re.fullmatch(r"\w+(\.before)*", it) for it in of[1].split()):
            ways.add(name)
    if ways:
        todo = [(note, bare_ways(body, ways), name, kind) for note, body, name, kind in todo if name not in ways]
    helpers = {}
    for note, body, name, kind in todo:
        if kind == "help":
            of = re.match(rf"(?:(?:abbrev|unfoldable|pub) )*{re.escape(name)} : \([a-z]\w* : tie\.({ID})", body)
            if of and dash(of[1]) in function.places:
                helpers[name] = function.places[dash(of[1])]
    for goal in renamed.values():
        if function.places.get(function.at.get(goal)):
            helpers[goal] = function.places[function.at[goal]]
    for note, body, name, kind in todo:
        if kind in ("invariant", "decreases"):
            loop = dash(name.split("-", 1)[1])
            if loop not in function.loops:
                print(f"left: {function.crate} {function.path}: no loop {loop}")
                continue
            label, variables, changed = function.loops[loop]
            label = label.replace("loop-", "", 1) if label.startswith("loop-") else label
            m = re.match(rf"(?s)abbrev (?:pub )?{re.escape(name)} : tie\.\S+\n((?:unfolding [^\n]*\n)?){re.escape(name)} (.*?) = ?(.*)", body)
            if not m:
                print(f"left: {function.crate} {function.path}: invariant not read: {body[:80]!r}")
                continue
            params = m[2].split()
            wanted = [(v, "initial" if c else None) for v, c in zip(variables, changed)] + [(v, None) for v, c in zip(variables, changed) if c]
            if len(params) != len(wanted):
                print(f"left: {function.crate} {function.path}: {name} has {len(params)} parameters, wanted {len(wanted)}: {wanted}")
            names = {}
            for p, (v, when) in zip(params, wanted):
                v = next((of[v] for step, of in function.within.items() if step == function.loops[loop][0] and v in of), v)
                if p != "_":
                    names[p] = f"l.initial.{v}" if when else f"l.{v}"
            made = substitute(m[3], names)
            # a signed variable is a number here, not its bits
            made = re.sub(r"\(to_z w\d+ (l(?:\.initial)?\.\w+)-bits\)", r"\1", made)
            made = re.sub(r"to_z w\d+ (l(?:\.initial)?\.\w+)-bits(?![\w'-])", r"\1", made)
            full = f"{kind}-loop-{label}" if not function.loops[loop][0].startswith(kind) else label
            full = f"{kind}-{function.loops[loop][0]}"
            invariants.append((note + "\n" if note else "") + f"abbrev pub {full} : goal.{full}\n{m[1]}{full} l = {made.strip()}")
            continue
        # the types of places, what is behind them, and the other answers by their names today
        body = placed_but_needs(body, function)
        head_of_goal = None
        if kind == "goal":
            head_of_goal, _, body = body.partition("\n")
            while body.startswith(" "):
                body = body.partition("\n")[2]
        if renamed:
            body = re.sub(
                rf"(?<![\w.'₀-])({'|'.join(re.escape(it) for it in sorted(renamed, key=len, reverse=True))})(?![\w'₀-])", lambda it: renamed[it[1]], body
            )
        body = turned(body, function, name if kind == "goal" else None, helpers)
        if kind == "goal":
            rest = body
            # lifetimes are no longer an argument
            rest = re.sub(rf"(?m)^{re.escape(name)} ({ID}) ([^\s=(]+) =", lambda it: f"{name} {it[1]} =", rest)
            body = f"pub {name} : goal.{name}\n" + rest
        body = joined(body, function, text)
        if kind == "goal" and name in function.asked:
            body = as_record(body, function.asked[name])
        trivial = re.fullmatch(rf"(?s)pub \S+ : \S+\n{ID} c = (search rules|omega arith)", body)
        if kind == "goal" and trivial and not note:
            continue
        answers.append((note + "\n" if note else "") + body)
    heading = "\n".join(head).strip()
    if invariants:
        # what the invariants name of this file's own
        own = {}
        for it in answers:
            m = re.match(rf"(?:--[^\n]*\n)*(?:(?:abbrev|unfoldable|pub) )*({ID}) :", it)
            if m and "goal." not in it:
                own[m[1]] = it
        needed = [n for n in own if any(re.search(rf"(?<![\w.'-]){re.escape(n)}(?![\w'-])", i) for i in invariants)]
        moved = []
        for n in needed:
            it = own[n]
            answers.remove(it)
            moved.append(re.sub(r"(?m)^abbrev (?!pub)", "abbrev pub ", it, count=1))
        common = "use Rattle.std.proofs.Common.{rules}"
        write(os.path.join(folder, "Invariants.antt"), (heading + "\n" if heading else "") + "\n".join(uses + [here + ".Given as goal"]) + "\n\n" + "\n\n".join(moved + invariants) + "\n")
        if needed:
            uses = uses + [here + ".Invariants.{" + ", ".join(needed) + "}"]
    if answers:
        places = [here + ".Goals.{" + ", ".join(sorted(function.used)) + "}"] if function.used else []
        write(
            os.path.join(folder, "Answers.antt"),
            (heading + "\n" if heading else "") + "\n".join(["use Rattle.std.proofs.Common.{rules}"] + uses + places + [here + ".Goals as goal"]) + "\n\n" + "\n\n".join(answers) + "\n",
        )
    os.remove(os.path.join(folder, "Proof.antt"))


SOURCES = {}


def main():
    SOURCES.update(sources())
    names, crates = sys.argv[1], sys.argv[2:]
    for crate in crates:
        path = f"{names}/crates/{crate}/names.json"
        listed = json.loads(read(path)) if os.path.exists(path) else {}
        for folder, _, files in sorted(os.walk(f"crates/{crate}/proofs")):
            if "Proof.antt" not in files or "/+" in folder:
                continue
            where = os.path.relpath(folder, f"crates/{crate}/proofs").replace("/", ".")
            of = listed.get(f"Rattle-{crate}-proofs.{where}.Lts")
            if not of:
                print(f"left: {crate} {where}: no names")
                continue
            convert(folder, Function(crate, where, of))


if __name__ == "__main__":
    main()
