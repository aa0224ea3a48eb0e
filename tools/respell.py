#!/usr/bin/env python3
"""Brings the repository's own names of antt to the spelling of today's Rattle, after port.py and once.

usage: tools/respell.py [--check]

A definition, a lemma, a field, a constructor or a variable that is written as in readForm becomes read_form: words are in snake case. In a lemma's name a dash stays
where it joins two names, as in length-digits, and becomes _ where it adds a plain word, as in table_good. Types and modules are in camel case as they were. What is
declared in src/, what Rattle makes, names of the library, strings, inputs and outputs stay. Where two names would fall together, both stay, and it says so.
It writes the .antt files, the clauses and comments of the .rt files, the edits of must-fail/ and the pages, and what it turned into respelled.tsv beside it. --check
writes nothing.
"""

import glob
import os
import re
import shutil
import sys

ID = r"[^\s(){}.;,@\"«»\[\]\\:`|]+"
TOKEN = re.compile(ID)
KIT = os.path.join(os.path.dirname(os.path.dirname(os.path.realpath(shutil.which("rt")))), "rattle")


def read(path):
    with open(path, encoding="utf-8") as f:
        return f.read()


def below(pattern):
    return sorted(p for p in glob.glob(pattern, recursive=True) if "/out/" not in p)


def bare(text):
    """The text without its comments and strings."""
    return re.sub(r"--[^\n]*|\"(?:[^\"\\]|\\.)*\"", " ", text)


def snake(part):
    """fromBits32 as from_bits32, one part of a name between dashes; a part that begins with a capital is a type's and stays."""
    if not re.match(r"[a-z]", part):
        return part
    return re.sub(r"(?<=[a-z0-9])([A-Z])", lambda it: "_" + it[1].lower(), part)


def declared(text):
    """The names that the text declares, each on a line of its own or as a parameter or a field."""
    found = set(re.findall(rf"(?m)^ *(?:(?:abbrev|unfoldable|pub) )*({ID}) : ", text))
    found |= set(re.findall(rf"[({{] *({ID}) : ", text))
    for many in re.findall(rf"[({{] *((?:{ID} )+{ID}) : ", text):
        found |= set(many.split())
    found |= set(re.findall(rf"(?m)(?:λ|let) ({ID})", text))
    return found


def main():
    check = "--check" in sys.argv[1:]
    antt = below("crates/*/specs/**/*.antt") + below("crates/*/proofs/**/*.antt")
    texts = {p: bare(read(p)) for p in antt}
    names, tokens, tops = set(), set(), set()
    for p, text in texts.items():
        names |= declared(text)
        tokens |= set(TOKEN.findall(text))
        tops |= {
            it
            for it, of in re.findall(rf"(?m)^ *(?:(?:abbrev|unfoldable|pub) )*({ID}) : (.*)", text)
            if not (p.endswith("/Proof.antt") and re.search(r"tie\.(Need|invariant|decreases)|→ statement M", of))
        }
    kit = set()
    for p in below(f"{KIT}/**/*.antt"):
        kit |= set(TOKEN.findall(bare(read(p))))
    new = {}
    # words in snake case
    for name in tokens:
        if any(re.search(r"[a-z0-9][A-Z]", part) and re.match(r"[a-z]", part) for part in name.split("-")) and (name in names or name not in kit):
            new[name] = "-".join(snake(part) for part in name.split("-"))
    # a plain word is added with _
    defs = {new.get(it, it) for it in tops} | {it for it in kit if len(it) > 2}
    word = lambda part: part not in defs or part in PLAIN
    for name in tops:
        if name in kit or "-" not in name or "◌" in name or not re.search(r"[a-z]", name):
            continue
        parts = new.get(name, name).split("-")
        if "" in parts:
            continue
        # the longest runs of parts that are a definition's name in snake case
        at, joined = 0, []
        while at < len(parts):
            end = next((e for e in range(len(parts), at + 1, -1) if "_".join(parts[at:e]) in defs), at + 1)
            joined.append("_".join(parts[at:end]))
            at = end
        text = joined[0]
        for left, right in zip(joined, joined[1:]):
            text += ("_" if word(left) or word(right) else "-") + right
        if text != name:
            new[name] = text
    new = {a: b for a, b in new.items() if a != b}
    # where a lemma would have its function's name, the lemma gets _lem; where two names would fall together otherwise, both stay
    taken = {b for a, b in new.items() if "-" not in a}
    for a, b in sorted(new.items()):
        if "-" in a and (b in taken or b in tops):
            new[a] = b + "_lem" if b in taken else a
    for b in sorted(taken & tops):
        new[b] = b + "_lem"
    new = {a: b for a, b in new.items() if a != b}
    back = {}
    for a, b in new.items():
        back.setdefault(b, []).append(a)
    for b, each in sorted(back.items()):
        if len(each) > 1 or (b in tokens and b not in new and b in names):
            for a in each:
                print(f"stays: {a} (another is {b})")
                del new[a]
    print(f"{len(new)} names")
    # what no name of src/ is written like
    unlike = {a for a in new if re.search(r"[-A-Z]", a)}
    camel = {a for a in new if re.search(r"[a-z0-9][A-Z]", a) and "-" not in a}

    def turn(text, of=None):
        """A lemma is never a field: behind a dot it stands only in a module, whose name has a capital."""

        def one(it):
            if of is not None and it[0] not in of:
                return it[0]
            if it[0] in new and it[0] not in camel and text[: it.start()].endswith("."):
                before = TOKEN.findall(text[max(0, it.start() - 80) : it.start() - 1])
                if not before or not re.match(r"[A-Z]", before[-1]):
                    return it[0]
            return new.get(it[0], it[0])

        return TOKEN.sub(one, text)

    plain = {a: b for a, b in new.items() if re.search(r"[A-Z]", a)}

    def in_antt(text):
        def one(it):
            if it[0].startswith("--"):
                return words(it[0])
            return it[0]

        return "".join(pieces(text, one))

    def pieces(text, one):
        at = 0
        for it in re.finditer(r"--[^\n]*|\"(?:[^\"\\]|\\.)*\"", text):
            yield turn(text[at : it.start()])
            yield one(it)
            at = it.end()
        yield turn(text[at:])

    def words(text):
        """A comment: names in it that no word of English is written like."""
        text = re.sub(r"`([^`\n]*)`", lambda it: "`" + turn(it[1], unlike) + "`", text)
        return TOKEN.sub(lambda it: plain.get(it[0], it[0]), text)

    def in_rt(text):
        out, at = [], 0
        for it in re.finditer(r"//[^\n]*|b?\"(?:[^\"\\]|\\.)*\"|b?'(?:[^'\\\n]|\\.)'", text):
            out.append(turn(text[at : it.start()], camel))
            out.append(words(it[0]) if it[0].startswith("//") else it[0])
            at = it.end()
        return "".join(out) + turn(text[at:], camel)

    def in_edit(text):
        return turn(text, camel if re.match("file: src/", text) else None)

    for p, how in (
        [(p, in_antt) for p in antt]
        + [(p, in_rt) for p in below("crates/*/src/**/*.rt")]
        + [(p, in_edit) for p in below("crates/*/must-fail/*.edit")]
        + [(p, words) for p in below("docs/*.md") + ["README.md"]]
    ):
        text = read(p)
        made = how(text)
        if made != text and not check:
            with open(p, "w", encoding="utf-8") as f:
                f.write(made)
    if check:
        return
    with open(os.path.join(os.path.dirname(__file__), "respelled.tsv"), "w", encoding="utf-8") as f:
        for a, b in sorted(new.items()):
            f.write(f"{a}\t{b}\n")


# words that some definition has too, and that lemmas add as plain words
PLAIN = set("is same none some more all given first last next read count keeps good known taken refused tested value written bare short one two zero".split())

if __name__ == "__main__":
    main()
