#!/usr/bin/env python3
"""Spells the repository's own definitions and lemmas as today's Rattle does, after the kit's port.py.

usage: python3 tools/respell.py          at the top of the repository, once, on what port.py left

Words are in snake case. A dash joins two names of definitions, as in length-append; a plain word is added with an
underscore, as in rows_back, and so are the words of a record's field. Types, modules, functions of src/, exported C
names and strings keep their names. The names are those that .antt files declare, but for a proof's own names of its
goals. It rewrites crates/ and the pages whose references are checked, stops where two names of one file would fall
together, and prints each name that it changed.
"""

import os
import re
import sys

NAME = r"[^\s(){}.;,@\"«»\[\]`]+"
TOKEN = re.compile(r"(?<![\w'-])" + NAME)
RECORD = re.compile(r"(?m)^( *)(?:pub +)?record [^\n]*\bwhere\n((?:\1 +[^\n]*\n|\n)*)")
# A name that stands alone: no part of a path, and no field.
ALONE = re.compile(r"(?<![^\s(){};,@«»\[\]])(?:" + NAME + r")(?!\.)(?![^\s(){};,@\"«»\[\]`])")
DECLARED = re.compile(
    r"(?m)^ *(?:(?:abbrev|pub|unfoldable) +)*([^\s(){}.;,@\"«»:=|→]+)(?: \{[^{}\n]*\}| \([^()\n]*\))* :(?!:)"
)
DEFINED = re.compile(r"(?m)^ *(?:(?:abbrev|unfoldable) +)(?:pub +)?([^\s(){}.;,@\"«»:=|→]+) :(?!:)")
# Names of the library that lemmas are named after, beside the definitions of this repository.
LIBRARY = set(
    """length take drop append get_or set sets cons nil replicate map reverse concat zero suc add sub mul div mod pow min
    max lt le eq and or xor not shl shr cond ltb leb eqb bit_and bit_xor one two three four""".split()
)
# What was spelled after a name of the library that has another one today.
RENAMED = {"getD": "get_or"}
# Fields of a struct of src/ that a definition of the same meaning is named like: a field stands behind a dot.
MEANT = {"update_room", "value_room"}
PAGES = ["README.md", "docs/PROMISES.md", "docs/DECISIONS.md", "docs/CONTRIBUTING.md"]


def files(ending):
    for folder, folders, names in os.walk("crates"):
        folders[:] = sorted(it for it in folders if it != "out")
        for name in sorted(names):
            if name.endswith(ending):
                yield os.path.join(folder, name)


def read(path):
    with open(path, encoding="utf-8") as f:
        return f.read()


def without_comments(text):
    return re.sub(r"--.*", "", text)


def in_snake_case(part):
    if part in RENAMED:
        return RENAMED[part]
    if not part[:1].islower():
        return part
    return re.sub(r"(?<=[a-z0-9])[A-Z]", lambda m: "_" + m[0].lower(), part)


def spelled(name, names):
    parts = [in_snake_case(part) for part in name.split("-")]
    out = parts[0]
    for before, part in zip(parts, parts[1:]):
        joins = "-" if (before in names or before[:1].isupper()) and (part in names or part[:1].isupper()) else "_"
        out += joins + part
    return out


def main():
    declared, stated, defined, fields, used = {}, set(), set(), set(), {}
    for path in files(".antt"):
        text = without_comments(read(path))
        used[path] = set(ALONE.findall(text))
        if path.endswith("/Proof.antt"):
            continue
        for name in DECLARED.findall(text):
            declared.setdefault(name, set()).add(path)
        for block in RECORD.finditer(text):
            fields |= set(DECLARED.findall(block[2]))
        (stated if "/specs/" in path else defined).update(DEFINED.findall(text))
    names = LIBRARY | {in_snake_case(it) for it in stated | defined if "-" not in it}
    # A definition keeps the plain name: a lemma that would have it gets _lem.
    plain = {in_snake_case(it): it for it in sorted(defined) + sorted(stated)}
    turned = {}
    for name in declared:
        if not re.fullmatch(r"[\w'-]+", name) or name.startswith("-") or name.endswith("-"):
            continue
        new = spelled(name, names)
        if name in fields:
            new = new.replace("-", "_")
        if plain.get(new, name) != name:
            new += "_lem"
        if new != name:
            turned[name] = new
    met = False
    for path, tokens in used.items():
        seen = {}
        for token in tokens:
            new = turned.get(token, token)
            if new in seen and seen[new] != token and new not in MEANT:
                print(f"{path}: {token} and {seen[new]} would both be {new}")
                met = True
            seen[new] = token
    by_new = {}
    for name, new in turned.items():
        by_new.setdefault(new, set()).add(name)
    for name in declared:
        by_new.setdefault(turned.get(name, name), set()).add(name)
    for new, olds in sorted(by_new.items()):
        if len(olds) > 1:
            print(f"look: {', '.join(sorted(olds))} are all {new}: " + "; ".join(f"{o} in {', '.join(sorted(p[7:] for p in declared[o]))[:160]}" for o in sorted(olds)))
    if met:
        sys.exit(1)
    # A name that is spelled like one of Rust's is turned only where it stands alone.
    snake = {name: new for name, new in turned.items() if re.fullmatch(r"[a-z0-9_]+", name)}
    others = {name: new for name, new in turned.items() if name not in snake}

    def turn(text):
        return TOKEN.sub(lambda m: others.get(m[0], m[0]), text)

    def turn_alone(text):
        return ALONE.sub(lambda m: snake.get(m[0], m[0]), text)

    def write(path, text, new):
        if new != text:
            with open(path, "w", encoding="utf-8") as f:
                f.write(new)

    for path in files(".antt"):
        text = read(path)
        write(path, text, turn(turn_alone(text)))
    for path in files(".rt"):
        text = read(path)
        write(path, text, turn(text))
    for path in files(".edit"):
        text = read(path)
        write(path, text, turn(text))
    for path in PAGES:
        text = read(path)
        write(path, text, re.sub(r"`[^`\n]+`", lambda m: re.sub(r"[\w'-]+", lambda n: others.get(n[0], n[0]), m[0]), text))
    for name in sorted(turned):
        print(name, turned[name])


main()
