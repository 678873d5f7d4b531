"""What the names of a walk stand for, and the `use` lines that bring them.

A walk imports bare names from several sides: those of its own steps, those that the contracts cite, those of
walk.txt and those of the declared types. A name can stand for one thing only, so a contract's name that would stand
for another thing gets its module's or its crate's name behind it: `looked` of the crate low is then `looked-low`.
"""
import re

import texts
from refusal import Refused
from terms import replaced, words_of

# what a walk takes of the library that walkgen writes
OWN_FILES = [
    "Lend.{ref, seen}",
    "Flow.{holds, fails, Nearer, Nearer_wf, told, told_enum, tests, matches, matches_last, while_loops, "
    "assigns_again, lands_again, skips_again, turn_returns, frees_all, below_word, next_le, next_nearer, empties, "
    "big_lit, widen_8_16, widen_8_32, widen_8_64, widen_16_32, widen_16_64, widen_32_64}",
    "Local.{repeats, lend_array, back_array}",
    "Front.{front, refronted, front_size, front_length}",
]

# what the text of a walk binds or declares
BOUND = set("""Arg Post args_of vals_of bound_of exits walk stayed code stated mem run fm are a e g is r u w
    x X At x2 X2 At2 whiles req inv le less all on""".split())

# words of antt, and names that a proof is clearer without
AVOIDED = set("""name now use mod let in elim record module where abbrev data pub if update at blocks loops
    more left right given both each show pick row""".split())

NAMES_OF_MODULE = re.compile(r"^(.*)\.\{(.*)\}$")


def steps():
    """The `use` lines of what a walk may take of Rattle's logic."""
    return texts.kept("imports.txt").splitlines()


def brought_by(lines):
    """{name: (module, its name there)} of `use` lines that have names in braces; the first line counts."""
    names = {}
    for line in lines:
        match = NAMES_OF_MODULE.match(line)
        for item in match.group(2).split(",") if match else []:
            original, _, alias = item.strip().partition(" as ")
            names.setdefault((alias or original).strip(), (match.group(1), original.strip()))
    return names


class Names:
    """The names of the walk of one function."""

    def __init__(self, sources, function, author_uses):
        self.sources = sources
        sources.require_library()
        self.library = [sources.library + line for line in OWN_FILES]
        self.of_steps = {**brought_by(steps() + self.library), **{name: None for name in BOUND}}
        self.meaning = dict(self.of_steps)      # {name: (module, its name there)}, None where the text binds it
        self.uses = steps()
        self.offer(self.ghost_uses(function))
        for name, meaning in brought_by(author_uses).items():
            if self.meaning.setdefault(name, meaning) != meaning:
                raise Refused(
                    f"walk.txt brings `{name}` of {meaning[0]}, and the walk has another thing of that name: bring it "
                    "in `as` another")
        self.uses += author_uses

    def ghost_uses(self, function):
        """The `ghost use` lines of the function's source file."""
        return self.sources.ghost_uses[(function.crate, *function.module)]

    def are_reserved(self, name):
        """Whether a variable of the function cannot have this name in the proof."""
        return name in self.of_steps or name in AVOIDED

    def clause(self, function, text):
        """A clause of a function's contract, with the names that it cites as they are here."""
        cited = brought_by(self.ghost_uses(function))
        variables = {name for name, _ in function.parameters} | {"result"}
        renamed = {}
        for name in sorted(words_of(text) & set(cited) - variables):
            module, original = cited[name]
            self.sources.require_named(crate_of(module), name)
            if self.meaning.get(name, cited[name]) != cited[name]:
                renamed[name] = f"{name}-{function.module[-1] if function.module else function.crate}"
                self.uses.append(f"{module}.{{{original} as {renamed[name]}}}")
        self.offer(self.ghost_uses(function))
        return replaced(text, renamed)

    def offer(self, lines):
        """What a source file cites is at the author's hand too, but for names that stand for another thing here."""
        for line in lines:
            names = brought_by([line])
            for name, (module, original) in names.items():
                means_this = self.meaning.setdefault(name, (module, original)) == (module, original)
                if means_this and self.sources.may_name(crate_of(module)):
                    self.uses.append(f"{module}.{{{original if original == name else f'{original} as {name}'}}}")
            if not names:
                self.uses.append(line)

    def refuse_clashes(self, types):
        """The declared types and their variants are brought in by their own names; types: the `use` lines of these."""
        for name, meaning in brought_by(types).items():
            if self.of_steps.get(name, meaning) != meaning:
                raise Refused(f"`{name}` of {meaning[0]} has a name that a walk takes for itself: rename it")

    def lines(self, text, types, others):
        """The `use` lines of a walk's text; others: those of its calls and of the function itself."""
        return joined([*self.uses, *types, *self.library, *others], text)


def crate_of(module):
    """The crate below whose module this is, if it is one."""
    match = re.match(r"Rattle\.(\w+)\.", module)
    return match and match.group(1)


def joined(lines, text):
    """One `use` for each module, with the names that the text has."""
    words = {"[]"} if "[]" in text else set()
    for word in re.findall(r"[^\s()\[\]{},;]+", text):
        words |= {word, word.rstrip("."), word.split(".")[0]}
    found, seen = {}, set()     # {module: names that are taken of it}, and {line: None} of what brings a whole module
    for line in lines:
        match = NAMES_OF_MODULE.match(line)
        if not match:
            alias = re.match(r"^(.*) as (\S+)$", line)
            if not alias or alias.group(2) in words:
                found[line] = None
            continue
        for item in match.group(2).split(","):
            name = item.strip().split(" as ")[-1].strip()
            if name not in seen and name.strip("◌") in words:
                seen.add(name)
                found.setdefault(f"{match.group(1)}.", []).append(item.strip())
    return "".join(f"use {line}\n" if names is None else f"use {line}{{{', '.join(names)}}}\n"
                   for line, names in found.items())
