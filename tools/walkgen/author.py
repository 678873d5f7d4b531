"""The author's part of a walk: what walk.txt says, and the lemma that each of its terms becomes."""
import texts
from refusal import Refused
from terms import bare, binders, replaced, words_of


class WalkFile:
    """A walk.txt, which need not be there: terms by their keys, `use` lines, and lemmas in front of the walk."""

    def __init__(self, path):
        self.terms, self.uses, self.lemmas = {}, [], []
        self.read((texts.content(path) or "").split("\n"))

    def read(self, lines):
        key, in_lemmas = None, False
        for line in lines:
            if in_lemmas:
                in_lemmas = line.strip() != "end"
                if in_lemmas:
                    self.lemmas.append(line)
            elif not line.strip() or line.startswith("#"):
                continue
            elif line.strip() == "lemmas":
                in_lemmas = True
            elif line.startswith("use "):
                self.uses.append(line[len("use "):].strip())
            elif line[0] in " \t" and key:
                self.terms[key] += f" {' '.join(line.split())}"
            else:
                key = self.begin(line)
        if in_lemmas:
            raise Refused("walk.txt has `lemmas` without `end`")

    def begin(self, line):
        """A line with a key and the beginning of its term."""
        key, equals, term = line.partition("=")
        key = key.strip()
        if not equals:
            raise Refused(f"walk.txt has a line that is neither `KEY = TERM` nor goes on with one: {line}")
        if key in self.terms:
            raise Refused(f"walk.txt has the key {key} twice")
        self.terms[key] = " ".join(term.split())
        return key


class Author:
    """Answers each goal of a walk by the author's term for it, and keeps what was asked."""

    def __init__(self, walk_file):
        self.file = walk_file
        self.meaning = {}       # the author's names that stand for another text at this place
        self.goals = []         # what `show` prints: a key and its goal, or a fact in brackets
        self.missing = []       # the goals that have no term
        self.used = set()       # the keys that were asked for
        self.lemmas = {}        # {name: text}

    def says(self, key, otherwise=None):
        """A key that is no proof, as a name or an invariant."""
        self.used.add(key)
        return self.file.terms.get(key, otherwise)

    def has(self, key):
        return key in self.file.terms

    def note(self, fact, text):
        """A fact that is at hand from here on."""
        self.goals.append((f"({fact})", text))

    def proves(self, key, goal, scope):
        """The author's term for a goal, as a lemma of its own over what it mentions; a hole where there is none."""
        goal = bare(goal)
        self.goals.append((key, goal))
        term = self.file.terms.get(key)
        if term is None:
            self.missing.append((key, goal))
            mentioned = {name for name, statement in scope if is_of_interest(statement)}
        else:
            self.used.add(key)
            term = bare(replaced(term, self.meaning))
            if term in ("refl", "tt", "zero-le") or any(term == name for name, _ in scope):
                return term
            mentioned = words_of(term)
        variables = needed(words_of(goal) | mentioned, scope)
        statement = f"{binders(variables)} → {goal}" if variables else goal
        name = key.replace(".", "-")
        lemma = " ".join([name, *(variable for variable, _ in variables)])
        self.lemmas[name] = f"{name} : {statement}\n{lemma} = {term or '?'}\n"
        return f"({lemma})" if variables else lemma

    def unused(self):
        return [key for key in self.file.terms if key not in self.used]


def is_of_interest(statement):
    """Whether a hypothesis may be of use for a hole: what ties a value to the machine's is not."""
    return statement != "Val" and not statement.startswith(("Is ", "Room "))


def needed(mentioned, scope):
    """The variables of the scope that are mentioned, also in the types of those."""
    found = []
    for name, statement in reversed(scope):
        if name in mentioned:
            found.insert(0, (name, statement))
            mentioned = mentioned | words_of(statement)
    return found
