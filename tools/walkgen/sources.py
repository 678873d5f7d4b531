"""The sources of a crate and of the crates below it: declared types, functions and their contracts.

They are read by patterns and not by a parser. That is enough: what is misread here makes a proof that is refused.
"""
import os
import re
from dataclasses import dataclass, field

import texts
from refusal import Refused

STRUCT = re.compile(r"\bstruct (\w+)\s*\{([^}]*)\}")
VARIANT = re.compile(r"(\w+)\s*(?:\((.*)\)|(\{.*\}))?", re.S)
FUNCTION = re.compile(
    r"\bfn (\w+)\s*(?:<[^>]*>)?\s*\(([^)]*)\)\s*(?:->\s*([^{}]+?))?\s*(?=\brequires\b|\bensures\b|\bghost\b|\{)")
CLAUSE = re.compile(r"\s*(requires|ensures|ghost)\b(\*?)[^{]*\{", re.S)
LIBRARY = "mir_walks"       # the crate that has the steps of all walks, and no code
LOCAL_ARRAY = re.compile(r"\blet\s+(?:mut\s+)?(\w+)\s*(?::[^=;]*(?:;[^=]*)?)?=\s*\[")


@dataclass
class Declaration:
    """A struct, with its parts as [(field, type)], or an enum, with its parts as [(variant, [type])].

    Fields have the names that a proof writes, and types are the source's text.
    """

    kind: str
    name: str
    crate: str
    module: list
    parts: list

    @property
    def path(self):
        return "::".join([self.crate, *self.module, self.name])

    @property
    def dotted(self):
        """Its module in the specs and the proofs, below the crate's."""
        return ".".join([*self.module, self.name])


@dataclass
class Function:
    """A function's signature and contract, which calls the answer `result`. Types are the source's text."""

    name: str
    crate: str
    module: list
    parameters: list
    result: str
    requires: str = None
    ensures: str = None
    has_other_clauses: bool = False
    local_arrays: list = field(default_factory=list)

    @property
    def path(self):
        return "::".join([self.crate, *self.module, self.name])

    @property
    def in_crate(self):
        """What the author calls it."""
        return "::".join([*self.module, self.name])

    @property
    def dotted(self):
        """Its module in the proofs, below the crate's."""
        return ".".join([*self.module, self.name])


class Sources:
    """The crate in a folder, and the crates of the repository that it depends on."""

    def __init__(self, folder):
        self.folder = folder.rstrip("/")
        crates_folder, self.crate = os.path.split(os.path.abspath(folder))
        self.root = os.path.dirname(crates_folder)
        if not os.path.isdir(os.path.join(self.folder, "src")):
            raise Refused(f"{self.folder} is no crate: it has no folder src")
        self.declarations, self.functions, self.methods, self.ghost_uses = {}, {}, set(), {}
        below = read_crates(os.path.join(self.root, "crates.txt"))
        self.named_crates = [self.crate, *below.get(self.crate, [])]
        self.crates = [self.crate]
        for crate in self.crates:
            for other in below.get(crate, []):
                if other not in self.crates and os.path.isdir(os.path.join(crates_folder, other, "src")):
                    self.crates.append(other)
        for crate in self.crates:
            self.read_crate(crate, os.path.join(crates_folder, crate, "src"))

    # ---- reading
    def read_crate(self, crate, folder):
        for here, inner, files in os.walk(folder):
            inner.sort()
            for file in sorted(files):
                if file.endswith(".rt"):
                    path = os.path.join(here, file)
                    self.read_file(texts.content(path), crate, module_of(os.path.relpath(path, folder)))

    def read_file(self, text, crate, module):
        text = re.sub(r"//[^\n]*", "", text)
        uses = re.findall(r"ghost use ([^;]*);", text)
        self.ghost_uses[(crate, *module)] = [" ".join(use.split()) for use in uses]
        for name, inside in STRUCT.findall(text):
            self.declare(Declaration("struct", name, crate, module, fields_of(inside)))
        for name, inside, _, _ in blocks_of(text, "enum"):
            self.declare(Declaration("enum", name.strip(), crate, module, variants_of(inside)))
        for head, inside, start, end in reversed(blocks_of(text, "impl")):
            owner = re.sub(r"<[^>]*>", "", head).split(" for ")[-1].strip()
            self.methods |= {"::".join([crate, *module, owner, name]) for name in re.findall(r"\bfn (\w+)", inside)}
            text = text[:start] + text[end:]
        for match in FUNCTION.finditer(text):
            function = function_of(match, text[match.end():], crate, module)
            self.functions[function.path] = function

    def declare(self, declaration):
        self.declarations[declaration.path] = declaration

    # ---- finding
    @staticmethod
    def modules(crate, part):
        """The path to a crate's specs or proofs."""
        return f"Rattle.{crate}.{part}."

    @property
    def library(self):
        """The path to the steps of a walk."""
        return self.modules(LIBRARY, "proofs")

    def own_functions(self):
        return [function for _, function in sorted(self.functions.items()) if function.crate == self.crate]

    def find(self, name):
        """A function of the crate that the author names: `tally`, or `a::tally`."""
        name = name.replace("/", "::")
        own = self.own_functions()
        hits = [f for f in own if f.in_crate == name] or [f for f in own if f.name == name]
        if len(hits) > 1:
            choice = " or ".join(function.in_crate for function in hits)
            raise Refused(f"several functions have the name {name}: say which, as {choice}")
        if hits:
            return hits[0]
        for method in sorted(self.methods):
            if method.split("::")[-1] == name.split("::")[-1] and method.startswith(self.crate + "::"):
                raise Refused(
                    f"{method} is a method, which walkgen does not walk: let it be a function with a name of its own")
        raise Refused(f"no function {name} in the sources of {self.crate}")

    def callee(self, path):
        if path in self.methods:
            raise Refused(f"a call of the method {path}: let a function with a name of its own do it")
        if path not in self.functions:
            raise Refused(
                f"a call of {path}, whose contract is in no source file of the crate or of the repository's crates "
                "that it depends on by `crates.txt`")
        return self.functions[path]

    def may_name(self, crate):
        """Whether a proof can name what is of this crate: of the repository's, those on the crate's own line."""
        return crate not in self.crates or crate in self.named_crates

    def require_named(self, crate, what):
        if not self.may_name(crate):
            raise Refused(
                f"the walk names {what}, of the crate {crate}: add {crate} to the line of {self.crate} in `crates.txt`")

    def require_library(self):
        if LIBRARY not in self.named_crates:
            raise Refused(f"a walk's steps stand in the crate {LIBRARY}: add it to the line of {self.crate} in `crates.txt`")

    def tag(self, function):
        """A function's name in a proof: with its path where two functions have one name."""
        alone = sum(other.name == function.name for other in self.functions.values()) == 1
        if alone or function.crate == self.crate and not function.module:
            return function.name
        return "-".join(function.path.split("::"))

    def symbol(self, function):
        """What a proof calls the symbol of a function."""
        return f"#{self.tag(function)}"


def read_crates(path):
    """{crate: [crates that it uses]} of a crates.txt, which need not be there."""
    below = {}
    for line in (texts.content(path) or "").split("\n"):
        crate, colon, others = line.split("#")[0].partition(":")
        if colon:
            below[crate.strip()] = others.split()
    return below


def module_of(file):
    """The module of a source file, `a/b.rt` or `a/b/mod.rt`; lib.rt and main.rt are the crate's own."""
    steps = file[:-len(".rt")].split(os.sep)
    if steps in (["lib"], ["main"]):
        return []
    return steps[:-1] if steps[-1] == "mod" else steps


# ---- parts of a source file
def fields_of(text):
    """[(field, type)]"""
    found = []
    for part in split_at_commas(text):
        name, _, type_ = re.sub(r"^pub(\([^)]*\))?\s+", "", part).partition(":")
        found.append((name.strip(), type_.strip()))
    return found


def variants_of(text):
    """[(variant, [type])]"""
    matches = [VARIANT.match(part) for part in split_at_commas(text)]
    return [(match.group(1), split_at_commas(match.group(2) or "")) for match in matches if match]


def function_of(match, behind, crate, module):
    """The function whose signature is matched; behind: the text from its clauses on."""
    parameters = [part.partition(":") for part in split_at_commas(match.group(2))]
    parameters = [(re.sub(r"^mut\s+", "", name.strip()), type_.strip()) for name, _, type_ in parameters]
    function = Function(match.group(1), crate, module, parameters, (match.group(3) or "()").strip())
    for clause in iter(lambda: CLAUSE.match(behind), None):
        kind, starred = clause.groups()
        end = end_of_block(behind, clause.end())
        if kind == "ghost" or starred or getattr(function, kind):
            function.has_other_clauses = True
        else:
            setattr(function, kind, " ".join(behind[clause.end():end - 1].split()))
        behind = behind[end:]
    body = re.match(r"\s*\{", behind)
    if body:
        function.local_arrays = LOCAL_ARRAY.findall(behind[:end_of_block(behind, body.end())])
    return function


def end_of_block(text, start):
    """Where the block ends that is open at start."""
    depth = 1
    while start < len(text) and depth:
        depth += {"{": 1, "}": -1}.get(text[start], 0)
        start += 1
    return start


def blocks_of(text, word):
    """[(head, inside, start, end)] of each `word head { inside }`"""
    found = []
    for match in re.finditer(r"\b%s\b([^{;]*)\{" % word, text):
        end = end_of_block(text, match.end())
        found.append((match.group(1), text[match.end():end - 1], match.start(), end))
    return found


def split_at_commas(text):
    """The parts between commas that stand in no bracket."""
    parts, depth = [""], 0
    for char in text:
        depth += {"(": 1, "[": 1, "<": 1, "{": 1, ")": -1, "]": -1, ">": -1, "}": -1}.get(char, 0)
        if char == "," and depth == 0:
            parts.append("")
        else:
            parts[-1] += char
    return [part.strip() for part in parts if part.strip()]
