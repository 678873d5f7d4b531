"""What a reader must believe: the definitions in specs/ that the contracts of the public calls and the theorems reach.

`python3 tests/believed.py` runs a self-test, prints a table and checks; with `--show` it prints all names, file by file.

A definition is reached if its name, or a constructor of it, stands in a root's text or in that of a definition which is
reached. A variable of the same name counts as its use: the number may come out too large by that, and never too small. A
field `x.f` reaches nothing more, since the signature that gives x names its type.
The lines of a definition are the `infix` right above it, its signature and its clauses. The line of a
`module _ (..) where` counts once, if a definition below it is reached. Comments, imports and blank lines do not count.
Structs and enums are read in src/: they are listed, and are no lines of specs/.
Nothing is passed over: a line that is not understood, or an import that leads nowhere, is an error.
"""
import re
import sys
import tempfile
from pathlib import Path

CALLS = {"packs": "pack unpack".split(), "index": "load query value insert update delete merge dump audit".split()}
THEOREMS = ["crates/history/specs/%s.antt" % name for name in ("History", "Promises", "Corollaries")]
# As many lines as were reached last, so that a definition more is seen. The aim is 750.
LIMIT = 868
# Files and folders that are not reached and yet serve no inner contract.
APART = {
    "crates/history/specs/Cases.antt": "the table of cases, which the number leaves out",
    "crates/print/specs": "what the printing program prints, read with that program",
    "crates/upbit/specs": "the calls under C names, read with those",
    "crates/fields/specs": "how the console reads numbers, read with the console",
    "crates/digits/specs": "hexadecimal digits, read with the programs",
}
NUMBER = r"([\d,]+) lines of definitions are reached from the calls, the history theorem and its corollaries"
SECTION = "## How to check this yourself in an hour"

HEAD = re.compile(r"((?:(?:abbrev|unfoldable|pub|mut|data|record)\s+)*)(\S+)\s+(\S+)")
USE = re.compile(r"^(?:ghost )?use\s+([^\s{]+)\.\{([^}]*)\};?$", re.M)
OURS = re.compile(r"Rattle\.(?!std\.)(\w+)\.specs\.(\S+)$")


class Unreadable(Exception):
    """A text that this script does not understand."""


def text_of(path):
    return path.read_text(encoding="utf-8")


def uses(code, scope):
    """What the words of a text stand for; comments, strings, `name =` and `name :` are no uses, nor is the field in `x.name`."""
    code = re.sub(r'(?m)(?:^|(?<=\s))--\s.*$|"[^"]*"|[^\s(){};,]+(?=\s[=:]\s)', " ", code)
    words = {word.split(".")[0] for word in re.split(r"[\s(){};,λ]+", code)}
    return {scope[word] for word in words if word in scope}


def spellings(name):
    """How a name stands in a text: `◌when◌` as `when`."""
    return {part for part in name.split("◌") if part} if "◌" in name else {name}


class Definition:
    """A definition, the telescope of a module, or a type that is declared in src/."""

    def __init__(self, name, kind, indent=0, modules=()):
        self.name, self.kind, self.indent = name, kind, indent
        self.lines, self.uses = [], set(modules)

    def names(self):
        """Its name, and the constructors of a data type. A module has none."""
        found = [re.match(r" {%d}(\S+) :\s" % (self.indent + 2), line) for line in self.lines if self.kind == "data"]
        return [self.name] * (self.kind != "module") + [match[1] for match in found if match]


class SpecsFile:
    """The definitions of one file, in their order and by their names."""

    def __init__(self, place, text):
        self.place, self.text, self.definitions = place, text, []
        self.read(USE.sub("", text).split("\n"))
        self.names = {name: definition for definition in self.definitions for name in definition.names()}

    def read(self, lines):
        modules, current, fixities = [], None, []
        for line in lines:
            indent, words = len(line) - len(line.lstrip()), line.split()
            if not words:
                fixities = []
            elif words[0].startswith("infix"):
                fixities.append(line)
            elif words[:2] != ["pub", "mod"] and not words[0].startswith("--"):
                if not current or indent <= current.indent:
                    modules = [module for module in modules if module.indent < indent]
                    current = self.begin(line, indent, modules, current)
                current.lines += fixities + [line]
                fixities = []
                if current.kind == "module" and words[-1] == "where":
                    modules, current = modules + [current], None

    def begin(self, line, indent, modules, current):
        """The definition that a line belongs to: it begins one, or a clause of the current one."""
        head = HEAD.match(line.strip())
        if head and (head[1] or head[3] == ":" or head[2] == "module"):
            kind = "module" if head[2] == "module" else (head[1].split() or [""])[-1]
            self.definitions.append(Definition(head[2], kind, indent, modules))
            return self.definitions[-1]
        if current and indent == current.indent and spellings(current.name) & set(line.split()):
            return current
        raise Unreadable("%s: cannot read: %s" % (self.place, line))


class Tree:
    """All specs files, what each definition uses, and what is reached."""

    def __init__(self, root, calls, theorems):
        self.root, self.types = Path(root), {}
        paths = {path.relative_to(self.root).as_posix(): path for path in sorted(self.root.glob("crates/*/specs/**/*.antt"))}
        self.files = {place: SpecsFile(place, text_of(path)) for place, path in paths.items()}
        for file in self.files.values():
            scope = self.scope_of(file.place, file.text)
            scope.update({word: file.names[name] for name in file.names for word in spellings(name)})
            for definition in file.definitions:
                definition.uses |= uses("\n".join(definition.lines), scope)
        self.reached, waiting = set(), self.roots(calls, theorems)
        while waiting:
            self.reached |= waiting
            waiting = {used for definition in waiting for used in definition.uses} - self.reached
        self.total = sum(len(definition.lines) for definition in self.reached)

    def scope_of(self, place, text):
        """What the imports of a text bring, by the words that stand for it there."""
        scope = {}
        if re.search(r"^(ghost )?use Rattle", USE.sub("", text), re.M):
            raise Unreadable("%s: cannot read an import" % place)
        for module, names in USE.findall(text):
            for item in re.findall(r"[^\s,][^,]*", names) if OURS.match(module) else []:
                name, _, other = item.strip().partition(" as ")
                scope.update({word: self.find(place, module, name) for word in spellings(other or name)})
        return scope

    def find(self, place, module, name):
        """The definition that an imported name leads to."""
        crate, path = OURS.match(module.replace(".TheVariants", "")).groups()
        if path.startswith("declared."):
            return self.types.setdefault((crate, path), Definition(path.replace("declared", crate), "type"))
        file = self.files.get("crates/%s/specs/%s.antt" % (crate, path.replace(".", "/")))
        if not file or name not in file.names:
            raise Unreadable("%s: found no %s.%s" % (place, module, name))
        return file.names[name]

    def roots(self, calls, theorems):
        """The theorem files' definitions, and what the contracts of the calls use. Just these calls are given out by lib.rt."""
        found = {definition for place in theorems for definition in self.files[place].definitions}
        for crate, names in calls.items():
            lines = re.findall(r"^pub use \w+::(?:(\w+)|\{([^}]*)\});", text_of(self.root / "crates" / crate / "src/lib.rt"), re.M)
            given = re.findall(r"\w+", " ".join(one or group for one, group in lines))
            if sorted(given) != sorted(names):
                raise Unreadable("%s gives out %s and not %s" % (crate, ", ".join(given), ", ".join(names)))
            found |= {definition for name in names for definition in self.contract(crate, name)}
        return found

    def contract(self, crate, call):
        """What the contract of a public function uses."""
        for path in self.root.glob("crates/%s/src/*.rt" % crate):
            found = re.search(r"^pub fn %s\([^{]*(?:requires|ensures) (.*?)^\{" % call, text_of(path), re.M | re.S)
            used = uses(found[1], self.scope_of(path.name, text_of(path))) if found else set()
            if used:
                return used
        raise Unreadable("found no contract of %s::%s" % (crate, call))

    def names(self, file, reached):
        """The names of a file's definitions that are reached, or of those that are not."""
        return [one.name for one in file.definitions if one.kind != "module" and (one in self.reached) == reached]


def is_in(place, paths):
    return any(place == path or place.startswith(path + "/") for path in paths)


def reading_path(readme):
    """The specs files and folders that README's reading path names."""
    section = re.split(r"^## ", readme.partition(SECTION)[2], flags=re.M)[0]
    return ["crates/" + path for path in re.findall(r"(?<!\w)(?:crates/)?(\w+/specs(?:/\w+)*(?:\.antt)?)", section)]


def faults(tree, limit, apart):
    """Everything that is not as it should be, a line each."""
    paths = reading_path(text_of(tree.root / "README.md"))
    for path in [*paths, *apart]:
        if not (tree.root / path).exists():
            yield "%s is named, and is not there" % path
    for place, file in tree.files.items():
        reached, unreached = tree.names(file, True), tree.names(file, False)
        inner = place.endswith("/Inner.antt")
        if inner and reached:
            yield "%s: reached, so no inner matter: %s" % (place, ", ".join(reached))
        if unreached and not inner and not is_in(place, apart):
            yield "%s: not reached, so an inner matter: %s" % (place, ", ".join(unreached))
        if reached and not is_in(place, paths):
            yield "%s: reached, and README.md's reading path does not lead there" % place
    promises = " ".join(text_of(tree.root / "docs/PROMISES.md").split())
    said = [int(number.replace(",", "")) for number in re.findall(NUMBER, promises)]
    if said != [tree.total]:
        yield "docs/PROMISES.md must say that %d lines of definitions are reached, and says %s" % (tree.total, said or "nothing of it")
    if tree.total > limit:
        yield "%d lines of definitions are reached, and at most %d may be" % (tree.total, limit)


def report(tree, show):
    """The files in three parts, with the lines that are reached and all lines."""
    for part, kind in (("as a whole", (True, False)), ("in part", (True, True)), ("not at all", (False, True))):
        print("reached %s:" % part)
        for place, file in tree.files.items():
            reached, unreached = tree.names(file, True), tree.names(file, False)
            if (bool(reached), bool(unreached)) == kind:
                lines = sum(len(one.lines) for one in tree.reached & set(file.definitions))
                print("%5d of %3d  %s" % (lines, sum(len(one.lines) for one in file.definitions), place))
                if show:
                    print("    reached: %s\n    not reached: %s" % (", ".join(reached), ", ".join(unreached)))
    print("%d lines reached" % tree.total)
    print("types of src/ that are reached: " + ", ".join(sorted(one.name for one in tree.reached if one.kind == "type")))


# The self-test: a made-up tree without a fault, in which 14 lines are reached; and edits, with what must then be found.
MADE_UP = {
    "crates/low/specs/Low.antt": """-- The file's first comment, which does not count.
use Rattle.low.specs.declared.Kind.{Kind}
use Rattle.low.specs.declared.Kind.TheVariants.{Odd}
infix 10 ◌when◌
-- a reason
pub data Check : Type 0 where
  ◌when◌ : Kind → ℕ → Check
-- ---- a heading, which does not count

module _ (kind : Kind) where
  -- two clauses
  abbrev pub first : ℕ → Type 0
  first zero = Odd when zero
  first (suc number) =
      kind when number""",
    "crates/low/specs/Inner.antt": """use Rattle.low.specs.Low.{\n    Check,\n    ◌when◌,\n}
abbrev pub hidden : Check → ℕ
hidden (kind when number) = number""",
    "crates/top/specs/Calls.antt": """use Rattle.low.specs.Inner.{hidden}
pub record Said : Type 0 where
  pub hidden : ℕ
-- what the call says; its `hidden` is a field
unfoldable pub outcome : ℕ → Said
outcome number = record { hidden = number }""",
    "crates/top/specs/Theorem.antt": """use Rattle.low.specs.Low.{first as begin}
abbrev pub Theorem : Type 0
Theorem = (kind : Kind) → begin kind 1 ≡ begin kind 1""",
    "crates/top/src/lib.rt": "pub use calling::{call};\n",
    "crates/top/src/calling.rt": """ghost use Rattle.top.specs.Calls.{outcome};
ghost use Rattle.low.specs.Inner.{hidden};
fn helper() ensures { hidden result }
pub fn call(number: u32) -> u32
    ensures { result
        ≡ (outcome number).hidden }
{""",
    "docs/PROMISES.md": "Just 14 lines of definitions are reached from\nthe calls, the history theorem and its corollaries.\n",
    "README.md": SECTION + "\n\nRead `crates/top/specs` and `low/specs/Low.antt`.\n\n## Use\n",
}
WRONG = [
    ("docs/PROMISES.md", "14", "15", "must say that 14 lines of definitions are reached, and says [15]"),
    ("README.md", "low/specs/Low.antt", "Low", "Low.antt: reached, and README"),
    ("README.md", "Low.antt", "Gone.antt", "Gone.antt is named, and is not there"),
    ("crates/low/specs/Low.antt", "module", "abbrev pub idle : ℕ\n\nmodule", "Low.antt: not reached, so an inner matter: idle"),
    ("crates/top/specs/Calls.antt", "= number", "= hidden number", "Inner.antt: reached, so no inner matter: hidden"),
    ("crates/top/specs/Calls.antt", "outcome number", "others number", "cannot read: others number"),
    ("crates/top/specs/Theorem.antt", "{first as", "{last as", "found no Rattle.low.specs.Low.last"),
    ("crates/top/src/calling.rt", "pub fn call", "pub fn recall", "found no contract of top::call"),
    ("crates/top/src/calling.rt", "outcome number", "number", "found no contract of top::call"),
    ("crates/top/src/calling.rt", "Calls.{outcome}", "Calls.outcome", "cannot read an import"),
    ("crates/top/src/lib.rt", "{call};", "{call, more};", "gives out call, more and not call"),
    ("crates/top/src/lib.rt", "{call};", "call;\npub use calling::more;", "gives out call, more and not call"),
]


def found_in(texts, limit):
    """What is found in a made-up tree."""
    with tempfile.TemporaryDirectory() as root:
        for place, text in texts.items():
            (Path(root) / place).parent.mkdir(parents=True, exist_ok=True)
            (Path(root) / place).write_text(text, encoding="utf-8")
        try:
            return "\n".join(faults(Tree(root, {"top": ["call"]}, ["crates/top/specs/Theorem.antt"]), limit, {}))
        except Unreadable as error:
            return str(error)


def self_test():
    assert found_in(MADE_UP, 14) == "", found_in(MADE_UP, 14)
    assert found_in(MADE_UP, 13) == "14 lines of definitions are reached, and at most 13 may be"
    for place, old, new, said in WRONG:
        found = found_in({**MADE_UP, place: MADE_UP[place].replace(old, new)}, 14)
        assert said in found, (place, new, found)


if __name__ == "__main__":
    self_test()
    whole = Tree(".", CALLS, THEOREMS)
    report(whole, "--show" in sys.argv)
    wrong = list(faults(whole, LIMIT, APART))
    print("\n".join(wrong) or "every definition stands where it belongs")
    sys.exit(1 if wrong else 0)
