"""The MIR of a crate, as `rt check --generated` writes it: read into trees, and shown for reading.

A tree is a word or a list of trees, as of `(assign (place 4 []) (rv_opd (int w64 0)))`. Mir/Syntax.antt of Rattle's
logic says what the constructors mean. The callee of a call is the tree `(callee "crate::module::name")`.
"""
import os
import re
import subprocess
import tempfile
from collections import namedtuple

import texts
from refusal import Refused
from value_types import Type

Routine = namedtuple("Routine", "local_types body")

TOKEN = re.compile(r'"[^"]*"|[(){}=;,]|[^\s(){}=;,]+')
DEFINITION = re.compile(r"^abbrev pub (\S+) :.*?^\1 =(.*?)(?=^abbrev |\Z)", re.M | re.S)
CALLEE = re.compile(r"^use Rattle\.(\w+)\.proofs\.(\S+)\.Symbol(?: as (\S+))?$", re.M)
SLICE = "&[]"


def of_crate(sources, folder=None):
    """{path: Routine} of a crate's functions; from a folder that `rt check --generated` wrote, or else by running it."""
    if folder:
        return read(sources.crate, folder)
    with tempfile.TemporaryDirectory() as folder:
        command = ["rt", "check", "--allow-holes", "--generated", folder]
        printed = subprocess.run(command, cwd=sources.folder, capture_output=True, text=True)
        routines = read(sources.crate, folder)
    if not routines:
        raise Refused(f"{' '.join(command[:3])}, in {sources.folder}: {(printed.stdout + printed.stderr).strip()}")
    return routines


def read(crate, folder):
    """The routines whose MIR stands in the folder, `Rattle-CRATE-proofs/MODULE/FUNCTION/Code/Mir.antt`."""
    routines = {}
    top = os.path.join(folder, f"Rattle-{crate}-proofs")
    for here, _, files in os.walk(top):
        if os.path.basename(here) == "Code" and "Mir.antt" in files:
            steps = os.path.relpath(os.path.dirname(here), top).split(os.sep)
            routines["::".join([crate, *steps])] = routine_of(texts.content(os.path.join(here, "Mir.antt")))
    return routines


def routine_of(text):
    """A module's function, with declared types by their names, in which each definition that it names is put in place."""
    callees = {alias or "Symbol": "::".join([crate, *steps.split(".")]) for crate, steps, alias in CALLEE.findall(text)}
    definitions = {}
    for name, term in DEFINITION.findall(text):
        definitions[name] = Reader(term, callees, definitions).term()
    function = definitions.get("by_name") or definitions["function"]
    return Routine([local[1] for local in items(function["locals"])], function["body"])


class Reader:
    """Reads a term of a printed module: an application, a record or a tuple."""

    def __init__(self, text, callees, definitions):
        self.tokens, self.place = TOKEN.findall(text), 0
        self.callees, self.definitions = callees, definitions

    @property
    def next(self):
        return self.tokens[self.place] if self.place < len(self.tokens) else ""

    def take(self):
        self.place += 1
        return self.tokens[self.place - 1]

    def term(self):
        """A word, or a word with its arguments."""
        parts = []
        while self.next not in ("", ")", "}", ";", ","):
            parts.append(self.argument())
        return parts[0] if len(parts) == 1 else parts

    def argument(self):
        token = self.take()
        if token == "(":
            return self.in_parentheses()
        if token == "record" and self.next == "{":
            return self.record()
        module, dot, name = token.rpartition(".")
        if name == "name" and module in self.callees:
            return ["callee", f'"{self.callees[module]}"']
        return self.definitions.get(token, name if dot else token)

    def in_parentheses(self):
        """A term, or a tuple of several."""
        parts = []
        while self.next != ")":
            parts.append(self.term())
            if self.next == ",":
                self.take()
        self.take()
        return parts[0] if len(parts) == 1 else ["tuple", *parts]

    def record(self):
        fields = {}
        self.take()
        while self.next != "}":
            name, _ = self.take(), self.take()      # the field, and `=`
            fields[name] = self.term()
            if self.next == ";":
                self.take()
        self.take()
        return fields


# ---- parts of a tree
def unquoted(word):
    return word.strip('"')


def kind_of(tree):
    return tree if isinstance(tree, str) else tree[0]


def items(tree):
    """The items of a list, `◌∷◌ a (◌∷◌ b [])`"""
    found = []
    while kind_of(tree) in ("◌∷◌", "tcons"):
        found.append(tree[1])
        tree = tree[2]
    return found


def name_of(tree):
    """The name of a declared type: a pair of its letters, as numbers, and its lifetimes."""
    return letters(tree[1])


def letters(tree):
    return "".join(chr(int(code)) for code in items(tree))


def statements(body):
    """The statements of a body, one after another."""
    found = []
    while kind_of(body) == "seq":
        found.append(body[1])
        body = body[2]
    return found + [body]


def arms(tree):
    """[(keys, body)] of a switch; keys is None at the default."""
    found = []
    while tree != "no_default":
        if tree[0] == "default":
            return found + [(None, tree[1])]
        found.append((items(tree[1]), tree[2]))
        tree = tree[3]
    return found


def nodes(trees):
    """The trees, and all that stand in them, in the order of the text; words are left out."""
    waiting = list(reversed(trees))
    while waiting:
        node = waiting.pop()
        if isinstance(node, list) and node:
            yield node
            waiting.extend(reversed(node))


def local_of(place):
    return int(place[1])


def bits_of(width):
    """The bits of a width, `w64`"""
    return int(width[1:])


def callee_of(call):
    """The path of the function that a call statement calls."""
    if kind_of(call[1]) != "callee":
        raise Refused("a call of a function with type parameters, or by a pointer: let a function without them do it")
    return unquoted(call[1][1])


def type_of(tree, types):
    """The type that a tree is; types finds the declared ones."""
    kind = kind_of(tree)
    if kind == "ty_bool":
        return Type("bool")
    if kind == "ty_unit":
        return Type("unit")
    if kind == "ty_int":
        return Type("num", f"u{bits_of(tree[1])}")
    if kind == "ty_named":
        return types.named(name_of(tree[1]))
    if kind == "ty_struct" and letters(tree[1]) == SLICE:
        return Type("slice", **reference_parts(items(tree[2])[0], types))
    if kind == "ty_ref":
        return Type("ref", **reference_parts(tree, types))
    if kind == "ty_array":
        length = tree[2] if isinstance(tree[2], str) else None
        return Type("array", element=type_of(tree[1], types), length=length)
    return Type("other", shown(tree))


def reference_parts(tree, types):
    return {"element": type_of(tree[3], types), "mutable": tree[2] == "mut", "lifetime": tree[1]}


# ---- for reading
def shown(tree):
    """A tree on one line, as a reader of Rattle would write it."""
    if isinstance(tree, str):
        return tree
    if not tree:
        return "()"
    kind = tree[0]
    if kind in ("◌∷◌", "tcons"):
        return "[" + ", ".join(shown(item) for item in items(tree)) + "]"
    if kind == "place":
        return "_" + tree[1] + "".join("." + shown_step(step) for step in items(tree[2]))
    if kind in ("copy", "rv_opd"):
        return shown(tree[1])
    if kind == "callee":
        return unquoted(tree[1])
    if kind == "ty_named":
        return name_of(tree[1])
    if kind == "ty_int":
        return f"u{bits_of(tree[1])}"
    if kind in ("int", "int_big"):
        return tree[2]
    if kind == "ty_struct" and letters(tree[1]) == SLICE:
        reference = items(tree[2])[0]
        return f"&{'mut ' if reference[2] == 'mut' else ''}[{shown(reference[3])}]"
    return "(" + " ".join(shown(part) for part in tree) + ")"


def shown_step(step):
    if step[0] == "deref":
        return "*"
    return "v" + step[1] if step[0] == "variant" else step[1]


def shown_body(body, indent):
    """The lines of a body."""
    deeper = indent + "  "
    for statement in statements(body):
        kind = kind_of(statement)
        if kind in ("block", "loop"):
            yield indent + kind
            yield from shown_body(statement[1], deeper)
        elif kind == "cond":
            yield f"{indent}if {shown(statement[1])}"
            yield from shown_body(statement[2], deeper)
            yield f"{indent}else"
            yield from shown_body(statement[3], deeper)
        elif kind == "assign":
            yield f"{indent}{shown(statement[1])} = {shown(statement[2])}"
        elif kind == "call":
            yield f"{indent}{shown(statement[3])} = {shown(statement[1])}{shown(statement[2])}"
        elif kind == "switch":
            yield f"{indent}switch {shown(statement[1])}"
            for keys, arm in arms(statement[2]):
                yield f"{indent} {'_' if keys is None else '[' + ', '.join(keys) + ']'} =>"
                yield from shown_body(arm, deeper)
        else:
            yield indent + shown(statement)
