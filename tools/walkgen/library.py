"""The files that walkgen writes: the walks, the thin reads and writes, and the library that all of them cite."""
import os
import re

import combinators
import proof
import texts
from author import WalkFile
from refusal import Refused
from types_in_use import TypesInUse
from walk import Walk

COPIED = ("Bytes", "Flow", "Front", "Lend", "Local")
ALWAYS = {"s", "m", "v", "vm"}      # the shapes of a call that the library has at least
KEPT = "shapes.txt"                 # the file of the library's crate that has the shapes which it keeps
THIN = ("at", "put")                # the kinds of thin functions: a read, a write


def in_proofs(sources, *steps):
    return os.path.join(sources.folder, "proofs", *steps)


# ---- walks
def walk_file(sources, function):
    return in_proofs(sources, *function.module, function.name, "walk.txt")


def proof_file(sources, function):
    return in_proofs(sources, *function.module, function.name, "Proof.antt")


def walked_functions(sources):
    """The crate's functions that have a walk.txt."""
    return [function for function in sources.own_functions() if os.path.exists(walk_file(sources, function))]


def walk_of(sources, function, routines):
    """The walk of a function by its walk.txt, if it has one."""
    try:
        return Walk(sources, function, routines, WalkFile(walk_file(sources, function)))
    except Refused as refusal:
        raise Refused(f"{function.path}: {refusal}") from refusal


# ---- thin functions
def thin_first_line(function, kind):
    """The line by which a file says that it is the proof of a thin function."""
    line = texts.first_line(texts.kept(f"thin_{kind}.antt.txt"))
    return line.replace("@CRATE@", function.crate).replace("@FUNCTION@", function.name)


def thin_text(sources, function, kind):
    """The proof of a thin read or write, at a struct of two `u32`."""
    types = TypesInUse(sources)
    first = types.in_source(function.parameters[0][1], function) if function.parameters else None
    if first is None or first.kind != "slice" or first.element.kind != "struct":
        raise Refused(f"the first parameter of {function.path} is no slice of structs")
    struct = types.declarations[first.element.name]
    if [text for _, text in struct.parts] != ["u32", "u32"]:
        raise Refused(f"{struct.path} is no struct of two u32")
    specs = sources.modules(struct.crate, "specs")
    gaps = {
        "CRATE": sources.crate,
        "LIBRARY": sources.library,
        "FUNCTION": function.name,
        "PATH": function.dotted,
        "TAG": function.name,
        "STRUCT": struct.name,
        "DECLARED": f"{specs}declared.{struct.dotted}",
        "CONTRACT": f"{specs}contracts.{struct.dotted}",
        "LAWS": f"{sources.modules(struct.crate, 'proofs')}{struct.dotted}.TheLaws",
        "FIELD0": struct.parts[0][0],
        "FIELD1": struct.parts[1][0],
    }
    text = texts.kept(f"thin_{kind}.antt.txt")
    for gap, filling in gaps.items():
        text = text.replace(f"@{gap}@", filling)
    return text


def write_proof(sources, function, text):
    """Writes a Proof.antt, but not over one that walkgen did not write."""
    path = proof_file(sources, function)
    existing = texts.content(path)
    own = [proof.first_line(function), *(thin_first_line(function, kind) for kind in THIN)]
    if existing is not None and texts.first_line(existing) not in own:
        raise Refused(f"{path} is not one that walkgen wrote: remove it first")
    texts.write(path, text)


# ---- the library
def shapes_in_use(sources):
    """The shapes of calls that the library keeps, and those in all walks of the repository, as they are written."""
    kept = (texts.content(os.path.join(sources.folder, KEPT)) or "").split("\n")
    shapes = combinators.shapes_named(" ".join(line for line in kept if not line.startswith("#")))
    for folder, _, files in os.walk(os.path.join(sources.root, "crates")):
        if "walk.txt" in files:
            text = texts.content(os.path.join(folder, "Proof.antt")) or ""
            used = re.search(rf"^use Rattle\.{sources.crate}\.proofs\.Calls\.\{{.*\}}$", text, re.M)
            shapes |= combinators.shapes_named(used.group()) if used else set()
    return shapes


def library_texts(sources, shapes):
    """{module: text} of the library, with the combinators for these shapes of calls."""
    found = {name: texts.kept(f"{name}.antt.txt") for name in COPIED}
    found["Calls"] = combinators.file_text(texts.kept("Calls.antt.txt"), ALWAYS | shapes)
    found = {name: text.replace("@LIBRARY@", sources.library) for name, text in found.items()}
    found["Lib"] = "".join(f"pub mod {name}\n" for name in sorted(found))
    return found


def library_file(sources, module):
    return in_proofs(sources, f"{module}.antt")


def write_library(sources, shapes):
    for module, text in library_texts(sources, shapes).items():
        texts.write(library_file(sources, module), text)
