"""walkgen: proofs of Rattle functions over slices of structs, written from their MIR.

    python3 tools/walkgen lib   crates/mir_walks       write the library that all walks of the repository cite
    python3 tools/walkgen thin  CRATE FN at|put    write the proof of a thin read or a thin write
    python3 tools/walkgen show  CRATE FN           print FN's MIR, and each key that its walk.txt may have
    python3 tools/walkgen walk  CRATE [FN ..]      write the proofs of FN .., or of all that have a walk.txt
    python3 tools/walkgen check CRATE              say whether the proofs are what walkgen writes; of crates/mir_walks the library

CRATE is a crate's folder, crates/NAME. FN is a function's name, with its module where that is needed: `a::insert`.
With --generated FOLDER the MIR is read from what `rt check --generated FOLDER` wrote, and rt is not run.
README.md, beside this file, says what a walk.txt holds.
"""
import argparse
import sys

sys.dont_write_bytecode = True      # a run leaves nothing behind in the folder of the tool

import library
import mir
import proof
from check import Check
from refusal import Refused
from sources import LIBRARY, Sources
from terms import replaced


def lib(sources, options):
    if sources.crate != LIBRARY:
        raise Refused(f"the library stands in crates/{LIBRARY}")
    shapes = library.shapes_in_use(sources)
    library.write_library(sources, shapes)
    print("shapes: " + " ".join(sorted(shape or "0" for shape in shapes | library.ALWAYS)))


def thin(sources, options):
    function = sources.find(options.function)
    library.write_proof(sources, function, library.thin_text(sources, function, options.kind))


def show(sources, options):
    routines = mir.of_crate(sources, options.generated)
    function = sources.find(options.function)
    walk_ = library.walk_of(sources, function, routines)
    for local, type_ in enumerate(routines[function.path].local_types):
        print(f"_{local}: {mir.shown(type_)}")
    for line in mir.shown_body(routines[function.path].body, "    "):
        print(line)
    print()
    for key, goal in walk_.author.goals:
        print(f"{key:12} {in_source_names(walk_, goal)}")


def walk(sources, options):
    routines = mir.of_crate(sources, options.generated)
    functions = [(name, sources.find(name)) for name in options.functions]
    if not functions:
        functions = [(function.in_crate, function) for function in library.walked_functions(sources)]
    for name, function in functions:
        walk_ = library.walk_of(sources, function, routines)
        library.write_proof(sources, function, proof.Proof(walk_).text())
        for key, goal in walk_.author.missing:
            print(f"{name}: to fill: {key}   {in_source_names(walk_, goal)}")
        for key in walk_.author.unused():
            print(f"{name}: not used: {key}")


def check(sources, options):
    comparison = Check(sources)
    if sources.crate == LIBRARY:
        comparison.compare_library(library.shapes_in_use(sources))
    else:
        comparison.compare_proofs(lambda: mir.of_crate(sources, options.generated))
    for line in comparison.differences:
        print(line)
    if comparison.differences:
        sys.exit(1)
    print("the library as generated" if sources.crate == LIBRARY else f"{len(comparison.functions)} walks as generated")


def in_source_names(walk_, goal):
    """A goal with the parameters' names as the source has them."""
    return replaced(goal, {other: name for name, other in walk_.proof_names.items()})


def parse(arguments):
    parser = argparse.ArgumentParser(prog="walkgen", usage=__doc__)
    commands = parser.add_subparsers(required=True, metavar="COMMAND", prog="walkgen")
    for command in (lib, thin, show, walk, check):
        words = commands.add_parser(command.__name__, usage=__doc__)
        words.set_defaults(command=command)
        words.add_argument("crate")
        if command in (thin, show):
            words.add_argument("function")
        if command is thin:
            words.add_argument("kind", choices=library.THIN)
        elif command is not lib:
            words.add_argument("--generated")
        if command is walk:
            words.add_argument("functions", nargs="*")
    return parser.parse_args(arguments)


def main(arguments):
    options = parse(arguments)
    try:
        options.command(Sources(options.crate), options)
    except Refused as refusal:
        sys.exit(f"walkgen: {refusal}")


if __name__ == "__main__":
    main(sys.argv[1:])
