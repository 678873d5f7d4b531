"""Whether what stands in a crate's proofs, or in the library, is what walkgen writes."""
import os

import library
import proof
import texts
from refusal import Refused


class Check:
    """Generates a crate's walks, or the library, anew, in memory, and compares."""

    def __init__(self, sources):
        self.sources = sources
        self.functions = library.walked_functions(sources)
        self.differences = []       # a line for each

    def compare_proofs(self, read_routines):
        """read_routines reads the MIR, which is not asked for where there is no walk."""
        self.find_strays()
        if self.functions:
            self.compare_walks(read_routines())
        self.compare_thin_functions()

    def find_strays(self):
        """A walk.txt that is no function's, and a walk that has no walk.txt."""
        known = [library.walk_file(self.sources, function) for function in self.functions]
        for folder, inner, files in os.walk(library.in_proofs(self.sources)):
            inner.sort()
            path = os.path.join(folder, "walk.txt")
            if "walk.txt" in files and path not in known:
                self.differences.append(f"{path}: the sources have no such function")
        for function in self.sources.own_functions():
            if function not in self.functions and self.head(function) == proof.first_line(function):
                self.differences.append(f"{library.walk_file(self.sources, function)}: missing")

    def head(self, function):
        """The first line of a function's proof."""
        return texts.first_line(texts.content(library.proof_file(self.sources, function)) or "")

    def compare_walks(self, routines):
        for function in self.functions:
            try:
                walk = library.walk_of(self.sources, function, routines)
                self.compare(library.proof_file(self.sources, function), proof.Proof(walk).text())
            except Refused as refusal:
                self.differences.append(str(refusal))

    def compare_thin_functions(self):
        """The proofs that say that they are those of thin functions."""
        for function in self.sources.own_functions():
            for kind in library.THIN:
                if self.head(function) == library.thin_first_line(function, kind):
                    self.compare_thin(function, kind)

    def compare_thin(self, function, kind):
        path = library.proof_file(self.sources, function)
        try:
            self.compare(path, library.thin_text(self.sources, function, kind))
        except Refused as refusal:
            self.differences.append(f"{path}: {refusal}")

    def compare_library(self, shapes):
        for module, text in library.library_texts(self.sources, shapes).items():
            self.compare(library.library_file(self.sources, module), text)

    def compare(self, path, text):
        there = texts.content(path)
        if there is None:
            self.differences.append(f"{path}: missing")
        elif there != text:
            self.differences.append(f"{path}:{first_difference(there, text)}: not what walkgen writes")


def first_difference(there, text):
    """The number of the first line in which two texts differ."""
    number = 1
    for line, other in zip(there.split("\n"), text.split("\n")):
        if line != other:
            break
        number += 1
    return number
