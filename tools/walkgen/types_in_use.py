"""The declared types that one walk names. It imports each by its bare name, so no two of them may have one name."""
import re

from refusal import Refused
from value_types import WIDTHS, Type

SLICE = re.compile(r"&\s*('\w+\s+)?(mut\s+)?\[([^;]*)\]$")


class TypesInUse:
    """Finds a type by what the source or the MIR writes, and keeps each declared one with those in its parts."""

    def __init__(self, sources):
        self.sources = sources
        self.declarations = {}

    # ---- finding
    def in_source(self, text, place):
        """A type as a source file writes it; place: the function or the declaration that it stands in."""
        text = text.strip()
        if text in WIDTHS:
            return Type("num", text)
        if text == "bool":
            return Type("bool")
        if text in ("()", ""):
            return Type("unit")
        slice_ = SLICE.match(text)
        if slice_:
            return Type("slice", element=self.in_source(slice_.group(3), place), mutable=bool(slice_.group(2)))
        if not re.match(r"^[\w:]+$", text):
            raise Refused(f"the type {text}, of {place.path}")
        return self.named(text, place)

    def named(self, path, place=None):
        """A declared type by its path, or by what the source of place calls it."""
        declaration = self.sources.declarations.get(path) or self.declared(path, place)
        self.keep(declaration)
        return Type(declaration.kind, declaration.name)

    def declared(self, path, place):
        crate, module = (place.crate, place.module) if place else (self.sources.crate, None)
        steps = path.split("::")
        hits = [d for d in self.sources.declarations.values() if d.name == steps[-1]]
        if len(steps) > 1 and steps[0] in self.sources.crates:
            hits = [d for d in hits if d.crate == steps[0]]
        else:
            hits = [d for d in hits if d.crate == crate] or hits
        if len(hits) > 1:
            hits = [d for d in hits if d.module == module] or hits
        if not hits:
            raise Refused(f"a type that no source file declares: {path}")
        if len(hits) > 1:
            choice = ", ".join(d.path for d in hits)
            raise Refused(f"the type {path} may be any of {choice}: give one of them another name")
        return hits[0]

    def fields(self, name):
        """[(field, Type)] of a struct."""
        declaration = self.declarations[name]
        return [(field, self.in_source(text, declaration)) for field, text in declaration.parts]

    def variants(self, name):
        """[(variant, [Type])] of an enum."""
        declaration = self.declarations[name]
        return [(variant, [self.in_source(text, declaration) for text in parts])
                for variant, parts in declaration.parts]

    # ---- keeping
    def keep(self, declaration):
        """Keeps it, and the types of its parts, which the author's terms may name."""
        kept = self.declarations.get(declaration.name)
        if kept is declaration:
            return
        if kept:
            raise Refused(
                f"two types of one name, {kept.path} and {declaration.path}, in one walk, which imports each by its "
                "bare name: rename one")
        self.sources.require_named(declaration.crate, declaration.path)
        self.declarations[declaration.name] = declaration
        if declaration.kind == "enum":
            self.refuse_shared_variants(declaration)
            self.variants(declaration.name)
        else:
            self.fields(declaration.name)

    def refuse_shared_variants(self, declaration):
        variants = {variant for variant, _ in declaration.parts}
        for other in self.declarations.values():
            if other is not declaration and other.kind == "enum":
                shared = variants & {variant for variant, _ in other.parts}
                if shared:
                    raise Refused(
                        f"the enums {other.path} and {declaration.path} have a variant of one name, {min(shared)}, in "
                        "one walk, which imports it by that name: rename one")

    def imports(self):
        """What a proof may import: each type and its variants, and its laws as `Fence-T` and `Fence-L`."""
        lines = []
        for name, declaration in sorted(self.declarations.items()):
            specs = f"{self.sources.modules(declaration.crate, 'specs')}declared.{declaration.dotted}"
            contract = f"{self.sources.modules(declaration.crate, 'specs')}contracts.{declaration.dotted}"
            proofs = self.sources.modules(declaration.crate, "proofs") + declaration.dotted
            lines += [f"{specs}.{{{name}}}", f"{contract} as {name}-T", f"{proofs}.TheLaws as {name}-L"]
            if declaration.kind == "enum":
                variants = ", ".join(variant for variant, _ in declaration.parts)
                lines.append(f"{specs}.TheVariants.{{{variants}}}")
        return lines
