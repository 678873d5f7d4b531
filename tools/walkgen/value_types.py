"""The types of a walk's values, and how a proof writes what it needs of each."""
from dataclasses import dataclass

from refusal import Refused
from terms import enclosed

WIDTHS = {"u8": "w8", "u16": "w16", "u32": "w32", "u64": "w64", "usize": "w64"}
BITS = {"w8": 8, "w16": 16, "w32": 32, "w64": 64}


@dataclass
class Type:
    """A type of Rattle.

    kind is one of num, bool, unit, struct, enum, slice, ref, array, or other for what a walk only passes by.
    name: of a number, a struct or an enum. element and mutable: of a slice, a reference or an array.
    lifetime: of a slice or a reference, as the MIR has it. length: of an array.
    """

    kind: str
    name: str = None
    element: "Type" = None
    mutable: bool = False
    lifetime: object = None
    length: str = None

    @property
    def is_declared(self):
        return self.kind in ("struct", "enum")

    @property
    def width(self):
        if self.name not in WIDTHS:
            raise Refused(f"a number of the type {self.name}")
        return WIDTHS[self.name]

    @property
    def bits(self):
        return BITS[self.width]

    @property
    def row(self):
        """The RattleType."""
        return {"num": self.name, "bool": "Boolean", "unit": "NoValue"}.get(self.kind, f"{self.name}-T.the_row")

    @property
    def denotation(self):
        """The type that its values have in the logic."""
        return {"num": "ℕ", "bool": "Bool", "unit": "Unit {0}"}.get(self.kind, self.name)

    # ---- laws of its values
    @property
    def laws(self):
        """The module of a declared type's laws."""
        return "SL" if self.kind == "struct" else "EL"

    def law(self, name):
        """A law of a declared type, by its name."""
        return f"{self.laws}.{name} {self.name}-T.the_type {self.name}-L.the_laws"

    def machine_value(self, term):
        """The machine value of a term."""
        if self.kind == "num":
            return f"vint {self.width} {enclosed(term)}"
        if self.kind == "bool":
            return f"vbool {enclosed(term)}"
        if self.kind == "unit":
            return "vunit"
        return f"{self.law('val')} {enclosed(term)}"

    def is_spelled(self, term):
        """The statement that a declared type's value is what the type says."""
        return f"Is {self.row} {term} ({self.law('vals')} {term})"

    @property
    def spelled(self):
        """The machine values of a value, as a function."""
        if self.kind == "num":
            return f"uint_vals {self.width}"
        return "bool_vals" if self.kind == "bool" else self.law("vals")

    @property
    def tells(self):
        """That the machine values are those that the type spells."""
        if self.kind == "num":
            return f"uint_Tells {self.width}"
        return "bool_Tells" if self.kind == "bool" else self.law("tells")

    @property
    def makes(self):
        """That a value's ownership is made from the fact that it is one."""
        if self.kind == "num":
            return f"uint_Makes 𝓛 {self.width}"
        if self.kind == "bool":
            return "bool_Makes 𝓛"
        if self.kind == "unit":
            return "Nothing-Makes 𝓛"
        return f"{self.laws}.makes {self.name}-T.the_type {self.name}-L.the_plain 𝓛"

    @property
    def lawful(self):
        """That a value's machine value is of the machine's type."""
        if self.kind == "num":
            return f"(uint_Lawful 𝓛 {self.width}).typed"
        if self.kind == "bool":
            return "(bool_Lawful 𝓛).typed"
        if self.kind == "unit":
            return "(Nothing-Lawful 𝓛).typed"
        has_variants = " tt" if self.kind == "enum" else ""
        return f"({self.law('lawful')} 𝓛{has_variants}).typed"

    # ---- what a `&` to elements of the type holds
    @property
    def row_laws(self):
        """That it can be had twice."""
        if self.kind == "num":
            return f"uint_row_laws {self.width}"
        return f"{self.name}-L.the_row_laws.shr_laws"

    @property
    def shares(self):
        """That it can be made of elements which are lent."""
        if self.kind == "num":
            return f"(copy_shared {self.name}-field {self.name}-copy).shares _ 𝓤 𝓛"
        return f"{self.name}-L.the_row_laws.shares 𝓛"

    def within(self, lifetime):
        """That a lifetime ends before those that a value of the type names."""
        return f"⊑_static {lifetime}" if self.kind == "num" else f"{self.name}-L.the_within {lifetime}"

    # ---- in the machine
    @property
    def cell(self):
        """The machine's type of a local."""
        if self.kind == "num":
            return f"ty_int {self.width}"
        if self.kind == "bool":
            return "ty_bool"
        if self.kind == "unit":
            return "ty_unit"
        if self.is_declared:
            return f"{self.name}-L.mir"
        if self.kind == "array":
            return f"ty_array {enclosed(self.element.cell)} {self.length}"
        if self.kind == "ref":
            return self.reference
        if self.kind == "slice":
            return f"slice_ty ({self.reference})"
        raise Refused(f"a local of the type {self.name}")

    @property
    def reference(self):
        lifetime = self.lifetime if isinstance(self.lifetime, str) else f"(named {self.lifetime[1]})"
        return f"ty_ref {lifetime} {'mut' if self.mutable else 'imm'} {self.element.pointed_to}"

    @property
    def pointed_to(self):
        """The type behind a reference, in which a declared type stands by its name."""
        if self.is_declared:
            return f"(pointee {self.name}-T.the_row.written)"
        if self.kind == "array":
            return f"(ty_array {self.element.pointed_to} {self.length})"
        return f"({self.cell})"
